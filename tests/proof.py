#!/usr/bin/env python3
"""Makes docs/PROOF.md of docs/claims, its head of head.txt there, and fails where that page is another.

usage: proof.py [--write]     with --write the page is written, without it compared

In the head, which is written by hand, a name in braces is a count. Below it each crate, in the order of crates.txt, has
the number of its promises. Below that are the note of each that is proved, behind its `calls`, and each other promise
with its note. At the end are the sentences that several notes have, and the crates with tests of their faults' words.
"""
import os
import re
import sys
from collections import Counter

import claims

HEAD, PAGE = os.path.join(claims.FOLDER, claims.HEAD), os.path.join(claims.ROOT, "docs", "PROOF.md")
WORDS = " have their words"


def text_of(*path):
    with open(os.path.join(claims.ROOT, *path), encoding="utf-8") as file:
        return file.read()


def lines(crates, *parts):
    """How many lines these parts of the crates have, to the nearest thousand."""
    found = [it for crate in crates for part in parts for it in os.walk(os.path.join(claims.CRATES, crate, part))]
    return "{:,}".format(round(sum(text_of(base, name).count("\n") for base, _, names in found for name in names), -3))


def edits(part):
    folders = [os.path.join(claims.CRATES, crate, part) for crate in os.listdir(claims.CRATES)]
    return sum(name.endswith(".edit") for folder in folders if os.path.isdir(folder) for name in os.listdir(folder))


def notes(block):
    """The sentences of a promise's note."""
    return [it for it in re.split(r"(?<=\.) ", block.get("note", "")) if it]


def of(block):
    return "`%s`" % (block.get("calls") or block["clauses"]).replace("`", "")


def is_worded(block):
    return block["promise"].endswith(WORDS) and not block.get("note")


def limit(block, often):
    """What the page says of a promise that is not simply proved, or nothing."""
    said = " ".join(it for it in notes(block) if it not in often)
    if block["state"] == "proved":
        return said and "  - %s: %s" % (of(block), said)
    return "  - *%s*: %s" % (block["state"], block["promise"] + (said and " (%s)" % said))


def page():
    crates = [line.split(":")[0] for line in text_of("crates.txt").split("\n") if ":" in line and line[0] != "#"]
    tests = [crate for crate in crates if crate.startswith("test_")]
    ours = [crate for crate in crates if crate not in tests]
    homes = {home: claims.promises(os.path.join(claims.FOLDER, home + ".txt"), []) for home in ["headline"] + ours}
    blocks = [block for told in homes.values() for block in told]
    states = Counter(block["state"] for block in blocks)
    often = [said for said, count in Counter(said for block in blocks for said in notes(block)).items() if count > 1]
    out = [text_of(HEAD).format(
        promises=len(blocks), proved=states["proved"], tested=states["tested only"], open=states["open"],
        crates=len(crates), of_tests=len(tests), must_fail=edits("must-fail"), wrong=edits("wrong-bodies"),
        code=lines(ours, "src"), specs=lines(ours, "specs"), proofs=lines(ours, "proofs"),
        test_lines=lines(tests, "src", "specs", "proofs"))]
    for home, told in homes.items():
        out.append("- [%s](claims/%s.txt): %d" % (home, home, len(told)))
        out += filter(None, (limit(block, often) for block in told if not is_worded(block)))
    for said in often:
        where = [home + " " + of(it) for home, told in homes.items() for it in told if said in notes(it)]
        out.append("- %s: %s" % (", ".join(dict.fromkeys(where)), said))
    worded = [home for home, told in homes.items() if any(map(is_worded, told))]
    return "\n".join(out + ["- *tested only*: the words of the faults of %s" % ", ".join(worded)]) + "\n"


def main(words):
    made = page()
    if words == ["--write"]:
        with open(PAGE, "w", encoding="utf-8") as file:
            file.write(made)
    elif made != text_of(PAGE):
        print("docs/PROOF.md is not what docs/claims makes: run tests/proof.py --write", file=sys.stderr)
        return 1
    print("docs/PROOF.md: %d words" % len(made.split()))
    return 0


if __name__ == "__main__":
    sys.exit(main(sys.argv[1:]))
