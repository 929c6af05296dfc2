#!/usr/bin/env python3
"""What `rt ci` refuses by the text alone, found in seconds in place of an hour.

usage: layout.py [CRATE ..]     every crate, or those named

Each crate must be as `rt fmt` lays it out, and each old text of a wrong body must occur exactly once in the file that it
changes. `rt fmt` lays out a copy: no file here is changed. Outside the tests no function has more than six parameters, `self`
among them. It ends with 1 and says where, if one of these does not hold.
"""
import pathlib
import re
import shutil
import subprocess
import sys
import tempfile
from concurrent.futures import ThreadPoolExecutor

ROOT = pathlib.Path(__file__).resolve().parent.parent
PARTS = ["src", "specs", "proofs"]
MOST = 6
GIVEN = {"run_on_feed"}  # whose signature is given


def texts_of(folder):
    """The texts of a crate's sources, by their path in the crate."""
    files = [file for part in PARTS for file in sorted((folder / part).rglob("*")) if file.is_file()]
    return {str(file.relative_to(folder)): file.read_text(encoding="utf-8") for file in files}


def badly_laid_out(crate):
    """The files of a crate that `rt fmt` would change."""
    before = texts_of(crate)
    with tempfile.TemporaryDirectory() as room:
        copy = pathlib.Path(room) / "crates" / crate.name
        for part in PARTS:
            if (crate / part).is_dir():
                shutil.copytree(crate / part, copy / part)
        shutil.copy(ROOT / "crates.txt", room)
        ran = subprocess.run(["rt", "fmt"], cwd=copy, capture_output=True, text=True)
        if ran.returncode:
            return ["%s: rt fmt failed: %s" % (crate.name, (ran.stdout + ran.stderr).strip()[-400:])]
        after = texts_of(copy)
    return ["%s/%s: not as rt fmt lays it out" % (crate.name, path) for path in before if before[path] != after.get(path)]


def edits_of(crate):
    """A crate's wrong bodies, those with a name in the subject and the others."""
    return [edit for part in ["must-fail", "wrong-bodies"] for edit in sorted((crate / part).glob("*.edit"))]


def unlike_their_files(crate):
    """What of a crate's wrong bodies cannot be applied."""
    found = []
    for edit in edits_of(crate):
        where = "%s/%s/%s" % (crate.name, edit.parent.name, edit.name)
        path, texts, old, pairs = None, {}, None, 0
        for line in edit.read_text(encoding="utf-8").split("\n"):
            if line.startswith("file: "):
                path = line.removeprefix("file: ").strip()
                if not (crate / path).is_file():
                    found.append("%s: there is no %s" % (where, path))
                    break
                texts.setdefault(path, (crate / path).read_text(encoding="utf-8"))
            elif line.startswith("old: "):
                old = line.removeprefix("old: ")
            elif line.startswith("new:") and path is not None and old is not None:
                stands = texts[path].count(old)
                if stands != 1:
                    found.append("%s: `%s` stands %d times in %s" % (where, old.strip(), stands, path))
                texts[path] = texts[path].replace(old, line.removeprefix("new:").removeprefix(" "))
                pairs += 1
        if not pairs:
            found.append("%s: it changes nothing" % where)
    return found


def parameters(text, at):
    """How many parameters a list has that begins here."""
    depth, count, last = 1, 0, ""
    for place in range(at, len(text)):
        ch = text[place]
        depth += (ch in "([{<") - (ch in ")]}" or ch == ">" and text[place - 1] != "-")
        if depth == 0:
            return count + (last not in ("", ","))
        count += ch == "," and depth == 1
        last = ch if not ch.isspace() else last


def long_lists(crate):
    """The functions of a crate with more parameters than that."""
    if crate.name.startswith("test_"):
        return []
    heads = [(file, text, it) for file in sorted((crate / "src").rglob("*.rt")) for text in [file.read_text(encoding="utf-8")]
             for it in re.finditer(r"\bfn (\w+)(?:<[^(]*>)?\(", text)]
    counts = [(file, it[1], parameters(text, it.end())) for file, text, it in heads if it[1] not in GIVEN]
    return ["%s: `%s` has %d parameters" % (file.relative_to(crate.parent), name, count) for file, name, count in counts if count > MOST]


def main(names):
    crates = [it for it in sorted((ROOT / "crates").iterdir()) if it.is_dir() and (not names or it.name in names)]
    with ThreadPoolExecutor(4) as lanes:
        found = [line for lines in lanes.map(badly_laid_out, crates) for line in lines]
    found += [line for crate in crates for line in unlike_their_files(crate) + long_lists(crate)]
    for line in found:
        print("layout: " + line)
    print("%d crates laid out, %d wrong bodies: %d faults" % (len(crates), sum(len(edits_of(it)) for it in crates), len(found)))
    return 1 if found else 0


if __name__ == "__main__":
    sys.exit(main(sys.argv[1:]))
