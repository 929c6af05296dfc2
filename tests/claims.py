#!/usr/bin/env python3
"""Reads docs/claims/*.txt and fails where a function, a clause, an edit or a test that they name is not in the sources.

A file is a list of promises, blocks of labelled lines apart from one another by empty lines. A line that begins with a
space continues the one before, and a label may stand more than once. The labels:

  promise  what is promised, in words
  calls    on which calls
  clauses  `function/clause`, or `function` where its contract has one clause or all are meant; `Type::function/clause`
           where several types have a function of that name, or a type and no type
  edits    wrong bodies that these clauses refuse: files NAME.edit of the crate's must-fail, which `rt ci` tries, or of its
           wrong-bodies, which tests/wrong_bodies.py tries
  tests    test functions of the crate, or files of this repository (a name with a dot)
  note     what limits the promise: what no clause says, or what is weaker than one would wish (on the page, docs/PROOF.md)
  aside    what else a reader must know, which limits nothing
  state    `proved`, `tested only` or `open`

Names stand apart by spaces. A name of another crate begins with it, as `desk_held::add/full`, `desk_held/edit` and
`desk_held::test`; other names are of the crate whose name the file has. Each edit of each crate stands in a promise, and
each function that a crate shows to others is named in a `calls` or `clauses` line, or in UNNAMED with the reason. `--page` prints the promises as a page in place of the counts.
"""
import os
import re
import sys

ROOT = os.path.dirname(os.path.dirname(os.path.abspath(__file__)))
CRATES, FOLDER = os.path.join(ROOT, "crates"), os.path.join(ROOT, "docs", "claims")
HEAD = "head.txt"  # the head of docs/PROOF.md, which is no list of promises
STATES = {"proved": "clauses", "tested only": "tests", "open": None}
LABELS = ("promise", "calls", "clauses", "edits", "tests", "note", "aside", "state")
EDITS = ("must-fail", "wrong-bodies")
WIDEST, LONGEST = 120, 40
SEEN = {}
UNNAMED = {}  # a function, as `desk_held::Held::add`, with the reason why no promise names it


def sources(crate):
    """The texts of the crate's source files."""
    if crate not in SEEN:
        SEEN[crate] = []
        for base, _, names in os.walk(os.path.join(CRATES, crate, "src")):
            for name in sorted(names):
                if name.endswith(".rt"):
                    with open(os.path.join(base, name), encoding="utf-8") as file:
                        SEEN[crate].append(file.read())
    return SEEN[crate]


def without_parameters(said):
    """What follows the parameters in angle brackets that a text begins with."""
    said, depth = said.lstrip(), 0
    for place, letter in enumerate(said):
        depth += {"<": 1, ">": -1}.get(letter, 0)
        if depth == 0:
            return said[place + 1:] if letter == ">" else said
    return said


def owners(text):
    """The type or trait of each `impl` and `trait` block, with the places of its braces."""
    out = []
    for found in re.finditer(r"^(?:pub )?(?:impl|trait)\b([^{;]*)\{", text, re.M):
        said = re.sub(r"\bwhere\b.*", "", found.group(1), flags=re.S)
        said = without_parameters(said).split(" for ")[-1]
        name = re.match(r"\s*(?:\w+::)*(\w+)", said)
        end = re.compile(r"^\}", re.M).search(text, found.end())
        out.append((name.group(1) if name else "", found.end(), end.start() if end else len(text)))
    return out


def contracts(crate, function):
    """For each `fn function` the type or trait that it stands in, or none, and its signature with its clauses."""
    out = []
    for text in sources(crate):
        for found in re.finditer(r"\bfn %s\b" % re.escape(function), text):
            end = re.compile(r"^\s*(?:\{\}?|\{.*\})\s*$|;\s*$", re.M).search(text, found.end())
            owner = [name for name, start, stop in owners(text) if start <= found.start() < stop]
            out.append((owner[-1] if owner else None, text[found.start():end.end() if end else len(text)]))
    return out


def public(crate):
    """The functions that other crates can call, each with its type or trait: those of the crate's first file, of its public
    modules, and those that it gives on by `pub use`, alone or with their type or trait."""
    folder = os.path.join(CRATES, crate, "src")
    files = [os.path.join(base, name) for base, _, names in os.walk(folder) for name in names if name.endswith(".rt")]
    if crate.startswith("test_") or os.path.join(folder, "lib.rt") not in files:
        return []
    texts = {os.path.relpath(path, folder)[:-3]: open(path, encoding="utf-8").read() for path in files}
    whole = {"lib"} | set(re.findall(r"^pub mod (\w+);", texts["lib"], re.M))
    given = set(re.findall(r"\w+", " ".join(re.findall(r"^pub (?:use|struct|enum) ([^;{(<]+(?:\{[^}]*\})?)", texts["lib"], re.M))))
    out = []
    for module, text in sorted(texts.items()):
        for found in re.finditer(r"^ *(pub )?(?:const )?fn (\w+)", text, re.M):
            owner = [it for it, start, stop in owners(text) if start <= found.start() < stop][-1:]
            shown = found.group(1) or owner and re.search(r"^pub trait %s\b" % owner[0], text, re.M)
            if shown and (module in whole or (owner or [found.group(2)])[0] in given):
                out.append("::".join(owner + [found.group(2)]))
    return out


def clause(crate, name):
    path, slash, word = name.partition("/")
    parts = path.split("::")
    found = contracts(crate, parts[-1])
    if len(parts) > 2 or not all(parts) or (slash and not word):
        return "%s is no name of a clause" % name
    if len(parts) == 2:
        found = [(owner, text) for owner, text in found if owner == parts[0]]
    elif any(owner is None for owner, _ in found):
        found = [(owner, text) for owner, text in found if owner is None]
    if not found:
        return "no function %s in %s" % (path, crate)
    if len({owner for owner, _ in found}) > 1:
        return "%s is a function of %s" % (path, " and of ".join(sorted(owner or "none" for owner, _ in found)))
    wanted = r"\bensures %s\b" % re.escape(word) if word else r"\bensures\b"
    if not any(re.search(wanted, text) for _, text in found):
        return "no clause %s in %s" % (name, crate)
    return None


def folder_of(crate, name):
    """The folder of a crate that has the edit, or none."""
    return next((it for it in EDITS if os.path.isfile(os.path.join(CRATES, crate, it, name + ".edit"))), None)


def edit(crate, name):
    return None if folder_of(crate, name) else "no edit %s in %s" % (name, crate)


def test(crate, name):
    if "." in name:
        return None if os.path.exists(os.path.join(ROOT, name)) else "no file %s" % name
    word = r"#\[test\]\s*(?:#\[[^\n]*\]\s*)*fn %s\b" % re.escape(name)
    return None if any(re.search(word, text) for text in sources(crate)) else "no test %s in %s" % (name, crate)


CHECKS = {"clauses": (clause, "::"), "edits": (edit, "/"), "tests": (test, "::")}


def is_crate(name):
    return re.fullmatch(r"\w+", name) and os.path.isdir(os.path.join(CRATES, name))


def crate_of(home, name, mark):
    """The crate of a name, and the name in it: the crate that it begins with, or the one whose file it stands in."""
    first, found, rest = name.partition(mark)
    return (first, rest) if found and is_crate(first) else (home, name)


def promises(path, faults):
    """The blocks of a file: each the number of its first line and, of each label, the words that it has."""
    out, block, label = [], None, None
    with open(path, encoding="utf-8") as file:
        lines = file.read().split("\n")
    for number, line in enumerate(lines, 1):
        where = "%s:%d" % (os.path.relpath(path, ROOT), number)
        if len(line) > WIDEST:
            faults.append("%s: a line of more than %d characters" % (where, WIDEST))
        if not line.strip():
            block = None
            continue
        if block is None:
            block, label = {"where": where, "lines": 0}, None
            out.append(block)
        block["lines"] += 1
        begun = re.match(r"(\w+):(?: (.*))?$", line)
        if begun and begun.group(1) in LABELS:
            label, line = begun.group(1), begun.group(2) or ""
        elif label is None or not line.startswith(" "):
            faults.append("%s: no label of a promise" % where)
            continue
        block[label] = (block.get(label, "") + " " + line.strip()).strip()
    return out


def functions(block, home):
    """The functions that a promise names, each with its crate, and with its type where that is named."""
    out = set()
    for word in re.findall(r"[\w:]+", re.sub(r"/\w+", "", "%s %s" % (block.get("calls"), block.get("clauses")))):
        crate, rest = crate_of(home, word, "::")
        parts = rest.split("::")
        out.add((crate, "::".join(it for it in parts[-2:] if it[:1].isupper() or it is parts[-1])))
    return out


def judged(block, home, counts, named):
    """The faults of a promise; counts what it names, and notes its edits."""
    faults, state = [], block.get("state")
    if not block.get("promise") or state not in STATES:
        faults.append("a promise without words, or without a state that there is")
    elif STATES[state] and not block.get(STATES[state]):
        faults.append("%s, and no %s" % (state, STATES[state]))
    if block["lines"] > LONGEST:
        faults.append("a promise of more than %d lines" % LONGEST)
    for label, (check, mark) in CHECKS.items():
        for name in block.get(label, "").split():
            counts[label] += 1
            crate, rest = crate_of(home, name, mark)
            if crate is None and "." not in name:
                faults.append("%s is of no crate" % name)
                continue
            fault = check(crate, rest)
            faults += [fault] if fault else []
            if label == "edits":
                named.add((crate, folder_of(crate, rest), rest))
    return ["%s: %s" % (block["where"], fault) for fault in faults]


def page(files):
    print("# What is promised, and what carries it\n")
    print("Made from `docs/claims` by `python3 tests/claims.py --page`.")
    for home, blocks in files:
        print("\n## %s" % home)
        for block in blocks:
            print("\n**%s** (%s)\n" % (block.get("promise"), block.get("state")))
            for label in LABELS[1:-1]:
                if block.get(label):
                    words = block[label]
                    said = " ".join("`%s`" % word for word in words.split()) if label in CHECKS else words
                    print("- %s: %s" % (label, said))


def main(words):
    faults, counts, named, called, files, said = [], dict.fromkeys(CHECKS, 0), set(), set(), [], set()
    for name in sorted(set(os.listdir(FOLDER)) - {HEAD}):
        home, ending = os.path.splitext(name)
        if ending != ".txt":
            faults.append("docs/claims/%s is no list of promises" % name)
            continue
        blocks = promises(os.path.join(FOLDER, name), faults)
        files.append((home, blocks))
        for block in blocks:
            faults += judged(block, home if is_crate(home) else None, counts, named)
            called |= functions(block, home)
            if block.get("promise") in said:
                faults.append("%s: this promise stands twice" % block["where"])
            said.add(block.get("promise"))
    for crate in sorted(os.listdir(CRATES)):
        for name in public(crate):
            if not {(crate, name), (crate, name.split("::")[-1])} & called and "%s::%s" % (crate, name) not in UNNAMED:
                faults.append("%s::%s stands in no `calls` and no `clauses`" % (crate, name))
        for part in EDITS:
            folder = os.path.join(CRATES, crate, part)
            for name in sorted(os.listdir(folder)) if os.path.isdir(folder) else []:
                if name.endswith(".edit") and (crate, part, name[:-5]) not in named:
                    faults.append("the edit %s/%s/%s stands in no promise" % (crate, part, name[:-5]))
    for fault in faults:
        print(fault, file=sys.stderr)
    if words == ["--page"]:
        page(files)
    else:
        told = len(said), counts["clauses"], counts["edits"], counts["tests"]
        print("%d promises: %d clauses, %d edits, %d tests named" % told)
    return 1 if faults else 0


if __name__ == "__main__":
    sys.exit(main(sys.argv[1:]))
