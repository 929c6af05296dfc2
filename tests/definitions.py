#!/usr/bin/env python3
"""Reads docs/DEFINITIONS.md and docs/DESIGN.md and fails where a name or a file that they give is not in the sources.

In a table of DEFINITIONS the column `name` has words of the crates that the heading above it names (of desk_ops, where it
names none), the column `file` the files of their specs/ without the ending, and `law` functions of their sources, or of
another crate whose name is before them; each table has its heads. In DESIGN each file is a path below crates/, or a name
of a file in the folder that is named before it. Each crate of crates.txt has one row there, in that order, and those of
tests have one in a table of their own. On every page a path, or a name like a crate's, is that of something that is there.
"""
import glob
import os
import re
import sys

ROOT = os.path.dirname(os.path.dirname(os.path.abspath(__file__)))
CRATES = os.path.join(ROOT, "crates")
SEEN = {}


def text_of(*names):
    with open(os.path.join(ROOT, *names), encoding="utf-8") as file:
        return file.read()


def sources(crate, folder, ending):
    """The texts of a crate's files in one of its folders, by their names without the ending."""
    key = (crate, folder)
    if key not in SEEN:
        SEEN[key] = {}
        for base, _, names in os.walk(os.path.join(CRATES, crate, folder)):
            for name in names:
                if name.endswith(ending):
                    SEEN[key][name[:-len(ending)]] = text_of(base, name)
    return SEEN[key]


def has(texts, name):
    return any(re.search(r"(?<![\w.])%s\b" % re.escape(name), text) for text in texts)


def row_faults(crates, row):
    """What a row names and is not there."""
    specs = {}
    for crate in crates:
        for name, text in sources(crate, "specs", ".antt").items():
            specs[name] = specs.get(name, "") + text
    code = [text for crate in crates for text in sources(crate, "src", ".rt").values()]
    for name in re.findall(r"`([^`]+)`", row["name"]):
        if not has(list(specs.values()) + code, name):
            yield "no word %s in %s" % (name, " and ".join(crates))
    for name in re.findall(r"[A-Z]\w+", row["file"]):
        if name not in specs:
            yield "no file specs/%s.antt in %s" % (name, " or ".join(crates))
    for other, name in re.findall(r"(?:((?:desk|list|text|feed|view|script|program)_\w+) )?`(\w+)`", row["law"].partition(", clause")[0]):
        texts = sources(other, "src", ".rt").values() if other else code
        if not has(texts, "fn " + name):
            yield "no law %s in %s" % (name, other or " and ".join(crates))


def definitions(text):
    crates, columns = ["desk_ops"], None
    for number, line in enumerate(text.split("\n"), 1):
        if line.startswith("#"):
            crates = re.findall(r"\b(?:(?:desk|list|text|feed|view|script|program)_\w+|copydesk)\b", line) or ["desk_ops"]
            if len(crates) != len(set(crates)):
                yield "docs/DEFINITIONS.md:%d: a heading names a crate twice" % number
        if not line.startswith("|"):
            columns = None
            continue
        cells = [cell.strip() for cell in line.strip().strip("|").split("|")]
        if columns is None:
            columns = cells
            if cells[0] != "word":
                yield "docs/DEFINITIONS.md:%d: a table without its heads" % number
        elif not set("".join(cells)) <= set("-: "):
            row = dict(zip(columns, cells))
            for fault in row_faults(crates, dict({"name": "", "file": "", "law": ""}, **row)):
                yield "docs/DEFINITIONS.md:%d: %s" % (number, fault)


def design(text):
    folder = ""
    for path in re.findall(r"`([\w/]+(?:/specs|\.antt|\.rt))`", text):
        if "/" in path:
            folder = path if path.endswith("specs") else os.path.dirname(path)
        place = path if "/" in path else os.path.join(folder, path)
        if not os.path.exists(os.path.join(CRATES, place)):
            yield "docs/DESIGN.md: no file crates/%s" % place
    listed = re.findall(r"^(\w+)(?: staticlib)?:", text_of("crates.txt"), re.M)
    rows = [name for name in re.findall(r"^\| (\w+) \|", text, re.M) if name in listed]
    if rows != listed:
        at = next((k for k, names in enumerate(zip(rows, listed)) if names[0] != names[1]), min(len(rows), len(listed)))
        yield "docs/DESIGN.md: row %d of the crates is %s, and crates.txt has %s" % (at + 1, *(it[at] if at < len(it) else "none" for it in (rows, listed)))


def paths(page, names):
    """What a page names and is not there: a path of the repository, or a crate."""
    for number, line in enumerate(text_of(page).split("\n"), 1):
        for path in re.findall(r"`((?:crates|docs|tests|bench|examples|\.ci|(?:desk|list|text|feed|view|script|program|test)_\w+)/[\w./-]+)`", line):
            if "/out/" not in path + "/" and not any(os.path.exists(os.path.join(ROOT, base, path)) for base in ("", "crates")):
                yield "%s:%d: no file %s" % (page, number, path)
        if page not in ("docs/DEFINITIONS.md", "docs/FORMATS.md"):
            for name in re.findall(r"(?<![\w`/:])(?:desk|list|text|feed|view|script|program|test)_[a-z]+\b(?![_(`])", line):
                if name not in names:
                    yield "%s:%d: no crate %s" % (page, number, name)


def main():
    faults = list(definitions(text_of("docs", "DEFINITIONS.md"))) + list(design(text_of("docs", "DESIGN.md")))
    pages = ["README.md"] + sorted(os.path.relpath(it, ROOT) for it in glob.glob(os.path.join(ROOT, "docs", "*.md")))
    faults += [fault for page in pages for fault in paths(page, os.listdir(CRATES))]
    for fault in faults:
        print(fault, file=sys.stderr)
    print("docs/DEFINITIONS.md, docs/DESIGN.md, paths of %d pages: %d faults" % (len(pages), len(faults)))
    return 1 if faults else 0


if __name__ == "__main__":
    sys.exit(main())
