#!/usr/bin/env python3
"""Finds the lemmas that no proof comes to.

usage: unused.py [CRATE ..]     every crate, or those named

A file of proofs declares names for other proofs. Each must be named by an answer, an invariant, a worked example, a
specification or the code, or by a lemma that one of these comes to; a lemma that only lemmas of no use name is of no use
itself. A name is followed where it stands in its own file, or in one that imports it from there. It ends with 1 and says where,
if one is left over.
"""
import pathlib
import re
import sys

CRATES = pathlib.Path(__file__).resolve().parent.parent / "crates"
# Files whose proofs are wanted for themselves.
WANTED = re.compile(r"Answers|Invariants|\w*Examples|Lib")
WORD = re.compile(r"[^\s(){}\[\],;.]+")
DECLARED = re.compile(r"(?:abbrev |unfoldable )?(?:pub )?(data |record |ruleset )?([^\s(){}\[\],;.]+)")
IMPORT = re.compile(r"use Rattle\.(\w+)\.proofs\.([\w.]+?)(?:\.\{([^}]*)\}| as (\S+))?$")


def items_of(path):
    """The items of a file of proofs: each declared name with its line and the text that it stands on. Without a name is the
    text of the heads of sections."""
    items, name, base = {None: (0, [])}, None, 0
    for number, line in enumerate(path.read_text(encoding="utf-8").split("\n"), 1):
        text = line.lstrip()
        deep = len(line) - len(text)
        if not text or text.startswith(("--", "use ")):
            continue
        base = min(base, deep)
        if deep == base and text.startswith(("module ", "mod ")):
            name, base = None, base + 2
        elif deep == base:
            found = DECLARED.match(text)
            if found and found[2] != "unfolding" and (found[1] or text[found.end():].startswith((" :", " {", " ("))):
                name = found[2]
        items.setdefault(name, (number, []))[1].append(line)
    return items


def imports_of(text):
    """What a file imports of proofs: names with their file, and whole files by the word for them."""
    names, files = {}, {}
    for crate, file, listed, word in (found.groups() for found in map(IMPORT.match, text.split("\n")) if found):
        for name in (listed or "").split(","):
            plain, _, other = name.strip().partition(" as ")
            names[other or plain] = (crate, file, plain)
        files[word or file.split(".")[-1]] = (crate, file)
    return names, files


def main(crates):
    declared, bodies, left = {}, {}, []
    for path in sorted(it for part in ["src", "specs", "proofs"] for it in CRATES.glob("*/%s/**/*" % part) if it.is_file()):
        crate, part, *folders = path.relative_to(CRATES).with_suffix("").parts
        file, text = ".".join(folders), path.read_text(encoding="utf-8")
        imports = imports_of(text)
        if part != "proofs" or WANTED.fullmatch(folders[-1]):
            left.append((crate, file, text, imports))
            continue
        for name, (number, lines) in items_of(path).items():
            body = (crate, file, "\n".join(lines), imports)
            if name is None:
                left.append(body)
            else:
                declared[(crate, file, name)] = "%s:%d" % (path.relative_to(CRATES), number)
                bodies[(crate, file, name)] = body

    reached = set()
    while left:
        crate, file, text, (names, files) = left.pop()
        words = set(WORD.findall(text))
        found = {(crate, file, word) for word in words} | {names[word] for word in words & names.keys()}
        found |= {(*files[it], word) for it, word in re.findall(r"(\w+)\.([^\s(){}\[\],;.]+)", text) if it in files}
        found |= {(of.replace("crate", crate), it, word) for of, it, word in re.findall(r"(\w+)::proofs::(\w+)::(\w+)", text)}
        for it in (found & declared.keys()) - reached:
            reached.add(it)
            left.append(bodies[it])

    over = [it for it in declared if it not in reached and (not crates or it[0] in crates)]
    for it in over:
        print("unused: %s %s" % (declared[it], it[2]))
    print("%d names of proofs, %d of no use" % (len(declared), len(over)))
    return 1 if over else 0


if __name__ == "__main__":
    sys.exit(main(sys.argv[1:]))
