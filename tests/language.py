#!/usr/bin/env python3
"""Fails where a page, a head, a doc comment or a message has a word that docs/DESIGN.md refuses: language.py [--long]

The table of DESIGN under "Words to avoid" has in its first column words in back quotes, in its last where they are refused:
*pages* are README.md and docs/ but for DEFINITIONS.md, FORMATS.md and PROOF.md; *all* are also these three, the claims, and
in crates/*/src the heads, doc comments and texts. Blocks and what is in back quotes are not read. It also counts the
sentences of the pages that have more than 25 words; --long lists them.
"""
import glob
import os
import re
import sys

ROOT = os.path.dirname(os.path.dirname(os.path.abspath(__file__)))
HEAD = "## Words to avoid"
OTHERS = ("docs/DEFINITIONS.md", "docs/FORMATS.md", "docs/PROOF.md")
LONGEST = 25


def text_of(name):
    with open(os.path.join(ROOT, name), encoding="utf-8") as file:
        return file.read()


def found(pattern):
    return sorted(os.path.relpath(it, ROOT) for it in glob.glob(os.path.join(ROOT, pattern), recursive=True))


def refused():
    """The words that are refused, as pairs of a word and where, in their order."""
    part = text_of("docs/DESIGN.md").partition(HEAD)[2].partition("\n## ")[0]
    rows = [[cell.strip() for cell in line.strip("|").split("|")] for line in part.split("\n") if line.startswith("|")][2:]
    return [(word, row[-1]) for row in rows for word in re.findall(r"`([^`]+)`", row[0])]


def pattern_of(word):
    """`is told` also refuses are, was, were, be and been told; `gives on` refuses give and gives."""
    words = re.escape(word).replace(r"\ ", r"\s+")
    words = re.sub(r"^is\b", "(?:is|are|was|were|be|been|being)", words)
    words = re.sub(r"^(\w+)s(?=\\|$)", r"\1s?", words)
    return re.compile(r"(?<![\w-])%s(?![\w-])" % words, re.I)


def lines_of_page(text):
    """The lines of a page with what is code taken out: each keeps its number."""
    out, is_code = [], False
    for line in text.split("\n"):
        is_code ^= line.startswith("```")
        out.append("" if is_code or line.startswith("```") else re.sub(r"`[^`]*`", "X", line))
    return out


def lines_of_code(text):
    """Of the lines of a source file their doc comments and texts."""
    out = []
    for line in text.split("\n"):
        doc = re.match(r"\s*//[/!](.*)", line)
        out.append(re.sub(r"`[^`]*`", "X", doc[1]) if doc else " ".join(re.findall(r'"((?:[^"\\]|\\.)*)"', line)))
    return out


def sentences(text):
    """The sentences of a page, each with the number of the line that it begins in. A row of a table has none."""
    for number, line in enumerate(lines_of_page(text), 1):
        if line and not line.startswith(("|", "#")):
            for it in re.split(r"(?<=[.!?:;])\s+(?=[A-Z*\[]|[a-z]+_)|(?<=[.!?])\*\*\s+", line):
                yield number, it


def words_in(sentence):
    return sum(any(c.isalnum() for c in word) for word in sentence.split())


def main(words):
    listed = refused()
    if not listed:
        print("docs/DESIGN.md: no table under %s" % HEAD, file=sys.stderr)
        return 1
    pages = ["README.md"] + [it for it in found("docs/*.md") if it not in OTHERS]
    both = [(pattern_of(word), word) for word, where in listed if where == "all"]
    texts = [(name, lines_of_page(text_of(name)), [(pattern_of(word), word) for word, _ in listed]) for name in pages]
    texts += [(name, lines_of_page(text_of(name)), both) for name in [*OTHERS, *found("docs/claims/*.txt")]]
    texts += [(name, lines_of_code(text_of(name)), both) for name in found("crates/*/src/**/*.rt")]
    faults = ["%s:%d: %s: docs/DESIGN.md has a better word" % (name, number, word) for name, lines, patterns in texts
              for number, line in enumerate(lines, 1) for pattern, word in patterns if line and pattern.search(line)]
    for fault in faults:
        print(fault, file=sys.stderr)
    long = [(name, number, it) for name in pages for number, it in sentences(text_of(name)) if words_in(it) > LONGEST]
    if words == ["--long"]:
        for name, number, it in long:
            print("%s:%d: %d words: %s" % (name, number, words_in(it), it))
    print("%d texts, %d refused words: %d faults; %d sentences of pages with more than %d words" % (len(texts), len(listed), len(faults), len(long), LONGEST))
    return 1 if faults else 0


if __name__ == "__main__":
    sys.exit(main(sys.argv[1:]))
