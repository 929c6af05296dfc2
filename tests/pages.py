#!/usr/bin/env python3
"""Documents of galleys, and pages as pictures: pages.py PROGRAM [--write]

Of the letter, of the chapter, of a text of 30,000 characters and of strange copies the document is stored. It must be XML, and
HTML in which each element is closed; its ids are unique, and each link leads to one; there is no script, and no address but the
names of XHTML and SVG. Its pages have the numbers 1 to n and one size, and are no higher than what was asked for. Each line of
the proof is on one page, in order, inside the frame, as pictures.py checks pictures; each page but the last is full. The table
has the lines at fault, each with what the proof writes of it. Thin rules are between the letters of a word, and
dashes are drawn as rules. A document of 30,000
characters has under 3 MB, and takes under a second of a processor. `--page` with `--svg` stores the same pages as pictures.
The page of the README is compared byte for byte; --write stores it.
"""
import html
import html.parser
import os
import pathlib
import re
import resource
import sys
import tempfile
import xml.etree.ElementTree as ElementTree

import oracle_pages
import pictures
from pictures import EXAMPLES, METAL, STRANGE, SVG, Room, fail, galley_in, galley_lines, lines_held

XHTML = "{http://www.w3.org/1999/xhtml}"
ADDRESSES = {"http://www.w3.org/1999/xhtml", "http://www.w3.org/2000/svg"}
ELEMENTS = {"html", "head", "meta", "title", "style", "body", "main", "h1", "h2", "p", "ul", "li", "table", "thead", "tbody", "tr", "th", "td", "a"}
VOID = {"meta"}
DASHES = "\u2013\u2014\u2015"
MOST_BYTES, MOST_SECONDS = 3_000_000, 1.0
HEIGHTS = {"a4": 842, "letter": 792, "300": 300, "200": 200, "14400": 14400}


class Elements(html.parser.HTMLParser):
    """A document as a reader of HTML takes it: each element is closed, and nothing else."""

    def __init__(self, name):
        super().__init__()
        self.name, self.open, self.seen = name, [], set()

    def handle_starttag(self, tag, attrs):
        self.seen.add(tag)
        if tag not in VOID:
            self.open.append(tag)

    def handle_startendtag(self, tag, attrs):
        self.seen.add(tag)
        if tag not in VOID and "svg" not in self.open:
            fail("%s: <%s/> is an open element of HTML" % (self.name, tag))

    def handle_endtag(self, tag):
        if not self.open or self.open.pop() != tag:
            fail("%s: </%s> closes another element" % (self.name, tag))


def used():
    return sum(resource.getrusage(resource.RUSAGE_CHILDREN)[:2])


def sound(name, data):
    """The root of a document that is XML and HTML, with links that lead somewhere, and with nothing from elsewhere."""
    text = data.decode("utf-8")
    if not data.startswith(oracle_pages.BEGIN.encode()):
        fail("%s: it does not begin as a document" % name)
    reader = Elements(name)
    reader.feed(text)
    reader.close()
    if reader.open:
        fail("%s: these elements are not closed: %s" % (name, reader.open))
    try:
        root = ElementTree.fromstring(text)
    except ElementTree.ParseError as error:
        fail("%s is no XML: %s" % (name, error))
    known = {XHTML + it for it in ELEMENTS} | {SVG + it for it in ("svg", "rect", "g", "text", "tspan", "path")}
    strange = {it.tag for it in root.iter()} - known
    if strange or "script" in reader.seen or any(key.startswith("on") or key == "src" for it in root.iter() for key in it.keys()):
        fail("%s: elements that are no part of a document: %s" % (name, strange))
    if set(re.findall(r"[a-z]+://[^\"' ]*", re.sub(r">[^<]*<", "><", text))) - ADDRESSES or "url(" in text or "@import" in text:
        fail("%s: it asks for something from elsewhere" % name)
    ids = [it.get("id") for it in root.iter() if it.get("id") is not None]
    links = [it.get("href") for it in root.iter(XHTML + "a")]
    if len(ids) != len(set(ids)):
        fail("%s: two elements have one id" % name)
    if any(not link.startswith("#") or link[1:] not in ids for link in links):
        fail("%s: a link leads nowhere" % name)
    return root


def words_of(it):
    return "".join(it.itertext())


def hundredths(number):
    return int(number.replace(".", ""))


def ruled(name, line, svg, size):
    """The thin rules of a line: between the letters of each word, from the height of the set to the foot. And those that dashes are
    drawn as: from 0.4 points behind the edge of the matrix to 0.4 points before the next."""
    tspans = [it for it in svg.iter(SVG + "tspan") if it.get("x")]
    paths = {it.get("class"): it.get("d") for it in svg.iter(SVG + "path")}
    words = next(it for it in svg.iter(SVG + "text") if it.get("class") in ("w", "w f"))
    foot, bars = words.get("y"), {"w": "d", "w f": "d f"}[words.get("class")]
    if not paths.keys() <= {"r", bars} or "" in paths.values():
        fail("%s, line %d: it has the paths %s" % (name, line, sorted(paths)))
    marks = re.findall(r"M(\S+) (\S+?)V([\d.]+)", paths.get("r", ""))
    top = "%.2f" % (float(foot) - float(size))
    if marks != [(x, top, foot) for it in tspans for x in it.get("x").split()[1:-1]]:
        fail("%s, line %d: its rules are not between its letters" % (name, line))
    due, dressed = [], {id(it) for it in svg.iter(SVG + "tspan") if it.get("class") == "e"}
    for it in tspans:
        at, places = 0, [hundredths(x) for x in it.get("x").split()]
        for part in [it, *it]:
            text = part.text or ""
            due += [(places[at + k] + 40, places[at + k + 1] - 40) for k in range(len(text)) if id(part) in dressed]
            if part is not it and id(part) not in dressed and any(ch in DASHES for ch in text) and part.get("class") != "m":
                fail("%s, line %d: a dash that is a letter" % (name, line))
            at += len(text) + (len(part.tail or "") if part is not it else 0)
    found = re.findall(r"M(\S+) (\S+?)H([\d.]+)", paths.get(bars, ""))
    if [(hundredths(x), hundredths(end)) for x, _, end in found] != due or any(float(y) != float(foot) - hundredths(size) // 4 / 100 for _, y, _ in found):
        fail("%s, line %d: its dashes are %r, due %r" % (name, line, found, due))


def paged(name, sheets, measure, height, count):
    """The pages of a document, or pages as pictures: their numbers and sizes, and the lines on them; all lines as galley_in has them."""
    sizes = {(it.get("width"), it.get("height"), it.get("viewBox")) for it in sheets}
    if [it.get("id") for it in sheets] != ["page-%d" % number for number in range(1, len(sheets) + 1)] or len(sizes) != min(1, len(sheets)):
        fail("%s: pages of other numbers or sizes: %s" % (name, sizes))
    lines, on_each = [], []
    for number, sheet in enumerate(sheets, 1):
        heads = [words_of(it) for it in sheet.iter(SVG + "text") if it.get("class") == "h"]
        if not heads[0].endswith(", page %d of %d" % (number, len(sheets))) or sheet.get("height") != "%d.00pt" % height:
            fail("%s: page %d has the head %r and the height %s" % (name, number, heads[0], sheet.get("height")))
        frame = next(it for it in sheet.iter(SVG + "rect") if it.get("class") == "frame")
        top, high = float(frame.get("y")), float(frame.get("height"))
        groups = [it for it in sheet.iter(SVG + "g") if it.get("id")]
        feet = [float(it.get("y")) for it in sheet.iter(SVG + "text") if it.get("class") in ("w", "w f")]
        if any(not top < y <= top + high for y in feet) or top + high + 10 > height or float(frame.get("width")) != measure:
            fail("%s: page %d has a line outside its frame, or its frame is not on it" % (name, number))
        size = next(it.get("font-size") for it in sheet.iter(SVG + "g") if it.get("font-size"))
        for group in groups:
            ruled(name, int(group.get("id")[5:]), group, size)
        lines += galley_in(sheet)
        on_each.append(len(feet))
        if [it.get("id") for it in groups] != ["line-%d" % line["number"] for line in lines[-len(feet):]]:
            fail("%s: page %d has other ids than lines" % (name, number))
        leading = feet[1] - feet[0] if len(feet) > 1 else high
        if number < len(sheets) and top + high + leading + 10 <= height:
            fail("%s: page %d has room for another line" % (name, number))
    if len(set(on_each[:-1])) > 1 or sum(on_each) != count:
        fail("%s: pages of %s lines" % (name, on_each))
    return lines


def reported(name, root, proof):
    """What is above the pages, beside the proof: the counts, the faults of the copy, the missing sorts and the lines at fault."""
    told = [words_of(it) for it in root.iter() if it.tag in (XHTML + "p", XHTML + "li")]
    head = re.search(r"(?m)^GALLEY (.*)$", proof)[1]
    faults = re.findall(r"(?m)^((?:forked|void|waiting) .*)$", proof)
    lacks = re.findall(r"(?m)^no matrix for (?:Roman|italic|small capital) '(.*)' (.*)$", proof)
    if told[0] != head or [it for it in told if it.startswith(("forked", "void", "waiting"))] != faults:
        fail("%s: it begins with %r" % (name, told[:3]))
    if [re.search(r"' (\(U.*)$", it)[1] for it in told if it.startswith("no matrix")] != [rest for _, rest in lacks]:
        fail("%s: other missing sorts than in the proof" % name)
    rows = [[words_of(it) for it in row.iter(XHTML + "td")] for row in root.iter(XHTML + "tr")]
    due = re.findall(r"(?m)^line (\d+): (.*), places (\d+)\.\.\d+\n  \| .*\n  = (.*)$", proof)
    if rows[1:] != [[number, place, cause, pictures.shown(way)] for number, cause, place, way in due] or ("No line is at fault." in told) != (not due):
        fail("%s: the lines at fault are not those of the proof" % name)
    beside = [(group.get("id"), words_of(it)) for group in root.iter(SVG + "g") for it in group if it.get("class") == "y"]
    if beside != [("line-" + number, pictures.shown(way)) for number, _, _, way in due]:
        fail("%s: the ways out on the pages are not those of the table" % name)


def document(room, name, source, *more, height="a4", status=None):
    """A document beside the proof, and the same pages as pictures."""
    for old in room.folder.glob("a.*svg"):
        old.unlink()
    whole = room.run("proof", *source, *METAL, *more, status=status).decode()
    began = used()
    proof = room.run("proof", *source, *METAL, "--html", "a.html", *(["--page", height] if height != "a4" else []), *more, status=status).decode()
    took = used() - began
    data = (room.folder / "a.html").read_bytes()
    root = sound(name, data)
    if proof != whole:
        fail("%s: another proof beside a document" % name)
    told, sheets = galley_lines(proof), root.findall(XHTML + "body/" + SVG + "svg")
    measure = int(re.search(r"(?m)^GALLEY .* measure (\d+) points", proof)[1])
    lines_held(name, told, paged(name, sheets, measure, HEIGHTS[height], len(told)), measure)
    reported(name, root, proof)
    room.run("proof", *source, *METAL, "--svg", "a.svg", "--page", height, *more, status=status)
    names = ["a.%d.svg" % number for number in range(1, len(sheets) + 1)] if len(sheets) > 1 else ["a.svg"]
    if sorted(it.name for it in room.folder.glob("a.*svg")) != sorted(names):
        fail("%s: pages under other names" % name)
    if len(sheets) > 1:
        alone = [pictures.parsed(room.folder / it) for it in names]
        if paged(name, alone, measure, HEIGHTS[height], len(told)) != [line for sheet in sheets for line in galley_in(sheet)]:
            fail("%s: the pages alone have other lines" % name)
    return data, took


def without_galley(room):
    """A document that says why there is no galley, and one of a galley without lines."""
    room.run("import", "none.feed", "--site", "1", given=b"Send word.")
    room.run("proof", "none.feed", *METAL, "--html", "a.html", status=1)
    root = sound("none.feed", (room.folder / "a.html").read_bytes())
    if [words_of(it) for it in root.iter(XHTML + "p")] != ["no galley: the settings measure, tight, loose, case and wedge have no value"] or root.findall(".//" + SVG + "svg"):
        fail("none.feed: the document of no galley is another one")
    room.keyed("empty.feed", "", 150, 200)
    room.run("proof", "empty.feed", *METAL, "--html", "a.html")
    root = sound("empty.feed", (room.folder / "a.html").read_bytes())
    if root.findall(".//" + SVG + "svg") or "No line is at fault." not in words_of(root):
        fail("empty.feed: the document has a page")


def of_the_readme(room, write):
    """The page that the README shows: the first of the chapter in pages of 230 points."""
    made = []
    for old in room.folder.glob("page.*svg"):
        old.unlink()
    room.run("proof", "--text", "chapter.txt", *METAL, *SETS, "--svg", "page.svg", "--page", "230", status=1)
    made = (room.folder / "page.1.svg").read_bytes()
    if write:
        (EXAMPLES / "page.svg").write_bytes(made)
    elif made != (EXAMPLES / "page.svg").read_bytes():
        fail("examples/page.svg is not what the program draws (pages.py PROGRAM --write stores it)")


SETS = ["--set", "measure=300", "--set", "tight=40", "--set", "loose=150"]


def main(words):
    if not words or words[1:] not in ([], ["--write"]):
        print(__doc__, file=sys.stderr)
        return 2
    with tempfile.TemporaryDirectory(prefix="pages-") as folder:
        room = Room(os.path.realpath(words[0]), pathlib.Path(folder))
        chapter = (EXAMPLES / "chapter.txt").read_text(encoding="utf-8")
        (room.folder / "chapter.txt").write_text(chapter, encoding="utf-8")
        of_the_readme(room, words[1:] == ["--write"])
        letter = room.run("script", given=(EXAMPLES / "letter.script").read_bytes() + b"feed 1\n").decode().rstrip("\n")
        (room.folder / "letter.feed").write_bytes(bytes.fromhex(letter[letter.rindex("feed ") + 5:]))
        document(room, "the letter", ["letter.feed"], "--set", "loose=60", status=1)
        for height in ("a4", "letter", "300"):
            data, took = document(room, "the chapter", ["--text", "chapter.txt"], *SETS, height=height, status=1)
        plain = "".join(it if it.isascii() and (it.isalnum() or it in " .,\n") else "" for it in chapter)
        (room.folder / "long.txt").write_text((plain * 2)[:30_000], encoding="utf-8")
        sets = ["--set", "measure=720", "--set", "tight=40", "--set", "loose=240"]
        for height in ("a4", "200", "14400"):
            data, took = document(room, "30,000 characters", ["--text", "long.txt"], *sets, height=height)
            if len(data) >= MOST_BYTES or took >= MOST_SECONDS:
                fail("30,000 characters: %d bytes in %.2f seconds" % (len(data), took))
        (room.folder / "<odd> & \"it's\".txt").write_text(STRANGE, encoding="utf-8")
        sets = ["--plain", "--set", "measure=198", "--set", "tight=40", "--set", "loose=240"]
        document(room, "strange", ["--text", "<odd> & \"it's\".txt"], *sets, status=1)
        without_galley(room)
    print("pages: as they must be")
    return 0


if __name__ == "__main__":
    sys.exit(main(sys.argv[1:]))
