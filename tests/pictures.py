#!/usr/bin/env python3
"""Pictures of galleys and ribbons, ribbons read, and sorts: pictures.py PROGRAM [--write]

Each is parsed as XML, and what it shows is held to what the program says in text and stores as a ribbon: the number, the place and
the words of each line, a place for each character, from left to right and inside the frame; boxes for fills; a line without a
fault ends at the measure, as far as steps of 0.0005 inch reach; the cause beside each line at fault; a circle for each hole of a row,
rows from the last to the first. The picture of some lines of a ribbon has the rows of these lines as that of the whole has them,
and that of a text is that of a feed with its copy. Copies with what XML would read as its own, with what it does not allow, and from right to left are
among them, and one of 100,000 symbols. Of sorts that the case lacks all places are counted here, of a million symbols too. The pictures of the README are compared byte for byte; --write stores them.
"""
import os
import pathlib
import re
import subprocess
import sys
import tempfile
import time
import xml.etree.ElementTree as ElementTree

from reported import plain

ROOT = pathlib.Path(__file__).resolve().parent.parent
EXAMPLES = ROOT / "examples"
SVG = "{http://www.w3.org/2000/svg}"
METAL = ["--case", "case12.toml", "--wedge", "wedge5.toml"]
FRAME = 100.0
STRANGE = "<b> & \"it's\" ]]> \u05e9\u05dc\u05d5\u05dd \u0645\u0631\u062d\u0628\u0627 \U0001f600 e\u0301 \ufffe \uffff \u00ad \u202e &amp; --> ok"


def fail(words):
    sys.exit("pictures: " + words)


class Room:
    """A folder with the metal, and the program."""

    def __init__(self, program, folder):
        self.program, self.folder = program, folder
        for name in ("case12.toml", "wedge5.toml"):
            (folder / name).write_bytes((EXAMPLES / name).read_bytes())

    def run(self, *words, given=b"", status=0):
        ran = subprocess.run([self.program, *words], cwd=self.folder, input=given, capture_output=True)
        if status is not None and ran.returncode != status:
            fail("copydesk %s: status %d, %r" % (" ".join(words), ran.returncode, ran.stderr[:300]))
        return ran.stdout

    def keyed(self, name, text, measure, loose, *more):
        """A feed with this text and settings."""
        self.run("import", name, "--site", "1", "--plain", *more, given=text.encode())
        lines = "set 1 measure %d\nset 1 tight 40\nset 1 loose %d\nset 1 case 12\nset 1 wedge 5\n" % (measure, loose)
        self.run("desk", name, "--site", "1", given=lines.encode())


def parsed(path):
    try:
        return ElementTree.parse(path).getroot()
    except ElementTree.ParseError as error:
        fail("%s is no XML: %s" % (path.name, error))


def shown(text):
    """A text as XML can have it."""
    return "".join(it if it in "\t\n\r" or it >= " " and it not in "\ufffe\uffff" else "\ufffd" for it in text)


def galley_lines(proof):
    """Of each row of a proof its number, its place, whether it is at fault, its words without their marks, and its fills."""
    rows = proof.split("loose\n", 1)[1].split("\n\n", 1)[0].split("\n") if "tight ...... loose\n" in proof else []
    out = []
    for row in rows:
        if row.strip():
            words = re.sub(r"\\(.)|[_^]", r"\1", row[53:])
            bare = words.rstrip("\u00b7").rstrip(" ") if words.endswith("\u00b7") else words
            out.append((int(row[:6]), int(row[6:14]), row[51] == "!", bare, len(words) - len(words.rstrip("\u00b7"))))
    return out


def galley_in(root):
    """The same of a picture, with the places of the characters, the boxes, and the causes."""
    out, margin = [], []
    for it in root.iter():
        kind = it.get("class", "")
        if it.tag == SVG + "text" and kind == "n" and it.text.isdigit():
            margin.append(int(it.text))
        elif it.tag == SVG + "text" and kind in ("w", "w f"):
            places = [float(x) for inner in it.iter() for x in inner.get("x", "").split()]
            out.append({"number": margin[0], "place": margin[1], "faulty": kind == "w f", "text": "".join(it.itertext()), "x": places, "boxes": [], "cause": ""})
            margin = []
        elif it.tag == SVG + "rect" and kind == "b":
            out[-1]["boxes"].append((float(it.get("x")), float(it.get("width"))))
        elif it.tag == SVG + "text" and kind == "c" and out:
            out[-1]["cause"] = "".join(it.itertext())
    return out


def held(room, name, measure, *more, status=None):
    """A picture of a galley beside its proof; of a text its settings are among the other words."""
    source = ["--text", name] if name.endswith(".txt") else [name]
    proof = room.run("proof", *source, *METAL, "--svg", "a.svg", *more, status=status).decode()
    root = parsed(room.folder / "a.svg")
    frame = [it for it in root.iter(SVG + "rect") if it.get("class") == "frame"]
    if len(frame) != 1 or float(frame[0].get("width")) != measure or float(frame[0].get("x")) != FRAME:
        fail("%s: the frame is not the measure's" % name)
    lines_held(name, galley_lines(proof), galley_in(root), measure)
    return proof, root


def lines_held(name, told, seen, measure):
    """The lines of a picture, or of all pages of a document, beside those of a proof."""
    if len(told) != len(seen) or not seen:
        fail("%s: %d lines in the proof, %d in the picture" % (name, len(told), len(seen)))
    for (number, place, faulty, words, fills), line in zip(told, seen):
        where = "%s, line %d: " % (name, number)
        if (number, place, faulty, fills) != (line["number"], line["place"], line["faulty"], len(line["boxes"])):
            fail(where + "%r in the picture" % (line,))
        # (the picture keeps a directional mark, which the proof writes out)
        if plain(line["text"]).rstrip(" ") != shown(words).rstrip(" "):
            fail(where + "%r in the proof, %r in the picture" % (words, line["text"]))
        if len(line["x"]) != len(line["text"]):
            fail(where + "%d places for %r" % (len(line["x"]), line["text"]))
        if any(a > b for a, b in zip(line["x"], line["x"][1:])) or line["x"] and line["x"][0] < FRAME:
            fail(where + "its characters do not stand one after the other")
        # (behind the last word stands a space, which begins where the word ends; where one was added the line ends behind it)
        space = max([b - a for a, b, it in zip(line["x"], line["x"][1:], line["text"]) if it == " "], default=0)
        ends = [line["boxes"][-1][0] + line["boxes"][-1][1]] if line["boxes"] else [line["x"][-1], line["x"][-1] + space]
        end = min(ends, key=lambda it: abs(FRAME + measure - it))
        if not faulty and abs(FRAME + measure - end) > 1.0 + 0.04 * words.count(" "):
            fail(where + "it ends at %.2f of %.2f" % (end, FRAME + measure))
        if faulty and not line["cause"]:
            fail(where + "no cause beside it")


def ribbon(room, name, more_status=0):
    """The picture of a ribbon beside its bytes."""
    stored = (room.folder / name).read_bytes()
    room.run("read", name, *METAL, "--svg", "holes.svg", status=more_status)
    root = parsed(room.folder / "holes.svg")
    images = [int.from_bytes(stored[at:at + 4], "big") for at in range(8, len(stored), 4)]
    circles = {}
    for it in root.iter(SVG + "circle"):
        circles.setdefault(int(it.get("cy")), set()).add(int(it.get("cx")))
    numbers = [(int(it.get("y")) - 3, int(it.text)) for it in root.iter(SVG + "text") if it.get("class") == "n"]
    if [place for _, place in numbers] != list(range(len(images) - 1, -1, -1)):
        fail("%s: the rows do not go from the last to the first" % name)
    for y, place in numbers:
        if len(circles.get(y, ())) != bin(images[place]).count("1"):
            fail("%s: row %d has %d holes, and its image %08x" % (name, place, len(circles.get(y, ())), images[place]))
    return root


def rows_in(root):
    """Of a picture of a ribbon the places of its rows as they stand, and of each its holes and its meaning."""
    places, holes, meanings = {}, {}, {}
    for it in root.iter():
        if it.tag == SVG + "circle":
            holes.setdefault(int(it.get("cy")), []).append(int(it.get("cx")))
        elif it.tag == SVG + "text" and it.get("class") == "n":
            places[int(it.get("y")) - 3] = int(it.text)
        elif it.tag == SVG + "text" and it.get("class") == "m":
            meanings[int(it.get("y")) - 3] = "".join(it.itertext())
    return [place for _, place in sorted(places.items())], {place: (sorted(holes.get(y, ())), meanings[y]) for y, place in places.items()}


def some_lines(room, name):
    """The pictures of some lines of a ribbon beside that of the whole: each line ends with a row that sends it out, and the row
    that stands first of all is of none."""
    whole = rows_in(ribbon(room, name))[1]
    stored = (room.folder / name).read_bytes()
    images = [int.from_bytes(stored[at:at + 4], "big") for at in range(8, len(stored), 4)]
    ends = [place for place, image in enumerate(images) if image & 6 == 6]
    count = len(ends) - 1
    for begin, end in {(1, 1), (1, 2), (2, 2), (2, count), (count, count), (count, count + 9), (1, count), (1, 4294967295), (count + 1, count + 1), (7, 99)}:
        room.run("read", name, *METAL, "--lines", "%d..%d" % (begin, end), "--svg", "some.svg", "--force")
        root = parsed(room.folder / "some.svg")
        title = next(it.text for it in root.iter(SVG + "text") if it.get("class") is None and it.get("transform") is None)
        rows = list(range(ends[min(begin - 1, count)] + 1, ends[min(end, count)] + 1))
        due = "No rows of a ribbon of %d rows" % len(images)
        if rows:
            due = "Rows %d to %d of a ribbon of %d rows, as the caster meets them" % (rows[0], rows[-1], len(images))
        if title != due:
            fail("%s, lines %d to %d: the title %r, and not %r" % (name, begin, end, title, due))
        places, drawn = rows_in(root)
        if places != rows[::-1] or drawn != {place: whole[place] for place in rows}:
            fail("%s, lines %d to %d: other rows: %r" % (name, begin, end, places))
        frame = [it for it in root.iter(SVG + "rect") if it.get("height") not in (None, "100%")]
        if rows and len(frame) != 1 or any(not float(frame[0].get("y")) < y < float(frame[0].get("y")) + float(frame[0].get("height")) for y in rows_at(root)):
            fail("%s, lines %d to %d: rows outside the ribbon" % (name, begin, end))


def rows_at(root):
    return [int(it.get("y")) - 3 for it in root.iter(SVG + "text") if it.get("class") == "n"]


def of_texts(room):
    """Pictures of texts beside their proofs, and beside the pictures of feeds with the same copies."""
    texts = {"letter.txt": (150, 200, "The last sheets are in the galleys again. Send word by noon at latest.\n\nYours, the reader"), "strange.txt": (198, 240, STRANGE),
             "spaces.txt": (60, 150, "  The  the last sheets \n\n\n are in . "), "empty.txt": (60, 150, "")}
    for name, (measure, loose, text) in texts.items():
        (room.folder / name).write_text(text, encoding="utf-8", newline="")
        sets = ["--plain", "--set", "measure=%d" % measure, "--set", "tight=40", "--set", "loose=%d" % loose]
        if text:
            held(room, name, measure, *sets)
        room.keyed("text.feed", text, measure, loose, "--all")
        for more in ([], ["--format", "gcc"], ["--warn"], ["--faults", "--set", "measure=90"]):
            room.run("proof", "--text", name, *METAL, *sets, *more, "--svg", "of_text.svg", status=None)
            room.run("proof", "text.feed", *METAL, *more, "--svg", "of_feed.svg", status=None)
            if (room.folder / "of_text.svg").read_bytes() != (room.folder / "of_feed.svg").read_bytes():
                fail("%s %s: the picture is not that of a feed" % (name, " ".join(more)))


def read_back(room, feed, name):
    """The lines that a ribbon casts, beside those of the galley that it was punched of: numbers, pairs and words."""
    proof = room.run("proof", feed, *METAL).decode()
    told = [(number, words) for number, _, _, words, _ in galley_lines(proof)]
    pairs = re.findall(r"(?m)^ *\d+ +\d+ +(\d+/\d+) +\d+  [.|>]", proof)
    read = re.findall(r"(?m)^ *(\d+) +(\d+/\d+) +(-?[\d.]+) +([\d.]+)  (.*)$", room.run("read", name, *METAL).decode())
    if [(int(number), words.rstrip("\u00b7 ")) for number, _, _, _, words in read] != [(number, words.rstrip(" ")) for number, words in told]:
        fail("%s: the lines read are not those of the galley" % name)
    if [pair for _, pair, _, _, _ in read] != pairs:
        fail("%s: the pairs read are not those of the galley" % name)
    widest = max(float(width) for _, _, width, _, _ in read)
    if any(abs(widest - float(width) - float(short)) > 0.11 for _, _, width, short, _ in read):
        fail("%s: a line is not as short as its width says" % name)


def sorted_out(room, feed, lacking=""):
    """The sorts of a copy, counted here, and the places of those that are missing: its export without marks, since it is plain."""
    whole = room.run("export", feed).decode()
    copy = whole.replace("\n", "")
    told = room.run("sorts", feed, "--case", "case12.toml", status=1 if lacking else 0).decode()
    wanted = {}
    for symbol in copy:
        wanted[symbol] = wanted.get(symbol, 0) + 1
    found = {it: int(count) for count, it in re.findall(r"(?m)^ *\S+ +(\d+)  Roman '(.)' \(U\+[0-9A-F]+\)$", told)}
    found.update({" ": int(count) for count in re.findall(r"(?m)^ *\S+ +(\d+)  space$", told)})
    missing = re.findall(r"(?m)^missing Roman '(.)' \(U\+[0-9A-F]+\), wanted (\d+), first at place (\d+)\n  \| (.*)\n((?:  at(?: +\d+)+\n)+)", told)
    if found != wanted or {it[0] for it in missing} != set(lacking) or told.count("missing Roman") != len(lacking):
        fail("%s: sorts %r, and not %r; missing %r" % (feed, found, wanted, missing))
    for it, count, first, around, rows in missing:
        places = [at for at, symbol in enumerate(whole) if symbol == it]
        begin = max(0, places[0] - 24)
        if (int(count), int(first)) != (len(places), places[0]) or around != whole[begin:places[0] + 25].replace("\n", " "):
            fail("%s: the missing sort %r has %s, first at %s, with %r" % (feed, it, count, first, around))
        if [row.split()[1:] for row in rows.splitlines()] != [[str(at) for at in places[k:k + 10]] for k in range(0, len(places), 10)]:
            fail("%s: the missing sort %r has other places" % (feed, it))
        if any(len(row) != 4 + 8 * (len(row.split()) - 1) for row in rows.splitlines()):
            fail("%s: places of %r out of their columns" % (feed, it))
    head = "SORTS %d kinds, %d wanted, %d missing" % (len(wanted), len(copy), len(lacking))
    if told.split("\n")[0] != head:
        fail("%s: %r, and not %r" % (feed, told.split("\n")[0], head))


def of_the_pages(room, write):
    """The pictures that the README shows."""
    room.run("import", "page.feed", "--site", "2", given="The last sheets are in the galleys again. Send word by _noon_ at latest.\n".encode())
    lines = "set 2 measure 150\nset 2 tight 40\nset 2 loose 150\nset 2 case 12\nset 2 wedge 5\n"
    room.run("desk", "page.feed", "--site", "2", given=lines.encode())
    room.run("proof", "page.feed", *METAL, "--svg", "galley.svg", status=1)
    room.run("import", "word.feed", "--site", "2", given="Send word.".encode())
    room.run("desk", "word.feed", "--site", "2", given=lines.encode())
    room.run("punch", "word.feed", *METAL, "-o", "word.rib")
    ribbon(room, "word.rib")
    room.run("read", "word.rib", *METAL, "--svg", "ribbon.svg")
    for name in ("galley.svg", "ribbon.svg"):
        made = (room.folder / name).read_bytes()
        if write:
            (EXAMPLES / name).write_bytes(made)
        elif made != (EXAMPLES / name).read_bytes():
            fail("examples/%s is not what the program draws (pictures.py PROGRAM --write stores it)" % name)


def main(words):
    if not words or words[1:] not in ([], ["--write"]):
        print(__doc__, file=sys.stderr)
        return 2
    with tempfile.TemporaryDirectory(prefix="pictures-") as folder:
        room = Room(os.path.realpath(words[0]), pathlib.Path(folder))
        of_the_pages(room, words[1:] == ["--write"])
        room.keyed("letter.feed", "The last sheets are in the galleys again. Send word by noon at latest.\n\nYours, the reader", 150, 200)
        held(room, "letter.feed", 150, status=0)
        held(room, "letter.feed", 150, "--set", "loose=60", status=1)
        room.run("punch", "letter.feed", *METAL, "-o", "letter.rib")
        ribbon(room, "letter.rib")
        read_back(room, "letter.feed", "letter.rib")
        some_lines(room, "letter.rib")
        of_texts(room)
        room.keyed("sorts.feed", "Sphinx of black quartz, judge my vow~ and ~ again.", 150, 200)
        sorted_out(room, "sorts.feed", "~")
        room.keyed("many.feed", "".join("~ %d\n|" % k for k in range(50)), 150, 200)
        sorted_out(room, "many.feed", "~|")
        room.run("import", "million.feed", "--site", "1", "--plain", given=b"~{" * 500_000)
        began = time.time()
        sorted_out(room, "million.feed", "~{")
        if time.time() - began > 60:
            fail("sorts of 1,000,000 symbols that are missing took %d seconds" % (time.time() - began))
        room.keyed("plain.feed", "Sphinx of black quartz, judge my vow.", 150, 200)
        sorted_out(room, "plain.feed")
        room.keyed("strange.feed", STRANGE, 198, 240)
        _, root = held(room, "strange.feed", 198, status=1)
        if any(it.tag not in {SVG + name for name in ("svg", "style", "rect", "g", "text", "tspan")} for it in root.iter()):
            fail("strange.feed: an element that is no part of a picture")
        chapter = (EXAMPLES / "chapter.txt").read_text(encoding="utf-8")
        room.run("import", "chapter.feed", "--site", "1", given=chapter.encode())
        room.run("desk", "chapter.feed", "--site", "1", given=b"set 1 measure 400\nset 1 tight 40\nset 1 loose 150\nset 1 case 12\nset 1 wedge 5\n")
        held(room, "chapter.feed", 400, status=1)
        (room.folder / "chapter.txt").write_text(chapter, encoding="utf-8")
        held(room, "chapter.txt", 400, "--set", "measure=400", "--set", "tight=40", "--set", "loose=150", status=1)
        plain = "".join(it if it.isascii() and (it.isalnum() or it in " .,\n") else "" for it in chapter)
        room.keyed("long.feed", (plain * (1 + 100_000 // len(plain)))[:100_000], 720, 240)
        began = time.time()
        held(room, "long.feed", 720)
        if time.time() - began > 60:
            fail("a galley of 100,000 symbols took %d seconds" % (time.time() - began))
    print("pictures: as they must be")
    return 0


if __name__ == "__main__":
    sys.exit(main(sys.argv[1:]))
