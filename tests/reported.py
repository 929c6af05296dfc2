"""What `check`, `export`, `diff` and `read` say of files, from the independent program beside this file and docs/FORMATS.md.
Of a ribbon that is: its lines, some of them, its figures, or what it casts otherwise than another one.

Of a case's or a wedge's fault it has the number alone, as `ribbon` and `cast` answer it.
"""
import functools
import os
import sys
import tomllib

sys.path.insert(0, os.path.dirname(os.path.abspath(__file__)))
import oracle

CAUSES = {"magic": "no feed begins so", "kind": "no such kind of operation", "cut": "cut off", "run": "no run has so many",
          "unlawful 1": "unlawful: the counter is out of range", "unlawful 2": "unlawful: no site has the number 0",
          "unlawful 3": "unlawful: the target is not an earlier stamp", "unlawful 4": "unlawful: no such symbol",
          "unlawful 5": "unlawful: no such key", "unlawful 6": "unlawful: the value is out of the key's range"}
STRANGE = "neither a feed, a ribbon, a case nor a wedge"
# A number of a fault, and what the line of `check` has of it.
CASE_FAULTS = {1: "it is not TOML", 2: "` is missing", 3: "` is of another type, number, length or name", 4: " has a text that is no symbol",
               5: ", which stands in ", 6: ", the space or a fill, holds a symbol"}
DIRECTIONAL = {0x61C, 0x200E, 0x200F, *range(0x202A, 0x202F), *range(0x2066, 0x206A)}
WEDGE_FAULTS = {1: "it is not TOML", 2: "` is missing", 3: "` is of another type, length or value", 4: " has fewer units than the row before"}


def held_in(data):
    """The operations of a feed, or none where it has a fault."""
    try:
        return set(oracle.read_feed(data))
    except oracle.Feed:
        return None


def world_of(site, held):
    world = oracle.World()
    world.sites[site] = set(held)
    world.greatest[site] = max((op[1][0] for op in held), default=0)
    return world


def of_feed(data):
    try:
        held = set(oracle.read_feed(data))
    except oracle.Feed as fault:
        return "feed refused: byte %d: %s" % (fault.at, CAUSES[fault.word])
    meaning = oracle.Meaning(held)
    return "ok: %d operations, %d symbols shown, %s" % (len(held), len(meaning.shown), world_of(1, held).answer(b"faults 1"))


def of_ribbon(data):
    count = int.from_bytes(data[4:8], "big")
    if len(data) < 8 or len(data) != 8 + 4 * count:
        return "ribbon refused: it has not as many rows as it says"
    for place in range(count):
        image = int.from_bytes(data[8 + 4 * place:12 + 4 * place], "big")
        row = ("bit 31 is set",) if image >> 31 else oracle.row_of(image)
        if len(row) == 1:
            return "ribbon refused: row %d: %s" % (place, row[0])
    return "ok: %d rows" % count


def sent_out(images, case, wedge):
    """The lines that rows cast, each as its positions, its matrices' widths, what they mean, and each as its cell and whether it
    has S; or the caster's first fault."""
    unit = wedge["set_q"] * (250 if wedge["pica"] == "sixth" else 249)
    fine, line, out = None, None, []
    for place in reversed(range(len(images))):
        row = oracle.row_of(images[place])
        if row[0] == "fine":
            out += [line[1:]] if line else []
            fine, line = row[1], None
        elif row[0] == "coarse":
            if fine is None:
                return "row %d: no wedges: the caster meets it before the wedges of a line are set" % place
            if line:
                return "row %d: not sent out: nothing sends out the line that this row starts" % line[0]
            line = [place, row[1], fine, [], "", []]
        else:
            cell, s = row[1], row[2]
            if line is None:
                return "row %d: no wedges: the caster meets it before the wedges of a line are set" % place
            if cell not in (*case["cells"], case["space"], *case["fill"]):
                return "row %d: no matrix: the case has neither a symbol, its space nor a fill there" % place
            line[3].append(wedge["units"][cell[1] - 1] * unit + (oracle.STEP * (15 * line[1] + line[2] - 53) if s else 0))
            line[4] = (" " if s else plain(chr(case["cells"][cell][1])) if cell in case["cells"] else "\u00b7") + line[4]
            line[5].append((cell, bool(s)))
    if line:
        return "row %d: not sent out: nothing sends out the line that this row starts" % line[0]
    return out[::-1]


def images_of(data):
    return [int.from_bytes(data[at:at + 4], "big") for at in range(8, len(data), 4)]


def cast_of(data, case, wedge):
    """The lines that bytes cast; or the line of their first fault, without its end."""
    if data[:4] != b"MRB1":
        return "no ribbon: it does not begin with MRB1"
    said = of_ribbon(data)
    if not said.startswith("ok"):
        return "no ribbon: " + said[len("ribbon refused: "):]
    return sent_out(images_of(data), case, wedge)


class Points:
    """Widths in points, by the pica of a wedge."""

    def __init__(self, wedge):
        self.point = 18000 if wedge["pica"] == "sixth" else 17928

    def down(self, atoms):
        return "%d.%d" % divmod(atoms * 10 // self.point, 10)

    def up(self, atoms):
        return "%d.%d" % divmod(-(-atoms * 10 // self.point), 10)

    def width(self, atoms):
        return "-" + self.up(-atoms) if atoms < 0 else self.down(atoms)


def line_texts(lines, points):
    """Of each line the one that `read` writes of it."""
    widths = [sum(line[2]) for line in lines]
    longest = max(widths, default=0)
    return ["%6d%5d/%-2d%10s%8s  %s\n" % (number, line[0], line[1], points.width(total), points.up(longest - total), line[3])
            for number, (line, total) in enumerate(zip(lines, widths), 1)]


def figures(lines, count, case, points, pitch):
    """The figures of a ribbon of so many rows, each of which goes a part of an inch; and how many matrices each row of the case gives."""
    widest, tightest = "none", "none"
    for number, line in enumerate(lines, 1):
        total, wedge_sum = sum(line[2]), 15 * line[0] + line[1]
        if widest == "none" or total > most:
            most, widest = total, "line %d, %s points" % (number, points.width(total))
        if tightest == "none" or wedge_sum < least:
            least, tightest = wedge_sum, "line %d, wedge sum %d" % (number, wedge_sum)
    tenths = -(-count * pitch[0] * 10 // pitch[1])
    matrices = [matrix for line in lines for matrix in line[4]]
    blank = [cell for cell, s in matrices if not s and cell not in case["cells"]]
    out = "widest    %s\ntightest  %s\n" % (widest, tightest)
    out += "length    %d.%d inches, %d/%d inch a row\n" % (*divmod(tenths, 10), *pitch)
    out += "matrices  %d\nblank     %d\n\n  row  matrices\n" % (len(matrices), len(blank))
    for row in range(1, 16):
        out += "%5d%10d\n" % (row, len([cell for cell, _ in matrices if cell[1] == row]))
    return out


def ends_of_galleys(images):
    """Where galleys end: of each FineOut row directly behind a FineOut row, the head row of the next, how many lines are before it."""
    ends, lines, last = [], 0, ""
    for image in images:
        kind = oracle.row_of(image)[0]
        lines += kind == "coarse"
        if kind == last == "fine":
            ends.append(lines)
        last = kind
    return ends


def with_marks(texts, ends):
    """Lines, and behind the line before it the mark of each end of a galley, all with the number of the line; a mark with no line
    before it has that of the first."""
    out = list(enumerate(texts, 1))
    for count, end in reversed(list(enumerate(ends, 1))):
        out.insert(end, (max(1, end), "  -- end of galley %d --\n" % count))
    return out


def reading(data, case, wedge, some=None, pitch=None):
    """What `read` writes of a ribbon by a case and a wedge, and whether it is whole: of all lines, of those from one number to
    another, or, where the way of a row is given, its figures."""
    lines, points = cast_of(data, case, wedge), Points(wedge)
    if isinstance(lines, str):
        return lines + "\n", False
    longest, count = max((sum(line[2]) for line in lines), default=0), len(images_of(data))
    out = "RIBBON %d lines, %d rows, longest %s points\n\n" % (len(lines), count, points.width(longest))
    if pitch is not None:
        return out + figures(lines, count, case, points, pitch), True
    texts = with_marks(line_texts(lines, points), ends_of_galleys(images_of(data)))
    wanted = [text for number, text in texts if some is None or some[0] <= number <= some[1]]
    return out + "  line    c/f     points   short  text\n" + "".join(wanted), True


def rows_of_lines(images, some):
    """The places of the rows of some lines: from the first of their first line, or of a later one, up to before the first of a line behind
    them. A row is of a line by the Coarse rows up to it, and a cell is of the next one."""
    lines, before = [], 0
    for image in images:
        kind = oracle.row_of(image)[0]
        before += kind == "coarse"
        lines.append(before + (kind == "cell"))
    until = next((place for place, line in enumerate(lines) if line > some[1]), len(lines))
    begin = next((place for place, line in enumerate(lines[:until]) if line >= some[0]), until)
    return range(begin, until)


def picture_of(data, some=None):
    """The title of the picture of a ribbon, or of some of its lines, and the places of the rows that it draws, the last first."""
    images = images_of(data)
    if some is None:
        rows, title = range(len(images)), "Ribbon of %d rows, as the caster meets them" % len(images)
    else:
        rows, title = rows_of_lines(images, some), "No rows of a ribbon of %d rows" % len(images)
        if rows:
            title = "Rows %d to %d of a ribbon of %d rows, as the caster meets them" % (rows[0], rows[-1], len(images))
    return title, list(reversed(rows))


def differing(names, ribbons, case, wedge):
    """What `diff` writes of two ribbons by what they cast, and whether they cast the same."""
    cast, points = [cast_of(data, case, wedge) for data in ribbons], Points(wedge)
    if any(isinstance(lines, str) for lines in cast):
        return "".join("%s: %s\n" % (plain(name), lines) for name, lines in zip(names, cast) if isinstance(lines, str)), False
    texts, found, count = [line_texts(lines, points) for lines in cast], "", 0
    for at in range(max(map(len, cast))):
        matters = [(line[0], line[1], line[4]) for lines in cast for line in lines[at:at + 1]]
        if len(matters) == 2 and matters[0] == matters[1]:
            continue
        count += 1
        for sign, lines in zip("-+", texts):
            found += "".join("%s %s" % (sign, text) for text in lines[at:at + 1])
    told = "none differs" if count == 0 else "1 differs" if count == 1 else "%d differ" % count
    heads = ["%s %d lines" % (plain(name), len(lines)) for name, lines in zip(names, cast)]
    return "%s, %s, %s\n" % (*heads, told) + ("\n" + found if found else ""), count == 0


@functools.lru_cache(64)
def toml(data):
    """The document that bytes are, or none."""
    try:
        return tomllib.loads(data.decode("utf-8"))
    except Exception:
        return None


def counted(count, name):
    return "%d %s%s" % (count, name, "" if count == 1 else "s")


def rows_fault(rows):
    """The number that is wrong in the rows of a case: of rows, or of the texts of the first row that has not as many as are wanted."""
    if not isinstance(rows, list):
        return None
    if len(rows) != 15:
        return "%s, and 15 are wanted" % counted(len(rows), "row")
    texts = [len(row) if isinstance(row, list) and all(isinstance(text, str) for text in row) else None for row in rows]
    wanted = 17 if texts[0] == 17 else 15
    for place, count in enumerate(texts, 1):
        if count != wanted:
            return None if count is None else "row %d has %s, and %d are wanted" % (place, counted(count, "text"), wanted)
    return None


def case_fault(document, fault):
    """What the line of a case begins with and holds; the whole line where a number of its rows is wrong."""
    number = document.get("case")
    wrong = rows_fault(document.get("rows")) if fault == 3 and type(number) is int and 1 <= number <= 65535 else None
    return ("case refused: `rows`: " + wrong, "") if wrong else ("case refused: ", CASE_FAULTS[fault])


def of(data):
    """Of a file: the whole line, or what it begins and ends with and holds."""
    if data[:4] in (b"MFD1", b"MFD2"):
        return of_feed(data), ""
    if data[:4] == b"MRB1":
        return of_ribbon(data), ""
    document = toml(data)
    if document is None:
        return STRANGE + ": no TOML at line ", None
    if "case" in document or "rows" in document:
        fault, case = oracle.first_fault_case(data)
        if fault:
            return case_fault(document, fault)
        return "ok: case %d, %d cells, %d sorts" % (case["number"], 15 * len(document["rows"][0]), len(case["symbols"])), ""
    if "wedge" in document or "units" in document:
        fault, wedge = oracle.first_fault_wedge(data)
        if fault:
            return "wedge refused: ", WEDGE_FAULTS[fault]
        points = ("%g" % (wedge["set_q"] / 4), wedge["set_q"])
        return "ok: wedge %d, set %s (%d quarter points), pica %s" % (wedge["wedge"], *points, wedge["pica"]), ""
    return STRANGE, ""


def differs(data, said):
    """Whether a line of `check`, without the name, is another than what is due."""
    due, holds = of(data)
    if holds == "":
        return said != due
    if holds is None:  # the line of a place in the bytes
        line = said[len(due):]
        return not (said.startswith(due) and line.isdigit() and 1 <= int(line) <= data.count(b"\n") + 1)
    return not (said.startswith(due) and holds in said)


def plain(text):
    """A text with control characters as `\\x1b` and directional marks as `<U+202E>`."""
    control = lambda ch: ch < 32 or 127 <= ch < 160
    return "".join("\\x%02x" % ord(c) if control(ord(c)) else "<U+%04X>" % ord(c) if ord(c) in DIRECTIONAL else c for c in text)


def shown(copy):
    """Symbols as they are shown: a line feed as a space, a directional mark by its name in its style."""
    out = []
    for style, ch in copy:
        out += [(0, 32)] if ch == 10 else [(style, ord(c)) for c in plain(chr(ch))]
    return out


def exported(copy):
    """The copy as text: a mark is held over spaces between words of its style, and closed before other spaces and line feeds."""
    marks, out, opened = ["", "_", "^"], [], 0
    for at, (style, ch) in enumerate(copy):
        if ch == 32:
            after = next((y for y in copy[at:] if y != (0, 32)), (0, 10))
            style = opened if after[0] == opened else 0
        if style != opened:
            out += [marks[opened], marks[style]]
            opened = style
        out.append(("\\" if chr(ch) in "_^\\" else "") + chr(ch))
    return "".join(out + [marks[opened]])


def alone(name, held, others):
    """The line of `diff` of what a feed has alone: by site, counters that follow one another as the first and the last."""
    sites = {}
    for counter, site in sorted({op[1] for op in held - others}):
        runs = sites.setdefault(site, [])
        if runs and runs[-1][1] + 1 == counter:
            runs[-1][1] = counter
        else:
            runs.append([counter, counter])
    texts = ["%d: %s" % (site, " ".join(str(a) if a == b else "%d..%d" % (a, b) for a, b in sites[site])) for site in sorted(sites)]
    return "%s alone %s" % (plain(name), ", ".join(texts) or "none")


def metal_of(data):
    """The case or the wedge that a file gives, where it is in order, and which of the two."""
    document = toml(data)
    if data[:4] in (b"MFD1", b"MFD2", b"MRB1") or document is None:
        return None, None
    if "case" in document or "rows" in document:
        return "case", oracle.first_fault_case(data)[1]
    if "wedge" in document or "units" in document:
        return "wedge", oracle.first_fault_wedge(data)[1]
    return None, None


def unfit(files):
    """The last line of `check` for files by their names: of the only case and the only wedge, where they do not go together."""
    found = {"case": [], "wedge": []}
    for name, data in files:
        kind, metal = metal_of(data)
        if metal is not None:
            found[kind].append((name, metal))
    if len(found["case"]) != 1 or len(found["wedge"]) != 1:
        return None
    (case_name, case), (wedge_name, wedge) = found["case"][0], found["wedge"][0]
    units = [wedge["units"][cell[1] - 1] for cell in case["fill"]]
    falls = all(units[k] > units[k + 1] for k in range(len(units) - 1))
    return None if falls else "%s with %s: the units of the fills do not descend" % (plain(case_name), plain(wedge_name))
