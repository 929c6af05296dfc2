#!/usr/bin/env python3
"""An independent copydesk, written from docs/FORMATS.md and docs/DEFINITIONS.md: slow, plain, and not proved.

It reads a script from standard input and writes its answers, as `copydesk script` does; the tests compare the two.
Files of the commands `ribbon` and `cast` are read from the current folder.
"""
import sys
import tomllib

LIMIT = 1048576
MAX_COUNTER = 1 << 62
MAX_LINE = 65536
MAX_FILE = 67108864
STEP = 648
KEYS = ["measure", "tight", "loose", "case", "wedge"]
RANGES = {"measure": (12, 720), "tight": (16, 240), "loose": (16, 240), "case": (1, 65535), "wedge": (1, 65535)}
STYLES = "ris"
COLUMNS = list("ABCDEFGHIJKLMNO") + ["NI", "NL"]  # a case has the first 15, or all
HEAD = (0, 0)

# An operation: ("insert", stamp, parent, (style, ch)), ("delete", stamp, target), ("set", stamp, key, value).
KIND = {"insert": 1, "delete": 2, "set": 3}


def order(op):
    """By stamp, and then by bytes."""
    return (op[1], spelling(op))


def spelling(op):
    kind, stamp = op[0], op[1]
    out = bytes([KIND[kind]]) + stamp[0].to_bytes(8, "big") + stamp[1].to_bytes(2, "big")
    if kind == "insert":
        style, ch = op[3]
        return out + op[2][0].to_bytes(8, "big") + op[2][1].to_bytes(2, "big") + bytes([style]) + ch.to_bytes(4, "big")
    if kind == "delete":
        return out + op[2][0].to_bytes(8, "big") + op[2][1].to_bytes(2, "big")
    return out + bytes([KEYS.index(op[2]) + 1]) + op[3].to_bytes(4, "big")


def is_symbol(symbol):
    style, ch = symbol
    if ch in (10, 32):
        return style == 0
    return not (ch <= 0x20 or 0x7F <= ch <= 0x9F)


class Feed(Exception):
    def __init__(self, at, word):
        self.at, self.word = at, word


def unlawful(kind, data):
    """The number of the first cause against an operation's fields, or 0."""
    counter, site = int.from_bytes(data[1:9], "big"), int.from_bytes(data[9:11], "big")
    if not 1 <= counter <= MAX_COUNTER:
        return 1
    if site == 0:
        return 2
    if kind in (1, 2):
        t, s = int.from_bytes(data[11:19], "big"), int.from_bytes(data[19:21], "big")
        is_head = t == 0 and s == 0
        is_stamp = 1 <= t <= MAX_COUNTER and s != 0
        if (is_head and kind == 2) or not (is_head or is_stamp) or not t < counter:
            return 3
    if kind == 1:
        style, ch = data[21], int.from_bytes(data[22:26], "big")
        if style > 2 or ch > 0x10FFFF or 0xD800 <= ch <= 0xDFFF or not is_symbol((style, ch)):
            return 4
    if kind == 3:
        key, value = data[11], int.from_bytes(data[12:16], "big")
        if not 1 <= key <= 5:
            return 5
        low, high = RANGES[KEYS[key - 1]]
        if not low <= value <= high:
            return 6
    return 0


def stamp_at(data, at):
    return (int.from_bytes(data[at:at + 8], "big"), int.from_bytes(data[at + 8:at + 10], "big"))


def read_op(one):
    """The lawful operation of these bytes."""
    kind, stamp = one[0], stamp_at(one, 1)
    if kind == 3:
        return ("set", stamp, KEYS[one[11] - 1], int.from_bytes(one[12:16], "big"))
    if kind == 2:
        return ("delete", stamp, stamp_at(one, 11))
    return ("insert", stamp, stamp_at(one, 11), (one[21], int.from_bytes(one[22:26], "big")))


def inserts(run):
    """The bytes of each insert that a run's bytes spell."""
    counter, site = stamp_at(run, 1)
    parent = run[11:21]
    for at in range(22, len(run), 5):
        stamp = counter.to_bytes(8, "big") + site.to_bytes(2, "big")
        yield bytes([1]) + stamp + parent + run[at:at + 5]
        counter, parent = counter + 1, stamp


def read_feed(data):
    runs = {b"MFD1": False, b"MFD2": True}.get(bytes(data[:4]))
    if runs is None:
        raise Feed(0, "magic")
    ops, at = [], 4
    while at < len(data):
        kind = data[at]
        if kind not in (1, 2, 3) and not (runs and kind == 4):
            raise Feed(at, "kind")
        size = {1: 26, 2: 21, 3: 16, 4: 22}[kind]
        if len(data) - at < size:
            raise Feed(at, "cut")
        if kind == 4:
            count = data[at + 21]
            if not 2 <= count <= 64:
                raise Feed(at, "run")
            size += 5 * count
            if len(data) - at < size:
                raise Feed(at, "cut")
        one = data[at:at + size]
        for single in inserts(one) if kind == 4 else [one]:
            cause = unlawful(single[0], single)
            if cause:
                raise Feed(at, "unlawful %d" % cause)
            ops.append(read_op(single))
        at += size
    return ops


def singles_feed(held):
    """The feed of single operations, each once, by stamp and then by bytes."""
    return b"MFD1" + b"".join(spelling(op) for op in sorted(held, key=order))


def runs_feed(held):
    """The feed of runs: a clear insert is followed by those of its site that hang from it in turn, 64 at most."""
    ops, bearing = sorted(held, key=order), {}
    for op in ops:
        bearing.setdefault(op[1], []).append(op)
    clear = {s: b[0] for s, b in bearing.items() if len(b) == 1 and b[0][0] == "insert"}
    out, written = [b"MFD2"], set()
    for op in ops:
        if op in written:
            continue
        run = [op]
        while run[-1][1] in clear and len(run) < 64:
            counter, site = run[-1][1]
            after = clear.get((counter + 1, site))
            if after is None or after[2] != run[-1][1]:
                break
            run.append(after)
        written.update(run)
        if len(run) == 1:
            out.append(spelling(op))
        else:
            out.append(bytes([4]) + spelling(op)[1:21] + bytes([len(run)]) + b"".join(spelling(one)[21:] for one in run))
    return b"".join(out)


# ---- what a set of operations means

class Meaning:
    def __init__(self, held):
        ops = sorted(held, key=order)
        bearing = {}
        for op in ops:
            bearing.setdefault(op[1], []).append(op)
        clear = {s: b[0] for s, b in bearing.items() if len(b) == 1}
        live = {HEAD}
        for op in ops:  # a parent is older than its child
            if op[0] == "insert" and op[1] in clear and op[2] in live:
                live.add(op[1])
        kids = {}
        for op in ops:
            if op[0] == "insert" and op[1] in live and op[1] in clear:
                kids.setdefault(op[2], []).append(op)
        deleted = {op[2] for op in clear.values() if op[0] == "delete" and op[2] in live}
        walk, stack = [], list(kids.get(HEAD, []))
        while stack:  # greatest stamp first: the last of the ascending list is taken first
            one = stack.pop()
            walk.append(one)
            stack.extend(kids.get(one[1], []))
        self.walk, self.deleted = walk, deleted
        self.shown = [op for op in walk if op[1] not in deleted]
        self.settings = {key: None for key in KEYS}
        for op in ops:
            if op[0] == "set" and op[1] in clear:
                self.settings[op[2]] = op[3]
        self.faults, ends = [], {HEAD: HEAD}  # of each clear insert where it ends, followed up from parent to parent
        for stamp in sorted(bearing):
            if stamp not in clear:
                self.faults.append(("forked", stamp))
                continue
            op = clear[stamp]
            if op[0] == "set":
                continue
            end = ends.get(op[2], op[2])
            if op[0] == "insert":
                ends[stamp] = end
            if end != HEAD:
                self.faults.append(("void" if end in bearing else "waiting", stamp))
        self.copy = [op[3] for op in self.shown]


# ---- numbers used twice: forks, renewal, renumbering

class Refused(Exception):
    """A set that is not made, and why."""


def bearing_of(held):
    """Of each stamp the operations of a set that bear it."""
    out = {}
    for op in held:
        out.setdefault(op[1], []).append(op)
    return out


def forked(held):
    return {stamp for stamp, ops in bearing_of(held).items() if len(ops) > 1}


def renewed(held, site):
    """The copy and the settings of a set, made by one site: the settings first, then each symbol after the one before."""
    meaning, ops = Meaning(held), []
    for key in KEYS:
        if meaning.settings[key] is not None:
            ops.append(("set", (len(ops) + 1, site), key, meaning.settings[key]))
    parent = HEAD
    for symbol in meaning.copy:
        ops.append(("insert", (len(ops) + 1, site), parent, symbol))
        parent = ops[-1][1]
    return set(ops)


def collisions(one, other):
    """The stamps that are clear in both sets and borne by two operations."""
    theirs = bearing_of(other)
    return {stamp for stamp, ops in bearing_of(one).items() if len(ops) == 1 == len(theirs.get(stamp, ())) and ops != theirs[stamp]}


def renumbered(one, other, site):
    """The one set with a new number on what collides with the other and on what its site made after it; and what was moved."""
    least = {}
    for counter, number in collisions(one, other):
        least[number] = min(counter, least.get(number, counter))
    moved = {op for op in one - other if op[1][0] >= least.get(op[1][1], MAX_COUNTER + 1)}
    stamps, theirs = {op[1] for op in moved}, bearing_of(other)
    if any(site in (op[1][1], op[2][1]) for op in one | other):  # that it is borne, or named: of a setting this is a letter
        raise Refused("number in use")
    if any(op[2] in stamps for op in one - moved) or any(op[2] in stamps and op[2] not in theirs for op in other):
        raise Refused("seen by another room")
    anew = lambda stamp: (stamp[0], site) if stamp in stamps else stamp
    if len({stamp[0] for stamp in stamps}) < len(stamps):
        raise Refused("number in use")
    return one - moved | {(op[0], anew(op[1]), anew(op[2]), *op[3:]) for op in moved}, moved


# ---- units, lines, the ribbon

def first_fault_wedge(data):
    try:
        doc = tomllib.loads(data.decode("utf-8"))
    except Exception:
        return 1, None
    whole = lambda v: isinstance(v, int) and not isinstance(v, bool)
    checks = [
        ("wedge", lambda v: whole(v) and 1 <= v <= 65535),
        ("set_q", lambda v: whole(v) and 20 <= v <= 96),
        ("pica", lambda v: v in ("sixth", "american") and isinstance(v, str)),
        ("units", lambda v: isinstance(v, list) and len(v) == 15 and all(whole(u) and 1 <= u <= 24 for u in v)),
    ]
    for key, good in checks:
        if key not in doc:
            return 2, None
        if not good(doc[key]):
            return 3, None
    units = doc["units"]
    if any(units[k] < units[k - 1] for k in range(1, 15)):
        return 4, None
    return 0, doc


def cell_name(text, columns):
    """The cell that a text names in a case of so many columns, or None."""
    if not isinstance(text, str):
        return None
    for column, name in enumerate(COLUMNS[:columns]):
        if text in [name + str(row) for row in range(1, 16)]:
            return (column, int(text[len(name):]))
    return None


def cell_text(text):
    """None where it is bad, () where it is blank, else the symbol."""
    if text == "":
        return ()
    if len(text) == 1:
        symbol = (0, ord(text))
    elif len(text) == 3 and text[:2] in ("i:", "s:"):
        symbol = (1 if text[0] == "i" else 2, ord(text[2]))
    else:
        return None
    if not is_symbol(symbol) or symbol in ((0, 32), (0, 10)):
        return None
    return symbol


def first_fault_case(data):
    try:
        doc = tomllib.loads(data.decode("utf-8"))
    except Exception:
        return 1, None
    whole = lambda v: isinstance(v, int) and not isinstance(v, bool)

    def rows_good(v):
        return isinstance(v, list) and len(v) == 15 and all(
            isinstance(r, list) and len(r) == len(v[0]) in (15, 17) and all(isinstance(t, str) for t in r) for r in v)

    def columns():
        return len(doc["rows"][0])

    checks = [
        ("case", lambda v: whole(v) and 1 <= v <= 65535),
        ("rows", rows_good),
        ("space", lambda v: cell_name(v, columns()) is not None),
        ("fill", lambda v: isinstance(v, list) and 1 <= len(v) <= 4 and all(cell_name(t, columns()) is not None for t in v)),
    ]
    for key, good in checks:
        if key not in doc:
            return 2, None
        if not good(doc[key]):
            return 3, None
    symbols, cells = {}, {}
    texts = [(r, c, cell_text(doc["rows"][r][c])) for r in range(15) for c in range(columns())]
    if any(s is None for _, _, s in texts):
        return 4, None
    for r, c, symbol in texts:
        if symbol:
            if symbol in symbols:
                return 5, None
            symbols[symbol] = (c, r + 1)
            cells[(c, r + 1)] = symbol
    space, fill = cell_name(doc["space"], columns()), [cell_name(t, columns()) for t in doc["fill"]]
    if space in cells or any(f in cells for f in fill):
        return 6, None
    return 0, {"number": doc["case"], "symbols": symbols, "cells": cells, "space": space, "fill": fill}


def split(symbols, separator):
    """The parts between separators, of which there is one more than of these."""
    parts = [[]]
    for symbol in symbols:
        if symbol == separator:
            parts.append([])
        else:
            parts[-1].append(symbol)
    return parts


def lines_of(copy, case, wedge, measure, tight):
    """The words of each line, and whether it is filled."""
    pica = 250 if wedge["pica"] == "sixth" else 249
    unit = wedge["set_q"] * pica
    width = lambda cell: wedge["units"][cell[1] - 1] * unit
    space = width(case["space"])
    tight_space = space + STEP * (tight - 53)
    paragraphs = split(copy, (0, 10))
    if not paragraphs[-1]:
        paragraphs.pop()
    lines = []
    for paragraph in paragraphs:
        words = split(paragraph, (0, 32))
        widths = [sum(width(case["symbols"][y]) for y in w) for w in words]
        groups, at = [], 0
        while at < len(words):
            best = 1
            for n in range(1, len(words) - at + 1):
                if sum(widths[at:at + n]) + (n - 1) * tight_space <= measure:
                    best = n
            groups.append((at, at + best))
            at += best
        for k, (a, b) in enumerate(groups):
            filled = k + 1 == len(groups) or b - a == 1
            inner = sum(widths[a:b]) + (b - a - 1) * tight_space
            added = filled and inner + tight_space <= measure
            spaces = b - a - 1 + (1 if added else 0)
            rest = measure - sum(widths[a:b]) - spaces * space
            fills = [0] * len(case["fill"])
            if filled and rest >= 0:
                left = rest
                for j, cell in enumerate(case["fill"]):
                    fills[j] = left // width(cell)
                    left -= fills[j] * width(cell)
                rest = left
            lines.append((words[a:b], filled, added, spaces, rest, fills))
    return lines


def job(copy, settings, case, wedge):
    """The faults, or the rows' images."""
    for key in KEYS:
        if settings[key] is None:
            return ["missing " + key], None
    if settings["case"] != case["number"]:
        return ["other case"], None
    if settings["wedge"] != wedge["wedge"]:
        return ["other wedge"], None
    if settings["tight"] > settings["loose"]:
        return ["crossed"], None
    units = [wedge["units"][cell[1] - 1] for cell in case["fill"]]
    if any(units[k] <= units[k + 1] for k in range(len(units) - 1)):
        return ["fill order"], None
    pica = 250 if wedge["pica"] == "sixth" else 249
    space = wedge["units"][case["space"][1] - 1] * wedge["set_q"] * pica
    if space + STEP * (settings["tight"] - 53) <= 0:
        return ["space vanishes"], None
    lacking = ["no matrix %d" % k for k, y in enumerate(copy) if y not in ((0, 32), (0, 10)) and y not in case["symbols"]]
    if lacking:
        return lacking, None
    measure = settings["measure"] * 72 * pica
    faults, images = [], [image_fine(8)]
    for n, (words, filled, added, spaces, rest, fills) in enumerate(lines_of(copy, case, wedge, measure, settings["tight"]), 1):
        if spaces == 0:
            faults.append("too wide %d" % n)
            continue
        p = 53 + rest // (STEP * spaces)
        if filled:
            if p < settings["tight"] or p > 240:
                faults.append("cannot fill %d" % n)
                continue
        elif p > settings["loose"]:
            faults.append("too loose %d" % n)
            continue
        for k, word in enumerate(words):
            if k:
                images.append(image_cell(case["space"], True))
            images.extend(image_cell(case["symbols"][y], False) for y in word)
        if added:
            images.append(image_cell(case["space"], True))
        for cell, count in zip(case["fill"], fills):
            images.extend([image_cell(cell, False)] * count)
        images.append(image_coarse((p - 1) // 15))
        images.append(image_fine((p - 1) % 15 + 1))
    return (faults, None) if faults else ([], images)


def bit(name):
    if len(name) == 1 and "A" <= name <= "N":
        return 1 << (30 - (ord(name) - 65))
    if name == "0005":
        return 4
    if name == "0075":
        return 2
    if name == "S":
        return 1
    return 1 << (17 - int(name))


def image_cell(cell, s):
    column, row = cell
    letters = sum(bit(letter) for letter in COLUMNS[column] if letter != "O")
    return letters | (bit(str(row)) if row < 15 else 0) | (1 if s else 0)


def image_coarse(c):
    return bit("0075") | (bit(str(c)) if c < 15 else 0)


def image_fine(f):
    return bit("0005") | bit("0075") | (bit(str(f)) if f < 15 else 0)


def ribbon_bytes(images):
    return b"MRB1" + len(images).to_bytes(4, "big") + b"".join(i.to_bytes(4, "big") for i in images)


def row_of(image):
    """The row of an image, or the first cause that makes it none."""
    letters = "".join(chr(65 + k) for k in range(14) if image >> (30 - k) & 1)
    numbers = [n for n in range(1, 15) if image >> (17 - n) & 1]
    fine, coarse, s = image >> 2 & 1, image >> 1 & 1, image & 1
    if len(letters) > 1 and letters not in ("IN", "LN"):
        return ("two letters",)
    if len(numbers) > 1:
        return ("two numbers",)
    if fine and not coarse:
        return ("0005 without 0075",)
    if coarse and letters:
        return ("0075 with a letter",)
    if coarse and s:
        return ("0075 with S",)
    number = numbers[0] if numbers else 15
    if fine:
        return ("fine", number)
    if coarse:
        return ("coarse", number)
    return ("cell", (COLUMNS.index(letters[::-1] or "O"), number), s)


def cast(images, wedge):
    pica = 250 if wedge["pica"] == "sixth" else 249
    unit = wedge["set_q"] * pica
    fine, line, out = None, None, []
    for image in reversed(images):
        row = row_of(image)
        if row[0] == "fine":
            if line is not None:
                out.append(line)
                line = None
            fine = row[1]
        elif row[0] == "coarse":
            line = [15 * row[1] + fine, 0, 0]
        else:
            width = wedge["units"][row[1][1] - 1] * unit + (STEP * (line[0] - 53) if row[2] else 0)
            line[1] += 1
            line[2] += width
    return list(reversed(out))


# ---- scripts

def number(word):
    if not 1 <= len(word) <= 10 or not all("0" <= c <= "9" for c in word) or int(word) > 4294967295:
        raise ValueError
    return int(word)


def copy_of(text):
    """Symbols of one or more runs separated by one space."""
    at, out = 0, []
    while True:
        if text[at:at + 1] not in ("r", "i", "s") or text[at + 1:at + 2] != '"':
            raise ValueError
        style, at, count = STYLES.index(text[at]), at + 2, 0
        while text[at:at + 1] != '"':
            ch = text[at:at + 1]
            if ch == "":
                raise ValueError
            if ch == "\\":
                escape = text[at + 1:at + 2]
                if escape not in ("n", "\\", '"') or escape == "":
                    raise ValueError
                ch = "\n" if escape == "n" else escape
                at += 1
            out.append((style, ord(ch)))
            at, count = at + 1, count + 1
        if count == 0:
            raise ValueError
        at += 1
        if at == len(text):
            return out
        if text[at] != " ":
            raise ValueError
        at += 1


def text_of(copy):
    runs, last = [], None
    for style, ch in copy:
        if style != last:
            runs.append([style, ""])
            last = style
        runs[-1][1] += {10: "\\n", 34: '\\"', 92: "\\\\"}.get(ch, chr(ch))
    return " ".join('%s"%s"' % (STYLES[s], t) for s, t in runs)


def file_name(word):
    if not 1 <= len(word.encode("utf-8")) <= 255:
        raise ValueError
    return word


def hex_of(word):
    if len(word) < 2 or len(word) % 2 or any(c not in "0123456789abcdefABCDEF" for c in word):
        raise ValueError
    return bytes.fromhex(word)


def parse(line):
    text = line.decode("utf-8")
    name, _, rest = text.partition(" ")
    words = rest.split(" ") if " " in text else []
    if name == "insert":
        site, place, copy = rest.split(" ", 2)
        return (name, number(site), number(place), copy_of(copy))
    forms = {"site": [number], "delete": [number, number], "take": [number, hex_of], "merge": [number, number],
             "show": [number], "faults": [number], "settings": [number], "feed": [number], "restart": [number],
             "ribbon": [number, file_name, file_name], "cast": [number, file_name, file_name]}
    if name == "set":
        if len(words) != 3 or words[1] not in KEYS:
            raise ValueError
        return (name, number(words[0]), words[1], number(words[2]))
    if name == "send":
        if len(words) == 2:
            return (name, number(words[0]), number(words[1]), None)
        if len(words) != 3 or words[2].count("..") != 1 or "..." in words[2]:
            raise ValueError
        a, b = words[2].split("..")
        return (name, number(words[0]), number(words[1]), (number(a), number(b)))
    if name not in forms or len(words) != len(forms[name]):
        raise ValueError
    return (name,) + tuple(read(word) for read, word in zip(forms[name], words))


def stamp_text(stamp):
    return "%d.%d" % stamp


class World:
    def __init__(self):
        self.sites = {}
        self.greatest = {}  # of each site the greatest counter that it holds
        self.meanings = {}

    def meaning(self, site):
        if site not in self.meanings:
            self.meanings[site] = Meaning(self.sites[site])
        return self.meanings[site]

    def add(self, site, op):
        """True if it is new; an exception where the set is full."""
        if op in self.sites[site]:
            return False
        if len(self.sites[site]) >= LIMIT:
            raise OverflowError
        self.sites[site].add(op)
        self.greatest[site] = max(self.greatest.get(site, 0), op[1][0])
        self.meanings.pop(site, None)
        return True

    def gain(self, site, ops):
        new = known = 0
        for op in ops:
            try:
                if self.add(site, op):
                    new += 1
                else:
                    known += 1
            except OverflowError:
                return "stopped %d full" % (new + known) if new + known else "refused full"
        return "ok new %d known %d" % (new, known)

    def new_stamp(self, site):
        if len(self.sites[site]) >= LIMIT:
            return None, "full"
        greatest = self.greatest.get(site, 0)
        if greatest >= MAX_COUNTER:
            return None, "clock"
        return (greatest + 1, site), None

    def edit(self, site, make):
        stamp, why = self.new_stamp(site)
        if why:
            return None, why
        self.add(site, make(stamp))
        return stamp, None

    def insert(self, site, place, copy):
        shown = self.meaning(site).shown
        if place > len(shown):
            return "refused place"
        if not all(is_symbol(y) for y in copy):
            return "refused value"
        made = []
        parent = HEAD if place == 0 else shown[place - 1][1]
        for y in copy:
            stamp, why = self.edit(site, lambda s: ("insert", s, parent, y))
            if why:
                return "stopped %d %s" % (len(made), why) if made else "refused " + why
            made.append(stamp)
            parent = stamp  # the next one stands directly after this one
        return "ok " + stamp_text(made[0]) + (".." + stamp_text(made[-1]) if len(made) > 1 else "")

    def files(self, site, case_name, wedge_name):
        case_data = read_file(case_name)
        if isinstance(case_data, str):
            return "refused file " + case_data
        fault, case = first_fault_case(case_data)
        if fault:
            return "refused case %d" % fault
        wedge_data = read_file(wedge_name)
        if isinstance(wedge_data, str):
            return "refused file " + wedge_data
        fault, wedge = first_fault_wedge(wedge_data)
        if fault:
            return "refused wedge %d" % fault
        meaning = self.meaning(site)
        faults, images = job(meaning.copy, meaning.settings, case, wedge)
        if faults:
            return "no ribbon: " + ", ".join(faults)
        return images, wedge

    def answer(self, line):
        if len(line) > MAX_LINE:
            return "refused line"
        try:
            command = parse(line)
        except (ValueError, IndexError):
            return "refused command"
        name, site = command[0], command[1]
        if name == "site":
            if not 1 <= site <= 65535:
                return "refused number"
            if site in self.sites:
                return "refused known"
            if len(self.sites) >= 16:
                return "refused sites"
            self.sites[site] = set()
            return "ok"
        if site not in self.sites or (name in ("send", "merge") and command[2] not in self.sites):
            return "refused site"
        if name == "insert":
            return self.insert(site, command[2], command[3])
        if name == "delete":
            shown = self.meaning(site).shown
            if command[2] >= len(shown):
                return "refused place"
            stamp, why = self.edit(site, lambda s: ("delete", s, shown[command[2]][1]))
            return "refused " + why if why else "ok " + stamp_text(stamp)
        if name == "set":
            low, high = RANGES[command[2]]
            if not low <= command[3] <= high:
                return "refused value"
            stamp, why = self.edit(site, lambda s: ("set", s, command[2], command[3]))
            return "refused " + why if why else "ok " + stamp_text(stamp)
        if name == "take":
            try:
                ops = read_feed(command[2])
            except Feed as fault:
                return "refused feed %d %s" % (fault.at, fault.word)
            return self.gain(site, ops)
        if name == "send":
            ops = sorted(self.sites[site], key=order)
            if command[3] is not None:
                a, b = command[3]
                if not a <= b <= len(ops):
                    return "refused place"
                ops = ops[a:b]
            return self.gain(command[2], ops)
        if name == "merge":
            return self.gain(site, sorted(self.sites[command[2]], key=order))
        if name == "show":
            copy = self.meaning(site).copy
            return "copy" + (" " + text_of(copy) if copy else "")
        if name == "faults":
            faults = self.meaning(site).faults
            return "faults " + (", ".join("%s %s" % (k, stamp_text(s)) for k, s in faults) if faults else "none")
        if name == "settings":
            settings = self.meaning(site).settings
            return "settings " + " ".join("%s=%s" % (k, "-" if settings[k] is None else settings[k]) for k in KEYS)
        if name == "feed":
            return "feed " + runs_feed(self.sites[site]).hex()
        if name == "restart":
            return "ok"
        given = self.files(site, command[2], command[3])
        if isinstance(given, str):
            return given
        images, wedge = given
        if name == "ribbon":
            return "ribbon " + ribbon_bytes(images).hex()
        lines = cast(images, wedge)
        return "lines %d" % len(lines) + "".join(" %d/%d" % (n, total) for _, n, total in lines)


def read_file(name):
    if "\0" in name:
        return "device"
    try:
        with open(name, "rb") as file:
            data = file.read(MAX_FILE + 1)
    except (FileNotFoundError, NotADirectoryError):
        return "missing"
    except OSError:
        return "device"
    return "large" if len(data) > MAX_FILE else data


def lines(data):
    parts = data.split(b"\n")
    for k, part in enumerate(parts):
        if k + 1 < len(parts):
            yield part[:-1] if part.endswith(b"\r") else part
        elif part:
            yield part


def main():
    world, out = World(), sys.stdout.buffer
    for line in lines(sys.stdin.buffer.read()):
        out.write(world.answer(line).encode("utf-8", "surrogatepass") + b"\n")


if __name__ == "__main__":
    main()
