"""What `proof` and `sorts` write of a copy, from the independent program beside this file, docs/FORMATS.md and docs/DEFINITIONS.md."""
import oracle
import reported

NO_GALLEY = {"crossed": "the setting tight is above loose", "fill order": "the units of the fills do not descend", "space vanishes": "a space at tight has no width"}
COPY_FAULTS = {"forked": "more than one operation has this stamp", "void": "what it hangs on cannot act", "waiting": "what it hangs on has not come"}
CASE_WORDS = {1: "it is not TOML", 2: "a key of a case is missing", 3: "a key of a case is of another type, number, length or name",
              4: "the text of a cell is no symbol", 5: "a symbol stands in two cells", 6: "the space or a fill holds a symbol"}
WEDGE_WORDS = {1: "it is not TOML", 2: "a key of a wedge is missing", 3: "a key of a wedge is of another type, length or value",
               4: "a row has fewer units than the row before"}
STYLES = ["Roman", "italic", "small capital"]
GAUGE, GREATEST = 20, 240


def inputs(names, case_data, wedge_data):
    """The case and the wedge of two files; or the second line on standard error where one is refused."""
    fault, case = oracle.first_fault_case(case_data)
    if fault:
        return "%s: %s\n" % (names[0], CASE_WORDS[fault])
    fault, wedge = oracle.first_fault_wedge(wedge_data) if wedge_data is not None else (0, None)
    return "%s: %s\n" % (names[1], WEDGE_WORDS[fault]) if fault else (case, wedge)


def bare(symbols):
    return "".join(chr(ch) for _, ch in reported.shown(symbols))


def marked(symbols):
    """The same with the marks of an export."""
    return reported.exported(reported.shown(symbols))


def name_of(symbol):
    return "%s '%s' (U+%04X)" % (STYLES[symbol[0]], bare([symbol]), symbol[1])


class Line:
    """A line of a galley: its words and where they begin and end, how it is set, its fault with its cause, and the next word."""

    def __init__(self, number, begin, end, given, widths):
        self.number, self.begin, self.end = number, begin, end
        self.words, self.filled, self.added, self.spaces, left, self.fills = given
        self.rest = left + sum(count * width for count, width in zip(self.fills, widths["fills"]))
        self.sum = 53 + left // (oracle.STEP * self.spaces) if self.spaces else None
        self.free = widths["measure"] - sum(map(widths["word"], self.words)) - len(self.words) * widths["tight"]
        self.next, self.fault, self.space = None, None, widths["tight"]

    def judge(self, tight, loose):
        if self.sum is None:
            self.fault = "too wide"
        elif self.filled and not tight <= self.sum <= GREATEST:
            self.fault = "cannot be filled (wedge sum %d, limits %d and 240)" % (self.sum, tight)
        elif not self.filled and self.sum > loose:
            self.fault = "too loose (wedge sum %d, limit %d)" % (self.sum, loose)

    def text(self):
        symbols = [symbol for word in self.words for symbol in [(0, 32)] + word][1:]
        return marked(symbols) + (" " + "\u00b7" * sum(self.fills) if any(self.fills) else "")

    def row(self, tight, loose):
        pair, gauge = "     - ", "." * (GAUGE + 1)
        if self.sum is not None:
            at = 0 if self.sum <= tight else GAUGE if self.sum >= loose else (self.sum - tight) * GAUGE // (loose - tight)
            gauge = "." * at + ("<" if self.sum < tight else ">" if self.sum > loose else "|") + "." * (GAUGE - at)
            if not self.fault:
                gauge = gauge.replace(">", "+")
            if 16 <= self.sum <= GREATEST:
                pair = "%4d/%-2d" % ((self.sum - 1) // 15, (self.sum - 1) % 15 + 1)
        return "%6d%8d%s%6s  %s %s %s\n" % (self.number, self.begin, pair, "-" if self.sum is None else self.sum, gauge, "!" if self.fault else " ", self.text())

    def way_out(self, point, width):
        down, up = (lambda atoms: "%d.%d" % divmod(abs(atoms) * 10 // point, 10)), (lambda atoms: "%d.%d" % divmod(-(-abs(atoms) * 10 // point), 10))
        if self.spaces == 0:
            return "one word and no space to justify it; with one of at least %s points it is %s points too wide" % (up(self.space), up(self.space - self.rest))
        out = "1 space" if self.spaces == 1 else "%d spaces" % self.spaces
        if self.fault.startswith("too loose"):
            if self.next is None:
                return out
            part = "%s points are free" % down(self.free) if self.free > 0 else "nothing is free"
            return out + "; the next word, '%s', is %s points too wide; %s for a part of it" % (marked(self.next), up(width(self.next) - self.free), part)
        if self.rest < 0:
            return out + "; %s points wider than the measure at neutral" % up(self.rest)
        return out + "; %s points short of the measure at neutral" % down(self.rest)

    def at_its_text(self, point, width):
        return "\nline %d: %s, places %d..%d\n  | %s\n  = %s\n" % (self.number, self.fault, self.begin, self.end, self.text(), self.way_out(point, width))


class Galley:
    """The lines of a copy, where its settings and the files have nothing against one another; symbols that the case lacks have no width."""

    def __init__(self, copy, settings, case, wedge):
        self.copy, self.settings, self.pica = copy, settings, 250 if wedge["pica"] == "sixth" else 249
        self.lacking = [at for at, symbol in enumerate(copy) if symbol not in ((0, 32), (0, 10)) and symbol not in case["symbols"]]
        wide = dict(wedge, units=wedge["units"] + [0])
        held = dict(case, symbols={**{copy[at]: (0, 16) for at in self.lacking}, **case["symbols"]})
        of_cell = lambda cell: wide["units"][cell[1] - 1] * wedge["set_q"] * self.pica
        self.width = lambda word: sum(of_cell(held["symbols"][symbol]) for symbol in word)
        measure, tight = settings["measure"] * 72 * self.pica, settings["tight"]
        self.neutral, self.fills = of_cell(case["space"]), [of_cell(cell) for cell in case["fill"]]
        self.set, self.known = 25 * wedge["set_q"], case["symbols"]
        widths = {"measure": measure, "word": self.width, "fills": self.fills, "tight": self.neutral + oracle.STEP * (tight - 53)}
        self.lines, at = [], 0
        for number, given in enumerate(oracle.lines_of(copy, held, wide, measure, tight), 1):
            begin, at = at, at + sum(len(word) + 1 for word in given[0])
            line = Line(number, begin, at - 1, given, widths)
            line.judge(tight, settings["loose"])
            if at - 1 < len(copy) and copy[at - 1] == (0, 32):
                line.next = oracle.split(oracle.split(copy[at:], (0, 10))[0], (0, 32))[0]
            self.lines.append(line)

    def head(self):
        """The counts and the settings."""
        missing = "" if not self.lacking else "%d missing sort%s, " % (len(self.lacking), "" if len(self.lacking) == 1 else "s")
        return "%d lines, %d at fault, %s" % (len(self.lines), sum(line.fault is not None for line in self.lines), missing) + self.set_by()

    def set_by(self):
        return "measure %d points, tight %d, loose %d" % tuple(self.settings[key] for key in ("measure", "tight", "loose"))

    def text(self, alone):
        tight, loose, faulty = self.settings["tight"], self.settings["loose"], [line for line in self.lines if line.fault]
        out = "GALLEY %s\n" % self.head()
        for at in self.lacking:
            out += "\nno matrix for %s at place %d\n  | %s\n" % (name_of(self.copy[at]), at, marked(self.copy[max(0, at - 24):at + 25]))
        if not alone:
            out += "\n  line   place   c/f    sum  tight ...... loose\n" + "".join(line.row(tight, loose) for line in self.lines)
        return out + "".join(line.at_its_text(72 * self.pica, self.width) for line in faulty)

    def is_clean(self):
        return not self.lacking and not any(line.fault for line in self.lines)


def missing_in(settings):
    """The keys that have no value, in their order."""
    return [key for key in oracle.KEYS if settings[key] is None]


def other_number(settings, case, wedge):
    """The key of the case or of the wedge whose number is another, what is set, and the number of the file; none where a key has no value."""
    if missing_in(settings):
        return None
    numbers = [("case", settings["case"], case["number"]), ("wedge", settings["wedge"], wedge["wedge"])]
    return next((found for found in numbers if found[1] != found[2]), None)


def no_galley(fault, settings, case, wedge):
    """Why there is no galley, if there is none for this first fault of the job."""
    keys, other = missing_in(settings), other_number(settings, case, wedge)
    if len(keys) == 1:
        return "the setting %s has no value" % keys[0]
    if keys:
        return "the settings %s and %s have no value" % (", ".join(keys[:-1]), keys[-1])
    if other:
        return "the setting {0} is {1}, and the {0} has the number {2}".format(*other)
    return NO_GALLEY.get(fault)


def no_ribbon(faults, settings):
    """The line of `punch` for the faults of a job: all the settings that are missing."""
    return "no ribbon: %s\n" % ", ".join(["missing " + key for key in missing_in(settings)] or faults)


def galley_in(copy, settings, case, wedge):
    """The galley of a copy by settings, or the line that says why there is none."""
    first = (oracle.job(copy, settings, case, wedge)[0] or [""])[0]
    why = no_galley(first, settings, case, wedge)
    return "no galley: %s\n" % why if why else Galley(copy, settings, case, wedge)


def proof(meaning, settings, case, wedge, alone=False):
    """What `proof` writes of a copy by settings, whether no fault stands, and the galley, if there is one."""
    above = "".join("%s %s: %s\n" % (kind, oracle.stamp_text(stamp), COPY_FAULTS[kind]) for kind, stamp in meaning.faults)
    galley = galley_in(meaning.copy, settings, case, wedge)
    if isinstance(galley, str):
        return above + galley, False, None
    return above + galley.text(alone), galley.is_clean() and not meaning.faults, galley


def table(case):
    """The case, a line for each row, NI and NL first."""
    order = [15, 16] + list(range(15))
    out = "\nCASE %d\n\n    " % case["number"] + "".join("%4s" % oracle.COLUMNS[column] for column in order) + "\n"
    for row in range(1, 16):
        out += "%4d" % row
        for cell in ((column, row) for column in order):
            if cell in case["cells"]:
                style, ch = case["cells"][cell]
                out += "  " + " _^"[style] + bare([(style, ch)])
            elif cell == case["space"]:
                out += "  sp"
            else:
                out += "  f%d" % (case["fill"].index(cell) + 1) if cell in case["fill"] else "  .."
        out += "\n"
    return out


def sorts(copy, case, layout=False):
    """What `sorts` writes of a copy by a case, and whether the case lacks none."""
    places = {}
    for at, symbol in enumerate(copy):
        if symbol != (0, 10):
            places.setdefault(symbol, []).append(at)
    cells = dict(case["symbols"], **{}) | {(0, 32): case["space"]}
    called = lambda symbol: "space" if symbol == (0, 32) else name_of(symbol)
    missing = [symbol for symbol in sorted(places) if symbol not in cells]
    out = "SORTS %d kinds, %d wanted, %d missing\n" % (len(places), sum(map(len, places.values())), len(missing))
    for symbol in missing:
        first = places[symbol][0]
        out += "missing %s, wanted %d, first at place %d\n  | %s" % (called(symbol), len(places[symbol]), first, marked(copy[max(0, first - 24):first + 25]))
        out += "".join(("" if k % 10 else "\n  at") + " %7d" % at for k, at in enumerate(places[symbol])) + "\n"
    out += "\n  cell   wanted  sort\n"
    for symbol in sorted(places):
        cell = cells.get(symbol)
        out += ("%4s%-2d" % (oracle.COLUMNS[cell[0]], cell[1]) if cell else "   -  ") + "%9d  %s\n" % (len(places[symbol]), called(symbol))
    return out + (table(case) if layout else ""), not missing
