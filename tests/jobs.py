#!/usr/bin/env python3
"""Jobs that stand at the limits: lines that fit exactly or miss by the least there is, wedge sums on each side of every bound,
fills that do and do not fill, every fault and every two at once; both picas, all sets, wedges and cases of many makes.

usage: jobs.py      prints how many jobs and scripts there are, and of what kinds by the independent program

The jobs are the same at every run. `differential.py --jobs` gives them to the program, `wrong_models.py` to wrong models.
"""
import collections
import json
import math
import os
import random
import sys
import tempfile

sys.path.insert(0, os.path.dirname(os.path.abspath(__file__)))
import oracle

SEED = 1897
PICA = {"sixth": 250, "american": 249}
STEP, NEUTRAL = 648, 53
SUMS = [16, 17, 38, 52, 53, 54, 150, 239, 240, 241]
SPACE, END = (0, 32), (0, 10)
PLAIN = [5, 6, 7, 8, 9, 9, 9, 10, 10, 11, 12, 13, 14, 15, 18]
NUMBERS = [1, 2, 5, 12, 255, 256, 65535]
# With these spaces and wedge sums the limit is a whole number of atoms of the pica, so a line can meet it exactly.
EXACT = {"sixth": [(5, 28), (5, 78), (1, 178), (5, 103), (25, 48), (25, 58), (1, 53), (3, 53)],
         "american": [(1, 136), (1, 219), (2, 136), (83, 52), (83, 40), (83, 54), (1, 53), (3, 53)]}


class Metal:
    """A wedge and a case whose fills descend: what they hold, and the texts of their files."""

    def __init__(self, pick, set_q, pica, tame=True, units=None, wide=False):
        self.set_q, self.pica, self.atoms = set_q, pica, PICA[pica]
        self.case, self.wedge = pick.choice(NUMBERS), pick.choice(NUMBERS)
        self.units = units or self.steps(pick)
        self.columns = 17 if pick.random() < 0.4 else 15
        cells = [(column, row) for column in range(self.columns) for row in range(1, 16)]
        pick.shuffle(cells)
        self.symbols = {}
        for row in range(1, 16):
            self.put(cells, (0, 96 + row), row)
        for symbol in [(1, 97), (2, 97), (1, 110), (2, 65), (0, 46), (0, 0xE9), (0, 0x201C), (0, 0x1D510), (0, 34), (0, 92), (1, 0x3B1)]:
            self.put(cells, symbol, cells[-1][1])
        self.make_blanks(pick, cells, tame and not wide, wide)
        self.by_unit = collections.defaultdict(list)
        for symbol, cell in self.symbols.items():
            self.by_unit[self.unit(cell)].append(symbol)
        self.made = [True] + [False] * 120
        for total in range(1, 121):
            self.made[total] = any(u <= total and self.made[total - u] for u in self.by_unit)

    @staticmethod
    def steps(pick):
        kind = pick.randrange(4)
        if kind == 0:
            return list(PLAIN)
        if kind == 1:
            return sorted(pick.randint(1, 24) for _ in range(15))
        if kind == 2:
            return sorted(pick.randint(4, 18) for _ in range(15))
        return [1] + sorted(pick.choice([2, 3, 4, 5, 6, 9, 12, 18, 24]) for _ in range(14))

    def put(self, cells, symbol, row):
        k = next(k for k, cell in enumerate(cells) if cell[1] == row)
        self.symbols[symbol] = cells.pop(k)

    def unit(self, cell):
        return self.units[cell[1] - 1]

    def make_blanks(self, pick, cells, tame, wide):
        """The space's cell, and one to four fills; tame ones fill any line that has room for a space, wide ones few."""
        tried = [cell for cell in cells if 3 <= self.unit(cell) <= 8] or cells
        self.space = pick.choice(tried if tame else cells)
        steps = sorted(set(self.units))
        narrow = [u for u in steps if u * self.set_q * self.atoms <= 187 * STEP] if tame else []
        least = pick.choice(narrow or (steps[-3:] if wide else steps))
        wider = [u for u in steps if u > least]
        chosen = sorted(pick.sample(wider, min(len(wider), pick.randrange(4))) + [least], reverse=True)
        self.fill = [pick.choice([cell for cell in cells if self.unit(cell) == u]) for u in chosen]
        if pick.random() < 0.2 and self.unit(self.space) in chosen:
            self.fill[chosen.index(self.unit(self.space))] = self.space

    def case_text(self, **other):
        rows = [["" for _ in range(self.columns)] for _ in range(15)]
        for (style, ch), (column, row) in self.symbols.items():
            rows[row - 1][column] = ["", "i:", "s:"][style] + chr(ch)
        name = lambda cell: '"%s%d"' % (oracle.COLUMNS[cell[0]], cell[1])
        space, fill = other.get("space", self.space), other.get("fill", self.fill)
        if other.get("ragged"):
            rows[3] = rows[3][:15] if self.columns == 17 else rows[3] + ["", ""]
        lines = ["[" + ",".join(json.dumps(t, ensure_ascii=False) for t in row) + "]" for row in rows]
        return "case = %d\nspace = %s\nfill = [%s]\nrows = [\n%s]\n" % (
            other.get("case", self.case), name(space), ", ".join(map(name, fill)), ",\n".join(lines))

    def wedge_text(self, **other):
        return 'wedge = %d\nset_q = %d\npica = "%s"\nunits = %s\n' % (
            other.get("wedge", self.wedge), other.get("set_q", self.set_q), other.get("pica", self.pica), other.get("units", self.units))

    def compose(self, pick, total):
        """Symbols of so many units in all, or None."""
        out, steps = [], sorted(self.by_unit)
        while total > 100:
            out.append(pick.choice(steps[len(steps) // 3:]))
            total -= out[-1]
        if total < 0 or not self.made[total]:
            return None
        while total:
            out.append(pick.choice([u for u in steps if u <= total and self.made[total - u]]))
            total -= out[-1]
        pick.shuffle(out)
        return [pick.choice(self.by_unit[u]) for u in out]


class Job:
    """A copy, settings, and the pairs of files with which it is asked for."""

    def __init__(self, aim, copy, settings, metal, pairs=None):
        self.aim, self.copy, self.settings = aim, copy, settings
        self.pairs = pairs or [(metal.case_text(), metal.wedge_text())]

    def lines(self, site, names):
        out = ["site %d" % site]
        if self.copy:
            out.append("insert %d 0 %s" % (site, oracle.text_of(self.copy)))
        out += ["set %d %s %d" % (site, key, value) for key, value in self.settings.items() if value is not None]
        for case, wedge in self.pairs:
            out += ["%s %d %s %s" % (word, site, names[case], names[wedge]) for word in ("ribbon", "cast")]
        return out


def settings_of(metal, measure, tight, loose, **other):
    given = {"measure": measure, "tight": tight, "loose": loose, "case": metal.case, "wedge": metal.wedge}
    given.update(other)
    return given


def joined(words):
    out = []
    for k, word in enumerate(words):
        out += ([SPACE] if k else []) + word
    return out


def cut(pick, symbols, words):
    """The symbols as so many words, of which some may be empty."""
    places = range(1, len(symbols))
    if len(symbols) >= words and pick.random() < 0.9:
        at = sorted(pick.sample(places, words - 1))
    else:
        at = sorted(pick.randrange(len(symbols) + 1) for _ in range(words - 1))
    return [symbols[a:b] for a, b in zip([0] + at, at + [len(symbols)])]


# ---- one line that is aimed at a wedge sum

def least_rest(metal, spaces, total, reached):
    """The least rest, in atoms of the pica, with which so many spaces reach a wedge sum; or the greatest with which they don't."""
    need = -(-STEP * spaces * (total - NEUTRAL) // metal.atoms)
    part = math.gcd(72, metal.set_q)
    return need + -need % part if reached else need - 1 - (need - 1) % part


def aimed(pick, metal, words, spaces, total, reached, fills=0, room=(0, 200)):
    """Points of a measure and words that, with so many spaces and units of fills, leave that rest; None where there are none."""
    rest = least_rest(metal, spaces, total, reached)
    taken = spaces * metal.unit(metal.space) + fills
    found = []
    for points in range(12, 721):
        units, over = divmod(72 * points - rest, metal.set_q)
        if over == 0 and room[0] <= units - taken <= room[1]:
            found.append((points, units - taken))
    pick.shuffle(found)
    for points, units in found[:6]:
        symbols = metal.compose(pick, units)
        if symbols is not None and (len(symbols) >= words or pick.random() < 0.3):
            return points, cut(pick, symbols, words)
    return None


def tight_space(metal, tight):
    return metal.unit(metal.space) * metal.set_q * metal.atoms + STEP * (tight - NEUTRAL)


def word_over(pick, metal, points, words, tight):
    """A word that no longer fits after these, though alone with a space it does."""
    atoms = metal.set_q * metal.atoms
    inner = sum(metal.unit(metal.symbols[y]) for word in words for y in word) * atoms + (len(words) - 1) * tight_space(metal, tight)
    gap = points * 72 * metal.atoms - inner - tight_space(metal, tight)
    least = max(1, gap // atoms + 1)
    for units in ([least] if pick.random() < 0.6 else []) + list(range(least, least + 30)):
        if units < 120 and metal.made[units]:
            return metal.compose(pick, units)
    return None


def around(pick, metal, copy):
    """The copy alone, or with other paragraphs beside it; empty ones too."""
    easy = [metal.compose(pick, u) for u in (0, 9, 12) if metal.made[u]]
    before = joined_paragraphs(pick.choice([[], [], [[]], [pick.choice(easy)]]))
    after = pick.choice([[], [], [END], [END, END], [END] + pick.choice(easy)])
    return before + copy + after


def joined_paragraphs(paragraphs):
    return [y for one in paragraphs for y in one + [END]]


def ordinary(pick, metal, total, reached):
    """A line within a paragraph, aimed at a wedge sum, with `tight` or `loose` at it, next to it, or away."""
    spaces = pick.choice([1, 1, 2, 3, 4])
    tight = min(total, 240) if pick.random() < 0.4 else pick.randint(16, max(16, min(total, 60)))
    given = aimed(pick, metal, spaces + 1, spaces, total, reached, room=(spaces + 1, 140))
    if given is None:
        return None
    points, words = given
    last = word_over(pick, metal, points, words, tight)
    if last is None:
        return None
    loose = max(tight, min(240, pick.choice([total - 1, total, total + 1, 240, tight])))
    return Job("ordinary", around(pick, metal, joined(words + [last])), settings_of(metal, points, tight, loose), metal)


def filled(pick, metal, total, reached, alone=False):
    """A last line, with the added space or, where that no longer fits, without it; alone, or among others."""
    words = pick.choice([1, 1, 2, 3, 5] if not alone else [1, 1, 2])
    added = words == 1 or pick.random() < 0.7
    spaces = words - 1 + (1 if added else 0)
    fills = 0
    if total >= NEUTRAL and pick.random() < (0.8 if total < 100 else 0.4):
        fills = sum(metal.unit(pick.choice(metal.fill)) for _ in range(pick.choice([1, 2, 5])))
    given = aimed(pick, metal, words, spaces, total, reached, fills, room=(0, 120))
    if given is None:
        return None
    points, parts = given
    tight = min(max(16, total + pick.choice([-1, 0, 0, 1])), 240) if pick.random() < 0.7 else pick.randint(16, 240)
    loose = pick.randint(tight, 240)
    copy = joined(parts) if alone or pick.random() < 0.7 else parts[0] + [SPACE] + (word_over(pick, metal, points, [parts[0]], tight) or [])
    return Job("filled", copy if alone else around(pick, metal, copy), settings_of(metal, points, tight, loose), metal)


def exact(pick, metal, spaces, total):
    """A group that meets the measure exactly at `tight`, or the added space that does."""
    given = aimed(pick, metal, spaces + 1, spaces, total, True, room=(0, 400))
    if given is None:
        return None
    points, words = given
    last = pick.random() < 0.4
    if last and pick.random() < 0.6:  # the last of the spaces is the added one
        words = words[:-2] + [words[-2] + words[-1]]
    else:
        words += [] if last else [word_over(pick, metal, points, words, total) or metal.compose(pick, 18) or []]
    return Job("exact", around(pick, metal, joined(words)), settings_of(metal, points, total, pick.choice([total, 240])), metal)


def wide_word(pick, metal, side):
    """A word alone: the measure's own width, one unit on each side, or as wide with a space at `tight`."""
    tight = pick.choice([16, 38, 53, 80, 240])
    for _ in range(30):
        points = pick.randint(12, 720)
        units, over = divmod(72 * points, metal.set_q)
        if 4 <= units <= 160 and (over == 0 or pick.random() < 0.2):
            units += {"under": -1, "at": 0, "over": 1, "far": 9, "space": -metal.unit(metal.space)}[side]
            word = metal.compose(pick, units) if units >= 0 else None
            if word is not None:
                other = pick.choice([[], [SPACE] + metal.compose(pick, pick.choice([k for k in range(20) if metal.made[k]]))])
                copy = word + other if pick.random() < 0.5 else other[1:] + [SPACE] + word
                return Job("wide word", around(pick, metal, copy), settings_of(metal, points, tight, pick.randint(tight, 240)), metal)
    return None


def text(pick, metal):
    """Words as they come, at any settings."""
    words = [metal.compose(pick, pick.choice([k for k in range(1, 90) if metal.made[k]])) for _ in range(pick.choice([1, 3, 8, 20]))]
    if pick.random() < 0.2:
        words.insert(pick.randrange(len(words) + 1), [])
    copy = []
    for k, word in enumerate(words):
        copy += ([pick.choice([SPACE] * 6 + [END])] if k else []) + word
    copy += pick.choice([[], [], [END], [SPACE], [END, END], [SPACE, END]])
    points = max(12, min(720, pick.randint(40, 260) * metal.set_q // 72))
    tight = pick.choice([16, 30, 38, 45, 53, 60, pick.randint(16, 240)])
    return Job("text", copy, settings_of(metal, points, tight, pick.choice([tight, 240, pick.randint(tight, 240), 150 if tight < 150 else 240])), metal)


# ---- faults, one and two at once

def faulty(pick, metal, names):
    """A job with each named fault; those of lines come from a narrow measure or a far `loose`."""
    measure, tight, loose, case, wedge, wedge_text, fill, missing = 60, 38, 150, metal.case, metal.wedge, {}, metal.fill, []
    copy = joined([metal.compose(pick, u) or [(0, 97)] for u in (20, 31, 44)])
    for name in names:
        if name.startswith("missing"):
            missing.append(name[8:])
        elif name == "other case":
            case = pick.choice([n for n in NUMBERS if n != metal.case])
        elif name == "other wedge":
            wedge = pick.choice([n for n in NUMBERS if n != metal.wedge])
        elif name == "crossed":
            tight, loose = pick.choice([(39, 38), (240, 16), (54, 53)])
        elif name == "fill order":
            fill = (metal.fill + [metal.fill[-1]])[-4:] if len(metal.fill) == 1 or pick.random() < 0.5 else metal.fill[::-1]
        elif name == "space vanishes":
            tight = 16 if "crossed" not in names else 240
            wedge_text = {"set_q": 20, "units": [1] * 15 if "fill order" in names else [min(4, u) for u in metal.units[:14]] + [5]}
        elif name == "no matrix":
            for _ in range(pick.choice([1, 2, 3])):
                copy.insert(pick.randrange(len(copy) + 1), pick.choice([(0, 81), (1, 98), (2, 99), (0, 0x1D511), (0, 0xA0)]))
        elif name == "too wide":
            copy = copy + [END] + (metal.compose(pick, 100) or [(0, 111)] * 40) * 4
        elif name == "too loose":
            loose = tight
    given = settings_of(metal, measure, tight, loose, case=case, wedge=wedge)
    for key in missing:
        given[key] = None
    return Job(" and ".join(names), copy, given, metal, [(metal.case_text(fill=fill), metal.wedge_text(**wedge_text))])


def vanishing(pick, pica):
    """A space that at `tight` has no width, or just a little."""
    units, tight = pick.choice([1, 2, 3, 4]), pick.choice([16, 16, 17, 20, 30])
    most = STEP * (NEUTRAL - tight) // (units * PICA[pica])
    set_q = most + pick.choice([0, 1])
    if not 20 <= set_q <= 96:
        return None
    metal = Metal(pick, set_q, pica, units=([units] * pick.randint(1, 6) + [units + 1] * 3 + [9] * 6 + [18] * 6)[:15])
    metal.space = next((c, 1) for c in range(15) if (c, 1) not in metal.symbols.values())
    copy = joined([metal.compose(pick, u) or [(0, 97)] for u in (9, 18, 27, 18)])
    return Job("vanishing", copy, settings_of(metal, max(12, 70 * set_q // 72), tight, 240), metal)


FAULTS = ["missing " + key for key in oracle.KEYS] + ["other case", "other wedge", "crossed", "fill order", "space vanishes", "no matrix",
                                                      "too wide", "too loose"]


def next_door(pick, metal):
    """The same copy asked for with other files: of the same numbers and other metal, and of other numbers.

    The commands read no ribbon but the one that they have just made, so a damaged one can't be given here: tests of desk_caster do."""
    job = text(pick, metal)
    other = Metal(pick, pick.choice([metal.set_q, 20, 96]), pick.choice(list(PICA)))
    swapped = {"american": "sixth", "sixth": "american"}[metal.pica]
    job.pairs += [(metal.case_text(), metal.wedge_text(pica=swapped)),
                  (metal.case_text(), metal.wedge_text(units=metal.units[1:] + [24])),
                  (other.case_text(case=metal.case), metal.wedge_text()),
                  (other.case_text(case=metal.case), other.wedge_text(wedge=metal.wedge)),
                  (metal.case_text(case=metal.case % 65535 + 1), metal.wedge_text()),
                  (metal.case_text(), metal.wedge_text(wedge=metal.wedge % 65535 + 1))]
    # rows of both widths, and a space or a fill in a column that a case of 15 has not
    job.pairs += [(metal.case_text(ragged=True), metal.wedge_text()), (metal.case_text(space=(15, 1)), metal.wedge_text()),
                  (metal.case_text(fill=metal.fill[:3] + [(16, 15)]), metal.wedge_text())]
    job.aim = "next door"
    return job


def extremes(pick):
    """The longest line there is, the widest and the narrowest measure and set, an empty copy and empty paragraphs."""
    for pica in PICA:
        fine = Metal(pick, 20, pica, units=[1] + PLAIN[1:])
        blanks = [(c, r) for c in range(15) for r in range(1, 16) if (c, r) not in fine.symbols.values()]
        fine.space, fine.fill = next(c for c in blanks if c[1] == 4), [next(c for c in blanks if c[1] == 1)]
        yield Job("extreme", [END], settings_of(fine, 720, 16, 240), fine)  # as many fills as a line can have
        for set_q in (20, 96):
            for points in (12, 720):
                metal = Metal(pick, set_q, pica)
                for copy in ([], [END], [SPACE], [END, END], [SPACE, SPACE, END], [(0, 97)], [(0, 97), END, END, (0, 98)]):
                    yield Job("extreme", copy, settings_of(metal, points, pick.choice([16, 38, 53]), 240), metal)


def jobs():
    """All of them, always the same."""
    pick, out = random.Random(SEED), []
    keep = lambda job: out.append(job) if job is not None else None
    for set_q in range(20, 97):
        for pica in PICA:
            for k in range(3):
                metal = Metal(pick, set_q, pica, tame=k < 2)
                for make in (ordinary, filled):
                    keep(make(pick, metal, pick.choice(SUMS), pick.random() < 0.5))
                keep(exact(pick, metal, *pick.choice(EXACT[pica])))
                keep(wide_word(pick, metal, pick.choice(["under", "at", "over", "far", "space", "space"])))
                keep(text(pick, metal))
            keep(next_door(pick, Metal(pick, set_q, pica)))
            keep(vanishing(pick, pica))
    for pica in PICA:  # each bound from both sides, in both kinds of line
        for total in SUMS:
            for reached in (True, False):
                for make in (ordinary, filled):
                    for _ in range(4):
                        keep(make(pick, Metal(pick, pick.randint(20, 96), pica), total, reached))
                for _ in range(12 if total > 200 else 4):
                    keep(filled(pick, Metal(pick, pick.randint(60, 96), pica, wide=total > NEUTRAL), total, reached, alone=True))
        for spaces, total in EXACT[pica]:
            for _ in range(6):
                keep(exact(pick, Metal(pick, pick.randint(20, 96), pica), spaces, total))
    for k, first in enumerate(FAULTS):
        for second in FAULTS[k:]:
            for _ in range(6 if first == second else 3):
                metal = Metal(pick, pick.randint(20, 96), pick.choice(list(PICA)))
                keep(faulty(pick, metal, [first] if first == second else [first, second]))
    return out + list(extremes(pick))


# ---- forged feeds: few stamps, so that many fork

def forged_op(pick):
    stamp = (pick.randint(2, 7), pick.randint(1, 2))
    target = (pick.randint(1, stamp[0] - 1), pick.randint(1, 2)) if pick.random() < 0.8 else oracle.HEAD
    kind = pick.choice(["insert", "insert", "delete", "set"])
    if kind == "insert":
        return (kind, stamp, target, (0, pick.choice([97, 98])))
    if kind == "delete":
        return (kind, stamp, target if target != oracle.HEAD else (1, 1))
    return (kind, stamp, pick.choice(oracle.KEYS[:2]), pick.choice([16, 17, 240]))


def forged():
    """Scripts in which two sites take such operations in different orders, are looked at, and merge."""
    pick = random.Random(SEED)
    for _ in range(200):
        root = ("insert", (1, 1), oracle.HEAD, (0, 120))
        ops = [forged_op(pick) for _ in range(pick.choice([3, 6, 12]))] + [root] * pick.randint(0, 1)
        lines = ["site 1", "site 2"]
        for site in (1, 2):
            pick.shuffle(ops)
            for k in range(0, len(ops), 3):
                lines.append("take %d %s" % (site, (b"MFD1" + b"".join(map(oracle.spelling, ops[k:k + 3]))).hex()))
                lines += ["show %d" % site, "faults %d" % site, "settings %d" % site]
        lines += ['insert 1 0 r"y"', "set 2 tight 20", pick.choice(["delete 1 1", "restart 1", "send 2 1 0..2"]), "merge 2 1", "merge 1 2"]
        lines += ["%s %d" % (word, site) for site in (1, 2) for word in ("show", "faults", "settings", "feed")]
        yield "\n".join(lines + [""]).encode("utf-8")


# ---- as scripts

def scripts(all_jobs, size=16):
    """The files by name, and scripts of at most so many jobs, each at a site of its own: (jobs, lines, answers before each job)."""
    names, files, out = {}, {}, []
    for job in all_jobs:
        for case, wedge in job.pairs:
            for kind, content in (("c", case), ("w", wedge)):
                if content not in names:
                    names[content] = "%s%d" % (kind, len(names))
                    files[names[content]] = content
    for k in range(0, len(all_jobs), size):
        part, lines, starts = all_jobs[k:k + size], [], []
        for site, job in enumerate(part, 1):
            starts.append(len(lines))
            lines += job.lines(site, names)
        out.append((part, [line.encode("utf-8") for line in lines], starts + [len(lines)]))
    return files, out


# ---- of what kinds they are, by the independent program

def kinds_of(job):
    """The names of all that the job's first pair of files meets."""
    _, case = oracle.first_fault_case(job.pairs[0][0].encode("utf-8"))
    _, wedge = oracle.first_fault_wedge(job.pairs[0][1].encode("utf-8"))
    faults, images = oracle.job(job.copy, {key: job.settings.get(key) for key in oracle.KEYS}, case, wedge)
    early = {" ".join(f.split(" ")[:-1]) if f[-1].isdigit() else f for f in faults}
    yield from ("job: " + name for name in early)
    if images is not None:
        yield "job: ribbon with lines" if len(images) > 1 else "job: ribbon of the head row alone"
    if not faults or early & {"too wide", "too loose", "cannot fill"}:
        yield from kinds_of_lines(job, case, wedge)
    yield "pica: " + wedge["pica"]


def kinds_of_lines(job, case, wedge):
    atoms = PICA[wedge["pica"]]
    measure, tight, loose = job.settings["measure"] * 72 * atoms, job.settings["tight"], job.settings["loose"]
    unit = lambda cell: wedge["units"][cell[1] - 1] * wedge["set_q"] * atoms
    lines = oracle.lines_of(job.copy, case, wedge, measure, tight)
    space = unit(case["space"]) + STEP * (tight - NEUTRAL)
    for k, (words, filled_line, added, spaces, rest, fills) in enumerate(lines):
        word_atoms = sum(unit(case["symbols"][y]) for word in words for y in word)
        slack = measure - word_atoms - (len(words) - 1 + (1 if added else 0)) * space
        kind = "filled" if filled_line else "ordinary"
        yield "line: " + kind
        if 0 <= slack < atoms:
            yield "fit: %s, %s" % ("with the added space" if added else "the words", "exactly" if slack == 0 else "by less than 250 atoms")
        if filled_line and not added and -atoms < slack - space < 0:
            yield "fit: the added space misses by less than 250 atoms"
        if not filled_line:
            over = slack - space - sum(unit(case["symbols"][y]) for y in lines[k + 1][0][0])
            if -atoms < over < 0:
                yield "fit: the next word misses by less than 250 atoms"
        if spaces == 0:
            yield "line: too wide, the word %s" % ("fits" if word_atoms <= measure else "does not fit")
            continue
        total = NEUTRAL + rest // (STEP * spaces)
        yield "drift: " + ("wider" if total > NEUTRAL else "narrower" if total < NEUTRAL else "none")
        for name, bound in [("%d" % s, s) for s in SUMS] + [("tight", tight), ("tight - 1", tight - 1), ("loose", loose), ("loose + 1", loose + 1)]:
            if total == bound:
                yield "sum: %s at %s" % (kind, name)
        if sum(1 for n in fills if n):
            yield "fills: %d of %d used" % (sum(1 for n in fills if n), len(fills))
        if [] in words:
            yield "line: with an empty word"


def counts(all_jobs):
    found = collections.Counter()
    for job in all_jobs:
        found.update(set(kinds_of(job)))
    return found


def main():
    all_jobs = jobs()
    files, parts = scripts(all_jobs)
    print("%d jobs in %d scripts, %d files" % (len(all_jobs), len(parts), len(files)))
    for name, number in sorted(counts(all_jobs).items()):
        print("%6d  %s" % (number, name))


if __name__ == "__main__":
    main()
