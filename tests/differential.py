#!/usr/bin/env python3
"""Scripts through the program and through the independent one beside this file; the answers must be the same.

usage: differential.py PROGRAM [SCRIPTS [SEED]]      random ones, all commands; ends with status 1 at the first difference
       differential.py PROGRAM --stored [RUNS [SEED]] random scripts on stored feeds, strict and numbered sheets among them
       differential.py PROGRAM --files [RUNS [SEED]] random commands on files: merges, imports, renewals, renumberings, ribbons
       differential.py PROGRAM --joins [RUNS [SEED]] merges and differences of rooms that correct one text, and what they leave open
       differential.py PLAYS --plays [LISTS [SEED]]  random lists of events, each through one `World::play`; PLAYS is the program script_plays
       differential.py PROGRAM --only WORD,WORD ..   some commands alone
       differential.py PROGRAM --jobs                the directed jobs of jobs.py, which stand at the limits of lines and wedges
       differential.py PROGRAM --large               one job of over 100,000 symbols
"""
import fcntl
import functools
import multiprocessing
import os
import random
import subprocess
import sys
import tempfile

HERE = os.path.dirname(os.path.abspath(__file__))
sys.path.insert(0, HERE)
import jobs
import oracle
import oracle_runs

oracle.first_fault_case = functools.lru_cache(256)(oracle.first_fault_case)  # many commands read the same files
oracle.first_fault_wedge = functools.lru_cache(256)(oracle.first_fault_wedge)

ROWS = [["" for _ in range(15)] for _ in range(15)]
for row, column, text in [(0, 0, "."), (3, 0, "t"), (4, 1, "a"), (4, 2, "i:a"), (7, 0, "n"), (13, 0, "m"), (14, 0, "M"), (14, 1, "s:M")]:
    ROWS[row][column] = text
WIDE = [row + [{3: "q", 7: "i:M"}.get(number, ""), {3: "s:a", 13: "\u00e9"}.get(number, "")] for number, row in enumerate(ROWS)]
W = 'wedge = 5\nset_q = 48\npica = "sixth"\nunits = [5, 6, 7, 8, 9, 9, 9, 10, 10, 11, 12, 13, 14, 15, 18]\n'


def case_text(fill='["O15", "A5"]', number=1, space='"G1"', rows=ROWS):
    rows = ",\n".join("[" + ",".join('"%s"' % t for t in row) + "]" for row in rows)
    return "case = %d\nspace = %s\nfill = %s\nrows = [\n%s]\n" % (number, space, fill, rows)


FILES = {
    "c": case_text(), "c2": case_text(number=2), "c_order": case_text(fill='["A5", "O15"]'), "c_one": case_text(fill='["O15"]'),
    "c_four": case_text(fill='["O15", "O8", "O5", "O1"]'), "c_nofill": case_text().replace("fill", "fills"),
    "c17": case_text(rows=WIDE), "c17_blanks": case_text(fill='["NL15", "NI5"]', space='"NI1"', rows=WIDE), "c_column": case_text(space='"NI1"'),
    "c_held": case_text(space='"A8"'), "c_bad": case_text().replace('"n"', '"nn"'),
    "w": W, "w6": W.replace("wedge = 5", "wedge = 6"), "w19": W.replace("48", "19"), "w_american": W.replace("sixth", "american"),
    "w_small": W.replace("48", "20").replace("[5,", "[4,"), "w_falls": W.replace("[5, 6", "[6, 5"), "w_bad": "wedge =",
}
LETTERS = "nnnnmmtta.M q\n\n      "


class Scripts:
    def __init__(self, pick, only):
        self.pick, self.only = pick, only
        self.sites, self.counter = [], 0
        self.feeds = []

    def site(self):
        if self.sites and self.pick.random() < 0.97:
            return self.pick.choice(self.sites)
        return self.pick.choice([0, 1, 2, 3, 7, 65535, 65536, 4294967295, 12])

    def copy(self):
        runs = []
        for _ in range(self.pick.choice([1, 1, 1, 2, 3])):
            style = self.pick.choice("rrrrris")
            size = self.pick.choice([1, 1, 2, 3, 8, 20, 60])
            text = "".join(self.pick.choice(LETTERS if style == "r" else "aM") for _ in range(size))
            if self.pick.random() < 0.03:
                text += self.pick.choice(["\t", "é", "\\", '"', "“", "\u0085", "\u00a0", "𝔐", " "])
            runs.append('%s"%s"' % (style, text.replace("\\", "\\\\").replace('"', '\\"').replace("\n", "\\n")))
        return " ".join(runs)

    def place(self):
        return self.pick.choice([0, 0, 1, 2, 3, 5, 8, 20, self.pick.randrange(0, 90)])

    def stamp(self):
        return (self.pick.randrange(0, 12) if self.pick.random() < 0.95 else self.pick.choice([1 << 62, (1 << 62) + 1, 0]), self.pick.randrange(0, 4))

    def op(self):
        """The bytes of an operation, mostly lawful."""
        kind = self.pick.choice(["insert", "insert", "insert", "delete", "delete", "set"])
        s, t = self.stamp(), self.stamp()
        if self.pick.random() < 0.9 and not t < s:
            s, t = t, s
        if self.pick.random() < 0.3:
            t = (0, 0)
        if kind == "insert":
            return oracle.spelling((kind, s, t, (self.pick.choice([0, 0, 0, 1, 2]), ord(self.pick.choice("ntam")))))
        if kind == "delete":
            return oracle.spelling((kind, s, t))
        key = self.pick.choice(oracle.KEYS)
        return oracle.spelling((kind, s, key, self.pick.choice([1, 5, 12, 16, 53, 120, 240, 300])))

    def run(self):
        """A run from an insert on; one of a count that no run has, and one of no symbol's numbers, now and then."""
        s, t = self.stamp(), self.stamp()
        if self.pick.random() < 0.9 and not t < s:
            s, t = t, s
        if self.pick.random() < 0.3:
            t = (0, 0)
        count = self.pick.choice([2, 2, 3, 5, 63, 64]) if self.pick.random() < 0.9 else self.pick.choice([0, 1, 65])
        symbols = b"".join(bytes([self.pick.choice([0, 0, 1, 2])]) + ord(self.pick.choice("ntam")).to_bytes(4, "big") for _ in range(count))
        if self.pick.random() < 0.03 and symbols:
            symbols = symbols[:-1] + b"\x09"
        return b"\x04" + oracle.spelling(("delete", s, t))[1:] + bytes([count]) + symbols

    def hex(self):
        runs = self.pick.random() < 0.5
        often, data = 0.4 if runs else 0.02, b"MFD2" if runs else b"MFD1"
        for _ in range(self.pick.choice([0, 1, 1, 2, 4, 9])):
            item = self.run() if self.pick.random() < often else self.op()
            data += item
            if item[0] == 4 and not 2 <= item[21] <= 64 and self.pick.random() < 0.7:
                data = data[:len(data) - len(item) + 22]  # the end, before the symbols of a count that no run has
                break
        if self.pick.random() < 0.1:
            data = data[:self.pick.randrange(0, len(data))]
        if self.pick.random() < 0.04 and data:
            k = self.pick.randrange(0, len(data))
            data = data[:k] + bytes([self.pick.randrange(256)]) + data[k + 1:]
        text = data.hex()
        return text.upper() if self.pick.random() < 0.1 else text

    def setting(self):
        key = self.pick.choice(oracle.KEYS)
        low, high = oracle.RANGES[key]
        usual = {"measure": 120, "tight": 38, "loose": 150, "case": 1, "wedge": 5}[key]
        value = self.pick.choice([usual] * 6 + [low, high, low - 1, high + 1, self.pick.randrange(low, high + 1)])
        return "%s %d" % (key, value)

    def line(self):
        kinds = ["site", "insert", "insert", "insert", "send", "show", "feed", "delete", "delete", "set", "set", "take", "range",
                 "merge", "faults", "settings", "ribbon", "cast", "cast", "restart", "junk", "standard"]
        kind = self.pick.choice(kinds)
        if self.only and kind not in self.only:
            return None
        if kind == "site":
            n = self.pick.choice([1, 2, 3, 1, 2, 3, 4, 5, 0, 65535, 65536])
            if n not in self.sites and 1 <= n <= 65535:
                self.sites.append(n)
            return "site %d" % n
        s = self.site()
        if kind == "insert":
            return "insert %d %d %s" % (s, self.place(), self.copy())
        if kind == "delete":
            return "delete %d %d" % (s, self.place())
        if kind == "set":
            return "set %d %s" % (s, self.setting())
        if kind == "standard":
            return "\n".join("set %d %s" % (s, t) for t in ["measure 120", "tight 38", "loose 150", "case 1", "wedge 5"])
        if kind == "take":
            return "take %d %s" % (s, self.hex() or "4d")
        if kind == "send":
            return "send %d %d" % (s, self.site())
        if kind == "range":
            a = self.pick.randrange(0, 12)
            return "send %d %d %d..%d" % (s, self.site(), a, a + self.pick.randrange(-1, 8) if a else 3)
        if kind == "merge":
            return "merge %d %d" % (s, self.site())
        if kind in ("ribbon", "cast"):
            case = self.pick.choice(["c"] * 7 + ["c17", "c17", "c17_blanks", "c_column", "c2", "c_order", "c_one", "c_one", "c_four", "c_nofill", "c_held", "c_bad", "none"])
            wedge = self.pick.choice(["w"] * 8 + ["w6", "w19", "w_american", "w_small", "w_falls", "w_bad", "none"])
            return "%s %d %s %s" % (kind, s, case, wedge)
        if kind == "junk":
            return self.pick.choice(["", "jump", "site", "site 01", "site +1", "show 1 ", " show 1", "insert 1 0", 'insert 1 0 r""', 'insert 1 0 r"a"  r"b"',
                                     'insert 1 0 x"a"', 'insert 1 0 r"\\t"', "take 1 4d4", "take 1 ", "send 1 2 1..", "send 1 2 ..1", "show 4294967296",
                                     "set 1 Measure 120", "set 1 measure 99999999999", "merge 1", "show 1\r", "delete 1 0 0", "cast 1 c", "ribbon 1  c w",
                                     "site\t1", 'insert 1 0 r"a', "send 1 2 0..0", "send 1 2 3..2", "insert 1 0 r\"a\x00b\"", "show " + "0" * 9 + "1", "x" * 70000])
        return "%s %d" % (kind, s)

    def script(self):
        out = ["site 1", "site 2"]
        self.sites = [1, 2]
        for _ in range(self.pick.choice([6, 12, 25, 60])):
            line = self.line()
            if line is not None and not (self.only and ".." in line and "range" not in self.only):
                out.append(line)
        text = "\n".join(out)
        return (text if self.pick.random() < 0.1 else text + "\n").encode("utf-8")


def random_script(seed, k, only=None):
    return Scripts(random.Random(seed * 1000003 + k), only).script()


def last_of(pick, stored, site):
    """A FEED.last for a feed, or none: of what its site made there, of a later or an earlier feed, of other sites, or garbled."""
    try:
        ops = oracle.read_feed(stored or b"MFD2")
    except oracle.Feed:
        ops = []
    made, kind = max((op[1][0] for op in ops if op[1][1] == site), default=0), pick.random()
    if kind < 0.25:
        return None
    made = max(0, made + pick.choice([0, 0, 0, 1, 1, 2, 9, -1, -2, 1 << 40]))
    lines = [(number, pick.choice([0, 1, 5, 785])) for number in (0, 1, 2, 3, 5, 7, 9, 300, 65535) if number != site and pick.random() < 0.2]
    lines += [(site, made)] if kind < 0.9 else []
    text = b"".join(b"site %d %d\n" % line for line in sorted(lines))
    if pick.random() < 0.6:
        return text
    line, wide = b"site %d %d\n" % (site, made + 1), b"site %d %d\n" % (site, 1 << 64)
    garbled = [text[:-1], text + b"\n", b"\n" + text, text + line, line + line, text.replace(b" ", b"  "), text.replace(b"\n", b"\r\n"), b"site 65536 1\n", wide,
               line.replace(b"site ", b"site 0"), b"site %d 0%d\n" % (site, made + 1), line + b"site 0 1\n", b"Site 1 1\n", b"MFD2", b"\0", b"\xff" + line, line + b"x",
               line.replace(b"\n", b" \n"), b"site %d +%d\n" % (site, made + 1), b"site %d %d\n" % (site, (1 << 64) - 1)]
    return pick.choice(garbled + [text + line[:-1], line[:-1], line.replace(b"site ", b"site 0"), text + b"x", b"site %d 0%d\n" % (site, made + 1)])


class Run:
    """A random script on a stored feed, or on a missing one, or as a script of its own: what is stored, by which site, in what manner,
    and whether another run has the feed."""

    def __init__(self, seed, k):
        pick = random.Random(seed * 1000033 + k)
        scripts = Scripts(pick, None)
        self.site, self.strict, self.number = pick.choice([1, 2, 3, 7, 65535, None]), pick.random() < 0.6, pick.random() < 0.5
        self.held, self.stored = pick.random() < 0.04, self.feed(pick, scripts) if pick.random() < 0.85 else None
        self.data = self.sheet(pick, scripts.script())
        self.last, self.older = last_of(pick, self.stored, self.site or 1), pick.random() < 0.25

    def feed(self, pick, scripts):
        """What sites of another script hold, in one of the two forms, or operations in any order and more than once; a few are damaged."""
        world = oracle.World()
        for line in oracle.lines(random_script(pick.randrange(1 << 20), 0)):
            world.answer(line)
        held = pick.choice(list(world.sites.values()))
        ops = [oracle.spelling(op) for op in held] + [oracle.spelling(op) for op in list(held)[:3]]
        pick.shuffle(ops)
        feeds = [oracle.runs_feed(held)] * 3 + [oracle.singles_feed(held), pick.choice((b"MFD1", b"MFD2")) + b"".join(ops), bytes.fromhex(scripts.hex())]
        stored = pick.choice(feeds)
        if pick.random() < 0.05:
            stored = stored[:pick.randrange(len(stored) + 1)]
        return stored

    def sheet(self, pick, script):
        """Lines of the script, of which a strict sheet has few that are refused, and lines that are passed over."""
        world, out = oracle_runs.brought(self.site, None) if self.site else oracle.World(), []
        for line in oracle.lines(script):
            line = line.replace(b" 2 ", b" %d " % (self.site or 2), 1)
            if not self.strict or pick.random() < 0.03 or not oracle_runs.is_refusal(world.answer(line)):
                out.append(line)
            if pick.random() < 0.15:
                out.append(pick.choice([b"", b"# a note", b"#", b" # no note", b"#" + b"x" * 65536, b"#" + b"x" * 65535, b"\r"]))
        return b"\n".join(out) + pick.choice([b"\n", b"\n", b"", b"\r\n"])

    def words(self):
        flags = ["--strict"] * self.strict + ["--number"] * self.number
        if self.site is None:
            return ["script", *flags]
        return ["desk", "a.feed", "--site", str(self.site), *flags] + ["--older"] * self.older

    def due(self, runs=oracle_runs):
        """Its status, what it writes and says, and what then is stored as the feed and as FEED.last."""
        if self.site is None:
            return (*runs.script(self.data, self.strict, self.number), self.stored, self.last)
        return runs.desk(self.stored, self.site, self.data, self.strict, self.number, self.held, self.last, self.older)

    def got(self, program):
        """The same by the program, in a folder of its own beside the files."""
        with tempfile.TemporaryDirectory(dir=".") as folder:
            for name in FILES:
                os.symlink("../" + name, os.path.join(folder, name))
            path = os.path.join(folder, "a.feed")
            for name, data in (("a.feed", self.stored), ("a.feed.last", self.last)):
                if data is not None:
                    with open(os.path.join(folder, name), "wb") as file:
                        file.write(data)
            with open(path + ".lock", "wb") as lock:
                if self.held:
                    fcntl.flock(lock, fcntl.LOCK_EX)
                done = subprocess.run([program, *self.words()], input=self.data, capture_output=True, cwd=folder, timeout=300)
            left = sorted(set(os.listdir(folder)) - set(FILES) - {"a.feed", "a.feed.lock", "a.feed.last"})
            now = [None, None]
            for k, name in enumerate((path, path + ".last")):
                if os.path.exists(name):
                    with open(name, "rb") as file:
                        now[k] = file.read()
            told = done.stderr.decode() + "".join("left: %s\n" % name for name in left)
            return done.returncode, done.stdout.decode("utf-8", "surrogateescape"), told, *now


def compare_stored(name, run):
    """A run through both: the number of answers, and what differs or an empty text."""
    due, got = run.due(), run.got(PROGRAM)
    if due == got:
        return due[1].count("\n"), ""
    differs = next(k for k in range(5) if due[k] != got[k])
    return 0, "%s (`%s`%s) differs in %s\n wanted %r\n    got %r\n of %r\n and %r\n%r" % (
        name, " ".join(run.words()), ", held" if run.held else "", ("status", "output", "standard error", "the stored feed", "FEED.last")[differs], due[differs], got[differs], run.stored, run.last, run.data)


class Play:
    """A random list of events over a world that begins with one site, which may hold forged operations. The list is made along with the
    world that it makes, so that most gifts are held by some site."""

    def __init__(self, seed, k):
        self.pick = random.Random(seed * 1000039 + k)
        self.scripts = Scripts(self.pick, None)
        site, held = self.pick.choice([1, 1, 1, 2, 3, 65535]), self.beginning()
        self.world, self.lines = oracle_runs.brought(site, held), [b"take %d %s" % (site, held.hex().encode())]
        if self.pick.random() < 0.05:
            self.add(*(b"site %d" % number for number in range(11, 28)))
        for _ in range(self.pick.choice([4, 12, 30, 60])):
            self.add(self.line())
        if self.pick.random() < 0.03:
            bad = [b"show 1", b"send 1 2", b"", b"site", b'insert 1 0 r"ab"', b"take 1 4d464433", b"take 1 4d46443109", b"take 1 4d4", b"merge 1 1", b"# a note"]
            self.lines.insert(self.pick.randrange(len(self.lines) + 1), self.pick.choice(bad))
        self.data = b"\n".join(self.lines) + self.pick.choice([b"\n", b"\n", b"\n", b""])

    def lawful(self, count):
        """Random operations, of which each alone is lawful."""
        out = []
        while len(out) < count:
            data = self.scripts.op()
            if not oracle.unlawful(data[0], data):
                out.append(oracle.read_op(data))
        return out

    def beginning(self):
        """The feed of the first site: of nothing, of a random script's site, or of lawful operations that no site may have made."""
        kind = self.pick.random()
        if kind < 0.4:
            return self.pick.choice([b"MFD1", b"MFD2"])
        if kind < 0.6:
            world = oracle.World()
            for line in oracle.lines(random_script(self.pick.randrange(1 << 20), 0)):
                world.answer(line)
            return self.feed(sorted(self.pick.choice(list(world.sites.values())), key=oracle.order))
        return self.feed(self.lawful(self.pick.choice([1, 3, 9, 20])))

    def feed(self, ops):
        """A feed of operations: in runs, one by one in the order given, or both in turn."""
        form = self.pick.random()
        if form < 0.4:
            return oracle.runs_feed(ops)
        if form < 0.7:
            return b"MFD1" + b"".join(map(oracle.spelling, ops))
        size = self.pick.choice([1, 2, 5])
        parts = [ops[at:at + size] for at in range(0, len(ops), size)]
        return b"MFD2" + b"".join(oracle.runs_feed(part)[4:] if self.pick.random() < 0.5 else b"".join(map(oracle.spelling, part)) for part in parts)

    def site(self):
        return self.pick.choice(list(self.world.sites)) if self.pick.random() < 0.97 else self.pick.choice([0, 9, 65535, 65536, 65537, 4294967295])

    def some(self, to):
        """Some of what a site holds, mostly another than takes it: all, a part by stamps, or any of it in any order and some of it again."""
        others = [site for site in self.world.sites if site != to and self.pick.random() < 0.9] or list(self.world.sites)
        ops = sorted(self.world.sites[self.pick.choice(others)], key=oracle.order)
        kind = self.pick.random()
        if kind < 0.3:
            return ops
        if kind < 0.6:
            at = self.pick.randrange(len(ops) + 1)
            return ops[at:self.pick.randrange(at, len(ops) + 1)]
        return self.pick.choices(ops, k=self.pick.choice([1, 2, 5, 9])) if ops else []

    def strange(self):
        """An operation that no site holds, mostly: any at all, or one that is held but for its symbol, its value or its counter."""
        held = self.pick.choice(sorted(set().union(*self.world.sites.values()), key=oracle.order) or self.lawful(1))
        kind = self.pick.random()
        if kind < 0.3:
            return self.lawful(1)[0]
        if kind < 0.5 and held[1][0] < oracle.MAX_COUNTER:
            return (held[0], (held[1][0] + 1, held[1][1]), *held[2:])
        if held[0] == "insert":
            return (*held[:3], (0, ord(self.pick.choice("ntamz"))))
        return (*held[:2], "wedge", self.pick.randrange(1, 9)) if held[0] == "set" else held

    def gift(self, to):
        ops = self.some(to)
        if self.pick.random() < 0.3:
            ops = ops + self.some(to)
        if self.pick.random() < 0.15:
            ops = list(ops)
            ops.insert(self.pick.randrange(len(ops) + 1), self.strange())
        return self.feed(ops)

    def place(self, site, beyond):
        """A place of a site's copy, up to its end or to the one before; now and then one that it has not."""
        size = len(self.world.meaning(site).shown) + beyond if site in self.world.sites else 3
        return self.pick.choice([size, size, size + 7, 4294967295]) if size == 0 or self.pick.random() < 0.08 else self.pick.randrange(size)

    def line(self):
        kind, site = self.pick.choices(["site", "insert", "delete", "set", "take", "restart"], [3, 12, 5, 3, 9, 1])[0], self.site()
        if kind == "site":
            site = self.pick.choice([1, 2, 2, 3, 3, 4, 5, 0, 65535, 65536])
            return b"site %d" % site
        if kind == "insert":
            symbol = self.pick.choice(LETTERS) if self.pick.random() < 0.95 else self.pick.choice("\u0085\u00a0\u00e9\\\"\U0001d510\x7f")
            return ("insert %d %d %s" % (site, self.place(site, 1), oracle.text_of([(self.pick.choice([0, 0, 0, 1, 2]), ord(symbol))]))).encode("utf-8")
        if kind == "delete":
            return b"delete %d %d" % (site, self.place(site, 0))
        if kind == "set":
            return b"set %d %s" % (site, self.scripts.setting().encode())
        return b"take %d %s" % (site, self.gift(site).hex().encode()) if kind == "take" else b"restart %d" % site

    def add(self, *lines):
        for line in lines:
            oracle_runs.event(self.world, line)
            self.lines.append(line)

    def due(self, runs=oracle_runs):
        """Its status, and what it writes."""
        return runs.play(self.data)


def compare_play(name, play):
    """A list of events through both: the number of lines written, and what differs or an empty text."""
    status, text = play.due()
    done = subprocess.run([PROGRAM], input=play.data, capture_output=True, timeout=300)
    wanted, got = text.encode("utf-8").split(b"\n")[:-1], done.stdout.split(b"\n")[:-1]
    if (status, wanted, status != 0) == (done.returncode, got, done.stderr != b"") and done.stdout == text.encode("utf-8"):
        return len(wanted), ""
    kept = os.path.join(tempfile.gettempdir(), "differs.events")
    with open(kept, "wb") as file:
        file.write(play.data)
    lines = play.lines[1:] + [b"what is held"] * len(wanted)
    return 0, "%s differs (status %d for %d); it is kept as %s\n%s\n%s" % (name, done.returncode, status, kept, first_difference(lines, wanted, got), done.stderr.decode())


def run(program, script, folder):
    return subprocess.run([program, "script"], input=script, stdout=subprocess.PIPE, stderr=subprocess.PIPE, cwd=folder, timeout=300)


def first_difference(lines, wanted, got):
    for k, (a, b) in enumerate(zip(wanted, got)):
        if a != b:
            at = next((i for i, (x, y) in enumerate(zip(a, b)) if x != y), min(len(a), len(b)))
            near = slice(max(0, at - 60), at + 240)
            return "answer %d, byte %d, to %r\n wanted %r\n    got %r" % (k + 1, at, lines[k][:200], a[near], b[near])
    return "%d answers wanted, %d got" % (len(wanted), len(got))


def compare(name, script):
    """A script through both: the number of answers, and what differs or an empty text. It runs in the files' folder."""
    world, lines = oracle.World(), list(oracle.lines(script))
    wanted = [world.answer(line).encode("utf-8") for line in lines]
    done = run(PROGRAM, script, os.getcwd())
    got = done.stdout.split(b"\n")[:-1]
    if done.returncode == 0 and got == wanted:
        return len(wanted), ""
    kept = os.path.join(tempfile.gettempdir(), "differs.script")
    with open(kept, "wb") as file:
        file.write(script)
    return len(wanted), "%s differs (status %d); it is kept as %s\n%s" % (name, done.returncode, kept, first_difference(lines, wanted, got))


def compare_all(files, named):
    """Named scripts in two lanes: the number of answers, or None once one differs."""
    answers = 0
    with tempfile.TemporaryDirectory() as folder:
        for name, text in files.items():
            with open(os.path.join(folder, name), "w", encoding="utf-8") as file:
                file.write(text)
        os.chdir(folder)
        with multiprocessing.get_context("fork").Pool(2) as lanes:
            for number, differs in lanes.imap(call, named):
                if differs:
                    print(differs)
                    return None
                answers += number
        os.chdir(HERE)
    return answers


def call(given):
    name, given = given
    if isinstance(given, Play):
        return compare_play(name, given)
    if hasattr(given, "differs"):
        return given.compared(name, PROGRAM)
    return compare(name, given) if isinstance(given, bytes) else compare_stored(name, given)


def large():
    """Over 100,000 symbols and 65,535 rows, keyed at two sites in turn, and a symbol deleted; what both then hold is cast."""
    pick, metal = random.Random(1), jobs.Metal(random.Random(2), 36, "sixth", units=jobs.PLAIN)
    sorts = [y for y in metal.symbols if y[0] == 0]
    lines = ["site 1", "site 2"] + ["set 1 %s %d" % it for it in jobs.settings_of(metal, 720, 16, 240).items()]
    held = 0
    for k in range(3):
        copy = []
        while len(copy) < 38000:
            for _ in range(pick.randrange(1, 160)):
                copy += [pick.choice(sorts) for _ in range(pick.randrange(7))] + [jobs.SPACE]
            copy[-1] = jobs.END
        lines += ["merge %d %d" % (1 + k % 2, 2 - k % 2), "insert %d %d %s" % (1 + k % 2, held, oracle.text_of(copy))]
        held += len(copy)
    lines += ["merge 2 1", "delete 2 50000", "merge 1 2", "ribbon 1 c w", "cast 2 c w"]
    return {"c": metal.case_text(), "w": metal.wedge_text()}, "\n".join(lines + [""]).encode("utf-8"), held


def main():
    global PROGRAM
    PROGRAM, rest = os.path.abspath(sys.argv[1]), sys.argv[2:]
    if rest == ["--jobs"]:
        made, forged = jobs.jobs(), list(jobs.forged())
        files, parts = jobs.scripts(made)
        named = [("jobs %d to %d" % (16 * k, 16 * k + 15), b"\n".join(lines + [b""])) for k, (_, lines, _) in enumerate(parts)]
        answers = compare_all(files, named + [("forged script %d" % k, script) for k, script in enumerate(forged)])
        what = "%d directed jobs and %d scripts of forged feeds" % (len(made), len(forged))
    elif rest and rest[0] == "--stored":
        count, seed = int(rest[1]) if len(rest) > 1 else 1000, int(rest[2]) if len(rest) > 2 else 1
        answers = compare_all(FILES, (("run %d of seed %d" % (k, seed), Run(seed, k)) for k in range(count)))
        what = "%d runs as sheets and on stored feeds" % count
    elif rest and rest[0] == "--files":
        import differential_files  # which imports this file
        count, seed = int(rest[1]) if len(rest) > 1 else 1000, int(rest[2]) if len(rest) > 2 else 1
        asked = (("command %d of seed %d" % (k, seed), differential_files.Asked(seed, k)) for k in range(count))
        answers = compare_all({}, asked)
        what = "%d commands on files" % count
    elif rest and rest[0] == "--joins":
        import differential_files
        count, seed = int(rest[1]) if len(rest) > 1 else 1000, int(rest[2]) if len(rest) > 2 else 1
        answers = compare_all({}, (("join %d of seed %d" % (k, seed), differential_files.Joined(seed, k)) for k in range(count)))
        what = "%d merges and differences of rooms that correct one text" % count
    elif rest and rest[0] == "--plays":
        count, seed = int(rest[1]) if len(rest) > 1 else 1000, int(rest[2]) if len(rest) > 2 else 1
        answers = compare_all({}, (("list %d of seed %d" % (k, seed), Play(seed, k)) for k in range(count)))
        what = "%d lists of events" % count
    elif rest == ["--large"]:
        files, script, held = large()
        answers = compare_all(files, [("the large job", script)])
        what = "a job of %d symbols" % held
    else:
        only = None
        if rest and rest[0] == "--only":
            only, rest = rest[1].split(","), rest[2:]
        count, seed = int(rest[0]) if rest else 200, int(rest[1]) if len(rest) > 1 else 1
        answers = compare_all(FILES, (("script %d of seed %d" % (k, seed), random_script(seed, k, only)) for k in range(count)))
        what = "%d scripts" % count
    if answers is None:
        return 1
    print("%s, %d answers, no difference" % (what, answers))
    return 0


if __name__ == "__main__":
    sys.exit(main())
