"""The kinds of inputs of slowest.py: honest ones, shapes that could cost most, changes of these, and the commands that read them.

A kind's input is the file `one`. Beside it are an honest feed, text, case, wedge and ribbon. A command is a text of words:
`<NAME` is standard input, and `{half}` the first half of `one`, at most 100,000 bytes.
"""
import os
import random
import tomllib
from importlib.machinery import SourceFileLoader
from types import ModuleType

HERE = os.path.dirname(os.path.abspath(__file__))
from_work = ModuleType("kinds")
SourceFileLoader("kinds", os.path.join(HERE, "..", "bench", "kinds")).exec_module(from_work)
insert, delete, stamp, HEAD = from_work.insert, from_work.delete, from_work.stamp, from_work.HEAD
METAL = "--case case --wedge wedge"
WORDS = "the sheets are in a galley of type and rows send word by noon to all rooms that key copy or cast it".split()


def example(name):
    with open(os.path.join(HERE, "..", "examples", name), "rb") as file:
        return file.read()


def setting(of, key, value):
    return b"\x03" + stamp(of) + bytes([key]) + value.to_bytes(4, "big")


def run(of, parent, symbols):
    """A run of inserts; a symbol is a style and a character."""
    return b"\x04" + stamp(of) + stamp(parent) + bytes([len(symbols)]) + b"".join(bytes([style]) + ord(ch).to_bytes(4, "big") for style, ch in symbols)


def runs(text, site=1, first=1, parent=HEAD):
    """A text typed by a site, in runs."""
    out = []
    for at in range(0, len(text), 64):
        part = [(0, ch) for ch in text[at:at + 64]]
        out.append(run((first + at, site), parent, part) if len(part) > 1 else insert((first + at, site), parent, part[0][1]))
        parent = (first + at + len(part) - 1, site)
    return out


def prose(pick, size):
    """An honest text: lines of some sentences."""
    out, length = [], 0
    while length < size:
        words = [pick.choice(WORDS) for _ in range(pick.randrange(6, 14))]
        words[0] = words[0].capitalize()
        out.append(" ".join(words) + "." + ("\n" if pick.random() < 0.2 else " "))
        length += len(out[-1])
    return "".join(out)[:size]


def honest_ops(count, other):
    """A site types so many symbols, and another corrects: of twenty it deletes one and inserts one."""
    ops, last, pick = runs(prose(random.Random(count), count)), count, random.Random(other)
    for _ in range(count // 20):
        ops += [delete((last + 1, other), (pick.randint(1, count), 1)), insert((last + 2, other), (pick.randint(1, count), 1), "e")]
        last += 2
    return ops + job(last)


def honest_feed(size, other=2):
    return fitted(lambda n: feed(honest_ops(n, other)), size)


def feed(ops):
    return b"MFD2" + b"".join(ops)


def job(last):
    """The settings of a job, after a counter."""
    return [setting((last + key, 1), key, value) for key, value in ((1, 300), (2, 40), (3, 150), (4, 12), (5, 5))]


def of_text(text):
    """A feed that has a text as its copy, and the settings of a job."""
    return feed(runs(text) + job(len(text)))


def fitted(make, size):
    """The largest input of a shape that has no more bytes, about."""
    n, data = size, None
    while data is None or len(data) > size and n > 1:
        n = n if data is None else max(1, min(n - 1, n * size // len(data)))
        data = make(n)
    return data


class Kind:
    """By default an input has lines as parts, and its parts are not changed."""

    def files(self, one, size):
        return {}

    def pieces(self, data):
        return data.splitlines(keepends=True)

    def joined(self, pieces):
        return b"".join(pieces)

    def twisted(self, pick):
        return lambda piece: piece

    def changed(self, pick, data, other, size):
        parts, theirs = self.pieces(data), self.pieces(other)
        for _ in range(pick.choice([1, 1, 2, 4])):
            a, b = sorted(pick.randrange(len(parts) + 1) for _ in range(2))
            way, part = pick.randrange(7), parts[a:b]
            if way == 0:
                part.reverse()
            elif way == 1:
                pick.shuffle(part)
            elif way == 2 and part:
                part = part[:pick.choice([1, 2, 3, 20])]
                part *= max(1, (b - a) // len(part))
            elif way == 3:
                part = theirs[a:b]
            elif way == 4:
                part = [it for both in zip(part, theirs[a:b]) for it in both]
            elif way == 5:
                parts, part = parts[:a] + parts[b:], []
                parts, b = part + parts, 0
                a = 0
            else:
                part = list(map(self.twisted(pick), part))
            parts[a:b] = part
        return self.joined(parts)[:size]


class Feeds(Kind):
    name = "feeds"
    commands = ["check one", "export one", "export one --at 100", "log one", "log one e", "rooms one", "renew new one --site 9", "diff one honest", "diff honest one", "diff one --at 100",
                "merge one honest --forks", "merge honest one --forks", "renumber one honest --site 9", "desk one --site 9 <script", "import one --site 9 --all <text",
                "replace one --site 9 --all e o", "find one e", f"proof one {METAL}", f"punch one {METAL} -o new", "sorts one --case case"]

    def honest(self, pick, size):
        """What another site corrected in the same copy."""
        return honest_feed(size, 3)

    def shapes(self, pick, size):
        size -= 4
        n = size // 26
        up, letters = range(1, n + 1), "aei o\nn"
        chain = lambda k, site=1: insert((k, site), (k - 1, site) if k > 1 else HEAD, letters[k % 7])
        for every in (1, 2, 5, 20, 100):
            ops, last = [], HEAD
            for k in up:
                ops.append(insert((k, 1), last, "a"))
                if k % every == 0:
                    ops.append(insert((k, 1), last, "b"))
                last = last if k % every == 0 and every > 1 else (k, 1)
            yield "one in %d forks" % every, ops[:n]
            yield "one in %d forks, in no order" % every, pick.sample(ops[:n], n)
        yield "falling chain", [chain(k) for k in reversed(up)]
        yield "siblings", [insert((k, 1), HEAD, letters[k % 7]) for k in up]
        yield "siblings in no order", pick.sample([insert((k, 1 + k % 900), HEAD, letters[k % 7]) for k in up], n)
        yield "chain in no order", pick.sample([chain(k) for k in up], n)
        yield "all wait for one", [insert((k + 1, 1), (1, 9), "a") for k in up]
        yield "a chain waits, and its root comes last", [chain(k) for k in up[1:]] + [chain(1)]
        yield "siblings wait, and their root comes last", [insert((k + 1, 1), (1, 9), "a") for k in up[:-1]] + [insert((1, 9), HEAD, "a")]
        yield "each deleted first", [op for k in up[:n // 2] for op in (delete((n + k, 2), (k, 1)), chain(k))]
        yield "one deleted by all", [insert((1, 1), HEAD, "a")] + [delete((k + 1, 2), (1, 1)) for k in up]
        yield "deletes of deletes", [delete((k + 1, 2), (k, 2)) for k in up]
        yield "settings", [setting((k, 1), 1 + k % 5, 40) for k in range(1, size // 16)]
        yield "forked settings", [setting((1 + k // 400, 1), 1, 12 + k % 400) for k in range(1, size // 16)]
        yield "one stamp forks", [insert((1, 1), HEAD, chr(0x4E00 + k % 20000)) for k in up]
        yield "a site each", [insert((k, 1 + k % 65535), (k - 1, 1 + (k - 1) % 65535) if k > 1 else HEAD, "e") for k in up]
        yield "gaps", [insert((2 * k, 1), (2 * k - 2, 1) if k > 1 else HEAD, "e") for k in up]
        yield "one operation", [chain(1)] * n
        yield "binary tree", [insert((k, 1), (k // 2, 1) if k > 1 else HEAD, letters[k % 7]) for k in up]
        yield "random tree", [insert((k, 1), (pick.randint(1, k - 1), 1) if k > 1 else HEAD, letters[k % 7]) for k in up]
        yield "comb", [insert((k, 1 + k % 2), (k - 2, 1) if k % 2 == 0 and k > 2 else (k - 1, 2) if k > 1 and k % 2 == 0 else HEAD, "e") for k in up]
        symbols = size * 64 // 342
        for name, text in (("one word", "a" * symbols), ("spaces", " " * symbols), ("line feeds", "\n" * symbols), ("marks", "_^\\" * (symbols // 3)), ("letters apart", "e " * (symbols // 2)), ("prose", prose(pick, symbols))):
            yield name, runs(text)
        styled = [(k % 3, "e") for k in range(64)]
        yield "styles in turn", [run((1 + 64 * k, 1), (64 * k, 1) if k else HEAD, styled) for k in range(size // 342)]
        yield "runs of one stamp", [run((1, 1), HEAD, [(0, "ab"[k >> j & 1]) for j in range(64)]) for k in range(size // 342)]
        yield "runs that overlap", [run((1 + k, 1), (k, 1) if k else HEAD, [(0, "e")] * 64) for k in range(size // 342)]
        yield "runs that fork", [run((1 + 32 * k, 1), (32 * k, 1) if k else HEAD, [(0, "ae"[k % 2])] * 64) for k in range(size // 342)]

    def files(self, one, size):
        return {"script": b"", "text": prose(random.Random(1), size // 9).encode()}

    def pieces(self, data):
        out, at = [], 4
        while at < len(data):
            size = {1: 26, 2: 21, 3: 16, 4: 22 + 5 * (data[at + 21] if at + 21 < len(data) else 0)}.get(data[at], len(data))
            out.append(data[at:at + size])
            at += size
        return out

    def joined(self, pieces):
        return feed(pieces)

    def changed(self, pick, data, other, size):
        """Cut at an operation."""
        parts, used = self.pieces(super().changed(pick, data, other, 2 * size)), 4
        for count, part in enumerate(parts):
            used += len(part)
            if used > size:
                return feed(parts[:count])
        return feed(parts)

    def twisted(self, pick):
        """A change of operations: another parent, site, counter or symbol, a second symbol, or a delete."""
        way, number = pick.randrange(8), pick.randrange(1, 1000)
        pad = lambda it: it if it[0] in (2, 3) else it[:11] + number.to_bytes(8, "big") + it[19:]
        return {
            0: lambda it: it if it[0] == 3 or int.from_bytes(it[1:9], "big") <= number else pad(it),
            1: lambda it: it if it[0] == 3 else it[:11] + max(0, int.from_bytes(it[1:9], "big") - 1).to_bytes(8, "big") + it[9:11] + it[21:],
            2: lambda it: it[:9] + number.to_bytes(2, "big") + it[11:],
            3: lambda it: it[:1] + (int.from_bytes(it[1:9], "big") + number).to_bytes(8, "big") + it[9:],
            4: lambda it: it[:22] + ord(pick.choice("ae \n_")).to_bytes(4, "big") + it[26:] if it[0] == 1 else it,
            5: lambda it: it + it[:22] + ord("#").to_bytes(4, "big") if it[0] == 1 else it,
            6: lambda it: it + delete((int.from_bytes(it[1:9], "big") + number, 3), (int.from_bytes(it[1:9], "big"), int.from_bytes(it[9:11], "big"))),
            7: lambda it: it[:11] + bytes(10) + it[21:] if it[0] in (1, 4) else it,
        }[way]


class Scripts(Kind):
    name = "scripts"
    commands = ["script <one", "script --strict <one", "script --number <one", "desk honest --site 1 <one"]

    def honest(self, pick, size):
        """A copy is typed, 50 symbols a command, and corrected."""

        def make(n):
            lines = ["site 1", *from_work.typing(1, n, random.Random(n))]
            for k in range(n // 40):
                lines += ['insert 1 %d r"e"' % (k * 37 % n), "delete 1 %d" % (k * 53 % n)]
            return "\n".join([*lines, "show 1", ""]).encode()

        return fitted(make, size)

    def shapes(self, pick, size):
        for kind in from_work.KINDS:
            lines = lambda n, kind=kind: kind(max(n, 40), random.Random(n))[0]
            if kind(40, random.Random(1))[1] is None:
                yield kind.__name__, fitted(lambda n: "\n".join([*lines(n), ""]).encode(), size)
        for every in (2, 20):
            yield "takes of forks, one in %d" % every, fitted(lambda n: self.takes(n, every, 1), size)
            yield "takes of forks, one in %d, in lists" % every, fitted(lambda n: self.takes(n, every, 50), size)
        half = size // 2
        typed = ["site 1", *from_work.typing(1, half * 5 // 6, random.Random(2))]
        for line in ("show 1", "faults 1", "settings 1", "feed 1", "restart 1", "merge 1 1", "send 1 1", "ribbon 1 case wedge", "cast 1 case wedge", "delete 1 0", "x", 'insert 1 0 r"a"'):
            yield line, "\n".join([*typed, *["set 1 %s" % it for it in ("measure 300", "tight 40", "loose 150", "case 12", "wedge 5")], *[line] * (half // (len(line) + 1)), ""]).encode()
        yield "merges of two", "\n".join(["site 2", *typed, *["merge 2 1"] * (half // 10)]).encode()
        yield "no site", b"show 1\n" * (size // 7)
        yield "no commands", b"\n" * size
        yield "long lines", (b"x" * 65535 + b"\n") * (size // 65536 + 1)
        yield "too long lines", (b"x" * 65537 + b"\n") * (size // 65538 + 1)
        yield "one line", b"x" * size

    @staticmethod
    def takes(n, every, each):
        _, data = from_work.forked(n, random.Random(n)) if every == 20 else ((), b"MFD1" + b"".join(insert((1 + k // 2, 2), (k // 2, 2) if k > 1 else HEAD, "ab"[k % 2]) for k in range(n)))
        ops = [data[at:at + 26] for at in range(4, len(data), 26)]
        return "\n".join(["site 1", *["take 1 " + (b"MFD1" + b"".join(ops[at:at + each])).hex() for at in range(0, len(ops), each)], "show 1", ""]).encode()

    def twisted(self, pick):
        line = pick.choice([b"show 1\n", b"faults 1\n", b"delete 1 0\n", b'insert 1 0 r"a"\n', b"merge 1 2\n", b"merge 2 1\n", b"send 2 1\n", b"restart 1\n", b"set 1 measure 40\n", b"site 2\n"])
        return lambda piece: line


class Texts(Kind):
    name = "texts"
    commands = ["import new --site 1 --all <one", "import new --site 1 --all --plain <one", "import honest --site 2 --all <one", "import turned --site 2 --all <one", f"proof --text one {METAL} --set measure=300 --set tight=40 --set loose=150",
                f"proof --text one {METAL} --set measure=60 --set tight=40 --set loose=150 --faults --warn", f"proof --text one {METAL} --set measure=60 --set tight=40 --set loose=150 --html new",
                f"proof --text one {METAL} --set measure=720 --set tight=40 --set loose=150 --svg new", f"punch copy {METAL} -o new", "sorts copy --case case", "export copy",
                "find copy -- {half}", "replace copy --site 2 --all -- {half} e", "log copy -- {half}", "diff copy honest", "diff copy turned"]

    def honest(self, pick, size):
        return prose(pick, size).encode()

    def shapes(self, pick, size):
        blocks = {"one word": "a", "spaces": " ", "line feeds": "\n", "letters apart": "a ", "lines of a letter": "a\r\n", "escapes": "\\_", "marks": "_a_^b^", "quotes": '_"_', "points": " .", "hyphens": "a- ", "two letters": "ab",
                  "wide words": "m" * 40 + " ", "what the case lacks": "~ ", "three bytes each": "\u20ac", "four bytes each": "\U0001d510", "Fibonacci": "", "long words": "a" * 999 + " ", "long lines": "e " * 4000 + "\n", "marks of a line": "_" + "a" * 60 + "_\n"}
        for name, block in blocks.items():
            if name == "Fibonacci":
                one, block = "b", "a"
                while len(block) < size:
                    one, block = block, block + one
            yield name, (block * (size // len(block.encode()) + 1)).encode()[:size]
        yield "letters in no order", "".join(pick.choice("ab") for _ in range(size)).encode()
        yield "words in no order", "".join(pick.choice("ab \n") for _ in range(size)).encode()
        yield "one letter, and another at its middle", b"a" * (size // 2 - 1) + b"b" + b"a" * (size // 2)

    def files(self, one, size):
        """A feed with the text as its copy, as far as it has characters, and one with it turned."""
        text = "".join(ch for ch in one.decode("utf-8", "ignore") if ch == "\n" or ch.isprintable())
        return {"copy": of_text(text), "turned": of_text(text[::-1])}

    def pieces(self, data):
        return [data[at:at + 7] for at in range(0, len(data), 7)]

    def twisted(self, pick):
        way, one = pick.randrange(5), pick.choice([b"a", b"e", b" ", b"\n", b".", b"-", b"m"])
        return {0: lambda it: one * len(it), 1: lambda it: it.replace(b" ", one), 2: lambda it: it[:3] + one + it[4:], 3: lambda it: it[::-1], 4: lambda it: b"\\" + b"_^"[len(it) % 2:][:1] + it[2:]}[way]


class Toml(Kind):
    """What a case and a wedge have besides their keys, before these or behind."""

    def honest(self, pick, size):
        note = lambda k: b"# %s\nnote_%d = \"%s\"\n" % (prose(pick, 60).replace("\n", " ").encode(), k, prose(pick, 60).replace("\n", " ").encode())
        return self.filled(note, size, size)

    def filled(self, line, size, most=1 << 60):
        out, left, k = [], size - len(self.own), 0
        while left > 0 and k < most:
            out.append(line(k))
            left -= len(out[-1])
            k += 1
        return self.own + b"".join(out if left >= 0 else out[:-1])

    def shapes(self, pick, size):
        left = size - len(self.own) - 40
        yield "keys", self.filled(lambda k: b"k%d=1\n" % k, size)
        yield "keys in no order", self.filled(lambda k: b"%x=1\n" % (k * 2654435761 % (1 << 32)), size)
        yield "tables", self.filled(lambda k: b"[t%d]\n" % k, size)
        yield "tables of tables", self.filled(lambda k: b"[[t]]\n", size)
        yield "tables in tables of tables", self.filled(lambda k: b"[[t.u]]\n", size)
        yield "tables in tables", self.filled(lambda k: b"[%s]\n" % b".".join(b"a%d" % it for it in range(k % 60, k % 60 + 30)) if k % 60 == 0 else b"[a%d.b%d]\n" % (k % 60, k), size)
        yield "dotted keys", self.filled(lambda k: b"a.b%d = 1\n" % k, size)
        yield "deep dotted keys", self.filled(lambda k: b".".join([b"d%d" % k, *[b"a"] * 70]) + b" = 1\n", size)
        yield "deeper dotted keys", self.filled(lambda k: b".".join([b"d%d" % k, *[b"a"] * 3000]) + b" = 1\n", size)
        yield "one dotted key", self.own + b"x" + b".a" * (left // 2) + b" = 1\n"
        yield "one long key", self.own + b"k" * left + b" = 1\n"
        yield "keys of one front", self.filled(lambda k: b"%s%d = 1\n" % (b"k" * 200, k), size)
        yield "one long text", self.own + b"k = \"" + b"x" * left + b"\"\n"
        yield "one long text of escapes", self.own + b"k = \"" + b"\\n" * (left // 2) + b"\"\n"
        yield "one text of lines", self.own + b"k = \"\"\"" + b"\n" * left + b"\"\"\"\n"
        yield "one text of ended lines", self.own + b"k = \"\"\"" + b"\\\n" * (left // 2) + b"\"\"\"\n"
        yield "one long array", self.own + b"k = [" + b"1," * (left // 2) + b"]\n"
        yield "arrays of none", self.own + b"k = [" + b"[]," * (left // 3) + b"]\n"
        yield "inline tables", self.own + b"k = [" + b"{a=1}," * (left // 6) + b"]\n"
        yield "one inline table", self.own + b"k = {" + b",".join(b"a%d=1" % k for k in range(left // 9)) + b"}\n"
        yield "deep arrays", self.own + b"k = [" + (b"[" * 78 + b"]" * 78 + b",") * (left // 157) + b"]\n"
        yield "deepest arrays", self.own + b"k = " + b"[" * left
        yield "one long number", self.own + b"k = " + b"1" * left + b"\n"
        yield "one long fraction", self.own + b"k = 0." + b"1" * left + b"\n"
        yield "one long comment", self.own + b"#" * left
        yield "comments", self.filled(lambda k: b"#\n", size)
        yield "line feeds", self.own + b"\n" * left
        yield "spaces", self.own + b" " * left
        yield "dates", self.filled(lambda k: b"d%d = 1979-05-27T07:32:00.999999Z\n" % k, size)
        yield "fractions", self.filled(lambda k: b"f%d = 1.7976931348623157e308\n" % k, size)
        yield "no TOML", b"=" * size
        yield "no TOML at its end", self.filled(lambda k: b"k%d=1\n" % k, size - 2) + b"=="
        yield "no UTF-8 at its end", self.filled(lambda k: b"#\n", size - 2) + b"\xff"
        yield from self.more(left)

    def more(self, left):
        return ()

    def twisted(self, pick):
        number, way = pick.randrange(1000), pick.randrange(4)
        return {0: lambda it: b"x%d." % number + it, 1: lambda it: b"[y%d]\n" % number + it, 2: lambda it: it.replace(b"=", b".z=", 1), 3: lambda it: b"[[v%d]]\n" % (number % 3) + it}[way]


class Cases(Toml):
    name, own = "cases", example("case12.toml")
    commands = ["check one", "sorts honest --case one --layout", "proof honest --case one --wedge wedge", "punch honest --case one --wedge wedge -o new", "read ribbon --case one --wedge wedge", "script <script"]

    def files(self, one, size):
        return {"script": b"site 1\nribbon 1 one wedge\n"}

    def more(self, left):
        rows = self.own.partition(b"rows = [")
        yield "many rows", rows[0] + b"rows = [" + b"[\"\"]," * (left // 5) + b"]\n"
        yield "a long row", rows[0] + b"rows = [[" + b"\"\"," * (left // 3) + b"]]\n"
        yield "a long cell", rows[0] + b"rows = [[\"" + b"x" * left + b"\"]]\n"
        yield "many fills", self.own.replace(b"fill", b"full") + b"fill = [" + b"\"A1\"," * (left // 5) + b"]\n"


class Wedges(Toml):
    name, own = "wedges", example("wedge5.toml")
    commands = ["check one", "proof honest --case case --wedge one", "punch honest --case case --wedge one -o new", "read ribbon --case case --wedge one", "script <script"]

    def files(self, one, size):
        return {"script": b"site 1\nribbon 1 case one\n"}

    def more(self, left):
        yield "many units", self.own.replace(b"units", b"unit") + b"units = [" + b"9," * (left // 2) + b"]\n"


class Rooms(Toml):
    """The file of a room has at most 8,192 bytes; a larger one is refused."""
    name, own = "rooms", b'site = 2\ncase = "case"\nwedge = "wedge"\n'
    commands = ["check copydesk.toml", "proof honest", "import new --all <text"]

    def files(self, one, size):
        return {"copydesk.toml": one, "text": b"a\n"}


class Ribbons(Kind):
    name = "ribbons"
    commands = ["check one", f"read one {METAL}", f"read one {METAL} --stats", f"read one {METAL} --stats --pitch 1/8", f"read one {METAL} --lines 1..1 --svg new", f"read one {METAL} --svg new", f"diff one ribbon {METAL}", f"diff ribbon one {METAL}", f"diff one one {METAL}"]
    cell, coarse, fine = b"\0\x02\0\0", b"\0\0\x20\2", b"\0\0\x02\6"

    def honest(self, pick, size):
        """Lines of 50 matrices."""
        rows = [self.fine]
        for _ in range((size // 4 - 3) // 52):
            rows += [pick.choice(CELLS) for _ in range(50)] + [self.coarse, self.fine]
        return self.joined(rows)

    def shapes(self, pick, size):
        n = size // 4 - 5
        blocks = {"one long line": [self.cell], "lines of no matrix": [self.coarse, self.fine], "lines of a matrix": [self.cell, self.coarse, self.fine], "galleys": [self.fine], "galleys of a line": [self.fine, self.coarse, self.fine],
                  "no meaning": [b"\0\0\0\0"], "blank cells": [b"\0\x40\0\x08"], "Coarse alone": [self.coarse], "a bit too many": [b"\x80\0\0\0"], "three letters": [b"\x70\0\0\0"]}
        for name, block in blocks.items():
            body = block * (n // len(block))
            yield name, self.joined([self.fine] + body)
            yield name + ", sent out", self.joined([self.fine] + body + [self.coarse, self.fine])
        yield "cells in no order", self.joined([self.fine] + [(1 << pick.randrange(31) | 1 << pick.randrange(3, 31)).to_bytes(4, "big") for _ in range(n)])
        yield "other count", b"MRB1" + bytes(4) + self.cell * n
        yield "no ribbon", b"\0" * size

    def pieces(self, data):
        return [data[at:at + 4] for at in range(8, len(data) - 3, 4)]

    def joined(self, rows):
        return b"MRB1" + len(rows).to_bytes(4, "big") + b"".join(rows)

    def changed(self, pick, data, other, size):
        return self.joined(self.pieces(super().changed(pick, data, other, size)))

    def twisted(self, pick):
        row = pick.choice([self.cell, self.coarse, self.fine, pick.choice(CELLS), pick.randrange(1 << 31).to_bytes(4, "big")])
        return lambda it: row


CELLS = [((1 << 30 - column) * (column < 14) | (1 << 17 - row) * (row < 15)).to_bytes(4, "big")
         for row, texts in enumerate(tomllib.loads(example("case12.toml").decode())["rows"], 1) for column, text in enumerate(texts) if text]


class Words(Kind):
    """The words of the command line, one a line; Linux gives a word 131,071 bytes."""
    name = "words"
    commands = ["@one"]

    def honest(self, pick, size):
        """Names that are not there."""
        return b"check\n" + b"\n".join(b"room%d.feed" % k for k in range(size // 12))

    def shapes(self, pick, size):
        many = lambda head, line, tail=b"": head + b"".join(line(k) + b"\n" for k in range((size - len(head) - len(tail)) // max(1, len(line(10)) + 1))) + tail
        long, metal = min(size, 131000), b"--case\ncase\n--wedge\nwedge\n"
        for first in (b"script", b"check", b"export", b"merge\nhonest", b"diff", b"log\nhonest", b"find\nhonest", b"proof\nhonest", b"punch\nhonest", b"read", b"sorts\nhonest", b"help", b"rooms"):
            yield "%s and short words" % first.decode(), many(first + b"\n", lambda k: b"a")
            yield "%s and a long word" % first.decode(), first + b"\n" + b"a" * long
            yield "%s and a long option" % first.decode(), first + b"\n--" + b"a" * (long - 2)
        yield "a long subcommand", b"e" * long
        yield "a long option", b"--" + b"e" * long
        yield "short options", b"check\n-" + b"e" * (long - 10)
        yield "help of help", many(b"help\n", lambda k: b"help")
        yield "options", many(b"proof\nhonest\n", lambda k: b"--faults")
        yield "settings", many(b"proof\nhonest\n" + metal, lambda k: b"--set\nloose=%d" % (100 + k % 100))
        yield "settings at once", many(b"proof\nhonest\n" + metal, lambda k: b"--set=loose=200")
        yield "wrong settings", many(b"proof\nhonest\n" + metal, lambda k: b"--set\nx")
        yield "a long setting", b"proof\nhonest\n" + metal + b"--set\nloose=" + b"0" * (long - 60)
        yield "a long number", b"import\nhonest\n--site\n" + b"0" * (long - 60)
        yield "a long place", b"replace\nhonest\n--site\n1\na\nb\n--at\n" + b"0" * (long - 60)
        yield "lines", b"read\nribbon\n" + metal + b"--lines\n" + b"1" * (long - 60) + b"..2"
        yield "a long text", b"find\nempty\n" + b"ab" * (long // 2 - 20)
        yield "one file", many(b"check\n", lambda k: b"wedge")
        yield "one case", many(b"check\n", lambda k: b"case")
        yield "escaped names", b"check\n" + b"\x1b" * (long - 10)
        yield "merges of one", many(b"merge\nnew\n", lambda k: b"small")
        yield "punches of one", many(b"punch\n", lambda k: b"small", metal + b"-o\nnew")

    def files(self, one, size):
        return {"small": of_text("a"), "empty": b"MFD1"}


KINDS = {kind.name: kind for kind in (Feeds(), Scripts(), Texts(), Cases(), Wedges(), Rooms(), Ribbons(), Words())}
