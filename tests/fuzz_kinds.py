"""The kinds of inputs of fuzz.py: how each begins, is changed, is cut into parts, and what the two programs say of it.

A kind's inputs are dictionaries of texts: bytes in Latin 1, binary files in hex. `ask(program, inputs, whole)` gives for each
input what differs, or none, and the forms of the answers. It runs in an empty folder. Of the first `whole` inputs all
subcommands are asked, of the others only those that take many inputs in one run.
"""
import functools
import os
import random
import re
import sys

sys.path.insert(0, os.path.dirname(os.path.abspath(__file__)))
import differential
import fuzz_asks
import jobs
import oracle
import oracle_readings
import oracle_room
import oracle_runs
import reported
import reported_copy
import reported_galley
from fuzz_asks import form, ran, read, there, write

oracle.spelling = functools.lru_cache(4096)(oracle.spelling)  # many commands go over the same operations

LONGEST = 1500  # bytes of a script or a feed
NUMBERS = [0, 1, 2, 3, 9, 11, 12, 15, 16, 17, 19, 20, 24, 25, 96, 97, 120, 144, 240, 241, 720, 721, 65535, 65536, 4294967295, 4294967296]
LIMITS = {0, 1, 2, 3, 4, 5, 6, 9, 10, 11, 12, 13, 14, 15, 16, 17, 18, 19, 20, 24, 25, 31, 32, 33, 63, 64, 65, 96, 97, 126, 127, 128, 158, 159, 160, 240, 241, 719, 720, 721, 65535, 65536,
          0xD7FF, 0xD800, 0xDFFF, 0xE000, 0x10FFFF, 0x110000, (1 << 32) - 1, 1 << 32, (1 << 62) - 1, 1 << 62, (1 << 62) + 1, (1 << 64) - 1}
HEX = ["00", "01", "02", "03", "04", "05", "40", "7f", "80", "ff", "d800", "0041", "4d464431", "4d464432", "0000000000000001", "4000000000000000"]
PIECES = ['r"n"', 'i"a"', 's"M"', 'r"\\n"', 'r" "', 'r"\\""', 'r"\\\\"', 'r"nn mm tt"', 'r"\u20ac"', 'i" "', 'r"\\t"', "..", "0..1", "c", "w", "none"]


def scripted(program, script):
    """A script through both: what differs, or none, the answers due, and what then is held."""
    world, due, lines = oracle.World(), [], list(oracle.lines(script))
    for line in lines:
        due.append(world.answer(line).encode("utf-8", "surrogatepass"))
    status, got, why = ran(program, ["script"], script)
    got = got.split(b"\n")[:-1]
    if status != 0 or why or len(got) != len(due):
        return "script: status %s, %d answers of %d, %r" % (status, len(got), len(due), why), due, world
    for line, wanted, found in zip(lines, due, got):
        if wanted != found:
            return "%r was answered %r and not %r" % (line[:300], found[:300], wanted[:300]), due, world
    return None, due, world


def checked(program, names):
    """What `check` says of files, without their names; or what is wrong with the run."""
    status, out, _ = ran(program, ["check", *names])
    lines = out.decode("utf-8", "replace").split("\n")[:-1]
    last = reported.unfit([(name, read(name)) for name in names])
    if last is not None:
        if status != 1 or lines[len(names):] != [last]:
            return "check: status %s, %r and not %r" % (status, lines[len(names):], last), lines
        lines.pop()
    if status not in (0, 1) or len(lines) != len(names) or any(not line.startswith(name + " ") for line, name in zip(lines, names)):
        return "check: status %s, %d lines of %d" % (status, len(lines), len(names)), lines
    said = [line[len(name) + 1:] for line, name in zip(lines, names)]
    if (status == 0) != (last is None and all(line.startswith("ok: ") for line in said)):
        return "check: status %s for %r" % (status, said), said
    return None, said


def punched(held, answer):
    """The line of `punch` where `ribbon` answers so of the operations that are held."""
    faults = answer.decode()[len("no ribbon: "):].split(", ")
    return reported_galley.no_ribbon(faults, oracle.Meaning(held).settings).encode()


def at_limits(name, *values):
    """Forms of the values that stand at a limit of the formats."""
    return {"%s %d" % (name, value) for value in values if type(value) is int and value in LIMITS}


class Kind:
    batch, longest = 1, LONGEST

    def ask(self, program, inputs, whole):
        """All at once; where that differs, one by one."""
        wrong, forms = self.ask_once(program, inputs, whole)
        if not wrong:
            return [(None, one) for one in forms]
        if len(inputs) == 1:
            return [(wrong, set())]
        return [self.ask(program, [one], whole)[0] for one in inputs]


class Scripts(Kind):
    """A script, and a case and a wedge file that its `ribbon` and `cast` may name; the same as a sheet, strict or numbered, of `script`
    or of `desk` on what another one has stored. The files change in values alone."""
    name = "scripts"

    def seeds(self):
        out = []
        for k, case in enumerate(("c", "c2", "c_order", "c_four", "c_nofill", "c_held")):
            for wedge in ("w", "w6", "w19", "w_falls"):
                script = differential.random_script(k, len(out))
                out.append({"script": script[:LONGEST].decode("latin1"), "case": differential.FILES[case], "wedge": differential.FILES[wedge]})
        return out

    def parts(self, one):
        return one["script"].split("\n")

    def joined(self, one, parts):
        return dict(one, script="\n".join(parts))

    def changed(self, pick, one, other):
        lines = one["script"].encode("latin1").split(b"\n")
        for _ in range(pick.choice([1, 1, 2, 3, 5])):
            at, kind = pick.randrange(len(lines)), pick.randrange(6)
            if kind < 3:
                lines[at] = changed_line(pick, lines[at]) if lines[at] else pick.choice(lines)
            elif kind == 3:
                lines.insert(at, pick.choice(lines))
            elif kind == 4 and len(lines) > 2:
                del lines[at]
            else:
                theirs = other["script"].encode("latin1").split(b"\n")
                start = pick.randrange(len(theirs))
                lines[at:at] = theirs[start:start + pick.randrange(1, 6)]
        new = dict(one, script=b"\n".join(lines)[:LONGEST].decode("latin1"))
        for name in ("case", "wedge"):
            if pick.random() < 0.2:
                new[name] = changed_value(pick, pick.choice((one, other))[name])
        return new

    def ask_once(self, program, inputs, whole):
        (one,) = inputs
        write("c", one["case"].encode("utf-8"))
        write("w", one["wedge"].encode("utf-8"))
        script = one["script"].encode("latin1")
        wrong, due, _ = scripted(program, script)
        forms = {form(answer) for answer in due}
        if not wrong:
            wrong, more = fuzz_asks.sheet(program, script)
            forms |= more
        for line, answer in zip(oracle.lines(script), due):
            found = re.fullmatch(rb"set \d+ (\w+) (\d{1,10})|(site|show|delete \d+|insert \d+) (\d{1,10})( .*)?", line, re.DOTALL)
            if found and answer != b"refused command":
                name = found[1] or found[3].split(b" ")[0]
                verdict = re.match(rb"refused \w+|\w+", answer)[0]
                forms |= at_limits((name + b" " + verdict).decode("latin1"), int(found[2] or found[4]))
        return wrong, [forms]


def changed_line(pick, line):
    words = line.split(b" ")
    at = pick.randrange(len(words))
    kind = pick.randrange(8)
    if kind == 0:
        words[at] = b"%d" % pick.choice(NUMBERS)
    elif kind == 1:
        words[at] = pick.choice(PIECES).encode()
    elif kind == 2:
        words.insert(at, pick.choice(PIECES).encode())
    elif kind == 3:
        del words[at]
    elif kind == 4 and len(line) > 1:
        place = pick.randrange(len(line))
        return line[:place] + bytes([pick.randrange(256)]) + line[place + pick.randrange(2):]
    elif kind == 5:
        words[-1] = words[-1][:pick.randrange(len(words[-1]) + 1) & ~1] + pick.choice(HEX).encode() + words[-1][pick.randrange(len(words[-1]) + 1) & ~1:]
    elif kind == 6:
        words[0] = pick.choice([b"site", b"insert", b"delete", b"set", b"take", b"send", b"merge", b"show", b"faults", b"settings", b"feed", b"ribbon", b"cast", b"restart"])
    else:
        words[at] = words[at][::-1]
    return b" ".join(words)


def changed_value(pick, text):
    """Another number, or another symbol in a cell: it stays TOML."""
    numbers = list(re.finditer(r"(?<=[= \[,])\d+(?=[,\]\n])", text))
    if numbers and pick.random() < 0.5:
        found = pick.choice(numbers)
        return text[:found.start()] + str(pick.choice(NUMBERS + [5, 6, 7, 8, 18, 48])) + text[found.end():]
    cells = list(re.finditer(r'"[^"]*"', text))
    if not cells:
        return text
    found = pick.choice(cells)
    new = pick.choice(["", "n", "m", "i:a", "s:M", "q", "nn", " ", "A1", "G1", "O15", "NI3", "P1", "O16", "sixth", "american", ":", "i:"])
    return text[:found.start()] + '"%s"' % new + text[found.end():]


def changed_bytes(pick, data):
    """A byte, a few bytes more or fewer, or a known piece."""
    at, size = pick.randrange(len(data) + 1), pick.choice([1, 1, 2, 4, 8, 21])
    kind = pick.randrange(5)
    if kind == 0 and at < len(data):
        return data[:at] + bytes([data[at] ^ 1 << pick.randrange(8)]) + data[at + 1:]
    if kind == 1:
        return data[:at] + data[at + size:]
    if kind == 2:
        return data[:at] + data[at:at + size] + data[at:]
    if kind == 3:
        return data[:at] + pick.choice((b"", data[:4])) + bytes.fromhex(pick.choice(HEX)) + data[at + size:]
    return data[:at] if pick.random() < 0.5 else data[:at] + bytes([pick.randrange(256)]) + data[at + 1:]


class Feeds(Kind):
    """Two feeds: `check` and `take` of both, the set of both, and `desk`, `merge`, `export`, `diff`, `import`, `replace`, `find`, `sorts`, `proof`, `rooms` and `log`;
    and the proof of a text that their copies give."""
    name, batch = "feeds", 8
    metal = [(differential.FILES[case].encode(), differential.FILES[wedge].encode()) for case, wedge in (("c", "w"), ("c_four", "w_american"), ("c17", "w"), ("c_held", "w"))]
    trial = [("measure", 60), ("tight", 38), ("loose", 150), ("case", 1), ("wedge", 5)]
    after = [b"show 7", b"faults 7", b"settings 7", b'insert 7 1 r"n_"', b"insert 7 0 i\"a^\"", b"delete 7 1", b"set 7 measure 120", b"feed 7"]

    def seeds(self):
        scripts, out = differential.Scripts(random.Random(1), None), []
        given = [scripts.hex() for _ in range(60)]
        given += [line.split(b" ")[2].decode() for script in jobs.forged() for line in script.split(b"\n") if line.startswith(b"take")][:60]
        for one, other in zip(given, reversed(given)):
            out.append({"feed": one[:2 * LONGEST & ~1].lower(), "other": other[:2 * LONGEST & ~1].lower()})
        return out + [self.corrected(random.Random(number)) for number in range(40)]

    def corrected(self, pick):
        """A copy of some words of all styles, some with symbols that no case has, and the same after corrections by another site."""
        words = ["nn", "mtn", "a", "n.", "Mnt", "tnmn", "nnnnn", "zzzzzz", "n_m", "t^", "\\", "n-", "\"n", "."]
        usual = pick.choice([0.9, 0.8, 0.2])
        world = oracle.World()
        for line in (b"site 1", b"site 2"):
            world.answer(line)
        for site, count in ((1, pick.randrange(6, 24)), (2, pick.randrange(3))):
            copy = []
            for _ in range(count):
                style, word = pick.choice([0, 0, 0, 1, 2]), pick.choice(words[:7] if pick.random() < usual else words)
                copy += [(style, ord(ch)) for ch in (word if style == 0 else pick.choice(["a", "aa", "M"]))] + [pick.choice([(0, 32)] * 5 + [(0, 10)])] * pick.choice([1, 1, 1, 2])
            world.answer(b"merge %d 1" % site)
            if copy:
                world.answer(b"insert %d %d %s" % (site, pick.randrange(len(world.meaning(site).shown) + 1), oracle.text_of(copy).encode()))
        for _ in range(pick.randrange(8)):
            world.answer(b"delete 2 %d" % pick.randrange(len(world.meaning(2).shown)))
        feeds = [oracle.runs_feed(world.sites[site]).hex() for site in pick.choice([(1, 2), (2, 1)])]
        return {"feed": feeds[0], "other": feeds[1]}

    def pieces(self, text):
        """The magic, then operations and runs as far as they are whole, then the rest."""
        data = bytes.fromhex(text)
        out, at = [data[:4]], 4
        while at < len(data):
            size = {1: 26, 2: 21, 3: 16, 4: 22 + 5 * (data[at + 21] if at + 21 < len(data) else 0)}.get(data[at], len(data))
            out.append(data[at:at + size])
            at += size
        return out

    def parts(self, one):
        return [(key, piece) for key in ("feed", "other") for piece in self.pieces(one[key])]

    def joined(self, one, parts):
        return {key: b"".join(piece for name, piece in parts if name == key).hex() for key in ("feed", "other")}

    def changed(self, pick, one, other):
        new = dict(one)
        for key in pick.choice([("feed",), ("feed",), ("other",), ("feed", "other")]):
            pieces = self.pieces(new[key])
            theirs = self.pieces(pick.choice((one, other))[pick.choice(("feed", "other"))])
            for _ in range(pick.choice([1, 1, 2, 3, 6])):
                at, kind = pick.randrange(len(pieces)), pick.randrange(10)
                if kind < 5 and at:
                    pieces[at] = self.changed_piece(pick, pieces[at], pick.choice(pieces))
                elif kind == 5:
                    pieces.insert(pick.randrange(1, len(pieces) + 1), pick.choice(theirs[1:] or theirs))
                elif kind == 6:
                    pick.shuffle(theirs)
                    pieces += theirs[:3]
                elif kind == 7 and at:
                    del pieces[at]
                elif kind == 8:
                    pieces[0] = pick.choice([b"MFD1", b"MFD2", b"MFD2", b"MRB1", b"MFD3", b"MFD"])
                else:
                    pieces[at] = changed_bytes(pick, pieces[at])
            new[key] = b"".join(pieces)[:LONGEST].hex()
        return new

    def changed_piece(self, pick, piece, other):
        """An operation of another stamp, parent, symbol, kind or count; or a run in its place, or an operation after it."""
        kind = pick.randrange(8)
        counter = pick.choice([0, 1, 2, 3, 4, 5, 8, 63, 64, 65, (1 << 62) - 1, 1 << 62, (1 << 62) + 1, (1 << 64) - 1])
        stamp = counter.to_bytes(8, "big") + pick.choice([0, 1, 2, 3, 65535]).to_bytes(2, "big")
        if kind == 0:
            return piece[:1] + stamp + piece[11:]
        if kind == 1:
            return piece[:11] + pick.choice([stamp, other[1:11], other[11:21], bytes(10)]) + piece[21:]
        if kind == 2:
            return piece[:1] + pick.choice([other[1:11], other[11:21]]) + piece[11:]
        if kind == 3:
            return piece[:21] + pick.choice([0, 0, 1, 2, 3]).to_bytes(1, "big") + pick.choice([0, 9, 10, 32, 33, 65, 92, 94, 95, 110, 126, 127, 159, 160, 0x20AC, 0xD7FF, 0xD800, 0xDFFF, 0xE000, 0x10FFFF, 0x110000]).to_bytes(4, "big") + piece[26:]
        if kind == 4:
            return bytes([pick.choice([1, 2, 3, 4, 0, 5])]) + piece[1:]
        if kind == 5:
            count = pick.choice([0, 1, 2, 3, 5, 64, 65])
            return b"\x04" + piece[1:21].ljust(20, b"\0") + bytes([count]) + (b"\0\0\0\0n\0\0\0\0 \1\0\0\0a\0\0\0\0\n" * 17)[:5 * count]
        if kind == 6:
            return b"\x03" + piece[1:11].ljust(10, b"\0") + pick.choice([0, 1, 2, 3, 4, 5, 6]).to_bytes(1, "big") + pick.choice(NUMBERS[:-1]).to_bytes(4, "big")
        if len(piece) > 11:
            after = (int.from_bytes(piece[1:9], "big") + 1 & (1 << 64) - 1).to_bytes(8, "big") + piece[9:11]
            return piece + pick.choice([b"\1", b"\1", b"\2"]) + after + piece[1:11] + piece[21:26]
        return piece

    def ask_once(self, program, inputs, whole):
        lines, names, forms = [], [], []
        for k, one in enumerate(inputs):
            a, b = 2 * k + 1, 2 * k + 2
            write("one%d" % k, bytes.fromhex(one["feed"]))
            write("two%d" % k, bytes.fromhex(one["other"]))
            names += ["one%d" % k, "two%d" % k]
            for site, key in ((a, "feed"), (b, "other")):
                lines += [b"site %d" % site, b"take %d %s" % (site, one[key].encode())]
                lines += [b"%s %d" % (word, site) for word in (b"show", b"faults", b"settings", b"feed")]
            lines += [b"restart %d" % a, b"feed %d" % a, b"send %d %d 0..2" % (b, a), b"merge %d %d" % (a, b)]
            lines += [b"%s %d" % (word, a) for word in (b"show", b"faults", b"settings", b"feed")]
        wrong, due, _ = scripted(program, b"\n".join(lines))
        if wrong:
            return wrong, []
        wrong, said = checked(program, names)
        if wrong:
            return wrong, []
        size = len(lines) // len(inputs)
        for k, one in enumerate(inputs):
            answers = due[size * k:size * (k + 1)]
            forms.append({form(answer) for answer in answers} | {shape(bytes.fromhex(answer[5:].decode())) for answer in answers if answer.startswith(b"feed ")})
            for name, key in (("one%d" % k, "feed"), ("two%d" % k, "other")):
                data, line = bytes.fromhex(one[key]), said[names.index(name)]
                if reported.differs(data, line):
                    return "check said %r and not %r" % (line, reported.of(data)), []
                forms[k] |= {"check " + form(line.encode())} | operation_forms(data, line)
        for k, one in enumerate(inputs[:whole]):
            wrong, more = self.stored(program, one)
            if wrong:
                return wrong, []
            forms[k] |= more
        return None, forms

    def stored(self, program, one):
        """The subcommands on the two feeds as files."""
        data, other = bytes.fromhex(one["feed"]), bytes.fromhex(one["other"])
        held, theirs = reported.held_in(data), reported.held_in(other)
        forms = set()
        write("one", data)
        write("two", other)
        status, out, why = ran(program, ["diff", "one", "two"])
        if held is None or theirs is None:
            if status != 1 or out or not why:
                return "diff: status %s, %r %r" % (status, out[:300], why), None
        else:
            readings = oracle_readings.reported(oracle_readings.readings(held, theirs))
            if not out.decode().endswith(readings):
                return "diff: %r, which does not end with %r" % (out[:400], readings), None
            lines = out.decode()[:len(out.decode()) - len(readings)].split("\n")[:-1]
            due = [reported.alone("one", held, theirs), reported.alone("two", theirs, held)]
            same = oracle.Meaning(held).copy == oracle.Meaning(theirs).copy
            if status != (0 if held == theirs else 1) or why or lines[:2] != due or same != (len(lines) == 2):
                return "diff: status %s, %r and not %r" % (status, lines[:4], due), None
            wrong = reported_copy.differs_in(oracle.Meaning(held).copy, oracle.Meaning(theirs).copy, lines[2:])
            if wrong:
                return "diff: %s" % wrong, None
            forms |= {"diff " + form(line.encode())[:3] + "+" * (len(line) < 9) for line in lines[2:]} | {"diff " + form(line.encode()) for line in lines[:2]}
        status, out, why = ran(program, ["export", "two"])
        due = None if theirs is None else reported.exported(oracle.Meaning(theirs).copy).encode()
        if (status, out) != ((1, b"") if due is None else (0, due)) or (why == b"") != (due is not None):
            return "export: status %s, %r and not %r" % (status, out[:300], due), None
        if due:
            forms.add("export " + re.sub(r"(.)\1+", r"\1", re.sub(r"[^_^\\ \n]", "a", due.decode()))[:9])
        files, words = {"one": data, "two": other}, ["merge", "one", "two", "--forks"]
        wrong, more = fuzz_asks.on_files(program, words, files, oracle_runs.merge, "one", "two", forks=True)
        if wrong:
            return wrong, None
        forms |= more
        write("one", data)
        status, out, why = ran(program, ["desk", "one", "--site", "7"], b"\n".join(self.after) + b"\n")
        if held is None:
            if (status, out, why) != (1, b"", b"copydesk: feed refused\n") or read("one") != data:
                return "desk: status %s, %r %r" % (status, out[:300], why), None
        else:
            world = reported.world_of(7, held)
            due = "".join(world.answer(line) + "\n" for line in self.after).encode()
            if status != 0 or why or out != due or read("one") != oracle.runs_feed(world.sites[7]):
                return "desk: status %s, %r %r and not %r" % (status, out[:300], why, due), None
            forms |= {"desk " + form(line) for line in due.split(b"\n")}
        return self.more(program, data, other, forms)

    def more(self, program, data, other, forms):
        """What is done by hand, a merge of more, and what is seen of the second by a case and a wedge that its bytes pick."""
        write("two", other)
        number = fuzz_asks.pick_of(data, other)
        case, wedge = self.metal[number % len(self.metal)]
        trial = self.trial + [("measure", 12 + number % 200), ("loose", number % 260)][:number % 3]
        asks = [lambda: fuzz_asks.by_hand(program, data, other), lambda: fuzz_asks.sorted_out(program, "two", other, case),
                lambda: fuzz_asks.merged(program, data, other),
                lambda: fuzz_asks.proofed(program, "two", other, case, wedge, trial, True),
                lambda: fuzz_asks.renewed(program, data, other), lambda: fuzz_asks.found(program, "two", other, case, wedge),
                lambda: fuzz_asks.roomed(program, other), lambda: fuzz_asks.as_it_was(program, data),
                lambda: fuzz_asks.logged(program, other),
                lambda: fuzz_asks.text_proofed(program, *fuzz_asks.texts_of(data, other)[0][:2], case, wedge, trial)]
        for ask in asks[number >> 8 & 1::2]:
            wrong, more = ask()
            if wrong:
                return wrong, None
            forms |= more
        return None, forms


def operation_forms(data, line):
    """Which fields of a feed's operations stand at a limit, up to the first fault."""
    found, forms, at = re.search(r"byte (\d+)", line), set(), 4
    last, end = int(found.group(1)) if found else len(data), "".join(re.findall("[a-z]+$", line)) if found else ""
    while at <= last and at + 22 < len(data) and 1 <= data[at] <= 4:
        name = "operation %d %s " % (data[at], end if at == last else "lawful")
        counter, site, target = int.from_bytes(data[at + 1:at + 9], "big"), int.from_bytes(data[at + 9:at + 11], "big"), int.from_bytes(data[at + 11:at + 19], "big")
        forms |= at_limits(name + "counter", counter) | at_limits(name + "site", site)
        if data[at] != 3:
            forms |= at_limits(name + "target", target) | ({name + "target %d before" % (counter - target)} if -2 < counter - target < 2 else set())
        if data[at] == 1:
            forms |= at_limits(name + "style", data[at + 21]) | at_limits(name + "character", int.from_bytes(data[at + 22:at + 26], "big"))
        if data[at] == 3:
            forms |= at_limits(name + "key %d value" % data[at + 11], int.from_bytes(data[at + 12:at + 16], "big"))
        if data[at] == 4:
            forms |= at_limits(name + "count", data[at + 21])
        at += {1: 26, 2: 21, 3: 16}.get(data[at]) or 22 + 5 * data[at + 21]
    return forms


def shape(feed):
    """The kinds of a written feed, each as often as it stands in a row up to three."""
    kinds, at = "", 4
    while at < len(feed):
        kinds += "idsr"[feed[at] - 1]
        at += {1: 26, 2: 21, 3: 16}.get(feed[at]) or 22 + 5 * feed[at + 21]
    return "feed " + re.sub(r"(.)\1\1+", r"\1\1", kinds)[:10]


class Files(Kind):
    """A case and a wedge file: `check`, `ribbon` and `cast` with settings that suit them, and `punch`, `read`, `proof` and `sorts`.

    Which text is TOML is the affair of `toml`: tomllib of Python reads TOML 1.0, whole numbers of any size, and is cut off by its own depth.
    Where the two do not agree on that, it is told apart from what differs.
    """
    name, batch, texts = "files", 12, ("case", "wedge")
    pieces = ['"', "'", '"""', "'''", "\\", "\\u0041", "\\U0001D510", "\\e", "\\x41", "\\q", "#", "\n", "\r\n", "\r", "\t", "=", ".", ",", "[", "]", "{", "}", "[[", "]]", "{}", "[]", " ",
              "0x5", "0o5", "0b1", "1_0", "_1", "+5", "-0", "05", "5.0", "5e0", "inf", "nan", "true", "1979-05-27", "07:32:00", "07:32", "1979-05-27T07:32:00Z", "9223372036854775807", "9223372036854775808",
              "case", "rows", "space", "fill", "wedge", "set_q", "pica", "units", '"case"', "a.b", "x = 1\n", "[t]\n", "[[t]]\n", "x = {a = 1, b = [1]}\n", "# \u20ac\n", "\ufeff", "\x00", "\x7f", "\u0085", "\u2028", "\xff", "n", "i:a", "s:M",
              '"i:a"', '"s:M"', '"nn"', '""', '" "', '"\\n"', '"\\t"', '"\U0001D510"', '"e\u0301"', '"NI3"', '"O15"', '"G1"', '"A01"', '"\\u007f"', '"\\u009f"', '"\\u00a0"', '"i: "', "[" * 60, "[" * 130 + "]" * 130, "x = " + "[" * 3000, "x = " + "{a=" * 3000, "a." * 300 + "b = 1\n"]

    def seeds(self):
        out, pick = [], random.Random(2)
        for case in ("c", "c2", "c_order", "c_four", "c_held", "c_one", "c_nofill"):
            for wedge in ("w", "w19", "w_american", "w_small"):
                out.append((differential.FILES[case], differential.FILES[wedge]))
        for _ in range(8):
            metal = jobs.Metal(pick, pick.randrange(20, 97), pick.choice(("sixth", "american")))
            out.append((metal.case_text(), metal.wedge_text()))
        examples = os.path.join(os.path.dirname(os.path.abspath(__file__)), "..", "examples")
        for name in ("case12.toml", "case17.toml"):
            out.append((read(os.path.join(examples, name)).decode(), read(os.path.join(examples, "wedge5.toml")).decode()))
        return [{"case": case.encode().decode("latin1"), "wedge": wedge.encode().decode("latin1")} for case, wedge in out]

    def parts(self, one):
        return [(key, part) for key in self.texts for part in re.split(r"(?<=[\n,])", one[key])]

    def joined(self, one, parts):
        return dict(one, **{key: "".join(part for name, part in parts if name == key) for key in self.texts})

    def changed(self, pick, one, other):
        new = dict(one)
        for key in pick.choice([*((key,) for key in self.texts), self.texts]):
            if pick.random() < 0.1:
                new[key] = other[key]
            text = new[key]
            for _ in range(pick.choice([1, 1, 1, 2, 4])):
                text = self.changed_text(pick, text, other[pick.choice(self.texts)])
            new[key] = text[:3500] if pick.random() < 0.98 else text[:20000]
        if pick.random() < 0.2:
            new["settings"] = [pick.choice([12, 40, 120, 720]), pick.choice([16, 38, 53]), pick.choice([53, 150, 240])]
        return new

    def changed_text(self, pick, text, other):
        kind, at = pick.randrange(10), pick.randrange(len(text) + 1)
        if kind < 3:
            return changed_value(pick, text)
        words = list(re.finditer(r"[^\s,=\[\]]+|[,=\[\]]|\s+", text)) or [re.match("", text)]
        word, second = pick.choice(words), pick.choice(words)
        piece = pick.choice(self.pieces).encode().decode("latin1") if pick.random() < 0.97 else bytes([pick.randrange(256)]).decode("latin1")
        if kind < 6:
            return text[:word.start()] + piece + text[word.end():]
        if kind == 6:
            return text[:at] + piece + text[at:]
        if kind == 7:
            return text[:word.start()] + text[second.start():second.end()] + text[word.end():]
        lines, theirs = text.split("\n"), other.split("\n")
        at = pick.randrange(len(lines))
        if kind == 8:
            lines.insert(at, pick.choice(lines + theirs))
        elif pick.random() < 0.5:
            del lines[at]
        else:
            lines[at], lines[-1] = lines[-1], lines[at]
        return "\n".join(lines)

    def lines(self, k, one):
        """A site with a copy of the case's symbols, the settings that suit, and the two commands."""
        fault, case = oracle.first_fault_case(one["case"].encode("latin1"))
        symbols = list(case["symbols"])[:9] if not fault else []
        copy = [y for n, symbol in enumerate(symbols) for y in (symbol, symbol, [(0, 32), (0, 32), (0, 10)][n % 3])] or [(0, 110)]
        fault, wedge = oracle.first_fault_wedge(one["wedge"].encode("latin1"))
        measure, tight, loose = one.get("settings", [120, 38, 150])
        settings = {"measure": measure, "tight": tight, "loose": loose, "case": case["number"] if case else 1, "wedge": wedge["wedge"] if not fault else 5}
        out = [b"site %d" % k, b"insert %d 0 %s" % (k, oracle.text_of(copy).encode())]
        out += [b"set %d %s %d" % (k, key.encode(), value) for key, value in settings.items()]
        return out + [b"%s %d case%d wedge%d" % (word, k, k, k) for word in (b"ribbon", b"cast")]

    def ask_once(self, program, inputs, whole):
        lines, names, forms = [], [], []
        for k, one in enumerate(inputs, 1):
            write("case%d" % k, one["case"].encode("latin1"))
            write("wedge%d" % k, one["wedge"].encode("latin1"))
            names += ["case%d" % k, "wedge%d" % k]
            lines += self.lines(k, one)
        wrong, said = checked(program, names)
        if wrong:
            return wrong, []
        for name, line in zip(names, said):
            data = read(name)
            if (reported.toml(data) is None) != (line.endswith("it is not TOML") or ": no TOML at line " in line) and data[:4] not in (b"MFD1", b"MFD2", b"MRB1"):
                return "TOML: check said %r of %r" % (line, data[:120]), []
            if reported.differs(data, line):
                return "check said %r and not %r" % (line, reported.of(data)), []
        wrong, due, world = scripted(program, b"\n".join(lines))
        if wrong:
            return wrong, []
        for k, one in enumerate(inputs, 1):
            answers = due[9 * k - 9:9 * k]
            forms.append({form(answer) for answer in answers[7:]} | {"check " + re.sub(r"[0-9]+", "#", re.sub(r"cell .*? holds .*", "cell holds", line))[:60] for line in said[2 * k - 2:2 * k]})
            forms[-1] |= value_forms(one["case"].encode("latin1"), said[2 * k - 2]) | value_forms(one["wedge"].encode("latin1"), said[2 * k - 1])
            if k <= whole:
                wrong, more = self.previewed(program, k, world, answers[7], answers[8])
                if wrong:
                    return wrong, []
                forms[-1] |= more
        return None, forms

    def previewed(self, program, k, world, answer, cast):
        """`punch`, `read` of what it stores, `proof` and `sorts` on the site's feed."""
        feed, files = oracle.runs_feed(world.sites[k]), (read("case%d" % k), read("wedge%d" % k))
        write("feed", feed)
        status, out, why = ran(program, ["punch", "feed", "--case", "case%d" % k, "--wedge", "wedge%d" % k, "-o", "rib"])
        stored = there("rib")
        if answer.startswith(b"ribbon "):
            if (status, out, why, stored) != (0, b"", b"", bytes.fromhex(answer[7:].decode())):
                return "punch: status %s, %r %r %r" % (status, out, why, stored), None
            for again in (fuzz_asks.read_again, fuzz_asks.punched_again):
                wrong = again(program, stored, files, ("case%d" % k, "wedge%d" % k), cast)
                if wrong:
                    return wrong, None
        elif status != 1 or stored is not None or (out != punched(world.sites[k], answer) if answer.startswith(b"no ribbon: ") else out or not why):
            return "punch: status %s, %r %r, due %r" % (status, out, why, answer[:300]), None
        forms = {"punch " + re.sub(r"[0-9]+", "#", why.decode("utf-8", "replace"))[:80]}
        trial = [("loose", 240), ("tight", 16 + len(files[0]) % 40), ("measure", 12 + len(files[1]) % 150)][:fuzz_asks.pick_of(*files) % 4]
        for ask in (lambda: fuzz_asks.proofed(program, "feed", feed, *files, trial, len(trial) > 1), lambda: fuzz_asks.sorted_out(program, "feed", feed, files[0])):
            wrong, more = ask()
            if wrong:
                return wrong, None
            forms |= more
        return None, forms


def value_forms(data, line):
    """Which values of a case or a wedge stand at a limit."""
    document, forms, verdict = reported.toml(data) or {}, set(), line.split(":")[0].split(" ")[0] + " "
    for key, value in document.items():
        if isinstance(value, list):
            forms |= at_limits(verdict + "length of " + key, len(value))
            forms |= at_limits(verdict + "length in " + key, *[len(part) for part in value if isinstance(part, list)])
            forms |= at_limits(verdict + "number in " + key, *value)
            forms |= at_limits(verdict + "text in " + key, *[ord(text[-1]) for part in value if isinstance(part, list) for text in part if isinstance(text, str) and text])
        elif key in ("case", "wedge", "set_q"):
            forms |= at_limits(verdict + key, value)
    return {form[:60] for form in forms}


class Rooms(Files):
    """The file of a room: what `check` says of it."""
    name, batch, texts = "rooms", 24, ("room",)
    pieces = Files.pieces + ["site", "set", "measure", "tight", "loose", "[set]\n", "set.", "site = 1\n", 'case = "c"\n', "loose = 200\n", "65535", "65536", "12", "720", "240"]

    def seeds(self):
        rows = ["", 'site = 3\ncase = "case12.toml"\nwedge = "wedge5.toml"\n\n[set]\nmeasure = 150\nloose = 200\n', '# a room\r\nset.tight = 40\r\nsite = 65535\r\n',
                'set = {measure = 12, tight = 16, loose = 240, case = 1, wedge = 65535}\n', 'x = [\n1,\n2]\nsite = 0\n', 'case = """\n\na"""\nwedge = \'w\'']
        return [{"room": row} for row in rows]

    def ask_once(self, program, inputs, whole):
        names, forms = [], []
        for k, one in enumerate(inputs, 1):
            os.makedirs("r%d" % k, exist_ok=True)
            names.append("r%d/%s" % (k, oracle_room.NAME))
            write(names[-1], one["room"].encode("latin1"))
        status, out, why = ran(program, ["check", *names])
        lines = out.decode("utf-8", "surrogatepass").split("\n")[:-1]
        if status not in (0, 1) or why or len(lines) != len(names):
            return "check: status %s, %d lines of %d, %r" % (status, len(lines), len(names), why), []
        for name, line, one in zip(names, lines, inputs):
            got = oracle_room.alike(line[len(name) + 1:]).replace("\\x0d\\x0a", "\\x0a")  # inside a text tomllib makes these one
            data = one["room"].encode("latin1")
            if got != reported.plain(oracle_room.said(data)) and not (reported.toml(data) is None) ^ (oracle_room.NO_TOML in got):
                return "check said %r of %r and not %r" % (line, data, oracle_room.said(data)), []
            forms.append({"room " + re.sub(r"[0-9]+|`.*`|(?<=case ).*|(?<=wedge ).*", "#", got)[:60]})
        return None, forms


class Ribbons(Kind):
    """A ribbon, as `check`, `read` and `diff` read it."""
    name, batch = "ribbons", 40

    def __init__(self):
        examples = os.path.join(os.path.dirname(os.path.abspath(__file__)), "..", "examples")
        wide = read(os.path.join(examples, "case17.toml"))
        self.metal = [(differential.FILES["c"].encode(), differential.FILES["w"].encode()), (wide, differential.FILES["w_american"].encode())]

    def seeds(self):
        pick, out = random.Random(3), []
        cells = [oracle.image_cell((c, r), s) for c in range(17) for r in range(1, 16) for s in (False, True)]
        cases = [oracle.first_fault_case(case)[1] for case, _ in self.metal]
        held = [oracle.image_cell(cell, s) for case in cases for cell in (*case["cells"], case["space"]) for s in (False, True)]
        for number in range(20):
            images = [oracle.image_fine(8)] * (1 + (number % 5 == 4))
            for _ in range(pick.randrange(3)):
                images += [oracle.image_fine(8)] * (number % 5 == 3)
                images += [pick.choice(held if number % 2 else cells) for _ in range(pick.randrange(6))] + [oracle.image_coarse(pick.randint(1, 15)), oracle.image_fine(pick.randint(1, 15))]
            out.append({"ribbon": oracle.ribbon_bytes(images).hex()})
        return out

    def rows(self, one):
        data = bytes.fromhex(one["ribbon"])
        return [data[:4], data[4:8]] + [data[at:at + 4] for at in range(8, len(data), 4)]

    def parts(self, one):
        return self.rows(one)

    def joined(self, one, parts):
        return {"ribbon": b"".join(parts).hex()}

    def changed(self, pick, one, other):
        rows, theirs = self.rows(one), self.rows(other)
        for _ in range(pick.choice([1, 1, 2, 3])):
            at, kind = pick.randrange(len(rows)), pick.randrange(8)
            if kind < 3 and rows[at]:
                image = int.from_bytes(rows[at], "big")
                for _ in range(pick.choice([1, 1, 2, 3])):
                    image ^= 1 << pick.randrange(8 * len(rows[at]))
                rows[at] = image.to_bytes(len(rows[at]), "big")
            elif kind == 3:
                rows.insert(at, pick.choice(theirs))
            elif kind == 4:
                del rows[at:at + 1 + pick.randrange(2)]
                rows = rows or [b"MRB1"]
            elif kind == 5:
                rows[at] = changed_bytes(pick, rows[at])
            elif kind == 6:
                rows[at] = pick.choice([0, 1, 2, 3, 4, 5, 6, 7, 0x402000, 0x20020000, 1 << 31, 0xFFFFFFFF, 0x40000000]).to_bytes(4, "big")
            else:
                rows[0] = pick.choice([b"MRB1", b"MRB1", b"MRB2", b"MFD1", b""])
        if pick.random() < 0.8 and len(rows) > 1:
            rows[1] = (len(rows) - 2).to_bytes(4, "big")
        return {"ribbon": b"".join(rows)[:LONGEST].hex()}

    def ask_once(self, program, inputs, whole):
        names, forms = ["rib%d" % k for k in range(len(inputs))], []
        for name, one in zip(names, inputs):
            write(name, bytes.fromhex(one["ribbon"]))
        wrong, said = checked(program, names)
        if wrong:
            return wrong, []
        for one, line in zip(inputs, said):
            data = bytes.fromhex(one["ribbon"])
            if reported.differs(data, line):
                return "check said %r and not %r" % (line, reported.of(data)), []
            forms.append({"check " + form(line.encode())} | row_forms(data, line))
        for name, one, found, last in zip(names, inputs, forms, names[-1:] + names):
            wrong, more = self.cast(program, name, bytes.fromhex(one["ribbon"]), last)
            if wrong:
                return wrong, []
            found |= more
        return None, forms

    def cast(self, program, name, data, last):
        """What `read` says of a ribbon, by a case and a wedge that its bytes pick, and `diff` of it and the one before it."""
        files = self.metal[sum(data) % len(self.metal)]
        write("case", files[0])
        write("wedge", files[1])
        (_, case), (_, wedge) = oracle.first_fault_case(files[0]), oracle.first_fault_wedge(files[1])
        due, whole = reported.reading(data, case, wedge)
        status, out, why = ran(program, ["read", name, "--case", "case", "--wedge", "wedge"])
        if (status, out.decode("utf-8", "replace"), why) != (0 if whole else 1, due, b""):
            return "read: status %s, %r %r, due %r" % (status, out[:300], why, due[:300]), None
        if fuzz_asks.pick_of(data) % 4 == 0:
            wrong = fuzz_asks.drawn(program, name, data, whole)
            if wrong:
                return wrong, None
        wrong, more = fuzz_asks.read_in_part(program, name, data, (case, wedge))
        if not wrong and fuzz_asks.pick_of(data) % 3 == 0:
            wrong, others = fuzz_asks.told_apart(program, (last, name), (read(last), data), (case, wedge))
            more |= others
        line = due.split("\n")[3 if whole and due.count("\n") > 3 else 0]
        return wrong, more | {"read " + re.sub(r"[0-9]+", "#", re.sub(r"[^ -~]+", "", line))[:40]}


def row_forms(data, line):
    """Of a ribbon in order each form of its rows, else that of the row at fault: which signals, but for which letter and number."""
    rows = [int.from_bytes(data[at:at + 4], "big") for at in range(8, len(data) - 3, 4)]
    found = re.search(r"row (\d+)", line)
    if found:
        rows = rows[int(found.group(1)):][:1]
    elif not line.startswith("ok"):
        rows = []
    return {"row %d letters, %d numbers, %d" % (min(3, (image >> 17 & 0x3FFF).bit_count()), min(3, (image >> 3 & 0x3FFF).bit_count()), image & 7 | image >> 28 & 8) for image in rows}


KINDS = {kind.name: kind for kind in (Scripts(), Feeds(), Files(), Rooms(), Ribbons())}
