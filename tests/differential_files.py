"""Random commands on files, for differential.py: merges with and without forks, imports around their limits, replacements,
renewals, renumberings, what rooms made, logs, texts that are looked for, ribbons of several feeds, and ribbons, pictures and
documents that would take the place of other files; and merges of rooms that correct one text, with what they leave open. Those on texts and ribbons are in
differential_notes.py."""
import os
import random
import subprocess
import tempfile

import differential
import differential_notes
import fuzz_asks
import oracle
import oracle_log
import oracle_pages
import oracle_readings
import oracle_room
import oracle_runs
import reported
import reported_copy

JOB = [b"set 1 measure 120", b"set 1 tight 38", b"set 1 loose 150", b"set 1 case 1", b"set 1 wedge 5"]
WORDS = ["nn", "mtn", "a", "n.", "Mnt", "tnmn", "nnnnn"]
STANDS = [None, None, b"", b"MRB1", b"MRB1\0\0\0\0", b"<svg></svg>", b"<svg", b"<sv", b"MR", b"MRB2\0\0\0\0", b"MR\0\0\0\0",
          b"MFD1", b"MFD2", b"MFD3", b"MF", b"<svG>", b"\n<svg>", b" MRB1", b"case = 1\n", b"\0"]
STANDS += [oracle_pages.BEGIN.encode() + more for more in (b"", b"", b"<title>", b"\0")]
STANDS += [oracle_pages.BEGIN.encode()[:-1], b"<!DOCTYPE html>\n<html>\n", b"\n" + oracle_pages.BEGIN.encode()]


FLAWS = ["site = 0", "site = 65536", "site = \"1\"", "case = 12", "wedge = \"\"", "sit = 1", "set = 1", "[set]\nmeasure = 11", "[set]\nloose = 240\ntight = 241",
         "[set]\nmeasures = 24", "case", "x = [\n1,\n2]", "\"a\\u001bb\" = 1", "# " + 8200 * "c"]


def options_of(words):
    """The words, where those of options of a room's file stand last, by their names and values."""
    plain, options, last = [], [], False
    for word in words:
        last, key = last or word == "--", word[2:].split("=")[0]
        if options and options[-1].endswith("="):
            options[-1] += word
        elif not last and word[:2] == "--" and key in ("site", "case", "wedge", "set"):
            options.append(word if "=" in word else word + "=")
        else:
            plain.append(word)
    return plain, sorted(options)


class Asked(differential_notes.Notes):
    """A random command: its words, what it reads from standard input, and the files that are there."""

    often = {"merge": 3, "diff": 1, "renumber": 4, "import": 3, "replace": 3, "find": 2, "punch": 3, "proof": 3, "text": 4, "read": 3,
             "compare": 3, "renew": 1, "rooms": 1, "log": 2, "export": 1, "sorts": 1}

    def __init__(self, seed, k):
        self.pick = random.Random(seed * 1000081 + k)
        self.files, self.text = {name: differential.FILES[name].encode() for name in ("c", "w", "w6")}, b""
        kind = self.pick.choice([kind for kind, times in self.often.items() for _ in range(times)])
        self.command, self.names, self.words, self.flags = getattr(self, "of_" + kind)()
        self.full = self.words
        if self.pick.random() < 0.25:
            self.in_room()
        self.name = " ".join(self.words)

    def in_room(self):
        """The file of a room gives some of the options, and others that are typed, or not wanted; in a few something is wrong."""
        pick, words, lines = self.pick, list(self.words), []
        for key, other in (("site", "3"), ("case", '"w"'), ("wedge", '"c"')):
            option, value = "--" + key, other
            if option in words and key in oracle_room.TAKES.get(words[0], ()) and pick.random() < 0.7:
                at = words.index(option)
                value = words[at + 1] if key == "site" else '"%s"' % words[at + 1]
                del words[at:at + 2]
            elif option not in words and key in oracle_room.TAKES.get(words[0], ()) or pick.random() < 0.3:
                continue
            lines.append("%s = %s" % (key, value))
        pick.shuffle(lines)
        if words[0] == "proof" and pick.random() < 0.6:
            lines += self.given(words)
        elif pick.random() < 0.4:
            flaw = pick.choice(FLAWS)
            lines = [line for line in lines if line.split()[0] != flaw.split()[0]]
            lines.insert(pick.randrange(len(lines) + 1), flaw)
        self.words = words
        self.files[oracle_room.NAME] = "".join(line + "\n" for line in lines).encode()[:-1 if pick.random() < 0.3 else None]

    def given(self, words):
        """Lines of a room's file for the first settings that are tried, which then are not typed."""
        lines, keys = [], set()
        while "--set" in words and self.pick.random() < 0.7:
            at = words.index("--set")
            key, value = words[at + 1].split("=")
            if key in keys:
                break
            keys.add(key)
            lines.append("%s = %s" % (key, value))
            del words[at:at + 2]
        return ["[set]", *lines] if lines else []

    def edits(self, held, site, count):
        """A set after some edits by one site."""
        world = reported.world_of(site, held)
        for _ in range(count):
            size, kind = len(world.meaning(site).shown), self.pick.random()
            if kind < 0.6 or not size:
                text = " ".join(self.pick.choice(WORDS) for _ in range(self.pick.choice([1, 1, 1, 2, 4])))
                style = self.pick.choice("rrrrrri")
                text = "r\"%s \"" % text if style == "r" else "i\"a\""
                world.answer(("insert %d %d %s" % (site, self.pick.randrange(size + 1), text)).encode())
            elif kind < 0.85:
                world.answer(b"delete %d %d" % (site, self.pick.randrange(size)))
            else:
                world.answer(b"set %d measure %d" % (site, self.pick.choice([60, 120, 144])))
        return world.sites[site]

    def some(self, held):
        """A part of a set: mostly its oldest operations, or what a feed has that was cut off, or any."""
        ops, kind = sorted(held, key=oracle.order), self.pick.random()
        if kind < 0.6:
            return set(ops[:self.pick.randrange(len(ops) + 1)])
        return {op for op in ops if self.pick.random() < 0.8}

    def forged(self, count):
        """Operations that are lawful, and that no site may have made."""
        out, scripts = set(), differential.Scripts(self.pick, None)
        while len(out) < count:
            data = scripts.op()
            if not oracle.unlawful(data[0], data):
                out.add(oracle.read_op(data))
        return out

    def rooms(self):
        """What three rooms hold that began with one set, and what they have of one another; two may use one number."""
        pick, begun = self.pick, self.edits(set(), 1, self.pick.choice([0, 0, 1, 3, 6]))
        rooms = [set(begun) if pick.random() < 0.9 else self.some(begun) for _ in range(3)]
        if pick.random() < 0.6:
            third = self.edits(begun, pick.choice([2, 2, 3, 5]), 2)
            rooms = [self.edits(room, 1, 1) | (third if pick.random() < 0.4 else set()) for room in rooms]
            rooms = [self.edits(room, 2, 1) | room if pick.random() < 0.1 else room for room in rooms]
        for _ in range(pick.choice([0, 1, 2, 4])):
            at = pick.randrange(3)
            rooms[at] = self.edits(rooms[at], pick.choice([at + 1, at + 1, 1, 2]), pick.choice([1, 1, 2, 4]))
            if pick.random() < 0.25:
                other = rooms[pick.randrange(3)]
                rooms[at] = rooms[at] | (other if pick.random() < 0.6 else self.some(other))
        if pick.random() < 0.12:
            rooms[pick.randrange(2)] |= self.forged(pick.choice([1, 2, 5]))
        if pick.random() < 0.2:  # the second has an answer to what the first alone may have
            seen = pick.choice(sorted(rooms[0], key=oracle.order) or [("", oracle.HEAD)])[1]
            rooms[1].add(("insert", (seen[0] + pick.choice([1, 2, 40]), pick.choice([3, 5])), seen, (0, ord("z"))))
        for _ in range(pick.choice([0, 0, 0, 1, 3, 9, 16])):  # settings, some of one stamp, in two rooms or in one
            room, stamp = rooms[pick.randrange(2)], (pick.choice([90, 91, 92, 93, 95]), pick.choice([1, 5, 6]))
            room.add(("set", stamp, "measure", pick.choice([60, 120, 144])))
        if pick.random() < 0.08:  # a number that is named, and that nobody is seen to have
            rooms[pick.randrange(2)].add(("delete", (120, 3), (110, pick.choice([4, 7, 9]))))
        for site in (1, 5) if pick.random() < 0.06 else ():
            rooms[0].add(("set", (99, site), "measure", 60))
            rooms[1].add(("set", (99, site), "measure", pick.choice([60, 120, 120])))
        return rooms

    def feed(self, held):
        """The bytes of a set's feed, in one of the two forms, or in any order and with some twice; a few are damaged."""
        ops = [oracle.spelling(op) for op in held] + [oracle.spelling(op) for op in list(held)[:2]]
        self.pick.shuffle(ops)
        forms = [oracle.runs_feed(held)] * 6 + [oracle.singles_feed(held), b"MFD1" + b"".join(ops), b"MFD2" + b"".join(ops)]
        data = self.pick.choice(forms)
        return data[:self.pick.randrange(len(data) + 1)] if self.pick.random() < 0.02 else data

    def feeds(self, *names):
        """Feeds of some rooms under these names; a few are not there."""
        for name, held in zip(names, self.rooms()):
            if self.pick.random() < 0.97:
                self.files[name] = self.feed(held)
        if self.pick.random() < 0.2:  # what only some commands look at
            self.files["one.last"] = b"site 1 785\nsite 2 1\n"

    def site(self):
        return self.pick.choice([1, 2, 4, 4, 7, 7, 9, 65535])

    def of_merge(self):
        self.feeds("one", "two", "three")
        others = self.pick.choices(["two", "two", "three", "three", "one"], k=self.pick.choice([1, 1, 2, 3]))
        if self.pick.random() < 0.05:
            others.insert(self.pick.randrange(len(others) + 1), "none")
        return self.merging("one", *others, forks=self.pick.random() < 0.4)

    def merging(self, *names, forks):
        """A merge of feeds, which may be one that looks for open readings."""
        review = self.pick.random() < 0.4
        words = ["merge", *names] + ["--forks"] * forks + ["--review"] * review
        return oracle_runs.merge, list(names), words, {"forks": forks, "review": review}

    def of_diff(self):
        self.feeds("one", "two")
        return self.differing(*self.pick.choice([("one", "two")] * 9 + [("one", "one")]))

    def differing(self, *names):
        """A difference of two feeds, of the one as it is or as it was; of that and itself without the second name, at times."""
        until, asked = self.until(0.3)
        short = until is not None and names[0] == names[1] and self.pick.random() < 0.7
        return oracle_runs.diff, list(names), ["diff", *names[:1 if short else 2], *asked], {"until": until}

    def until(self, often):
        """A counter up to which a feed is taken, or none; and how it is asked for."""
        if self.pick.random() >= often:
            return None, []
        until = self.pick.choice([0, 1, 2, 5, 6, 9, 20, 40, 90, 95, oracle.MAX_COUNTER, 2 ** 64 - 1])
        return until, ["--at", str(until)]

    def of_export(self):
        self.feeds("one")
        until, asked = self.until(0.7)
        return oracle_runs.export, ["one"], ["export", "one", *asked], {"until": until}

    def of_sorts(self):
        job, (until, asked) = self.job(), self.until(0.7)
        return oracle_runs.sorts, job[:2], ["sorts", "one", "--case", job[1], *asked], {"until": until}

    def of_renumber(self):
        self.feeds("one", "two")
        other, site = "two" if self.pick.random() < 0.96 else "one", self.site()
        return oracle_runs.renumber, ["one", other, site], ["renumber", "one", other, "--site", str(site)], {}

    def of_renew(self):
        self.feeds("one", "two")
        new, feed = self.pick.choice(["three"] * 5 + ["one", "two"]), self.pick.choice(["one", "two"])
        site = self.site()
        if self.pick.random() < 0.2:
            self.files["three"] = b""
        if self.pick.random() < 0.3 and feed in self.files and reported.held_in(self.files[feed]):
            world = reported.world_of(2, reported.held_in(self.files[feed]))
            for _ in range(4):
                world.answer(b"set 2 %s" % differential.Scripts(self.pick, None).setting().encode())
            self.files[feed] = oracle.runs_feed(world.sites[2])
        return oracle_runs.renew, [new, feed, site], ["renew", new, feed, "--site", str(site)], {}

    def of_rooms(self):
        """A feed of what some rooms hold together, with forks and with what no site may have made."""
        self.feeds("one")
        if self.pick.random() < 0.8:
            held = set().union(*self.rooms(), self.forged(self.pick.choice([0, 0, 1, 3, 9])))
            self.files["one"] = self.feed(held)
        return oracle_runs.rooms, ["one"], ["rooms", "one"], {}

    def of_log(self):
        """A feed of what some rooms hold together, with forks, with what no site may have made, and with long texts."""
        pick = self.pick
        self.feeds("one")
        if pick.random() < 0.8:
            held = set().union(*self.rooms(), self.forged(pick.choice([0, 0, 1, 3, 9])))
            world = reported.world_of(2, held)
            if pick.random() < 0.3:  # about as many symbols as are shown whole
                world.insert(2, 0, [(pick.choice([0, 0, 0, 1]), ord(pick.choice("nmta"))) for _ in range(pick.choice([39, 40, 41, 65, 130]))])
            held = self.edits(world.sites[2], pick.choice([1, 2, 3]), pick.choice([0, 1]))
            if pick.random() < 0.3:  # a room that only deletes
                world = reported.world_of(3, held)
                for _ in range(3):
                    world.answer(b"delete 3 %d" % pick.randrange(1 + len(oracle.Meaning(held).copy)))
                held = world.sites[3]
            self.files["one"] = self.feed(held)
        held = reported.held_in(self.files.get("one", b"MFD2")) or set()
        is_gone = pick.random() < 0.06
        if is_gone:
            self.files.pop("one", None)
        rows = oracle_log.corrections(held) or [[("set", oracle.HEAD)]]
        row = pick.choice(rows) if pick.random() < 0.6 else max(rows, key=len)
        words, flags = ["log", "one"], {}
        if pick.random() < 0.3:
            flags["site"] = max(1, row[0][1][1])
            words += ["--site", str(flags["site"])]
        if pick.random() < 0.3:
            flags["since"] = max(0, pick.choice([row[0], row[-1]])[1][0] + pick.choice([-1, 0, 0, 1]))
            words += ["--since", str(flags["since"])]
        if pick.random() < 0.6:
            inserted, deleted = oracle_log.texts_of(row, oracle_log.bearing_of(held))
            text = pick.choice([inserted, deleted, oracle.Meaning(held).copy])
            at = pick.randrange(len(text) + 1)
            text = [((style + 1) % 3 if ch not in (10, 32) and pick.random() < 0.15 else style, ch) for style, ch in text[at:at + pick.choice([0, 1, 2, 3])]]
            if len(inserted) > 40 and pick.random() < 0.5:
                text = inserted[14:22]
            elif inserted and deleted and pick.random() < 0.4:
                text = inserted[-2:] + deleted[:2]
            text = pick.choice([reported.exported(text)] * 6 + ["n", " ", "\n", "", "_n", "_a_"] + ["_n"] * 9 * is_gone)
            words, flags["text"] = [*words, "--", text], text.encode()
        return oracle_runs.log, ["one"], words, flags

    def of_import(self):
        """A copy of about as many symbols as have a limit, and a text that deletes about as many of them as may go."""
        size = self.pick.choice([0, 1, 9, 198, 199, 199, 200, 200, 200, 201, 201, 202, 203, 260])
        copy = [(self.pick.choice([0, 0, 0, 1]), ord(self.pick.choice("ntamntam\u00e9"))) for _ in range(size)]
        world = reported.world_of(1, set())
        if copy:
            world.answer(b"insert 1 0 %s" % oracle.text_of(copy).encode())
        self.files["one"] = oracle.runs_feed(self.edits(world.sites[1], 2, self.pick.choice([0, 0, 0, 1])))
        copy = oracle.Meaning(reported.held_in(self.files["one"])).copy
        kind = self.pick.randrange(8)
        if kind < 6 and copy:
            gone = len(copy) // 2 + self.pick.choice([-1, 0, 0, 1, 1, 2, len(copy)])
            gone = min(len(copy), max(0, gone))
            out = set(self.pick.sample(range(len(copy)), gone) if self.pick.random() < 0.5 else range(gone))
            copy = [symbol for at, symbol in enumerate(copy) if at not in out]
            copy[len(copy) // 2:len(copy) // 2] = [(0, ord("Z"))] * self.pick.choice([0, 0, 1, 3, 200])
        elif kind == 6:
            copy = [(0, ord("Z"))] * self.pick.choice([0, 0, 1, 250])
        self.text = reported.exported(copy).encode()
        if self.pick.random() < 0.15:
            self.text = self.pick.choice([b"__", b"^^", b"__^^", b"^^__", b"_", b"\r", b"\r\n", b"\\", b"\t"])
        if self.pick.random() < 0.08:
            del self.files["one"]
        plain, everything = self.pick.random() < 0.1, self.pick.random() < 0.2
        site, older = self.room()
        words = ["import", "one", "--site", str(site)] + ["--plain"] * plain + ["--all"] * everything + ["--older"] * older
        flags = {"text": self.text, "plain": plain, "everything": everything, "site": site, "older": older}
        return oracle_runs.import_text, ["one"], words, flags

    def room(self):
        """The site that goes on with the feed, with a FEED.last or without, and whether an older feed is wanted."""
        site, last = self.pick.choice([1, 2, 2, 3]), None
        if self.pick.random() < 0.6:
            last = differential.last_of(self.pick, self.files.get("one"), site)
        if last is not None:
            self.files["one.last"] = last
        return site, self.pick.random() < 0.25

    def of_replace(self):
        """A text that stands in a copy once, or nowhere, or often, and another in its place, at a place that is asked for, or everywhere."""
        self.feeds("one")
        if self.pick.random() < 0.05:
            self.files.pop("one", None)
        copy = oracle.Meaning(reported.held_in(self.files.get("one", b"MFD2")) or ()).copy
        at = self.pick.randrange(len(copy) + 1)
        old = reported.exported(copy[at:at + self.pick.choice([1, 2, 3, 5])])
        new = self.pick.choice(WORDS + ["", "_a_", "^M^", "a b", "_a", "\\", "t"])
        old = self.pick.choice([old] * 8 + ["n", "zz", "", "_n", "^n_"])
        if self.pick.random() < 0.3:  # what has several places, some of which may overlap
            old = self.pick.choice(["n", "nn", "a", "t", " ", "n n", ""])
        plain, (site, older) = self.pick.random() < 0.1, self.room()
        here, everywhere = self.where(copy, old)
        words = ["replace", "one", "--site", str(site)] + ["--plain"] * plain + ["--older"] * older
        words += ["--all"] * everywhere + ([] if here is None else ["--at", str(here)]) + ["--", old, new]
        flags = {"old": old.encode(), "new": new.encode(), "site": site, "plain": plain, "older": older, "at": here, "everywhere": everywhere}
        return oracle_runs.replace, ["one"], words, flags

    def where(self, copy, old):
        """The place that is asked for, mostly one of the text's, or none; and whether all are to be taken."""
        kind = self.pick.random()
        if kind < 0.4:
            return None, False
        if kind < 0.7:
            return None, True
        try:
            places = reported_copy.places_of(reported_copy.read_text(old.encode()), copy)
        except reported_copy.NoText:
            places = []
        if places and self.pick.random() < 0.7:
            return self.pick.choice(places), False
        return self.pick.choice([0, 1, len(copy), len(copy) + 1, self.pick.randrange(len(copy) + 1)]), False

    def of_find(self):
        """A text that is looked for in a copy of some lines, or in any, with its lines in the galley or without."""
        metal = ()
        if self.pick.random() < 0.75:
            metal = ("c", self.pick.choice(["w"] * 9 + ["w6"]))
            self.galley()
        else:
            self.feeds("one")
        if self.pick.random() < 0.06:
            self.files.pop("one", None)
        copy = oracle.Meaning(reported.held_in(self.files.get("one", b"MFD2")) or ()).copy
        at = self.pick.randrange(len(copy) + 1)
        text = reported.exported(copy[at:at + self.pick.choice([0, 1, 1, 2, 3])])
        text = self.pick.choice([text] * 6 + ["n", "nn", " ", "\n", "zz", "", "_n", "_a_"])
        plain = self.pick.random() < 0.3
        words = ["find", "one"] + ["--plain"] * plain
        if metal:
            words += ["--case", metal[0], "--wedge", metal[1]]
        return oracle_runs.find, ["one"], words + ["--", text], {"text": text.encode(), "plain": plain, "metal": metal}

    def galley(self):
        """A feed of a copy of some lines, or of none, of which a setting may be missing or another."""
        world = reported.world_of(1, set())
        for line in JOB + [b"set 1 measure %d" % self.pick.choice([24, 36, 60, 120])]:
            if self.pick.random() < 0.98:
                world.answer(line)
        if self.pick.random() < 0.06:
            world.answer(self.pick.choice([b"set 1 case 2", b"set 1 wedge 6", b"set 1 tight 151"]))
        copy = []
        for _ in range(self.pick.choice([0, 1, 3, 9, 20])):
            word = self.pick.choice(WORDS)
            copy += [(0, ord(ch)) for ch in word] + self.pick.choice([[(0, 32)]] * 5 + [[(0, 32)] * 2, [(0, 10)], [(0, 10)] * 2])
        if copy:
            world.insert(1, 0, copy)
        self.files["one"] = oracle.runs_feed(self.edits(world.sites[1], 2, self.pick.choice([0, 0, 1])))

    def stands(self, *sources, name="target"):
        """A target: nothing, one of the files that it is made of, or something else."""
        if self.pick.random() < 0.08:
            return self.pick.choice(sources)
        data = self.pick.choice(STANDS)
        if data is not None:
            self.files[name] = data
        return name

    def job(self, name="one", often=0.35):
        """A feed of a job, whose copy may have faults and whose settings may have some."""
        world = reported.world_of(1, set())
        for line in JOB + [b"insert 1 0 r\"nnn mmm nnn. \""]:
            world.answer(line)
        held = world.sites[1]
        if self.pick.random() < 0.3:
            held = self.edits(held, 2, 2)
        if self.pick.random() < often:
            fork, waits = ("insert", (6, 1), oracle.HEAD, (0, 110)), ("delete", (30, 2), (29, 2))
            twice = {("set", (40, 3), "tight", 40), ("set", (40, 3), "tight", 41)}
            held = held | self.pick.choice([{fork}, {waits}, {("set", (1, 1), "loose", 150)}, twice, self.forged(2)])
        self.files[name] = oracle.runs_feed(held)
        return [name, "c", self.pick.choice(["w"] * 9 + ["w6"])]

    def jobs(self):
        """Feeds of one job or of several, each with settings of its own; one may be asked for twice, be damaged, or not be there."""
        pick, some = self.pick, self.pick.choice([["one"], ["one"], ["one", "two"], ["one", "two", "three"]])
        *_, case, wedge = [self.job(name, 0.35 / len(some)) for name in some][-1]
        for name in some:
            if pick.random() < 0.3:
                world = reported.world_of(4, reported.held_in(self.files[name]))
                world.answer(b"set 4 measure %d" % pick.choice([60, 75, 120, 144]))
                if pick.random() < 0.3:  # a galley without a line
                    for _ in range(len(world.meaning(4).shown)):
                        world.answer(b"delete 4 0")
                self.files[name] = oracle.runs_feed(world.sites[4])
        if len(some) > 1 and pick.random() < 0.08:
            name = pick.choice(some)
            self.files[name] = pick.choice([b"", b"MFD3", self.files[name][:-1]])
        feeds = some + ([pick.choice(some)] if pick.random() < 0.2 else []) + (["none"] if pick.random() < 0.1 else [])
        if len(some) > 1:
            pick.shuffle(feeds)
        return [*feeds, case if pick.random() < (0.5 if feeds[0] == "none" else 0.92) else "w", wedge]

    def of_punch(self):
        job, force, faulty = self.jobs(), self.pick.random() < 0.25, self.pick.random() < 0.4
        to = self.stands(*job)
        words = ["punch", *job[:-2], "--case", job[-2], "--wedge", job[-1], "-o", to]
        words += ["--force"] * force + ["--faulty"] * faulty
        return oracle_runs.punch, [*job, to], words, {"force": force, "faulty": faulty}

    def due(self, runs=oracle_runs):
        """Its status, what it writes and says, and the files after it."""
        words, wrong = runs.oracle_room.filled(self.words, self.files)
        if wrong is not None:
            return 1, "", "copydesk: input refused\n%s: %s\n" % (oracle_room.NAME, reported.plain(wrong)), dict(self.files)
        if options_of(words) != options_of(self.full):
            return 2, "", "other words than were meant", dict(self.files)
        return runs.run(getattr(runs, self.command.__name__), self.files, *self.names, **self.flags)

    def got(self, program):
        """The same by the program, in a folder of its own."""
        with tempfile.TemporaryDirectory(dir=".") as folder:
            for name, data in self.files.items():
                with open(os.path.join(folder, name), "wb") as file:
                    file.write(data)
            done = subprocess.run([program, *self.words], input=self.text, capture_output=True, cwd=folder, timeout=300)
            left = {}
            for name in os.listdir(folder):
                if not name.endswith(".lock"):
                    with open(os.path.join(folder, name), "rb") as file:
                        left[name] = file.read()
            return done.returncode, done.stdout, done.stderr, left

    def differs(self, got):
        """What differs from what is due, or none."""
        due, kind = self.due(), self.words[0]
        status, out, why, left = got
        if oracle_room.NO_TOML in due[2]:
            why = oracle_room.alike(why.decode()).encode()
        if self.command is oracle_runs.diff and not due[0]:
            return self.differs_in_diff(got, due[1])
        if self.flags.get("review") and due[0] and not due[2] and why == b"copydesk: open readings\n":
            why = b""
        told = fuzz_asks.first_line((status, out, why)) if kind == "renumber" else (status, out, why)
        wrong = fuzz_asks.differing(self.name, told, fuzz_asks.bytes_of(due))
        if wrong or due[0] and left == self.files == due[3]:
            return wrong
        if kind in ("import", "replace") and not due[0]:
            return self.differs_in_edits(left, out.decode())
        if kind == "read":
            left = {name: self.picture_in(data) if data != self.files.get(name) else data for name, data in left.items()}
        if left != due[3]:
            return "%s: it has left %r, due %r" % (self.name, left, due[3])
        if kind == "renumber":
            return fuzz_asks.reads_otherwise(self.files.get("one"), left.get("one"), out)
        return None

    def picture_in(self, data):
        """Of a picture of a ribbon its beginning, its title and the places of its rows."""
        if data[:4] != b"<svg":
            return data[:4]
        return data[:4] + ("%s %s" % fuzz_asks.rows_drawn(data)[:2]).encode()

    def differs_in_diff(self, got, readings):
        """What is wrong with what `diff` has written of two feeds: what each has alone, the words that differ, and the readings."""
        status, out, why, left = got
        sets = [set(oracle.read_feed(self.files[name])) for name in self.names]
        sets[0] = oracle_runs.held_in(self.files, self.names[0], until=self.flags["until"])
        copies = [oracle.Meaning(held).copy for held in sets]
        out = out.decode()
        due = (0 if sets[0] == sets[1] else 1, b"", self.files)
        if (status, why, left) != due or not out.endswith(readings):
            return "%s: %r, due %r and the end %r" % (self.name, got, due, readings)
        lines = out[:len(out) - len(readings)].split("\n")[:-1]
        alone = [reported.alone(self.names[k], sets[k], sets[1 - k]) for k in (0, 1)]
        if lines[:2] != alone or (copies[0] == copies[1]) != (len(lines) == 2):
            return "%s: %r, due %r" % (self.name, lines, alone)
        return reported_copy.differs_in(*copies, lines[2:])

    def text_due(self):
        """The copy that an import or a replacement makes."""
        if self.words[0] == "import":
            return reported_copy.read_text(self.text, self.flags["plain"])
        old, new = (reported_copy.read_text(self.flags[name], self.flags["plain"]) for name in ("old", "new"))
        copy = oracle.Meaning(reported.held_in(self.files.get("one", b"MFD2"))).copy
        places = reported_copy.taken(reported_copy.places_of(old, copy), len(old), self.flags["at"], self.flags["everywhere"])
        return oracle_runs.replaced(copy, places, old, new)

    def differs_in_edits(self, left, out):
        before, after = (reported.held_in(files.get("one", b"MFD2")) for files in (self.files, left))
        last = oracle_readings.noted(self.files.get("one.last"), self.flags["site"], after or ())
        due = {**self.files, "one": oracle_runs.oracle.runs_feed(after or ()), "one.last": last}
        if left != due:
            return "%s: it has left %r, due %r" % (self.name, left, due)
        return reported_copy.edited(before, after, self.flags["site"], self.text_due(), out)

    def compared(self, name, program):
        """The command through both: 1, and what differs or an empty text."""
        wrong = self.differs(self.got(program))
        if not wrong:
            return 1, ""
        files = {name: data for name, data in self.files.items() if name not in differential.FILES}
        return 0, "%s: %s\n of %r\n %r" % (name, wrong, files, self.text)


class Noted(Asked):
    """Commands on texts and ribbons alone."""

    often = {"text": 4, "proof": 3, "read": 3, "compare": 3}


class Paged(Asked):
    """Proofs with documents, ribbons of several feeds, and readings of ribbons."""

    often, heights = {"text": 4, "proof": 5, "punch": 4, "read": 3}, [*differential_notes.HEIGHTS, *["200"] * 7]
    pictures, documents, numbered = 0.5, 0.8, 0.4

    def some_text(self):
        """A text, of which there may be several after one another, so that a page may not have room for it."""
        return super().some_text() * self.pick.choice([1, 1, 3, 6])

    def stands(self, *sources, name="target"):
        """A target, which has mostly no file."""
        return name if self.pick.random() < 0.7 else super().stands(*sources, name=name)


TEXTS = ["agian", "teh", "recieve", "sheetss", "thee", "sheets", "galleys", "the", "of", "a", "noon.", "word", "Monday", "Friday", "a_b", "^", "\\",
         "unabridgeabilityandothersuch", "press", "type", "come", "to", "us"]
MENDED = {"agian": "again", "sheetss": "sheets", "thee": "the", "teh": "the", "recieve": "receive", "Monday": "Tuesday", "come": "reach", "word": "words"}


class Joined(Asked):
    """A merge, or a difference, of feeds of two to four rooms that began with one text and have corrected it."""

    often = {"merge": 5, "diff": 1}

    def rooms(self):
        pick = self.pick
        begun = self.typed(set(), 9, 0, "".join(pick.choice(TEXTS) + pick.choice("     \n") for _ in range(pick.choice([2, 5, 9, 14]))))
        count, rooms = pick.choice([2, 3, 3, 4]), []
        for number in range(count):
            held = begun if pick.random() < 0.95 else self.some(begun)
            site = pick.choice([number + 1] * 12 + [1, 2])
            for _ in range(pick.choice([0, 1, 2, 3, 5])):
                held = self.corrected(held, site)
                if rooms and pick.random() < 0.15:
                    other = pick.choice(rooms)
                    held = held | (other if pick.random() < 0.5 else self.some(other))
            rooms.append(held)
        if pick.random() < 0.08:
            rooms[0] = rooms[0] | self.forged(2)
        return rooms

    def typed(self, held, site, place, text, style=0):
        world = reported.world_of(site, held)
        if text:
            world.insert(site, place, [(0 if ch in " \n" else style, ord(ch)) for ch in text])
        return world.sites[site]

    def deleted(self, held, site, begin, end):
        world = reported.world_of(site, held)
        for _ in range(end - begin):
            world.answer(b"delete %d %d" % (site, begin))
        return world.sites[site]

    def put(self, held, site, begin, end, text):
        """A text in the place of some symbols: what both begin and end with may stay, and what comes may come first."""
        old = "".join(chr(ch) for _, ch in oracle.Meaning(held).copy[begin:end])
        if self.pick.random() < 0.8:
            while old and text and old[0] == text[0]:
                old, text, begin = old[1:], text[1:], begin + 1
            while old and text and old[-1] == text[-1]:
                old, text, end = old[:-1], text[:-1], end - 1
        style = self.pick.choice([0] * 9 + [1])
        if self.pick.random() < 0.5:
            return self.typed(self.deleted(held, site, begin, end), site, begin, text, style)
        return self.deleted(self.typed(held, site, end, text, style), site, begin, end)

    def corrected(self, held, site):
        """A word mended or exchanged, words taken out or put in, a line or words moved, two lines joined, or a setting."""
        pick, copy = self.pick, oracle.Meaning(held).copy
        text = "".join(chr(ch) for _, ch in copy)
        ends = [at for at, ch in enumerate(text) if ch in " \n"] + [len(text)]
        words = [(begin, end) for begin, end in zip([0] + [end + 1 for end in ends], ends) if begin < end]
        kind = pick.random()
        if not words or kind < 0.1:
            return self.typed(held, site, pick.randrange(len(copy) + 1), pick.choice(["", " ", "\n", "s", "x y", pick.choice(TEXTS) + " "]))
        typos = [(begin, end) for begin, end in words if text[begin:end] in MENDED]
        if typos and kind < 0.55:
            begin, end = pick.choice(typos[:2] if pick.random() < 0.7 else typos)
            return self.put(held, site, begin, end, MENDED[text[begin:end]] if pick.random() < 0.8 else pick.choice(TEXTS))
        at = pick.randrange(len(words))
        begin, end = words[at][0], words[min(len(words) - 1, at + pick.choice([0, 0, 1, 2]))][1]
        if kind < 0.75:
            return self.put(held, site, begin, end, " ".join(pick.choice(TEXTS) for _ in range(pick.choice([1, 1, 2, 3]))))
        if kind < 0.83:
            return self.deleted(held, site, begin, min(len(text), end + 1))
        if kind < 0.95:  # a line moved, or some words
            if pick.random() < 0.6:
                begin, end = text.rfind("\n", 0, begin) + 1, (text.find("\n", end) + len(text)) % len(text) + 1
            gone = self.deleted(held, site, begin, min(len(text), end + 1))
            return self.typed(gone, site, pick.choice([0, len(oracle.Meaning(gone).copy)]), text[begin:end + 1])
        if kind < 0.98 and "\n" in text:
            at = text.find("\n")
            return self.put(held, site, at, at + 1, " ")
        return self.edits(held, site, 1)

    def feeds(self, *names):
        self.named = ["one", "two", "three", "four"]
        for name, held in zip(self.named, self.rooms()):
            self.files[name] = self.feed(held)
        self.named = [name for name in self.named if name in self.files]

    def of_merge(self):
        self.feeds()
        others = self.named[1:]
        self.pick.shuffle(others)
        if self.pick.random() < 0.1:
            others.insert(self.pick.randrange(len(others) + 1), self.pick.choice(self.named))
        if self.pick.random() < 0.05:
            del self.files["one"]
        return self.merging("one", *others, forks=self.pick.random() < 0.5)

    def of_diff(self):
        self.feeds()
        return self.differing(*self.pick.sample(self.named, 2))

    def compared(self, name, program):
        """The joins of which both say how they read, and what differs or an empty text."""
        done, wrong = super().compared(name, program)
        return (1 if self.words[0] == "diff" else self.due()[1].count(" ok new ")) * done, wrong
