#!/usr/bin/env python3
"""Refuses each growth of the program in turn: growths.py PROGRAM.

A line of which a growth was refused is answered `refused memory`, and has changed nothing, or `stopped K memory`, and its
first K operations stand; each other answer is that of the independent program, which follows: it passes over the first and
does the front of the second. The lines of the first script and of the stored feed stand twice, so that what was refused is
asked again with memory. The run goes on: it ends with status 1 and `copydesk: no memory` only before the first answer, or
where the next line is longer than all before it, so that there was no memory to keep it, and what it wrote then is whole
lines. Then all growths from one on are refused, for each twentieth, and the same holds. Out of memory is never reported as another
refusal, of the wedge or the case file too, whose text `toml` reads with the global allocator. On a stored feed a run may end
so also at its end, where it stores; the file holds the old feed then, and the followed one after an end with status 0. Words
that are refused or ask for help keep their status, or end in that way too. A merge, an export, an import, a renewal and a
renumbering are done or refused as with all memory, but for the second line, or end so with the stored feeds as they were; a
proof, a punch, a reading and a list of sorts too, with no ribbon and no picture, and with what stood in their place. How far a
site has come stands beside a feed as it did, or as after a run with all memory: the feed is stored either way.
"""
import functools
import os
import re
import subprocess
import sys
import tempfile

import oracle
import oracle_readings
import oracle_runs

oracle.first_fault_case = functools.lru_cache(64)(oracle.first_fault_case)  # each run reads the same files
oracle.first_fault_wedge = functools.lru_cache(64)(oracle.first_fault_wedge)

HERE = os.path.dirname(os.path.abspath(__file__))
EXAMPLES = os.path.join(os.path.dirname(HERE), "examples")
# what a run writes that memory stopped: one line, and a second where it had a file in hand
NO_MEMORY = re.compile(rb"copydesk: no memory\n(\S+: out of memory\n)?")
FIRST = """site 1
site 2
insert 1 0 r"ab"
send 1 2
show 1
show 2
feed 2
set 1 measure 288
set 1 tight 40
set 1 loose 200
set 1 case 12
set 1 wedge 5
ribbon 1 case12.toml wedge5.toml
cast 1 case12.toml wedge5.toml
"""
SCRIPT = """site 1
site 2
insert 1 0 r"In ab" i"c" r"\\n"
set 1 measure 288
set 1 tight 40
set 1 loose 200
set 1 case 12
set 1 wedge 5
delete 1 3
send 1 2
send 2 1 0..2
take 2 4d464431010000000000000003000300000000000000000000000000007a
insert 2 1 s"MARSH" r" "
merge 1 2
show 1
faults 2
settings 1
restart 2
feed 2
ribbon 1 case12.toml wedge5.toml
cast 1 case12.toml wedge5.toml
ribbon 1 case12.toml falling.toml
ribbon 1 case12.toml narrow.toml
ribbon 1 doubled.toml wedge5.toml
ribbon 1 nofill.toml wedge5.toml
cast 1 broken.toml wedge5.toml
cast 1 none.toml wedge5.toml
insert 1 0 r"aa bb aa bb aa bb aa bb aa bb aa bb aa bb aa bb aa bb aa bb aa bb aa bb aa bb aa bb"
cast 1 case12.toml wedge5.toml
set 1 loose 41
ribbon 1 case12.toml wedge5.toml
insert 1 0 r"€"
cast 1 case12.toml wedge5.toml
show 2
"""
# an insert that crosses pages; lists of which the last operation forks a stamp, so that all is made anew after the others
# have found room (after a fork there is none, so an insert makes some); the long insert again, with memory; and a gift of more
# than a site has room for
STOPPED = """site 1
site 2
insert 1 0 r"{word}"
delete 1 3
take 2 4d4644310100000000000000090009000000000000000000000000000071
take 1 4d4644310100000000000000080008000000000000000000000000000070010000000000000009000900000000000000000000000000007a
send 1 2 7..11
insert 2 0 r"y"
take 2 4d46443101000000000000000a00080000000000000008000800000000720100000000000000080008000000000000000000000000000073
merge 1 2
insert 1 0 r"{word}"
site 3
insert 3 0 r"abcdefgh"
send 1 3 1..400
faults 1
faults 2
""".format(word="and so on; " * 109)
BAD_FILES = """site 1
set 1 measure 288
set 1 tight 40
set 1 loose 200
set 1 case 12
set 1 wedge 5
ribbon 1 short.toml wedge5.toml
ribbon 1 text.toml wedge5.toml
ribbon 1 space.toml wedge5.toml
ribbon 1 filled.toml wedge5.toml
ribbon 1 order.toml wedge5.toml
ribbon 1 case12.toml unread.toml
ribbon 1 case12.toml unnamed.toml
ribbon 1 case12.toml pica.toml
ribbon 1 case12.toml few.toml
"""
STORED = """insert 3 0 r"ab"
set 3 measure 120
show 3
"""


def files(folder):
    """The good files and the bad ones."""
    with open(os.path.join(EXAMPLES, "case12.toml"), encoding="utf-8") as file:
        case = file.read()
    with open(os.path.join(EXAMPLES, "wedge5.toml"), encoding="utf-8") as file:
        wedge = file.read()
    blank = [line for line in case.split("\n") if not line.startswith("fill")]
    texts = {
        "case12.toml": case,
        "wedge5.toml": wedge,
        "falling.toml": "wedge = 5\nset_q = 48\npica = \"sixth\"\nunits = [6,5,7,8,9,9,9,10,10,11,12,13,14,15,18]\n",
        "narrow.toml": "wedge = 5\nset_q = 19\npica = \"sixth\"\nunits = [5,6,7,8,9,9,9,10,10,11,12,13,14,15,18]\n",
        "nofill.toml": "\n".join(blank),
        "doubled.toml": "case = 12\nspace = \"O1\"\nfill = [\"O2\"]\nrows = [%s]\n" % ", ".join(["[%s]" % ", ".join(['"n"'] + ['""'] * 14)] * 15),
        "broken.toml": "case = [",
        "short.toml": case.replace('["H", "K", "N", "&", ', '["H", "K", "N", '),
        "text.toml": case.replace('"ﬃ"', '"ffi"'),
        "space.toml": case.replace('space = "G1"', 'space = "A1"'),
        "filled.toml": case.replace('fill = ["O15", "O7", "O2"]', 'fill = ["O15", "A7"]'),
        "order.toml": case.replace('fill = ["O15", "O7", "O2"]', 'fill = ["O2", "O7"]'),
        "unread.toml": "wedge =",
        "unnamed.toml": wedge.replace("wedge =", "number ="),
        "pica.toml": wedge.replace("pica =", "pica = 6 #"),
        "few.toml": "wedge = 5\nset_q = 48\npica = \"sixth\"\nunits = [5,6,7]\n",
    }
    for name, text in texts.items():
        with open(os.path.join(folder, name), "w", encoding="utf-8") as file:
            file.write(text)


def shim(folder):
    """The library that refuses, compiled."""
    path = os.path.join(folder, "refuse.so")
    subprocess.run(["cc", "-O1", "-shared", "-fPIC", "-o", path, os.path.join(HERE, "refuse.c")], check=True)
    return path


class Runs:
    """A program with its words and its input, in a folder: run while growths are refused."""

    def __init__(self, program, words, text, folder, library):
        self.command, self.text, self.folder, self.library = [program] + words, text.encode(), folder, library

    def run(self, number, always=False):
        environment = dict(os.environ, LD_PRELOAD=self.library, REFUSE=str(number))
        if always:
            environment["ALWAYS"] = "1"
        done = subprocess.run(self.command, input=self.text, cwd=self.folder, env=environment, capture_output=True, timeout=60)
        return done.returncode, done.stdout, done.stderr

    def count(self):
        """How many growths the undisturbed run asks for."""
        reading, writing = os.pipe()
        environment = dict(os.environ, LD_PRELOAD=self.library, COUNT="1")
        move = "exec 3>&%d; exec \"$@\"" % writing
        subprocess.run(["bash", "-c", move, "bash"] + self.command, input=self.text, cwd=self.folder, env=environment, stdout=subprocess.DEVNULL, stderr=subprocess.DEVNULL, pass_fds=[writing], timeout=60)
        os.close(writing)
        with os.fdopen(reading) as told:
            return int(told.read().split()[-1])


class Follower:
    """The independent program, which does what a run has told of each line that it did."""

    def __init__(self, start):
        self.world, self.lacked = oracle.World(), set()
        for line in start:
            self.world.answer(line)

    def line(self, line, answer):
        """What is wrong with the answer of a line."""
        stopped = re.fullmatch(rb"stopped ([1-9][0-9]*) memory", answer)
        if answer == b"refused memory" or stopped:
            self.lacked.add((line.split(b" ")[0].decode(), bool(stopped)))
        if answer == b"refused memory":
            return None
        if stopped:
            return None if oracle_runs.front(self.world, line, int(stopped[1])) else "%r was stopped after all: %r" % (line, answer)
        want = self.world.answer(line).encode("utf-8", "surrogatepass")
        return None if answer == want else "%r was answered %r and not %r" % (line, answer[:80], want[:80])

    def feed(self, site):
        return bytes.fromhex(self.world.answer(b"feed %d" % site).split(" ")[1])


def ended_early(lines, answered, at_end):
    """What is wrong with an end before all was done, after so many answers."""
    if answered == 0 or (at_end and answered == len(lines)):
        return None
    if answered < len(lines) and len(lines[answered]) > max(len(line) for line in lines[:answered]):
        return None
    return "ended early after %d answers" % answered


class Sweep:
    """A script of which growths are refused: what was wrong, how often the run ended early, and what lacked memory."""

    def __init__(self, runs, start=(), feed=None):
        self.runs, self.start, self.feed = runs, start, feed
        self.lines = list(oracle.lines(runs.text))
        self.faults, self.early, self.times, self.lacked = [], 0, 0, set()
        self.cwd = os.getcwd()

    def once(self, number, always):
        """What is wrong with one run."""
        status, written, told = self.runs.run(number, always)
        answers = written.split(b"\n")
        if answers.pop() != b"":
            return "part of a line was written"
        follower = Follower(self.start)
        wrong = [fault for fault in map(follower.line, self.lines, answers) if fault]
        if wrong:
            return wrong[0]
        self.lacked |= follower.lacked
        if number and not always and sum(a.endswith(b" memory") for a in answers) > 1:
            return "one growth was told of twice"
        if status == 0:
            return self.whole(answers, told, follower)
        self.early += 1
        if status != 1 or told != b"copydesk: no memory\n":
            return "ended with %d and %r" % (status, told)
        return ended_early(self.lines, len(answers), self.feed is not None) or self.kept(None)

    def whole(self, answers, told, follower):
        if told or len(answers) != len(self.lines):
            return "ended well with %d answers of %d, and %r" % (len(answers), len(self.lines), told)
        return self.kept(follower)

    def kept(self, follower):
        """What is wrong with the stored feed: it is the followed one, or where the run ended early the old one. What stands
        beside it is the old one's or, if there was memory for it, the followed one's."""
        if self.feed is None:
            return None
        path, old, site = self.feed
        now, last = get(path), get(path + ".last")
        put(path, old)
        lasts = [oracle_readings.noted(None, site, set(oracle.read_feed(data))) for data in (old, now)]
        put(path + ".last", lasts[0])
        if last not in lasts:
            return "what stands beside the stored feed is %r" % last
        return None if now == (follower.feed(site) if follower else old) else "the stored feed is another one"

    def all(self, step=20):
        os.chdir(self.runs.folder)  # the independent program reads its files there
        growths = self.runs.count()
        if self.feed:
            path, old, site = self.feed
            put(path, old)
            put(path + ".last", oracle_readings.noted(None, site, set(oracle.read_feed(old))))
        self.note("undisturbed", self.once(0, False))
        if self.early or self.lacked:
            self.faults.append("memory was wanted with nothing refused")
        for number in range(1, growths + 1):
            self.note("growth %d" % number, self.once(number, False))
        for number in range(1, growths + 1, step):
            self.note("from growth %d on" % number, self.once(number, True))
        os.chdir(self.cwd)
        return self

    def note(self, place, fault):
        self.times += 1
        if fault:
            self.faults.append("%s: %s" % (place, fault))


def twice(text):
    return "".join(line + "\n" + line + "\n" for line in text.splitlines())


def script(program, folder, library, text=SCRIPT):
    return Sweep(Runs(program, ["script"], text, folder, library)).all()


def first(program, folder, library):
    return script(program, folder, library, twice(FIRST))


def bad_files(program, folder, library):
    return script(program, folder, library, BAD_FILES)


def stops(program, folder, library):
    """Lists of which a part is taken in: all growths are refused from each one on."""
    return Sweep(Runs(program, ["script"], STOPPED, folder, library)).all(1)


def stored(program, folder, library):
    """On a stored feed of two symbols and a measure."""
    path = os.path.join(folder, "a.feed")
    runs = Runs(program, ["desk", "a.feed", "--site", "3"], twice(STORED), folder, library)
    runs.run(0)
    with open(path, "rb") as file:
        old = file.read()
    start = [b"site 3", b"take 3 " + old.hex().encode()]
    return Sweep(runs, start, (path, old, 3)).all()


def words(program, folder, library):
    """Words that ask for help, and words that are refused: their texts may be cut short, their status may not change. Where the last
    growth is refused, that of the report of refused words, one line takes its place, there and nowhere else."""
    sweep = Sweep(Runs(program, [], "", folder, library))
    for line in ("--help", "desk --help", "jump", "desk a.feed", "desk a.feed --site 0", "script now"):
        runs = Runs(program, line.split(), "site 1\n", folder, library)
        whole = runs.run(0)
        many = runs.count()
        for number in range(1, many + 1):
            status, written, told = runs.run(number)
            ended = status == 1 and told == b"copydesk: no memory\n"
            sweep.early += ended
            shortened = whole[0] == 2 and number == many
            report = b"error: the words of the command line are refused\n" if shortened else whole[2]
            same = status == whole[0] and (told == report if shortened else report.startswith(told))
            fine = whole[1].startswith(written) and (ended or same)
            sweep.note("%s, growth %d" % (line, number), None if fine else "ended with %d and %r" % (status, told))
    return sweep


def by_hand(program, folder, library):
    """What is done by hand and a strict sheet: done as undisturbed, or ended out of memory with the stored feeds as they were."""
    feeds = [os.path.join(folder, name) for name in ("hand.feed", "new.feed")]
    texts = (("hand.feed", "1", "Send _word_\nby noon.\n"), ("other.feed", "2", "Word was sent.\n"), ("twin.feed", "1", "Sent.\n"))
    for name, site, text in texts:
        subprocess.run([program, "import", name, "--site", site], input=text.encode(), cwd=folder, capture_output=True, check=True)
    feeds += [os.path.join(folder, "older.feed")]
    old, lasts = [get(feeds[0]), None, get(feeds[0])], [get(feeds[0] + ".last"), None, b"site 1 999\n"]

    def once(runs, number, always):
        for feed, data, last in zip(feeds, old, lasts):
            put(feed, data)
            put(feed + ".last", last)
        return *runs.run(number, always), [get(feed) for feed in feeds], [get(feed + ".last") for feed in feeds]

    sweep = Sweep(Runs(program, [], "", folder, library))
    asked = (
        ("merge hand.feed other.feed other.feed", "", ""),
        ("merge --review hand.feed other.feed other.feed", "", ""),
        ("diff hand.feed other.feed", "", ""),
        ("merge hand.feed other.feed twin.feed", "", "number used twice"),
        ("merge hand.feed twin.feed other.feed --forks", "", ""),
        ("export hand.feed", "", ""),
        ("diff hand.feed hand.feed", "", ""),
        ("export hand.feed --at 9", "", ""),
        ("diff hand.feed --at 9", "", ""),
        ("rooms hand.feed", "", ""),
        ("log hand.feed", "", ""),
        ("log hand.feed noon --site 1 --since 1", "", ""),
        ("find hand.feed o", "", ""),
        ("replace hand.feed --site 1 o _o_ --all", "", ""),
        ("replace hand.feed --site 1 o _o_ --at 14", "", ""),
        ("import hand.feed --site 1", "Sent _word_ by ^noon^.\n", ""),
        ("import hand.feed --site 1", "", "19 of 19 symbols would be deleted"),
        ("import hand.feed --site 1 --all", "", ""),
        ("replace hand.feed --site 1 noon ^noon^", "", ""),
        ("import older.feed --site 1", "Send word.\n", "older feed"),
        ("import older.feed --site 1 --older", "Send _word_ by ^noon^.\n", ""),
        ("replace older.feed --site 1 noon ^noon^", "", "older feed"),
        ("desk older.feed --site 1 --strict", "insert 1 4 r\" a\"\n", "older feed"),
        ("renew new.feed hand.feed --site 3", "", ""),
        ("renew other.feed hand.feed --site 3", "", "already there"),
        ("renumber hand.feed twin.feed --site 3", "", ""),
        ("renumber hand.feed twin.feed --site 1", "", "number in use"),
        ("check hand.feed other.feed case12.toml wedge5.toml", "", ""),
        ("desk hand.feed --site 1 --strict --number", "# a note\ninsert 1 4 r\" a\"\n\ninsert 1 6 i\"b\"\n", ""),
    )
    for words, text, why in asked:
        runs = Runs(program, words.split(), text, folder, library)
        whole = once(runs, 0, False)
        review = words.startswith("merge --review") and whole[0] == 1 and whole[2] in (b"", b"copydesk: open readings\n")
        sweep.note(words, None if review else unlike_due(whole, 1 if why or words.startswith(("diff hand.feed other", "diff hand.feed --at")) else 0, why))
        growths, named = runs.count(), words.startswith(("check ", "desk ", "renew other")) or why == "older feed"
        for number, always in [(k, False) for k in range(1, growths + 1)] + [(k, True) for k in range(1, growths + 1, 20)]:
            *got, beside = once(runs, number, always)
            if beside != lasts and (beside, got[3]) != (whole[4], whole[3]):
                sweep.note("%s, growth %d" % (words, number), "what stands beside the feeds is %r" % beside)
            ended = got[0] == 1 and bool(NO_MEMORY.fullmatch(got[2])) and whole[1].startswith(got[1]) and got[3] == old
            named = named or ended and b": out of memory" in got[2]
            stopped = got[0] == 1 and got[2].startswith(b"copydesk: line ") and got[1].endswith(b" refused memory\n") and got[3] == old
            sweep.early += ended or stopped
            same = got == list(whole[:4]) or why and cut_short(got, whole)
            sweep.note("%s, growth %d" % (words, number), None if ended or stopped or same else "ended with %d, %r and %r" % tuple(got[:3]))
        sweep.note(words, None if named else "no run has said over which file memory ran out")
    return sweep


def get(path):
    """The bytes of a file, or none."""
    if not os.path.exists(path):
        return None
    with open(path, "rb") as file:
        return file.read()


def put(path, data):
    """A file with these bytes, or none."""
    if data is not None:
        with open(path, "wb") as file:
            file.write(data)
    elif os.path.exists(path):
        os.remove(path)


def cut_short(got, whole):
    """Whether a run was refused as undisturbed, but that the second line on standard error is missing, or has the file and that memory ran out."""
    first, second = whole[2].split(b"\n")[0] + b"\n", whole[2].split(b"\n")[1] + b"\n"
    said, lacks = got[2][len(first):], b": out of memory\n"
    fewer = got[2] == first or got[2].startswith(first) and said.endswith(lacks) and second.startswith(said[:-len(lacks)] + b":")
    return (*got[:2], got[3]) == (*whole[:2], whole[3]) and fewer


def unlike_due(whole, status, why):
    """What is wrong with a run of which no growth is refused: its status, and what it says on standard error, if at all."""
    if (whole[0], whole[2].split(b"\n")[0].decode()) == (status, "copydesk: " + why if why else ""):
        return None
    return "ended with %d and %r" % (whole[0], whole[2])


SETTINGS = """set 1 measure 120
set 1 tight 40
set 1 loose 200
set 1 case 12
set 1 wedge 5
insert 1 0 r"Send word by noon at the latest."
"""
# a delete of what has not come
FAULTY = "take 1 4d464431020000000000000063000900000000000000620009\n"
# a text with two symbols that the case lacks, and with what has second looks; one that is no copy
NOTED = 'Send _word_ by noon at the the latest - it  is well- known , "so" .\nYours.\n'
OPEN = "Send _word\nby noon.\n"
# symbols that the case lacks, the first at more places than a row of the list has
LACKED = 'insert 1 0 r"%s"\n' % ("n~ |" * 12)


def previews(program, folder, library):
    """A proof of a feed or of a text, a punch of one feed or of several, a reading, two ribbons told apart and a list of sorts: done
    as undisturbed, or ended out of memory, and then no ribbon, picture or document is there, and what stood in its place is."""
    ribbon, note = os.path.join(folder, "preview.rib"), os.path.join(folder, "note.txt")
    for feed, commands in (("preview.feed", SETTINGS), ("lacking.feed", LACKED), ("faulty.feed", SETTINGS + FAULTY), ("second.feed", SETTINGS.replace("noon", "none"))):
        subprocess.run([program, "desk", feed, "--site", "1"], input=commands.encode(), cwd=folder, capture_output=True, check=True)
    old = [None, b"a note"]
    os.mkdir(os.path.join(folder, "bad"))
    for name, room in (("copydesk.toml", b'site = 1\ncase = "case12.toml"\nwedge = "wedge5.toml"\n[set]\nloose = 150\n'), ("bad/copydesk.toml", b"site = 1\n\n[set]\nloose = 9\n")):
        with open(os.path.join(folder, name), "wb") as file:
            file.write(room)

    def once(runs, number, always):
        if os.path.exists(ribbon):
            os.remove(ribbon)
        with open(note, "wb") as file:
            file.write(old[1])
        return *runs.run(number, always), [get(ribbon), get(note)]

    sweep = Sweep(Runs(program, [], "", folder, library))
    files = " --case case12.toml --wedge wedge5.toml"
    metal, of_ribbon, faulty = "preview.feed" + files, "read made.rib" + files, "faulty.feed" + files
    subprocess.run([program, *("punch -o made.rib " + metal).split()], cwd=folder, capture_output=True, check=True)
    for name, text in (("noted.txt", NOTED), ("open.txt", OPEN)):
        put(os.path.join(folder, name), text.encode())
    subprocess.run([program, *("punch -o other.rib second.feed" + files).split()], cwd=folder, capture_output=True, check=True)
    subprocess.run([program, *("punch -o many.rib second.feed preview.feed" + files).split()], cwd=folder, capture_output=True, check=True)
    put(os.path.join(folder, "cut.rib"), get(os.path.join(folder, "made.rib"))[:-4])
    noted = "--text noted.txt --set measure=120 --set tight=40 --set loose=200" + files
    kinds = (
        ("proof " + metal, 0, ""),
        ("proof --faults " + metal, 0, ""),
        ("find preview.feed noon --case case12.toml --wedge wedge5.toml", 0, ""),
        ("find preview.feed nowhere", 1, ""),
        ("punch -o preview.rib " + metal, 0, ""),
        ("punch -o made.rib " + metal, 0, ""),
        ("punch -o note.txt " + metal, 1, "not replaced"),
        ("punch -o note.txt --force " + metal, 0, ""),
        ("punch -o preview.rib " + faulty, 1, "copy faults"),
        ("punch -o preview.rib --faulty " + faulty, 0, ""),
        ("punch -o preview.rib second.feed preview.feed " + metal, 0, ""),
        ("punch -o made.rib second.feed " + metal, 0, ""),
        ("punch -o preview.rib second.feed lacking.feed " + metal, 1, "no ribbon"),
        ("punch -o preview.rib second.feed " + faulty, 1, "copy faults"),
        ("punch -o note.txt second.feed " + metal, 1, "not replaced"),
        ("read many.rib" + files, 0, ""),
        ("read many.rib --lines 2..9" + files, 0, ""),
        ("proof --set loose=150 --svg preview.rib " + metal, 0, ""),
        ("proof --svg note.txt " + metal, 1, "not replaced"),
        ("proof --set loose=150 --html preview.rib " + metal, 0, ""),
        ("proof --set loose=60 --html preview.rib --page 200 " + metal, 1, ""),
        ("proof --html note.txt " + metal, 1, "not replaced"),
        ("proof --html preview.rib --set case=7 " + metal, 1, ""),
        ("proof --html preview.rib " + faulty, 1, ""),
        ("proof --html preview.rib " + noted, 1, ""),
        (of_ribbon, 0, ""),
        (of_ribbon + " --svg preview.rib", 0, ""),
        (of_ribbon + " --svg note.txt", 1, "not replaced"),
        (of_ribbon + " --lines 2..3 --svg preview.rib", 0, ""),
        (of_ribbon + " --stats --pitch 1/10", 0, ""),
        ("diff made.rib other.rib" + files, 1, ""),
        ("diff made.rib made.rib" + files, 0, ""),
        ("diff cut.rib cut.rib" + files, 1, ""),
        ("proof " + noted, 1, ""),
        ("proof --warn --faults --plain " + noted, 1, ""),
        ("proof --format gcc --warn --svg preview.rib " + noted, 1, ""),
        ("proof --format gcc --warn --set loose=60 " + metal, 1, ""),
        ("proof --format gcc " + faulty, 1, ""),
        ("proof --text noted.txt --format gcc", 1, ""),
        ("proof --svg note.txt " + noted, 1, "not replaced"),
        ("proof --text open.txt --svg preview.rib" + files, 1, "input refused"),
        ("sorts preview.feed --case case12.toml --layout", 0, ""),
        ("sorts lacking.feed --case case12.toml", 1, ""),
        ("sorts preview.feed", 0, ""),
        ("proof preview.feed --set tight=40", 0, ""),
        ("check copydesk.toml", 0, ""),
        ("check bad/copydesk.toml", 1, ""),
    )
    for words, due, why in kinds:
        runs = Runs(program, words.split(), "", folder, library)
        whole = once(runs, 0, False)
        sweep.note(words, unlike_due(whole, due, why))
        growths, named = runs.count(), words.startswith("check ")
        for number, always in [(k, False) for k in range(1, growths + 1)] + [(k, True) for k in range(1, growths + 1, 20)]:
            got = once(runs, number, always)
            ended = got[0] == 1 and bool(NO_MEMORY.fullmatch(got[2])) and whole[1].startswith(got[1]) and got[3] == old
            named = named or ended and b": out of memory" in got[2]
            sweep.early += ended
            same = got == whole or why and cut_short(got, whole)
            sweep.note("%s, growth %d" % (words, number), None if ended or same else "ended with %d, %r and %r" % got[:3])
        sweep.note(words, None if named else "no run has said over which file memory ran out")
    return sweep


# the commands that a run of the script was seen to refuse as out of memory, and those that it stopped
LACKING = {(name, False) for name in ("site", "insert", "take", "send", "merge", "show", "faults", "settings", "feed", "ribbon", "cast", "restart")}
LACKING |= {(name, True) for name in ("insert", "take", "send", "merge")}


def main():
    program = os.path.abspath(sys.argv[1])
    with tempfile.TemporaryDirectory() as folder:
        library, failed, lacked = shim(folder), False, set()
        files(folder)
        for name, part in (("first script", first), ("script", script), ("stops", stops), ("bad files", bad_files), ("words", words), ("stored feed", stored), ("by hand", by_hand), ("previews", previews)):
            sweep = part(program, folder, library)
            for fault in sweep.faults[:20]:
                print(fault)
            lacked |= sweep.lacked
            failed = failed or bool(sweep.faults) or sweep.early == 0
            print("%s: %d runs with growths refused, %d ended early, %d faults" % (name, sweep.times, sweep.early, len(sweep.faults)))
        missing = sorted(LACKING - lacked)
        print("lacked memory: %s" % ", ".join("%s%s" % (name, " (stopped)" if stop else "") for name, stop in sorted(lacked)))
        if missing:
            print("never lacked memory: %s" % missing)
    return 1 if failed or missing else 0


if __name__ == "__main__":
    sys.exit(main())
