#!/usr/bin/env python3
"""Lets each call of the system fail in turn: calls.py PROGRAM [--all].

A library that is loaded before the C library (calls.c) lists the calls of an undisturbed run that open, read, write, name,
lock, sync or close files. Then each of them fails, in each way in which it may. A call that a signal interrupts, and one
that moves fewer bytes, changes nothing; nor does a run differ of which every read and write moves one byte, or every
second call is interrupted: of standard input nothing is, and standard error may be cut short. A device that fails at a
close, at the sync of a folder or at FEED.last changes nothing else.
Any other failed call leaves all as it was, or the run ends as docs/FORMATS.md says: with status 1 or an answer that names
the fault, the file that failed, and the number of the system's error. Each file is then the old or the new one, and the
same run, undisturbed, does what it does where nothing was left behind.

Then the disk is full: on file systems of every size from that of the files on, and with files of every length at most
around that of what is stored. The short form, for the gate, takes few of these lengths; `--all` takes more, and each that
is within 40 bytes of it.
"""
import errno
import os
import re
import resource
import shutil
import signal
import subprocess
import sys
import tempfile
import time

HERE = os.path.dirname(os.path.abspath(__file__))
EXAMPLES = os.path.join(os.path.dirname(HERE), "examples")
LIMIT = 60.0  # seconds, in which each run ends; one alone takes a hundredth of one
SHORT = 0  # a read or a write moves fewer bytes
PAGE = 4096
METAL = "--case case12.toml --wedge wedge5.toml"
SET = "--set measure=198 --set tight=40 --set loose=240 "
ROOM = "copydesk.toml"
TEXT = ("The sheets are in the galleys again, and the formes of the second volume will be worked on Thursday. Orders for "
        "the third are to reach us before the month is out; those that come later will be met from the _second_ printing.\n") * 2
SETTINGS = "set 1 measure 198\nset 1 tight 40\nset 1 loose 240\nset 1 case 12\nset 1 wedge 5\n"
SHEET = 'insert 1 0 r"Notice. "\nshow 1\ndelete 1 0\nribbon 1 case12.toml wedge5.toml\nsettings 1\n'
WAYS = {
    "open": (errno.ENOENT, errno.EACCES, errno.EMFILE, errno.EINTR),
    "read": (SHORT, errno.EINTR, errno.EIO),
    "write": (SHORT, errno.ENOSPC, errno.EIO, errno.EINTR),
    "truncate": (errno.EIO, errno.EINTR),
    "sync": (errno.EIO, errno.EINTR),
    "rename": (errno.EIO, errno.EACCES),
    "lock": (errno.EINTR, errno.ENOLCK),
    "stat": (errno.EIO,),
    "target": (errno.EIO,),
    "mode": (errno.EIO,),
    "unlink": (errno.EIO, errno.EACCES),
    "close": (errno.EIO, errno.EINTR),
}


class Job:
    """The words of a run and its input; the file that it stores, if any; the status that is due, and how its answer begins."""

    def __init__(self, words, own=None, text="", status=0, says=""):
        self.words, self.own, self.text, self.status, self.says = words, own, text, status, says
        self.kind = words.split()[0]
        self.last = (words.split() + [""])[1] + ".last"  # of what a run stores, where that is a feed


JOBS = (
    Job("desk hand.feed --site 1 --why", "hand.feed", SHEET, 0, "ok 452.1..459.1\n"),
    Job("desk hand.feed --site 1", "hand.feed", SHEET, 0, "ok 452.1..459.1\n"),
    Job("desk hand.feed --site 1 --strict --number", "hand.feed", "# one\n" + SHEET, 0, "2 ok 452.1..459.1\n"),
    Job("desk fresh.feed --site 1 --why", "fresh.feed", 'insert 1 0 r"ab"\n', 0, "ok 1.1..2.1\n"),
    Job("script", None, "site 1\n" + SETTINGS + SHEET, 0, "ok\nok 1.1\n"),
    Job("merge hand.feed other.feed", "hand.feed", "", 0, "other.feed ok new 7 known 451\nfaults none\n"),
    Job("merge fresh.feed hand.feed other.feed", "fresh.feed", "", 0, "hand.feed ok new 451 known 0\nother.feed ok new 7 known 451\n"),
    Job("diff hand.feed other.feed", None, "", 1, "hand.feed alone none\nother.feed alone 2: 452..458\n"),
    Job("export hand.feed", None, "", 0, TEXT),
    Job("export hand.feed --at 0", None, "", 0, ""),
    Job("rooms hand.feed", None, "", 0, "site 1 from 1.1 to 451.1: "),
    Job("log hand.feed", None, "", 0, "1.1..451.1 at 0 + "),
    Job("find hand.feed printing " + METAL, None, "", 0, "place "),
    Job("import hand.feed --site 1", "hand.feed", TEXT.replace("third", "fourth"), 0, "ok inserted 8 deleted 6\n"),
    Job("import fresh.feed --site 1", "fresh.feed", "Send _word_.\n", 0, "ok inserted 11 deleted 0\n"),
    Job("import link.feed --site 1", "rooms/one.feed", "Send word.\n", 0, "ok inserted 5 deleted 0\n"),
    Job("import older.feed --site 1", "older.feed", "Send word.\n", 1),
    Job("replace hand.feed --site 1 \"_second_ printing.\nThe\" \"_second_ printing. The\"", "hand.feed", "", 0, "ok inserted 1 deleted 1\n"),
    Job("check hand.feed made.rib case12.toml wedge5.toml", None, "", 0, "hand.feed ok: 451 operations, 446 symbols shown, faults none\n"),
    Job("proof hand.feed " + METAL, None, "", 0, "GALLEY "),
    Job("proof hand.feed --svg galley.svg " + METAL, "galley.svg", "", 0, "GALLEY "),
    Job("proof hand.feed --set measure=150 --svg made.svg " + METAL, "made.svg", "", 1, "GALLEY "),
    Job("proof hand.feed --format gcc --warn --set measure=150 " + METAL, None, "", 1, "hand.feed:1:"),
    Job("proof --text letter.txt --warn " + SET + METAL, None, "", 0, "GALLEY "),
    Job("proof --text letter.txt --format gcc --warn --svg text.svg " + SET + METAL, "text.svg", "", 0, "letter.txt:1:4: warning: two spaces\n"),
    Job("proof --text letter.txt --plain " + SET + "--wedge wedge5.toml", None, "", 1, "GALLEY "),
    Job("proof hand.feed --html galley.html " + METAL, "galley.html", "", 0, "GALLEY "),
    Job("proof hand.feed --set measure=150 --html made.html --page 300 " + METAL, "made.html", "", 1, "GALLEY "),
    Job("punch hand.feed -o new.rib " + METAL, "new.rib"),
    Job("punch hand.feed other.feed hand.feed -o new.rib " + METAL, "new.rib"),
    Job("punch other.feed -o made.rib " + METAL, "made.rib"),
    Job("read made.rib " + METAL, None, "", 0, "RIBBON "),
    Job("read made.rib --svg holes.svg " + METAL, "holes.svg", "", 0, "RIBBON "),
    Job("read made.rib --lines 2..3 --svg some.svg " + METAL, "some.svg", "", 0, "RIBBON "),
    Job("read made.rib --stats " + METAL, None, "", 0, "RIBBON "),
    Job("diff made.rib other.rib " + METAL, None, "", 1, "made.rib 12 lines, other.rib 12 lines, "),
    Job("sorts hand.feed --case case12.toml --layout", None, "", 0, "SORTS "),
    Job("sorts hand.feed", None, "", 0, "SORTS "),
    Job("import room.feed", "room.feed", "Send _word_.\n", 0, "ok inserted 11 deleted 0\n"),
    Job("check copydesk.toml", None, "", 0, "copydesk.toml ok: room file, site 1, case case12.toml\n"),
    Job("renumber twin.feed hand.feed --site 9", "twin.feed", "", 0, "ok renumbered 10\n"),
    Job("renew new.feed hand.feed --site 3", "new.feed", "", 0, "ok renewed 446\n"),
)


class Call:
    """A call as the log has it."""

    def __init__(self, line, room):
        number, self.kind, name, other, inode, value, result, error, data = line.split("\t")
        self.number, self.inode, self.value, self.result, self.error = int(number), int(inode), int(value), int(result), int(error)
        self.name, self.other, self.data = named(name, room), named(other, room), bytes.fromhex(data)


def named(name, room):
    """The name of a file from the folder of the run on, which is a point."""
    return "." if name == room else name.removeprefix(room + "/")


class Outcome:
    """How a run ended: its status, or none where it did not end; what it wrote; and the files."""

    def __init__(self, status, out, err, image):
        self.status, self.out, self.err, self.image = status, out, err, image

    def same(self):
        """What is compared of two runs."""
        return self.status, self.out, self.err, stored(self.image)

    def __repr__(self):
        return "status %s, %r and %r" % (self.status, self.out[:60], self.err[:160])


def stored(image):
    """The files, but for those that a run that ended badly may leave behind: they guard nothing and hold nothing."""
    return {name: data for name, data in image.items() if not name.endswith((".new", ".lock"))}


def lay(folder, image):
    """Makes a folder hold exactly these files: bytes, or texts of links."""
    for entry in os.scandir(folder):
        if entry.is_dir(follow_symlinks=False):
            shutil.rmtree(entry.path)
        else:
            os.remove(entry.path)
    for name, data in image.items():
        path = os.path.join(folder, name)
        if "/" in name:
            os.makedirs(os.path.dirname(path), exist_ok=True)
        if isinstance(data, str):
            os.symlink(data, path)
        else:
            put(path, data)


def seen(folder, prefix=""):
    """The files of a folder and of those in it."""
    image = {}
    for entry in os.scandir(os.path.join(folder, prefix)):
        name = prefix + entry.name
        if entry.is_symlink():
            image[name] = os.readlink(entry.path)
        elif entry.is_dir():
            image.update(seen(folder, name + "/"))
        else:
            image[name] = get(entry.path)
    return image


def put(path, data):
    with open(path, "wb") as file:
        file.write(data)


def get(path):
    with open(path, "rb") as file:
        return file.read()


def split(words):
    """The words of a command line, of which those in double quotes may hold spaces."""
    return [word.strip('"') for word in re.findall(r'"[^"]*"|\S+', words)]


def too_long(_number, _frame):
    """A run has not ended in time; it is killed."""
    raise TimeoutError


class Bench:
    """A program, run in a folder of memory with the library of calls."""

    def __init__(self, program, root):
        signal.signal(signal.SIGALRM, too_long)
        self.program, self.root, self.room = program, root, os.path.join(root, "room")
        self.library, self.log = os.path.join(root, "calls.so"), os.path.join(root, "log")
        self.known = {}
        os.mkdir(self.room)
        subprocess.run(["cc", "-O1", "-shared", "-fPIC", "-o", self.library, os.path.join(HERE, "calls.c")], check=True)

    def run(self, job, image=None, **environment):
        """A run on these files, or on those that are there; what it reads and writes are files beside the folder."""
        if image is not None:
            lay(self.room, image)
        if environment:
            environment["LD_PRELOAD"] = self.library
        names = [os.path.join(self.root, name) for name in ("stdin", "stdout", "stderr")]
        put(names[0], job.text.encode())
        with open(names[0], "rb") as reads, open(names[1], "wb") as writes, open(names[2], "wb") as tells:
            signal.setitimer(signal.ITIMER_REAL, LIMIT)
            try:
                status = subprocess.run([self.program, *split(job.words)], cwd=self.room, stdin=reads, stdout=writes, stderr=tells,
                                        env=dict(os.environ, **environment)).returncode
            except TimeoutError:
                status = None
            signal.setitimer(signal.ITIMER_REAL, 0)
        return Outcome(status, get(names[1]), get(names[2]), seen(self.room))

    def calls(self, job, image, **environment):
        """The calls of a run, and how it ended."""
        open(self.log, "wb").close()
        outcome = self.run(job, image, LOG=self.log, **environment)
        lines = get(self.log).decode().splitlines()
        return [Call(line.replace(self.root + "/std", "std"), self.room) for line in lines], outcome

    def next(self, job, image):
        """The end of an undisturbed run on these files."""
        at = job.words, job.text, frozenset(image.items())
        if at not in self.known:
            self.known[at] = self.run(job, image)
        return self.known[at]

    def due(self, job, image):
        """The end of an undisturbed run on these files, without what another left behind."""
        return self.next(job, stored(image))


def base(bench):
    """The files on which all runs go: feeds, with how far their sites have come, a link, a ribbon, a picture, a document, and the
    metal."""
    image = {name: get(os.path.join(EXAMPLES, name)) for name in ("case12.toml", "wedge5.toml")}
    image[ROOM] = b'site = 1\ncase = "case12.toml"\n'
    lay(bench.room, image)
    os.mkdir(os.path.join(bench.room, "rooms"))
    put(os.path.join(bench.room, "rooms", "note"), b"")
    os.symlink("rooms/one.feed", os.path.join(bench.room, "link.feed"))

    def made(words, text=""):
        outcome = bench.run(Job(words, text=text))
        if outcome.status != 0:
            raise SystemExit("%s: %r" % (words, outcome))

    made("desk hand.feed --site 1", SETTINGS)
    made("import hand.feed --site 1", TEXT.replace("formes", "forms", 1))
    made("merge twin.feed hand.feed")
    made("import twin.feed --site 1", TEXT.replace("formes", "forms", 1).replace("month", "quarter", 1))
    made("import hand.feed --site 1", TEXT)
    made("merge other.feed hand.feed")
    made("import other.feed --site 2", TEXT.replace("later", "sooner", 1))
    made("import link.feed --site 1", "Send.\n")
    made("import older.feed --site 1", "Send.\n")
    older = os.path.join(bench.room, "older.feed")
    before = get(older)
    made("import older.feed --site 1", "Send word soon.\n")
    put(older, before)
    made("punch hand.feed -o made.rib " + METAL)
    made("punch other.feed -o other.rib " + METAL)
    made("proof hand.feed --svg made.svg --html made.html " + METAL)
    put(os.path.join(bench.room, "letter.txt"), TEXT.replace(" ", "  ", 1).encode())
    return stored(seen(bench.room))


def typed(job, name):
    """The name of a file as the command line has it: that of a link for where it leads, and that of FEED for one beside it."""
    name = name.removesuffix(".new").removesuffix(".lock")
    return name.replace("rooms/one.feed", "link.feed") if "link.feed" in job.words else name


def ends_of(job, call, how):
    """Whether a run may go on as if the call had not failed, and the fault in which it may end."""
    name = call.name
    if how in (SHORT, errno.EINTR) or call.kind == "close" or name in (".", "rooms", "stderr") or ".last" in name:
        return True, None
    if name in ("stdin", "stdout"):
        return call.kind != ("read" if name == "stdin" else "write"), "read fault" if name == "stdin" else "write fault"
    fault = "input refused" if name.endswith(".toml") and name != ROOM else "file fault"
    opens = call.kind == "open" and not (name.endswith(".lock") and how == errno.EACCES)
    return not opens and call.kind not in ("read", "write", "truncate", "sync", "rename", "lock"), fault


def answered(job, whole, name, how):
    """The end of a run that names the fault of a file in an answer or a report, and goes on; none of another run."""
    lacks = how == errno.ENOENT
    if job.kind == "check" and name in job.words:
        line = re.escape(name.encode()) + rb" .*"
        return 1, re.sub(line, name.encode() + (b" no file" if lacks else b" file fault"), whole.out), b""
    if job.kind not in ("desk", "script") or not name.endswith(".toml"):
        return None
    out = re.sub(rb"ribbon .*", b"refused file " + (b"missing" if lacks else b"device"), whole.out)
    if "--strict" not in job.words:
        return whole.status, out, b""
    out = re.match(rb"(?s).*refused.*?\n", out).group()
    return 1, out, b"copydesk: line %s refused\n" % re.findall(rb"(\d+) refused", out)[0]


def wrong_words(job, name, fault, error, err):
    """What is wrong with the words on standard error: the fault, and then the file and the error of the system."""
    first, _, second = err.decode().partition("\n")
    if first != "copydesk: " + fault:
        return "%r, and not the fault %r" % (first, fault)
    if job.kind == "script" or job.kind == "desk" and "--why" not in job.words:
        return "a second line: %r" % second if second else None
    stream = {"stdin": "standard input: ", "stdout": "standard output: "}.get(name)
    place, cause = (stream, "\n") if stream else (typed(job, name), "(os error %d)\n" % error)
    named = second.startswith(place) and second.endswith(cause) and second.count("\n") == 1
    return None if named else "%r, which does not name %s and the error %d" % (second, place, error)


def wrong_files(job, old, new, got):
    """What is wrong with the files of a run that failed: each is the old or the new one, and FEED.last is not before FEED."""
    for name in sorted({*stored(old), *stored(new), *stored(got)}):
        if got.get(name) not in (old.get(name), new.get(name)):
            return "%s is neither the old nor the new one" % name
        if name.endswith(".last") and got.get(name) != old.get(name) and got.get(job.own) != new.get(job.own):
            return "%s is before its feed" % name
    return None


class Trial:
    """A job on files, how it ends undisturbed, and what was wrong where a call failed."""

    def __init__(self, bench, job, image):
        self.bench, self.job, self.image, self.faults, self.runs = bench, job, image, [], 0
        self.calls, self.whole = bench.calls(job, image)
        stores = job.own is not None and job.status == 0
        due = self.whole.status == job.status and self.whole.out.decode().startswith(job.says)
        if not due or stores and self.whole.image.get(job.own) == image.get(job.own):
            self.faults.append("%s: undisturbed %r" % (job.words, self.whole))

    def note(self, about, fault):
        self.runs += 1
        if fault:
            self.faults.append("%s: %s: %s" % (self.job.words, about, fault))

    def wrong_end(self, name, how, same, fault, got):
        """What is wrong with the end of a run, of which a call failed for a file."""
        job, whole = self.job, self.whole
        if got.status is None:
            return "it does not end"
        if same and (got.status, got.out) == (whole.status, whole.out) and (got.err == whole.err or name == "stderr"):
            return self.wrong_rest(name, got)
        other = answered(job, whole, name, how) if fault else None
        if other and (got.status, got.out, got.err) == other:
            return self.wrong_rest(name, got) if got.status == whole.status else None
        if fault is None or other or got.status != 1 or not whole.out.startswith(got.out):
            return "it ends with %r" % got
        return wrong_words(job, name, fault, how, got.err)

    def wrong_rest(self, name, got):
        """What is wrong with the files of a run that ended as if nothing had failed."""
        new, now = stored(self.whole.image), stored(got.image)
        last = self.job.last
        if ".last" in name and last in new and now.get(last) == self.image.get(last):
            now[last] = new[last]
        return None if now == new else "the files are not those that are due"

    def judge(self, call, how, got):
        """What is wrong with a run, of which a call failed, and with the next."""
        same, fault = ends_of(self.job, call, how)
        wrong = self.wrong_end(call.name, how, same, fault, got)
        # a feed that is not there is empty, and what is not read of FEED.last guards nothing
        if wrong and (call.name.endswith(".last") or how == errno.ENOENT and call.kind == "open" and call.name in (self.job.own, ROOM)):
            return None if self.is_without(call.name, got) else wrong
        return wrong or wrong_files(self.job, self.image, self.whole.image, got.image) or self.wrong_next(got)

    def is_without(self, name, got):
        """Whether a run did what is due where a file is not there; where it stores none the file stays."""
        due = self.bench.due(self.job, {other: data for other, data in self.image.items() if other != name})
        stays = {name: self.image[name]} if name in self.image else {}
        return got.same() == Outcome(due.status, due.out, due.err, {**stays, **due.image}).same()

    def wrong_next(self, got):
        """What is wrong with the next run, which is undisturbed."""
        again, due = self.bench.next(self.job, got.image), self.bench.due(self.job, got.image)
        return None if again.same() == due.same() else "the next run ends with %r, and not %r" % (again, due)

    def fail(self, call, how):
        """A run of which this call fails."""
        got = self.bench.run(self.job, self.image, FAIL=str(call.number), HOW=str(how))
        about = "call %d, %s of %s, %s" % (call.number, call.kind, call.name, errno.errorcode.get(how, "short"))
        self.note(about, self.judge(call, how, got))

    def each(self):
        """Runs of which each call moves one byte, or each second one is interrupted."""
        for how in (SHORT, errno.EINTR):
            got = self.bench.run(self.job, self.image, FAIL="each", HOW=str(how))
            if how == errno.EINTR and self.whole.err.startswith(got.err):  # standard error is not written again after a signal
                got = Outcome(got.status, got.out, self.whole.err, got.image)
            self.note("each call, %s" % errno.errorcode.get(how, "short"), None if got.same() == self.whole.same() else "it ends with %r" % got)


def failing(bench, image, tells):
    """Each call of each job, in each way."""
    trials = []
    for job in JOBS:
        trial = Trial(bench, job, image)
        trial.each()
        for call in trial.calls:
            for how in WAYS[call.kind]:
                if (call.name, how) != ("stdin", errno.EINTR):  # standard input is not read again after a signal
                    trial.fail(call, how)
        trials.append(trial)
        if tells:
            print("%s: %d runs, %d faults" % (job.words, trial.runs, len(trial.faults)), flush=True)
    return trials


LARGE = Job("import large.feed --site 1", "large.feed", TEXT * 6, 0, "ok inserted 2676 deleted 0\n")


def limited(bench, job, image, most):
    """A run that writes files of so many bytes at most."""
    def limit():
        signal.signal(signal.SIGXFSZ, signal.SIG_IGN)
        resource.setrlimit(resource.RLIMIT_FSIZE, (most, most))

    lay(bench.room, image)
    done = subprocess.run([bench.program, *split(job.words)], cwd=bench.room, input=job.text.encode(), capture_output=True,
                          preexec_fn=limit, timeout=LIMIT)
    return Outcome(done.returncode, done.stdout, done.stderr, seen(bench.room))


def tight(bench, job, image, size):
    """A run in a file system of so many bytes; none where there can be no such one."""
    mount = ["mount", "-t", "tmpfs", "-o", "size=%d" % size, "tmpfs", bench.room]
    if subprocess.run(mount, capture_output=True).returncode != 0:
        return None
    try:
        return bench.run(job, image)
    finally:
        subprocess.run(["umount", bench.room], check=True)


def wrong_store(trial, error, got, fits):
    """What is wrong with a run whose file may not fit, and with the next, which has room."""
    job, new = trial.job, trial.whole.image
    stands = got.image.get(job.own) == new.get(job.own)
    if fits and not stands:
        return "there is room, and it ends with %r" % got
    name = job.own + (".last.new" if stands else ".new")
    wrong = trial.wrong_end(name, error, stands, None if stands else "file fault", got) or wrong_files(job, trial.image, new, got.image)
    return wrong or trial.wrong_next(got)


def pages(image):
    """How many pages of memory the files take."""
    return sum(-(-len(data) // PAGE) for data in image.values() if isinstance(data, bytes))


def full(bench, image, all_lengths):
    """Jobs on disks that are full after so many pages, or files that are full after so many bytes: the trials, and how many
    disks were full."""
    trials, disks = [], 0
    for job in [*(job for job in JOBS if job.own and job.status == 0), LARGE]:
        trial = Trial(bench, job, image)
        need = pages(trial.whole.image) + pages({"new": trial.whole.image[job.own]})
        for count in range(pages(image), need + 2):
            got = tight(bench, job, image, count * PAGE)
            if got is not None:
                disks += 1
                trial.note("a disk of %d pages" % count, wrong_store(trial, errno.ENOSPC, got, count > need))
        size = len(trial.whole.image[job.own])
        for most in (*range(0, size, 256), *range(size - 40, size + 3)) if all_lengths else (0, 1, 512, *range(size - 3, size + 2)):
            got = limited(bench, job, image, most)
            trial.note("files of %d bytes" % most, wrong_store(trial, errno.EFBIG, got, most >= size))
        trials.append(trial)
        if all_lengths:
            print("%s, no room: %d runs, %d faults" % (job.words, trial.runs, len(trial.faults)), flush=True)
    return trials, disks


def main(words):
    if len(words) not in (1, 2) or words[1:] not in ([], ["--all"]):
        print(__doc__, file=sys.stderr)
        return 2
    begin, in_full = time.time(), words[1:] == ["--all"]
    with tempfile.TemporaryDirectory(prefix="calls-", dir="/dev/shm") as root:
        bench = Bench(os.path.abspath(words[0]), root)
        image = base(bench)
        trials = failing(bench, image, in_full)
        stores, disks = full(bench, image, in_full)
    faults = [fault for trial in trials + stores for fault in trial.faults]
    for fault in faults[:40]:
        print(fault)
    if disks == 0:
        print("calls: no file system was mounted, so no disk was full")
    count = sum(trial.runs for trial in trials + stores)
    print("calls: %d runs, %d of them on full disks, %d faults (%.1f s)" % (count, disks, len(faults), time.time() - begin))
    return 1 if faults else 0


if __name__ == "__main__":
    sys.exit(main(sys.argv[1:]))
