#!/usr/bin/env python3
"""Two desks on one feed, and what else a stored feed meets: desks.py PROGRAM [--minutes N].

Pairs of runs on one feed end together, or one of them is killed at a random moment, on a feed of a few operations and on
one of 30,000: a run with status 0 has stored its edit, the feed is whole and is what the runs with status 0 made of it in
some order, and every run that was refused says so and answers nothing. The same with four runs at a time. Then, one by
one: a feed that is open is refused under every name that leads to it; links, modes and what stands beside a feed, which says
how far its sites have come and never more than the feed holds; what
cannot be stored is refused before the first answer; an unchanged feed is not written; the order of sync and rename, as
a preloaded library sees it, of a feed that is renewed or renumbered too; and the second line on standard error. With --minutes
two to four runs at a time, of which one is killed in every second trial, for so long, and nothing else.
"""
import functools
import os
import pty
import random
import shutil
import stat
import subprocess
import sys
import tempfile
import time

HERE = os.path.dirname(os.path.abspath(__file__))
MAGIC = b"MFD2"
FAULT = b"copydesk: file fault\n"
SEED = 1957
NOBODY = 65534
LARGE = 30000


def setting(counter, site):
    """A setting of the measure."""
    return b"\x03" + counter.to_bytes(8, "big") + site.to_bytes(2, "big") + b"\x01\x00\x00\x00\x0c"


def insert(counter, site, letter):
    return b"\x01" + counter.to_bytes(8, "big") + site.to_bytes(2, "big") + bytes(10) + b"\x00" + letter.encode("utf-32-be")


def feed(count, letters=()):
    """So many settings of site 9, and then these letters, each inserted at the front by one run of the site 3."""
    text = MAGIC + b"".join(setting(k, 9) for k in range(1, count + 1))
    return text + b"".join(insert(count + 1 + k, 3, letter) for k, letter in enumerate(letters))


def put(path, data):
    """A file with these bytes, beside which nothing says what was made of a file before it."""
    if os.path.exists(path + ".last"):
        os.remove(path + ".last")
    with open(path, "wb") as file:
        file.write(data)


def get(path):
    with open(path, "rb") as file:
        return file.read()


class Desk:
    """A run on a feed by site 3."""

    def __init__(self, program, name, folder, *flags, **others):
        self.letter = None
        self.run = subprocess.Popen([program, "desk", name, "--site", "3", *flags], cwd=folder, stdin=subprocess.PIPE, stdout=subprocess.PIPE, stderr=subprocess.PIPE, **others)

    def say(self, text):
        try:
            self.run.stdin.write(text)
            self.run.stdin.flush()
        except BrokenPipeError:
            pass

    def type(self, letter):
        self.letter = letter
        self.say(b'insert 3 0 r"%s"\n' % letter.encode())

    def end(self):
        """The status, the answers and the faults."""
        written, told = self.run.communicate(timeout=60)
        return self.run.returncode, written, told


def wrong_end(desk, answers, count):
    """What is wrong with the end of a run that was not killed."""
    status, written, told = answers
    if status == 0:
        stamps = [b"ok %d.3\n" % (count + 1 + k) for k in range(8)]
        return None if written in stamps and told == b"" else "status 0 with %r and %r" % (written, told)
    return None if (status, written, told) == (1, b"", FAULT) else "refused with %d, %r and %r" % (status, written, told)


def orders(letters):
    """The letters in every order."""
    if not letters:
        return [[]]
    return [[letter] + rest for letter in letters for rest in orders([other for other in letters if other != letter])]


def trial(program, folder, count, runs, chance):
    """Runs at one time on one feed, of which one is killed where chance is a number: what is wrong."""
    path = os.path.join(folder, "a.feed")
    put(path, feed(count))
    desks = [Desk(program, "a.feed", folder) for _ in range(runs)]
    for desk, letter in zip(desks, "abcd"):
        desk.type(letter)
    killed = None
    if chance is not None:
        killed = random.choice(desks)
        time.sleep(chance)
        killed.run.kill()
    for desk in desks:
        try:
            desk.run.stdin.close()
        except BrokenPipeError:
            pass
        desk.run.stdin = None
    ends = {desk: desk.end() for desk in desks}
    for desk, end in ends.items():
        if desk is killed and end[0] == -9:
            continue
        fault = wrong_end(desk, end, count)
        if fault:
            return fault
    done = [desk.letter for desk in desks if ends[desk][0] == 0]
    if not done and (killed is None or ends[killed][0] != -9):
        return "no run was done"
    also = [killed.letter] if killed is not None and ends[killed][0] == -9 else []
    may = [feed(count, order) for order in orders(done)] + [feed(count, order) for order in orders(done + also)]
    now = get(path)
    if now not in may:
        return "%s were done, and the feed of %d bytes is none that they can have made" % (done, len(now))
    return wrong_last(path, count, now, whole=not also)


def wrong_last(path, count, now, whole):
    """What is wrong with how far site 3 has come by what stands beside a feed: never further than the feed, and as far where no
    run was killed."""
    made = (len(now) - len(feed(count))) // len(insert(1, 3, "a"))
    due = [b"site 3 %d\n" % (count + k if k else 0) for k in range(made + 1)]
    last = get(path + ".last") if os.path.exists(path + ".last") else None
    if last == due[made] or not whole and last in [None, *due]:
        return None
    return "%d edits are stored, and %r stands beside the feed" % (made, last)


def pairs(program, folder):
    faults, counts = [], {}
    for count in (3, LARGE):
        desk = Desk(program, "b.feed", folder)
        put(os.path.join(folder, "b.feed"), feed(count))
        desk.end()
        begin = time.time()
        put(os.path.join(folder, "b.feed"), feed(count))
        desk = Desk(program, "b.feed", folder)
        desk.type("x")
        desk.end()
        span = time.time() - begin
        times = 100 if count == LARGE else 200
        for kind, rounds, runs in (("ended together", times, 2), ("with a kill", times, 2), ("four at a time", times // 5, 4)):
            for _ in range(rounds):
                chance = random.uniform(0, 1.3 * span) if kind == "with a kill" else None
                fault = trial(program, folder, count, runs, chance)
                if fault:
                    faults.append("%s, %d operations: %s" % (kind, count, fault))
            counts[kind] = counts.get(kind, 0) + rounds
    return faults, ", ".join("%d %s" % (number, kind) for kind, number in counts.items())


def long_run(program, folder, minutes):
    """Two to four runs at a time for so many minutes: what is wrong, and how many trials there were."""
    faults, trials, killed, end = [], 0, 0, time.time() + 60 * minutes
    while time.time() < end and len(faults) < 10:
        count, runs = random.choice((3, 3, 3, LARGE)), random.choice((2, 3, 4))
        chance = random.uniform(0, 0.05 if count == 3 else 0.3) if random.random() < 0.5 else None
        fault = trial(program, folder, count, runs, chance)
        if fault:
            faults.append("%d runs, %d operations, trial %d: %s" % (runs, count, trials, fault))
        trials, killed = trials + 1, killed + (chance is not None)
    return faults, "%d trials in %g minutes, %d with a kill" % (trials, minutes, killed)


def expect(faults, name, got, want):
    if got != want:
        faults.append("%s: %r, and not %r" % (name, got, want))


def edit(program, folder, name, letter, *flags, **others):
    desk = Desk(program, name, folder, *flags, **others)
    desk.type(letter)
    return desk.end()


REFUSED = (1, b"", FAULT)
DONE = (0, b"ok 4.3\n", b"")


def open_feeds(program, folder):
    """A desk that is open is met under every name of its feed; once it ended the feed is free."""
    faults = []
    rooms = os.path.join(folder, "rooms")
    os.mkdir(rooms)
    os.symlink("rooms", os.path.join(folder, "door"))
    path = os.path.join(rooms, "one.feed")
    os.symlink("rooms/one.feed", os.path.join(folder, "link.feed"))
    os.symlink("link.feed", os.path.join(folder, "chain.feed"))
    os.symlink(path, os.path.join(folder, "whole.feed"))
    names = ["rooms/one.feed", "./rooms/../rooms/one.feed", "door/one.feed", "link.feed", "chain.feed", "whole.feed", path]
    for first in names:
        put(path, feed(3))
        desk = Desk(program, first, folder)
        desk.type("a")
        expect(faults, "the first answer", desk.run.stdout.readline(), b"ok 4.3\n")
        for second in names:
            expect(faults, "%s beside %s" % (second, first), edit(program, folder, second, "b"), REFUSED)
        expect(faults, "the feed of an open desk", get(path), feed(3))
        expect(faults, first, desk.end(), (0, b"", b""))
        expect(faults, "the feed by %s" % first, get(path), feed(3, "a"))
        kinds = [os.path.islink(os.path.join(folder, name)) for name in names]
        expect(faults, "links after %s" % first, kinds, [False, False, False, True, True, True, False])
    nowhere = os.path.join(folder, "early.feed")
    os.symlink("rooms/late.feed", nowhere)
    expect(faults, "a link to no file yet", edit(program, folder, "early.feed", "a")[0], 0)
    expect(faults, "its file", get(os.path.join(rooms, "late.feed")), feed(0, "a"))
    expect(faults, "the link", os.path.islink(nowhere), True)
    os.symlink("round.feed", os.path.join(folder, "round.feed"))
    expect(faults, "a link to itself", edit(program, folder, "round.feed", "a"), REFUSED)
    return faults


def modes(program, folder):
    faults, path = [], os.path.join(folder, "mode.feed")
    for mode in (0o600, 0o640, 0o664, 0o666):
        put(path, feed(3))
        os.chmod(path, mode)
        expect(faults, "mode %o" % mode, edit(program, folder, "mode.feed", "a"), DONE)
        expect(faults, "mode %o after" % mode, stat.S_IMODE(os.stat(path).st_mode), mode)
        expect(faults, "mode %o stored" % mode, get(path), feed(3, "a"))
    put(path, feed(3))
    os.chmod(path, 0o444)
    expect(faults, "mode 444", edit(program, folder, "mode.feed", "a"), REFUSED)
    expect(faults, "mode 444 after", (get(path), stat.S_IMODE(os.stat(path).st_mode)), (feed(3), 0o444))
    os.chmod(path, 0o600)
    return faults


def beside(program, folder):
    """What has the name of the writing is replaced, and nothing is written through it."""
    faults, path = [], os.path.join(folder, "one.feed")
    other, new = os.path.join(folder, "two.feed"), path + ".new"
    for make in (os.symlink, os.link, lambda other, new: put(new, b"left over")):
        put(path, feed(3))
        put(other, feed(5))
        make(other, new)
        expect(faults, "beside", edit(program, folder, "one.feed", "a"), DONE)
        expect(faults, "the other feed", get(other), feed(5))
        expect(faults, "the feed", (get(path), os.path.islink(path), os.path.exists(new)), (feed(3, "a"), False, False))
    for name in (path + ".last.new", path + ".last"):
        put(path, feed(3))
        put(other, b"site 9 9\n")
        os.symlink(other, name)
        expect(faults, "a link beside", edit(program, folder, "one.feed", "a"), DONE)
        expect(faults, "what the link leads to", get(other), b"site 9 9\n")
    os.remove(path + ".last")
    os.mkdir(path + ".last")
    put(other, feed(3))
    shutil.copy(other, path)
    expect(faults, "a folder beside", edit(program, folder, "one.feed", "a"), DONE)
    expect(faults, "the feed", (get(path), os.path.isdir(path + ".last")), (feed(3, "a"), True))
    os.rmdir(path + ".last")
    put(path, feed(3))
    os.remove(path + ".lock")
    os.symlink(other, path + ".lock")
    expect(faults, "a lock that is a link", edit(program, folder, "one.feed", "a"), REFUSED)
    os.remove(path + ".lock")
    os.mkdir(new)
    expect(faults, "a folder in place of the writing", edit(program, folder, "one.feed", "a"), REFUSED)
    os.rmdir(new)
    before = os.stat(path)
    desk = Desk(program, "one.feed", folder)
    desk.say(b"show 3\n")
    expect(faults, "a look", desk.end(), (0, b"copy\n", b""))
    after = os.stat(path)
    expect(faults, "a feed that was not changed", (after.st_ino, after.st_mtime_ns), (before.st_ino, before.st_mtime_ns))
    put(path, MAGIC + setting(2, 9) + setting(1, 9))
    expect(faults, "a feed out of order", Desk(program, "one.feed", folder).end(), (0, b"", b""))
    expect(faults, "in order", get(path), feed(2))
    return faults


def unstored(program, folder):
    """What cannot be stored is refused before the first answer, and leaves all as it was."""
    faults = []
    put(os.path.join(folder, "plain"), b"x")
    os.mkdir(os.path.join(folder, "shut"))
    os.mkfifo(os.path.join(folder, "pipe.feed"))
    os.mkdir(os.path.join(folder, "folder.feed"))
    long = "n" * 251
    for name in ("", "none/a.feed", "folder.feed", "folder.feed/", ".", "plain/a.feed", "pipe.feed", long, "n" * 252, "n" * 255, "n" * 300):
        expect(faults, "no feed %s" % name[:20], edit(program, folder, name, "a"), REFUSED)
    expect(faults, "what was left", sorted(os.listdir(folder)), sorted(["plain", "shut", "pipe.feed", "folder.feed"]))
    for size in (246, 247, 250):  # beside the longest names nothing says how far a site has come
        expect(faults, "a long name", edit(program, folder, "n" * size, "a")[0], 0)
        expect(faults, "beside a long name", os.path.exists(os.path.join(folder, "n" * size + ".last")), size <= 246)
    os.chmod(os.path.join(folder, "shut"), 0o555)
    os.chmod(folder, 0o755)
    put(os.path.join(folder, "shut", "own.feed"), feed(3))
    program = shutil.copy(program, os.path.join(folder, "desk"))
    others = {"user": NOBODY, "group": NOBODY, "extra_groups": []} if os.geteuid() == 0 else {}
    expect(faults, "a folder that is shut", edit(program, folder, "shut/a.feed", "a", **others), REFUSED)
    expect(faults, "a feed in it", edit(program, folder, "shut/own.feed", "a", **others), REFUSED)
    os.chmod(os.path.join(folder, "shut"), 0o755)
    return faults


def synced(program, folder):
    """The file of the writing is synced before it takes the name, and the folder after that."""
    faults, library, log = [], os.path.join(folder, "synced.so"), os.path.join(folder, "log")
    subprocess.run(["cc", "-O1", "-shared", "-fPIC", "-o", library, os.path.join(HERE, "synced.c")], check=True)
    path = os.path.join(folder, "a.feed")
    put(path, feed(3))
    environment = dict(os.environ, LD_PRELOAD=library, LOG=log)
    expect(faults, "a watched run", edit(program, folder, "a.feed", "a", env=environment), DONE)
    real = os.path.realpath(folder)
    want = "".join("fsync %s/%s.new\nrename %s.new %s\nfsync %s\n" % (real, name, name, name, real) for name in ("a.feed", "a.feed.last"))
    expect(faults, "sync and rename", get(log).decode(), want)
    expect(faults, "how far the site has come", get(path + ".last"), b"site 3 4\n")
    os.remove(log)
    desk = Desk(program, "a.feed", folder, env=environment)
    expect(faults, "a watched look", desk.end(), (0, b"", b""))
    expect(faults, "what a look writes", os.path.exists(log), False)
    put(os.path.join(folder, "twin.feed"), feed(3, "b"))
    for words, name, data in (
        ("renew new.feed a.feed --site 7", "new.feed", MAGIC + setting(1, 7) + insert(2, 7, "a")),
        ("renumber a.feed twin.feed --site 7", "a.feed", feed(3) + insert(4, 7, "a")),
    ):
        run = subprocess.run([program, *words.split()], cwd=folder, env=environment, capture_output=True, timeout=60)
        expect(faults, words, (run.returncode, run.stdout.split()[-1:], run.stderr), (0, [b"1"], b""))
        expect(faults, "what is stored by " + words, get(os.path.join(folder, name)), data)
        want = "fsync %s/%s.new\nrename %s.new %s\nfsync %s\n" % (real, name, name, name, real)
        expect(faults, "sync and rename by " + words, get(log).decode(), want)
        os.remove(log)
    words = "renumber a.feed twin.feed --site 8"
    run = subprocess.run([program, *words.split()], cwd=folder, env=environment, capture_output=True, timeout=60)
    expect(faults, words, (run.returncode, run.stdout, run.stderr), (0, b"ok renumbered 0\n", b""))
    expect(faults, "what is written by " + words, os.path.exists(log), False)
    return faults


def words(program, folder):
    """The second line on standard error, where it is asked for, or standard error is a terminal."""
    faults, path = [], os.path.join(folder, "two.feed")
    put(path, feed(3) + b"\n")

    def told(name, *flags):
        return edit(program, folder, name, "a", *flags)[2].decode().split("\n", 1)[1]

    expect(faults, "no line", told("two.feed"), "")
    expect(faults, "a line feed", told("two.feed", "--why"), "two.feed: byte %d: no such kind of operation\n" % len(feed(3)))
    put(path, feed(3))
    desk = Desk(program, "two.feed", folder)
    desk.type("a")
    desk.run.stdout.readline()
    expect(faults, "an open feed", told("two.feed", "--why"), "two.feed: another desk has it open\n")
    desk.end()
    with open(path, "wb") as file:
        file.write(feed(3))
    for flags in ([], ["--why"], ["--strict"]):
        expect(faults, "an older feed", told("two.feed", *flags), "two.feed: site 3 made 4 here, and it holds 0\n")
    expect(faults, "the older feed", get(path), feed(3))
    expect(faults, "an older feed that is wanted", edit(program, folder, "two.feed", "b", "--older"), DONE)
    expect(faults, "no folder", told("none/a", "--why"), "none/a.lock: it cannot be opened: No such file or directory (os error 2)\n")
    expect(faults, "a folder", told(".", "--why"), ".: it cannot be stored anew: is a directory\n")
    with open(os.path.join(folder, "large"), "wb") as file:
        file.truncate(67108865)
    expect(faults, "a large file", told("large", "--why"), "large: it has more than 67108864 bytes\n")
    master, slave = pty.openpty()
    done = subprocess.run([program, "desk", ".", "--site", "3"], cwd=folder, stdin=subprocess.DEVNULL, stdout=subprocess.PIPE, stderr=slave, timeout=60)
    os.close(slave)
    expect(faults, "a terminal", (done.returncode, os.read(master, 1000)), (1, b"copydesk: file fault\r\n.: it cannot be stored anew: is a directory\r\n"))
    os.close(master)
    return faults


def main():
    program, failed = os.path.abspath(sys.argv[1]), False
    random.seed(SEED)
    parts = (pairs, open_feeds, modes, beside, unstored, synced, words)
    if sys.argv[2:3] == ["--minutes"]:
        minutes = float(sys.argv[3])
        parts = (functools.wraps(long_run)(lambda program, folder: long_run(program, folder, minutes)),)
    for part in parts:
        begin = time.time()
        with tempfile.TemporaryDirectory() as folder:
            faults = part(program, folder)
        faults, said = faults if isinstance(faults, tuple) else (faults, "as it must be")
        for fault in faults[:10]:
            print("%s: %s" % (part.__name__, fault))
        failed = failed or bool(faults)
        print("%s: %s, %d faults (%.1f s)" % (part.__name__, said, len(faults), time.time() - begin))
    return 1 if failed else 0


if __name__ == "__main__":
    sys.exit(main())
