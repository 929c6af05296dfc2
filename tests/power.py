#!/usr/bin/env python3
"""Loses the power at each moment of a run that stores: power.py PROGRAM [--all].

A library that is loaded before the C library (calls.c) records what a run asks of the system. From the record come the disks
that the system may leave where the power is lost after any number of the calls. Only what was synced is sure to be on them.

- Each change of an entry of a folder (a file made, named or removed; a rename is two changes) that no sync of the folder
  followed is there or not, by itself and in whatever order: POSIX promises none.
- A file has all that was written before its last sync. What was written since is there by sectors of 512 bytes, in any
  choice and any version; its length is the synced one, the whole one or any sector's end between. So such a file may be
  empty, cut, torn, or as long as it should be with zeros in it.

On each such disk each feed is the old or the new one (and the new one, durably, if the run had ended), which `check` and
`export` read; so is a ribbon, a picture and a document. No other file differs. FEED.last is the old or the new one, and never before
its feed. The next run of the same command ends as it does where the old or the new file stands and nothing was left behind.
That is also what docs/FORMATS.md says of it. On some of these disks the power is lost again in that next run.

The short form, for the gate, tries the disks of each run up to a number, chosen by a fixed seed. `--all` tries every one;
but of a file of more than 4,096 bytes it takes some lengths and some choices of sectors alone, by the same seed.
"""
import itertools
import os
import random
import sys
import tempfile
import time

import calls
from calls import METAL, SETTINGS, TEXT, Job, stored

SEED = 1897
NEW = ".new"
SECTOR = 512
MOST = 8  # sectors, of which every choice is taken
FEW = 100  # disks of a run in the short form
TWICE = 3  # disks of a run, on which the power is lost again
SIGHTS = ("read", "stat", "target", "lock", "mode", "close")  # calls that leave all on the disk as it is
LONG = TEXT * 6


class Store:
    """A run that stores a file, and the end that is due of the next such run where the new file stands: its status, its
    answer, and the fault. Without the file, or without FEED.last, it goes on the files but for these."""

    def __init__(self, words, own, again, text="", lacks=()):
        self.job, self.again, self.lacks = Job(words, own, text), again, lacks


DESK = 'insert 1 0 r"Notice. "\n'
SAME = (0, "ok inserted 0 deleted 0\n", "")
STORES = (
    Store("desk hand.feed --site 1", "hand.feed", (0, "ok 460.1..467.1\n", ""), DESK),
    Store("desk hand.feed --site 1", "hand.feed", (0, "ok 460.1..467.1\n", ""), DESK, ("hand.feed.last",)),
    Store("desk hand.feed --site 7 --strict", "hand.feed", (0, "ok 453.7\n", ""), "delete 7 0\n"),
    Store("desk hand.feed --site 1", "hand.feed", (0, "ok 6.1\n", ""), SETTINGS, ("hand.feed", "hand.feed.last")),
    Store("import hand.feed --site 1", "hand.feed", SAME, TEXT.replace("third", "fourth")),
    Store("import hand.feed --site 1", "hand.feed", SAME, TEXT.replace("third", "fourth"), ("hand.feed.last",)),
    Store("import fresh.feed --site 1", "fresh.feed", SAME, TEXT),
    Store("import link.feed --site 1", "rooms/one.feed", SAME, "Send word.\n"),
    Store("import rooms/one.feed --site 4", "rooms/one.feed", SAME, TEXT),
    Store("import large.feed --site 1", "large.feed", SAME, LONG),
    Store("merge hand.feed other.feed", "hand.feed", (0, "other.feed ok new 0 known 458\nfaults none\n", "")),
    Store("merge fresh.feed hand.feed other.feed", "fresh.feed", (0, "hand.feed ok new 0 known 451\nother.feed ok new 0 known 458\n", "")),
    Store("replace hand.feed --site 1 \"printing.\nThe\" \"printing. The\"", "hand.feed", (1, "no place\n", "copydesk: no place\n")),
    Store("renumber twin.feed hand.feed --site 9", "twin.feed", (1, "", "copydesk: number in use\n")),
    Store("renew new.feed hand.feed --site 3", "new.feed", (1, "", "copydesk: already there\n")),
    Store("punch hand.feed -o new.rib " + METAL, "new.rib", (0, "", "")),
    Store("punch other.feed -o made.rib " + METAL, "made.rib", (0, "", "")),
    Store("proof hand.feed --svg galley.svg " + METAL, "galley.svg", (0, "GALLEY", "")),
    Store("proof rooms/one.feed --svg made.svg " + METAL, "made.svg", (1, "", "")),
    Store("proof hand.feed --html galley.html " + METAL, "galley.html", (0, "GALLEY", "")),
    Store("proof rooms/one.feed --html made.html --page letter " + METAL, "made.html", (1, "", "")),
    Store("punch hand.feed other.feed -o made.rib " + METAL, "made.rib", (0, "", "")),
    Store("read made.rib --svg holes.svg " + METAL, "holes.svg", (0, "RIBBON", "")),
)


class File:
    """A file on the disk: the bytes that are synced, and the changes since, each an offset and bytes, or a length and none."""

    def __init__(self, synced):
        self.synced, self.changes = synced, []

    def now(self):
        data = bytearray(self.synced)
        for place, written in self.changes:
            change(data, place, written)
        return bytes(data)


def change(data, place, written):
    """Writes bytes at a place of others, or cuts or fills them to a length."""
    end = place + len(written or b"")
    data.extend(bytes(max(0, end - len(data))))
    if written is None:
        del data[place:]
    else:
        data[place:end] = written


class Disk:
    """The files under their names, as a run finds them, and the changes of names of which no folder was synced since."""

    def __init__(self, state):
        first = {name: File(data) if isinstance(data, bytes) else data for name, data, first in state if name == first}
        self.files = {name: first[twin] for name, _, twin in state}
        self.synced, self.changed, self.open = dict(self.files), {}, {}

    def entry(self, name, file):
        """Gives a name to a file, or to none."""
        self.files[name] = file
        self.changed.setdefault(os.path.dirname(name), []).append((name, file))

    def made(self, call):
        """A file that was opened, and may have been made."""
        file = self.files.get(call.name)
        if isinstance(file, str) or call.value & os.O_APPEND:
            raise SystemExit("no disk is known where %s is opened through a link or to append" % call.name)
        if file is None:
            file = File(b"")
            self.entry(call.name, file)
        elif call.value & os.O_TRUNC:
            file.changes.append((0, None))
        self.open[call.inode] = file

    def sync(self, call):
        """A file was synced, or a folder with all its names."""
        if call.name in ("", ".", "rooms"):
            folder = call.name.removeprefix(".")
            self.synced.update(self.changed.pop(folder, []))
        else:
            file = self.open[call.inode]
            file.synced, file.changes = file.now(), []

    def follow(self, call):
        """A call of the record, which was done."""
        if call.kind == "open" and call.value & (os.O_CREAT | os.O_TRUNC | os.O_APPEND):
            self.made(call)
        elif call.kind == "write" and not call.name.startswith("std"):
            self.open[call.inode].changes.append((call.value, call.data))
        elif call.kind == "truncate":
            self.open[call.inode].changes.append((call.value, None))
        elif call.kind == "sync":
            self.sync(call)
        elif call.kind == "rename":
            self.entry(call.other, self.files[call.name])
            self.entry(call.name, None)
        elif call.kind == "unlink":
            self.entry(call.name, None)
        elif call.kind not in ("open", "write", *SIGHTS):
            raise SystemExit("no disk is known after a call %s" % call.kind)

    def choices(self):
        """For each name that may stand for several files, or none, all of these."""
        found = {}
        for changed in self.changed.values():
            for name, file in changed:
                files = found.setdefault(name, [self.synced.get(name)])
                if file not in files:
                    files.append(file)
        return found


def versions(file, count):
    """What each of so many sectors of a file may hold: what is synced, or what was there after a change."""
    data, found = bytearray(file.synced), []
    for place, written in [(len(data), b""), *file.changes]:
        change(data, place, written)
        for k in range(count):
            sector = bytes(data[k * SECTOR:(k + 1) * SECTOR]).ljust(SECTOR, b"\0")
            if len(found) <= k:
                found.append([])
            if sector not in found[k]:
                found[k].append(sector)
    return found


def contents(file, chance):
    """All that a file may hold; of one of more sectors than MOST, some that has one hole or one part, or holes by chance."""
    if not file.changes:
        return [file.synced]
    final, old = len(file.now()), len(file.synced)
    ends = sorted({old, final, *range(-(-old // SECTOR) * SECTOR, final, SECTOR)})
    found, sectors = {file.now(): None}, versions(file, -(-max(final, old) // SECTOR))
    small = len(sectors) <= MOST
    for end in ends if small else {old, final, *chance.sample(ends, min(6, len(ends)))}:
        some = sectors[:-(-end // SECTOR)]
        for chosen in itertools.product(*some) if small or not some else few(some, chance):
            found[b"".join(chosen)[:end]] = None
    return list(found)


def few(sectors, chance):
    """Some of very many choices."""
    first, last = [it[0] for it in sectors], [it[-1] for it in sectors]
    spots = sorted(chance.sample(range(len(sectors)), min(3, len(sectors))))
    made = [first, last]
    for k in spots:
        made += [last[:k] + first[k:], first[:k] + last[k:], last[:k] + [first[k]] + last[k + 1:], first[:k] + [last[k]] + first[k + 1:]]
    return made + [[chance.choice(it) for it in sectors] for _ in range(3)]


def disks(disk, chance):
    """All that a disk may hold where the power is lost now: names, each with the bytes and the first name of its file."""
    found = disk.choices()
    kept = {name: file for name, file in disk.synced.items() if name not in found}
    for files in itertools.product(*found.values()):
        named = {**kept, **dict(zip(found, files))}
        named = {name: file for name, file in named.items() if file is not None}
        torn = list({id(file): file for file in named.values() if isinstance(file, File)}.values())
        for data in itertools.product(*(contents(file, chance) for file in torn)):
            of = dict(zip(map(id, torn), data))
            yield frozenset((name, file if isinstance(file, str) else of[id(file)], twin(named, name)) for name, file in named.items())


def twin(named, name):
    """The first name of the file that has a name."""
    return min(other for other, file in named.items() if file is named[name] and (other == name or isinstance(file, File)))


def lay(folder, state):
    """Makes a folder hold what a disk holds."""
    calls.lay(folder, {name: data for name, data, first in state if name == first})
    for name, _, first in state:
        if name != first:
            os.link(os.path.join(folder, first), os.path.join(folder, name))


def image_of(state):
    return {name: data for name, data, _ in state}


def whole_disk(image):
    """A disk that holds these files."""
    return frozenset((name, data, name) for name, data in image.items())


class Loss:
    """A run that stores, on what a disk holds, and what the disk may hold where the power is lost in it."""

    def __init__(self, bench, store, start):
        self.bench, self.store, self.job, self.start = bench, store, store.job, start
        lay(bench.room, start)
        self.calls, self.whole = bench.calls(store.job, None)
        self.before, self.last = image_of(start), self.job.last
        self.old, self.new = self.before.get(self.job.own), self.whole.image.get(self.job.own)
        self.states, self.tried, self.faults = {}, [], []

    def find(self, chance, unsynced=()):
        """All disks, each with whether the run may have ended by then; a sync of these does nothing."""
        disk = Disk(self.start)
        for call in self.calls:
            if call.result >= 0 and call.kind not in SIGHTS and not (call.kind == "sync" and call.name in unsynced):
                self.states.update((state, False) for state in disks(disk, chance))
                disk.follow(call)
        self.states.update((state, True) for state in disks(disk, chance))

    def wrong_files(self, files, ended):
        """What is wrong with the files of a disk."""
        stands, last = files.get(self.job.own), files.get(self.last)
        if stands not in (self.old, self.new) or ended and stands != self.new:
            return "%s is not the %s one" % (self.job.own, "new" if ended else "old or the new")
        lasts = [self.before.get(self.last), self.whole.image.get(self.last)]
        if last not in lasts or ended and last != lasts[1] or last != lasts[0] and stands != self.new:
            return "%s is %r, and the feed is the %s one" % (self.last, last, "new" if stands == self.new else "old")
        others = {*stored(files), *stored(self.before)} - {self.job.own, self.last}
        lost = sorted(name for name in others if files.get(name) != self.before.get(name))
        return "%s is lost or changed" % lost[0] if lost else None

    def wrong_next(self, state):
        """What is wrong with the next run of the same command."""
        lay(self.bench.room, state)
        got = self.bench.run(self.job)
        due = self.bench.due(self.job, image_of(state))
        if got.same() != due.same():
            return "the next run ends with %r, and not %r" % (got, due)
        if image_of(state).get(self.job.own) == self.old != self.new:
            return None if got.same() == self.whole.same() else "the next run does not do what was lost: %r" % got
        status, says, told = self.store.again
        as_due = got.status == status and got.out.decode().startswith(says) and got.err.decode().startswith(told)
        return None if as_due else "the next run ends with %r" % got

    def wrong(self, state):
        return self.wrong_files(image_of(state), self.states[state]) or self.wrong_next(state)

    def try_all(self, most, chance):
        """Tries the disks, or so many of them."""
        states = list(self.states)
        self.tried = states if len(states) <= most else chance.sample(states, most)
        for state in self.tried:
            fault = self.wrong(state)
            if fault:
                names = sorted("%s (%d)" % (name, len(data)) for name, data, _ in state if name.startswith(self.job.own))
                self.faults.append("%s: with %s: %s" % (self.job.words, ", ".join(names), fault))

    def unread(self):
        """What is wrong with the old and the new feed, as `check` and `export` read them."""
        faults = []
        for data in {self.old, self.new} - {None} if self.job.own.endswith(".feed") else ():
            for words, says in (("check", b"it.feed ok: "), ("export", b"")):
                got = self.bench.run(Job(words + " it.feed"), {"it.feed": data})
                if got.status != 0 or not got.out.startswith(says):
                    faults.append("%s: %s of what it stores: %r" % (self.job.words, words, got))
        return faults


def lost(bench, store, image, all_states, chance):
    """A run that loses power, and some that lose it again in the next run."""
    start = {name: data for name, data in image.items() if name not in store.lacks}
    loss = Loss(bench, store, whole_disk(start))
    loss.faults += loss.unread()
    if loss.new == loss.old or loss.whole.status != 0 and not store.job.own.endswith((".svg", ".html")):
        loss.faults.append("%s: undisturbed %r" % (store.job.words, loss.whole))
    loss.find(chance)
    losses = [loss]
    left = [state for state in loss.states if image_of(state).get(store.job.own) == loss.old and len(state) > len(start) + 1]
    for state in chance.sample(left, min(TWICE, len(left))):
        losses.append(Loss(bench, store, state))
        losses[-1].find(chance)
    for it in losses:
        it.try_all(len(it.states) if all_states else FEW, chance)
    return losses


def blind(bench, image, chance):
    """The syncs that a run could do without, by what is seen of the disks: none, or they say nothing."""
    job, unseen = STORES[0].job, []
    for names in ((job.own + NEW,), (job.own + ".last" + NEW,), (".",)):
        loss = Loss(bench, STORES[0], whole_disk(image))
        loss.find(chance, names)
        if not any(loss.wrong_files(image_of(state), ended) for state, ended in loss.states.items()):
            unseen.append("no disk is at fault where %s is not synced" % names)
    return unseen


def main(words):
    if len(words) not in (1, 2) or words[1:] not in ([], ["--all"]):
        print(__doc__, file=sys.stderr)
        return 2
    begin, chance, all_states, losses = time.time(), random.Random(SEED), words[1:] == ["--all"], []
    with tempfile.TemporaryDirectory(prefix="power-", dir="/dev/shm") as root:
        bench = calls.Bench(os.path.abspath(words[0]), root)
        image = calls.base(bench)
        for store in STORES:
            found = lost(bench, store, image, all_states, chance)
            if all_states:
                counts = ", ".join(str(len(it.states)) for it in found), sum(len(it.faults) for it in found)
                print("%s: %s disks, %d faults" % (store.job.words, *counts), flush=True)
            losses += found
        faults = blind(bench, image, chance) + [fault for it in losses for fault in it.faults]
    for fault in faults[:40]:
        print(fault)
    states, found = sum(len(it.tried) for it in losses), sum(len(it.states) for it in losses)
    print("power: %d runs, %d states of %d, %d faults (%.1f s)" % (len(losses), states, found, len(faults), time.time() - begin))
    return 1 if faults else 0


if __name__ == "__main__":
    sys.exit(main(sys.argv[1:]))
