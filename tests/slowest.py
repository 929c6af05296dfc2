#!/usr/bin/env python3
"""Searches for the inputs that take most time and memory beside an honest input of the same size.

usage: slowest.py PROGRAM KIND MINUTES [SEED] [--size BYTES] [--keep FOLDER]
       slowest.py PROGRAM --shapes KIND .. [--size BYTES] [--keep FOLDER]
       slowest.py PROGRAM --short                 some shapes of each kind, but for what is open: a regression test

A KIND is feeds, scripts, texts, cases, wedges, rooms, ribbons or words; they are in slowest_kinds.py. The search begins with
shapes that could cost most, then changes the slowest at random, for so many minutes of processor time. A size is 65536 bytes
unless another is given. Of each command it prints the worst times and peaks of memory, as ratios to those of an honest input,
and from which shape they came; --keep stores these inputs. Processor time is that of the program alone, the least of some
runs (slowest.c). A command is at fault at more than ten times the time, or twice the memory; small runs get some more.
"""
import os
import random
import re
import resource
import shutil
import signal
import subprocess
import sys
import tempfile

HERE = os.path.dirname(os.path.abspath(__file__))
sys.path.insert(0, HERE)
from slowest_kinds import KINDS, example, feed, honest_feed

TIMES, PEAKS = 10, 2
MORE_SECONDS, MORE_KIB = 0.02, 2048  # a small run may take so much more
LONGEST = 60  # seconds of a run
SHORT = {"feeds": 16384, "scripts": 16384, "texts": 8192, "cases": 16384, "wedges": 8192, "rooms": 4096, "ribbons": 16384, "words": 8192}
# What takes more and is open, as patterns of a command and a shape: the short form leaves it out.
OPEN = {
    "feeds": "diff|import|replace|merge",  # the changes between two copies
    "scripts": "takes of forks|: (show|feed|restart|merge|send|ribbon|cast) |merges of two|: (diverging|sixteen|restarts)",  # commands that go over all that is held
    "texts": "{half}|import (honest|turned)|diff|: line feeds|: lines of a letter",  # the same; places that overlap; fills of many lines
    "cases": "keys|table|deep arrays|: no TOML at",  # TOML of many small parts
    "wedges": "keys|table|deep arrays|: no TOML at",
    "rooms": ": one text of",  # each line's front is read anew
    "words": "short words|: one case",  # many words, or files
}


def used():
    """Seconds of processor time, of this program and of those that it ran."""
    return sum(it.ru_utime + it.ru_stime for it in map(resource.getrusage, (resource.RUSAGE_SELF, resource.RUSAGE_CHILDREN)))


class Runs:
    """Runs of commands in folders of their own."""

    def __init__(self, program, room, kind, size):
        self.program, self.room, self.kind, self.size = program, room, kind, size
        self.runner = os.path.join(room, "slowest")
        subprocess.run(["cc", "-O1", "-o", self.runner, os.path.join(HERE, "slowest.c")], check=True)
        pick = random.Random(size)
        self.beside = {"case": example("case12.toml"), "wedge": example("wedge5.toml"), "ribbon": KINDS["ribbons"].honest(pick, size)}
        self.beside["honest"] = honest_feed(size)

    def words(self, command, files):
        """The words of a command, and the file that it reads."""
        if command == "@one":
            return [os.fsdecode(it) for it in files["one"].split(b"\n") if b"\0" not in it], os.devnull
        words, given = command.split(" "), os.devnull
        if words[-1].startswith("<"):
            given = words.pop()[1:]
        half = files["one"][:min(len(files["one"]) // 2, 100_000)].decode("utf-8", "ignore")
        return [half if it == "{half}" else it for it in words], given

    def once(self, command, files):
        """Seconds and KiB of a run, and its status."""
        folder = os.path.join(self.room, "run")
        shutil.rmtree(folder, ignore_errors=True)
        os.makedirs(folder)
        for name, data in files.items():
            with open(os.path.join(folder, name), "wb") as file:
                file.write(data)
        words, given = self.words(command, files)
        done = subprocess.run([self.runner, str(LONGEST), given, self.program, *words], cwd=folder, capture_output=True, text=True)
        status, micro, peak = map(int, done.stdout.split())
        if status not in (0, 1, 2, -9, -24):
            sys.exit("%s ended with %d" % (command, status))
        return micro / 1e6, peak, status

    def least(self, command, one, beat=(0, 0)):
        """The least seconds and KiB of some runs; of one alone where that is below what is to be beaten."""
        files = {**self.beside, "one": one, **self.kind.files(one, self.size)}
        seconds, peak, status = self.once(command, files)
        for _ in range(4 if seconds < 0.5 else 1 if seconds < 5 else 0):
            if seconds <= beat[0] and peak <= beat[1]:
                break
            again = self.once(command, files)
            seconds, peak = min(seconds, again[0]), min(peak, again[1])
        return seconds, peak, status


class Search:
    """The worst inputs of each command, by time and by memory."""

    def __init__(self, runs, pick, is_short):
        self.runs, self.kind, self.pick, self.is_short = runs, runs.kind, pick, is_short
        one = self.kind.honest(pick, runs.size)
        self.honest = {command: runs.least(command, one) for command in self.kind.commands}
        self.worst = {(command, what): [] for command in self.kind.commands for what in (0, 1)}
        self.tried = 0

    def most(self, command):
        """The seconds and KiB that are no fault."""
        seconds, peak, _ = self.honest[command]
        return TIMES * seconds + MORE_SECONDS, PEAKS * peak + MORE_KIB

    def tries(self, command, name, one):
        """Runs a command on an input, and keeps that where it is among the five worst."""
        self.tried += 1
        last = [self.worst[command, what][-1][0] if len(self.worst[command, what]) > 4 else 0 for what in (0, 1)]
        found = self.runs.least(command, one, self.most(command) if self.is_short else last)
        for what in (0, 1):
            kept = self.worst[command, what]
            kept.append((found[what], name, one, found[2]))
            kept.sort(key=lambda it: -it[0])
            del kept[5:]

    def shapes(self, each=1, without="$^"):
        for number, (name, one) in enumerate(self.kind.shapes(self.pick, self.runs.size)):
            one = feed(one) if isinstance(one, list) else one
            for at, command in enumerate(self.kind.commands):
                if (number + at) % each == 0 and not re.search(without, "%s: %s" % (command, name)):
                    self.tries(command, name, one[:self.runs.size])

    def changes(self, until):
        """Changes the worst at random; what is found by a TERM is still printed."""
        signal.signal(signal.SIGTERM, signal.default_int_handler)
        try:
            self.changes_until(until)
        except KeyboardInterrupt:
            signal.signal(signal.SIGTERM, signal.SIG_IGN)

    def changes_until(self, until):
        while used() < until:
            command, what = self.pick.choice(list(self.worst))
            kept, others = self.worst[command, what], self.worst[self.pick.choice(list(self.worst))]
            if kept and others:
                (_, name, one, _), (_, other, theirs, _) = self.pick.choice(kept), self.pick.choice(others)
                new = self.kind.changed(self.pick, one, theirs, self.runs.size)
                name = name if name.endswith(", changed") else name + ", changed"
                if new:
                    self.tries(command, name, new)

    def faults(self, keep=None, only=False):
        """Prints the worst of each command, and returns how many are at fault."""
        count = 0
        for command in self.kind.commands:
            due, texts = self.honest[command], []
            is_fault = False
            for what, unit in ((0, "s"), (1, "KiB")):
                if not self.worst[command, what]:
                    continue
                found, name, one, status = self.worst[command, what][0]
                is_over = found > self.most(command)[what]
                is_fault |= is_over
                texts.append("%s%.1f times %s (%s %s: %s%s)" % ("! " * is_over, found / due[what], ("the time", "the memory")[what], round(found, 4), unit, name, "" if status in (0, 1) else ", status %d" % status))
                if keep:
                    os.makedirs(keep, exist_ok=True)
                    with open(os.path.join(keep, "%s-%d-%s" % (self.kind.name, self.kind.commands.index(command), ("time", "memory")[what])), "wb") as file:
                        file.write(one)
            count += is_fault
            if texts and (is_fault or not only):
                print("%s: honest %.4f s, %d KiB; %s" % (command, due[0], due[1], "; ".join(texts)), flush=True)
        return count


def option(words, name):
    """The word behind an option, which is taken out, or none."""
    if name not in words:
        return None
    at = words.index(name)
    value = words[at + 1]
    del words[at:at + 2]
    return value


def main(words):
    size, keep = int(option(words, "--size") or 0), option(words, "--keep")
    keep = keep and os.path.abspath(keep)
    if len(words) < 2 or words[1] not in (*KINDS, "--shapes", "--short"):
        print(__doc__, file=sys.stderr)
        return 2
    program, faults = os.path.abspath(words[0]), 0
    is_short = words[1] == "--short"
    names = list(SHORT) if is_short else words[2:] if words[1] == "--shapes" else [words[1]]
    for name in names:
        seed = int(words[3]) if len(words) > 3 and words[1] == name else 1
        with tempfile.TemporaryDirectory(prefix="slowest-") as room:
            begun = used()
            search = Search(Runs(program, room, KINDS[name], size or (SHORT[name] if is_short else 65536)), random.Random(seed), is_short)
            search.shapes(*((5, OPEN.get(name, "$^")) if is_short else ()))
            if words[1] == name:
                search.changes(begun + 60 * float(words[2]))
            faults += search.faults(keep, is_short)
            print("%s of %d bytes: %d runs, %.0f seconds of processor time" % (name, search.runs.size, search.tried, used() - begun), flush=True)
    print("%d commands are at fault" % faults)
    return 1 if faults else 0


if __name__ == "__main__":
    sys.exit(main(sys.argv[1:]))
