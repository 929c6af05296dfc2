#!/usr/bin/env python3
"""The processor time of the gate, by crate and part.

usage: gate_times.py --watch FILE COMMAND ..    runs the command, passes on what it writes, ends with its status, and
                                                puts into FILE what each process below it has used
       gate_times.py FILE ..                    prints each FILE as a table, in seconds

The parts are proofs (without tests), tests (the proof of a crate with its tests), edits (the wrong bodies that the prover
must refuse), builds (compilers) and runs (tests and programs). `from` and `to` are seconds since the command began, from
the first process of a crate to its last. A process is looked at twice a second, so up to half a second of each is missed;
the line `in all` has the exact sum of all. The line after it says how long one crate's part ran at most while no other did, since
the other processors are idle then. The last line that the command wrote is kept, and `gate_times.py FILE` ends with it; of
several files whose last lines are all 'N passed, M failed' it ends with their sum. The lines that say what failed, or which
wrong body is none, stand before that, since a log's end is what is read first.
"""
import json
import os
import re
import resource
import subprocess
import sys
import threading
import time

PARTS = ["proofs", "tests", "edits", "builds", "runs"]
TICK = os.sysconf("SC_CLK_TCK")
# A line that says what failed: a goal, a test, a program, or a wrong body that is none.
TROUBLE = re.compile(r"^error|: error|FAILED|BAD EDIT|NOT TRIED|not refused|panicked|^rt: .*(stopped|killed|differs)")
AS_IT_MUST_BE = "refused, as it must be"
ENDED = re.compile(r"(\d+) passed, (\d+) failed$")
MOST_TROUBLE = 80


def read(pid, name):
    with open("/proc/%d/%s" % (pid, name), "rb") as file:
        return file.read()


def processes():
    """The parent and the processor seconds of each process."""
    found = {}
    for name in os.listdir("/proc"):
        if name.isdigit():
            try:
                words = read(int(name), "stat").rpartition(b")")[2].split()
                found[int(name)] = (int(words[1]), (int(words[11]) + int(words[12])) / TICK)
            except (OSError, IndexError, ValueError):
                pass
    return found


def kind_of(pid):
    """The crate and the part that a process works for, none where its words don't say."""
    try:
        words = read(pid, "cmdline").decode(errors="replace").split("\0")
        folder = os.readlink("/proc/%d/cwd" % pid)
    except OSError:
        return None
    for word in words:
        if "/rt-run-" in word and "/bin/" in word:
            return word.rpartition("/bin/")[2].partition(".")[0].removesuffix("_tests"), "runs"
    if os.path.basename(words[0]) != "rattle" or "--crate-name" not in words:
        return None
    crate = words[words.index("--crate-name") + 1]
    if "/rt-edit-" in folder:
        return crate, "edits"
    if "--crate-checked" in words:
        return crate, "builds"
    return crate, "tests" if "--test" in words else "proofs"


class Watch:
    """What has been seen of the processes below one of them."""

    def __init__(self, root):
        self.root, self.began, self.kinds, self.seen = root, time.time(), {}, {}
        self.lone, self.alone = (None, 0), (0, None)

    def look(self):
        now, found = time.time() - self.began, processes()
        for pid, (_, seconds) in found.items():
            line, at = [], pid
            while at in found and at != self.root:
                line.append(at)
                at = found[at][0]
            if at != self.root:
                continue
            kind = ("", "other")
            for step in reversed(line):
                if step not in self.kinds:
                    told = kind_of(step)
                    if told:
                        self.kinds[step] = told
                inner = self.kinds.get(step)
                # (a compiler below a prover is no proof)
                kind = inner or ((kind[0], "builds") if kind[1] in ("proofs", "tests") else kind)
            first = self.seen.get(pid, (None, now))[1]
            self.seen[pid] = (kind, first, now, seconds)
        self.note_alone(now, {self.seen[pid][0] for pid in found if pid in self.seen and self.seen[pid][0][1] in PARTS})

    def note_alone(self, now, busy):
        """Keeps the longest time for which one crate's part ran and no other."""
        key = busy.pop() if len(busy) == 1 else None
        if key != self.lone[0]:
            self.lone = (key, now)
        if key and now - self.lone[1] > self.alone[0]:
            self.alone = (now - self.lone[1], key)


def watched(file, command):
    child = subprocess.Popen(command, stdout=subprocess.PIPE, stderr=subprocess.STDOUT)
    watch, ended = Watch(os.getpid()), threading.Event()

    def look_on():
        while not ended.wait(0.5):
            try:
                watch.look()
            except Exception as error:  # what is measured must not fail the gate
                print("gate_times: %s" % error, file=sys.stderr)

    looks = threading.Thread(target=look_on)
    looks.start()
    last, trouble = "", []
    for line in child.stdout:
        sys.stdout.buffer.write(line)
        sys.stdout.buffer.flush()
        last = line.decode(errors="replace").rstrip("\n")
        if TROUBLE.search(last) and AS_IT_MUST_BE not in last and len(trouble) < MOST_TROUBLE:
            trouble.append(last[:400])
    status = child.wait()
    ended.set()
    looks.join()
    used = resource.getrusage(resource.RUSAGE_CHILDREN)
    told = {"wall": time.time() - watch.began, "processor": used.ru_utime + used.ru_stime, "alone": watch.alone, "last": last, "trouble": trouble, "seen": list(watch.seen.values())}
    with open(file, "w", encoding="utf-8") as out:
        json.dump(told, out)
    return status if status >= 0 else 128 - status


def table(told):
    rows = {}
    for (crate, part), first, last, seconds in told["seen"]:
        row = rows.setdefault(crate or "rt itself", {"from": first, "to": last})
        row[part] = row.get(part, 0) + seconds
        row["from"], row["to"] = min(row["from"], first), max(row["to"], last)
    heads = [*PARTS, "other"]
    print("%-22s" % "seconds of processor" + "".join("%8s" % it for it in [*heads, "all", "from", "to"]))
    for crate, row in sorted(rows.items(), key=lambda it: -sum(it[1].get(part, 0) for part in heads)):
        numbers = [row.get(part, 0) for part in heads]
        print("%-22s" % crate + "".join("%8.0f" % it for it in [*numbers, sum(numbers), row["from"], row["to"]]))
    sums = [sum(row.get(part, 0) for row in rows.values()) for part in heads]
    print("%-22s" % "all" + "".join("%8.0f" % it for it in [*sums, sum(sums)]))
    minutes = told["processor"] / 60, told["wall"] / 60
    print("in all %.1f minutes of processor, in %.1f minutes" % minutes)
    seconds, key = told.get("alone", (0, None))
    if key:
        print("alone for %.0f seconds at most: %s" % (seconds, " ".join(key)))
    for line in told["trouble"]:
        print(line)


def last_of(tables):
    """The line with which all ended: the sum of what passed and failed, where each says it."""
    ends = [ENDED.match(told["last"]) for told in tables]
    if all(ends):
        return "%d passed, %d failed" % tuple(sum(int(it[number]) for it in ends) for number in (1, 2))
    return "\n".join(told["last"] for told in tables)


def main(words):
    if words[:1] == ["--watch"] and len(words) > 2:
        return watched(words[1], words[2:])
    if words and not words[0].startswith("-"):
        tables = []
        for name in words:
            with open(name, encoding="utf-8") as file:
                tables.append(json.load(file))
            table(tables[-1])
        print(last_of(tables))
        return 0
    print(__doc__, file=sys.stderr)
    return 2


if __name__ == "__main__":
    sys.exit(main(sys.argv[1:]))
