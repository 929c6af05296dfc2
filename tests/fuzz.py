#!/usr/bin/env python3
"""Inputs made by changes of other inputs, through the program and through the independent one; the answers must be the same.

usage: fuzz.py PROGRAM                              the corpus, fuzz.jsonl: a regression test of some seconds
       fuzz.py PROGRAM KIND SECONDS [SEED] [--keep] changes inputs of the corpus at random for so many seconds of processor
                                                    time, and prints what differs; a KIND is scripts, feeds, files or ribbons;
                                                    --keep adds to KIND.new.jsonl those that bring an answer of a new form,
                                                    and to KIND.new.jsonl.toml those of which only one says that they are TOML
       fuzz.py PROGRAM --least FILE..               a new corpus of the smallest inputs of each form, of the old one and files

With --blocks an input that reaches a block of the built program which none reached before is one of a new form too (covered.py).

The kinds, and what is asked of each, stand in fuzz_kinds.py.
"""
import json
import os
import random
import resource
import signal
import sys
import tempfile
import time

HERE = os.path.dirname(os.path.abspath(__file__))
sys.path.insert(0, HERE)
from covered import Covered
from fuzz_kinds import KINDS

CORPUS = os.path.join(HERE, "fuzz.jsonl")
LIMIT = 100  # inputs of the corpus, of each kind


def corpus(*files):
    out = {name: [] for name in KINDS}
    for name in (CORPUS, *files):
        if os.path.exists(name):
            with open(name, encoding="utf-8") as file:
                for line in file:
                    one = json.loads(line)
                    out[one.pop("kind")].append(one)
    return out


def line_of(kind, one):
    return json.dumps({"kind": kind.name, **one}) + "\n"


def write(name, line):
    with open(name, "a", encoding="utf-8") as file:
        file.write(line)


def batches(kind, inputs):
    return [inputs[at:at + kind.batch] for at in range(0, len(inputs), kind.batch)]


def used():
    """Seconds of processor time, of this program and of those that it ran."""
    return sum(it.ru_utime + it.ru_stime for it in map(resource.getrusage, (resource.RUSAGE_SELF, resource.RUSAGE_CHILDREN)))


def replay(program):
    count = faults = 0
    for name, inputs in corpus().items():
        kind = KINDS[name]
        for batch in batches(kind, inputs):
            for one, (fault, _) in zip(batch, kind.ask(program, batch, len(batch))):
                count += 1
                if fault:
                    faults += 1
                    print("%s: %s\n%s" % (name, fault, json.dumps(one)))
    print("%d inputs, %d faults" % (count, faults))
    return 1 if faults or not count else 0


def stop(*_):
    signal.signal(signal.SIGTERM, signal.SIG_IGN)  # what is found is still printed
    raise KeyboardInterrupt


def alone(program, kind, one, covered):
    """What differs for one input, and its forms, of which the blocks that are sought and reached are some."""
    if covered:
        covered.reached()
    fault, forms = kind.ask(program, [one], 1)[0]
    return fault, forms | (covered.reached() if covered else set())


def asked(program, kind, inputs, covered, left):
    """The same for more inputs; where they reach blocks that were left, each is asked alone."""
    found = kind.ask(program, inputs, 1)
    new = covered.reached() & left if covered else set()
    if not new:
        return found
    found = [alone(program, kind, one, covered) for one in inputs]
    left -= new
    covered.seek(left)
    return found


def fuzz(program, kind, seconds, seed, kept, covered):
    pick, faults, tried, odd = random.Random(seed), 0, 0, 0
    known, pool, left = set(), corpus()[kind.name], set(covered.blocks) if covered else set()
    begun, shown = used(), time.time()
    for batch in batches(kind, pool):
        for _, forms in kind.ask(program, batch, len(batch)):
            known |= forms
    if covered:
        left -= covered.reached()
        covered.seek(left)
    fresh = kind.seeds()
    pool = pool or list(fresh)
    signal.signal(signal.SIGTERM, stop)
    try:
        while used() - begun < seconds:
            batch = [fresh.pop() if fresh else kind.changed(pick, pick.choice(pool), pick.choice(pool)) for _ in range(kind.batch)]
            tried += len(batch)
            for one, (fault, forms) in zip(batch, asked(program, kind, batch, covered, left)):
                if fault and fault.startswith("TOML: "):
                    odd += 1
                    if kept:
                        write(kept + ".toml", line_of(kind, one))
                elif fault:
                    faults += 1
                    print(fault)
                    print(line_of(kind, one), end="", flush=True)
                elif forms - known:
                    known |= forms | kind.ask(program, [one], 1)[0][1]
                    pool.append(one)
                    if kept:
                        write(kept, line_of(kind, one))
            if time.time() - shown > 60:
                shown = time.time()
                print("%.0f seconds, %d inputs tried, %d forms and blocks, %d blocks left" % (used() - begun, tried, len(known), len(left)), flush=True)
    except KeyboardInterrupt:
        pass
    print("%s: %.0f seconds of processor time, %d inputs tried, %d forms of answers and blocks, %d inputs in the pool, %d not alike as TOML, %d faults"
          % (kind.name, used() - begun, tried, len(known), len(pool), odd, faults))
    return 1 if faults else 0


def smaller(program, kind, one, due, covered):
    """The input without parts that its forms do not need, as far as so many trials find them."""
    if covered:
        covered.seek(due & covered.blocks)
    parts, trials = kind.parts(one), 60
    size = max(1, len(parts) // 2)
    while trials and len(parts) > 1:
        at = 0
        while at < len(parts) and trials:
            tried, trials = kind.joined(one, parts[:at] + parts[at + size:]), trials - 1
            fault, forms = alone(program, kind, tried, covered)
            if not fault and due <= forms:
                del parts[at:at + size]
            else:
                at += size
        if size == 1:
            break
        size = max(1, size // 2)
    if covered:
        covered.seek(covered.blocks)
    return kind.joined(one, parts)


def least(program, files, covered):
    """The corpus anew: of each kind, one after another, the input that brings most blocks and forms for its length, made small."""
    given, out = corpus(*files), []
    for name, kind in KINDS.items():
        inputs, known, kept = [], set(), []
        for one in given[name]:
            fault, forms = alone(program, kind, one, covered)
            if not fault:
                inputs.append((200 + len(line_of(kind, one)), one, forms))
        while inputs and len(kept) < LIMIT:
            inputs = [(length, one, forms - known) for length, one, forms in inputs if forms - known]
            _, one, due = max(inputs, key=lambda it: len(it[2]) / it[0], default=(0, None, None))
            if one is None:
                break
            one = smaller(program, kind, one, due, covered)
            known |= alone(program, kind, one, covered)[1] | due
            kept.append(line_of(kind, one))
        out += sorted(kept, key=len)
        print("%s: %d of %d inputs, %d forms and blocks" % (name, len(kept), len(given[name]), len(known)), flush=True)
    with open(CORPUS, "w", encoding="utf-8") as file:
        file.writelines(out)
    return 0


def main():
    words = [word for word in sys.argv[1:] if word not in ("--keep", "--blocks")]
    program, rest = os.path.abspath(words[0]), words[1:]
    files = [os.path.abspath(name) for name in rest[1:]]
    kept = os.path.abspath(rest[0] + ".new.jsonl") if "--keep" in sys.argv else None
    with tempfile.TemporaryDirectory() as folder, tempfile.TemporaryDirectory() as beside:
        os.chdir(folder)
        covered = Covered(program, beside) if "--blocks" in sys.argv else None
        if not rest:
            return replay(program)
        if rest[0] == "--least":
            return least(program, files, covered)
        seed = int(rest[2]) if len(rest) > 2 else random.randrange(1 << 30)
        print("seed %d" % seed)
        return fuzz(program, KINDS[rest[0]], float(rest[1]), seed, kept, covered)


if __name__ == "__main__":
    sys.exit(main())
