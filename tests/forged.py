#!/usr/bin/env python3
"""Forged feeds, the last counter and full sets: forged.py PROGRAM.

Each set of operations is taken in every order, one operation a line: the copy, the faults and the settings are the same
after each. A feed cut anywhere has the fault that the format says. The counter next to the last leaves room for one
symbol. A full site tells each operation and each edit what is due, and a text, a merge and a look at feeds that are full or
more than full are refused as such, and as full where they fork stamps too. And the worst orders of a large feed: each is opened
in at most ten times what an honest feed of its size takes, lists that fork stamps of their own are taken so too, large feeds of
one number are refused, merged, renumbered and renewed so, and a script of a million refused commands is read at the speed of its
bytes. Texts of many faults and second looks, and ribbons of many lines or of one long line, take time by their size.
"""
import itertools
import os
import re
import resource
import subprocess
import sys
import time

MAGIC = "4d464431"
LIMIT = 1048576
LARGE = 1048576
HEAD = (0, 0)


def stamp(at):
    return "%016x%04x" % at


def insert(at, parent, letter):
    return "01" + stamp(at) + stamp(parent) + "00" + "%08x" % ord(letter)


def delete(at, target):
    return "02" + stamp(at) + stamp(target)


def setting(at, value):
    return "03" + stamp(at) + "01" + "%08x" % value


def answers(program, lines):
    run = subprocess.run([program, "script"], input="".join(line + "\n" for line in lines), capture_output=True, text=True)
    if run.returncode != 0 or run.stderr:
        sys.exit(f"status {run.returncode}: {run.stderr}")
    return run.stdout.splitlines()


def check(name, found, due):
    if found != due:
        sys.exit(f"{name}: answered {found}, due is {due}")


def in_every_order(program, name, ops, after, due):
    """Each order at a site of its own run; the answers behind the takes are due."""
    orders = list(itertools.permutations(ops))
    for order in orders:
        lines = ["site 7"] + [f"take 7 {MAGIC}{op}" for op in order] + [f"take 7 {MAGIC}{op}" for op in after]
        lines += ["show 7", "faults 7", "settings 7"]
        check(name, answers(program, lines)[-3:], due)
    print(f"{name}: {len(orders)} orders")


def none_set():
    return "settings measure=- tight=- loose=- case=- wedge=-"


def orders(program):
    chain = [insert((1, 1), HEAD, "a"), insert((2, 1), (1, 1), "b"), delete((3, 1), (2, 1)), insert((4, 2), (3, 1), "c"), delete((5, 2), (4, 2))]
    in_every_order(program, "void on a delete", chain, [], ['copy r"a"', "faults void 4.2, void 5.2", none_set()])
    forked = [insert((1, 1), HEAD, "a"), insert((2, 1), (1, 1), "b"), insert((2, 1), (1, 1), "x"), insert((3, 2), (2, 1), "c")]
    due = ['copy r"a"', "faults forked 2.1, void 3.2", none_set()]
    in_every_order(program, "a forked stamp", forked, [], due)
    in_every_order(program, "a third of a forked stamp", forked, [insert((2, 1), (1, 1), "y")], due)


def void_on_a_setting(program):
    lines = ["site 7", f"take 7 {MAGIC}{insert((3, 2), (2, 9), 'c')}", "faults 7"]
    lines += [f"take 7 {MAGIC}{setting((2, 9), 144)}", "faults 7", "settings 7"]
    lines += [f"take 7 {MAGIC}{setting((2, 9), 120)}", "faults 7", "settings 7", "show 7"]
    due = ["ok", "ok new 1 known 0", "faults waiting 3.2", "ok new 1 known 0", "faults void 3.2"]
    due += ["settings measure=144 tight=- loose=- case=- wedge=-", "ok new 1 known 0", "faults forked 2.9, void 3.2", none_set(), "copy"]
    check("void on a setting", answers(program, lines), due)
    print("void on a setting: each step")


def last_counter(program):
    q = insert(((1 << 62) - 1, 2), HEAD, "q")
    lines = ["site 1", f"take 1 {MAGIC}{q}", 'insert 1 0 r"ab"', "show 1", "delete 1 0", "set 1 measure 11", "insert 1 9 r\"a\"", "insert 1 0 r\"a\""]
    due = ["ok", "ok new 1 known 0", "stopped 1 clock", 'copy r"aq"', "refused clock", "refused value", "refused place", "refused clock"]
    check("last counter", answers(program, lines), due)
    print("last counter: each answer")


def prefixes(program):
    """Of a feed of two inserts: below four bytes the magic is lacking, and else the operation that is cut."""
    feed = MAGIC + insert((1, 1), HEAD, "a") + insert((2, 2), (1, 1), "b")
    lines, due = ["site 7"], ["ok"]
    for k in range(len(feed) // 2):
        # A command has one byte of a feed at least.
        if k:
            lines.append(f"take 7 {feed[:2 * k]}")
            due.append("refused feed 0 magic" if k < 4 else "ok new 0 known 0" if k == 4 else "refused feed 4 cut" if k < 30 else "ok new 1 known 0" if k == 30 else "refused feed 30 cut")
    check("prefixes", answers(program, lines), due)
    print(f"prefixes of a feed: {len(lines) - 1}")


def bytes_of(ops):
    return bytes.fromhex(MAGIC + "".join(ops))


def full_set(program, folder):
    """A site that holds all that a site may."""
    with open(f"{folder}/full.feed", "wb") as file:
        file.write(b"MFD2" + b"".join(b"\x03" + n.to_bytes(8, "big") + b"\x00\x01\x01\x00\x00\x00\x90" for n in range(1, LIMIT + 1)))
    one, two = setting((1, 1), 144), setting((1, 2), 144)
    lines = [f"take 1 {MAGIC}{one}", f"take 1 {MAGIC}{two}", 'insert 1 0 r"a"', 'insert 1 1 r"a"', "delete 1 0", "set 1 measure 11", f"take 1 {MAGIC}{one}{two}", "set 1 measure 12"]
    due = ["ok new 0 known 1", "refused full", "refused full", "refused place", "refused place", "refused value", "stopped 1 full", "refused full"]
    run = subprocess.run([program, "desk", f"{folder}/full.feed", "--site", "1"], input="".join(line + "\n" for line in lines), capture_output=True, text=True)
    check("full set", (run.returncode, run.stdout.splitlines()), (0, due))
    print("full set: each answer")


def full_by_hand(program, folder):
    """A text, a merge and a look where a feed has as many operations as may be, or one more: refused as full, nothing changed."""

    def feed(name, first, last, site):
        with open(f"{folder}/{name}.feed", "wb") as file:
            file.write(b"MFD2" + b"".join(b"\x03" + n.to_bytes(8, "big") + site.to_bytes(2, "big") + b"\x01\x00\x00\x00\x90" for n in range(first, last + 1)))

    feed("full", 1, LIMIT, 1)
    feed("over", 1, LIMIT + 1, 1)
    feed("one", 1, 1, 2)
    with open(f"{folder}/forking.feed", "wb") as file:
        file.write(bytes_of([setting((1, 1), 90), setting((1, 2), 90)]))
    held, full = "copydesk: as many operations are held as may be", "copydesk: full"
    asked = [
        (["import", "full.feed", "--site", "1"], held, "full.feed"),
        (["replace", "full.feed", "--site", "1", "", "x"], held, "full.feed"),
        (["merge", "full.feed", "one.feed"], full, "one.feed"),
        (["merge", "full.feed", "forking.feed"], full, "forking.feed"),
        (["merge", "full.feed", "forking.feed", "--forks"], full, "forking.feed"),
        (["merge", "one.feed", "over.feed"], full, "over.feed"),
        (["merge", "over.feed", "one.feed"], full, "over.feed"),
        (["renew", "new.feed", "over.feed", "--site", "3"], full, "over.feed"),
        (["renumber", "over.feed", "one.feed", "--site", "3"], full, "over.feed"),
        (["renumber", "one.feed", "over.feed", "--site", "3"], full, "over.feed"),
        (["export", "over.feed"], full, "over.feed"),
        (["diff", "over.feed", "full.feed"], full, "over.feed"),
        (["diff", "full.feed", "over.feed"], full, "over.feed"),
    ]
    before = [open(f"{folder}/{name}.feed", "rb").read() for name in ("full", "over", "one")]
    for words, fault, name in asked:
        run = subprocess.run([program, *words], input="x\n", capture_output=True, text=True, cwd=folder)
        lines = run.stderr.splitlines()
        causes = [line[: len(name) + 2] for line in lines[1:]]
        check(" ".join(words), (run.returncode, run.stdout, lines[:1], causes), (1, "", [fault], [f"{name}: "]))
    check("a feed renewed", os.path.exists(f"{folder}/new.feed"), False)
    check("the feeds after it", [open(f"{folder}/{name}.feed", "rb").read() for name in ("full", "over", "one")] == before, True)
    print(f"full by hand: {len(asked)} runs are refused as full, and change nothing")


def by_hand(program, folder, *words):
    """The processor time, the status, the lines and the faults of a run in the folder."""
    before = resource.getrusage(resource.RUSAGE_CHILDREN)
    run = subprocess.run([program, *words], capture_output=True, text=True, stdin=subprocess.DEVNULL, cwd=folder)
    after = resource.getrusage(resource.RUSAGE_CHILDREN)
    return after.ru_utime + after.ru_stime - before.ru_utime - before.ru_stime, run.returncode, run.stdout, run.stderr


def number_used_twice(program, folder, n):
    """Two feeds of one number that have every second counter, and other letters: they are refused with each counter, merged
    where forks are asked for, renumbered and renewed, each in at most ten times what a merge of two numbers takes."""
    half = n // 2
    for name, site, letter in (("ours", 1, "a"), ("theirs", 1, "b"), ("others", 2, "b")):
        ops = [insert((2 * k, site), (2 * k - 2, site) if k > 1 else HEAD, letter) for k in range(1, half + 1)]
        with open(f"{folder}/{name}.feed", "wb") as file:
            file.write(bytes_of(ops))
    counters = " ".join(str(2 * k) for k in range(1, half + 1))
    told = f"copydesk: number used twice\ntheirs.feed: site 1 made {counters} here and there\n"
    forks = "faults " + ", ".join(f"forked {2 * k}.1" for k in range(1, half + 1))
    new = f"feed ok new {half} known 0\n"

    def opens(now):
        """One word of letters alone in each feed, and none in common: the merged copy is no merge of the two."""
        lines = (("now  ", now), ("here ", "a"), ("there", "b"), ("was  ", ""))
        return "open at 0\n" + "".join(f"  {sign}" + (f" {24 * letter}..\n" if letter else "\n") for sign, letter in lines)

    asked = [
        ("merge both.feed ours.feed others.feed", (0, f"ours.{new}others.{new}{opens('b')}faults none\n", "")),
        ("merge ours.feed theirs.feed", (1, "", told)),
        ("renew new.feed ours.feed --site 3", (0, f"ok renewed {half}\n", "")),
        ("merge forked.feed ours.feed theirs.feed --forks", (0, f"ours.{new}theirs.{new}{opens('')}{forks}\n", "")),
        ("renumber ours.feed theirs.feed --site 4", (0, f"ok renumbered {half}\n", "")),
        ("merge ours.feed theirs.feed", (0, f"theirs.{new}{opens('a')}faults none\n", "")),
    ]
    honest = None
    for words, due in asked:
        used, *found = by_hand(program, folder, *words.split())
        for name, one, other in zip(("status", "output", "standard error"), found, due):
            if one != other:
                sys.exit(f"{words}: {name} {str(one)[:300]}, due is {str(other)[:300]}")
        honest = honest or used
        print(f"{words}, {half} operations each: {used:.2f} s, {used / honest:.1f} times an honest merge")
        if used > 10 * honest + 0.05:
            sys.exit(f"{words}: more than ten times an honest merge")


def seconds(program, folder, name, ops):
    """The processor time to open a stored feed, in seconds, the lesser of two runs."""
    path = f"{folder}/{name}.feed"
    with open(path, "wb") as file:
        file.write(bytes_of(ops))
    times = []
    for _ in range(2):
        before = resource.getrusage(resource.RUSAGE_CHILDREN)
        run = subprocess.run([program, "desk", path, "--site", "65535"], input="", capture_output=True, text=True)
        after = resource.getrusage(resource.RUSAGE_CHILDREN)
        check(name, (run.returncode, run.stdout), (0, ""))
        times.append(after.ru_utime + after.ru_stime - before.ru_utime - before.ru_stime)
    return min(times)


def large_feeds(n):
    """By name: an honest feed of n operations, and feeds in the orders that could cost most."""
    yield "honest", [insert((k, 1), (k - 1, 1 if k > 1 else 0), "a") for k in range(1, n + 1)]
    yield "falling chain", [insert((k, 1), (k - 1, 1 if k > 1 else 0), "a") for k in range(n, 0, -1)]
    yield "each stamp forked", [insert((k, 1), HEAD, letter) for k in range(1, n // 2 + 1) for letter in "ab"]
    yield "all wait for one", [insert((k, 1), (1, 9), "a") for k in range(2, n + 2)]
    yield "all wait, and then it comes", [insert((k, 1), (1, 9), "a") for k in range(2, n + 1)] + [insert((1, 9), HEAD, "a")]
    yield "siblings of one", [insert((k, 1), HEAD, "a") for k in range(1, n + 1)]
    yield "siblings falling", [insert((k, 1), HEAD, "a") for k in range(n, 0, -1)]
    yield "sites in turn", [insert((k, 1 + k % 2), (k - 1, 1 + (k - 1) % 2) if k > 1 else HEAD, "a") for k in range(1, n + 1)]
    yield "each deleted first", [op for k in range(1, n // 2 + 1) for op in (delete((n + k, 2), (k, 1)), insert((k, 1), HEAD, "a"))]


def hostile(program, folder, n):
    honest = None
    for name, ops in large_feeds(n):
        used = seconds(program, folder, name.replace(" ", "-").replace(",", ""), ops)
        honest = honest or used
        print(f"{name}: {n} operations opened in {used:.2f} s, {used / honest:.1f} times an honest feed")
        if used > 10 * honest + 0.05:
            sys.exit(f"{name}: more than ten times an honest feed")


def forks_in_lists(program, n, each):
    """Lists in which one stamp in twenty forks, taken command by command: a pass over what is held for each command is
    allowed, and not one for each fork."""
    took = []
    for forks in (False, True):
        ops, parent = [], HEAD
        for k in range(1, n + 1):
            ops.append(insert((k, 1), parent, "a"))
            if forks and k % 20 == 0:
                ops.append(insert((k, 1), parent, "b"))
            else:
                parent = (k, 1)
        lines = ["site 7"] + [f"take 7 {MAGIC}{''.join(ops[at:at + each])}" for at in range(0, len(ops), each)]
        begun = resource.getrusage(resource.RUSAGE_CHILDREN).ru_utime
        answers(program, lines)
        took.append(resource.getrusage(resource.RUSAGE_CHILDREN).ru_utime - begun)
    print(f"{n} operations in lists of {each}, one in twenty forked: {took[1]:.2f} s, {took[1] / max(took[0], 0.001):.1f} times honest ones")
    if took[1] > 10 * took[0] + 0.2:
        sys.exit("forks in lists: more than ten times honest lists")


def large_texts(n):
    """By name: texts of so many symbols, and how many of them the case lacks or have second looks by kind."""
    yield "an honest text", "The sheets.\nAre in.\n" * (n // 20), {}
    yield "spaces alone", " " * n, {"two spaces": 1}
    yield "a word again and again", "a " * (n // 2), {"word repeated": n // 2 - 1}
    yield "two long words", "a" * (n // 2) + " " + "a" * (n // 2), {"word repeated": 1}
    yield "long words", ("a" * 999 + " ") * (n // 1000), {"word repeated": n // 1000 - 1, "three lines end alike": n // 1000 - 2}
    yield "points", " ." * (n // 2), {"space before a point": n // 2, "word repeated": n // 2 - 1}
    yield "hyphens", "a- b- " * (n // 6), {}
    yield "quotes", "_\"_" * n, {"straight quote": n, "no matrix": n}
    yield "escapes", "\\_" * n, {"no matrix": n}
    yield "lines of no words", "\n" * n, {}
    yield "lines of a word", "a\r\n" * (n // 2), {"three lines end alike": n // 2 - 2}
    yield "what the case lacks", "~ " * (n // 2), {"word repeated": n // 2 - 1, "no matrix": n // 2}


def slow(program, folder, name, n, write, *words):
    """The output of a run on what is written for a size: it may take twice as long for each part of it as a run on an eighth."""
    took = []
    for size in (n // 8, n):
        write(size)
        used, _, out, why = by_hand(program, folder, *words)
        check(name, why, "")
        took.append(used)
    if took[1] > 16 * took[0] + 0.3:
        sys.exit(f"{name}, {' '.join(words)}: {took[0]:.2f} s for {n // 8}, and {took[1]:.2f} s for {n}")
    return took[1], out


def metal_in(folder):
    for name in ("case12.toml", "wedge5.toml"):
        with open(os.path.join(os.path.dirname(os.path.abspath(__file__)), "..", "examples", name), "rb") as reads, open(f"{folder}/{name}", "wb") as writes:
            writes.write(reads.read())
    return ["--case", "case12.toml", "--wedge", "wedge5.toml"]


def texts(program, folder, n):
    """The proofs of large texts, for editors, as a galley and with a document, with second looks."""
    words = ["proof", "--text", "large.txt", *metal_in(folder), "--set", "measure=60", "--set", "tight=40", "--set", "loose=240", "--faults", "--warn"]

    def write(size):
        text, counts = next(it[1:] for it in large_texts(size) if it[0] == name)
        due.update(counts)
        with open(f"{folder}/large.txt", "w", encoding="utf-8", newline="") as file:
            file.write(text)

    for name in [it[0] for it in large_texts(1000)]:
        due, both = {}, []
        for form in (["--format", "gcc"], [], ["--html", "large.html", "--force"]):
            used, out = slow(program, folder, name, n, write, *words, *form)
            both.append(used)
            for cause, count in due.items():
                found = len(re.findall(f"(?m)^(?:large.txt:[0-9]+:[0-9]+: (?:warning: )?|look at [0-9]+: |){cause}", out))
                check(f"{name}, {cause}", found, count)
        print(f"{name}: a text of {n} symbols in {both[0]:.2f} s for editors, {both[1]:.2f} s as a galley, {both[2]:.2f} s with a document")


def ribbons(program, folder, n):
    """Large ribbons, read in part, by their figures, and against others: of one long line, of many lines with a matrix or without,
    and of rows that send nothing out."""
    metal, coarse, fine, cell = metal_in(folder), b"\0\0\x20\2", [b"\0\0\2\6", b"\0\0\x20\6"], b"\0\2\0\0"  # the cell N15

    def write(size):
        kinds = {"a long line": (cell * (size - 3) + coarse + fine[0], 1), "lines of no matrix": ((coarse + fine[0]) * (size // 2), size // 2),
                 "lines of a matrix": ((cell + coarse + fine[0]) * (size // 3), size // 3), "rows that send nothing out": (fine[0] * (size - 1), 0)}
        rows, lines = kinds[name]
        due["lines"], due["rows"] = lines, len(rows) // 4 + 1
        for file, data in (("large.rib", fine[0] + rows), ("other.rib", fine[0] + rows.replace(coarse + fine[0], coarse + fine[1]))):
            with open(f"{folder}/{file}", "wb") as made:
                made.write(b"MRB1" + (len(data) // 4).to_bytes(4, "big") + data)

    for name in ("a long line", "lines of no matrix", "lines of a matrix", "rows that send nothing out"):
        due, took = {}, []
        for more in (["read", "large.rib", "--stats"], ["read", "large.rib", "--lines", f"1..{n}", "--svg", "large.svg"],
                     ["read", "large.rib", "--lines", f"{n}..{n}", "--svg", "large.svg"], ["diff", "large.rib", "other.rib"], ["diff", "large.rib", "large.rib"]):
            used, out = slow(program, folder, name, n, write, *more, *metal)
            took.append(used)
            lines, rows = due["lines"], due["rows"]
            head = f"RIBBON {lines} lines, {rows} rows, longest"
            if more[0] == "diff":
                told = "none differs" if more[1] == more[2] or not lines else "1 differs" if lines == 1 else f"{lines} differ"
                head = f"large.rib {lines} lines, {more[2]} {lines} lines, {told}"
            check(f"{name}, {' '.join(more)}", out[:len(head)], head)
            if any(it.startswith("1..") for it in more):
                ends = 0 if lines else rows - 1
                check(f"{name}, marks of {' '.join(more)}", out.count("-- end of galley "), ends)
            if more[0] == "diff":
                check(f"{name}, lines of {' '.join(more)}", out.count("\n"), 1 if "none" in told else 2 + 2 * lines)
        print(f"{name}: a ribbon of {n} rows is read in {took[0]:.2f} s, and told from another in {took[3]:.2f} s")


def refused_commands(program, n):
    text = "insert 1 0 r\"a\"\n" * n
    begun = time.monotonic()
    run = subprocess.run([program, "script"], input=text, capture_output=True, text=True)
    took = time.monotonic() - begun
    check("refused commands", (run.returncode, run.stdout), (0, "refused site\n" * n))
    print(f"{n} refused commands: {len(text) / took / 1e6:.0f} MB/s")
    if took > 1 + n / 200000:
        sys.exit("refused commands are slow")


def main():
    import tempfile
    program = sys.argv[1]
    orders(program)
    void_on_a_setting(program)
    last_counter(program)
    prefixes(program)
    large = int(sys.argv[2]) if len(sys.argv) > 2 else LARGE
    with tempfile.TemporaryDirectory() as folder:
        full_set(program, folder)
        full_by_hand(program, folder)
        number_used_twice(program, folder, large)
        hostile(program, folder, large)
        texts(program, folder, large // 4)
        ribbons(program, folder, large // 8)
    forks_in_lists(program, 40000, 1000)
    refused_commands(program, 1000000)


main()
