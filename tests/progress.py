#!/usr/bin/env python3
"""How far a run is, told on standard error where it is a terminal: progress.py PROGRAM

Standard input, a feed and a case are fed slowly through FIFOs, two seconds or more each, and an answer is taken slowly. With
a pseudo-terminal as standard error lines come, a second or more apart, of the bytes that were read or written by then, and
no more than there were; a run under a second has none, and so has a run whose standard error is a pipe. Nobody who types at
a terminal, or sees the answers on one, is told of bytes. In all of these the status and the answers are those of an
undisturbed run, byte for byte.
"""
import fcntl
import os
import pathlib
import pty
import re
import subprocess
import sys
import tempfile
import threading
import time

ROOT = pathlib.Path(__file__).resolve().parent.parent
EXAMPLES = ROOT / "examples"
READ = "are read"
WRITTEN = "of the answer are written"
LINE = r"copydesk: (?:(?P<name>\S+): )?(?P<bytes>\d+) bytes (?P<what>are read|of the answer are written)"
SLOW = 2.6


def fail(words):
    sys.exit("progress: " + words)


def feed_slowly(path, data, seconds):
    """Writes data into a FIFO, in twelve parts over so many seconds."""
    part = max(1, (len(data) + 11) // 12)
    with open(path, "wb", buffering=0) as file:
        for at in range(0, len(data), part):
            file.write(data[at:at + part])
            time.sleep(seconds / 12)


class Taker(threading.Thread):
    """Takes all that comes out of a descriptor, and waits after each 2,048 bytes."""

    def __init__(self, end, wait=0):
        super().__init__()
        self.end, self.wait, self.taken = end, wait, b""
        self.start()

    def run(self):
        while True:
            try:
                part = os.read(self.end, 2048)
            except OSError:  # the other end of a terminal is closed
                part = b""
            if not part:
                os.close(self.end)
                return
            self.taken += part
            time.sleep(self.wait)

    def all(self):
        self.join()
        return self.taken


def run(program, folder, words, slow=(), given=None, terminal=True, wait=0):
    """The status, the answer, the lines on standard error and the seconds. `slow` are FIFOs with their bytes."""
    errors, error_end = pty.openpty() if terminal else os.pipe()
    answers, answer_end = os.pipe()
    if wait:
        fcntl.fcntl(answer_end, fcntl.F_SETPIPE_SZ, 4096)
    feeders = []
    for name, data in slow:
        path = os.path.join(folder, name)
        if not os.path.exists(path):
            os.mkfifo(path)
        feeders.append(threading.Thread(target=feed_slowly, args=(path, data, SLOW), daemon=True))
    for feeder in feeders:
        feeder.start()
    source = open(os.path.join(folder, given), "rb") if given else subprocess.DEVNULL
    began = time.time()
    run_of = subprocess.Popen([program, *words], cwd=folder, stdin=source, stdout=answer_end, stderr=error_end)
    os.close(answer_end)
    os.close(error_end)
    told, answer = Taker(errors), Taker(answers, wait)
    status = run_of.wait(60)
    took = time.time() - began
    written, lines = answer.all(), told.all().decode().replace("\r\n", "\n")
    for feeder in feeders:
        feeder.join(20)
    if given:
        source.close()
    return {"status": status, "answer": written, "lines": lines.splitlines(), "took": took}


def held(what, got, plain, kind, most, name=None):
    """Lines came, of this kind among them, with bytes that rise and are no more than there were; the rest is as it was."""
    if (got["status"], got["answer"]) != (plain["status"], plain["answer"]):
        fail("%s: status %d and %r" % (what, got["status"], got["answer"][:200]))
    told = [re.fullmatch(LINE, line) for line in got["lines"]]
    counts = [int(it["bytes"]) for it in told if it and it["what"] == kind and it["name"] == name]
    if not counts or not all(told):
        fail("%s: told %r" % (what, got["lines"]))
    if counts != sorted(set(counts)) or counts[-1] > most or counts[0] < 1:
        fail("%s: %r of %d bytes" % (what, counts, most))
    if len(told) > got["took"]:
        fail("%s: %d lines in %.1f seconds" % (what, len(told), got["took"]))


def none_reported(what, got, plain):
    if (got["status"], got["answer"], got["lines"]) != (plain["status"], plain["answer"], plain["lines"]):
        fail("%s: status %d, %r and %r" % (what, got["status"], got["answer"][:200], got["lines"]))


def typed(program, folder, commands):
    """A script typed at a terminal, a line a second: what stands on that terminal, which is all three streams."""
    ours, theirs = pty.openpty()
    run_of = subprocess.Popen([program, "script"], cwd=folder, stdin=theirs, stdout=theirs, stderr=theirs, start_new_session=True)
    os.close(theirs)
    taker = Taker(ours)
    for line in commands:
        time.sleep(1.3)
        os.write(ours, line.encode() + b"\n")
    time.sleep(0.3)
    os.write(ours, b"\x04")
    if run_of.wait(60) != 0:
        fail("a typed script ended with %d" % run_of.returncode)
    return taker.all().decode()


def slow_input(program, folder, text):
    """Commands, and a text that is imported, come slowly through standard input."""
    (pathlib.Path(folder) / "commands").write_bytes(text)
    plain = run(program, folder, ["script"], given="commands", terminal=False)
    if plain["status"] or not plain["answer"]:
        fail("script: status %d" % plain["status"])
    none_reported("a quick script at a terminal", run(program, folder, ["script"], given="commands"), plain)
    held("a slow script", run(program, folder, ["script"], [("slow", text)], "slow"), plain, READ, len(text))
    none_reported("a slow script without a terminal", run(program, folder, ["script"], [("slow", text)], "slow", terminal=False), plain)


def slow_files(program, folder, chapter):
    """A feed, then the case beside it, comes slowly out of a FIFO with its name."""
    subprocess.run([program, "import", "real.feed", "--site", "1"], cwd=folder, input=chapter, stdout=subprocess.DEVNULL, check=True)
    feed = (pathlib.Path(folder) / "real.feed").read_bytes()
    case = (pathlib.Path(folder) / "case12.toml").read_bytes()
    for words in (["export", "FEED"], ["sorts", "FEED", "--case", "CASE"], ["check", "FEED", "CASE"]):
        def named(feed_name, case_name):
            return [{"FEED": feed_name, "CASE": case_name}.get(word, word) for word in words]
        plain = run(program, folder, named("real.feed", "case12.toml"), terminal=False)
        none_reported(words[0] + " at a terminal", run(program, folder, named("real.feed", "case12.toml")), plain)
        plain["answer"] = plain["answer"].replace(b"real.feed", b"slow.feed")
        got = run(program, folder, named("slow.feed", "case12.toml"), [("slow.feed", feed)])
        held(words[0] + " of a slow feed", got, plain, READ, len(feed), "slow.feed")
        none_reported(words[0] + " of a slow feed, without a terminal", run(program, folder, named("slow.feed", "case12.toml"), [("slow.feed", feed)], terminal=False), plain)
    plain = run(program, folder, ["sorts", "real.feed", "--case", "case12.toml"], terminal=False)
    got = run(program, folder, ["sorts", "real.feed", "--case", "slow.toml"], [("slow.toml", case)])
    held("sorts by a slow case", got, plain, READ, len(case), "slow.toml")


def slow_reader(program, folder):
    """An answer of 100,000 bytes is taken slowly."""
    big = b"copy that is long enough to be taken slowly. " * 2_300
    subprocess.run([program, "import", "big.feed", "--site", "1"], cwd=folder, input=big, stdout=subprocess.DEVNULL, check=True)
    plain = run(program, folder, ["export", "big.feed"], terminal=False)
    got = run(program, folder, ["export", "big.feed"], wait=SLOW / (len(big) / 2048))
    held("a slow reader", got, plain, WRITTEN, len(plain["answer"]))


def main(words):
    if len(words) != 1:
        print(__doc__, file=sys.stderr)
        return 2
    program = os.path.realpath(words[0])
    with tempfile.TemporaryDirectory(prefix="progress-") as folder:
        for name in ("case12.toml", "wedge5.toml"):
            (pathlib.Path(folder) / name).write_bytes((EXAMPLES / name).read_bytes())
        text = b"site 1\n" + b"".join(b'insert 1 0 r"word %d "\n' % k for k in range(30)) + b"show 1\n"
        slow_input(program, folder, text)
        slow_files(program, folder, (EXAMPLES / "chapter.txt").read_text(encoding="utf-8")[:2000].encode())
        slow_reader(program, folder)
        seen = typed(program, folder, ["site 1", 'insert 1 0 r"ab"', "show 1"])
        if "bytes" in seen or 'copy r"ab"' not in seen:
            fail("on a terminal stood %r" % seen)
    print("progress: as it must be")
    return 0


if __name__ == "__main__":
    sys.exit(main(sys.argv[1:]))
