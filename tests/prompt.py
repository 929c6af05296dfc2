#!/usr/bin/env python3
"""A desk at a terminal, which is a conversation: prompt.py PROGRAM

A pseudo-terminal is standard input and standard error of a desk, and its standard output or a pipe is. What stands on the
terminal must be, byte for byte: one prompt for each line that the desk waits for, after the answer of the line above; the list
of the commands where a line is `help`, and no answer to it; and at an end of input what was stored, or that nothing was. So
for a pasted block, for lines that come in parts or are too long for the terminal, under `--number` and `--strict`, with names
that a terminal would obey, and where the run stops or the feed cannot be stored. Without a terminal on both, and for other
subcommands, there is no prompt and no such line, and `help` is a command like any other.
"""
import os
import pathlib
import pty
import select
import signal
import subprocess
import sys
import tempfile
import termios
import time

NOBODY = 65534
PROMPT = "> "
END = "\x04"
STORED = "copydesk: %s is stored\n"
SAME = "copydesk: %s has not changed, and is not stored anew\n"
SOON = 60


def fail(words):
    sys.exit("prompt: " + words)


class Desk:
    """A run at a terminal that shows no echo. `seen` is what stands there, without what was waited for before."""

    def __init__(self, program, folder, words, given=None, answers="terminal", faults="terminal", **others):
        self.ours, theirs = pty.openpty()
        modes = termios.tcgetattr(theirs)
        modes[1] &= ~termios.OPOST
        modes[3] &= ~termios.ECHO
        termios.tcsetattr(theirs, termios.TCSANOW, modes)
        self.theirs = theirs
        self.run = subprocess.Popen(
            [program, *words], cwd=folder, stdin=theirs if given is None else given,
            stdout=theirs if answers == "terminal" else subprocess.PIPE,
            stderr=theirs if faults == "terminal" else subprocess.PIPE, start_new_session=True, **others)
        self.what, self.seen = " ".join(words), ""

    def read(self, seconds):
        """More of what stands on the terminal; False where nothing comes in that time."""
        if not select.select([self.ours], [], [], seconds)[0]:
            return False
        try:
            part = os.read(self.ours, 65536)
        except OSError:  # the other end is closed
            return False
        self.seen += part.decode("utf-8", "replace")
        return bool(part)

    def expect(self, text):
        """Waits until this stands on the terminal, and nothing but this."""
        last = time.time() + SOON
        while self.seen != text and text.startswith(self.seen) and time.time() < last:
            self.read(0.5)
        if self.seen != text:
            self.run.kill()
            fail("%s: on the terminal stands %r, not %r" % (self.what, self.seen, text))
        self.seen = ""

    def type(self, text):
        os.write(self.ours, text.encode())

    def ask(self, line, then):
        """Types a line, and waits for what follows and the next prompt."""
        self.type(line + "\n")
        self.expect(then + PROMPT)

    def has_answered(self, answer):
        """The pipe of standard output has this now, and nothing but this."""
        pipe = self.run.stdout.fileno()
        there = os.read(pipe, 65536).decode() if select.select([pipe], [], [], 0)[0] else ""
        if there != answer:
            self.run.kill()
            fail("%s: at a prompt the answers had %r, not %r" % (self.what, there, answer))

    def set_parts(self, parts):
        """Whether a read may take what was typed of a line so far."""
        modes = termios.tcgetattr(self.theirs)
        modes[3] = modes[3] & ~termios.ICANON if parts else modes[3] | termios.ICANON
        termios.tcsetattr(self.theirs, termios.TCSANOW, modes)

    def end(self, then, status=0, answers="", faults=""):
        """Waits for the end of the run: what then stands on the terminal, the status and what the pipes had."""
        last = time.time() + SOON
        while self.run.poll() is None and time.time() < last:
            self.read(0.05)
        if self.run.poll() is None:
            self.run.kill()
            fail("%s: it does not end; on the terminal stands %r" % (self.what, self.seen))
        while self.read(0):
            pass
        written, told = self.run.communicate()
        os.close(self.ours)
        os.close(self.theirs)
        got = (self.run.returncode, self.seen, (written or b"").decode(), (told or b"").decode())
        if got != (status, then, answers, faults):
            fail("%s: %r, not %r" % (self.what, got, (status, then, answers, faults)))


def bytes_of(folder, name):
    return (pathlib.Path(folder) / name).read_bytes()


def listed(program):
    """What a line `help` is answered: the list of the commands as the help of `script` has it, and how they end."""
    text = subprocess.run([program, "script", "--help"], capture_output=True, text=True, check=True).stdout
    start, stop = text.index("Each line is a command"), text.index("the answers written together.")
    lines = text[start:stop] + "the answers written together.\n\nCtrl-D ends the commands. Once all are answered the feed is stored.\n"
    for name in ("site S", "insert S I SYMBOLS", "cast S CASE WEDGE"):
        if "\n  " + name not in lines:
            fail("`script --help` does not list %s" % name)
    return lines


def conversation(program, folder, lines):
    """All three streams at a terminal: prompts, help, the end after changes and after none."""
    desk = Desk(program, folder, ["desk", "a.feed", "--site", "1"])
    desk.expect("copydesk: a.feed is new\n" + PROMPT)
    desk.ask('insert 1 0 r"ab"', "ok 1.1..2.1\n")
    for line in ("help", " help ", "\thelp", "help \t "):
        desk.ask(line, lines)
    for line in ("helper", "help me", "Help", "hel p", "help.", "", "  "):
        desk.ask(line, "refused command\n")
    desk.ask("help", lines)
    desk.ask("show 1", 'copy r"ab"\n')
    desk.type(END)
    desk.end("\n" + STORED % "a.feed")
    desk = Desk(program, folder, ["desk", "a.feed", "--site", "1"])
    before = os.stat(os.path.join(folder, "a.feed"))
    desk.expect(PROMPT)
    desk.ask("show 1", 'copy r"ab"\n')
    desk.ask("delete 1 5", "refused place\n")
    desk.type(END)
    desk.end("\n" + SAME % "a.feed")
    after = os.stat(os.path.join(folder, "a.feed"))
    if (before.st_ino, before.st_mtime_ns) != (after.st_ino, after.st_mtime_ns):
        fail("an unchanged feed was stored")
    desk = Desk(program, folder, ["desk", "empty.feed", "--site", "1"])
    desk.expect("copydesk: empty.feed is new\n" + PROMPT)
    desk.type(END)
    desk.end("\n" + STORED % "empty.feed")
    if bytes_of(folder, "empty.feed") != b"MFD2":
        fail("an empty feed was not stored")


def answers_apart(program, folder, lines):
    """Standard output is a pipe: it has the answers alone, each by the time of the next prompt."""
    desk = Desk(program, folder, ["desk", "pipe.feed", "--site", "1"], answers="pipe")
    desk.expect("copydesk: pipe.feed is new\n" + PROMPT)
    for line, then, answer in (('insert 1 0 r"ab"', "", "ok 1.1..2.1\n"), ("help", lines, ""), ("show 1", "", 'copy r"ab"\n')):
        desk.ask(line, then)
        desk.has_answered(answer)
    desk.type("delete 1 0" + END)
    time.sleep(0.3)
    desk.type(END)
    desk.end("\n" + STORED % "pipe.feed", answers="ok 3.1\n")


def pasted(program, folder, lines):
    """Several lines at once: each has its prompt, after the answer of the one above."""
    desk = Desk(program, folder, ["desk", "pasted.feed", "--site", "1"])
    desk.expect("copydesk: pasted.feed is new\n" + PROMPT)
    block = ['insert 1 %d r"x"' % k for k in range(40)]
    desk.type("\n".join(block + ["help", "show 1"]) + "\n")
    told = "".join("ok %d.1\n" % (k + 1) + PROMPT for k in range(40))
    desk.expect(told + lines + PROMPT + 'copy r"%s"\n' % ("x" * 40) + PROMPT)
    desk.type(END)
    desk.end("\n" + STORED % "pasted.feed")


def parts(program, folder, lines):
    """Lines that come in parts, and one that is longer than a terminal keeps."""
    desk = Desk(program, folder, ["desk", "parts.feed", "--site", "1"])
    desk.expect("copydesk: parts.feed is new\n" + PROMPT)
    # without the end of a line Ctrl-D hands on what was typed so far, and no prompt follows
    for part in ("insert 1 0 ", 'r"a'):
        desk.type(part + END)
        time.sleep(0.3)
        desk.expect("")
    desk.ask('b"', "ok 1.1..2.1\n")
    desk.type("x" + END)
    time.sleep(0.3)
    desk.ask("help", "refused command\n")
    desk.type(" help " + END)
    time.sleep(0.3)
    desk.ask("", "refused command\n")
    desk.ask("help", lines)
    # a terminal keeps 4,095 bytes of a line and its end
    desk.ask("insert 1 0 r\"%s\"" % ("y" * 5000), "refused command\n")
    desk.ask("insert 1 0 r\"%s\"" % ("y" * 3000), "ok 3.1..3002.1\n")
    desk.set_parts(True)
    long = "insert 1 0 r\"%s\"" % ("z" * 6000)
    for at in range(0, len(long), 1000):
        desk.type(long[at:at + 1000])
        time.sleep(0.1)
        desk.expect("")
    desk.ask("", "ok 3003.1..9002.1\n")
    desk.set_parts(False)
    # a desk that was stopped for a while goes on to wait
    desk.run.send_signal(signal.SIGSTOP)
    desk.run.send_signal(signal.SIGCONT)
    desk.ask("show 2", "refused site\n")
    # an end of input without the end of a line: the line counts
    desk.type("delete 1 0" + END)
    time.sleep(0.3)
    desk.type(END)
    desk.end("\nok 9003.1\n" + STORED % "parts.feed")


def sheets(program, folder, lines):
    """Under `--number` and `--strict` the answers come together, once the commands have ended."""
    for name, manner, told in (("n.feed", ["--number"], "1 ok 1.1\n2 ok 2.1\n"), ("s.feed", ["--strict"], "ok 1.1\nok 2.1\n")):
        desk = Desk(program, folder, ["desk", name, "--site", "1", *manner])
        desk.expect("copydesk: %s is new\n" % name + PROMPT)
        desk.ask('insert 1 0 r"a"', "")
        desk.ask(" help", lines)
        desk.ask('insert 1 1 r"b"', "")
        desk.type(END)
        desk.end("\n" + told + STORED % name)
        desk = Desk(program, folder, ["desk", name, "--site", "1", *manner])
        desk.expect(PROMPT)
        desk.type(END)
        desk.end("\n" + SAME % name)
    before = bytes_of(folder, "s.feed")
    desk = Desk(program, folder, ["desk", "s.feed", "--site", "1", "--strict"])
    desk.expect(PROMPT)
    desk.ask('insert 1 0 r"c"', "")
    desk.ask("helper", "")
    desk.type(END)
    desk.end("\nok 3.1\nrefused command\ncopydesk: line 2 refused\nstandard input: the answer to line 2 says why; s.feed is as it was\n", 1)
    if bytes_of(folder, "s.feed") != before:
        fail("a sheet that stopped was stored")


def stops(program, folder):
    """A run that stops says why, as it does elsewhere, and nothing of what was stored."""
    words = ["desk", "a.feed", "--site", "0"]
    told = subprocess.run([program, *words], stdin=subprocess.DEVNULL, capture_output=True, text=True, check=False).stderr
    if not told.startswith("error: "):
        fail("site 0: %r" % told)
    Desk(program, folder, words).end(told, 2)
    desk = Desk(program, folder, ["desk", "nowhere/a.feed", "--site", "1"])
    desk.end("copydesk: file fault\nnowhere/a.feed.lock: it cannot be opened: No such file or directory (os error 2)\n", 1)
    os.mkdir(os.path.join(folder, "shut"))
    os.chmod(folder, 0o755)
    others = {"user": NOBODY, "group": NOBODY, "extra_groups": []} if os.geteuid() == 0 else {}
    os.chmod(os.path.join(folder, "shut"), 0o555)
    desk = Desk(program, folder, ["desk", "shut/a.feed", "--site", "1"], **others)
    desk.end("copydesk: file fault\nshut/a.feed.lock: it cannot be opened: Permission denied (os error 13)\n", 1)
    os.chmod(os.path.join(folder, "shut"), 0o755)
    # another desk has it
    first = Desk(program, folder, ["desk", "a.feed", "--site", "1"])
    first.expect(PROMPT)
    second = Desk(program, folder, ["desk", "a.feed", "--site", "2"])
    second.end("copydesk: file fault\na.feed: another desk has it open\n", 1)
    # it cannot be stored in the end
    before = bytes_of(folder, "a.feed")
    first.ask('insert 1 0 r"z"', "ok 3.1\n")
    os.mkdir(os.path.join(folder, "a.feed.new"))
    first.type(END)
    first.end("\ncopydesk: file fault\na.feed.new: it cannot be written: Is a directory (os error 21)\n", 1)
    os.rmdir(os.path.join(folder, "a.feed.new"))
    if bytes_of(folder, "a.feed") != before:
        fail("a feed that could not be stored has changed")
    # nobody takes the answers
    desk = Desk(program, folder, ["desk", "a.feed", "--site", "1"], answers="pipe")
    desk.expect(PROMPT)
    desk.run.stdout.close()
    desk.run.stdout = None
    desk.type('insert 1 0 r"z"\n')
    desk.end("copydesk: write fault\nstandard output: it cannot be written\n", 1)
    if bytes_of(folder, "a.feed") != before:
        fail("a desk without answers has stored")
    # Ctrl-C: nothing is stored, and nothing said
    desk = Desk(program, folder, ["desk", "a.feed", "--site", "1"])
    desk.expect(PROMPT)
    desk.ask('insert 1 0 r"z"', "ok 3.1\n")
    desk.run.send_signal(signal.SIGINT)
    desk.end("", -signal.SIGINT)
    if bytes_of(folder, "a.feed") != before:
        fail("an interrupted desk has stored")


def names(program, folder):
    """A name is shown as a terminal obeys nothing of it."""
    name, shown = "a\x1b[31m\u202e.feed", "a\\x1b[31m<U+202E>.feed"
    desk = Desk(program, folder, ["desk", name, "--site", "1"])
    desk.expect("copydesk: %s is new\n" % shown + PROMPT)
    desk.ask('insert 1 0 r"a"', "ok 1.1\n")
    desk.type(END)
    desk.end("\n" + STORED % shown)
    desk = Desk(program, folder, ["desk", name, "--site", "1"])
    desk.expect(PROMPT)
    desk.type(END)
    desk.end("\n" + SAME % shown)


def elsewhere(program, folder):
    """No prompt where one of the two streams is no terminal, nor in another subcommand."""
    commands = os.path.join(folder, "commands")
    pathlib.Path(commands).write_text('help\ninsert 1 0 r"a"\n', encoding="utf-8")
    answers = "refused command\nok %d.1\n"
    words = ["desk", "e.feed", "--site", "1"]
    with open(commands, "rb") as given:
        Desk(program, folder, words, given=given).end("copydesk: e.feed is new\n" + answers % 1)
    first, then = os.pipe()
    os.write(then, b'help\ninsert 1 0 r"a"\n')
    os.close(then)
    Desk(program, folder, words, given=first).end(answers % 2)
    os.close(first)
    desk = Desk(program, folder, words, faults="pipe")
    desk.type('help\ninsert 1 0 r"a"\n' + END)
    desk.end(answers % 3)
    desk = Desk(program, folder, [*words, "--strict"], faults="pipe")
    desk.type('insert 1 0 r"a"\nhelp\n' + END)
    desk.end("ok 4.1\nrefused command\n", 1, faults="copydesk: line 2 refused\n")
    desk = Desk(program, folder, ["script"])
    desk.type("help\nsite 1\n" + END)
    desk.end("refused command\nok\n")
    desk = Desk(program, folder, ["import", "e.feed", "--site", "1", "--all"])
    desk.type("help\n" + END)
    desk.end("ok inserted 5 deleted 3\n")
    Desk(program, folder, ["export", "e.feed"]).end("help\n")
    told = subprocess.run([program, "desk", "--help"], capture_output=True, text=True, check=True).stdout
    Desk(program, folder, ["desk", "--help"]).end(told)


def main(words):
    if len(words) != 1:
        print(__doc__, file=sys.stderr)
        return 2
    program = os.path.realpath(words[0])
    lines = listed(program)
    with tempfile.TemporaryDirectory(prefix="prompt-") as folder:
        conversation(program, folder, lines)
        answers_apart(program, folder, lines)
        pasted(program, folder, lines)
        parts(program, folder, lines)
        sheets(program, folder, lines)
        stops(program, folder)
        names(program, folder)
        elsewhere(program, folder)
    print("prompt: as it must be")
    return 0


if __name__ == "__main__":
    sys.exit(main(sys.argv[1:]))
