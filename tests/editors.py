#!/usr/bin/env python3
"""What editors make of faults and second looks: editors.py PROGRAM

vim reads what `proof --format gcc --warn` writes of texts, by `errorformat=%f:%l:%v:\\ %m,%f:\\ %m`. Its list must have the file, the
line, the column and the words of each line; and at each it must put the cursor on the symbol concerned, in lines with
characters of one to four bytes, marks and carriage returns. `%v` is a column of the screen, where each of these characters
takes one. That it is the right one is tested too: with `%c`, a column in bytes, the cursor is on another symbol. (A
character that takes two columns of the screen, or none, moves it in either way.)

Where there is no vim that can do so, it is got by apt-get; where it cannot be had, the test says so and passes.
"""
import os
import pathlib
import re
import shutil
import subprocess
import sys
import tempfile

EXAMPLES = pathlib.Path(__file__).resolve().parent.parent / "examples"
METAL = ["--case", "case12.toml", "--wedge", "wedge5.toml"]
FORMAT, BYTES = "%f:%l:%v:\\ %m,%f:\\ %m", "%f:%l:%c:\\ %m,%f:\\ %m"
TEXTS = {
    "notes.txt": "The l\u00e9st sheets \u201care\u201d in the the _galleys_ \u00e9~ again .\r\nSend  word \u0153 by \\_noon\\_, \u2018at\u2019 ^\u00e9^ la- test\r\n"
                 "\u2014 \U0001d510\U0001d510 \u0153uvre \u00ab \"n\" \u00bb a word ,\nthe word\nno word\n\u00fc unabridgeabilityandothersuchwordsunabridgeability\n",
    "my notes.txt": "_\u00e9t\u00e9_ \u00e9t\u00e9 _\u00e9t\u00e9 \u00e9t\u00e9_ - ~\n  \u00e9~",
    "d\u00e9j\u00e0 vu.txt": "\u00bfQu\u00e9? \u2014 ~. \u00c6on  \u00e6on \u00e6on\n",
}
SCRIPT = """set efm=%s
cgetfile faults.out
call writefile(map(getqflist(), 'join([bufname(v:val.bufnr), v:val.lnum, v:val.col, v:val.valid, v:val.text], "\\t")'), "list.out")
let cursors = []
for number in range(1, len(getqflist()))
  exe "cc " . number
  call add(cursors, join([expand("%%"), line("."), strpart(getline("."), col(".") - 1)], "\\t"))
endfor
call writefile(cursors, "cursors.out")
qall!
"""


def fail(words):
    sys.exit("editors: " + words)


def vim():
    """A vim with lists of faults and with scripts, or none."""
    for attempt in range(2):
        for name in ("vim", "vim.basic"):
            path = shutil.which(name)
            told = subprocess.run([path, "--version"], capture_output=True, text=True).stdout if path else ""
            if "+quickfix" in told and "+eval" in told:
                return path
        if attempt == 0 and shutil.which("apt-get"):
            for words in (["update"], ["install", "-y", "--no-install-recommends", "vim"]):
                try:
                    subprocess.run(["apt-get", "-q", *words], stdin=subprocess.DEVNULL, capture_output=True, timeout=300)
                except subprocess.TimeoutExpired:
                    return None
    return None


def lines_of(path):
    return path.read_bytes().decode("utf-8", "replace").split("\n")[:-1]


def seen(path, folder, faults, form):
    """What vim has in its list of these lines by a format, and where the cursor is at each: the file, the line, and the rest of it."""
    (folder / "faults.out").write_bytes(faults)
    (folder / "script.vim").write_text(SCRIPT % form, encoding="utf-8")
    ran = subprocess.run([path, "-es", "-u", "NONE", "-i", "NONE", "-n", "--cmd", "set encoding=utf-8 fileencodings=utf-8 fileformats=unix,dos", "-S", "script.vim"],
                         cwd=folder, stdin=subprocess.DEVNULL, capture_output=True, timeout=60)
    if ran.returncode != 0:
        fail("vim ended with %d: %r" % (ran.returncode, (ran.stdout + ran.stderr)[:400]))
    return [tuple(line.split("\t")) for line in lines_of(folder / "list.out")], [tuple(line.split("\t")) for line in lines_of(folder / "cursors.out")]


def told(faults):
    """Of each line that the program wrote the file, the line and the column, or none of these, and the words."""
    out = []
    for line in faults.decode().split("\n")[:-1]:
        found = re.fullmatch(r"(.*?)(?::(\d+):(\d+))?: (.*)", line)
        out.append((found[1], int(found[2] or 0), int(found[3] or 0), found[4]))
    return out


def held(path, folder, faults):
    """How many lines vim has rightly in its list, and how many cursors are on the right symbols by a format."""
    due = told(faults)
    entries, cursors = seen(path, folder, faults, FORMAT)
    if entries != [(name, str(line), str(column), "1", words) for name, line, column, words in due]:
        fail("the list of vim is %r, and not %r" % (entries, due))
    in_bytes = seen(path, folder, faults, BYTES)[1]
    right = {"screen": 0, "bytes": 0}
    for (name, line, column, words), cursor, other in zip(due, cursors, in_bytes):
        if line == 0:
            continue
        text = (folder / name).read_bytes().decode().split("\n")[line - 1]
        at_symbol = (name, str(line), text[column - 1:])
        if cursor != at_symbol:
            fail("%s:%d:%d: %s: the cursor of vim is at %r, and not at %r" % (name, line, column, words, cursor, at_symbol))
        right["screen"] += 1
        right["bytes"] += other == at_symbol
    return len(due), right


def proof(program, folder, *words):
    ran = subprocess.run([program, "proof", *words, *METAL, "--format", "gcc", "--warn"], cwd=folder, capture_output=True)
    if ran.returncode not in (0, 1) or ran.stderr:
        fail("proof %s: status %d, %r" % (" ".join(words), ran.returncode, ran.stderr[:300]))
    return ran.stdout


def main(words):
    if len(words) != 1:
        print(__doc__, file=sys.stderr)
        return 2
    program, path = os.path.realpath(words[0]), vim()
    if path is None:
        print("editors: there is no vim with lists of faults, and none can be had; nothing was tested")
        return 0
    with tempfile.TemporaryDirectory(prefix="editors-") as room:
        folder, faults = pathlib.Path(room), b""
        for name in ("case12.toml", "wedge5.toml"):
            (folder / name).write_bytes((EXAMPLES / name).read_bytes())
        for name, text in TEXTS.items():
            (folder / name).write_text(text, encoding="utf-8", newline="")
            sets = [word for it in ("measure=90", "tight=40", "loose=60") for word in ("--set", it)]
            faults += proof(program, folder, "--text", name, *sets)
        faults += proof(program, folder, "--text", "notes.txt", "--set", "measure=90")
        subprocess.run([program, "import", "a.feed", "--site", "1"], cwd=folder, input=b"Send.\n", capture_output=True, check=True)
        forked = b"take 2 4d464431010000000000000001000100000000000000000000000000007a\n"
        subprocess.run([program, "desk", "a.feed", "--site", "2"], cwd=folder, input=forked, capture_output=True, check=True)
        faults += proof(program, folder, "a.feed")
        count, right = held(path, folder, faults)
        causes = {re.sub(r" \(.*| for .*|: .*", "", words) for _, _, _, words in told(faults)}
        wanted = {"no matrix", "too loose", "too wide", "forked 1.1", "no galley", "warning"}
        if not wanted <= causes or right["bytes"] == right["screen"]:
            fail("too few kinds of lines: %s, %r" % (", ".join(sorted(causes)), right))
    print("editors: vim has %d lines in its list, and %d cursors on their symbols (by bytes %d)" % (count, right["screen"], right["bytes"]))
    return 0


if __name__ == "__main__":
    sys.exit(main(sys.argv[1:]))
