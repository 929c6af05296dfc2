#!/usr/bin/env python3
"""Checks the manual page and the shell completions that bench/manual.py makes of the program's help: manual.py [PROGRAM]

Each subcommand and each of its options must be in all four files, in the part of that subcommand. groff, where it is there,
must read the page without a warning. bash must read its file, and complete a subcommand, an option and a file by it. So must
zsh and fish, where they are there.
"""
import os
import re
import shutil
import subprocess
import sys
import tempfile

ROOT = os.path.dirname(os.path.dirname(os.path.abspath(__file__)))
sys.dont_write_bytecode = True
sys.path.insert(0, os.path.join(ROOT, "bench"))
import manual


def text_of(*path):
    with open(os.path.join(*path), encoding="utf-8") as file:
        return file.read()


def said(words, folder, text=None):
    done = subprocess.run(words, cwd=folder, input=text, stdout=subprocess.PIPE, stderr=subprocess.STDOUT, encoding="utf-8")
    return done.returncode, done.stdout


def helps(program):
    """The subcommands, and of each the options, as a plain search finds them in the help."""
    told = subprocess.run([program, "--help"], stdout=subprocess.PIPE, check=True, encoding="utf-8").stdout
    names = [it for it in re.findall(r"(?m)^  (\w+)(?:  .*)?$", told.partition("Commands:\n")[2].partition("Options:\n")[0]) if it != "help"]
    for name in names:
        page = subprocess.run([program, name, "--help"], stdout=subprocess.PIPE, check=True, encoding="utf-8").stdout
        yield name, re.findall(r"(?m)^ +(?:-\w, )?(--[a-z]+)", page.partition("Options:\n")[2].partition("\n\n")[0])


def lacks(folder, program):
    """What a file has not, in the part of the subcommand."""
    page, bash, zsh, fish = (text_of(folder, it) for it in ("copydesk.1", "copydesk.bash", "_copydesk", "copydesk.fish"))
    count = 0
    for name, options in helps(program):
        count += 1
        parts = {"copydesk.1": re.sub(r"\\f[BR]", "", page.partition(".SS %s\n" % name)[2].partition(".SS ")[0]).replace("\\-", "-"),
                 "copydesk.bash": "".join(re.findall(r"(?m)^ +%s\) words='(.*)';;$" % name, bash)),
                 "_copydesk": zsh.partition("    %s)\n" % name)[2].partition(";;")[0],
                 "copydesk.fish": "\n".join(re.findall(r"(?m)^complete .*(?:-a %s |_from %s').*$" % (name, name), fish))}
        for file, part in parts.items():
            if not part:
                yield "%s has no %s" % (file, name)
            for option in options:
                words = "-l " + option[2:] if file.endswith("fish") else option
                if not re.search(r"(?<![\w-])%s(?![\w-])" % re.escape(words), part):
                    yield "%s has no %s of %s" % (file, option, name)
    if count < 14:
        yield "the help has only %d subcommands" % count


def completed(folder, *words):
    """What bash completes of the last word."""
    code = ". ./copydesk.bash; COMP_WORDS=(copydesk %s); COMP_CWORD=%d; _copydesk; printf '%%s\\n' \"${COMPREPLY[@]}\"" % (
        " ".join("'%s'" % it for it in words), len(words))
    return said(["bash", "--norc", "-c", code], folder)[1].split()


def shells(folder):
    """What the shells and groff say of their files."""
    status, told = said(["bash", "-n", "copydesk.bash"], folder)
    if status:
        yield "bash refuses copydesk.bash: " + told
    for words, wanted in ((["mer"], ["merge"]), (["re"], ["replace", "read", "renumber", "renew"]), (["merge", "--re"], ["--review"]),
                          (["check", "copydesk.f"], ["copydesk.fish"]), (["desk", "one.feed", "--site", ""], [])):
        found = completed(folder, *words)
        if sorted(found) != sorted(wanted):
            yield "bash completes `copydesk %s` to %s" % (" ".join(words), " ".join(found) or "nothing")
    for shell, file in (("zsh", "_copydesk"), ("fish", "copydesk.fish")):
        if shutil.which(shell):
            status, told = said([shell, "-n", file], folder)
            if status:
                yield "%s refuses %s: %s" % (shell, file, told)
    if shutil.which("groff"):
        done = subprocess.run(["groff", "-man", "-Tutf8", "-ww", "copydesk.1"], cwd=folder, stdout=subprocess.PIPE, stderr=subprocess.PIPE, encoding="utf-8")
        if done.returncode or done.stderr:
            yield "groff: " + done.stderr
        shown = re.sub(r"\x1b\[[\d;]*m|.\x08", "", done.stdout)
        if "merge one.feed two.feed three.feed" not in shown or "COPYDESK(1)" not in shown:
            yield "groff does not show the page"


def main():
    default = os.path.join(ROOT, "crates", "copydesk", "out", "copydesk")
    program = os.path.realpath(sys.argv[1] if len(sys.argv) > 1 else default)
    with tempfile.TemporaryDirectory() as folder:
        done = subprocess.run([sys.executable, os.path.join(ROOT, "bench", "manual.py"), program, folder], stdout=subprocess.DEVNULL)
        faults = ["bench/manual.py ended with status %d" % done.returncode] if done.returncode else [*lacks(folder, program), *shells(folder)]
    for fault in faults:
        print(fault, file=sys.stderr)
    print("the manual page and the completions: %d faults" % len(faults))
    return 1 if faults else 0


if __name__ == "__main__":
    sys.exit(main())
