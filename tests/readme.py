#!/usr/bin/env python3
"""Runs the blocks of README.md and docs/GUIDE.md, and fails where one says what the program does not: readme.py [PROGRAM]

What is checked is named by the words behind a block's back quotes:

  console      a session in a copy of examples/, one for each page: lines that begin with `$ ` are commands (`> ` goes
               on with one), and the other lines are what they write
  text script  commands, and beside each, two spaces or more away, its answer
  text letter  the same, of commands and answers that stand in examples/letter.script and letter.answers, in their order
  text day     lines that stand in examples/day.answers, one after the other
  rust NAME    lines that stand in the program crates/NAME, one after the other
  toml NAME    lines that stand in examples/NAME, one after the other
  sh           in README.md the two commands that do all the setting up: the main job and the tests; in the guide the line
               that makes the copy of examples/, which is run with another folder, and the lines that tests/git.sh runs

In what is written a line may end in `..`, where more follows, and a line `..` stands for any lines. Links to files of
the repository must lead to one, and to a head of it where they name one, README.md has at most 1,500 words and names the kit that is here, and docs/FORMATS.md
names each subcommand and option that the help has, and no other.
"""
import os
import re
import shutil
import subprocess
import sys
import tempfile

ROOT = os.path.dirname(os.path.dirname(os.path.abspath(__file__)))
PAGES = ("README.md", "docs/GUIDE.md")
KINDS = ("console", "text script", "text letter", "text day", "sh")
WORDS = 1500


def text_of(name):
    with open(os.path.join(ROOT, name), encoding="utf-8") as file:
        return file.read()


def lines_of(name):
    return text_of(os.path.join("examples", name)).split("\n")[:-1]


def blocks(text):
    """Each block's kind, the number of its first line, and its lines."""
    out, kind, begun, lines = [], None, 0, []
    for number, line in enumerate(text.split("\n"), 1):
        if not line.startswith("```"):
            lines.append(line)
        elif kind is None:
            kind, begun, lines = line[3:].strip(), number + 1, []
        else:
            out.append((kind, begun, lines))
            kind, lines = None, []
    return out


def is_as(said, line):
    return line.startswith(said[:-2].rstrip()) if said.endswith("..") else said == line


def agree(said, written):
    """Whether lines are as a page says them, where a line `..` stands for any."""
    if not said:
        return not written
    if said[0] == "..":
        return any(agree(said[1:], written[k:]) for k in range(len(written) + 1))
    return bool(written) and is_as(said[0], written[0]) and agree(said[1:], written[1:])


def run(words, folder, program, text=None):
    path = os.path.dirname(program) + os.pathsep + os.environ["PATH"]
    done = subprocess.run(words, cwd=folder, input=text, stdout=subprocess.PIPE, stderr=subprocess.STDOUT,
                          env=dict(os.environ, PATH=path), encoding="utf-8", timeout=120)
    return done.stdout.split("\n")[:-1]


def session(lines, folder, program):
    steps = []
    for line in lines:
        if line.startswith("$ "):
            steps.append((line[2:], []))
        elif line.startswith("> ") and steps and not steps[-1][1]:
            steps[-1] = (steps[-1][0] + "\n" + line[2:], [])
        elif steps:
            steps[-1][1].append(line)
        else:
            return "no command stands before %s" % line
    for command, said in steps:
        written = run(["bash", "-c", command], folder, program)
        if not agree(said, written):
            return "after `%s` the program writes\n%s" % (command, "\n".join(written))
    return None


def columns(lines):
    return [re.split(r" {2,}", line, maxsplit=1) for line in lines if line.strip()]


def script(lines, folder, program):
    pairs = columns(lines)
    written = run([program, "script"], folder, program, "".join(pair[0] + "\n" for pair in pairs))
    if any(len(pair) != 2 for pair in pairs) or not agree([pair[1] for pair in pairs], written):
        return "the answers are\n%s" % "\n".join(written)
    return None


def letter(lines):
    real, at = list(zip(lines_of("letter.script"), lines_of("letter.answers"))), 0
    for pair in columns(lines):
        if pair == [".."]:
            continue
        while at < len(real) and not (len(pair) == 2 and is_as(pair[0], real[at][0]) and is_as(pair[1], real[at][1])):
            at += 1
        if at == len(real):
            return "the letter has no such pair here: %s" % "  ".join(pair)
        at += 1
    return None


def day(lines):
    real = lines_of("day.answers")
    if not any(agree(lines, real[k:k + len(lines)]) for k in range(len(real))):
        return "these lines do not stand in day.answers"
    return None


def stands_in(lines, name):
    real = text_of(name).split("\n")
    if not any(lines == real[k:k + len(lines)] for k in range(len(real))):
        return "these lines do not stand in %s" % name
    return None


def copied(lines):
    """The guide's line that makes a copy of examples/ and goes there, in another folder than the one that it names."""
    with tempfile.TemporaryDirectory() as folder:
        room = os.path.join(folder, "room")
        done = subprocess.run(["bash", "-c", "\n".join(lines).replace("/tmp/room", room) + "\npwd && LC_ALL=C ls"], cwd=ROOT, stdout=subprocess.PIPE, encoding="utf-8")
        if done.stdout.split("\n")[:-1] != [room] + sorted(os.listdir(os.path.join(ROOT, "examples"))):
            return "it makes no copy of examples"
    return None


def fault_of(kind, lines, folder, program):
    if kind.startswith("rust "):
        return stands_in(lines, "crates/%s/src/main.rt" % kind[5:])
    if kind.startswith("toml "):
        return stands_in(lines, "examples/" + kind[5:])
    if kind == "sh":
        return copied(lines)
    if kind == "console":
        return session(lines, folder, program)
    if kind == "text script":
        return script(lines, folder, program)
    return letter(lines) if kind == "text letter" else day(lines)


def heads_of(text):
    """The names by which a link leads to the heads of a page."""
    return {re.sub(r"[^\w -]", "", head.lower()).replace(" ", "-") for head in re.findall(r"(?m)^#+ (.*)$", text)}


def links(page, text):
    """The links of a page that lead nowhere."""
    for target, head in re.findall(r"\]\(([^)#:]*)(?:#([^)]*))?\)", text):
        path = os.path.normpath(os.path.join(os.path.dirname(page), target)) if target else page
        if not os.path.exists(os.path.join(ROOT, path)):
            yield "%s: no file %s" % (page, target)
        elif head and head not in heads_of(text_of(path)):
            yield "%s: %s has no head #%s" % (page, path, head)


def options(program):
    """The subcommands of the help, and of each its options."""
    told = run([program, "--help"], ROOT, program)
    names = [line.split()[0] for line in told[told.index("Commands:") + 1:told.index("Options:") - 1] if line.split()[:1] != ["help"]]
    return {name: set(re.findall(r"(?m)^ +(?:-\w, )?(--\w+)", "\n".join(run([program, name, "--help"], ROOT, program)))) - {"--help"} for name in names}


def unlike_the_help(program):
    """What FORMATS has and the help has not, or the other way."""
    text, known = text_of("docs/FORMATS.md"), options(program)
    named = set(re.findall(r"(--[a-z]+)", text))
    for name, flags in known.items():
        if not re.search(r"`copydesk %s\b" % name, text):
            yield "docs/FORMATS.md: no `copydesk %s`" % name
        yield from ("docs/FORMATS.md: no %s of %s" % (flag, name) for flag in sorted(flags - named))
    yield from ("docs/FORMATS.md: %s is no option" % flag for flag in sorted(named - set().union(*known.values())))


def main():
    default = os.path.join(ROOT, "crates", "copydesk", "out", "copydesk")
    program, faults, checked = os.path.realpath(sys.argv[1] if len(sys.argv) > 1 else default), [], 0
    for page in PAGES:
        text = text_of(page)
        faults += links(page, text)
        with tempfile.TemporaryDirectory() as folder:
            shutil.copytree(os.path.join(ROOT, "examples"), folder, dirs_exist_ok=True)
            for kind, number, lines in blocks(text):
                if kind.startswith(("rust ", "toml ")) or kind in KINDS and (kind != "sh" or lines[0].startswith("cp -r examples ")):
                    fault = fault_of(kind, lines, folder, program)
                    faults += ["%s:%d: %s" % (page, number, fault)] if fault else []
                    checked += 1
    faults += unlike_the_help(program)
    readme = text_of("README.md")
    if [kind for kind, _, _ in blocks(readme)].count("sh") != 2 or "bash .ci/run" not in readme:
        faults.append("README.md: the two commands, the main job and the tests, are not there")
    kit = re.search(r"`rt version` begins with `([^`]+)`", readme)
    if not kit or not run(["rt", "version"], ROOT, program)[0].startswith(kit[1]):
        faults.append("README.md: it does not name the kit that is here")
    words = sum(any(c.isalnum() for c in word) for word in readme.split())
    if words > WORDS:
        faults.append("README.md has %d words, of at most %d" % (words, WORDS))
    for name in sorted(os.listdir(os.path.join(ROOT, "docs"))):
        if name.endswith(".md"):
            faults += links("docs/" + name, text_of("docs/" + name))
    for fault in faults:
        print(fault, file=sys.stderr)
    print("%d blocks of %s checked, %d faults" % (checked, " and ".join(PAGES), len(faults)))
    return 1 if faults else 0


if __name__ == "__main__":
    sys.exit(main())
