#!/usr/bin/env python3
"""Makes the manual page and the shell completions of copydesk from what its help says: manual.py PROGRAM FOLDER

It runs `PROGRAM --help`, `PROGRAM --version`, and `PROGRAM SUBCOMMAND --help` for each subcommand, and writes into FOLDER
`copydesk.1`, and `copydesk.bash`, `_copydesk` (zsh) and `copydesk.fish`. All that they have is from the help. It then prints
where each goes. tests/manual.py checks them.
"""
import os
import re
import subprocess
import sys

NAME = "copydesk"
HEADS = ("Commands:", "Arguments:", "Options:")
# Where each file goes, for one user.
PLACES = ((NAME + ".1", "~/.local/share/man/man1; or read it by `man -l`"),
          (NAME + ".bash", "~/.local/share/bash-completion/completions/" + NAME),
          ("_" + NAME, "a folder of zsh's $fpath"), (NAME + ".fish", "~/.config/fish/completions"))
# What the value of an option is, where it is no file.
NO_FILE = ("SITE", "SET", "PAGE")


def told(program, *words):
    done = subprocess.run([program, *words], stdout=subprocess.PIPE, check=True, encoding="utf-8")
    return done.stdout.rstrip("\n")


def entries(lines):
    """The rows of a part of the help: the words, two spaces or more, and what they are; or that on the next line."""
    out = []
    for line in lines:
        words, _, text = line.strip().partition("  ")
        if re.match(r" {2,6}\S", line) and (text or not out or out[-1][1] or words.startswith("-")):
            out.append([words, text.strip()])
        elif line.strip():
            out[-1][1] = (out[-1][1] + " " + line.strip()).strip()
    return [tuple(it) for it in out]


class Page:
    """What the help of the program or of a subcommand says, by its parts."""

    def __init__(self, text):
        lines = text.split("\n")
        first = next(k for k, line in enumerate(lines) if line.startswith("Usage:"))
        self.about, self.usage = " ".join(lines[:first]).strip(), lines[first].partition(":")[2].strip()
        self.parts, self.behind, head = {it: [] for it in HEADS}, [], None
        for line in lines[first + 1:]:
            if line in HEADS:
                head = line
            elif head and (line.startswith("  ") or not line and head != HEADS[-1]):
                self.parts[head].append(line)
            elif line or self.behind:
                head = None
                self.behind.append(line)
        self.commands, self.arguments, self.options = (entries(self.parts[it]) for it in HEADS)

    def flags(self):
        """Each option: its names, its value or nothing, what it does."""
        for words, text in self.options:
            names = re.findall(r"(?<![\w-])--?[a-z]+", words)
            value = re.search(r"<(\w+)>", words)
            yield names, value[1].upper() if value else None, text


def pages(program):
    """The page of the program, and of each subcommand, by its name."""
    whole = Page(told(program, "--help"))
    names = [words for words, _ in whole.commands if words != "help"]
    return whole, {name: Page(told(program, name, "--help")) for name in names}


# The manual page.

def roff(text):
    """A text as roff reads it: a backslash and a hyphen as they are, and no request at the begin of a line."""
    text = text.replace("\\", "\\e").replace("-", "\\-").replace("'", "\\(aq").replace("`", "\\(ga")
    return re.sub(r"(?m)^\.", r"\\&.", text)


def as_it_is(lines):
    """Lines that keep their ends."""
    return [".nf", *(roff(line) or ".sp" for line in lines), ".fi"]


def behind(lines):
    """What is behind the options: paragraphs of indented lines keep their ends, others are filled."""
    out = []
    for part in re.split(r"\n{2,}", "\n".join(lines).strip()):
        keeps = any(line.startswith("  ") for line in part.split("\n"))
        out += [".PP"] + (as_it_is(part.split("\n")) if keeps else [roff(line) for line in part.split("\n")])
    return out


def rows(parts):
    out = []
    for words, text in parts:
        out += [".TP", "\\fB%s\\fR" % roff(words), roff(text or words)]
    return out


def manual(version, whole, each):
    out = ['.TH COPYDESK 1 "" "%s"' % roff(version), ".SH NAME", "%s \\- %s" % (NAME, roff(whole.about.rstrip("."))),
           ".SH SYNOPSIS", "\\fB%s\\fR" % roff(whole.usage), ".SH DESCRIPTION", *behind(whole.behind),
           ".SH OPTIONS", *rows(whole.options), ".SH SUBCOMMANDS"]
    for name, page in each.items():
        out += [".SS %s" % name, roff(page.about), ".PP", "\\fB%s\\fR" % roff(page.usage),
                *rows(page.arguments), *rows(page.options), *behind(page.behind)]
    return "\n".join(out) + "\n"


# The completions.

def quoted(text):
    """A text inside of single quotes of a shell."""
    return text.replace("'", "'\\''")


def bash(whole, each):
    out = ["# Completion of %s for bash, made of its help." % NAME, "_%s() {" % NAME,
           '    local word=${COMP_WORDS[COMP_CWORD]} before=${COMP_WORDS[COMP_CWORD - 1]} sub=${COMP_WORDS[1]-} words=',
           '    COMPREPLY=()', '    if [ "$COMP_CWORD" -le 1 ]; then',
           "        words='%s %s'" % (" ".join(each), " ".join(name for names, _, _ in whole.flags() for name in names)),
           "        mapfile -t COMPREPLY < <(compgen -W \"$words\" -- \"$word\")", "        return", "    fi",
           '    case "$sub $before" in']
    closed = ["'%s '%s" % (name, flag) for name, page in each.items() for names, value, _ in page.flags() if value in NO_FILE for flag in names]
    if closed:
        out += ["        %s) return;;" % "|".join("'%s'" % it.replace("'", "") for it in closed)]
    out += ["    esac", '    case "$sub" in']
    for name, page in each.items():
        out.append("        %s) words='%s';;" % (name, " ".join(flag for names, _, _ in page.flags() for flag in names)))
    out += ["    esac", '    case "$word" in',
            '        -*) mapfile -t COMPREPLY < <(compgen -W "$words" -- "$word");;',
            '        *) compopt -o filenames 2> /dev/null || true',
            '           mapfile -t COMPREPLY < <(compgen -f -- "$word");;',
            "    esac", "}", "complete -F _%s %s" % (NAME, NAME)]
    return "\n".join(out) + "\n"


def zsh_text(text):
    return quoted(text.replace("\\", "\\\\").replace("[", "\\[").replace("]", "\\]").replace(":", "\\:"))


def zsh(whole, each):
    out = ["#compdef %s" % NAME, "# Completion of %s for zsh, made of its help." % NAME, "local -a subcommands", "subcommands=("]
    out += ["    '%s:%s'" % (name, zsh_text(page.about)) for name, page in each.items()] + [")"]
    out += ["if (( CURRENT == 2 )); then", "    _describe -t commands subcommand subcommands"]
    out += ["    compadd -- %s" % " ".join(name for names, _, _ in whole.flags() for name in names), "    return", "fi",
            'case "$words[2]" in']
    for name, page in each.items():
        specs = []
        for names, value, text in page.flags():
            action = ":%s:%s" % (value.lower(), "" if value in NO_FILE else "_files") if value else ""
            specs += ["'*%s[%s]%s'" % (flag, zsh_text(text), action) for flag in names]
        out += ["    %s)" % name, "        _arguments \\"] + ["            %s \\" % it for it in specs] + ["            '*:file:_files';;"]
    return "\n".join(out + ["esac"]) + "\n"


def fish(whole, each):
    out = ["# Completion of %s for fish, made of its help." % NAME]
    for names, _, text in whole.flags():
        out.append("complete -c %s -n __fish_use_subcommand %s -d '%s'" % (NAME, letters(names), fish_text(text)))
    for name, page in each.items():
        out.append("complete -c %s -n __fish_use_subcommand -f -a %s -d '%s'" % (NAME, name, fish_text(page.about)))
        for names, value, text in page.flags():
            more = ("-x " if value in NO_FILE else "-r ") if value else ""
            out.append("complete -c %s -n '__fish_seen_subcommand_from %s' %s %s-d '%s'" % (NAME, name, letters(names), more, fish_text(text)))
    return "\n".join(out) + "\n"


def letters(names):
    return " ".join("-l %s" % it[2:] if it.startswith("--") else "-s %s" % it[1:] for it in names)


def fish_text(text):
    return text.replace("\\", "\\\\").replace("'", "\\'")


def main(words):
    if len(words) != 2:
        print(__doc__, file=sys.stderr)
        return 2
    program, folder = os.path.realpath(words[0]), words[1]
    whole, each = pages(program)
    made = {NAME + ".1": manual(told(program, "--version"), whole, each), NAME + ".bash": bash(whole, each),
            "_" + NAME: zsh(whole, each), NAME + ".fish": fish(whole, each)}
    os.makedirs(folder, exist_ok=True)
    for name, text in made.items():
        with open(os.path.join(folder, name), "w", encoding="utf-8") as file:
            file.write(text)
    for name, place in PLACES:
        print("%s goes to %s" % (os.path.join(folder, name), place))
    return 0


if __name__ == "__main__":
    sys.exit(main(sys.argv[1:]))
