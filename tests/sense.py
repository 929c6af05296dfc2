#!/usr/bin/env python3
"""A merge makes sense, or says where it does not: sense.py PROGRAM [CASES [SEED]].

Two rooms correct one text in an editor, and their feeds are merged. The same three texts, a word a line, are merged by `diff3`
of diffutils, which knows of no stamps. Where diff3 merges them without a conflict and the program's merged copy is another
text, the program has named an open reading; so where it has named none, the two are one text. Nothing here is taken from the
definition of readings.

Three differences between the two are lawful, and are allowed for:
- diff3 reports a conflict wherever two changes touch. The program parts texts at their spaces and line ends, so two rooms may
  change neighbouring words, each as it meant. Such cases are counted, and of them nothing is asked.
- The program may name a reading where diff3 has none and the texts are one: a person then looks once in vain.
- An import goes by symbols. A word that is left out and another like it that comes further on may be taken as one word that
  was corrected, and then pieces are compared that no person would. So words here are of letters by chance, all different in
  each text, and none is like another: only a mending is like what it mends.
Changes that both rooms have made alike are no conflict to diff3 (`-E`).
"""
import os
import random
import shutil
import string
import subprocess
import sys
import tempfile

SEED = 1887


class Words:
    """Words of which none comes twice."""

    def __init__(self, pick):
        self.pick, self.seen = pick, set()

    def new(self):
        while True:
            word = "".join(self.pick.choice(string.ascii_letters) for _ in range(self.pick.choice([3, 4, 5, 6, 7, 9])))
            if word not in self.seen:
                self.seen.add(word)
                return word

    def mended(self, word):
        """A word with two letters exchanged, or one more, or one fewer, or another."""
        at, letter = self.pick.randrange(len(word) - 1), self.pick.choice(string.ascii_letters)
        made = [word[:at] + word[at + 1] + word[at] + word[at + 2:], word[:at] + letter + word[at:], word[:at] + word[at + 1:], word[:at] + letter + word[at + 1:]]
        made = self.pick.choice(made)
        if made in self.seen:
            return self.new()
        self.seen.add(made)
        return made


def corrected(pick, words, text, mendings):
    """A text, as words each with the space or line end behind it, after some corrections."""
    text = list(text)
    for _ in range(pick.choice([0, 1, 1, 2, 3])):
        at, kind = pick.randrange(len(text)), pick.random()
        end = min(len(text), at + pick.choice([1, 1, 2, 4]))
        if kind < 0.35:  # a word mended; what the other room has made of it may be made here too
            slips = [k for k, (word, _) in enumerate(text) if word in mendings]
            at = pick.choice(slips) if slips and pick.random() < 0.7 else at
            word, white = text[at]
            made = mendings.get(word)
            if made is None or pick.random() < 0.3:
                made = words.mended(word)
                mendings[word] = made
            if all(made != other for other, _ in text):
                text[at] = (made, white)
        elif kind < 0.5:
            text[at:end] = [(words.new(), white) for _, white in text[at:end]]
        elif kind < 0.65:
            text[at:at] = [(words.new(), pick.choice("     \n")) for _ in range(end - at)]
        elif kind < 0.8 and end - at < len(text):
            del text[at:end]
        elif kind < 0.92 and end - at < len(text):
            moved = text[at:end]
            del text[at:end]
            to = pick.randrange(len(text) + 1)
            text[to:to] = moved
        else:
            text[at] = (text[at][0], " " if text[at][1] == "\n" else "\n")
    return text


def case(pick):
    """A text, and what two rooms have made of it, which may begin with one slip that both mend alike."""
    words = Words(pick)
    base = [(words.new(), pick.choice("      \n")) for _ in range(pick.choice([3, 8, 15, 30]))]
    mendings = {word: words.mended(word) for word, _ in pick.sample(base, 1)}
    begun = [(mendings.get(word, word), white) for word, white in base] if pick.random() < 0.2 else base
    return base, corrected(pick, words, begun, mendings), corrected(pick, words, begun, mendings)


def text_of(text):
    return "".join(word + white for word, white in text)


def three_way(folder, base, one, other):
    """What diff3 makes of three texts, or none where it reports a conflict."""
    for name, text in (("one", one), ("base", base), ("other", other)):
        with open(os.path.join(folder, name), "w", encoding="ascii") as file:
            file.write("".join(word + ("|" if white == "\n" else "") + "\n" for word, white in text))
    done = subprocess.run(["diff3", "-m", "-E", "one", "base", "other"], cwd=folder, capture_output=True, text=True, timeout=60)
    if done.returncode not in (0, 1):
        raise SystemExit("sense: diff3 ended with %d: %s" % (done.returncode, done.stderr))
    lines = done.stdout.split("\n")[:-1]
    return None if done.returncode else "".join(line[:-1] + "\n" if line.endswith("|") else line + " " for line in lines)


def run(program, folder, *words, given=""):
    done = subprocess.run([program, *words], cwd=folder, input=given.encode(), capture_output=True, timeout=60)
    if done.returncode != 0:
        raise SystemExit("sense: copydesk %s: status %d, %r" % (" ".join(words), done.returncode, done.stderr))
    return done.stdout.decode()


def merged(program, folder, base, one, other):
    """The merged copy, and what the merge has said."""
    run(program, folder, "import", "a.feed", "--site", "9", given=text_of(base))
    shutil.copy(os.path.join(folder, "a.feed"), os.path.join(folder, "b.feed"))
    run(program, folder, "import", "a.feed", "--site", "1", "--all", given=text_of(one))
    run(program, folder, "import", "b.feed", "--site", "2", "--all", given=text_of(other))
    said = run(program, folder, "merge", "a.feed", "b.feed")
    return run(program, folder, "export", "a.feed"), said


def main():
    program = os.path.abspath(sys.argv[1])
    count, seed = int(sys.argv[2]) if len(sys.argv) > 2 else 300, int(sys.argv[3]) if len(sys.argv) > 3 else SEED
    kinds = {"merged alike": 0, "merged alike, with a reading": 0, "named, where the texts differ": 0, "conflicts, with a reading": 0, "conflicts of neighbours": 0}
    for number in range(count):
        base, one, other = case(random.Random(seed * 1000003 + number))
        with tempfile.TemporaryDirectory() as folder:
            copy, said = merged(program, folder, base, one, other)
            due = three_way(folder, base, one, other)
        opened = "\nopen at " in said
        if due is None:
            kinds["conflicts, with a reading" if opened else "conflicts of neighbours"] += 1
        elif copy == due:
            kinds["merged alike, with a reading" if opened else "merged alike"] += 1
        elif opened:
            kinds["named, where the texts differ"] += 1
        else:
            texts = ["%5s %r" % (name, text) for name, text in (("base", text_of(base)), ("one", text_of(one)), ("other", text_of(other)), ("diff3", due), ("copy", copy))]
            print("sense: case %d of seed %d: no reading is open, and the merged copy is not the merge of the texts\n%s\n%s" % (number, seed, "\n".join(texts), said))
            return 1
    if count >= 300 and min(kinds["merged alike"], kinds["named, where the texts differ"], kinds["conflicts, with a reading"]) < 10:
        print("sense: too few cases of a kind: %s" % kinds)
        return 1
    print("sense: %d texts of two rooms: %s" % (count, ", ".join("%d %s" % (number, kind) for kind, number in kinds.items())))
    return 0


if __name__ == "__main__":
    sys.exit(main())
