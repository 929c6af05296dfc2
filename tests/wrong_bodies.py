#!/usr/bin/env python3
"""Tries wrong bodies, many in one check: the prover must refuse each at its own function.

usage: wrong_bodies.py [--built] [--named] [--anew] [--goals] [--copies] [CRATE ..]
                                                         of every crate that has some, or of those named

A wrong body is a bug written into a function on purpose, a file as of must-fail. A check reads a crate and all that it stands
on before it looks at a goal, and a caller knows of a function what its contract says and no more. So many wrong bodies are put
into one copy of their crate, and only their functions are checked: each must have a goal of its own that is not proved. What
they call is taken by its contract, with a hole for its proof, which `rt ci` has made, and no body. Each wrong body stands in a
copy of its function, with its contract and its proof, right behind it, so that what calls the function has the right one. A
method of a trait has no such copy, nor has a function that calls itself: their wrong bodies stand in their place, and two of
one take two checks. A line `goal: NAME` says by which of its goals it is refused: the answer of its function's proof to that
goal is then tried alone, which says more, and costs a third. Where the proof has none, since the prover finds it by itself,
the line has the words of the answer too, as `goal: NAME g c`: it is answered by `search rules`, or by what an `=` gives. Where
a change is in no function, as of a constant or a law, a line `only: PATH ..` names functions of which one must have such a
goal; it is tried alone. Those of which only names of goals are gone, so that an answer has none, are named at the end. One
that this does not show is tried again alone, the whole crate by the rule of `rt must-fail`: the prover reads the text, and
does not prove it.

`rt ci` tries those of `crates/NAME/must-fail`, and this those of `crates/NAME/wrong-bodies`; with --named both.
With --built the libraries are those that `rt ci` has just proved in this tree, as in the gate; else those that are not built,
or have changed since, are proved first. Lanes: RT_JOBS, or one for each processor as far as there are 4.5 GB for each.
What was refused is kept beside the kit, on this machine alone, by the sum of all that the try read (the kit, the crate and
those below it, the wrong body and this page), as `rt ci` keeps what it proved: a later run tries what changed. --anew tries all.
--goals writes into each wrong body that is refused and has no line `goal:` the goal by which it is.
--copies tries the tool itself, and not in the gate: each function that has a wrong body is copied as it is, and must be proved;
where a wrong body names a goal, the answer to that goal must be, tried alone.
It ends with status 0 where each was refused, else with those that were not. The last line is 'N passed, M failed'.
"""
import concurrent.futures
import functools
import hashlib
import importlib.machinery
import importlib.util
import os
import pathlib
import re
import resource
import shutil
import subprocess
import sys
import tempfile
import time

ROOT = pathlib.Path(__file__).resolve().parent.parent
APART, NAMED = "wrong-bodies", "must-fail"
FN = re.compile(r"^( *)(?:pub(?:\([^)]*\))? )?(?:const )?(?:unsafe )?fn (\w+)", re.M)
TYPE = re.compile(r"^ *(?:pub(?:\([^)]*\))? )?(?:struct|enum) (\w+)", re.M)
OWNER = re.compile(r"^(?:impl|(?:pub )?trait)\b([^{;]*)", re.M)
# How the name of a function's copy ends, before its number.
AGAIN = "_once_more_"
# What is said of an answer whose goal has another name in the wrong body, and of the answers that use it: that the goal is
# gone is a refusal, but no reason why the body is wrong.
GONE = re.compile(r"has no `[^`]*` that can be named from here|has no field|which was rejected, were not checked")
# Where an answer, or what it uses, begins in a file of answers.
ANSWER = re.compile(r"^(?:pub )?(\S+) :(?: |$)")
TACTIC = re.compile(r"^ *#\[tactic\((?:[^\[\]]|\[[^\[\]]*\])*\)\]\n", re.M)
# What a text that the prover cannot read gives rise to.
UNREAD = re.compile(r"is not in scope|has no field|is no name|operand is missing|expected the end|cannot continue")


def kit_folder():
    """Where the kit stands."""
    page = subprocess.run(["rt", "doc"], capture_output=True, text=True, check=True).stdout.strip()
    return os.path.dirname(page)


def kit():
    """The module of the kit that knows the crates and the words of a check."""
    sys.dont_write_bytecode = True
    loader = importlib.machinery.SourceFileLoader("rtlib", kit_folder() + "/bin/rtlib.py")
    made = importlib.util.module_from_spec(importlib.util.spec_from_loader("rtlib", loader))
    sys.modules["rtlib"] = made
    loader.exec_module(made)
    # (a crate's stamp is made of those of all below it, each of which is asked for again on every way down: here each once)
    plain, known = made.Crate.stamp, {}
    made.Crate.stamp = lambda crate: known[crate.folder] if crate.folder in known else known.setdefault(crate.folder, plain(crate))
    made.forget_stamps = known.clear
    return made


def pairs_of(text):
    """The (file, old, new) of a wrong body."""
    out, file, old = [], None, None
    for line in text.split("\n"):
        if line.startswith("file: "):
            file = line[len("file: "):].strip()
        elif line.startswith("old: "):
            old = line[len("old: "):]
        elif line.startswith("new:"):
            out.append((file, old, re.sub(r"\A ", "", line[len("new:"):])))
    return out


def module_of(file):
    """The path of the module that a file of a crate is."""
    module = file[len("src/") : -len(".rt")]
    return [] if module == "lib" else module.split("/")


@functools.lru_cache(maxsize=None)
def homes_of(folder):
    """The modules in which a crate declares each of its types."""
    out = {}
    for path in sorted(pathlib.Path(folder, "src").rglob("*.rt")):
        for found in TYPE.finditer(path.read_text(encoding="utf-8")):
            out.setdefault(found[1], []).append(module_of(str(path.relative_to(folder))))
    return out


class Function:
    """A function of a crate's source file: the path that `--only` takes, how its line in a check begins, and where it stands."""

    def __init__(self, folder, file, text, found):
        self.file, self.name, self.start, self.end = file, found[2], self.first_line(text, found.start()), self.close(text, found)
        self.path, self.shape, self.folder, self.is_method = None, None, None, bool(found[1])
        # (where its proof stands; of a function that may be copied the same as `folder`)
        self.proof = None
        outer = module_of(file)
        if not found[1]:
            self.path = "::".join([*outer, self.name])
            self.shape, self.folder = re.escape(self.path), [*outer, self.name]
            self.proof = self.folder
            return
        owner = [it for it in OWNER.finditer(text) if it.start() <= found.start()]
        if not owner:
            return
        said = re.sub(r"^\s*<[^<>]*(?:<[^<>]*>[^<>]*)*>", "", owner[-1][1])
        if re.match(r"(?:pub )?trait\b", owner[-1][0]):
            kind = re.match(r"\s*(\w+)", said)[1]
            self.path = kind + "::" + self.name
            self.shape = r"(?:\w+::)*%s::%s" % (re.escape(kind), re.escape(self.name))
            return
        trait, _, kind = said.rpartition(" for ")
        kind = re.sub(r"<.*", "", kind, flags=re.S).strip().split("::")[-1].strip()
        if not trait:
            # (such a method stands where its type does, and not where it is written)
            homes = homes_of(folder).get(kind, [outer])
            outer = outer if outer in homes else homes[0]
            self.path = kind + "::" + self.name
            self.shape, self.folder = r"(?:\w+::)*%s::%s" % (re.escape(kind), re.escape(self.name)), [*outer, kind, self.name]
            self.proof = self.folder
            return
        # (rattle's name of an `impl Trait<a::B<T>, (), (C, D)> for Type` is TypeTraitABUnitTuple2CD)
        plain, _, rest = trait.partition("<")
        plain = plain.strip().split("::")[-1]
        if plain == "Drop":
            # (rattle names it as a method of the type; what drops a value stands on its proof, so that is never left open)
            self.path, self.shape = kind + "::" + self.name, r"(?:\w+::)*%s::%s" % (re.escape(kind), re.escape(self.name))
            return
        rest = re.sub(r"\(([^()]+)\)", lambda it: "Tuple%d %s" % (it[1].count(",") + 1, it[1]), rest.replace("()", "Unit"))
        args = [it[0].upper() + it[1:] for it in re.findall(r"\w+", re.sub(r"<[^<>]*>", "", rest))]
        self.path = kind + plain + "".join(args) + "::" + self.name
        if re.fullmatch(r"\w+", kind):
            self.proof = [*outer, kind + plain + "".join(args), self.name]
        self.shape = r"(?:\w+::)*%s::%s" % (re.escape(kind + plain + "".join(args)), re.escape(self.name))

    @staticmethod
    def close(text, found):
        """The place behind a function that begins there, as rustfmt lays it out."""
        close = re.compile(r"^%s(?:\}|\{\}$)" % found[1], re.M)
        end = close.search(text, found.end())
        return end.end() if end else len(text)

    @staticmethod
    def first_line(text, place):
        """Where what is written above a function begins: its attributes and its doc."""
        start = place
        while start:
            before = text.rfind("\n", 0, start - 1) + 1
            line = text[before:start].strip()
            if line == ")]":
                before = text.rfind("\n", 0, text.rfind("#[", 0, start)) + 1
            elif not line.startswith(("///", "#[")):
                break
            start = before
        return start

    def may_stand_twice(self, text):
        """Whether a copy of it is proved as it is: it is no method of a trait, and does not call itself."""
        return self.folder is not None and not self.calls_itself(text)

    def calls_itself(self, text):
        """Whether it may call itself, by itself or through others."""
        head = r"\b(?:self\.|Self::)" if self.is_method else r"(?<![\w.:])"
        code = re.sub(r"^\s*//.*", "", text[self.start : self.end], flags=re.M)
        return "#[cycle(" in code or bool(re.findall(r"(?<!fn )%s%s(?:::<|\()" % (head, self.name), code))

    def named(self, number):
        """The path and the shape of its copy of that number; of the first, which is the function itself, its own."""
        last = AGAIN + str(number) if number > 1 else ""
        return self.path + last, self.shape + last

    def copied_proof(self, room, number):
        """Writes into the folder of a crate the proof of its copy of that number."""
        source = pathlib.Path(room, "proofs", *self.folder)
        name = self.name + AGAIN + str(number)
        own = re.compile(r"(\.proofs\.%s)\b(?!\w)" % re.escape(".".join(self.folder)))
        for path in sorted(source.rglob("*.antt")):
            target = source.with_name(name) / path.relative_to(source)
            target.parent.mkdir(parents=True, exist_ok=True)
            target.write_text(own.sub(lambda it: it[1] + AGAIN + str(number), path.read_text(encoding="utf-8")), encoding="utf-8")

    def emptied(self, text):
        """The text of its file with no body in it, of which nothing is read then: it never returns."""
        own = text[self.start : self.end]
        if re.search(r"\bconst fn %s\b" % self.name, own):
            return text
        lines = own.split("\n")
        head = next(at for at, it in enumerate(lines) if re.search(r"\bfn %s\b" % self.name, it))
        indent = re.match(" *", lines[head])[0]
        last = next((at for at, it in enumerate(lines) if at > head and it == indent + "{"), None)
        if last is None:
            last = next((at for at, it in enumerate(lines) if at >= head and it.endswith(" {")), None)
        if last is None:
            return text
        out = [*lines[: last + 1], indent + "    loop {}", indent + "}"]
        return text[: self.start] + "\n".join(out) + text[self.end :]

    def leave_open(self, crate, room):
        """Takes it by its contract in a folder of its crate: with a hole in place of its proof."""
        folder = pathlib.Path(room, "proofs", *self.proof)
        folder.mkdir(parents=True, exist_ok=True)
        # (the closures of its body have their proofs in folders of their own; a module of its name has its files there too)
        module = pathlib.Path(room, "src", *self.proof)
        if not module.is_dir() and not module.with_suffix(".rt").exists():
            for it in folder.iterdir():
                if it.is_dir():
                    shutil.rmtree(it)
        for name in ("Answers.antt", "Invariants.antt"):
            folder.joinpath(name).unlink(missing_ok=True)
        lines = ["use Rattle.%s.proofs.%s.Statement.{statement}" % (crate.name, ".".join(self.proof)), "", "pub %s_spec : {M : Type 1} → statement M" % self.name, "%s_spec = ?" % self.name, ""]
        folder.joinpath("Proof.antt").write_text("\n".join(lines), encoding="utf-8")


def function_at(folder, file, text, place):
    """The function that a place of a file is in, or none."""
    if not file.startswith("src/"):
        return None
    found = [it for it in FN.finditer(text) if it.start() <= place < Function.close(text, it)]
    made = Function(folder, file, text, found[-1]) if found else None
    return made if made and made.path else None


class Refused:
    """The wrong bodies that earlier runs on this machine saw refused, by the sums of all that these tries read."""

    def __init__(self, folder, anew):
        self.anew, self.at = anew, os.path.dirname(os.path.realpath(folder)) + "/copydesk-refused"
        version = subprocess.run(["rt", "version"], capture_output=True, check=True).stdout
        parts = ["%s/%s" % (folder, name) for name in ("KIT-ID", "WHAT", "bin/rattle", "bin/rtlib.py")]
        self.tool = self.sum_of(version, pathlib.Path(__file__).read_bytes(), *[self.state_of(it) for it in parts])
        try:
            os.makedirs(self.at, 0o700, exist_ok=True)
            found = os.lstat(self.at)
            if found.st_uid != os.geteuid() or found.st_mode & 0o077 or not os.path.isdir(self.at):
                self.at = None
        except OSError:
            self.at = None

    @staticmethod
    def state_of(path):
        """The size and the time of a file of the kit."""
        found = os.stat(path)
        return repr((path, found.st_size, found.st_mtime_ns)).encode()

    @staticmethod
    def sum_of(*parts):
        out = hashlib.sha256()
        for part in parts:
            out.update(hashlib.sha256(part).digest())
        return out.hexdigest()

    def key(self, crate, wrong):
        return self.sum_of(self.tool.encode(), crate.stamp().encode(), wrong.name.encode(), wrong.text)

    def has(self, key):
        return bool(self.at) and not self.anew and os.path.isfile("%s/%s" % (self.at, key))

    def keep(self, key):
        if self.at:
            try:
                pathlib.Path(self.at, key).touch(0o600)
            except OSError:
                pass


class Wrong:
    """A wrong body of a crate: its texts, and the functions that it is in, none where it is not in functions alone."""

    def __init__(self, crate, path):
        self.name = "%s/%s" % (crate.name, path.stem)
        self.path, self.text = path, path.read_bytes()
        self.pairs = pairs_of(self.text.decode("utf-8"))
        self.bad = None if self.pairs else "it has no 'old:' and 'new:' pair"
        # (the number of the copy of its function in which it stands, 1 where that is the function itself)
        self.places, self.functions, self.number, self.by_name = {}, set(), 1, False
        # (the goal by which it is seen refused where it names none, and whether the one that it names has an answer)
        self.found, self.is_answered = None, False
        for file, old, _ in self.pairs:
            text = pathlib.Path(crate.folder, file).read_text(encoding="utf-8")
            if text.count(old) != 1:
                self.bad = "its old text stands in %s %d times" % (file, text.count(old))
                return
            found = function_at(crate.folder, file, text, text.find(old))
            self.places[found.path if found else None] = found
        self.apart = None in self.places
        # (the goal by which it is refused, and its answer where the function's proof has none)
        found = re.search(r"^goal: (\S+)(?: ([^=\n]+?))?(?: = (.*))?$", self.text.decode("utf-8"), re.M)
        self.goal, self.words, self.term = found.groups() if found else (None, None, None)
        named = re.findall(r"^only: (.*)", self.text.decode("utf-8"), re.M)
        if named:
            self.apart = True
            self.functions = {(it, r"(?:\w+::)*" + re.escape(it)) for it in " ".join(named).split()}
        elif not self.apart:
            self.functions = {it.named(1) for it in self.places.values()}
        text = pathlib.Path(crate.folder, self.pairs[0][0]).read_text(encoding="utf-8") if self.pairs else ""
        self.movable = not self.apart and len(self.places) == 1 and next(iter(self.places.values())).may_stand_twice(text)

    def put_at(self, number):
        """Lets it stand in the copy of its function of that number."""
        self.number = number
        if not self.apart:
            self.functions = {it.named(number) for it in self.places.values()}

    def place(self):
        """The function that it is in, where that is one alone with a proof of its own."""
        found = next(iter(self.places.values())) if len(self.places) == 1 and not self.apart else None
        return found if found and found.proof else None

    def is_narrow(self):
        """Whether it names the goal by which it is refused, and that one alone is tried."""
        return self.goal is not None and self.place() is not None

    def folder(self):
        """The folder of the proof of its function, or of the copy in which it stands."""
        place = self.place()
        return [*place.proof[:-1], place.name + (AGAIN + str(self.number) if self.number > 1 else "")]

    def narrow(self, crate, room):
        """Has of its function's goals the one that it names answered, and no other looked at."""
        if not self.is_narrow():
            return
        place = self.place()
        path, module = pathlib.Path(room, "proofs", *self.folder(), "Answers.antt"), ".".join(self.folder())
        text = path.read_text(encoding="utf-8") if path.exists() else "use Rattle.%s.proofs.%s.Goals as goal\n" % (crate.name, module)
        text = answers_for(self.goal, text)
        if self.words:
            known = {"rules": "Common", "arith": "Common", "common_steps": "lemmas.Grind"}
            term = self.term or "search rules"
            for word in [it for it in known if re.search(r"\b%s\b" % it, term) and not re.search(r"^use .*\b%s\b" % it, text, re.M)]:
                text = "use Rattle.std.proofs.%s.{%s}\n" % (known[word], word) + text
            text += "\npub %s : goal.%s\n%s %s = %s\n" % (self.goal, self.goal, self.goal, self.words, term)
        self.is_answered = bool(re.search(r"^pub %s : " % re.escape(self.goal), text, re.M))
        path.parent.mkdir(parents=True, exist_ok=True)
        path.write_text(text, encoding="utf-8")
        source = pathlib.Path(room, place.file)
        text, name = source.read_text(encoding="utf-8"), self.folder()[-1]
        wanted = place.path.rpartition("::")[0], name
        for found in FN.finditer(text):
            function = Function(crate.folder, place.file, text, found)
            if function.path and (function.path.rpartition("::")[0], function.name) == wanted:
                own = TACTIC.sub("", text[function.start : function.end])
                source.write_text(text[: function.start] + found[1] + "#[tactic(none)]\n" + own + text[function.end :], encoding="utf-8")
                return

    def errors(self, lines):
        """What a check says of the answers of its function, or of the one that is left."""
        head = "./proofs/%s/Answers.antt:" % "/".join(self.folder())
        return [it for it in messages(lines) if it.startswith(head) and ": error: " in it]

    def changed(self, text):
        """The text of a file, or of a part of it, with what it changes there."""
        for _, old, new in self.pairs:
            text = text.replace(old, new)
        return text

    def is_refused(self, crate, lines):
        """Whether one of its functions has a goal of its own that is not proved; `by_name` where only names of goals are gone."""
        self.by_name = False
        if self.is_narrow():
            # (one that cites an answer which is left out says nothing)
            errors = [it for it in self.errors(lines) if self.is_answered and "is not in scope" not in it]
            self.by_name = bool(errors) and all(GONE.search(it) for it in errors)
            return bool(errors)
        for _, shape in self.functions:
            told = [it for it in (re.match(r"fn %s::(%s): (.*)" % (crate.name, shape), line) for line in lines) if it]
            if len(told) != 1:
                continue
            folder = "./proofs/%s/" % told[0][1].replace("::", "/")
            errors = [it for it in messages(lines) if it.startswith(folder) and ": error: " in it]
            is_open = told[0][2].startswith("not proved")
            # (with holes its line names what was refused: of its own, or, of a law, where the law is shown)
            own = "Rattle.%s.proofs.%s" % (crate.name, "" if self.apart else told[0][1].replace("::", ".") + ".")
            is_own = told[0][2] == "not proved" or "stands on `" + own in told[0][2]
            by_names = is_open and bool(errors) and all(GONE.search(it) for it in errors)
            if told[0][2].startswith("no proof: expected") or is_open and not by_names and (errors or is_own):
                self.by_name = False
                return True
            self.by_name = self.by_name or by_names
        return self.by_name


    def goal_of(self, crate, lines):
        """The goal by which a check refused it, as its line `goal:` has it; none where the check names none."""
        if self.place() is None:
            return None
        path = pathlib.Path(crate.folder, "proofs", *self.place().proof, "Answers.antt")
        text = path.read_text(encoding="utf-8") if path.exists() else ""
        refused = {it[1] for it in (re.search(r": error: `([^`]+)`: ", error) for error in self.errors(lines) if not GONE.search(error)) if it}
        goals = [it for it in re.findall(r"^pub (\S+) : goal\.", text, re.M) if refused & defined_in(answers_for(it, text))]
        answered = [it for it in goals if it.startswith("returns")] + goals
        if answered:
            return answered[0]
        said = [it for it in lines for _, shape in self.functions if re.match(r"fn %s::(%s): " % (crate.name, shape), it)]
        found = [it for line in said for it in re.findall(r"`([^`]+)`", line.partition("did not prove ")[2].partition(";")[0])]
        found = [it for it in found if it.startswith("returns")] + found
        return "%s %s" % (found[0], self.words_of(crate, text)) if found else None

    def words_of(self, crate, text):
        """What an answer of its function takes: what is known, and before it of what kinds, where it has kinds."""
        answered = re.search(r"^\S+ ((?:g )?c)\b[^=\n]*=", text, re.M)
        if answered:
            return answered[1]
        place = self.place()
        source = pathlib.Path(crate.folder, place.file).read_text(encoding="utf-8")[: place.end]
        owner = [it[1] for it in OWNER.finditer(source)][-1] if place.is_method else ""
        head = re.search(r"\bfn %s(<[^(]*>)?\(" % place.name, source[place.start :])
        kinds = re.match(r"\s*(<[^{]*?>)\s", owner + " ")
        both = " ".join(it for it in [kinds and kinds[1], head and head[1]] if it)
        return "g c" if re.search(r"(?<![\w'])[A-Z]\w*\b", both) else "c"


def defined_in(text):
    """The names that a file of answers defines."""
    return {it[1] for it in (ANSWER.match(line) for line in text.split("\n")) if it}


def answers_for(goal, text):
    """Of a file of answers those that the answer to a goal uses, and that one."""
    parts = [[None, []]]
    for line in text.split("\n"):
        found = ANSWER.match(line)
        if found and not line.startswith("use "):
            parts.append([found[1], []])
        parts[-1][1].append(line)
    wanted, seen = [goal], {None}
    while wanted:
        name = wanted.pop()
        if name not in seen:
            seen.add(name)
            own = "\n".join(line for it, lines in parts if it == name for line in lines)
            wanted += [it for it, _ in parts if it and re.search(r"(?<![\w.+-])%s(?![\w+-])" % re.escape(it), own)]
    return "\n".join(line for it, lines in parts if it in seen for line in lines) + "\n"


def messages(lines):
    """What a check says, each message with the lines that go on with it."""
    out = []
    for line in lines:
        if line.startswith("  ") and out:
            out[-1] += line
        else:
            out.append(line)
    return out


def may_stand_beside(wrong, group):
    """Whether a check may have a wrong body beside those of a group. Of those that stand in their place it must try no caller
    whose whole proof is asked for: what calls a wrong one is not looked at."""
    if wrong.apart or group[0].apart:
        return False
    is_alike = all(it.movable == wrong.movable for it in group) or all(it.is_narrow() for it in [wrong, *group])
    return is_alike and (wrong.movable or not any(not it.movable and wrong.places.keys() & it.places.keys() for it in group))


def groups_of(wrongs):
    """The wrong bodies in as few groups as the first place gives, and in which copy of its function each stands."""
    out = []
    for wrong in sorted(wrongs, key=lambda it: it.movable):
        for group in out:
            if may_stand_beside(wrong, group):
                group.append(wrong)
                break
        else:
            out.append([wrong])
    for group in out:
        numbers = {}
        for wrong in group:
            for path in wrong.places:
                numbers[path] = numbers.get(path, 1) + 1
            wrong.put_at(max(numbers[path] for path in wrong.places) if wrong.movable else 1)
    return out


def write_changed(crate, room, wrongs):
    """Puts the wrong bodies of a group into a copy of the crate: each in its function, or in a copy of it."""
    parts = {}
    for wrong in wrongs:
        if wrong.apart:
            for file in {file for file, _, _ in wrong.pairs}:
                path = pathlib.Path(room, file)
                path.write_text(wrong.changed(path.read_text(encoding="utf-8")), encoding="utf-8")
            return
        for place in wrong.places.values():
            parts.setdefault(place.file, {}).setdefault((place.start, place.end), []).append((place, wrong))
    for file, places in parts.items():
        text = pathlib.Path(crate.folder, file).read_text(encoding="utf-8")
        for (start, end), found in sorted(places.items(), reverse=True):
            own, copies = text[start:end], []
            for place, wrong in found:
                if wrong.number == 1:
                    own = wrong.changed(text[start:end])
                    continue
                copies.append(re.sub(r"\bfn %s\b" % place.name, "fn %s%s%d" % (place.name, AGAIN, wrong.number), wrong.changed(text[start:end])))
                place.copied_proof(room, wrong.number)
            text = text[:start] + "\n\n".join([own, *copies]) + text[end:]
        pathlib.Path(room, file).write_text(text, encoding="utf-8")


def leave_others_open(crate, room, wrongs):
    """Takes all functions of the crate by their contracts, but for those of these wrong bodies."""
    own = {path for it in wrongs if it.number == 1 for path, _ in it.functions}
    for path in sorted(pathlib.Path(room, "src").rglob("*.rt")):
        file, text = str(path.relative_to(room)), path.read_text(encoding="utf-8")
        for found in reversed([it for it in FN.finditer(text) if AGAIN not in it[2]]):
            function = Function(crate.folder, file, text, found)
            is_own = any(function.path == it or (function.path or "").endswith("::" + it) for it in own)
            if function.proof and not is_own and not function.calls_itself(text):
                function.leave_open(crate, room)
                text = function.emptied(text)
        path.write_text(text, encoding="utf-8")


def checked(rtlib, crate, wrongs, only, with_holes=False):
    """What a check of a copy of the crate with these wrong bodies says, and its status."""
    with tempfile.TemporaryDirectory(prefix="rt-edit-") as room:
        for part in rtlib.PARTS:
            if os.path.isdir("%s/%s" % (crate.folder, part)):
                shutil.copytree("%s/%s" % (crate.folder, part), "%s/%s" % (room, part))
        write_changed(crate, room, wrongs)
        if with_holes:
            leave_others_open(crate, room, wrongs)
            for it in wrongs:
                it.narrow(crate, room)
        words = [rtlib.RATTLE, "check", *crate.words(["--jobs", "1"], keeps=False)]
        words += ["--allow-holes"] if with_holes else []
        for it in sorted(only):
            words += ["--only", it]
        how = {"cwd": room, "stdin": subprocess.DEVNULL, "stdout": subprocess.PIPE, "stderr": subprocess.STDOUT, "errors": "replace"}
        ran = subprocess.run([*rtlib.guarded(), *words], **how)
        return ran.stdout.rstrip("\n").split("\n"), ran.returncode


def refused_alone(rtlib, crate, wrong):
    """Whether the prover refuses the crate with this wrong body, by the rule of `rt must-fail`; and what it said."""
    wrong.put_at(1)
    lines, status = checked(rtlib, crate, [wrong], set())
    for it in lines:
        at = re.match(r"(?:\./)?(\S+?):\d+:\d+: error: (?:(`[^`]*`): )?(.*)", it)
        if at and (at[1].startswith(("src/", "specs/"))) and (not at[2] or UNREAD.search(re.sub(r"`[^`]*`", "", at[3]))):
            return False, "the prover cannot read it: " + it[:200]
    if status == 1 and lines[-1].startswith("logic=not-proved"):
        return True, ""
    return False, "it is proved" if status == 0 else "it did not reach the prover: " + " / ".join(lines[-4:])[:400]


def tried(rtlib, crate, wrongs, refused):
    """The wrong bodies that are not refused with what was said, how many checks it took, how many were tried before, and those
    that are refused by names alone."""
    faults, alone, checks = [(it.name, it.bad) for it in wrongs if it.bad], [], 0
    keys = {it: refused.key(crate, it) for it in wrongs}
    wrongs = [it for it in wrongs if not it.bad and not refused.has(keys[it])]
    groups = groups_of([it for it in wrongs if it.functions])
    while groups:
        group = groups.pop(0)
        lines, status = checked(rtlib, crate, group, {path for it in group for path, _ in it.functions}, True)
        checks += 1
        if status == 2:
            # (a path that fits no function, or several)
            lines, _ = checked(rtlib, crate, group, set(), True)
            checks += 1
        if len(group) > 1 and not any(it.startswith("fn ") for it in lines):
            # (one of them is none, and the text was not read)
            groups += groups_of(group[: len(group) // 2]) + groups_of(group[len(group) // 2 :])
            continue
        for it in group:
            is_refused = it.is_refused(crate, lines)
            it.found = it.goal_of(crate, lines) if is_refused and not it.is_narrow() else None
            if not is_refused and it.is_narrow():
                faults.append((it.name, "it is not refused by its goal `%s`" % it.goal))
            elif not is_refused:
                alone.append(it)
    for it in alone + [it for it in wrongs if not it.functions]:
        is_refused, why = refused_alone(rtlib, crate, it)
        checks += 1
        if not is_refused:
            faults.append((it.name, why))
    # (what was tried of files that have changed since is not kept)
    rtlib.forget_stamps()
    lost = {name for name, _ in faults}
    for it in wrongs:
        if it.name not in lost and refused.key(crate, it) == keys[it]:
            refused.keep(keys[it])
    return faults, checks, len(keys) - len(wrongs), [it.name for it in wrongs if it.by_name and it.name not in lost]


def copied(rtlib, crate, wrongs):
    """Of each function with a wrong body that may stand in a copy or names a goal: what a check says of it as it is, where that is
    not that it is proved, or the answer to the goal; and how many were tried."""
    whole, found = {}, []
    for wrong in wrongs:
        if not wrong.bad and (wrong.movable or wrong.is_narrow()):
            wrong.pairs = []
            whole.setdefault((tuple(wrong.places), wrong.goal, wrong.words, wrong.term), wrong)
    for group in groups_of(whole.values()):
        lines, _ = checked(rtlib, crate, group, {path for it in group for path, _ in it.functions}, True)
        for wrong in group:
            (_, shape), goal = next(iter(wrong.functions)), wrong.goal if wrong.is_narrow() else None
            wanted = "" if goal else "(no holes$|depends on a hole)"
            told = [it for it in lines if re.match(r"fn %s::(%s): %s" % (crate.name, shape, wanted), it)]
            # (a goal that the wrong body alone has, as behind another condition, has no answer to compare)
            errors = [it for it in wrong.errors(lines) if not wrong.words or "`goal.%s`: module" % goal not in it] if goal else []
            if len(told) != 1 or errors or goal and not wrong.is_answered:
                found.append((wrong.name, "the answer to `%s` is not accepted" % goal if goal else "its function's copy is not proved"))
    return found, len(whole)


def lanes():
    """How many checks run side by side."""
    number = os.environ.get("RT_JOBS", "")
    if number.isdigit() and int(number):
        return int(number)
    with open("/proc/meminfo", encoding="ascii") as file:
        free = int(re.search(r"MemAvailable:\s+(\d+)", file.read())[1])
    return max(1, min(os.cpu_count() or 1, free // 4_500_000))


def work_of(rtlib, names, folders):
    """The crates that have wrong bodies, or those named, with these; the dearest first, so that none is left alone at the end."""
    out = []
    for crate in [it for it in rtlib.crates_below(str(ROOT)) if not names or it.name in names]:
        paths = [it for folder in folders for it in sorted(pathlib.Path(crate.folder, folder).glob("*.edit"))]
        if paths:
            out.append((crate, [Wrong(crate, it) for it in paths]))
    return sorted(out, key=lambda it: -it[0].count(rb"\n"))


def prove_below(work, is_built):
    """Proves what the crates stand on, where it is not yet; the name of a crate that is not proved, or none."""
    below = {dep.name: dep for crate, _ in work for dep in crate.below()}
    has_stamps = any(os.path.exists("%s/out/rlib/stamp" % it.folder) for it in below.values())
    if not is_built or has_stamps or not all(os.path.isdir(it.rlib) for it in below.values()):
        for dep in sorted(below.values(), key=lambda it: len(it.below())):
            if dep.build_rlib(["--jobs", "1"], anew=False):
                return dep.name
    return None


def try_all(rtlib, work, flags, pool):
    """Tries the wrong bodies of these crates, says of each crate how many were refused, and returns the number of all, those that
    are not refused, and those that names of goals alone refuse."""
    refused = Refused(kit_folder(), bool(flags & {"--anew", "--goals"}))
    count, faults, by_name = 0, [], []
    given = {pool.submit(tried, rtlib, crate, wrongs, refused): (crate, wrongs) for crate, wrongs in work}
    for it in concurrent.futures.as_completed(given):
        crate, wrongs = given[it]
        bad, checks, known, named = it.result()
        count, faults, by_name = count + len(wrongs), faults + bad, by_name + named
        for wrong in [it for it in wrongs if it.found and "--goals" in flags]:
            wrong.path.write_text(wrong.text.decode("utf-8").rstrip("\n") + "\ngoal: %s\n" % wrong.found, encoding="utf-8")
        print("%s: %d wrong bodies, %d refused, in %d checks (%d kept from earlier runs)" % (crate.name, len(wrongs), len(wrongs) - len(bad), checks, known), flush=True)
    return count, faults, by_name


def main(words):
    flags, names = {it for it in words if it.startswith("--")}, [it for it in words if not it.startswith("--")]
    if flags - {"--built", "--named", "--anew", "--goals", "--copies"}:
        print(__doc__, file=sys.stderr)
        return 2
    os.chdir(ROOT)
    rtlib = kit()
    rtlib.guarded()
    work = work_of(rtlib, names, [NAMED, APART] if "--named" in flags else [APART])
    unproved = prove_below(work, "--built" in flags)
    if unproved:
        print("wrong_bodies: %s is not proved\n0 passed, 1 failed" % unproved)
        return 1
    began, count, faults, by_name = time.time(), 0, [], []
    with concurrent.futures.ThreadPoolExecutor(lanes()) as pool:
        if "--copies" in flags:
            for bad, number in pool.map(lambda it: copied(rtlib, *it), work):
                count, faults = count + number, faults + bad
        else:
            count, faults, by_name = try_all(rtlib, work, flags, pool)
    used = resource.getrusage(resource.RUSAGE_CHILDREN)
    print("%d tried, %d not as they must be, in %d seconds, %.1f minutes of processor" % (count, len(faults), time.time() - began, (used.ru_utime + used.ru_stime) / 60))
    for name in sorted(by_name):
        print("wrong body refused by names of goals alone: %s" % name)
    for name, why in faults:
        print("%s: %s: %s" % ("not proved as it is" if "--copies" in flags else "wrong body not refused", name, why))
    print("%d passed, %d failed" % (count - len(faults), len(faults)))
    return 1 if faults else 0


if __name__ == "__main__":
    sys.exit(main(sys.argv[1:]))
