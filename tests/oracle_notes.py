"""Second looks at a copy and its galley, and the lines that editors read, from docs/FORMATS.md and the independent program."""
import oracle
import reported
import reported_copy
import reported_galley

SPACE, FEED = (0, 32), (0, 10)
MOST_BYTES = 8388608  # of a text


class Look:
    """A second look: the place of its first symbol, how many symbols it concerns, and its cause."""

    def __init__(self, place, size, cause):
        self.place, self.size, self.cause = place, size, cause

    def text(self, copy):
        begin, end = max(0, self.place - reported_copy.AROUND), self.place + self.size + reported_copy.AROUND
        return "look at %d: %s: \"%s\"\n" % (self.place, self.cause, reported_copy.shown(copy[begin:end]))


def words_of(line):
    """The words of a line of a galley, each with its place."""
    out, at = [], line.begin
    for word in line.words:
        out.append((at, word))
        at += len(word) + 1
    return out


def hyphens(copy, lines):
    return [Look(at + len(word) - 1, 2, "hyphen inside a line") for line in lines for at, word in words_of(line)[:-1]
            if len(word) >= 2 and word[-1][1] == ord("-")]


def spaces(copy, lines):
    out, at = [], 0
    while at < len(copy):
        size = 0
        while at + size < len(copy) and copy[at + size] == SPACE:
            size += 1
        if size >= 2:
            out.append(Look(at, size, "two spaces"))
        at += max(1, size)
    return out


def points(copy, lines):
    names = {ord("."): "space before a point", ord(","): "space before a comma"}
    return [Look(at, 2, names[copy[at + 1][1]]) for at in range(len(copy) - 1) if copy[at] == SPACE and copy[at + 1][1] in names]


def quotes(copy, lines):
    return [Look(at, 1, "straight quote") for at, (_, ch) in enumerate(copy) if chr(ch) in "'\""]


def repeated(copy, lines):
    """Words that are neither empty nor cut by a line feed, each against the word before it."""
    words, begin = [], 0
    for at, symbol in enumerate([*copy, FEED]):
        if symbol in (SPACE, FEED):
            if begin < at:
                words.append((begin, at))
            begin = at + 1
    return [Look(two[0], two[1] - two[0], "word repeated") for one, two in zip(words, words[1:])
            if copy[slice(*one)] == copy[slice(*two)] and copy[one[1]:two[0]] == [SPACE]]


def ends(copy, lines):
    last = [words_of(line)[-1] for line in lines]
    return [Look(at, len(word), "three lines end alike") for k, (at, word) in enumerate(last)
            if k >= 2 and word and last[k - 1][1] == word == last[k - 2][1]]


def looks(copy, galley):
    """All second looks, kind by kind, each by place."""
    return [look for kind in (hyphens, spaces, points, quotes, repeated, ends) for look in kind(copy, galley.lines)]


def for_editors(name, places, meaning, galley, warn):
    """A line for each fault, and then one for each second look, by the places of the symbols in a text."""
    name, copy = reported.plain(name), meaning.copy
    out = ["%s: %s %s" % (name, kind, oracle.stamp_text(stamp)) for kind, stamp in meaning.faults]
    if isinstance(galley, str):
        return "".join(line + "\n" for line in out) + "%s: %s" % (name, galley)
    found = [(at, "no matrix for %s %s" % (reported_galley.STYLES[copy[at][0]], reported_galley.bare([copy[at]]))) for at in galley.lacking]
    found += [(line.begin, line.fault) for line in galley.lines if line.fault]
    found += [(look.place, "warning: " + look.cause) for look in looks(copy, galley) if warn]
    out += ["%s:%d:%d: %s" % (name, *places[at], told) for at, told in found]
    return "".join(line + "\n" for line in out)


def proof(meaning, settings, case, wedge, alone=False, editor=None, warn=False):
    """What `proof` writes of a copy by settings, whether no fault is there, and the galley, if there is one. For an editor a name
    and the places of the symbols are given."""
    out, clean, galley = reported_galley.proof(meaning, settings, case, wedge, alone)
    if editor is not None:
        found = reported_galley.galley_in(meaning.copy, settings, case, wedge)
        return for_editors(*editor, meaning, found, warn), clean, galley
    found = looks(meaning.copy, galley) if warn and galley is not None else []
    return out + "\n" * (found != []) + "".join(look.text(meaning.copy) for look in found), clean, galley


class Text:
    """The copy of a text, which has no copy faults, and where its symbols are in it."""

    def __init__(self, data, plain):
        self.copy, self.places = reported_copy.read_placed(data, plain)
        self.faults = []


def settings_of(trial, case, wedge):
    """The settings of a text: those that are tried, and the numbers of the case and of the wedge where these are not."""
    return {**dict.fromkeys(oracle.KEYS), "case": case["number"], "wedge": wedge["wedge"], **dict(trial)}


def places_of_export(copy):
    """Where the symbols of a copy are in its export."""
    return reported_copy.read_placed(reported.exported(copy).encode())[1]
