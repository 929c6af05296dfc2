"""What a merge leaves open, and what FEED.last beside a feed says, from docs/DEFINITIONS.md and docs/FORMATS.md.

Slow, plain, and not proved, as oracle.py.
"""
import re

import oracle
import reported_copy

WHITE = ((0, 32), (0, 10))
BEFORE, MOST = 8, 24  # of words that are shown


# ---- open readings

def shown(held):
    """The elements that a set shows, each a stamp and a symbol."""
    return [(op[1], op[3]) for op in oracle.Meaning(held).shown]


def cuts_of(lists):
    """The stamps of the spaces and line feeds that all of some lists of elements have."""
    return set.intersection(*({stamp for stamp, symbol in elements if symbol in WHITE} for elements in lists))


def pieces_of(elements, cuts):
    """Where the pieces of a list begin and end: one before each cut, and one behind the last."""
    at = [place for place, element in enumerate(elements) if element[0] in cuts]
    return list(zip([0] + [place + 1 for place in at], at + [len(elements)]))


def symbols_of(elements, begin, end):
    return [symbol for _, symbol in elements[begin:end]]


def settled(base, one, other):
    """What a piece settles as: what both copies have, or what the one has where the other is as it was; else none."""
    if one == other:
        return one
    if base == one:
        return other
    return one if base == other else None


def readings(one, other):
    """The open readings of two sets: of each its place in what both make, and how that reads, the one, the other and what
    they have in common."""
    lists = [shown(held) for held in (one & other, one, other, one | other)]
    cuts = cuts_of(lists)
    rows, last = [], None
    for number, piece in enumerate(zip(*(pieces_of(elements, cuts) for elements in lists))):
        base, here, there, now = (symbols_of(elements, *ends) for elements, ends in zip(lists, piece))
        if settled(base, here, there) == now:
            continue
        if last == number - 1 and rows:
            rows[-1] = [(row[0], ends[1]) for row, ends in zip(rows[-1], piece)]
        else:
            rows.append(list(piece))
        last = number
    return [(row[3][0], *(symbols_of(lists[k], *row[k]) for k in (3, 1, 2, 0))) for row in rows]


def alike(one, other):
    """How many symbols two lists begin with alike."""
    return next((k for k, (a, b) in enumerate(zip(one, other)) if a != b), min(len(one), len(other)))


def words_line(sign, begin, words):
    """A sign, and up to 24 symbols of some words from a place on, as they are shown."""
    if not words:
        return sign + "\n"
    dots = (".." if begin > 0 else "", ".." if begin + MOST < len(words) else "")
    return sign + " " + dots[0] + reported_copy.shown(words[begin:begin + MOST]) + dots[1] + "\n"


def reported(found):
    """The lines of open readings."""
    out = ""
    for place, now, here, there, was in found:
        begin = max(0, min(alike(now, words) for words in (here, there, was)) - BEFORE)
        signs = ("  now  ", "  here ", "  there", "  was  ")
        out += "open at %d\n" % place + "".join(words_line(sign, begin, words) for sign, words in zip(signs, (now, here, there, was)))
    return out


# ---- FEED.last

LINE = re.compile(rb"site (0|[1-9][0-9]*) (0|[1-9][0-9]*)\n")


def lasts(data):
    """What FEED.last says that each site made here: nothing where it is no such text, or is not there."""
    at, out = 0, []
    while data and at < len(data):
        line = LINE.match(data, at)
        if line is None:
            return {}
        out.append((int(line[1]), int(line[2])))
        at = line.end()
    sites = [site for site, _ in out]
    if sites != sorted(set(sites)) or any(site >= 1 << 16 or made >= 1 << 64 for site, made in out):
        return {}
    return dict(out)


def greatest(held, site):
    """The greatest counter of a set's operations that a site bears, or 0."""
    return max((op[1][0] for op in held if op[1][1] == site), default=0)


def noted(data, site, held):
    """FEED.last after a run of a site by which a set was stored."""
    made = {**lasts(data), site: greatest(held, site)}
    return b"".join(b"site %d %d\n" % it for it in sorted(made.items()))


def older(name, data, site, held):
    """Why a set is older than what FEED.last says that a site made here, as two lines; or nothing."""
    made, holds = lasts(data).get(site, 0), greatest(held, site)
    return "copydesk: older feed\n%s: site %d made %d here, and it holds %d\n" % (name, site, made, holds) if holds < made else ""
