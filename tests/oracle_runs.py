#!/usr/bin/env python3
"""Runs of the independent program: sheets of commands, stored feeds, lists of events, commands on files, and lines that
memory stops, from docs/FORMATS.md.

usage: oracle_runs.py < LIST     writes what script_plays is to write of a list of events, and ends with its status
"""
import sys

import oracle
import oracle_log
import oracle_notes
import oracle_pages
import oracle_readings
import oracle_room
import reported
import reported_copy
import reported_galley


def is_passed_over(line):
    return line == b"" or line.startswith(b"#") and len(line) <= oracle.MAX_LINE


def is_refusal(answer):
    return answer.startswith(("refused", "stopped"))


def told(world, data, strict=False, number=False):
    """What the lines of a sheet are answered on a world, and the number of the line that stops it, or none."""
    out = []
    for k, line in enumerate(oracle.lines(data), 1):
        if strict and is_passed_over(line):
            continue
        answer = world.answer(line)
        out.append(("%d " % k if number else "") + answer + "\n")
        if strict and is_refusal(answer):
            return "".join(out), k
    return "".join(out), None


def script(data, strict=False, number=False):
    """A script: its status, what it writes, and what it says on standard error."""
    written, stop = told(oracle.World(), data, strict, number)
    return (1, written, "copydesk: line %d refused\n" % stop) if stop else (0, written, "")


def brought(site, stored):
    """A world of one site that holds the operations of a stored feed, or of none."""
    world = oracle.World()
    world.answer(b"site %d" % site)
    world.gain(site, oracle.read_feed(stored) if stored is not None else [])
    return world


def desk(stored, site, data, strict=False, number=False, held=False, last=None, older=False):
    """A run on a stored feed, or on a missing one, with its FEED.last: its status, what it writes and says, and the bytes that
    then are stored as feed and as FEED.last."""
    if held:
        return 1, "", "copydesk: file fault\n", stored, last
    try:
        world = brought(site, stored)
    except oracle.Feed:
        return 1, "", "copydesk: feed refused\n", stored, last
    why = oracle_readings.older("a.feed", last, site, world.sites[site])
    if why and stored is not None and not older:
        return 1, "", why, stored, last
    written, stop = told(world, data, strict, number)
    if stop:
        return 1, written, "copydesk: line %d refused\n" % stop, stored, last
    now = oracle.runs_feed(world.sites[site])
    return 0, written, "", now, oracle_readings.noted(last, site, world.sites[site])


def is_event(command):
    """Whether a command is an event of a list; one inserts one symbol."""
    return command[0] in ("site", "delete", "set", "take", "restart") or command[0] == "insert" and len(command[3]) == 1


def event(world, line):
    """What an event is answered: `take` gives the operations of its feed, of which each is held by some site, and the others are a script's."""
    name, site, *rest = oracle.parse(line)
    if name != "take":
        return world.answer(line)
    ops = oracle.read_feed(rest[0])
    if site not in world.sites or not all(any(op in held for held in world.sites.values()) for op in ops):
        return "refused site"
    return world.gain(site, ops)


def what_is_held(world):
    """Of each site its number, its count, its copy, its faults, its settings and its feed."""
    for site in sorted(world.sites):
        yield "site %d holds %d" % (site, len(world.sites[site]))
        for word in (b"show", b"faults", b"settings", b"feed"):
            yield world.answer(b"%s %d" % (word, site))


def play(data):
    """A list of events over one site, which the first line names with its feed: its status, and what it writes. It is read before it is played."""
    try:
        first, *lines = oracle.lines(data)
        commands = [oracle.parse(line) for line in (first, *lines)]
        for command in commands:
            if command[0] == "take":
                oracle.read_feed(command[2])
    except (ValueError, IndexError, oracle.Feed):
        return 1, ""
    name, site, *rest = commands[0]
    if name != "take" or not 1 <= site <= 65535 or not all(is_event(command) for command in commands):
        return 1, ""
    world = brought(site, rest[0])
    told = [event(world, line) for line in lines]
    return 0, "".join(line + "\n" for line in (*told, *what_is_held(world)))


class Stops(Exception):
    """What ends a command on files with status 1: its lines on standard error, where `..` at the end stands for any rest, and
    what it has written before."""

    def __init__(self, told, written=""):
        super().__init__(told)
        self.told, self.written = told, written


def run(command, files, *words, **flags):
    """A command on files, by name and bytes: its status, what it writes, what it says, and the files after it."""
    after = dict(files)
    try:
        return 0, command(after, *words, **flags), "", after
    except Stops as stop:
        return 1, stop.written, stop.told, after


def held_in(files, name, missing=None, until=None):
    """The operations of a feed among files, all or those with a counter up to one; one that is not there is refused, or holds
    what is given."""
    if name not in files and missing is not None:
        return missing
    if name not in files:
        raise Stops("copydesk: file fault\n%s: it cannot be read.." % name)
    try:
        held = set(oracle.read_feed(files[name]))
    except oracle.Feed as fault:
        raise Stops("copydesk: feed refused\n%s: byte %d: %s\n" % (name, fault.at, reported.CAUSES[fault.word]))
    held = {op for op in held if until is None or op[1][0] <= until}
    if len(held) > oracle.LIMIT:
        raise Stops("copydesk: full\n%s: .." % name)
    return held


def faults_of(held):
    faults = oracle.Meaning(held).faults
    return "faults %s\n" % (", ".join("%s %s" % (kind, oracle.stamp_text(stamp)) for kind, stamp in faults) or "none")


def made(stamps):
    """Who made stamps: by site the counters, of which those that follow one another stand as the first and the last."""
    sites = {}
    for counter, site in sorted(stamps):
        runs = sites.setdefault(site, [])
        if runs and runs[-1][-1] + 1 == counter:
            runs[-1] = [runs[-1][0], counter]
        else:
            runs.append([counter])
    texts = {site: " ".join("..".join(map(str, run)) for run in runs) for site, runs in sites.items()}
    return ", ".join("site %d made %s" % (site, texts[site]) for site in sorted(texts))


def room_in(files, feed, site, older):
    """The operations of a feed that a site goes on with: one that is not there holds none, and one that is older than what
    the site made here is refused, but where that is wanted."""
    held = held_in(files, feed, set())
    why = oracle_readings.older(feed, files.get(feed + ".last"), site, held)
    if why and feed in files and not older:
        raise Stops(why)
    return held


def mark(files, feed, site, held):
    """Notes in FEED.last what of a site is stored."""
    files[feed + ".last"] = oracle_readings.noted(files.get(feed + ".last"), site, held)


def export(files, feed, until=None):
    """The copy of a feed as text, as it is or as it was."""
    return reported.exported(oracle.Meaning(held_in(files, feed, until=until)).copy)


def diff(files, feed, other, until=None):
    """What `diff` writes after the words that differ: how the merge that would be reads."""
    one, two = held_in(files, feed, until=until), held_in(files, other)
    return oracle_readings.reported(oracle_readings.readings(one, two))


def merge(files, feed, *others, forks=False, review=False):
    """A merge of a feed with others, one after the other: without `forks` none may fork a stamp that was not forked before.
    Behind the line of each stands how the join reads; with `review` an open reading gives status 1."""
    held, out, opened = held_in(files, feed, set()), "", []
    for name in others:
        theirs = held_in(files, name)
        both, new = held | theirs, theirs - held
        if len(both) > oracle.LIMIT:
            raise Stops("copydesk: full\n%s: .." % name)
        twice = oracle.forked(both) - oracle.forked(held)
        if twice and not forks:
            raise Stops("copydesk: number used twice\n%s: %s here and there\n" % (reported.plain(name), made(twice)))
        out += "%s ok new %d known %d\n" % (reported.plain(name), len(new), len(oracle.read_feed(files[name])) - len(new))
        found = oracle_readings.readings(held, theirs)
        out += oracle_readings.reported(found)
        opened += found
        held = both
    files[feed] = oracle.runs_feed(held)
    if opened and review:
        raise Stops("", out + faults_of(held))
    return out + faults_of(held)


def changes_of(held, feed, copy, new):
    """How many symbols come and how many go, at least, where another copy takes a copy's place."""
    changes = reported_copy.fewest(copy, new)
    if max((op[1][0] for op in held), default=0) + changes > oracle.MAX_COUNTER:
        raise Stops("copydesk: the greatest counter is held\n%s: the text does not fit into it\n" % feed)
    return (changes + len(new) - len(copy)) // 2, (changes + len(copy) - len(new)) // 2


def import_text(files, feed, text, plain=False, everything=False, site=1, older=False):
    """What an import of a text says, which stores as few changes as there can be: which ones is its own choice. One that would
    delete most of a copy, or all of it, is refused, but where it may delete everything."""
    held = room_in(files, feed, site, older)
    try:
        new = reported_copy.read_text(text, plain)
    except reported_copy.NoText as fault:
        raise Stops("copydesk: %s\n" % fault)
    copy = oracle.Meaning(held).copy
    inserted, deleted = changes_of(held, feed, copy, new)
    most = len(copy) >= 200 and 2 * deleted > len(copy)
    if not everything and (most or copy and not new):
        raise Stops("copydesk: %d of %d symbols would be deleted\n" % (deleted, len(copy)))
    return "ok inserted %d deleted %d\n" % (inserted, deleted)


def replace(files, feed, old, new, site=1, plain=False, older=False, at=None, everywhere=False):
    """What is said where a text takes the place of another, at its one place, at a place that is asked for, or everywhere: both
    are read before the feed."""
    texts = []
    for called, text in (("OLD", old), ("NEW", new)):
        try:
            texts.append(reported_copy.read_text(text, plain))
        except reported_copy.NoText as fault:
            raise Stops("copydesk: %s, %s\n" % (called, fault))
    held = room_in(files, feed, site, older)
    copy = oracle.Meaning(held).copy
    places = reported_copy.places_of(texts[0], copy)
    taken = reported_copy.taken(places, len(texts[0]), at, everywhere)
    if not taken:
        why = "%d place%s" % (len(places), "s" * (len(places) > 1)) if places else "no place"
        raise Stops("copydesk: %s\n" % why, reported_copy.reported_places(texts[0], copy))
    new_copy = replaced(copy, taken, *texts)
    if len(new_copy) > oracle.LIMIT:
        raise Stops("copydesk: full\n%s: .." % feed)
    return "ok inserted %d deleted %d\n" % changes_of(held, feed, copy, new_copy)


def replaced(copy, places, old, new):
    """A copy with a text at these places of another, which do not overlap."""
    out, behind = [], 0
    for place in places:
        out += copy[behind:place] + new
        behind = place + len(old)
    return out + copy[behind:]


def find(files, feed, text, plain=False, metal=()):
    """Each place of a text in the copy of a feed, with its line of the galley by a case and a wedge, where these are given."""
    try:
        sought = reported_copy.read_text(text, plain)
    except reported_copy.NoText as fault:
        raise Stops("copydesk: TEXT, %s\n" % fault)
    meaning = oracle.Meaning(held_in(files, feed))
    galley = reported_galley.galley_in(meaning.copy, meaning.settings, *metal_in(files, *metal)) if metal else None
    out = galley if isinstance(galley, str) else ""
    lines = [] if isinstance(galley, str) or galley is None else galley.lines
    places = reported_copy.places_of(sought, meaning.copy)
    if not places:
        raise Stops("", out + "no place\n")
    for place in places:
        line = next((line.number for line in reversed(lines) if line.begin <= place), None)
        out += reported_copy.place_line(sought, meaning.copy, place, line)
    return out


def spare(name, sources, what):
    """Refuses to store a ribbon, a picture or a document in the place of what it is made of, or of what is stored with it."""
    if name is not None and name in sources:
        raise Stops("copydesk: file fault\n%s: the %s would take its place\n" % (reported.plain(name), what))


def kind_of(data):
    """What a file is, by its first bytes."""
    if len(data) > oracle.MAX_FILE:
        return "a file of more than 67,108,864 bytes"
    if data.startswith(oracle_pages.BEGIN.encode()):
        return "a document"
    return {b"MFD1": "a feed", b"MFD2": "a feed", b"MRB1": "a ribbon", b"<svg": "a picture"}.get(data[:4], "another file")


def put(files, name, data, force):
    """Stores a ribbon, a picture or a document in the place of nothing but a file of its own kind, unless it is forced."""
    there = files.get(name, b"")
    if there and kind_of(there) != kind_of(data) and not force:
        raise Stops("copydesk: not replaced\n%s: %s stands there\n" % (name, kind_of(there)))
    files[name] = data


def metal_in(files, case, wedge):
    """The case and the wedge of two files."""
    metal = reported_galley.inputs((case, wedge), files[case], files[wedge])
    if isinstance(metal, str):
        raise Stops("copydesk: input refused\n" + metal)
    return metal


def punch(files, *names, force=False, faulty=False):
    """The ribbon of feeds, one after the other, stored: of a copy with faults only if it is asked for, and never of a job with
    faults. The case and the wedge are read once, behind the first feed."""
    *feeds, case, wedge, to = names
    spare(to, (*feeds, case, wedge), "ribbon")
    metal, rows = None, []
    for feed in feeds:
        held = held_in(files, feed)
        metal = metal or metal_in(files, case, wedge)
        rows += rows_of(held, feed, case, wedge, metal, faulty)
    ribbon = oracle.ribbon_bytes(rows)
    if len(ribbon) > oracle.MAX_FILE:
        raise Stops("copydesk: too long\n..")
    put(files, to, ribbon, force)
    return ""


def rows_of(held, feed, case, wedge, metal, faulty):
    """The rows of a feed's job, the head row before those of its lines."""
    meaning, shown = oracle.Meaning(held), reported.plain(feed)
    if meaning.faults and not faulty:
        raise Stops("copydesk: copy faults\n%s: its copy has faults\n" % shown, faults_of(held))
    faults, images = oracle.job(meaning.copy, meaning.settings, *metal)
    if faults:
        other = reported_galley.other_number(meaning.settings, *metal)
        if other:
            of = reported.plain({"case": case, "wedge": wedge}[other[0]])
            why = "{0}: it is {1} {3}, and {4} has the setting {1} {2}\n".format(of, *other, shown)
        else:
            why = shown + ": its job has faults\n"
        raise Stops("copydesk: no ribbon\n" + why, reported_galley.no_ribbon(faults, meaning.settings))
    return images


def sorts(files, feed, case, until=None):
    """The sorts of a feed's copy, as it is or as it was, by a case that is in order."""
    copy = oracle.Meaning(held_in(files, feed, until=until)).copy
    out, whole = reported_galley.sorts(copy, metal_in(files, case, "w")[0])
    if not whole:
        raise Stops("", out)
    return out


def text_in(files, name, plain):
    """The copy of a text among files."""
    if name not in files:
        raise Stops("copydesk: file fault\n%s: it cannot be read.." % reported.plain(name))
    if len(files[name]) > oracle_notes.MOST_BYTES:
        raise Stops("copydesk: too long\n%s: .." % reported.plain(name))
    try:
        text = oracle_notes.Text(files[name], plain)
    except reported_copy.NoText as fault:
        raise Stops("copydesk: input refused\n%s: %s\n" % (reported.plain(name), fault))
    if len(text.copy) > oracle.LIMIT:
        raise Stops("copydesk: too long\n%s: .." % reported.plain(name))
    return text


def proof(files, source, case, wedge, to=None, html=None, height=None, force=False, until=None, text=None, trial=(), alone=False, gcc=False, warn=False):
    """The galley of a feed, or of a text that is plain or not, or a line for each of its faults; and then its picture, or its
    pages as pictures where a height in points is given, and its document."""
    names = (source, case, wedge)
    spare(to, names, "picture")
    spare(html, (*names, to), "document")
    if text is None:
        meaning = oracle.Meaning(held_in(files, source, until=until))
    else:
        meaning = text_in(files, source, text == "plain")
    metal = metal_in(files, case, wedge)
    if text is None:
        settings, places = {**meaning.settings, **dict(trial)}, oracle_notes.places_of_export(meaning.copy)
    else:
        settings, places = oracle_notes.settings_of(trial, *metal), meaning.places
    editor = (source, places) if gcc else None
    out, whole, _ = oracle_notes.proof(meaning, settings, *metal, alone, editor, warn)
    galley, stores = reported_galley.galley_in(meaning.copy, settings, *metal) if to is not None or html is not None else None, []
    if to is not None:
        pages = oracle_pages.pictures(names, meaning, galley, height) if height is not None else [oracle_pages.picture(meaning, galley)]
        stores.append(lambda: put_pages(files, to, [page.encode() for page in pages], force, names))
    if html is not None:
        made = oracle_pages.document(names, meaning, galley, 842 if height is None else height).encode()
        stores.append(lambda: put(files, html, made, force))
    return drawn(out, whole, *stores)


def read(files, ribbon, case, wedge, to=None, force=False, some=None, pitch=None):
    """What a caster would cast of a ribbon, some of it, or its figures; and then its picture, if it is one, of which the beginning,
    the title and the places of the rows are given here."""
    spare(to, (ribbon, case, wedge), "picture")
    data = bytes_in(files, ribbon)
    out, whole = reported.reading(data, *metal_in(files, case, wedge), some, pitch)
    if out.startswith("no ribbon: "):
        raise Stops("", out)
    shown = b"<svg%s %s" % tuple(str(it).encode() for it in reported.picture_of(data, some))
    return drawn(out, whole, *([lambda: put(files, to, shown, force)] if to is not None else []))


def compare(files, one, other, case, wedge):
    """What two ribbons cast otherwise, line by line."""
    ribbons = [bytes_in(files, name) for name in (one, other)]
    out, same = reported.differing((one, other), ribbons, *metal_in(files, case, wedge))
    if not same:
        raise Stops("", out)
    return out


def bytes_in(files, name):
    if name not in files:
        raise Stops("copydesk: file fault\n%s: it cannot be read.." % reported.plain(name))
    return files[name]


def put_pages(files, name, pages, force, sources):
    """Stores one picture, or the pages of a galley under its name with their numbers, up to the first that may not be stored."""
    if len(pages) == 1:
        return put(files, name, pages[0], force)
    for number, page in enumerate(pages, 1):
        numbered = oracle_pages.numbered(name, number)
        if numbered in sources:
            raise Stops("copydesk: not replaced\n%s: another file stands there\n" % name)
        put(files, numbered, page, False)
    return None


def drawn(out, whole, *stores):
    """The end of a command that writes a text, and then stores a picture or a document, or both, where one is wanted: each is tried."""
    told = ""
    for store in stores:
        try:
            store()
        except Stops as stop:
            told += stop.told
    if told:
        raise Stops(told, out)
    if not whole:
        raise Stops("", out)
    return out


def renew(files, new, feed, site):
    """The copy and the settings of a feed as a new feed, made by one site alone."""
    if new in files:
        raise Stops("copydesk: already there\n%s: it is there already\n" % new)
    held = held_in(files, feed)
    files[new] = oracle.runs_feed(oracle.renewed(held, site))
    return "ok renewed %d\n" % len(oracle.Meaning(held).copy)


def rooms(files, feed):
    """A line for each site with an operation in a feed: from its least stamp to its greatest, whether some counter between is
    borne by none of its operations, its inserts, deletes and sets, the symbols that are shown of it, and its copy faults. Last
    are the sums."""
    held, lines, sums = held_in(files, feed), [], [0] * 5
    meaning = oracle.Meaning(held)
    for site in sorted({op[1][1] for op in held}):
        made = [op for op in held if op[1][1] == site]
        counters = {op[1][0] for op in made}
        least, greatest = min(counters), max(counters)
        counts = [sum(op[0] == kind for op in made) for kind in ("insert", "delete", "set")]
        counts += [sum(op[1][1] == site for op in meaning.shown), sum(stamp[1] == site for _, stamp in meaning.faults)]
        gaps = " with gaps" if len(counters) <= greatest - least else ""
        lines.append("site %d from %d.%d to %d.%d%s%s" % (site, least, site, greatest, site, gaps, counted(counts)))
        sums = [one + more for one, more in zip(sums, counts)]
    return "".join(lines) + "copy" + counted(sums)


def counted(counts):
    return ": inserts %d, deletes %d, sets %d, shown %d, faults %d\n" % tuple(counts)


def log(files, feed, site=None, since=None, text=None):
    """The corrections of a feed, or those of them that are asked for; a text is read before the feed."""
    try:
        sought = None if text is None else reported_copy.read_text(text)
    except reported_copy.NoText as fault:
        raise Stops("copydesk: TEXT, %s\n" % fault)
    return oracle_log.log(held_in(files, feed), site, since, sought)


def renumber(files, feed, other, site):
    """What in a feed collides with another one, and what came after it, under another number: the first line of what is
    written, behind which stand the words that then read otherwise. Where nothing is moved the file stays as it is."""
    held, theirs = held_in(files, feed, set()), held_in(files, other)
    try:
        now, moved = oracle.renumbered(held, theirs, site)
    except oracle.Refused as why:
        raise Stops("copydesk: %s\n.." % why)
    if moved:
        files[feed] = oracle.runs_feed(now)
    return "ok renumbered %d\n" % len(moved)


def front(world, line, count):
    """Does the first operations of a line that was answered `stopped` after so many, and says whether there are more."""
    name, site, *rest = oracle.parse(line)
    if name == "insert":
        done = world.insert(site, rest[0], rest[1][:count])
        return len(rest[1]) > count and done.startswith("ok ")
    if name == "take":
        ops = oracle.read_feed(rest[0])
    else:
        ops = sorted(world.sites[site if name == "send" else rest[0]], key=oracle.order)
        ops = ops[rest[1][0]:rest[1][1]] if name == "send" and rest[1] is not None else ops
    to = rest[0] if name == "send" else site
    return len(ops) > count and world.gain(to, ops[:count]).startswith("ok ")


def main():
    status, text = play(sys.stdin.buffer.read())
    sys.stdout.buffer.write(text.encode("utf-8"))
    return status


if __name__ == "__main__":
    sys.exit(main())
