"""What the kinds of fuzz_kinds.py ask of the subcommands on stored feeds, files and ribbons.

Each gives what differs, or none, and the forms of what was answered. It runs in an empty folder.
"""
import os
import re
import subprocess
import xml.etree.ElementTree as ElementTree
import zlib

import oracle
import oracle_notes
import oracle_readings
import oracle_runs
import pictures
import reported
import reported_copy
import reported_galley

SECONDS = 60  # a run that takes longer hangs, on a busy machine too
PIECES = [b"_", b"^", b"\\", b"\r\n", b"\n", b"\t", b"\xff", b"\xe2\x82", b" ", b"\\_", b"\xed\xa0\x80", b"\r"]


def write(name, data):
    """A file with these bytes, beside which nothing says what was made of a file before it."""
    there(name + ".last")
    with open(name, "wb") as file:
        file.write(data)


def read(name):
    with open(name, "rb") as file:
        return file.read()


def there(name):
    """The bytes under a name, or none; then no file is there."""
    data = read(name) if os.path.exists(name) else None
    if data is not None:
        os.remove(name)
    return data


def ran(program, words, data=b""):
    """A run's status, or the text of what went wrong, and its output."""
    try:
        done = subprocess.run([program, *words], input=data, capture_output=True, timeout=SECONDS)
    except subprocess.TimeoutExpired:
        return "hangs", b"", b""
    if done.returncode not in (0, 1, 2) or b"panicked" in done.stderr or b"overflow" in done.stderr:
        return "ended with %d, %r" % (done.returncode, done.stderr[:200]), b"", b""
    return done.returncode, done.stdout, done.stderr


def form(answer):
    """An answer without its texts, bytes and numbers, where what is repeated stands once."""
    bare = re.sub(rb"[0-9]+", b"#", re.sub(rb'"[^"]*"|[0-9a-f]{8,}|#/.*', b"", answer[:400]))
    return re.sub(rb"(.{2,16}?)\1+", rb"\1", bare)[:12 if bare.startswith(b"copy") else 40].decode("latin1")


def forms_of(name, text):
    """The forms of lines, without the words of the copy."""
    return {name + " " + re.sub(r"[0-9]+", "#", re.sub(r"'.*?'|[^ -~]|  \|.*|(?<=[|.<>] [! ] ).*", "", line))[:60] for line in text.split("\n")[:12]}


def pick_of(*parts):
    """A number that an input has, whichever run asks for it."""
    return zlib.crc32(b"\0".join(parts))


def differing(name, got, due):
    """What differs of a status, an output and the lines on standard error; where these end in `..` any more may follow."""
    if got == due or due[2].endswith(b"..") and got[:2] == due[:2] and got[2].startswith(due[2][:-2]):
        return None
    return "%s: status %s, %r, %r, due %s, %r, %r" % (name, got[0], got[1][:400], got[2][:200], due[0], due[1][:400], due[2][:200])


def bytes_of(due):
    return due[0], due[1].encode("utf-8", "surrogatepass"), due[2].encode("utf-8", "surrogatepass")


def refused(name, data):
    """The two lines on standard error of a feed that is refused, or an empty text."""
    try:
        oracle.read_feed(data)
    except oracle.Feed as fault:
        return "copydesk: feed refused\n%s: byte %d: %s\n" % (name, fault.at, reported.CAUSES[fault.word])
    return ""


def left_by(script, number):
    """The feed of a site of which the front of a script was carried out, in one of the two forms, or none."""
    world, lines = oracle.World(), list(oracle.lines(script))
    for line in lines[:len(lines) // 2]:
        world.answer(line)
    if not world.sites or not number & 8:
        return None
    held = world.sites[min(world.sites)]
    return oracle.singles_feed(held) if number & 16 else oracle.runs_feed(held)


def sheet(program, script):
    """A script as a sheet, or on a stored feed that the front of it has left; which of these, and in what manner, its bytes pick."""
    number = pick_of(script)
    strict, numbered, stored = bool(number & 1), bool(number & 2), bool(number & 4)
    flags = ["--strict"] * strict + ["--number"] * numbered
    if not stored:
        due = oracle_runs.script(script, strict, numbered)
        return differing("script " + " ".join(flags), ran(program, ["script", *flags], script), bytes_of(due)), forms_of("sheet", due[2])
    before, site = left_by(script, number), 1 + (number >> 5) % 3
    if before is not None:
        write("desk.feed", before)
    due, name = oracle_runs.desk(before, site, script, strict, numbered), "desk --site %d %s" % (site, " ".join(flags))
    wrong = differing(name, ran(program, ["desk", "desk.feed", "--site", str(site), *flags], script), bytes_of(due[:3]))
    now = (there("desk.feed"), there("desk.feed.last"))
    if not wrong and now != due[3:]:
        wrong = "%s: it has stored %r, due %r" % (name, now, due[3:])
    return wrong, forms_of("sheet on a feed", due[2])


def changed_by_hand(name, before, site, copy, got):
    """What is wrong with a feed of whose copy another was made by hand, or with what was said of it."""
    held = reported.held_in(before)
    greatest = max((op[1][0] for op in held), default=0)
    least = reported_copy.fewest(oracle.Meaning(held).copy, copy)
    now = read("one")
    if greatest + least > oracle.MAX_COUNTER:
        return differing(name, got, (1, b"", b"copydesk: the greatest counter is held\none: the text does not fit into it\n")) or (None if now == before else name + ": the feed changed")
    if got[0] != 0 or got[2]:
        return "%s: status %s, %r, %r" % (name, *got)
    after = reported.held_in(now)
    if after is None or now != oracle.runs_feed(after):
        return "%s: it has stored %s" % (name, now.hex())
    wrong, last = reported_copy.edited(held, after, site, copy, got[1].decode()), there("one.last")
    if not wrong and last != oracle_readings.noted(None, site, after):
        wrong = "%r stands beside the feed" % last
    return wrong and name + ": " + wrong


def imported(program, data, text, plain, everything):
    """An import of a text."""
    write("one", data)
    flags, site = ["--plain"] * plain + ["--all"] * everything, 7
    name = "import of %r %s" % (text[:300], " ".join(flags))
    got = ran(program, ["import", "one", "--site", str(site), *flags], text)
    due = oracle_runs.run(oracle_runs.import_text, {"one": data}, "one", text, plain, everything)
    if due[0] == 0:
        return changed_by_hand(name, data, site, reported_copy.read_text(text, plain), got), {"import done"}
    wrong = differing(name, got, bytes_of(due)) or (None if read("one") == data else name + ": the feed changed")
    return wrong, forms_of("import", due[2])


def replaced(program, data, old, new, plain):
    """A text in place of another: where it has its one place, at a place that the feed's bytes pick, or everywhere."""
    write("one", data)
    number, site, at = pick_of(data, b"where"), 9, None
    everywhere = number % 3 == 0
    if number % 3 == 1:
        at = (number >> 4) % (len(oracle.Meaning(reported.held_in(data) or set()).copy) + 2)
        if number & 8:
            at = next(iter(places_in(data, old, plain)), at)
    words = ["replace", "one", "--site", str(site), *["--plain"] * plain, *["--all"] * everywhere, *([] if at is None else ["--at", str(at)])]
    got, name = ran(program, [*words, "--", old, new]), " ".join(words) + " %r %r" % (old[:200], new[:200])
    out, why = "", ""
    try:
        for called, text in (("OLD", old), ("NEW", new)):
            read_of = reported_copy.read_text(text.encode("utf-8", "surrogateescape"), plain)
            old_of, new_of = (read_of, None) if called == "OLD" else (old_of, read_of)
    except reported_copy.NoText as fault:
        why = "copydesk: %s, %s\n" % (called, fault)
    why = why or refused("one", data)
    if not why:
        copy = oracle.Meaning(reported.held_in(data)).copy
        places = reported_copy.places_of(old_of, copy)
        taken = reported_copy.taken(places, len(old_of), at, everywhere)
        if taken:
            return changed_by_hand(name, data, site, oracle_runs.replaced(copy, taken, old_of, new_of), got), {"replace done" + " at a place" * (at is not None) + " everywhere" * everywhere}
        out, why = reported_copy.reported_places(old_of, copy), "copydesk: %s\n" % ("%d place%s" % (len(places), "s" * (len(places) > 1)) if places else "no place")
    wrong = differing(name, got, (1, out.encode(), why.encode())) or (None if read("one") == data else name + ": the feed changed")
    return wrong, forms_of("replace", why)


def places_in(data, text, plain):
    """The last place of a text in the copy of a feed, if it has one, and those before it."""
    try:
        sought = reported_copy.read_text(text.encode("utf-8", "surrogateescape"), plain)
    except reported_copy.NoText:
        return []
    return reversed(reported_copy.places_of(sought, oracle.Meaning(reported.held_in(data) or set()).copy))


def found(program, feed, data, case_data, wedge_data):
    """The places of a piece of a feed's copy, with their lines by a case and a wedge, or without."""
    number = pick_of(data, b"find")
    held, both = reported.held_in(data), reported_galley.inputs(("case", "wedge"), case_data, wedge_data)
    if number & 3 and held and not isinstance(both, str):  # the settings of a galley, by a site that comes last
        world = reported.world_of(9, held)
        given = {"measure": 12 + number % 90, "tight": 38, "loose": 150, "case": both[0]["number"], "wedge": both[1]["wedge"]}
        for key, value in given.items():
            world.answer(b"set 9 %s %d" % (key.encode(), value))
        data = oracle.runs_feed(world.sites[9])
    copy = oracle.Meaning(held or set()).copy
    at = (number >> 5) % (len(copy) + 1)
    text = reported.exported(copy[at:at + (number >> 3) % 4]) + "_" * (number % 19 == 0)
    files, metal, plain = {feed: data}, (), number % 13 == 0
    if number & 5:
        metal, files = ("case", "wedge"), {feed: data, "case": case_data, "wedge": wedge_data}
    words = ["find", feed, *["--plain"] * plain, *(["--case", "case", "--wedge", "wedge"] if metal else []), "--", text]
    return on_files(program, words, files, oracle_runs.find, feed, text=text.encode("utf-8", "surrogateescape"), plain=plain, metal=metal)


def with_piece(text, number):
    """A text with what may be its first fault put into it."""
    at = (number >> 4) % (len(text) + 1)
    return text[:at] + PIECES[number % len(PIECES)] + text[at:]


def texts_of(data, other):
    """A text to import, and a text with another to take its place, each with whether it is plain: of the copies of two feeds."""
    number = pick_of(data, other)
    held, theirs = reported.held_in(data) or set(), reported.held_in(other) or set()
    copy, their = oracle.Meaning(held).copy, oracle.Meaning(theirs).copy
    text = reported.exported((copy, their, copy[:len(copy) // 2] + their[len(their) // 3:], their + copy)[number % 4]).encode()
    if number & 4:
        text = with_piece(text, number >> 4)
    if number % 17 == 0:
        text = b""
    at, size = (number >> 5) % (len(copy) + 1), (number >> 9) % 4
    old, new = reported.exported(copy[at:at + size]), reported.exported(their[:(number >> 11) % 5])
    if number % 7 == 0:
        old, new = (old, new + "_") if number & 16 else (old + "\\", new)
    return (text, number % 11 == 0, number % 3 == 0), (old, new, number % 13 == 0)


def by_hand(program, data, other):
    """An import and a replacement."""
    text, exchange = texts_of(data, other)
    wrong, forms = imported(program, data, *text)
    if wrong:
        return wrong, forms
    wrong, more = replaced(program, data, *exchange)
    return wrong, forms | more


def merged(program, data, other):
    """A merge with more than one feed, of which one may be the feed itself."""
    names, forks = [("two", "one", "two"), ("one", "two")][pick_of(data) & 1], pick_of(other) & 1
    words = ["merge", "one", *names] + ["--forks"] * forks
    return on_files(program, words, {"one": data, "two": other}, oracle_runs.merge, "one", *names, forks=bool(forks))


def on_files(program, words, files, command, *names, **flags):
    """A command on files: what differs, or none, of what it says and of what then is stored, and the forms of it."""
    for file, data in files.items():
        write(file, data)
    due, name = oracle_runs.run(command, files, *names, **flags), " ".join(words)
    wrong, left = differing(name, ran(program, words), bytes_of(due)), unlike(name, due[3])
    return wrong or left, forms_of(words[0], due[1] + due[2])


def unlike(name, files):
    """What is wrong with the files that a command has left; they are taken away."""
    left = {file: there(file) for file in {"new", *files}}
    if all(data == files.get(file) for file, data in left.items()):
        return None
    return "%s: it has left %r" % (name, {file: data and data.hex() for file, data in left.items()})


def renewed(program, data, other):
    """A feed renewed, and a feed renumbered by the other."""
    number = pick_of(other, data)
    renewal = ["renew", "new", "one", "--site", str(number % 4 + 1)]
    wrong, forms = on_files(program, renewal, {"one": data}, oracle_runs.renew, "new", "one", number % 4 + 1)
    if wrong:
        return wrong, forms
    wrong, more = renumbered(program, {"one": data, "two": other}, "one", "two", (1, 2, 4, 9)[number >> 2 & 3])
    return wrong, forms | more


def as_it_was(program, data):
    """The copy of a feed as it was at a counter."""
    until = (0, 1, 2, 3, 5, 8, 63, 64, 1 << 62, (1 << 64) - 1)[pick_of(data) % 10]
    return on_files(program, ["export", "one", "--at", str(until)], {"one": data}, oracle_runs.export, "one", until=until)


def roomed(program, data):
    """What each site made of a feed."""
    return on_files(program, ["rooms", "one"], {"one": data}, oracle_runs.rooms, "one")


def logged(program, data):
    """The corrections of a feed, some of them, or those with a piece of its copy."""
    number, flags = pick_of(data, b"log"), {}
    copy = oracle.Meaning(reported.held_in(data) or set()).copy
    at = (number >> 6) % (len(copy) + 1)
    if number % 3 == 0:
        flags["site"] = 1 + (number >> 3) % 4
    if number % 5 == 0:
        flags["since"] = (number >> 4) % 40
    words = ["log", "one", *(word for name in flags for word in ("--" + name, str(flags[name])))]
    if number % 2:
        text = reported.exported(copy[at:at + (number >> 2) % 4]) + "_" * (number % 19 == 0)
        words, flags["text"] = [*words, "--", text], text.encode("utf-8", "surrogateescape")
    return on_files(program, words, {"one": data}, oracle_runs.log, "one", **flags)


def renumbered(program, files, feed, other, site):
    """A feed renumbered: behind the first line are words that read otherwise, and no others."""
    for file, data in files.items():
        write(file, data)
    words = ["renumber", feed, other, "--site", str(site)]
    due = oracle_runs.run(oracle_runs.renumber, files, feed, other, site)
    got, name = ran(program, words), " ".join(words)
    wrong, left = differing(name, first_line(got), bytes_of(due)), unlike(name, due[3])
    if not wrong and due[0] == 0:
        wrong = reads_otherwise(files.get(feed), due[3].get(feed), got[1])
        wrong = wrong and "%s: %s" % (name, wrong)
    return wrong or left, forms_of(words[0], due[1] + due[2])


def first_line(got):
    """A status, the first line of an output, and the lines on standard error."""
    return got[0], got[1][:got[1].find(b"\n") + 1] or got[1], got[2]


def reads_otherwise(before, after, out):
    """What is wrong with the words behind a first line: those in which the copy of a feed, or of none, differs from another."""
    copies = [oracle.Meaning(set(oracle.read_feed(data or b"MFD2"))).copy for data in (before, after)]
    return reported_copy.differs_in(*copies, out.decode().split("\n")[1:-1])


def sorted_out(program, feed, data, case_data):
    """The sorts of a feed by a case."""
    write("case", case_data)
    layout = pick_of(data) & 1
    got = ran(program, ["sorts", feed, "--case", "case"] + ["--layout"] * layout)
    case = reported_galley.inputs(("case", "wedge"), case_data, None)
    why = refused(feed, data) or ("copydesk: input refused\n" + case if isinstance(case, str) else "")
    if why:
        return differing("sorts", got, (1, b"", why.encode())), forms_of("sorts", why)
    out, whole = reported_galley.sorts(oracle.Meaning(reported.held_in(data)).copy, case[0], bool(layout))
    return differing("sorts", got, (0 if whole else 1, out.encode(), b"")), forms_of("sorts", out)


def other_files(name, left, due):
    """Where files that a run has left differ from those that are due, or none."""
    for file in sorted({*left, *due}):
        one, two = left.get(file), due.get(file)
        if one is None or two is None:
            if one != two:
                return "%s: %s %s" % (name, "no" if one is None else "a", file)
        elif one != two:
            at = next((k for k, (a, b) in enumerate(zip(one, two)) if a != b), min(len(one), len(two)))
            return "%s: %s, byte %d: %r, due %r" % (name, file, at, one[max(0, at - 60):at + 60], two[max(0, at - 60):at + 60])
    return None


def pictured(data, galley):
    """What is wrong with the picture of a galley, as XML has it."""
    try:
        root = ElementTree.fromstring(data)
    except ElementTree.ParseError as fault:
        return "no XML: %s" % fault
    seen = pictures.galley_in(root)
    frame = [float(it.get("width")) for it in root.iter(pictures.SVG + "rect") if it.get("class") == "frame"]
    if frame != [galley.settings["measure"]] or len(seen) != len(galley.lines):
        return "a frame of %r, %d lines of %d" % (frame, len(seen), len(galley.lines))
    for line, drawn in zip(galley.lines, seen):
        words = pictures.shown(" ".join("".join(chr(ch) for _, ch in word) for word in line.words))
        due = (line.number, line.begin, bool(line.fault), sum(line.fills), words.rstrip(" "), line.fault or "")
        got = (drawn["number"], drawn["place"], drawn["faulty"], len(drawn["boxes"]), drawn["text"].rstrip(" "), drawn["cause"])
        if got != due:
            return "line %d: %r and not %r" % (line.number, got, due)
        if len(drawn["x"]) != len(drawn["text"]):
            return "line %d: %d places for %r" % (line.number, len(drawn["x"]), drawn["text"])
    return None


METAL = ("case", "wedge")


def drawn_of(program, source, files, words, trial, targets, **flags):
    """A proof of a feed or of a text with its picture and its document: what differs of what it says and of all files, what is due,
    and the files that it has made."""
    for file, data in files.items():
        write(file, data)
    why, name = refused_trial(trial), " ".join(words)
    due = (1, "", why, files) if why else oracle_runs.run(oracle_runs.proof, files, source, *METAL, *targets, trial=trial, **flags)
    wrong = differing(name, ran(program, words), bytes_of(due))
    left = {file: read(file) for file in os.listdir(".") if file in files or file.startswith("a.")}
    made = {file: there(file) for file in left if file not in files}
    return wrong or other_files(name, left, due[3]), due, made


def words_of(source, alone, gcc, warn, trial, targets, height):
    words = ["proof", *source, "--case", "case", "--wedge", "wedge", *["--faults"] * alone, *["--format", "gcc"] * gcc, *["--warn"] * warn]
    words += [word for option, target in zip(("--svg", "--html"), targets) if target for word in (option, target)]
    return words + (["--page", str(height)] if height else []) + [word for key, value in trial for word in ("--set", "%s=%d" % (key, value))]


def proofed(program, feed, data, case_data, wedge_data, trial, picture):
    """The proof of a feed by settings that are tried, whole or its faults or for editors, with second looks or without, and its
    picture where one is wanted, and its document."""
    number = pick_of(data, wedge_data)
    asked = {"alone": bool(number & 1), "gcc": number % 5 < 2, "warn": bool(number & 4)}
    targets = ("a.svg" if picture else None, "a.html" if number % 7 < 3 else None)
    height = 200 + number % 900 if any(targets) and number % 3 else None
    words = words_of([feed], *asked.values(), trial, targets, height)
    wrong, due, made = drawn_of(program, feed, {feed: data, "case": case_data, "wedge": wedge_data}, words, trial, targets, height=height, **asked)
    if not wrong and "a.svg" in made and not height:
        meaning, metal = oracle.Meaning(reported.held_in(data)), reported_galley.inputs(METAL, case_data, wedge_data)
        galley = reported_galley.galley_in(meaning.copy, {**meaning.settings, **dict(trial)}, *metal)
        wrong = None if isinstance(galley, str) else pictured(made["a.svg"], galley)
    return wrong, forms_of("proof gcc" if asked["gcc"] else "proof", due[1] + due[2]) | looks_of(due[1]) | pages_of(made.get("a.html"))


def pages_of(data):
    """The forms of a document: whether it has a galley, how many pages, and which heads."""
    text = (data or b"").decode()
    heads = ["head " + head for head in re.findall(r"<h2>(.*)</h2>", text)]
    return {"page " + it for it in (*heads, "%d" % min(4, text.count("<svg ")), "none" if "no galley" in text else "some")} if text else set()


def refused_trial(trial):
    """What is said on standard error of the first text of settings that may not be tried, or an empty text."""
    bad = [(key, value) for key, value in trial if not oracle.RANGES[key][0] <= value <= oracle.RANGES[key][1]]
    return "copydesk: input refused\n--set %s=%d: no setting, or no value that it may have\n" % bad[0] if bad else ""


def looks_of(out):
    """The forms of the second looks among what is written."""
    return {"look " + cause for cause in re.findall(r"(?:look at \d+|: warning): ([a-z ]+)", out)}


def text_proofed(program, text, plain, case_data, wedge_data, trial):
    """The proof of a text by settings that are tried, for editors and then as a galley, with second looks; and its picture, its
    pages and its document."""
    number, forms = pick_of(text, wedge_data), set()
    files, source = {"text": text, "case": case_data, "wedge": wedge_data}, ["--text", "text", *["--plain"] * plain]
    for gcc in (True, False):
        asked, height = {"alone": bool(number & 1), "gcc": gcc, "warn": True}, None if gcc else 200 + number % 900
        targets = ("a.svg", None if gcc else "a.html")
        words = words_of(source, *asked.values(), trial, targets, height)
        wrong, due, made = drawn_of(program, "text", files, words, trial, targets, height=height, text="plain" if plain else "marks", **asked)
        if wrong:
            return wrong, forms
        forms |= forms_of("text gcc" if gcc else "text", due[1] + due[2]) | looks_of(due[1]) | pages_of(made.get("a.html"))
    return None, forms


def punched_again(program, ribbon, files, names, cast):
    """What is wrong with the ribbon of a feed that is punched several times, and with the reading of it: its rows are those of
    the one ribbon so often, and a mark is written where each but the last ends."""
    count = 2 + pick_of(ribbon, b"punch") % 3
    words = ["punch", *["feed"] * count, "--case", names[0], "--wedge", names[1], "-o", "rib"]
    got, stored = ran(program, words), there("rib")
    many = oracle.ribbon_bytes(reported.images_of(ribbon) * count)
    if got != (0, b"", b"") or stored != many:
        return "%s: %r, %r" % (" ".join(words), got, stored)
    due, whole = reported.reading(many, *reported_galley.inputs(names, *files))
    if not whole or due.count("-- end of galley ") != count - 1 or not due.startswith("RIBBON %d lines" % (count * int(cast.split(b" ")[1]))):
        return "read: of %d galleys %r" % (count, due)
    write("rib", many)
    got = ran(program, ["read", "rib", "--case", names[0], "--wedge", names[1]])
    there("rib")
    return differing("read of %d galleys" % count, got, (0, due.encode(), b""))


def read_again(program, ribbon, files, names, cast):
    """What is wrong with the reading of a ribbon that was punched, whose lines are those that `cast` has answered."""
    case, wedge = reported_galley.inputs(names, *files)
    due, whole = reported.reading(ribbon, case, wedge)
    images = [int.from_bytes(ribbon[at:at + 4], "big") for at in range(8, len(ribbon), 4)]
    lines = reported.sent_out(images, case, wedge)
    if not whole or cast.decode() != "lines %d" % len(lines) + "".join(" %d/%d" % (len(line[2]), sum(line[2])) for line in lines):
        return "read: the lines of the ribbon are not those that are cast, %r" % cast[:300]
    write("rib", ribbon)
    got = ran(program, ["read", "rib", "--case", names[0], "--wedge", names[1]])
    there("rib")
    return differing("read", got, (0, due.encode(), b""))


def rows_drawn(data):
    """Of the picture of a ribbon its title, the places of its rows as they stand, and of each how many circles it has."""
    root = data if isinstance(data, ElementTree.Element) else ElementTree.fromstring(data)
    title = next(it.text for it in root.iter(pictures.SVG + "text") if it.get("class") is None and it.get("transform") is None)
    circles = {}
    for it in root.iter(pictures.SVG + "circle"):
        circles.setdefault(int(it.get("cy")), set()).add(int(it.get("cx")))
    rows = [(int(it.get("y")) - 3, int(it.text)) for it in root.iter(pictures.SVG + "text") if it.get("class") == "n"]
    return title, [place for _, place in rows], [len(circles.get(y, ())) for y, _ in rows]


def drawn(program, name, data, whole, some=None):
    """The picture of a ribbon, or of some of its lines: a row for each image, the last first, a circle for each hole."""
    lines = [] if some is None else ["--lines", "%d..%d" % some]
    status, _, why = ran(program, ["read", name, "--case", "case", "--wedge", "wedge", "--svg", "holes.svg", *lines])
    picture = there("holes.svg")
    lawful = data[:4] == b"MRB1" and reported.of_ribbon(data).startswith("ok")
    if status != (0 if whole else 1) or why or (picture is not None) != lawful:
        return "read --svg: status %s, %r, %s" % (status, why, "a picture" if picture else "no picture")
    if not lawful:
        return None
    try:
        title, rows, holes = rows_drawn(picture)
    except (ElementTree.ParseError, StopIteration) as fault:
        return "read --svg: no XML, or no title: %s" % fault
    images = reported.images_of(data)
    if (title, rows) != reported.picture_of(data, some) or holes != [images[place].bit_count() for place in rows]:
        return "read --svg %s: %r, other rows or holes: %r" % (" ".join(lines), title, rows)
    return None


def read_in_part(program, name, data, metal):
    """Some lines of a ribbon, or its figures, by a case and a wedge; which, its bytes pick."""
    number = pick_of(data, b"read")
    begin = 1 + (number >> 4) % 5
    some, pitch = (begin, begin + (number >> 8) % 4), (1 + (number >> 4) % 9, 1 + (number >> 9) % 24)
    due, whole = reported.reading(data, *metal, some, None) if number & 1 else reported.reading(data, *metal, None, pitch)
    words = ["--lines", "%d..%d" % some] if number & 1 else ["--stats", "--pitch", "%d/%d" % pitch]
    words = ["read", name, "--case", "case", "--wedge", "wedge", *words]
    wrong = differing(" ".join(words), ran(program, words), (0 if whole else 1, due.encode(), b""))
    if not wrong and number % 6 == 1:
        wrong = drawn(program, name, data, whole, some)
    return wrong, {"read some " + re.sub(r"[0-9]+", "#", re.sub(r"[^ -~]+", "", line))[:30] for line in due.split("\n")[2:5]}


def told_apart(program, names, ribbons, metal):
    """Two ribbons, by what they cast."""
    due, same = reported.differing(names, ribbons, *metal)
    words = ["diff", *names, "--case", "case", "--wedge", "wedge"]
    wrong = differing(" ".join(words), ran(program, words), (0 if same else 1, due.encode(), b""))
    head = due.split("\n")[0]
    signs = "".join(line[:1] for line in due.split("\n")[1:])
    return wrong, {"diff ribbons " + re.sub(r"[0-9]+", "#", re.sub(r"rib\d+", "rib", head))[:50], "diff ribbons " + re.sub(r"([+-]{2,})\1+", r"\1", signs)[:6]}
