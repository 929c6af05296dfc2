"""The log of a stored feed by the independent program: a line for each correction, the newest last.

A correction is a longest row of operations of one site whose counters follow one another.
"""
import oracle
import reported_copy

MOST, END = 40, 18


def corrections(held):
    """The rows of a set, each in order, by their last stamps; of one stamp all operations are in one row."""
    rows = []
    for op in sorted(held, key=lambda op: (op[1][1], oracle.order(op))):
        counter, site = op[1]
        if rows and rows[-1][-1][1] in ((counter, site), (counter - 1, site)):
            rows[-1].append(op)
        else:
            rows.append([op])
    return sorted(rows, key=lambda row: row[-1][1])


def places_of(meaning):
    """Of each element of the walk how many are shown before it, and whether it is shown."""
    out, before = {}, 0
    for op in meaning.walk:
        is_shown = op[1] not in meaning.deleted
        out[op[1]] = (before, is_shown)
        before += is_shown
    return out


def place(row, places):
    """Where a row is in the copy: at its first insert that is shown, or else at the first element that it targets."""
    own = [places[op[1]] for op in row if op[0] == "insert" and op[1] in places]
    targets = [places[op[2]][0] for op in row if op[0] == "delete" and op[2] in places]
    return next((at for at, is_shown in own if is_shown), targets[0] if targets else None)


def bearing_of(held):
    """Of each stamp the operations of a set that bear it, in order: inserts first."""
    out = {}
    for op in sorted(held, key=oracle.order):
        out.setdefault(op[1], []).append(op)
    return out


def texts_of(row, bearing):
    """What a row inserts, and of each target of its deletes the symbol of the first insert that bears it, if the set has one."""
    inserted = [op[3] for op in row if op[0] == "insert"]
    deleted = [one[3] for op in row if op[0] == "delete" for one in bearing.get(op[2], ())[:1] if one[0] == "insert"]
    return inserted, deleted


def shown(copy):
    """A text between its quotes: of a long one what it begins and ends with."""
    if len(copy) > MOST:
        copy = copy[:END] + [(0, ord(ch)) for ch in " .. "] + copy[-END:]
    return "\"%s\"" % reported_copy.shown(copy)


def line(row, places, bearing, faults):
    """The line of a row."""
    first, last = row[0][1], row[-1][1]
    out = oracle.stamp_text(first) + (".." + oracle.stamp_text(last) if first != last else "")
    at = place(row, places)
    if at is not None:
        out += " at %d" % at
    elif any(op[0] != "set" for op in row):
        out += " not shown"
    for sign, text in zip("+-", texts_of(row, bearing)):
        out += " %s %s" % (sign, shown(text)) if text else ""
    out += "".join(" %s %d" % op[2:] for op in row if op[0] == "set")
    stamps = {op[1] for op in row}
    for kind in ("forked", "void", "waiting"):
        count = sum(1 for what, stamp in faults if what == kind and stamp in stamps)
        out += " %s %d" % (kind, count) if count else ""
    return out + "\n"


def log(held, site=None, since=None, text=None):
    """The lines of the corrections of a set: of one site, with a last counter no smaller, with a text in what came or went."""
    meaning, bearing = oracle.Meaning(held), bearing_of(held)
    places, out = places_of(meaning), ""
    for row in corrections(held):
        counter, number = row[-1][1]
        if site not in (None, number) or since is not None and counter < since:
            continue
        if text is None or any(reported_copy.places_of(text, one) for one in texts_of(row, bearing)):
            out += line(row, places, bearing, meaning.faults)
    return out
