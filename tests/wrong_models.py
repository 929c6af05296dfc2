#!/usr/bin/env python3
"""A test of the tests: wrong programs that a composing room would fear, each told from the right one by the jobs of `jobs.py`, by the
random scripts, runs and commands on files of `differential.py`, by the scripts of `growths.py`, or by the corpus of `fuzz.py`.

usage: wrong_models.py             ends with 1 where fewer than 3 jobs, or 3 scripts, answer otherwise by a wrong model
       wrong_models.py --count     runs all of them, and prints of each wrong model how many answer otherwise

Each wrong model is the independent program with one or two of its texts replaced, so no proved program is needed. Each old text has
to stand exactly once in the files of SOURCE together.
"""
import collections
import functools
import multiprocessing
import os
import random
import sys
import tomllib
import types

HERE = os.path.dirname(os.path.abspath(__file__))
sys.path.insert(0, HERE)
import differential
import differential_files
import fuzz
import fuzz_asks
import fuzz_kinds
import growths
import jobs
import oracle
import reported
from wrong_notes import NOTES
from wrong_pages import PAGES
from wrong_runs import PLAYS, READINGS, RUNS, STOPS

SOURCE = ("oracle.py", "oracle_runs.py", "oracle_readings.py", "reported.py", "reported_copy.py", "reported_galley.py", "oracle_log.py", "oracle_room.py", "oracle_notes.py",
          "oracle_pages.py")

# Of the ribbon half: lines, justification, faults, units, rows, the caster, the two files.
RIBBON = {
    # groups
    "a group that fits exactly does not fit": [("(n - 1) * tight_space <= measure", "(n - 1) * tight_space < measure")],
    "broken one word early": [("            at += best\n", "            at += max(1, best - 1)\n"), ("groups.append((at, at + best))", "groups.append((at, at + max(1, best - 1)))")],
    "broken one word late": [("(n - 1) * tight_space <= measure", "(n - 1) * tight_space <= measure + widths[at + n - 1]")],
    "groups measured with neutral spaces": [("(n - 1) * tight_space <= measure", "(n - 1) * space <= measure")],
    "groups measured with a space too many": [("(n - 1) * tight_space <= measure", "n * tight_space <= measure")],
    "groups measured without their spaces": [("sum(widths[at:at + n]) + (n - 1) * tight_space <= measure", "sum(widths[at:at + n]) <= measure")],
    "empty words are dropped": [("words = split(paragraph, (0, 32))", "words = [w for w in split(paragraph, (0, 32)) if w] or [[]]")],
    "empty paragraphs are dropped": [("    lines = []\n    for paragraph in paragraphs:", "    lines = []\n    for paragraph in filter(None, paragraphs):")],
    "the empty last paragraph is kept": [("    if not paragraphs[-1]:\n        paragraphs.pop()\n", "")],
    "every empty last paragraph is dropped": [("    if not paragraphs[-1]:\n", "    while paragraphs and not paragraphs[-1]:\n")],
    "the space between two groups is kept": [("inner = sum(widths[a:b]) + (b - a - 1) * tight_space", "inner = sum(widths[a:b]) + (b - a - (k + 1 == len(groups))) * tight_space")],
    "line feeds are spaces": [("paragraphs = split(copy, (0, 10))", "paragraphs = split([(0, 32) if y == (0, 10) else y for y in copy], (0, 10))")],
    # filled lines
    "last lines are justified": [("filled = k + 1 == len(groups) or b - a == 1", "filled = b - a == 1")],
    "a word alone is not filled": [("filled = k + 1 == len(groups) or b - a == 1", "filled = k + 1 == len(groups)")],
    "every line is filled": [("filled = k + 1 == len(groups) or b - a == 1", "filled = True")],
    "only the last line of the copy is filled": [("filled = k + 1 == len(groups) or b - a == 1", "filled = paragraph is paragraphs[-1] and k + 1 == len(groups) or b - a == 1")],
    "no space is added": [("added = filled and inner + tight_space <= measure", "added = False")],
    "a space is added that does not fit": [("added = filled and inner + tight_space <= measure", "added = filled")],
    "a space is added to each line": [("added = filled and inner + tight_space <= measure", "added = inner + tight_space <= measure")],
    "a space is added to a word alone only": [("added = filled and inner + tight_space <= measure", "added = filled and b - a == 1 and inner + tight_space <= measure")],
    "the added space has to leave some room": [("added = filled and inner + tight_space <= measure", "added = filled and inner + tight_space < measure")],
    "the added space is measured at neutral": [("added = filled and inner + tight_space <= measure", "added = filled and inner + space <= measure")],
    "the added space is not justified": [("spaces = b - a - 1 + (1 if added else 0)", "spaces = max(b - a - 1, 1 if added else 0)")],
    "fills stand before the added space": [("        if added:\n            images.append(image_cell(case[\"space\"], True))\n", ""),
                                           ("            images.extend([image_cell(cell, False)] * count)\n", "            images.extend([image_cell(cell, False)] * count)\n        if added:\n            images.append(image_cell(case[\"space\"], True))\n")],
    "fills stand narrowest first": [("zip(case[\"fill\"], fills)", "reversed(list(zip(case[\"fill\"], fills)))")],
    "fills are used narrowest first": [("                for j, cell in enumerate(case[\"fill\"]):\n", "                for j, cell in reversed(list(enumerate(case[\"fill\"]))):\n")],
    "only the widest fill is used": [("                for j, cell in enumerate(case[\"fill\"]):\n", "                for j, cell in enumerate(case[\"fill\"][:1]):\n")],
    "three fills at most": [("                for j, cell in enumerate(case[\"fill\"]):\n", "                for j, cell in enumerate(case[\"fill\"][:3]):\n")],
    "a fill that fits exactly is left out": [("fills[j] = left // width(cell)", "fills[j] = max(0, left - 1) // width(cell)")],
    "each fill is used once at most": [("fills[j] = left // width(cell)", "fills[j] = min(1, left // width(cell))")],
    "one fill too many": [("fills[j] = left // width(cell)", "fills[j] = -(-left // width(cell))")],
    "fills in every line": [("if filled and rest >= 0:", "if rest >= 0:")],
    "fills where the rest is negative": [("if filled and rest >= 0:", "if filled:")],
    "no fills": [("if filled and rest >= 0:", "if False:")],
    "fills measured with the spaces at tight": [("                left = rest\n", "                left = rest - spaces * (tight_space - space)\n"), ("                rest = left\n", "                rest -= sum(n * width(cell) for n, cell in zip(fills, case[\"fill\"]))\n")],
    # justification
    "division truncates": [("p = 53 + rest // (STEP * spaces)", "p = 53 + int(rest / (STEP * spaces))")],
    "division rounds": [("p = 53 + rest // (STEP * spaces)", "p = 53 + (2 * rest + STEP * spaces) // (2 * STEP * spaces)")],
    "division rounds up": [("p = 53 + rest // (STEP * spaces)", "p = 53 - -rest // (STEP * spaces)")],
    "drift with the wrong sign": [("p = 53 + rest // (STEP * spaces)", "p = 53 - rest // (STEP * spaces)")],
    "the rest goes to one space": [("p = 53 + rest // (STEP * spaces)", "p = 53 + rest // STEP")],
    "the added space takes no part": [("p = 53 + rest // (STEP * spaces)", "p = 53 + rest // (STEP * max(1, spaces - added))")],
    "a step of 0.0005 of another inch": [("STEP = 648", "STEP = 650")],
    "neutral is 3 and 3": [("p = 53 + rest // (STEP * spaces)", "p = 48 + rest // (STEP * spaces)")],
    "fine and coarse swapped": [("images.append(image_coarse((p - 1) // 15))", "images.append(image_coarse((p - 1) % 15 + 1))"), ("images.append(image_fine((p - 1) % 15 + 1))", "images.append(image_fine((p - 1) // 15))")],
    "fine positions count from 0": [("images.append(image_coarse((p - 1) // 15))", "images.append(image_coarse(p // 15))"), ("images.append(image_fine((p - 1) % 15 + 1))", "images.append(image_fine(p % 15 or 1))")],
    "neutral positions on every line": [("images.append(image_coarse((p - 1) // 15))", "images.append(image_coarse(3))"), ("images.append(image_fine((p - 1) % 15 + 1))", "images.append(image_fine(8))")],
    "ordinary lines at neutral": [("        for k, word in enumerate(words):\n            if k:\n                images.append", "        p = p if filled else 53\n        for k, word in enumerate(words):\n            if k:\n                images.append")],
    # faults of lines
    "tight taken for loose": [("elif p > settings[\"loose\"]:", "elif p > settings[\"tight\"]:")],
    "loose taken for tight in a filled line": [("if p < settings[\"tight\"] or p > 240:", "if p < settings[\"loose\"] or p > 240:")],
    "loose taken for tight in groups": [("measure, settings[\"tight\"]), 1):", "measure, settings[\"loose\"]), 1):")],
    "as loose as loose is too loose": [("elif p > settings[\"loose\"]:", "elif p >= settings[\"loose\"]:")],
    "one looser than loose is not too loose": [("elif p > settings[\"loose\"]:", "elif p > settings[\"loose\"] + 1:")],
    "no line is too loose": [("elif p > settings[\"loose\"]:", "elif p > 240:")],
    "a filled line as tight as tight": [("if p < settings[\"tight\"] or p > 240:", "if p <= settings[\"tight\"] or p > 240:")],
    "a filled line one tighter than tight": [("if p < settings[\"tight\"] or p > 240:", "if p < settings[\"tight\"] - 1 or p > 240:")],
    "a filled line at 240 is refused": [("if p < settings[\"tight\"] or p > 240:", "if p < settings[\"tight\"] or p >= 240:")],
    "a filled line at 241 is set": [("if p < settings[\"tight\"] or p > 240:", "if p < settings[\"tight\"] or p > 241:"), ("image_coarse((p - 1) // 15)", "image_coarse(min(15, (p - 1) // 15))")],
    "a filled line may not be loose": [("if p < settings[\"tight\"] or p > 240:", "if p < settings[\"tight\"] or p > settings[\"loose\"]:")],
    "a filled line wider than neutral is never refused": [("if p < settings[\"tight\"] or p > 240:", "if p < min(53, settings[\"tight\"]) or p > 240:")],
    "what cannot be filled is too loose": [("\"cannot fill %d\" % n", "\"too loose %d\" % n")],
    "too wide only where the words are wider than the measure": [("        if spaces == 0:\n            faults.append", "        spaces = spaces or (1 if rest >= 0 else 0)\n        if spaces == 0:\n            faults.append")],
    "lines count from 0": [("measure, settings[\"tight\"]), 1):", "measure, settings[\"tight\"]), 0):")],
    "the first line's fault alone": [("return (faults, None) if faults else ([], images)", "return (faults[:1], None) if faults else ([], images)")],
    "a line with a fault is left out": [("return (faults, None) if faults else ([], images)", "return [], images")],
    # faults of the job
    "the last missing key": [("    for key in KEYS:\n        if settings[key] is None:", "    for key in reversed(KEYS):\n        if settings[key] is None:")],
    "the wedge before the case": [("    if settings[\"case\"] != case[\"number\"]:\n        return [\"other case\"], None\n", ""), ("        return [\"other wedge\"], None\n", "        return [\"other wedge\"], None\n    if settings[\"case\"] != case[\"number\"]:\n        return [\"other case\"], None\n")],
    "any case will do": [("settings[\"case\"] != case[\"number\"]", "False")],
    "any wedge will do": [("settings[\"wedge\"] != wedge[\"wedge\"]", "False")],
    "tight at loose is crossed": [("settings[\"tight\"] > settings[\"loose\"]", "settings[\"tight\"] >= settings[\"loose\"]")],
    "crossed settings pass": [("settings[\"tight\"] > settings[\"loose\"]", "False")],
    "equal fills are in order": [("units[k] <= units[k + 1]", "units[k] < units[k + 1]")],
    "fills in any order": [("units[k] <= units[k + 1]", "False")],
    "the space vanishes at loose": [("if space + STEP * (settings[\"tight\"] - 53) <= 0:", "if space + STEP * (settings[\"loose\"] - 53) <= 0:")],
    "the space vanishes a unit of the set too early": [("if space + STEP * (settings[\"tight\"] - 53) <= 0:", "if space + STEP * (settings[\"tight\"] - 53) <= pica:")],
    "no space vanishes": [("if space + STEP * (settings[\"tight\"] - 53) <= 0:", "if False:")],
    "a missing sort is skipped": [("    measure = settings[\"measure\"] * 72 * pica\n", "    measure = settings[\"measure\"] * 72 * pica\n    copy = [y for y in copy if y in ((0, 32), (0, 10)) or y in case[\"symbols\"]]\n"), ("    if lacking:\n        return lacking, None\n", "")],
    "the first missing sort alone": [("        return lacking, None", "        return lacking[:1], None")],
    "places count from 1": [("\"no matrix %d\" % k for k, y", "\"no matrix %d\" % (k + 1) for k, y")],
    "places are counted without spaces": [("for k, y in enumerate(copy) if y not in ((0, 32), (0, 10)) and", "for k, y in enumerate([y for y in copy if y not in ((0, 32), (0, 10))]) if")],
    "a sort of another style will do": [("return 0, {\"number\": doc[\"case\"], \"symbols\": symbols,", "symbols = {**{(s, y[1]): c for y, c in symbols.items() for s in (0, 1, 2)}, **symbols}\n    return 0, {\"number\": doc[\"case\"], \"symbols\": symbols,")],
    # units
    "American pica taken as a sixth of an inch": [("    pica = 250 if wedge[\"pica\"] == \"sixth\" else 249\n    unit = wedge[\"set_q\"] * pica\n    width = lambda", "    pica = 250\n    unit = wedge[\"set_q\"] * pica\n    width = lambda")],
    "the measure always in sixths": [("measure = settings[\"measure\"] * 72 * pica", "measure = settings[\"measure\"] * 72 * 250")],
    "the set is ignored": [("    unit = wedge[\"set_q\"] * pica\n    width = lambda", "    unit = 48 * pica\n    width = lambda")],
    "the set in whole points": [("    unit = wedge[\"set_q\"] * pica\n    width = lambda", "    unit = wedge[\"set_q\"] // 4 * 4 * pica\n    width = lambda")],
    "units of the row above": [("width = lambda cell: wedge[\"units\"][cell[1] - 1] * unit\n    space", "width = lambda cell: wedge[\"units\"][max(0, cell[1] - 2)] * unit\n    space")],
    "the space has the units of its column": [("    space = width(case[\"space\"])\n", "    space = width((0, min(15, case[\"space\"][0] + 1)))\n")],
    "12 points too many": [("measure = settings[\"measure\"] * 72 * pica", "measure = (settings[\"measure\"] + 12) * 72 * pica")],
    # rows
    "wedge rows before the line": [("        for k, word in enumerate(words):\n            if k:\n                images.append", "        images.append(image_coarse((p - 1) // 15))\n        images.append(image_fine((p - 1) % 15 + 1))\n        for k, word in enumerate(words):\n            if k:\n                images.append"),
                                   ("        images.append(image_coarse((p - 1) // 15))\n        images.append(image_fine((p - 1) % 15 + 1))\n    return", "    return")],
    "0005 before 0075": [("        images.append(image_coarse((p - 1) // 15))\n        images.append(image_fine((p - 1) % 15 + 1))\n", "        images.append(image_fine((p - 1) % 15 + 1))\n        images.append(image_coarse((p - 1) // 15))\n")],
    "no head row": [("faults, images = [], [image_fine(8)]", "faults, images = [], []")],
    "a head row before each line": [("        for k, word in enumerate(words):\n            if k:\n                images.append", "        images.append(image_fine(8))\n        for k, word in enumerate(words):\n            if k:\n                images.append")],
    "another head row": [("faults, images = [], [image_fine(8)]", "faults, images = [], [image_fine(3)]")],
    "S not punched on spaces": [("                images.append(image_cell(case[\"space\"], True))\n            images.extend", "                images.append(image_cell(case[\"space\"], False))\n            images.extend")],
    "S not punched on the added space": [("        if added:\n            images.append(image_cell(case[\"space\"], True))", "        if added:\n            images.append(image_cell(case[\"space\"], False))")],
    "S punched on fills": [("images.extend([image_cell(cell, False)] * count)", "images.extend([image_cell(cell, True)] * count)")],
    "S punched on fills of the space's cell": [("images.extend([image_cell(cell, False)] * count)", "images.extend([image_cell(cell, cell == case[\"space\"])] * count)")],
    "S punched on letters": [("images.extend(image_cell(case[\"symbols\"][y], False) for y in word)", "images.extend(image_cell(case[\"symbols\"][y], True) for y in word)")],
    "words from right to left": [("images.extend(image_cell(case[\"symbols\"][y], False) for y in word)", "images.extend(image_cell(case[\"symbols\"][y], False) for y in reversed(word))")],
    "column O has a signal": [("for letter in COLUMNS[column] if letter != \"O\")", "for letter in COLUMNS[column].replace(\"O\", \"N\"))")],
    "NI is punched as N": [("for letter in COLUMNS[column] if", "for letter in COLUMNS[column][:1] if")],
    "NI is punched as I": [("for letter in COLUMNS[column] if", "for letter in COLUMNS[column][-1:] if")],
    "NI and NL are punched as each other": [("for letter in COLUMNS[column] if", "for letter in COLUMNS[{15: 16, 16: 15}.get(column, column)] if")],
    "NI and NL stand before O": [("            symbols[symbol] = (c, r + 1)\n            cells[(c, r + 1)] = symbol", "            c = {14: 15, 15: 16, 16: 14}.get(c, c) if columns() == 17 else c\n            symbols[symbol] = (c, r + 1)\n            cells[(c, r + 1)] = symbol")],
    "NL stands before NI": [("            symbols[symbol] = (c, r + 1)\n            cells[(c, r + 1)] = symbol", "            c = {15: 16, 16: 15}.get(c, c)\n            symbols[symbol] = (c, r + 1)\n            cells[(c, r + 1)] = symbol")],
    "the symbols of NI and NL are passed over": [("range(15) for c in range(columns())]", "range(15) for c in range(15)]")],
    "a space at NI in a case of 15": [("(\"space\", lambda v: cell_name(v, columns())", "(\"space\", lambda v: cell_name(v, 17)"), ("space, fill = cell_name(doc[\"space\"], columns())", "space, fill = cell_name(doc[\"space\"], 17)")],
    "a fill at NL in a case of 15": [("all(cell_name(t, columns()) is not None", "all(cell_name(t, 17) is not None"), ("[cell_name(t, columns()) for t in doc[\"fill\"]]", "[cell_name(t, 17) for t in doc[\"fill\"]]")],
    "rows of both widths": [("len(r) == len(v[0]) in (15, 17)", "len(r) in (15, 17)"), ("        return len(doc[\"rows\"][0])\n", "        return min(len(r) for r in doc[\"rows\"])\n")],
    "cases of 15 columns alone": [("len(r) == len(v[0]) in (15, 17)", "len(r) == 15")],
    "cases of 17 columns alone": [("len(r) == len(v[0]) in (15, 17)", "len(r) == 17")],
    "row 15 has a signal": [("(bit(str(row)) if row < 15 else 0)", "bit(str(min(row, 14)))")],
    "position 15 has a signal": [("return bit(\"0075\") | (bit(str(c)) if c < 15 else 0)", "return bit(\"0075\") | bit(str(min(c, 14)))")],
    "0005 without 0075": [("return bit(\"0005\") | bit(\"0075\") |", "return bit(\"0005\") |")],
    "columns are read as rows": [("            symbols[symbol] = (c, r + 1)", "            symbols[symbol] = (r, c + 1) if c < 15 else (c, r + 1)")],
    "the number of rows without the head": [("b\"MRB1\" + len(images).to_bytes(4, \"big\")", "b\"MRB1\" + (len(images) - 1).to_bytes(4, \"big\")")],
    "the number of rows in one byte": [("b\"MRB1\" + len(images).to_bytes(4, \"big\")", "b\"MRB1\" + (len(images) & 255).to_bytes(4, \"big\")")],
    # the caster
    "S widens nothing at the caster": [("(STEP * (line[0] - 53) if row[2] else 0)", "0")],
    "every matrix is widened": [("(STEP * (line[0] - 53) if row[2] else 0)", "STEP * (line[0] - 53)")],
    "the caster counts from no neutral": [("(STEP * (line[0] - 53) if row[2] else 0)", "(STEP * line[0] if row[2] else 0)")],
    "lines in the order cast": [("return list(reversed(out))", "return out")],
    "15 fine positions of 0075": [("line = [15 * row[1] + fine, 0, 0]", "line = [row[1] + 15 * fine, 0, 0]")],
    "the caster takes every pica as a sixth": [("    pica = 250 if wedge[\"pica\"] == \"sixth\" else 249\n    unit = wedge[\"set_q\"] * pica\n    fine,", "    pica = 250\n    unit = wedge[\"set_q\"] * pica\n    fine,")],
    "spaces are no matrices": [("            line[1] += 1\n", "            line[1] += 1 - row[2]\n")],
}

# Of the copy half: the walk, forks, what waits, settings, stamps, feeds, gifts.
COPY = {
    "siblings oldest first": [("list(kids.get(HEAD, []))", "list(reversed(kids.get(HEAD, [])))"), ("stack.extend(kids.get(one[1], []))", "stack.extend(reversed(kids.get(one[1], [])))")],
    "children of the head oldest first": [("list(kids.get(HEAD, []))", "list(reversed(kids.get(HEAD, [])))")],
    "of equal counters the smaller site is newer": [("        for op in ops:\n            if op[0] == \"insert\" and op[1] in live and op[1] in clear:", "        for op in sorted(ops, key=lambda o: (o[1][0], -o[1][1])):\n            if op[0] == \"insert\" and op[1] in live and op[1] in clear:")],
    "siblings by site": [("        for op in ops:\n            if op[0] == \"insert\" and op[1] in live and op[1] in clear:", "        for op in sorted(ops, key=lambda o: (o[1][1], o[1][0])):\n            if op[0] == \"insert\" and op[1] in live and op[1] in clear:")],
    "of a fork the first is kept": [("clear = {s: b[0] for s, b in bearing.items() if len(b) == 1}", "clear = {s: b[0] for s, b in bearing.items()}")],
    "of a fork the last is kept": [("clear = {s: b[0] for s, b in bearing.items() if len(b) == 1}", "clear = {s: b[-1] for s, b in bearing.items()}")],
    "tombstones are dropped, and what hangs on them": [("            walk.append(one)\n", "            if one[1] in deleted:\n                continue\n            walk.append(one)\n")],
    "deletes do nothing": [("deleted = {op[2] for op in clear.values()", "deleted = {op[2] for op in ()")],
    "forked deletes delete": [("deleted = {op[2] for op in clear.values()", "deleted = {op[2] for op in ops")],
    "what waits is dropped": [("        if op in self.sites[site]:\n            return False\n", "        if op in self.sites[site]:\n            return False\n        if op[0] != \"set\" and op[2] != HEAD and op[2] not in {held[1] for held in self.sites[site]}:\n            return False\n")],
    "deletes that wait are dropped": [("        if op in self.sites[site]:\n            return False\n", "        if op in self.sites[site]:\n            return False\n        if op[0] == \"delete\" and op[2] not in {held[1] for held in self.sites[site]}:\n            return False\n")],
    "the setting that came last wins": [("self.sites[site] = set()", "self.sites[site] = type(\"Came\", (list,), {\"add\": list.append})()"), ("        for op in ops:\n            if op[0] == \"set\" and op[1] in clear:", "        for op in held:\n            if op[0] == \"set\" and op[1] in clear:")],
    "the setting that came first wins": [("self.sites[site] = set()", "self.sites[site] = type(\"Came\", (list,), {\"add\": list.append})()"), ("        for op in ops:\n            if op[0] == \"set\" and op[1] in clear:", "        for op in reversed(held):\n            if op[0] == \"set\" and op[1] in clear:")],
    "the greatest value wins": [("self.settings[op[2]] = op[3]", "self.settings[op[2]] = max(op[3], self.settings[op[2]] or 0)")],
    "forked settings act": [("            if op[0] == \"set\" and op[1] in clear:", "            if op[0] == \"set\":")],
    "void is told as waiting": [("\"void\" if end in bearing else \"waiting\"", "\"waiting\"")],
    "waiting is told as void": [("\"void\" if end in bearing else \"waiting\"", "\"void\"")],
    "faults of inserts alone": [("            if op[0] == \"set\":\n                continue", "            if op[0] != \"insert\":\n                continue")],
    "a new counter from the site's own operations": [("self.greatest.get(site, 0), op[1][0])", "self.greatest.get(site, 0), op[1][0] if op[1][1] == site else 0)")],
    "a new counter from the number held": [("greatest = self.greatest.get(site, 0)\n        if", "greatest = len(self.sites[site])\n        if")],
    "places count what is deleted": [("self.shown = [op", "self.walk = walk\n        self.shown = [op"), ("        shown = self.meaning(site).shown\n        if place > len(shown):", "        shown = self.meaning(site).walk\n        if place > len(shown):")],
    "symbols of one insert are siblings": [("            parent = stamp  #", "            parent = parent  #")],
    "send gives to the sender": [("return self.gain(command[2], ops)", "return self.gain(site, ops)")],
    "send's end is counted in": [("                ops = ops[a:b]\n", "                ops = ops[a:b + 1]\n")],
    "merge gives to both": [("            return self.gain(site, sorted(self.sites[command[2]], key=order))", "            self.gain(command[2], sorted(self.sites[site], key=order))\n            return self.gain(site, sorted(self.sites[command[2]], key=order))")],
    "what is known counts as new": [("                    known += 1", "                    new += 1")],
    "a feed by kind": [("    ops, bearing = sorted(held, key=order), {}", "    ops, bearing = sorted(held, key=spelling), {}")],
    "a run of 65": [("len(run) < 64:", "len(run) < 65:")],
    "a run over a fork": [("if len(b) == 1 and b[0][0] == \"insert\"}", "if b[0][0] == \"insert\"}")],
    "a run over another parent": [("if after is None or after[2] != run[-1][1]:", "if after is None:")],
    "restart forgets what waits": [("        if name == \"restart\":\n", "        if name == \"restart\":\n            gone = {s for k, s in self.meaning(site).faults if k == \"waiting\"}\n            self.sites[site] = {op for op in self.sites[site] if op[1] not in gone}\n            self.meanings.pop(site)\n")],
    "a target of its own age": [("or not t < counter:", "or not t <= counter:")],
    # runs, read
    "a feed of single operations may hold runs": [("{b\"MFD1\": False, b\"MFD2\": True}", "{b\"MFD1\": True, b\"MFD2\": True}")],
    "runs are no kind": [("{b\"MFD1\": False, b\"MFD2\": True}", "{b\"MFD1\": False, b\"MFD2\": False}")],
    "the inserts of a run are siblings": [("counter, parent = counter + 1, stamp", "counter, parent = counter + 1, parent")],
    "the inserts of a run have counters two apart": [("counter, parent = counter + 1, stamp", "counter, parent = counter + 2, stamp")],
    "a run of one insert": [("if not 2 <= count <= 64:", "if not 1 <= count <= 64:")],
    "a run of 65 is read": [("if not 2 <= count <= 64:", "if not 2 <= count <= 65:")],
    "a run is judged when all of it is there": [("            if not 2 <= count <= 64:\n                raise Feed(at, \"run\")\n            size += 5 * count\n            if len(data) - at < size:\n                raise Feed(at, \"cut\")\n",
                                                "            size += 5 * count\n            if len(data) - at < size:\n                raise Feed(at, \"cut\")\n            if not 2 <= count <= 64:\n                raise Feed(at, \"run\")\n")],
    "an unlawful insert of a run has a place of its own": [("        for single in inserts(one) if kind == 4 else [one]:\n            cause = unlawful(single[0], single)\n            if cause:\n                raise Feed(at,",
                                                          "        for k, single in enumerate(inserts(one) if kind == 4 else [one]):\n            cause = unlawful(single[0], single)\n            if cause:\n                raise Feed(at + (22 + 5 * k if k else 0),")],
    "a feed is written of single operations": [("        if len(run) == 1:\n            out.append(spelling(op))", "        if True:\n            written.difference_update(run[1:])\n            out.append(spelling(op))")],
    # gifts and restarts
    "a restart gives the feed of single operations": [("        if name == \"restart\":\n            return \"ok\"", "        if name == \"restart\":\n            self.sites[site] = set(list(self.sites[site])[:LIMIT]) - {op for op in self.sites[site] if op[0] == \"delete\" and op[2] not in {o[1] for o in self.sites[site]}}\n            self.meanings.pop(site, None)\n            return \"ok\"")],
    "a restart begins the counter anew": [("        if name == \"restart\":\n            return \"ok\"", "        if name == \"restart\":\n            self.greatest[site] = max((op[1][0] for op in self.sites[site] if op[1][1] == site), default=0)\n            return \"ok\"")],
    "a gift of what is known is refused": [("        return \"ok new %d known %d\" % (new, known)", "        return \"ok new %d known %d\" % (new, known) if new or not known else \"refused known\"")],
    "a gift goes in the order in which it came": [("            ops = sorted(self.sites[site], key=order)\n            if command[3]", "            ops = sorted(self.sites[site], key=lambda op: (op[1][1], op[1][0]))\n            if command[3]")],
    "a feed is taken up to its fault": [("                return \"refused feed %d %s\" % (fault.at, fault.word)", "                self.gain(site, read_feed(command[2][:max(4, fault.at)]) if fault.at else [])\n                return \"refused feed %d %s\" % (fault.at, fault.word)")],
}

# Of what is said of copies and galleys: texts that are read, places, the fewest changes, words that differ, proofs, sorts.
REPORTED = {
    "a tab is a symbol": [("if not oracle.is_symbol(symbol):", "if not oracle.is_symbol(symbol) and ch != \"\\t\":")],
    "columns count from 0": [("ch, column = text[at], at - begun + 1", "ch, column = text[at], at - begun")],
    "a style may go on over a line's end": [("            if style:\n                raise NoText(line, column, \"unclosed\")\n            copy", "            copy")],
    "a style may be open at the end": [("    if style:\n        raise NoText(line, at - begun + 1, \"unclosed\")\n    return copy", "    return copy")],
    "one style inside the other": [("        elif style and style != MARKS[ch]:\n            raise NoText(line, column, \"inside\")\n", "")],
    "a backslash before any character": [("if at >= len(text) or text[at] not in \"\\\\_^\":", "if at >= len(text):")],
    "a space in a style is of the style": [("(0 if ch == \" \" else style, ord(ch))", "(style, ord(ch))")],
    "plain texts have marks": [("elif plain or ch not in", "elif ch not in")],
    "a carriage return is a symbol": [("        if ch == \"\\r\":\n", "        if False:\n")],
    "what is no UTF-8 is passed over": [("    if not whole:\n        raise NoText(line, at - begun + 1, \"encoding\")\n", "")],
    "the last place of a text is missed": [("range(len(copy) - len(text) + 1) if copy", "range(len(copy) - len(text)) if copy")],
    "19 symbols around a place": [("AROUND, PLACES = 20, 100", "AROUND, PLACES = 19, 100")],
    "all is made anew": [("return len(one) + len(other) - 2 * row[-1]", "return len(one) + len(other)")],
    "words are whole at line feeds alone": [("copy[at - 1] in ((0, 32), (0, 10))", "copy[at - 1] == (0, 10)")],
    "a gauge of 21": [("GAUGE, GREATEST = 20, 240", "GAUGE, GREATEST = 21, 240")],
    "the hand does not leave the gauge": [("(\"<\" if self.sum < tight else \">\" if self.sum > loose else \"|\")", "\"|\"")],
    "what is lacking stops the galley": [("        self.lines, at = [], 0\n", "        self.lines, at = [], 0\n        if self.lacking:\n            return\n")],
    "places without line feeds": [("at + sum(len(word) + 1 for word in given[0])", "at + sum(len(word) + 1 for word in given[0]) - (at > 0)")],
    "what is free, rounded up": [("\"%s points are free\" % down(self.free)", "\"%s points are free\" % up(self.free)")],
    "what is too much, rounded down": [("up(width(self.next) - self.free)", "down(width(self.next) - self.free)")],
    "faults of the copy are not told": [("    return above + galley.text(alone), galley.is_clean() and not meaning.faults, galley", "    return galley.text(alone), galley.is_clean(), galley")],
    "a space is missing": [("cells = dict(case[\"symbols\"], **{}) | {(0, 32): case[\"space\"]}", "cells = dict(case[\"symbols\"])")],
    "line feeds are sorts": [("        if symbol != (0, 10):\n            places", "        if True:\n            places")],
    "sorts by character": [("    for symbol in sorted(places):\n        cell", "    for symbol in sorted(places, key=lambda it: it[1]):\n        cell")],
    "eleven places in a row": [("if k % 10 else", "if k % 11 else")],
    "NI and NL stand last": [("order = [15, 16] + list(range(15))", "order = list(range(17))")],
}

# Of commands on files: numbers used twice, imports that delete most, outputs in the place of others, renewals, rooms, logs, renumberings.
FILES = {
    # merges
    "a fork that the other holds already is missed": [("twice = oracle.forked(both) - oracle.forked(held)", "twice = oracle.forked(both) - oracle.forked(held) - oracle.forked(theirs)")],
    "a fork that the feed holds already is told": [("twice = oracle.forked(both) - oracle.forked(held)", "twice = oracle.forked(both)")],
    "forks are looked for in what the feed bears alone": [("oracle.forked(both) - oracle.forked(held)", "(oracle.forked(both) - oracle.forked(held)) & {op[1] for op in held}")],
    "a merge adds forks": [("        if twice and not forks:", "        if False:")],
    "forks are never allowed": [("        if twice and not forks:", "        if twice:")],
    "forks are allowed to all but the last": [("        if twice and not forks:", "        if twice and name == others[-1] and not forks:")],
    "what came before the fork is stored": [("        if twice and not forks:\n", "        if twice and not forks:\n            files[feed] = oracle.runs_feed(held)\n")],
    "what came before the fork is told": [("% (reported.plain(name), made(twice)))", "% (reported.plain(name), made(twice)), out)")],
    "all are read before one is joined": [("    held, out, opened = held_in(files, feed, set()), \"\", []\n", "    held, out, opened = held_in(files, feed, set()), \"\", []\n    for name in others:\n        held_in(files, name)\n")],
    "the last of the others is named": [("% (reported.plain(name), made(twice)))", "% (reported.plain(others[-1]), made(twice)))")],
    "the first fork alone is named": [("made(twice))", "made(sorted(twice)[:1]))")],
    "the first site alone is named": [("for site in sorted(texts))", "for site in sorted(texts)[:1])")],
    "sites in the order of their counters": [("for site in sorted(texts))", "for site in texts)")],
    "a run goes over a gap": [("runs[-1][-1] + 1 == counter", "runs[-1][-1] + 1 <= counter")],
    "no runs": [("runs[-1][-1] + 1 == counter", "False")],
    "a run has three at least": [("\" \".join(\"..\".join(map(str, run)) for run in runs)", "\" \".join((\" \" if len(run) == 2 and run[0] + 1 == run[1] else \"..\").join(map(str, run)) for run in runs)")],
    "what is known counts once": [("len(oracle.read_feed(files[name])) - len(new))", "len(theirs) - len(new))")],
    # imports
    "half counted as more": [("2 * deleted > len(copy)", "2 * deleted >= len(copy)")],
    "half of an odd number and one more passes": [("2 * deleted > len(copy)", "deleted > (len(copy) + 1) // 2")],
    "199 symbols are many": [("len(copy) >= 200", "len(copy) >= 199")],
    "200 symbols are few": [("len(copy) >= 200", "len(copy) > 200")],
    "what is inserted counts": [("2 * deleted > len(copy)", "2 * (deleted + inserted) > len(copy)")],
    "what is inserted makes up for it": [("2 * deleted > len(copy)", "2 * (deleted - inserted) > len(copy)")],
    "more than half of both copies": [("2 * deleted > len(copy)", "2 * deleted > max(len(copy), len(new))")],
    "a small copy is wiped": [("(most or copy and not new)", "most")],
    "a text of marks alone wipes": [("(most or copy and not new)", "(most or copy and not text)")],
    "an empty copy is guarded": [("(most or copy and not new)", "(most or not new)")],
    "all is not heard": [("    if not everything and (most", "    if (most")],
    "all is for an empty text alone": [("    if not everything and (most or copy and not new)", "    if (most and new) or not everything and copy and not new")],
    # ribbons and pictures
    "a kind is looked for in two bytes": [("if there and kind_of(there) != kind_of(data)", "if there and there[:2] != data[:2]")],
    "a kind may stand further on": [("if there and kind_of(there) != kind_of(data)", "if there and data[:4] not in there[:9]")],
    "an empty file is kept": [("    if there and kind_of(", "    if name in files and kind_of(")],
    "nothing is kept": [("    if there and kind_of(", "    if False and kind_of(")],
    "a ribbon gives way to a picture": [("kind_of(there) != kind_of(data)", "kind_of(there) not in (kind_of(data), \"a ribbon\")")],
    "a picture gives way to a ribbon": [("kind_of(there) != kind_of(data)", "kind_of(there) not in (kind_of(data), \"a picture\")")],
    "nothing but a feed is kept": [("kind_of(there) != kind_of(data)", "kind_of(there) == \"a feed\"")],
    "force is not heard": [("!= kind_of(data) and not force:", "!= kind_of(data):")],
    "a feed of single operations is another file": [("return {b\"MFD1\": \"a feed\", ", "return {")],
    "force takes the place of what it is made of": [("    spare(to, (*feeds, case, wedge), \"ribbon\")\n", "    spare(to, () if force else (*feeds, case, wedge), \"ribbon\")\n")],
    "the case is no source": [("    spare(to, (*feeds, case, wedge), \"ribbon\")\n", "    spare(to, (*feeds, wedge), \"ribbon\")\n")],
    "a picture in the place of the ribbon that it shows": [("    spare(to, (ribbon, case, wedge), \"picture\")\n", "    spare(to, (case, wedge), \"picture\")\n")],
    "what stands there hides the text": [("        raise Stops(told, out)\n", "        raise Stops(told)\n")],
    "what stands there is seen before the job": [("    metal, rows = None, []\n", "    put(dict(files), to, b\"MRB1\", force)\n    metal, rows = None, []\n")],
    "copy faults are punched": [("    if meaning.faults and not faulty:", "    if False:")],
    "copy faults are never punched": [("    if meaning.faults and not faulty:", "    if meaning.faults:")],
    "forks alone stop a punch": [("    if meaning.faults and not faulty:", "    if any(kind == \"forked\" for kind, _ in meaning.faults) and not faulty:")],
    "what waits stops no punch": [("    if meaning.faults and not faulty:", "    if any(kind != \"waiting\" for kind, _ in meaning.faults) and not faulty:")],
    "copy faults come after those of the job": [("    if meaning.faults and not faulty:", "    if meaning.faults and not faulty and not oracle.job(meaning.copy, meaning.settings, *metal)[0]:")],
    "a faulty copy is punched, faulty job or not": [("    faults, images = oracle.job(meaning.copy, meaning.settings, *metal)\n    if faults:", "    faults, images = oracle.job(meaning.copy, meaning.settings, *metal)\n    images = images or []\n    if faults and not faulty:")],
    "copy faults are not written": [("its copy has faults\\n\" % shown, faults_of(held))", "its copy has faults\\n\" % shown)")],
    "the feed of copy faults is not named": [("copy faults\\n%s: its copy has faults\\n\" % shown", "copy faults\\n\"")],
    "the feed of a faulty job is not named": [("            why = shown + \": its job has faults\\n\"", "            why = \"\"")],
    "a setting is told of no feed": [("and {4} has the setting {1} {2}", "and the setting {1} is {2}")],
    # feeds as they were
    "the counter itself is left out": [("until is None or op[1][0] <= until", "until is None or op[1][0] < until")],
    "the operations from a counter on": [("until is None or op[1][0] <= until", "until is None or op[1][0] >= until")],
    "feeds are always as they are": [("until is None or op[1][0] <= until", "True")],
    "what fails then is refused": [("    held = {op for op in held if until", "    if len(oracle.Meaning(held).faults) and until is not None:\n        raise Stops(\"\")\n    held = {op for op in held if until")],
    # renewals
    "settings are left out": [("        if meaning.settings[key] is not None:\n", "        if False:\n")],
    "settings in another order": [("    meaning, ops = Meaning(held), []\n    for key in KEYS:", "    meaning, ops = Meaning(held), []\n    for key in sorted(KEYS):")],
    "settings come after the copy": [("            ops.append((\"set\", (len(ops) + 1, site), key,", "            ops.append((\"set\", (len(ops) + 1 + len(meaning.copy), site), key,"), ("(\"insert\", (len(ops) + 1, site), parent, symbol)", "(\"insert\", (sum(op[0] == \"insert\" for op in ops) + 1, site), parent, symbol)")],
    "counters begin behind the old ones": [("            ops.append((\"set\", (len(ops) + 1, site), key,", "            ops.append((\"set\", (len(ops) + 1 + len(held), site), key,"), ("(\"insert\", (len(ops) + 1, site), parent, symbol)", "(\"insert\", (len(ops) + 1 + len(held), site), parent, symbol)")],
    "each symbol at the front": [("        parent = ops[-1][1]\n    return set(ops)", "    return set(ops)")],
    "made by site 1": [("(\"insert\", (len(ops) + 1, site), parent, symbol)", "(\"insert\", (len(ops) + 1, 1), parent, symbol)")],
    "italics are lost": [("(\"insert\", (len(ops) + 1, site), parent, symbol)", "(\"insert\", (len(ops) + 1, site), parent, (0, symbol[1]))")],
    "deletes are kept": [("    parent = HEAD\n    for symbol in meaning.copy:", "    ops += [op for op in held if op[0] == \"delete\"]\n    parent = HEAD\n    for symbol in meaning.copy:")],
    "an empty file is renewed": [("    if new in files:", "    if files.get(new):")],
    "a feed is renewed in its place": [("    if new in files:", "    if new in files and new != feed:")],
    "all operations are counted": [("\"ok renewed %d\\n\" % len(oracle.Meaning(held).copy)", "\"ok renewed %d\\n\" % len(oracle.renewed(held, site))")],
    # the file of a room
    "what is typed is given by the file too": [("if key == \"set\" or not is_given(\"--\" + key, words[1:])]", "if True]")],
    "find takes its case from the file": [("\"sorts\": [\"case\"]}", "\"sorts\": [\"case\"], \"find\": [\"case\", \"wedge\"]}")],
    "a room's file of site 0": [("return is_number(value, 1, 65535)", "return is_number(value, 0, 65535)")],
    "an empty name of a case": [("isinstance(value, str) and value != \"\"", "isinstance(value, str)")],
    "other keys of a room's file": [("return \"`%s` is no key of it\" % key", "continue")],
    "lines of a room's file from 0": [("for count in range(1, len(lines) + 1):\n        part", "for count in range(len(lines)):\n        part")],
    "a wrong file is read where nothing is wanted": [("    if not want or NAME not in files:", "    if NAME not in files:")],
    # what rooms made
    "a fork counts once": [("        made = [op for op in held if op[1][1] == site]\n", "        made = list({op[1]: op for op in held if op[1][1] == site}.values())\n")],
    "no gap is told": [("if len(counters) <= greatest - least else", "if False else")],
    "a counter that another site bears is no gap": [("if len(counters) <= greatest - least else", "if len({op[1][0] for op in held if least <= op[1][0] <= greatest}) <= greatest - least else")],
    "a fork hides a gap": [("if len(counters) <= greatest - least else", "if len(made) <= greatest - least else")],
    "deleted symbols are counted as shown": [("counts += [sum(op[1][1] == site for op in meaning.shown)", "counts += [counts[0]")],
    "faults of all sites in each line": [("sum(stamp[1] == site for _, stamp in meaning.faults)", "len(meaning.faults)")],
    "a site that shows nothing is left out": [("        lines.append(\"site", "        if not counts[3]:\n            continue\n        lines.append(\"site")],
    # logs
    "corrections of two sites are joined": [("sorted(held, key=lambda op: (op[1][1], oracle.order(op)))", "sorted(held, key=oracle.order)"), ("rows[-1][-1][1] in ((counter, site), (counter - 1, site))", "rows[-1][-1][1][0] >= counter - 1")],
    "a correction is cut at 64": [("        if rows and rows[-1][-1][1] in (", "        if rows and len(rows[-1]) < 64 and rows[-1][-1][1] in (")],
    "a correction is cut at a fork": [("in ((counter, site), (counter - 1, site))", "in ((counter - 1, site),)")],
    "a gap does not cut a correction": [("in ((counter, site), (counter - 1, site))", "in [(counter - k, site) for k in (0, 1, 2)]")],
    "every operation is a correction": [("in ((counter, site), (counter - 1, site))", "in ((counter, site),)")],
    "the newest correction first": [("    return sorted(rows, key=lambda row: row[-1][1])", "    return sorted(rows, key=lambda row: row[-1][1], reverse=True)")],
    "corrections by their first stamps": [("    return sorted(rows, key=lambda row: row[-1][1])", "    return sorted(rows, key=lambda row: row[0][1])")],
    "corrections site by site": [("    return sorted(rows, key=lambda row: row[-1][1])", "    return rows")],
    "since by the first counter": [("        counter, number = row[-1][1]\n", "        counter, number = row[0][1]\n")],
    "since leaves out the counter itself": [("since is not None and counter < since", "since is not None and counter <= since")],
    "since is not heard": [("since is not None and counter < since", "False")],
    "lines of all other sites": [("site not in (None, number)", "site == number")],
    "a text is looked for in what came alone": [("for one in texts_of(row, bearing)):", "for one in texts_of(row, bearing)[:1]):")],
    "a text is looked for in what went alone": [("for one in texts_of(row, bearing)):", "for one in texts_of(row, bearing)[1:]):")],
    "a text is looked for across what came and went": [("any(reported_copy.places_of(text, one) for one in texts_of(row, bearing))", "reported_copy.places_of(text, sum(texts_of(row, bearing), []))")],
    "a text is looked for without its style": [("any(reported_copy.places_of(text, one) for one", "any(reported_copy.places_of([ch for _, ch in text], [ch for _, ch in one]) for one")],
    "a text is looked for in what is shown of long ones": [("any(reported_copy.places_of(text, one) for one", "any(reported_copy.places_of(text, one if len(one) <= MOST else one[:END] + one[-END:]) for one")],
    "places count deleted symbols": [("        before += is_shown\n", "        before += 1\n")],
    "places count from 1 in a log": [("        out[op[1]] = (before, is_shown)", "        out[op[1]] = (before + 1, is_shown)")],
    "a deleted element has its place": [("next((at for at, is_shown in own if is_shown), ", "next((at for at, is_shown in own), ")],
    "the last element has the place": [("    own = [places[op[1]] for op in row if", "    own = [places[op[1]] for op in row[::-1] if")],
    "the last target has the place": [("targets[0] if targets else None", "targets[-1] if targets else None")],
    "a delete has no place": [("targets[0] if targets else None", "None")],
    "a place by a delete first": [("    return next((at for at, is_shown in own if is_shown), targets[0] if targets else None)", "    return (targets + [at for at, is_shown in own if is_shown] + [None])[0]")],
    "what a delete took is shown as put in": [("    return inserted, deleted\n", "    return inserted + deleted, []\n")],
    "what came and went are exchanged": [("    return inserted, deleted\n", "    return deleted, inserted\n")],
    "a forked target has all its symbols": [("for one in bearing.get(op[2], ())[:1] if", "for one in bearing.get(op[2], ()) if")],
    "a forked target has no symbol": [("for one in bearing.get(op[2], ())[:1] if", "for one in bearing.get(op[2], ()) if len(bearing[op[2]]) == 1 and")],
    "a delete of what has not come has quotes": [("\" %s %s\" % (sign, shown(text)) if text else \"\"", "\" %s %s\" % (sign, shown(text)) if text or any(op[0] == (\"insert\" if sign == \"+\" else \"delete\") for op in row) else \"\"")],
    "39 symbols are shown": [("MOST, END = 40, 18", "MOST, END = 39, 18")],
    "41 symbols are shown": [("MOST, END = 40, 18", "MOST, END = 41, 18")],
    "of a long text 19 at each end": [("MOST, END = 40, 18", "MOST, END = 40, 19")],
    "of a long text its beginning alone": [(" + copy[-END:]", "")],
    "a gap in a long text has its style": [("[(0, ord(ch)) for ch in \" .. \"]", "[(copy[0][0] if ch == \".\" else 0, ord(ch)) for ch in \" .. \"]")],
    "one stamp as two": [(" if first != last else \"\")", ")")],
    "settings are not shown": [("\"\".join(\" %s %d\" % op[2:] for op in row if op[0] == \"set\")", "\"\"")],
    "the last setting alone": [("\"\".join(\" %s %d\" % op[2:] for op in row if op[0] == \"set\")", "\"\".join([\" %s %d\" % op[2:] for op in row if op[0] == \"set\"][-1:])")],
    "settings alone are not shown": [("    elif any(op[0] != \"set\" for op in row):\n", "    else:\n")],
    "a delete alone is never not shown": [("    elif any(op[0] != \"set\" for op in row):\n", "    elif any(op[0] == \"insert\" for op in row):\n")],
    "faults of all corrections in each line": [("what == kind and stamp in stamps", "what == kind")],
    "forks are not counted": [("for kind in (\"forked\", \"void\", \"waiting\"):", "for kind in (\"void\", \"waiting\"):")],
    "void counts as waiting": [("what == kind and stamp in stamps", "{\"void\": \"waiting\"}.get(what, what) == kind and stamp in stamps")],
    "each operation of a fork is counted": [("sum(1 for what, stamp in faults if what == kind and stamp in stamps)", "sum(1 for op in row if (kind, op[1]) in faults)")],
    "a missing feed has an empty log": [("    return oracle_log.log(held_in(files, feed), site", "    return oracle_log.log(held_in(files, feed, set()), site")],
    "a feed before a text": [("    try:\n        sought = None if", "    held_in(files, feed)\n    try:\n        sought = None if")],
    # renumberings
    "a moved operation's parent is left": [("(op[0], anew(op[1]), anew(op[2]), *op[3:])", "(op[0], anew(op[1]), op[2], *op[3:])")],
    "a delete's target is left": [("(op[0], anew(op[1]), anew(op[2]), *op[3:])", "(op[0], anew(op[1]), op[2] if op[0] == \"delete\" else anew(op[2]), *op[3:])")],
    "the greatest collision in place of the least": [("min(counter, least.get(number, counter))", "max(counter, least.get(number, counter))")],
    "what comes after a collision is left": [("    moved = {op for op in one - other if op[1][0] >=", "    moved = {op for op in one - other if op[1] in collisions(one, other) and op[1][0] >=")],
    "the first collision is left": [("if op[1][0] >= least.get", "if op[1][0] > least.get")],
    "all of a number that collides is moved": [("if op[1][0] >= least.get(op[1][1], MAX_COUNTER + 1)}", "if op[1][1] in least}")],
    "what the other holds too is moved": [("    moved = {op for op in one - other if", "    moved = {op for op in one if")],
    "all numbers from one collision on": [("least.get(op[1][1], MAX_COUNTER + 1)}", "min(least.values(), default=MAX_COUNTER + 1)}")],
    "one number's collisions alone": [("        least[number] = min(", "        if least and number not in least:\n            continue\n        least[number] = min(")],
    "a stamp that the feed forks collides": [("if len(ops) == 1 == len(theirs.get(stamp, ())) and ops != theirs[stamp]", "if len(theirs.get(stamp, ())) == 1 and ops != theirs[stamp]")],
    "a stamp that the other forks collides": [("if len(ops) == 1 == len(theirs.get(stamp, ())) and ops != theirs[stamp]", "if len(ops) == 1 and stamp in theirs and ops != theirs[stamp]")],
    "what both have alike collides": [("== len(theirs.get(stamp, ())) and ops != theirs[stamp]", "== len(theirs.get(stamp, ()))")],
    "the number is in use in the feed alone": [("if any(site in (op[1][1], op[2][1]) for op in one | other):", "if any(site in (op[1][1], op[2][1]) for op in one):")],
    "the number is in use in the other alone": [("if any(site in (op[1][1], op[2][1]) for op in one | other):", "if any(site in (op[1][1], op[2][1]) for op in other):")],
    "a number in use is refused where something is moved": [("if any(site in (op[1][1], op[2][1]) for op in one | other):", "if moved and any(site in (op[1][1], op[2][1]) for op in one | other):")],
    "a number that is named alone is free": [("if any(site in (op[1][1], op[2][1]) for op in one | other):", "if any(op[1][1] == site for op in one | other):")],
    "what another room made of it is left": [("    if any(op[2] in stamps for op in one - moved) or any(", "    if any(")],
    "what waits in the other is left": [(" or any(op[2] in stamps and op[2] not in theirs for op in other):", ":")],
    "what hangs on the other's own is seen": [("op[2] in stamps and op[2] not in theirs for op in other", "op[2] in stamps for op in other")],
    "two operations get one stamp": [("    if len({stamp[0] for stamp in stamps}) < len(stamps):", "    if False:")],
    "a fork is not moved": [("    if len({stamp[0] for stamp in stamps}) < len(stamps):", "    if len({op[1][0] for op in moved}) < len(moved):")],
    "a missing feed is not renumbered": [("    held, theirs = held_in(files, feed, set()), held_in(files, other)\n", "    held, theirs = held_in(files, feed), held_in(files, other)\n")],
    "what is moved is counted by stamps of the other": [("\"ok renumbered %d\\n\" % len(moved)", "\"ok renumbered %d\\n\" % len(oracle.collisions(held, theirs))")],
    "the other is renumbered": [("        files[feed] = oracle.runs_feed(now)\n    return \"ok renumbered", "        files[other] = oracle.runs_feed(now)\n    return \"ok renumbered")],
    "a feed in which nothing is moved is stored anew": [("    if moved:\n        files[feed] = oracle.runs_feed(now)", "    if True:\n        files[feed] = oracle.runs_feed(now)")],
}

# Of FEED.last, in imports and replacements.
FILES |= {
    "FEED.last is ignored by hand": [("    if why and feed in files and not older:", "    if False:")],
    "older is not heard by hand": [("    if why and feed in files and not older:", "    if why and feed in files:")],
    "a missing feed is guarded by hand": [("    if why and feed in files and not older:", "    if why and not older:")],
    "a replacement takes the feed first": [("    texts = []\n    for called", "    room_in(files, feed, site, older)\n    texts = []\n    for called")],
    "an import reads its text first": [("    held = room_in(files, feed, site, older)\n    try:", "    reported_copy.read_text(text, plain)\n    held = room_in(files, feed, site, older)\n    try:")],
    "a text is replaced at the first of its places": [("        return places if len(places) == 1 else []", "        return places[:1]")],
    "a text that is nowhere is put at the end": [("    if not taken:\n        why", "    taken = taken or [len(copy)][len(places):]\n    if not taken:\n        why")],
}

# Of replacements at a place or everywhere, and of texts that are looked for.
FILES |= {
    "a place that is asked for is not heard": [("    if at is not None:\n        return", "    if False:\n        return")],
    "a place that is none is taken": [("[place for place in places if place == at]", "[at]")],
    "a place is asked for by its number among all": [("[place for place in places if place == at]", "places[at:at + 1]")],
    "asked-for places count from 1": [("if place == at]", "if place == at - 1]")],
    "the one place is taken where another is asked for": [("if place == at]", "if place == at or len(places) == 1]")],
    "everywhere is not heard": [("    if not everywhere or size == 0:", "    if True:")],
    "everywhere, the first alone": [("        if not out or place >= out[-1] + size:", "        if not out:")],
    "everywhere, the first is left": [("        if not out or place >= out[-1] + size:", "        if place and (not out or place >= out[-1] + size):")],
    "everywhere, what touches is passed over": [("place >= out[-1] + size", "place > out[-1] + size")],
    "everywhere, what overlaps is taken": [("place >= out[-1] + size", "place >= out[-1] + min(size, 1)")],
    "an empty text is put everywhere": [("    if not everywhere or size == 0:", "    if not everywhere:")],
    "an empty text is nowhere everywhere": [("    if not everywhere or size == 0:\n", "    if everywhere and size == 0:\n        return []\n    if not everywhere:\n")],
    "what is found has status 1": [("        out += reported_copy.place_line(sought, meaning.copy, place, line)\n    return out", "        out += reported_copy.place_line(sought, meaning.copy, place, line)\n    raise Stops(\"\", out)")],
    "what is not found has status 0": [("        raise Stops(\"\", out + \"no place\\n\")", "        return out + \"no place\\n\"")],
    "what is not found is not told": [("        raise Stops(\"\", out + \"no place\\n\")", "        raise Stops(\"\", out)")],
    "a place that overlaps the one before is not found": [("    places = reported_copy.places_of(sought, meaning.copy)\n", "    places = reported_copy.taken(reported_copy.places_of(sought, meaning.copy), len(sought), None, len(sought) > 0)\n    places = places or reported_copy.places_of(sought, meaning.copy)\n")],
    "the first place alone is found": [("    for place in places:\n        line = next(", "    for place in places[:1]:\n        line = next(")],
    "the last place is not found": [("    for place in places:\n        line = next(", "    for place in places[:max(1, len(places) - 1)]:\n        line = next(")],
    "lines count from 0": [("next((line.number for line", "next((line.number - 1 for line")],
    "the line of a text's end": [("if line.begin <= place), None)", "if line.begin <= min(place + max(0, len(sought) - 1), len(meaning.copy))), None)")],
    "a space between two lines is in none": [("if line.begin <= place), None)", "if line.begin <= place < line.end), None)")],
    "a space between two lines is in the one behind": [("if line.begin <= place), None)", "if line.begin - 1 <= place), None)")],
    "the first line for all": [("next((line.number for line in reversed(lines) if", "next((line.number for line in lines[:1] if")],
    "lines are paragraphs": [("next((line.number for line in reversed(lines) if line.begin <= place)", "next((1 + meaning.copy[:place].count((0, 10)) for line in reversed(lines) if line.begin <= place)")],
    "why there is no galley is not told": [("    out = galley if isinstance(galley, str) else \"\"", "    out = \"\"")],
    "no places where there is no galley": [("    places = reported_copy.places_of(sought, meaning.copy)\n", "    places = [] if out else reported_copy.places_of(sought, meaning.copy)\n")],
    "a text is found by marks alone": [("        sought = reported_copy.read_text(text, plain)", "        sought = reported_copy.read_text(text)")],
    "a missing feed holds nothing where one looks": [("    meaning = oracle.Meaning(held_in(files, feed))\n    galley", "    meaning = oracle.Meaning(held_in(files, feed, set()))\n    galley")],
}

TOML = types.SimpleNamespace(loads=functools.lru_cache(None)(tomllib.loads))


def model(changes, files):
    """The independent program with some of its texts replaced, and files in memory; its runs stand beside it."""
    texts = {}
    for name in SOURCE:
        with open(os.path.join(HERE, name), encoding="utf-8") as file:
            texts[name] = file.read()
    for old, new in changes:
        stands = [name for name in texts for _ in range(texts[name].count(old))]
        if len(stands) != 1:
            raise ValueError("`%s` stands %d times in %s" % (old.strip(), len(stands), ", ".join(SOURCE)))
        texts[stands[0]] = texts[stands[0]].replace(old, new)
    modules = {name[:-3]: types.ModuleType("wrong " + name) for name in SOURCE}
    for name, module in modules.items():
        module.__file__ = os.path.join(HERE, name + ".py")
        exec(compile(texts[name + ".py"], "wrong " + name, "exec"), module.__dict__)
        vars(module).update({"tomllib": TOML} if "tomllib" in vars(module) else {})
    for module in modules.values():
        vars(module).update({name: other for name, other in modules.items() if isinstance(vars(module).get(name), types.ModuleType)})
    made = modules["oracle"]
    made.runs, made.copies, made.galleys = modules["oracle_runs"], modules["reported_copy"], modules["reported_galley"]
    made.first_fault_case = functools.lru_cache(None)(made.first_fault_case)
    made.first_fault_wedge = functools.lru_cache(None)(made.first_fault_wedge)
    made.read_file = lambda name: files.get(name, "missing")
    return made


def answers(world, lines):
    """What a world answers; a line at which it breaks down is answered so."""
    out = []
    for line in lines:
        try:
            out.append(world.answer(line))
        except Exception as fault:
            out.append("broke down: " + type(fault).__name__)
    return out


class Jobs:
    """The directed jobs: their copies and settings are made once, and each model is asked for the ribbons and casts."""

    models = RIBBON

    def __init__(self):
        files, parts = jobs.scripts(jobs.jobs())
        self.files = {name: text.encode("utf-8") for name, text in files.items()}
        right = model([], self.files)
        random.Random(1).shuffle(parts)
        self.parts = []
        for part, lines, starts in parts:
            world = right.World()
            told = answers(world, lines)
            asked = [[k for k in range(a, b) if lines[k].startswith((b"ribbon", b"cast"))] for a, b in zip(starts, starts[1:])]
            self.parts.append((world, [(job.aim, [lines[k] for k in ks], [told[k] for k in ks]) for job, ks in zip(part, asked)]))

    def told(self, made):
        for world, asked in self.parts:
            other = made.World()
            other.sites, other.meanings = world.sites, world.meanings
            for aim, lines, wanted in asked:
                if answers(other, lines) != wanted:
                    yield aim


class Scripts:
    """The random scripts of the gate, and those of forged feeds, each from its first line on."""

    models = COPY

    def __init__(self):
        self.files = {name: text.encode("utf-8") for name, text in differential.FILES.items()}
        right = model([], self.files)
        self.scripts = []
        made = [("random", differential.random_script(1, k)) for k in range(500)] + [("forged", script) for script in jobs.forged()]
        random.Random(1).shuffle(made)
        for aim, script in made:
            lines = list(differential.oracle.lines(script))
            self.scripts.append((aim, lines, answers(right.World(), lines)))

    def told(self, made):
        for aim, lines, wanted in self.scripts:
            if answers(made.World(), lines) != wanted:
                yield aim


class Runs:
    """Random runs on stored feeds, and as sheets."""

    models = RUNS

    def __init__(self):
        self.files = {name: text.encode("utf-8") for name, text in differential.FILES.items()}
        runs = model([], self.files).runs
        self.made = [differential.Run(1, k) for k in range(400)]
        self.wanted = [run.due(runs) for run in self.made]

    def told(self, made):
        for run, wanted in zip(self.made, self.wanted):
            if run.due(made.runs) != wanted:
                yield "on a stored feed" if run.site else "a sheet"


class Stops:
    """The scripts of growths.py and random ones, whose lists stop after so many operations: whether there are more, and what then is held."""

    models = STOPS

    def __init__(self):
        self.files, self.scripts = {}, []
        right = model([], self.files)
        texts = [growths.SCRIPT.encode(), growths.STOPPED.encode(), growths.FIRST.encode()] + [differential.random_script(2, k, ["site", "insert", "delete", "set", "take", "send", "range", "merge"]) for k in range(200)]
        pick = random.Random(1)
        for text in texts * 2:
            lines = [(line, pick.choice([1, 1, 2, 3, 8]) if pick.random() < 0.6 else 0) for line in oracle.lines(text)]
            self.scripts.append((lines, self.answers(right, lines)))

    @staticmethod
    def answers(made, lines):
        """What each line is answered, or whether it may have stopped there, and what then is held; a line that breaks down says so."""
        world, out = made.World(), []
        for line, count in lines:
            name = line.split(b" ")[0]
            try:
                if count and name in (b"insert", b"take", b"send", b"merge"):
                    made.parse(line)
                    out.append(made.runs.front(world, line, count))
                else:
                    out.append(world.answer(line))
                out.append({site: set(held) for site, held in world.sites.items()})
            except Exception as fault:
                out.append("broke down: " + type(fault).__name__)
        return out

    def told(self, made):
        for lines, wanted in self.scripts:
            if self.answers(made, lines) != wanted:
                yield "stopped lists"


class Played:
    """Random lists of events, each in one play."""

    models = PLAYS

    def __init__(self):
        self.files = {}
        runs = model([], self.files).runs
        self.made = [differential.Play(1, k) for k in range(400)]
        self.wanted = [play.due(runs) for play in self.made]

    def told(self, made):
        for play, wanted in zip(self.made, self.wanted):
            try:
                told = play.due(made.runs)
            except Exception as fault:
                told = "broke down: " + type(fault).__name__
            if told != wanted:
                yield "a list of events"


class Filed:
    """Random commands on files."""

    models, kind, count = FILES, differential_files.Asked, 6800

    def __init__(self):
        self.files = {}
        runs = model([], self.files).runs
        self.made = [self.kind(1, k) for k in range(self.count)]
        self.wanted = [asked.due(runs) for asked in self.made]

    def told(self, made):
        for asked, wanted in zip(self.made, self.wanted):
            try:
                told = asked.due(made.runs)
            except Exception as fault:
                told = "broke down: " + type(fault).__name__
            if told != wanted:
                yield asked.words[0]


class Joins(Filed):
    """Random merges and differences of rooms that correct one text."""

    models, kind, count = READINGS, differential_files.Joined, 700


class Noted(Filed):
    """Random commands on texts and ribbons."""

    models, kind, count = NOTES, differential_files.Noted, 4000


class Paged(Filed):
    """Random proofs with documents, ribbons of several feeds, and readings of these."""

    models, kind, count = PAGES, differential_files.Paged, 4000


class Told:
    """The feeds and the files of the fuzzer's corpus: what is said of their copies, galleys and sorts."""

    models = REPORTED

    def __init__(self):
        self.files, inputs = {}, fuzz.corpus()
        self.feeds = [(bytes.fromhex(one["feed"]), bytes.fromhex(one["other"])) for one in inputs["feeds"]]
        self.metal = [(oracle.first_fault_case(case)[1], oracle.first_fault_wedge(wedge)[1]) for case, wedge in fuzz_kinds.Feeds.metal if not oracle.first_fault_case(case)[0]]
        right = model([], self.files)
        self.wanted = [self.said(right, number, *feeds) for number, feeds in enumerate(self.feeds)]

    def said(self, made, number, data, other):
        text, (old, new, plain) = fuzz_asks.texts_of(data, other)
        copies = [oracle.Meaning(reported.held_in(feed) or set()) for feed in (data, other)]
        case, wedge = self.metal[number % len(self.metal)]
        settings = {**dict(fuzz_kinds.Feeds.trial), "measure": 12 + 7 * number % 90, "case": case["number"], "wedge": wedge["wedge"]}
        one, two = (meaning.copy for meaning in copies)
        texts = [text[0]] + [fuzz_asks.with_piece(text[0], 7919 * number + place) for place in range(len(fuzz_asks.PIECES))]
        asks = [lambda: made.copies.read_text(texts.pop(), text[1]) for _ in range(len(texts))]
        asks += [lambda: made.copies.read_text(old.encode(), plain), lambda: made.copies.read_text(new.encode(), plain),
                lambda: made.copies.reported_places(two[:1], one), lambda: made.copies.fewest(one, two), lambda: [made.copies.begins_word(one, at) for at in range(len(one))],
                lambda: made.galleys.proof(copies[1], settings, case, wedge)[:2], lambda: made.galleys.sorts(two, case, True)]
        out = []
        for ask in asks:
            try:
                out.append(ask())
            except Exception as fault:
                out.append("%s %s" % (type(fault).__name__, fault))
        return out

    def told(self, made):
        for number, (feeds, wanted) in enumerate(zip(self.feeds, self.wanted)):
            if self.said(made, number, *feeds) != wanted:
                yield "the corpus"


def tell(given):
    """How many jobs or scripts of a source tell a wrong model; at most three where they are not counted."""
    number, name = given
    source = SOURCES[number]
    try:
        made = model(source.models[name], source.files)
    except ValueError as fault:
        return name, str(fault)
    found = collections.Counter()
    for aim in source.told(made):
        found[aim] += 1
        if not COUNT and sum(found.values()) == ENOUGH:
            break
    return name, found


ENOUGH = 3
COUNT = "--count" in sys.argv[1:]
SOURCES = []


def main():
    SOURCES.extend([Jobs(), Scripts(), Runs(), Stops(), Played(), Told(), Filed(), Joins(), Noted(), Paged()])
    bad = 0
    with multiprocessing.get_context("fork").Pool(2) as lanes:
        for name, found in lanes.imap(tell, [(number, name) for number, source in enumerate(SOURCES) for name in source.models]):
            number = 0 if isinstance(found, str) else sum(found.values())
            bad += number < ENOUGH
            if COUNT or number < ENOUGH:
                print("%5d  %s: %s" % (number, name, found if isinstance(found, str) else ", ".join("%d %s" % (n, aim) for aim, n in found.most_common(3))), flush=True)
    print("%d wrong models of the ribbon half, %d of the copy half, %d of runs, %d of what memory stops, %d of lists of events, %d of what is said of copies, %d of commands on files, %d of what merges leave open, %d of texts and ribbons and %d of documents and of several galleys, %d not found" % (*[len(source.models) for source in SOURCES], bad))
    return 1 if bad else 0


if __name__ == "__main__":
    sys.exit(main())
