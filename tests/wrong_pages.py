"""Wrong models for wrong_models.py: of ribbons of several feeds, of marks where a galley ends, and of documents with pages."""

ROWS = "        rows += rows_of(held, feed, case, wedge, metal, faulty)\n"
MARKS = "    texts = with_marks(line_texts(lines, points), ends_of_galleys(images_of(data)))\n"
PAGE = "842 if height is None else height).encode()"

# Of ribbons of several feeds.
PAGES = {
    "the second head row is dropped": [(ROWS, "        rows += rows_of(held, feed, case, wedge, metal, faulty)[bool(rows):]\n")],
    "feeds are turned": [(ROWS, "        rows = rows_of(held, feed, case, wedge, metal, faulty) + rows\n")],
    "the first feed alone": [(ROWS, "        rows = rows or rows_of(held, feed, case, wedge, metal, faulty)\n")],
    "the last feed alone": [(ROWS, "        rows = rows_of(held, feed, case, wedge, metal, faulty)\n")],
    "a feed that is given twice is taken once": [("    for feed in feeds:\n        held = held_in", "    for feed in dict.fromkeys(feeds):\n        held = held_in")],
    "the rows of the first feed are counted": [("    metal, rows = None, []\n", "    metal, rows, first = None, [], None\n"), (ROWS, ROWS + "        first = first or len(rows)\n"),
                                               ("    ribbon = oracle.ribbon_bytes(rows)\n", "    ribbon = oracle.ribbon_bytes(rows)\n    ribbon = ribbon[:4] + first.to_bytes(4, \"big\") + ribbon[8:]\n")],
    "each feed has a header": [("    ribbon = oracle.ribbon_bytes(rows)\n", "    ribbon = b\"\".join(oracle.ribbon_bytes(rows_of(held_in(files, feed), case, wedge, metal, faulty)) for feed in feeds)\n")],
    "all feeds are opened first": [("    for feed in feeds:\n        held = held_in", "    for feed in [feed for feed in feeds if held_in(files, feed) is not None]:\n        held = held_in")],
    "the case and the wedge are read before the first feed": [("    metal, rows = None, []\n", "    metal, rows = metal_in(files, case, wedge), []\n")],
    "the first feed is named at fault": [(ROWS, ROWS.replace("(held, feed,", "(held, feeds[0],"))],
    "faults of a later copy are punched": [(ROWS, "        rows += rows_of(held, feed, case, wedge, metal, faulty or bool(rows))\n")],
    "a feed with faults is left out": [(ROWS, "        try:\n            rows += rows_of(held, feed, case, wedge, metal, faulty)\n        except Stops:\n            if len(feeds) == 1:\n                raise\n")],
    "what was made before a fault is stored": [(ROWS, "        try:\n            rows += rows_of(held, feed, case, wedge, metal, faulty)\n        except Stops:\n            if rows:\n                put(files, to, oracle.ribbon_bytes(rows), force)\n            raise\n")],
    "a ribbon in the place of a later feed": [("    spare(to, (*feeds, case, wedge), \"ribbon\")", "    spare(to, (feeds[0], case, wedge), \"ribbon\")")],
}

# Of marks where a galley ends.
PAGES |= {
    "no marks": [(MARKS, "    texts = with_marks(line_texts(lines, points), [])\n")],
    "a mark one line late": [("        out.insert(end, (", "        out.insert(end + 1, (")],
    "a mark one line early": [("        out.insert(end, (", "        out.insert(max(0, end - 1), (")],
    "marks count from 0": [("reversed(list(enumerate(ends, 1)))", "reversed(list(enumerate(ends)))")],
    "marks count from the last": [("galley %d --\\n\" % count", "galley %d --\\n\" % (len(ends) + 1 - count)")],
    "a mark behind the last galley": [("    return ends\n\n\ndef with_marks", "    return ends + [lines]\n\n\ndef with_marks")],
    "a mark behind each line": [("        if kind == last == \"fine\":\n", "        if kind == \"fine\" and last:\n")],
    "an empty galley has no mark": [("        if kind == last == \"fine\":\n", "        if kind == last == \"fine\" and lines not in ends:\n")],
    "a galley without a line before it has no mark": [("        if kind == last == \"fine\":\n", "        if kind == last == \"fine\" and lines:\n")],
    "FineOut(8) alone is a head row": [("        if kind == last == \"fine\":\n", "        if kind == last == \"fine\" and image == oracle.image_fine(8):\n")],
    "a mark is of the line behind it": [("(max(1, end), \"", "(end + 1, \"")],
    "a mark with no line before it is in no range": [("(max(1, end), \"", "(end, \"")],
    "no marks in a range": [("    texts = with_marks(", "    texts = with_marks(line_texts(lines, points), []) if some else with_marks(")],
    "all marks in a range": [("for number, text in texts if some", "for number, text in texts if text[:4] == \"  --\" or some")],
    "marks have numbers of lines": [("out.insert(end, (max(1, end), \"  --", "out.insert(end, (max(1, end), \"%6d  --\" % end + \"")],
}

# Of pages.
PAGES |= {
    "the last page is missing": [("for number in range(1, len(pages.lines) + 1))", "for number in range(1, max(2, len(pages.lines))))")],
    "a line a page too many": [("        self.count = max(1, most)\n", "        self.count = most + 1\n")],
    "a line a page too few": [("        self.count = max(1, most)\n", "        self.count = max(1, most - 1)\n")],
    "no room below the frame": [("(height * 100 - TOP - BELOW - self", "(height * 100 - TOP - self")],
    "a line of the frame too few": [("(height * 100 - TOP - BELOW - self.drawn.set // 2)", "(height * 100 - TOP - BELOW)")],
    "`letter` is as `a4`": [(PAGE, "842 if height in (None, 792) else height).encode()")],
    "the height is not heard": [(PAGE, "842).encode()")],
    "the last page is as high as its lines": [("        drawn, size = self.drawn, (self.width, self.height)\n", "        drawn, size = self.drawn, (self.width, TOP + self.drawn.frame_height(len(self.lines[number - 1])) + BELOW)\n")],
    "each frame is as high as that of the first page": [("drawn.frame(TOP, len(self.lines[number - 1]))", "drawn.frame(TOP, len(self.lines[0]))")],
    "lines go on below the pages before": [("            y = TOP + drawn.leading * k\n", "            y = TOP + drawn.leading * line.number\n")],
    "lines begin at the frame": [("            y = TOP + drawn.leading * k\n", "            y = TOP + drawn.leading * (k - 1)\n")],
    "ids begin anew on each page": [("% (line.number, \"\".join(parts))", "% (k, \"\".join(parts))")],
    "pages count from 0": [("page %d of %d\" % (*names, told, number,", "page %d of %d\" % (*names, told, number - 1,")],
    "case and wedge are exchanged": [("page %d of %d\" % (*names,", "page %d of %d\" % (names[0], *names[:0:-1],")],
    "pages are as wide as the measure": [("        self.width = self.drawn.page_width() + MORE\n", "        self.width = self.drawn.across(self.drawn.measure) + BESIDE + MORE\n")],
    "pages are as wide as a picture": [("        self.width = self.drawn.page_width() + MORE\n", "        self.width = self.drawn.page_width()\n")],
    "no rules": [("        return '<path class=\"r\" d=\"%s\"/>\\n' % marks if marks else \"\"\n", "        return \"\"\n")],
    "a rule before each word": [("for at in places for here in at[1:-1]]", "for at in places for here in at[:-1]]")],
    "a rule behind each word": [("for at in places for here in at[1:-1]]", "for at in places for here in at[1:]]")],
    "rules of the first word alone": [("for at in places for here in at[1:-1]]", "for at in places[:1] for here in at[1:-1]]")],
    "rules below the foot": [("points(y - self.set), points(y))", "points(y), points(y + self.set))")],
    "an empty path where there is no rule": [("d=\"%s\"/>\\n' % marks if marks else \"\"", "d=\"%s\"/>\\n' % marks")],
    "rules are drawn first": [("parts = drawn.line(line, y), drawn.rules(line, y), ", "parts = drawn.rules(line, y), drawn.line(line, y), ")],
    "a page has no way out": [("drawn.dashes(line, y), drawn.way(line, y)", "drawn.dashes(line, y)")],
    "the way out is on its cause": [("self.beside(line), y + 600, escaped", "self.beside(line), y, escaped")],
    "dashes are letters": [("DASHES, GAP = \"\\u2013\\u2014\\u2015\", 40", "DASHES, GAP = \"\", 40")],
    "an em dash alone is drawn as a rule": [("DASHES, GAP = \"\\u2013\\u2014\\u2015\", 40", "DASHES, GAP = \"\\u2014\", 40")],
    "dashes touch": [("DASHES, GAP = \"\\u2013\\u2014\\u2015\", 40", "DASHES, GAP = \"\\u2013\\u2014\\u2015\", 0")],
    "dashes that the case lacks are drawn as rules": [("CLASSES[4 if (style, ch) not in self.galley.known else 3 if chr(ch) in DASHES else style]", "CLASSES[3 if chr(ch) in DASHES else 4 if (style, ch) not in self.galley.known else style]")],
    "dashes at the foot": [("points(y - self.set // 4)", "points(y)")],
    "dashes of a line at fault as others": [("\"d f\" if line.fault else \"d\"", "\"d\"")],
}

# Of what is above the pages, and of where a document is stored.
PAGES |= {
    "`&` is not escaped": [("NAMED = {\"&\": \"&amp;\", ", "NAMED = {")],
    "`<` is not escaped": [("\"<\": \"&lt;\", ", "")],
    "quotes are not escaped": [(", '\"': \"&quot;\"}", "}")],
    "what XML does not allow is left": [("(ch if allowed(ch) else \"\\ufffd\")", "ch")],
    "names as on standard error": [("    names = [escaped(name) for name in names]\n", "    names = [escaped(reported_galley.reported.plain(name)) for name in names]\n")],
    "way outs are not escaped": [("way = escaped(line.way_out(72 * galley.pica, galley.width))", "way = line.way_out(72 * galley.pica, galley.width)")],
    "all lines are in the table": [("        if line.fault:\n            way =", "        if True:\n            line.fault = line.fault or \"too wide\"\n            way =")],
    "the first line at fault alone": [("    for line in galley.lines:\n        if line.fault:\n            way", "    for line in [line for line in galley.lines if line.fault][:1]:\n        if line.fault:\n            way")],
    "the end of a line for its place": [("line.number, line.number, line.begin, line.fault, way)", "line.number, line.number, line.end, line.fault, way)")],
    "links lead to pages": [("<a href=\"#line-%d\">", "<a href=\"#page-%d\">")],
    "no line at fault is an empty table": [("    if not rows:\n        return \"<p>No line is at fault.</p>\\n\"\n", "")],
    "each missing sort once": [("(named(galley.copy[at]), at) for at in galley.lacking]", "(named(galley.copy[at]), at) for k, at in enumerate(galley.lacking) if galley.copy[at] not in [galley.copy[it] for it in galley.lacking[:k]]]")],
    "missing sorts after the lines": [("listed(\"Missing sorts\", lacks(galley)) + at_fault(galley)", "at_fault(galley) + listed(\"Missing sorts\", lacks(galley))")],
    "faults of the copy are not listed": [("    faults = listed(\"Faults of the copy\", copy_faults(meaning))\n", "    faults = \"\"\n")],
    "faults of the copy are listed where there is a galley alone": [("        return out + faults + '<p class=\"c\">", "        return out + '<p class=\"c\">")],
    "empty lists have heads": [("for it in items)) if items else \"\"", "for it in items))")],
    "no document without a galley": [("    if html is not None:\n        made", "    if html is not None and not isinstance(galley, str):\n        made")],
    "any HTML is a document": [("data.startswith(oracle_pages.BEGIN.encode())", "data.startswith(b\"<!DOCTYPE html>\")")],
    "a document begins with its first lines but one": [("data.startswith(oracle_pages.BEGIN.encode())", "data.startswith(oracle_pages.BEGIN.encode()[:-40])")],
    "a document gives way to a picture": [("kind_of(there) != kind_of(data)", "kind_of(there) not in (kind_of(data), \"a document\")")],
    "a picture gives way to a document": [("kind_of(there) != kind_of(data)", "kind_of(there) != kind_of(data) and not (kind_of(there) == \"a picture\" and kind_of(data) == \"a document\")")],
    "a document in the place of its picture": [("    spare(html, (*names, to), \"document\")", "    spare(html, names, \"document\")")],
    "a document in the place of its feed": [("    spare(html, (*names, to), \"document\")", "    spare(html, (case, wedge, to), \"document\")")],
    "the document before the picture": [("    for store in stores:\n", "    for store in reversed(stores):\n")],
    "no document behind a picture that is not stored": [("            told += stop.told\n", "            told += stop.told\n            break\n")],
    "one fault of two": [("            told += stop.told\n", "            told = stop.told\n")],
}

# Of pages as pictures.
PAGES |= {
    "pages are always one picture": [("if height is not None else [oracle_pages.picture(meaning, galley)]", "if False else [oracle_pages.picture(meaning, galley)]")],
    "the height is for documents alone": [("pictures(names, meaning, galley, height) if height is not None", "pictures(names, meaning, galley, 842) if height is not None")],
    "one page is a page alone": [("    if pages is None or len(pages.lines) < 2:\n", "    if pages is None or len(pages.lines) < 1:\n")],
    "pages alone count from 0": [("    for number, page in enumerate(pages, 1):\n        numbered", "    for number, page in enumerate(pages):\n        numbered")],
    "force is for numbered pages too": [("        put(files, numbered, page, False)\n", "        put(files, numbered, page, force)\n")],
    "pages behind one that is not stored": [("        put(files, numbered, page, False)\n    return None\n", "        try:\n            put(files, numbered, page, False)\n        except Stops as stop:\n            fault = stop\n    if \"fault\" in locals():\n        raise locals()[\"fault\"]\n    return None\n")],
    "pages alone have the heads of documents": [("    told = galley.head() + (", "    told = galley.set_by() + (")],
    "pages alone are silent on copy faults": [(" if meaning.faults else \"\")\n    looks", " if False else \"\")\n    looks")],
    "pages alone have no looks": [("pages.page(number, names, told, looks)", "pages.page(number, names, told)")],
}
