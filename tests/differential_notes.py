"""Random commands of differential_files.py on texts and ribbons: proofs of texts and of feeds, as galleys and for editors, with
second looks, with pictures and documents; ribbons that are read in part or by their figures, and that are compared by what they
cast."""
import differential
import oracle
import oracle_runs
import reported
import reported_copy

MARKED = [list(row) for row in differential.ROWS]
for at_row, at_column, at_text in [(1, 0, "-"), (1, 1, ","), (1, 2, "'"), (1, 3, '\\"'), (4, 3, "_"), (4, 4, "\\\\"), (4, 5, "^"), (0, 1, "i:-"), (0, 2, "i:."),
                                   (0, 3, "s:-"), (0, 4, "s:,"), (7, 1, "i:n"), (7, 2, "s:n"), (7, 3, "\u00e9"), (1, 4, "i:'"), (10, 0, "\u2014"), (10, 1, "i:\u2013")]:
    MARKED[at_row][at_column] = at_text
WORDS = ["nn", "mtn", "a", "n.", "Mnt", "tnmn", "nnnnn", "n", "a-", "nt-", "-", "--", "nn,", "'n", "\"a\"", "_a_", "^M^", "_a-_", "^M-^", "_n_", "n_a_", "_a,_",
         "_'_", "\\_", "n\\^", "\\\\", "\u00e9", "t\u00e9n", "z", "_z_", "\u20ac", "n\u202en", "\U0001d510", "e\u0301", "n&n", "<n>", "n\ufffe", "n\u2014n", "\u2014\u2014", "_a\u2013_", "n\u2015"]
BETWEEN = [" "] * 12 + ["  ", "   ", "\n", "\r\n", " \n", "\n ", "\n\n", "  \n", "\n.", " .", " ,", " _._ ", " ^,^", " '"]
ALIKE = [["n", "_n_"], ["a-", "_a-_"], ["a", "_a_", "a"]]
BROKEN = ["_", "^", "\\", "\\n", "\r", "\t", "_n\n_", "_n^a^_", "\x85", "\x7f"]
PITCHES = [(1, 8), (1, 8), (1, 10), (2, 16), (1, 7), (3, 7), (7, 3), (1, 1), (1, 3), (65535, 65535), (1, 65535), (65535, 1), (9, 80)]
ENDS = [1, 1, 2, 2, 3, 4, 5, 9, 10, 400, 65536, 4294967295]
BLANK = [(14, 15), (0, 5), (6, 1)]
HEIGHTS = {"a4": 842, "letter": 792, "200": 200, "201": 201, "230": 230, "0000000300": 300, "842": 842, "14400": 14400}
NAMES = ["other"] * 6 + ["o\u202eb.rib", "o\x1b[1m.rib", "a b", "o:7:1: x"]


def cells_of(fill):
    """The cells for which the case with the marks has something."""
    case = oracle.first_fault_case(differential.case_text(fill, rows=MARKED).encode())[1]
    return [*case["cells"], case["space"], *case["fill"]]


FILLS = ['["O15", "A5"]', '["O15"]', '["O15", "O11", "O9", "O3"]']
CELLS = {fill: cells_of(fill) for fill in FILLS}


class Notes:
    """Of a class with a random choice, and files, and jobs: see differential_files.py."""

    narrow, heights = False, list(HEIGHTS)
    pictures, documents, numbered = 0.35, 0.45, 0.1  # how often a command stores these, and finds files in their places

    def metal(self, lacking=8):
        """A case with the marks, or of so many in a hundred one that lacks them, and a wedge; each may be another file."""
        self.fill = self.pick.choice(FILLS)
        self.files["m"] = differential.case_text(self.fill, rows=MARKED).encode()
        return [self.pick.choice(["m"] * (97 - lacking) + ["c"] * lacking + ["w"] * 3), self.pick.choice(["w"] * 28 + ["w6"] * 2 + ["c"])]

    def cells(self):
        """The cells of the case with the marks, or of another."""
        return CELLS[self.fill if self.pick.random() < 0.9 else self.pick.choice(FILLS)]

    def some_text(self):
        """A text of some lines of a few words, in which one may be broken."""
        pick, out = self.pick, []
        self.narrow = pick.random() < 0.12
        if self.narrow:  # words that are alone in their lines, and lines of no words
            ends = [" ", "  ", "\r\n", "\r\n\r\n", "\n\r\n", " \r\n"]
            return "".join(word for _ in range(pick.choice([1, 2, 3])) for word in (pick.choice(["nnnnn", "_a_nnnn", "tnmn"]), pick.choice(ends))).encode()
        words = pick.sample(WORDS, pick.choice([1, 2, 3, 5, 9])) if pick.random() < 0.9 else pick.choice(ALIKE)
        ends = pick.choice([BETWEEN, BETWEEN, [" "], [" ", " ", "  "], ["\n", " "], [" ", " ", "\r\n"]])
        for _ in range(pick.choice([0, 1, 3, 5, 9, 16, 25])):
            out += [pick.choice(words), pick.choice(ends)]
        if pick.random() < 0.5:
            out = out[:-1]
        if pick.random() < 0.1:
            out.insert(pick.randrange(len(out) + 1), pick.choice(BROKEN))
        data = "".join(out).encode()
        if pick.random() < 0.03:
            at = pick.randrange(len(data) + 1)
            data = data[:at] + pick.choice([b"\xff", b"\xe2\x82", b"\xed\xa0\x80"]) + data[at:]
        return data

    def trial(self, missing):
        """Settings that are tried: those of a galley, of which one may be missing, another or there twice; or some of them."""
        pick = self.pick
        out = [("measure", pick.choice([24, 24, 30] if self.narrow else [24, 36, 48, 60, 120])), ("tight", pick.choice([38, 38, 45])), ("loose", pick.choice([60, 75, 150, 150]))]
        if pick.random() < missing:
            out = pick.sample(out, pick.choice([0, 1, 2]))
        if pick.random() < 0.1:
            out.append((pick.choice(oracle.KEYS), pick.choice([16, 24, 60, 1, 5])))
        out = [(key, value) for key, value in out if oracle.RANGES[key][0] <= value <= oracle.RANGES[key][1]]
        pick.shuffle(out)
        return out

    def asked_for(self, trial):
        """What a proof is asked for beside: tried settings, faults alone, lines for editors, second looks, a picture."""
        pick = self.pick
        flags = {"trial": trial, "alone": pick.random() < 0.25, "gcc": pick.random() < 0.5, "warn": pick.random() < 0.7}
        words = [word for key, value in trial for word in ("--set", "%s=%d" % (key, value))]
        words += ["--faults"] * flags["alone"] + (["--format", "gcc"] if flags["gcc"] else []) + ["--warn"] * flags["warn"]
        return words, flags

    def picture(self, *sources):
        """A picture that a command stores, mostly none."""
        if self.pick.random() >= self.pictures:
            return None, [], {}
        to, force = self.stands(*sources), self.pick.random() < 0.25
        return to, ["--svg", to] + ["--force"] * force, {"force": force}

    def drawings(self, *sources):
        """A picture and a document that a proof stores, mostly not both, and the height of a page; their targets may be one. Something
        may be where a page is stored."""
        to, words, flags = self.picture(*sources)
        page = None
        if self.pick.random() < self.documents:
            page = self.stands(*sources, name="page") if to is None or self.pick.random() < 0.92 else to
            words = words + ["--html", page]
        if (to or page) is not None and self.pick.random() < 0.7:
            height = self.pick.choice(self.heights)
            words, flags["height"] = words + ["--page", height], HEIGHTS[height]
            for name in ("target.1", "target.2", "target.3"):
                if to is not None and self.pick.random() < self.numbered:
                    self.files[name] = self.pick.choice([b"<svg>", b"<svg></svg>", b"", b"MRB1", b"\n<svg"])
        if page is not None and "force" not in flags:
            flags["force"] = self.pick.random() < 0.25
            words = words + ["--force"] * flags["force"]
        return (to, page), words, flags

    def of_text(self):
        """A proof of a text."""
        name, (case, wedge), plain = self.pick.choice(["text"] * 6 + ["te\u202ext", "te\x9b.txt", "12:3: a", "a&b<c>.txt"]), self.metal(20), self.pick.random() < 0.2
        if self.pick.random() < 0.97:
            self.files[name] = self.some_text()
        words, flags = self.asked_for(self.trial(0.06))
        targets, more, force = self.drawings(name, case, wedge)
        words = ["proof", "--text", name, "--case", case, "--wedge", wedge] + ["--plain"] * plain + words + more
        return oracle_runs.proof, [name, case, wedge, *targets], words, {**flags, **force, "text": "plain" if plain else "marks"}

    def texted(self):
        """A feed with the copy of a text, which another site may have edited, and with settings."""
        try:
            copy = reported_copy.read_text(self.some_text())
        except reported_copy.NoText:
            copy = []
        world, (case, wedge) = reported.world_of(1, set()), self.metal(20)
        for key, value in self.trial(0.06) + [("case", 1), ("wedge", 5)]:
            world.answer(b"set 1 %s %d" % (key.encode(), value))
        world.insert(1, 0, copy or [(0, ord("n"))])
        held = self.edits(world.sites[1], 2, self.pick.choice([0, 0, 1]))
        if self.pick.random() < 0.2:
            held = held | self.pick.choice([{("delete", (30, 2), (29, 2))}, {("set", (1, 1), "loose", 151)}, self.forged(2)])
        self.files["one"] = oracle.runs_feed(held)
        return ["one", case, wedge]

    def of_proof(self):
        """A proof of a feed: of the copy of a text, or of any."""
        job, (until, asked) = self.texted() if self.pick.random() < 0.7 else self.job(), self.until(0.2)
        words, flags = self.asked_for(self.trial(1) if self.pick.random() < 0.4 else [])
        targets, more, force = self.drawings(*job)
        words = ["proof", "one", "--case", job[1], "--wedge", job[2], *words, *more, *asked]
        return oracle_runs.proof, [*job, *targets], words, {**flags, **force, "until": until}

    def some_lines(self, cells):
        """Lines of a ribbon: cells with S or without, and the positions of the wedges; a few of them again and again."""
        pick, cells = self.pick, cells + [cell for cell in cells if cell in BLANK] * 3
        made = [([(pick.choice(cells), pick.random() < 0.15) for _ in range(pick.choice([0, 1, 2, 5, 9]))], pick.randint(1, 15), pick.randint(1, 15)) for _ in range(4)]
        return [pick.choice(made) for _ in range(pick.choice([0, 1, 2, 3, 3, 4, 6]))]

    def ribbon_of(self, lines):
        """The ribbon of lines, of one galley or of several, some of which may have no line."""
        ends, images = self.pick.choice([0, 0, 0, 0.3, 0.7]), [oracle.image_fine(8)]
        for cells, coarse, fine in lines:
            while self.pick.random() < ends:
                images.append(oracle.image_fine(self.pick.choice([8, 8, 8, 1])))
            images += [oracle.image_cell(*one) for one in cells] + [oracle.image_coarse(coarse), oracle.image_fine(fine)]
        while self.pick.random() < ends:
            images.append(oracle.image_fine(8))
        return oracle.ribbon_bytes(images)

    def damaged(self, data, often):
        """A ribbon that may be cut or changed, or may be no ribbon."""
        pick = self.pick
        if pick.random() >= often:
            return data
        rows = [data[at:at + 4] for at in range(8, len(data), 4)]
        kind = pick.randrange(6)
        if kind == 0 and rows:
            del rows[pick.randrange(len(rows))]
        elif kind == 1:
            rows.insert(pick.randrange(len(rows) + 1), pick.choice([oracle.image_coarse(3), oracle.image_fine(3), oracle.image_cell((2, 1), False)]).to_bytes(4, "big"))
        elif kind == 2:
            rows.insert(pick.randrange(len(rows) + 1), pick.choice([1 << 31, 4, 0x60000000, 2 | 1 << 20]).to_bytes(4, "big"))
        elif kind == 3:
            return pick.choice([data[:-4], data[:-1], b"", b"MRB1", b"MFD2", b"MRB1\0\0\0\0"])
        return b"MRB1" + len(rows).to_bytes(4, "big") + b"".join(rows)

    def changed(self, lines, cells):
        """The lines with one of them changed, left out, or put in; or as they are."""
        pick, out = self.pick, list(lines)
        at, kind = pick.randrange(len(out) + 1), pick.randrange(8)
        if kind == 0:
            out.insert(at, pick.choice(self.some_lines(cells) or [([], 3, 8)]))
        elif at < len(out):
            matrices, coarse, fine = list(out[at][0]), *out[at][1:]
            some = pick.randrange(len(matrices)) if matrices else None
            if kind == 1:
                del out[at]
            elif kind == 2:
                del out[at:]
            elif kind == 3:
                out[at] = (matrices, coarse % 15 + 1, fine)
            elif kind == 4:
                out[at] = (matrices, coarse, fine % 15 + 1)
            elif kind == 5 and some is not None:
                matrices[some] = (matrices[some][0], not matrices[some][1])
                out[at] = (matrices, coarse, fine)
            elif kind == 6 and some is not None:
                blank = [cell for cell in cells if cell in BLANK]
                of_row = [cell for cell in cells if cell[1] == matrices[some][0][1]]
                matrices[some] = (pick.choice(pick.choice([blank, of_row, cells])), matrices[some][1])
                out[at] = (matrices, coarse, fine)
        return out

    def of_read(self):
        """A ribbon that is read: all of it, some lines, or its figures; with a picture or without."""
        pick, (case, wedge) = self.pick, self.metal(4)
        cells = self.cells()
        if pick.random() < 0.97:
            self.files["rib"] = self.damaged(self.ribbon_of(self.some_lines(cells)), 0.2)
        flags, words, kind = {}, [], pick.random()
        if kind < 0.4:
            begin, more = pick.choice(ENDS), pick.choice(ENDS)
            flags["some"] = (begin, pick.choice([begin, max(begin, more), max(begin, more)]))
            words = ["--lines", "%d..%d" % flags["some"]]
        elif kind < 0.8:
            flags["pitch"] = pick.choice(PITCHES)
            words = ["--stats"] + (["--pitch", "%d/%d" % flags["pitch"]] if flags["pitch"] != (1, 8) or pick.random() < 0.5 else [])
        to, more, force = self.picture("rib", case, wedge)
        words = ["read", "rib", "--case", case, "--wedge", wedge, *words, *more]
        return oracle_runs.read, ["rib", case, wedge, to], words, {**flags, **force}

    def of_compare(self):
        """Two ribbons that may differ in a line or two, or be of another case; or one of them twice."""
        pick, (case, wedge), name = self.pick, self.metal(4), self.pick.choice(NAMES)
        cells = self.cells()
        lines = self.some_lines(cells)
        other = self.changed(lines, cells) if pick.random() < 0.8 else self.some_lines(cells)
        if pick.random() < 0.2:
            other = self.changed(other, cells)
        often = pick.choice([1] * 9 + [0.5])
        if often < 1 and pick.random() < 0.3:
            case = "w"
        for ribbon, those in (("rib", lines), (name, other)):
            if pick.random() < often:
                self.files[ribbon] = self.damaged(self.ribbon_of(those), 0.1)
        names = pick.choice([("rib", name)] * 7 + [(name, "rib"), ("rib", "rib"), (name, name)])
        return oracle_runs.compare, [*names, case, wedge], ["diff", *names, "--case", case, "--wedge", wedge], {}
