"""The galley as a picture and as a document with pages, byte for byte, from docs/FORMATS.md, docs/DEFINITIONS.md and the
independent program. Places and sizes are in hundredths of a point."""
import oracle
import reported_galley

EDGE, TOP, BELOW, BESIDE, MORE = 10000, 4400, 1000, 27000, 5000
NAMED = {"&": "&amp;", "<": "&lt;", ">": "&gt;", '"': "&quot;"}
LOOKS = (
    "text{font-family:Times New Roman,Liberation Serif,Times,serif;white-space:pre}"
    ".w{direction:ltr;unicode-bidi:bidi-override;font-variant-ligatures:none;font-kerning:none}.i{font-style:italic}"
    ".s{font-variant:small-caps;font-variant-caps:all-small-caps}.m{fill:#c00}.f,.c{fill:#b00}.c,.h,.n{font-family:sans-serif;font-size:8px}"
    ".n{fill:#777;text-anchor:end;user-select:none}.b{fill:#e4e9ef;stroke:#a9b4c0;stroke-width:.3}.frame{fill:#fff;stroke:#999;stroke-width:.5}")
RULES = (".paper{fill:#fbf9f2}.r{stroke:#fff;stroke-width:.3;fill:none}"
         ".e{fill:none}.d{stroke:#111;stroke-width:.6;fill:none}.d.f{stroke:#b00;fill:none}"
         ".y{fill:#b00;font-family:sans-serif;font-size:6px}")
LOOKS_OF_PAGES = LOOKS + (
    "body{margin:0;font-family:sans-serif;color:#111;background:#fbf9f2}main{padding:10pt;font-size:9pt}h1{font-size:13pt}h2{font-size:11pt}"
    "table{border-collapse:collapse}td,th{text-align:left;padding:1pt 6pt;border:1px solid #999}"
    "svg{display:block;break-after:page;max-width:100%;height:auto}main{break-after:page}"
    + RULES + "a{color:#00c}p.c{color:#b00}@page m{margin:24pt 10pt}@media print{svg{max-width:none}main{page:m;padding:0}}"
    "@media screen and (prefers-color-scheme:dark){body{color:#ddd;background:#16181b}.paper{fill:#1d2024}.frame{fill:#23272c;stroke:#666}"
    "text{fill:#ddd}.r{stroke:#23272c}.b{fill:#39414a;stroke:#667}.n{fill:#999}.f,.c,.m,.y,p.c{fill:#ff8a80;color:#ff8a80}a{color:#8ab4f8}"
    ".d{stroke:#ddd}.d.f{fill:none;stroke:#ff8a80}}")
BEGIN = ('<!DOCTYPE html>\n<html xmlns="http://www.w3.org/1999/xhtml" lang="en">\n<head>\n<meta charset="utf-8"/>\n'
         '<meta name="generator" content="copydesk"/>\n')
SVG = '<svg xmlns="http://www.w3.org/2000/svg" xml:space="preserve" viewBox="0 0 %s %s" width="%spt" height="%spt"'
STYLES = ["roman", "italic", "small capital"]
CLASSES = ["", "i", "s", "e", "m"]  # of Roman, italic and small capital symbols, of dashes, and of those that the case lacks
DASHES, GAP = "\u2013\u2014\u2015", 40  # what is cast as a rule, and how far such a rule is from the edges of its matrix


def allowed(ch):
    return ch in "\t\n\r" or ch >= " " and ch not in "\ufffe\uffff"


def escaped(text):
    """A text as XML has it."""
    return "".join(NAMED.get(ch) or (ch if allowed(ch) else "\ufffd") for ch in text)


def points(hundredths):
    return "%d.%02d" % divmod(hundredths, 100)


def attribute(name, hundredths):
    return ' %s="%s"' % (name, points(hundredths))


def text_at(kind, x, y, told):
    return '<text class="%s"%s%s>%s</text>\n' % (kind, attribute("x", x), attribute("y", y), told)


class Drawn:
    """A galley as it is drawn: where its matrices are, from the left."""

    def __init__(self, galley):
        self.galley, self.point, self.set = galley, 72 * galley.pica, galley.set
        self.leading = self.set + 400
        self.measure = galley.settings["measure"] * self.point

    def across(self, atoms):
        return EDGE + atoms * 100 // self.point

    def space(self, line):
        """How wide a space of a line is: at its wedge sum, or at neutral where the wedges do not reach it."""
        reached = line.sum is not None and 16 <= line.sum <= reported_galley.GREATEST
        return max(0, self.galley.neutral + oracle.STEP * (line.sum - 53)) if reached else self.galley.neutral

    def reach(self, line):
        """How far the words and spaces of a line go."""
        return sum(map(self.galley.width, line.words)) + line.spaces * self.space(line)

    def page_width(self):
        return self.across(max([self.measure, *map(self.reach, self.galley.lines)])) + BESIDE

    def frame_height(self, count):
        return self.leading * count + self.set // 2

    def matrices(self, line):
        """Of each word of a line where its symbols begin and where it ends, in atoms; and where the words end, or the added space."""
        out, here = [], 0
        for word in line.words:
            places = [here]
            for symbol in word:
                places.append(places[-1] + self.galley.width([symbol]))
            out.append(places)
            here = places[-1] + self.space(line)
        return out, here if line.added else here - self.space(line)

    def letters(self, word):
        """The characters of a word, in runs of one dress."""
        out, worn = "", ""
        for style, ch in word:
            dress = CLASSES[4 if (style, ch) not in self.galley.known else 3 if chr(ch) in DASHES else style]
            if dress != worn:
                out += ("</tspan>" if worn else "") + ('<tspan class="%s">' % dress if dress else "")
                worn = dress
            out += escaped(chr(ch))
        return out + ("</tspan>" if worn else "")

    def line(self, line, y):
        """A line whose letters stand here: its number and place, its words, the boxes of its fills, and its fault."""
        places, end = self.matrices(line)
        out = text_at("n", 4000, y, line.number) + text_at("n", 8800, y, line.begin)
        out += '<text class="%s"%s>' % ("w f" if line.fault else "w", attribute("y", y))
        for word, at in zip(line.words, places):
            out += '<tspan x="%s">%s </tspan>' % (" ".join(points(self.across(here)) for here in at), self.letters(word))
        out += "</text>\n"
        height = self.set * 2 // 3
        for count, width in zip(line.fills, self.galley.fills):
            for _ in range(count):
                left = self.across(end)
                out += '<rect class="b"%s%s' % (attribute("x", left), attribute("width", self.across(end + width) - left))
                out += "%s%s/>\n" % (attribute("y", y - height), attribute("height", height))
                end += width
        return out + (text_at("c", self.beside(line), y, line.fault) if line.fault else "")

    def beside(self, line):
        """Where what is told of a line begins."""
        return self.across(max(self.measure, self.reach(line))) + 600

    def way(self, line, y):
        """The way out of a line at fault, below its cause."""
        return text_at("y", self.beside(line), y + 600, escaped(line.way_out(self.point, self.galley.width))) if line.fault else ""

    def rules(self, line, y):
        """A thin rule at the left edge of each matrix of a word but its first."""
        places, _ = self.matrices(line)
        edges = [self.across(here) for at in places for here in at[1:-1]]
        marks = "".join("M%s %sV%s" % (points(x), points(y - self.set), points(y)) for x in edges)
        return '<path class="r" d="%s"/>\n' % marks if marks else ""

    def dashes(self, line, y):
        """A rule for each dash that the case has, a quarter of the set above the foot."""
        out, (places, _) = "", self.matrices(line)
        for word, at in zip(line.words, places):
            for symbol, here, end in zip(word, at, at[1:]):
                if symbol in self.galley.known and chr(symbol[1]) in DASHES:
                    out += "M%s %sH%s" % (points(self.across(here) + GAP), points(y - self.set // 4), points(self.across(end) - GAP))
        return '<path class="%s" d="%s"/>\n' % ("d f" if line.fault else "d", out) if out else ""

    def frame(self, top, count):
        sizes = (("x", EDGE), ("y", top), ("width", self.galley.settings["measure"] * 100), ("height", self.frame_height(count)))
        return '<rect class="frame"%s/>\n' % "".join(attribute(*size) for size in sizes)


def copy_faults(meaning):
    """The faults of a copy, each in a line."""
    return ["%s %s: %s" % (kind, oracle.stamp_text(stamp), reported_galley.COPY_FAULTS[kind]) for kind, stamp in meaning.faults]


def lacks(galley):
    """The symbols that the case lacks, each at each of its places."""
    named = lambda symbol: "%s '%s' (U+%04X)" % (STYLES[symbol[0]], escaped(chr(symbol[1])), symbol[1])
    return ["no matrix for %s at place %d" % (named(galley.copy[at]), at) for at in galley.lacking]


def picture(meaning, galley):
    """The picture of a galley, or of the line that says why there is none."""
    found = isinstance(galley, reported_galley.Galley)
    above = [("c", told) for told in copy_faults(meaning)]
    above += [("h", galley.head()), *(("c", told) for told in lacks(galley))] if found else [("c", galley.rstrip("\n"))]
    top = 2000 + 1200 * len(above)
    drawn = Drawn(galley) if found else None
    size = (drawn.page_width(), top + drawn.frame_height(len(galley.lines)) + BELOW) if found else (50000, top)
    out = SVG % (*map(points, size), *map(points, size)) + ">\n<style>%s</style>\n" % LOOKS
    out += '<rect width="100%" height="100%" fill="#fbf9f2"/>\n'
    out += "".join(text_at(kind, 1000, 2000 + 1200 * k, told) for k, (kind, told) in enumerate(above))
    if found:
        lines = "".join(drawn.line(line, top + drawn.leading * line.number) for line in galley.lines)
        out += drawn.frame(top, len(galley.lines)) + "<g%s>\n%s</g>\n" % (attribute("font-size", drawn.set), lines)
    return out + "</svg>\n"


class Pages:
    """The pages of a galley, each with as many lines as fit into its height."""

    def __init__(self, galley, height):
        self.drawn, self.galley = Drawn(galley), galley
        most = (height * 100 - TOP - BELOW - self.drawn.set // 2) // self.drawn.leading
        self.count = max(1, most)
        self.height = max(height * 100, TOP + self.drawn.frame_height(1) + BELOW)
        self.width = self.drawn.page_width() + MORE
        self.lines = [galley.lines[at:at + self.count] for at in range(0, len(galley.lines), self.count)]

    def page(self, number, names, told, looks=""):
        """A page by its number, with what is told of the galley, and looks of its own."""
        drawn, size = self.drawn, (self.width, self.height)
        out = SVG % (*map(points, size), *map(points, size)) + ' id="page-%d">\n' % number + looks
        out += '<rect class="paper" width="100%" height="100%"/>\n'
        head = "%s, case %s, wedge %s, %s, page %d of %d" % (*names, told, number, len(self.lines))
        out += text_at("h", 1000, 2000, head) + text_at("n", 4000, 3200, "line") + text_at("n", 8800, 3200, "place")
        out += text_at("h", EDGE, 3200, "as it is set") + drawn.frame(TOP, len(self.lines[number - 1]))
        out += "<g%s>\n" % attribute("font-size", drawn.set)
        for k, line in enumerate(self.lines[number - 1], 1):
            y = TOP + drawn.leading * k
            parts = drawn.line(line, y), drawn.rules(line, y), drawn.dashes(line, y), drawn.way(line, y)
            out += '<g id="line-%d">\n%s</g>\n' % (line.number, "".join(parts))
        return out + "</g>\n</svg>\n"


def listed(head, items):
    return "<h2>%s</h2>\n<ul>\n%s</ul>\n" % (head, "".join("<li>%s</li>\n" % it for it in items)) if items else ""


def at_fault(galley):
    """The lines at fault, each with its cause and the way out."""
    rows = ""
    for line in galley.lines:
        if line.fault:
            way = escaped(line.way_out(72 * galley.pica, galley.width))
            rows += '<tr><td><a href="#line-%d">%d</a></td><td>%d</td><td>%s</td><td>%s</td></tr>\n' % (line.number, line.number, line.begin, line.fault, way)
    if not rows:
        return "<p>No line is at fault.</p>\n"
    heads = "<thead><tr><th>line</th><th>place</th><th>cause</th><th>way out</th></tr></thead>"
    return "<h2>Lines at fault</h2>\n<table>\n%s\n<tbody>\n%s</tbody>\n</table>\n" % (heads, rows)


def document(names, meaning, galley, height):
    """The document of a galley, or of the line that says why there is none. The names are those of the feed or text, of the
    case file and of the wedge file."""
    names = [escaped(name) for name in names]
    pages = Pages(galley, height) if isinstance(galley, reported_galley.Galley) else None
    size = points(pages.width) if pages else "500", height
    out = BEGIN + "<title>Proof of %s</title>\n" % names[0]
    out += "<style>%s@page{size:%spt %dpt;margin:0}</style>\n</head>\n<body>\n<main>\n<h1>Proof of %s</h1>\n" % (LOOKS_OF_PAGES, *size, names[0])
    faults = listed("Faults of the copy", copy_faults(meaning))
    if pages is None:
        return out + faults + '<p class="c">%s</p>\n</main>\n</body>\n</html>\n' % galley.rstrip("\n")
    numbers = galley.settings["case"], names[1], galley.settings["wedge"], names[2]
    out += "<p>%s</p>\n<p>Case %d in %s, wedge %d in %s.</p>\n" % (galley.head(), *numbers) + faults
    out += listed("Missing sorts", lacks(galley)) + at_fault(galley) + "</main>\n"
    return out + "".join(pages.page(number, names, galley.set_by()) for number in range(1, len(pages.lines) + 1)) + "</body>\n</html>\n"


def pictures(names, meaning, galley, height):
    """The pages of a galley as pictures, where it has more than one; else its one picture."""
    pages = Pages(galley, height) if isinstance(galley, reported_galley.Galley) else None
    if pages is None or len(pages.lines) < 2:
        return [picture(meaning, galley)]
    told = galley.head() + (", %d faults of the copy" % len(meaning.faults) if meaning.faults else "")
    looks = "<style>%s</style>\n" % (LOOKS + RULES)
    names = tuple(map(escaped, names))
    return [pages.page(number, names, told, looks) for number in range(1, len(pages.lines) + 1)]


def numbered(name, number):
    """A name with a number before its ending."""
    stem, point, ending = name.rpartition(".")
    return "%s.%d.%s" % (stem, number, ending) if point and "/" not in ending else "%s.%d" % (name, number)
