"""Reads a drawing of `kusikhut picture`: from SVG back to what it says, and where.

Everything that is drawn is told once, under what it is (KEYS), with its class and its place: the line of chips or the
row of bytes that it belongs to, from 0, and its x. What belongs to nothing is told as stray. Nothing is judged here.
"""
import functools
import re
import xml.etree.ElementTree as ET
from bisect import bisect_right

KEYS = ("lanes", "lead", "sixteen", "labels", "waves", "words", "digits", "values", "tried", "boxes", "bytes", "names",
        "brackets", "blocks", "end", "red", "stray")
# Those that are told in the order in which they are drawn; all others are sorted, since red boxes are drawn last.
IN_ORDER = ("lanes", "end")

# What a rectangle is can be told from its height.
BYTE_BOX, SIXTEEN_BOX, WORD_BOX = 26, 24, 32
# A signal begins so far above the name at its left, and the shade of its words a little above it.
ABOVE_LANE, ABOVE_SIGNAL = 12, 3
LEVELS = {0: "1", 14: "0"}
# Field names stand so near below the bytes; what is further below is said of a block.
NAMES_BELOW = 22
BRACKET = 5
LANE_X = "20"
RED = "#c00000"
# With any other, an element could look otherwise than its class and place say.
ATTRIBUTES = {"x", "y", "width", "height", "d", "text-anchor", "class"}

STEP = re.compile(r"([MHV])([^MHV]*)")
RULE = re.compile(r"\.([\w-]+) \{([^}]*)\}")


class Drawing:
    """What is said in a drawing; `said` has a list for each of KEYS."""

    def __init__(self, svg):
        self.said = {key: [] for key in KEYS}
        root = ET.fromstring(svg)
        self.page = number(root, "width"), number(root, "height")
        by_tag = {}
        for element in root:
            by_tag.setdefault(element.tag.split("}")[-1], []).append(element)
        rects = [e for e in by_tag.pop("rect", []) if e.get("class") != "page"]
        texts, paths, styles = (by_tag.pop(tag, []) for tag in ("text", "path", "style"))
        self.title = "".join(e.text or "" for e in by_tag.pop("title", []))
        self.head = [(e.get("class"), e.text or "") for e in texts[:2]]
        self.find_rows(texts, rects)
        self.tell(texts[2:], self.text)
        self.tell(rects, self.rect)
        self.tell(paths, self.path)
        self.kinds = sorted({e.get("class", "") for e in texts + rects + paths})
        style = "".join(e.text or "" for e in styles)
        self.said["red"] = [(kind,) for kind in self.kinds if is_red(style, kind)]
        self.said["stray"] += [(tag,) for tag in by_tag]
        for key in KEYS:
            if key not in IN_ORDER:
                self.said[key].sort()

    def find_rows(self, texts, rects):
        """The heights of the rows of bytes, of sync word and tail, and of the lines of chips."""
        self.rows = sorted({number(e, "y") for e in rects if number(e, "height") == BYTE_BOX})
        self.sixteens = {number(e, "y") for e in rects if number(e, "height") == SIXTEEN_BOX}
        chips = [e for e in texts if is_lane(e) and (e.text or "").startswith("chip")]
        self.signals = sorted(number(e, "y") - ABOVE_LANE for e in chips)

    def tell(self, elements, tell):
        for e in elements:
            if not ATTRIBUTES.issuperset(e.attrib):
                self.add("stray", *e.attrib)
            tell(e, e.get("class", ""))

    def add(self, key, *what):
        self.said[key].append(what)

    def signal(self, y):
        """The line of chips that something at this height belongs to."""
        return bisect_right(self.signals, y) - 1

    def row(self, y):
        """The row of bytes at or above this height."""
        return bisect_right(self.rows, y) - 1

    def on_page(self, x, y, what):
        if not (0 <= x <= self.page[0] and 0 <= y <= self.page[1]):
            self.add("stray", what, x, y, "outside the page")

    def text(self, e, kind):
        """A text in the middle of something is said of that; one at the left speaks of the reception or of its end."""
        x, y, text = number(e, "x"), number(e, "y"), e.text or ""
        self.on_page(x, y, text)
        if kind.startswith("digits"):
            if text:
                self.add("digits", self.signal(y), x, kind, text)
        elif e.get("text-anchor") != "middle":
            self.text_at_left(e, x, y, kind, text)
        elif kind.startswith("mono"):
            self.add("values", self.signal(y), x, kind, text)
        elif any(top < y < top + SIXTEEN_BOX for top in self.sixteens):
            self.add("labels", x, kind, text)
        else:
            self.add(self.below(y), self.row(y), x, kind, text)

    def text_at_left(self, e, x, y, kind, text):
        if is_lane(e):
            self.add("lanes", text)
        elif kind in ("mono", "bad") or self.rows and y > self.rows[0]:
            self.add("end", kind, brief(text))
        else:
            self.add("lead", x, kind, text)

    def below(self, y):
        """What a text at this height in a row of bytes is."""
        if self.row(y) < 0:
            return "stray"
        down = y - self.rows[self.row(y)] - BYTE_BOX
        return "bytes" if down <= 0 else "names" if down <= NAMES_BELOW else "blocks"

    def rect(self, e, kind):
        x, y, width, height = (number(e, name) for name in ("x", "y", "width", "height"))
        self.on_page(x + width, y + height, kind)
        if height == BYTE_BOX:
            self.add("boxes", self.row(y), x, width, kind)
        elif height == SIXTEEN_BOX:
            self.add("sixteen", x, width, kind)
        elif height == WORD_BOX:
            self.add("words", self.signal(y + ABOVE_SIGNAL), x, width, kind)
        else:
            self.add("stray", "rect", x, y, kind)

    def path(self, e, kind):
        steps = STEP.findall(e.get("d"))
        shape = "".join(step for step, _ in steps)
        (x, y), ends = map(float, steps[0][1].split()), [float(to) for _, to in steps[1:]]
        if kind == "wave":
            self.wave(x, y, list(zip(shape[1:], ends)))
        elif shape == "MH" and kind == "bad-line":
            self.add("tried", self.signal(y), x, ends[0])
        elif shape in ("MVH", "MVHV") and y in (ends[0], ends[0] - BRACKET):
            self.add("brackets", self.row(y), x, ends[1], y < ends[0], shape == "MVHV", kind)
        else:
            self.add("stray", "path", x, y, kind)

    def wave(self, x, y, steps):
        """A signal as its levels from the left, 1 if high and 0 if low, each with how wide it is."""
        line = self.signal(min([y] + [to for step, to in steps if step == "V"]))
        high = self.signals[line] if line >= 0 else 0
        begin, levels = x, []
        for step, to in steps:
            if step == "H":
                levels.append((LEVELS.get(y - high, "?"), to - x))
                x = to
            else:
                y = to
        self.add("waves", line, begin, tuple(levels))


def number(element, name):
    return float(element.get(name, "nan"))


def is_lane(e):
    """Whether a text is the name of what stands right of it."""
    return e.get("class") == "lane" and e.get("x") == LANE_X


def brief(text):
    """What is said of the end, without what explains it."""
    return re.split("[,;]", text)[0]


@functools.cache
def is_red(style, kind):
    """Whether a class is shown red: of several rules for a property the last one holds."""
    rules = [body for name, body in RULE.findall(style) if name in kind.split()]
    shown = dict(pair for body in rules for pair in re.findall(r"([\w-]+): ([^;]*[^;\s])", body))
    return RED in (shown.get("fill"), shown.get("stroke"))
