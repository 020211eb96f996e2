"""A drawing and its plan as SVG: each step of the line once, retraces beside the line, the order by numbers and arrows.

Links that the planner made are told apart from those of the file. For a refused drawing: what was drawn, with what is
wrong marked.
"""
import collections
import math
from xml.sax.saxutils import escape

from . import drawing_file as f
from .drawing_text import coordinate_text, point_text
from .graph import graph
from .made_links import planned
from .refusals import CHECKS, pixels, told

SIDE, LEAST, MARGIN, ROW = 840, (480, 120), 48, 20  # the sheet, in its own units: longer side, least sides, margin, row of text
GAP = 9                                         # between the furrows of one stroke
LETTER = 0.57                                   # the mean width of a letter, in parts of its size

STYLE = """
.sheet { fill: #fbf6ea } .canvas { fill: #f1e4c8; stroke: #d9c59a }
.piece, .link, .made, .retrace, .wrong { fill: none; stroke-width: 2.4; stroke-linecap: round; stroke-linejoin: round }
.piece { stroke: #4b3621 } .link { stroke: #1769aa; stroke-dasharray: 7 5 } .retrace { stroke: #d1495b }
.made { stroke: #8a3ffc; stroke-dasharray: 1 5 } .met { fill: none; stroke: #8a3ffc; stroke-width: 1.8 }
.wrong { stroke: #c1121f; stroke-width: 4.5 } .ring { fill: none; stroke: #c1121f; stroke-width: 2.4 }
.arrow { stroke: none } .of-piece { fill: #4b3621 } .of-link { fill: #1769aa } .of-made { fill: #8a3ffc } .of-retrace { fill: #d1495b } .of-wrong { fill: #c1121f }
.start { fill: #2a7f3f } .end { fill: #c1121f }
text { font-family: sans-serif; fill: #2b2118 }
.label { paint-order: stroke; stroke: #fbf6ea; stroke-width: 3px; stroke-linejoin: round }
"""

NAMES = {"piece": "drawn", "link": "link", "made": "link made by the planner", "retrace": "retrace"}

Step = collections.namedtuple("Step", "p q kind furrow")


def link_kind(drawing):
    """What a drawing's links are drawn as: all are made by the planner, or all are its own."""
    return "made" if drawing.settings.flags & f.LINKING else "link"


def steps_of(made, points, link="link"):
    """The steps of a line, each with its kind and its furrow; link is the kind of the links.

    The first steps between two points are the pieces there, then the links; every later one is a retrace, since a retrace
    goes over what is already drawn and steps between two points can't be told apart. The furrow is 0, or the first one
    that no earlier step has where the two lie on one another."""
    pair = lambda p, q: (min(p, q), max(p, q))
    pieces = collections.Counter(pair(p, q) for p, q, *_ in made.pieces)
    links = collections.Counter(pair(l.a, l.b) for l in made.links if l.a != l.b)
    passed, straight = collections.Counter(), collections.defaultdict(list)
    for p, q in zip(points, points[1:]):
        among = pair(p, q)
        before = passed[among]
        passed[among] += 1
        kind = "piece" if before < pieces[among] else link if before < pieces[among] + links[among] else "retrace"
        # the straight line that the step lies on, and from where to where
        dx, dy = (among[1][i] - among[0][i] for i in (0, 1))
        dx, dy = dx // math.gcd(dx, dy), dy // math.gcd(dx, dy)
        earlier = straight[dx, dy, dx * p[1] - dy * p[0]]
        start, end = (dx * at[0] + dy * at[1] for at in among)
        taken = {which for a, b, which in earlier if a < end and start < b}
        which = next(i for i in range(len(taken) + 1) if i not in taken)
        earlier.append((start, end, which))
        yield Step(p, q, kind, which)


class Sheet:
    """Places on the sheet, and the labels that stand there already."""

    def __init__(self, places, settings):
        """places: the points to be shown, in pixels; those past the grid's reach are put at the sheet's edge."""
        shown = [p for p in places if all(abs(c) <= f.REACH for c in p)]
        box = [*map(min, zip(*shown)), *map(max, zip(*shown))] if shown else [0.0, 0.0, 0.0, 0.0]
        extent = max(box[2] - box[0], box[3] - box[1])
        self.canvas = settings.width, settings.height
        # a canvas much larger than the drawing would leave a speck of it
        self.whole = not shown or max(self.canvas) <= 4 * extent
        if self.whole:
            box = [min(box[0], 0), min(box[1], 0), max(box[2], self.canvas[0]), max(box[3], self.canvas[1])]
            extent = max(box[2] - box[0], box[3] - box[1])
        elif extent == 0:
            box, extent = [box[0] - 1, box[1] - 1, box[2] + 1, box[3] + 1], 2
        self.box, self.scale = box, SIDE / extent if extent else 1.0
        self.width, self.height = (max(LEAST[i], (box[i + 2] - box[i]) * self.scale) + 2 * MARGIN for i in (0, 1))
        self.size = 13                          # of the letters of labels
        self.taken = []                         # boxes of labels and marks
        self.strokes = collections.defaultdict(list)  # points along the strokes, by squares of 16

    def stroke(self, way, name=None):
        """Has labels, and the arrows of other strokes, keep clear of a way."""
        for a, b in zip(way, way[1:]):
            parts = max(1, round(distance(a, b) / 5))
            for k in range(parts + 1):
                x, y = (a[i] + (b[i] - a[i]) * k / parts for i in (0, 1))
                self.strokes[int(x // 16), int(y // 16)].append((x, y, name))

    def crossed(self, box, but=-1):
        """Whether a stroke, but for the one of this name, goes through a box."""
        return any(box[0] < x < box[2] and box[1] < y < box[3] and name != but
                   for i in range(int(box[0] // 16), int(box[2] // 16) + 1) for j in range(int(box[1] // 16), int(box[3] // 16) + 1)
                   for x, y, name in self.strokes.get((i, j), ()))

    def place(self, point):
        """A point given in pixels, on the sheet."""
        out = []
        for low, high, size, c in zip(self.box, self.box[2:], (self.width, self.height), point):
            edge = MARGIN / 2 / self.scale
            shown = max(low - edge, min(high + edge, c)) if c == c else low
            out.append((size - (high - low) * self.scale) / 2 + (shown - low) * self.scale)
        return tuple(out)

    def room(self, places, wide, high):
        """The first of these places where a label of this size touches no label and no stroke, or failing that no label;
        it is then taken. None if there is none."""
        boxes = [(x - wide / 2, y - high / 2, x + wide / 2, y + high / 2) for x, y in places]
        boxes = [box for box in boxes if box[0] >= 2 and box[1] >= 2 and box[2] <= self.width - 2 and box[3] <= self.height - 2
                 and not any(box[0] < b[2] and b[0] < box[2] and box[1] < b[3] and b[1] < box[3] for b in self.taken)]
        box = next((box for box in boxes if not self.crossed(box)), boxes[0] if boxes else None)
        if box is None:
            return None
        self.taken.append(box)
        return (box[0] + box[2]) / 2, (box[1] + box[3]) / 2


def distance(a, b):
    return math.sqrt((a[0] - b[0]) ** 2 + (a[1] - b[1]) ** 2)


def number(value):
    return f"{value:.2f}".rstrip("0").rstrip(".")


def route(places):
    return "M " + " L ".join(f"{number(x)} {number(y)}" for x, y in places)


def furrow(a, b, which):
    """The way on the sheet from a to b that keeps clear of the furrows before it."""
    length = distance(a, b)
    if which == 0 or length == 0:
        return [a, b]
    off = GAP * ((which + 1) // 2) * (1 if which % 2 else -1) * (1 if a <= b else -1)
    along = [(b[i] - a[i]) / length for i in (0, 1)]
    aside = [-along[1] * off, along[0] * off]
    run = min(length * 0.3, abs(off) * 1.5)
    return [a, tuple(a[i] + along[i] * run + aside[i] for i in (0, 1)), tuple(b[i] - along[i] * run + aside[i] for i in (0, 1)), b]


Head = collections.namedtuple("Head", "x y dx dy length")


def head(sheet, way, name):
    """Where a way's arrow stands, clear of other strokes if it can, its direction, and the length of the part that it
    stands on. Furrows side by side have theirs at different places."""
    a, b = way[1:3] if len(way) > 2 else way
    length = distance(a, b) or 1.0
    dx, dy = ((b[i] - a[i]) / length for i in (0, 1))
    heads = [Head(a[0] + dx * length * part, a[1] + dy * length * part, dx, dy, length)
             for part in ((0.4, 0.3, 0.55, 0.7) if len(way) > 2 else (0.5, 0.6, 0.35, 0.7, 0.25))]
    return next((h for h in heads if not sheet.crossed((h.x - 7, h.y - 7, h.x + 7, h.y + 7), name)), heads[0])


def arrow(h, kind):
    if h.length < 8:
        return ""
    size = 5.5 if h.length > 20 else 3.5
    tips = [(h.x + h.dx * size * ahead - h.dy * size * aside, h.y + h.dy * size * ahead + h.dx * size * aside)
            for ahead, aside in ((1, 0), (-1, 0.8), (-1, -0.8))]
    return f'<path class="arrow of-{kind}" d="{route(tips)} Z"/>'


def text(x, y, words, kind="caption", anchor="start", size=13):
    return f'<text class="{kind}" x="{number(x)}" y="{number(y)}" font-size="{size}px" text-anchor="{anchor}">{escape(words)}</text>'


def label_at(sheet, places, words):
    """A label at the first of these places where there is room; nothing where there is none."""
    at = sheet.room(places, LETTER * sheet.size * len(words) + 4, sheet.size + 1)
    return text(at[0], at[1] + 0.35 * sheet.size, words, "label", "middle", sheet.size) if at else ""


def label(sheet, around, words, near=11):
    """A label near a place."""
    half = LETTER * sheet.size * len(words) / 2
    ways = ((1, 0), (-1, 0), (0, -1), (0, 1), (0.7, 0.7), (-0.7, -0.7), (0.7, -0.7), (-0.7, 0.7))
    places = [(around[0] + dx * (out + half), around[1] + dy * (out + 4)) for out in (near, near + 8) for dx, dy in ways]
    return label_at(sheet, places, words)


def step_number(sheet, h, words):
    """A step's number beside its arrow, on either side."""
    if h.length < 8:
        return ""
    out = 6 + ((LETTER * sheet.size * len(words) + 2) * abs(h.dy) + sheet.size * abs(h.dx)) / 2
    return label_at(sheet, [(h.x + h.dx * h.length * part - h.dy * out * side, h.y + h.dy * h.length * part + h.dx * out * side)
                            for part in (0, 0.15, -0.15, 0.3, -0.3) for side in (1, -1)], words)


def floats(point):
    return tuple(map(f.float_of, point))


def sheet_for(drawing):
    places = [floats(p) for line in drawing.lines for p in line] + [floats(p) for l in drawing.links for p in (l.a, l.b)]
    return Sheet(places, drawing.settings)


def page(sheet, parts, rows, title):
    """The whole picture: the sheet, what is on it, rows of text (or ready elements) below."""
    low = sheet.height
    high = low + ROW * len(rows) + 16
    out = [f'<svg xmlns="http://www.w3.org/2000/svg" width="{number(sheet.width)}" height="{number(high)}" '
           f'viewBox="0 0 {number(sheet.width)} {number(high)}">', f"<title>{escape(title)}</title>", f"<style>{STYLE}</style>",
           f'<rect class="sheet" width="{number(sheet.width)}" height="{number(high)}"/>']
    if sheet.whole and min(sheet.canvas) > 0:
        (x, y), (to_x, to_y) = sheet.place((0, 0)), sheet.place(sheet.canvas)
        out.append(f'<rect class="canvas" x="{number(x)}" y="{number(y)}" width="{number(to_x - x)}" height="{number(to_y - y)}"/>')
    out += parts
    for i, row in enumerate(rows):
        y = low + 6 + ROW * i
        out.append(row(y) if callable(row) else text(MARGIN + 6 * (len(row) - len(row.lstrip())), y, row.lstrip()))
    return "\n".join([part for part in out if part] + ["</svg>"]) + "\n"


def legend(kinds):
    """A row with a sample of each kind of stroke."""
    def at(y):
        x, out = MARGIN, []
        for kind, words in kinds:
            out.append(f'<path class="{kind}" d="{route([(x, y - 4), (x + 34, y - 4)])}"/>')
            out.append(text(x + 42, y, words))
            x += 62 + 7.4 * len(words)
        return "".join(out)
    return at


def wrapped(rows, wide):
    for row in rows:
        indent = " " * (len(row) - len(row.lstrip()))
        now = indent
        for word in row.split():
            if now.strip() and len(now) + 1 + len(word) > wide:
                yield now
                now = indent + "    "
            now += word if not now.strip() else " " + word
        yield now


def of_plan(file, answer, title="drawing"):
    """The picture of an accepted drawing: answer is what the planner gave."""
    drawing = planned(f.assembled(f.split(file)[0]))
    made = graph(drawing)
    sheet = sheet_for(drawing)
    place = lambda p: sheet.place((p[0] / f.STEPS, p[1] / f.STEPS))
    link = link_kind(drawing)
    steps = list(steps_of(made, answer.points, link))
    ways = [furrow(place(s.p), place(s.q), s.furrow) for s in steps]
    marks, parts = [], []
    sheet.size = 15 if len(steps) <= 40 else 11
    for name, way in enumerate(ways):
        sheet.stroke(way, name)
    heads = [head(sheet, way, name) for name, way in enumerate(ways)]
    if answer.points:
        first, last = place(answer.points[0]), place(answer.points[-1])
        closed = answer.points[0] == answer.points[-1]
        for x, y in (first, last):
            sheet.taken.append((x - 8, y - 8, x + 8, y + 8))
        if not closed:
            marks.append(f'<rect class="end" x="{number(last[0] - 6)}" y="{number(last[1] - 6)}" width="12" height="12"/>')
            marks.append(label(sheet, last, "end"))
        marks.append(f'<circle class="start" cx="{number(first[0])}" cy="{number(first[1])}" r="6.5"/>')
        marks.append(label(sheet, first, "start and end" if closed else "start"))
    met = list(meetings(sheet, drawing, link))
    # round numbers first, so that they stay where there is no room for all
    apart = 1 if len(steps) <= 250 else 5 if len(steps) <= 1000 else 25
    numbered = [i for i in range(len(steps)) if (i + 1) % apart == 0]
    numbers = {}
    for i in sorted(numbered, key=lambda i: ((i + 1) % 10 != 0, (i + 1) % 5 != 0, i)):
        numbers[i] = step_number(sheet, heads[i], str(i + 1))
    for i, (s, way) in enumerate(zip(steps, ways)):
        words = f"step {i + 1}: {point_text(pixels(s.p))} to {point_text(pixels(s.q))}, {NAMES[s.kind]}"
        parts.append(f'<g class="step" data-step="{i + 1}"><title>{escape(words)}</title>'
                     f'<path class="{s.kind}" d="{route(way)}"/>{arrow(heads[i], s.kind)}</g>')
    count = collections.Counter(s.kind for s in steps)
    rows = [legend([(kind, f"{NAMES[kind]} ({count[kind]})") for kind in ("piece", link, "retrace")]),
            f"{len(steps)} steps; {answer.retrace:.6g} pixels retraced; odd points before repair {answer.before}, after {answer.after}"]
    rows += [f"small rings: links that the planner made where ends of lines meet ({len(met)}); they draw nothing"] if met else []
    rows += canvas_row(sheet)
    return page(sheet, parts + met + [numbers[i] for i in numbered] + marks, rows, f"{title}: the line as it is drawn")


def meetings(sheet, drawing, link):
    """A small ring where a link was made between ends that meet, which draws nothing itself."""
    for l in drawing.links if link == "made" else ():
        if l.a == l.b:
            x, y = sheet.place(floats(l.a))
            sheet.taken.append((x - 8, y - 8, x + 8, y + 8))
            words = f"link made between line {l.line_a} and line {l.line_b}, whose ends meet at {point_text(l.a)}"
            yield f'<circle class="met" cx="{number(x)}" cy="{number(y)}" r="9"><title>{escape(words)}</title></circle>'


def canvas_row(sheet):
    width, height = sheet.canvas
    return [] if sheet.whole else [f"The canvas of {width} by {height} is much larger and not shown."]


def of_refusal(file, refusal, title="drawing"):
    """The picture of a refused drawing: what was drawn, and what is wrong with it."""
    drawing = f.assembled(f.split(file)[0])
    link = "link"
    if refusal.number not in CHECKS:
        drawing, link = planned(drawing), link_kind(drawing)
    sheet = sheet_for(drawing)
    at = lambda point: sheet.place(floats(point))
    wrong_strokes = {frozenset(stroke) for finding in refusal.findings for stroke in finding.strokes}
    parts, labels = [], []
    strokes = pieces_or_segments(drawing, refusal) + [(l.a, l.b, link) for l in drawing.links if l.a != l.b]
    for p, q, kind in strokes:
        kind_now = "wrong" if frozenset((p, q)) in wrong_strokes else kind
        sheet.stroke([at(p), at(q)])
        parts.append(f'<path class="{kind_now}"{dashed(kind, kind_now)} d="{route([at(p), at(q)])}"/>')
    parts += meetings(sheet, drawing, link)
    for line in drawing.lines:
        if len(line) == 1:
            x, y = at(line[0])
            parts.append(f'<circle class="of-piece" cx="{number(x)}" cy="{number(y)}" r="3.5"/>')
    for finding in refusal.findings:
        ring = finding.points if refusal.number != 9 or len(finding.points) == 1 else ()
        for point in ring:
            x, y = at(point)
            parts.append(f'<circle class="ring" cx="{number(x)}" cy="{number(y)}" r="9"/>')
            sheet.taken.append((x - 8, y - 8, x + 8, y + 8))
            if refusal.number in (7, 8):
                words = f"({value_text(point[0])}, {value_text(point[1])})"
                labels.append(label(sheet, (x, y), words, 14))
    if len(drawing.lines) <= 40:
        labels += [label(sheet, at(line[0]), f"line {i}") for i, line in enumerate(drawing.lines) if line]
    rows = list(wrapped(told(refusal), int((sheet.width - 2 * MARGIN) / 7))) + canvas_row(sheet)
    return page(sheet, parts + labels, rows, f"{title}: refused {refusal.number}")


def value_text(bits):
    text_of = coordinate_text(bits)
    return str(f.float_of(bits)) if text_of.startswith("bits:") else text_of


def dashed(kind, kind_now):
    """A link stays dashed where it is marked as wrong."""
    return ' stroke-dasharray="7 7"' if kind == "link" and kind_now == "wrong" else ""


def pieces_or_segments(drawing, refusal):
    """The strokes of the lines: pieces where the drawing has a graph, otherwise segments."""
    if refusal.number not in CHECKS:
        return [(pixels(p), pixels(q), "piece") for p, q, *_ in graph(drawing).pieces]
    return [(p, q, "piece") for line in drawing.lines for p, q in zip(line, line[1:]) if p != q]
