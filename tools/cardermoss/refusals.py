"""Why a drawing is refused, in words: conditions 1 to 9, 11 and 15 of docs/DRAWING-FILE.md, from the file alone.

12 to 14 depend on the planner's own work: for these the planner is asked, and `by_the_planner` has the words. 16 is the
writer's alone, and no file is refused with it. 10 is given no more.
"""
import collections
import math
import struct

from . import drawing_file as f
from .drawing_text import coordinate_text, point_text, steps_text
from .graph import graph

MOST_BYTES, MOST_SIDE, MOST_PAIRING, MOST_FLAGS = 65536, 8192, 1, 7
MOST_LINES, MOST_POINTS, MOST_LINKS = 256, 1024, 255
MOST_EDGES = 4000

KINDS = {f.SETTINGS: "the settings", f.LINE: "a line", f.LINK: "a link"}

# A finding: what is wrong, in words; the number of the record that it is about (None: the whole file); points to mark
# in a picture, in pixels, with strokes (pairs of points) where a whole stroke is meant.
Finding = collections.namedtuple("Finding", "words record points strokes", defaults=(None, (), ()))

# A refusal: its number, the condition in one sentence, what was found, what a designer can do.
Refusal = collections.namedtuple("Refusal", "number condition findings remedy")

# In the order in which the planner checks them.
CONDITIONS = {
    1: ("the file is too long",
        f"A drawing file has at most {MOST_BYTES:,} bytes: leave out points, or make two drawings of it."),
    2: ("the file ends in the middle of a record",
        "It was cut off, or it is no drawing file: copy or save it again."),
    3: ("the records are not in their order",
        "A drawing file is one record of settings, then all lines, then all links: save the parts in that order."),
    4: ("a record has not the length that its kind asks",
        "The program that saved the file made a mistake: settings have 10 bytes, a line 16 for each point, a link 40."),
    5: ("a setting is out of range",
        f"Width and height go to {MOST_SIDE:,}, pairing is 0 (greedy) or 1 (optimal), flags are 0 to 7 (a text has words for them)."),
    6: ("there is too much in the drawing",
        f"At most {MOST_LINES} lines, {MOST_POINTS:,} points in all and {MOST_LINKS} links: draw curves with fewer points, "
        "or join lines that follow one another."),
    15: ("the file has links of its own, though the planner is to make the links",
         "With `link` among the flags the planner links the lines itself, and the file holds no links: take them out, or take `link` "
         "away, and these are drawn and no others: they must then join all lines."),
    7: ("a coordinate is not on the grid",
        f"Coordinates are whole multiples of 1/{f.STEPS} from -{f.REACH:,} to {f.REACH:,}: move the point."),
    8: ("a link names a line or a segment that is not there",
        "Lines and segments are counted from 0; a line of n points has the segments 0 to n - 2, and a dot has segment 0. "
        "An empty line can't be linked."),
    9: ("some lines are not linked",
        "The ball can't be lifted, so every line must be reached over lines and links. Crossing is not joining: give both lines "
        "a point there, or add a link. A drawing without any links can have them made by the planner: `flags link`."),
    11: ("the work tables are too small for this many odd points",
         f"Optimal pairing with n odd points needs 2^n + n*n entries in one table and 2^n in the other for 4 to {f.MOST_OPTIMAL}, and n*n in the "
         f"first alone above. The program `plan` has tables for 4 to {f.PLAN_TABLES} odd points and for 22 to 64. Choose greedy pairing, join "
         "loose ends until there are so few, or ask for larger tables: a program that calls the planner can lend them, as bindings/example.c "
         f"does, and {f.ENOUGH[0]:,} and {f.ENOUGH[1]:,} entries are enough for every drawing."),
    12: ("no way back was found",
         "It is proved that no drawing gives this: please report it."),
    13: (f"the line would have more than {MOST_EDGES:,} steps",
         "Too much of the drawing is gone over twice: join loose ends, link them where they are near one another, or use "
         "fewer points."),
    14: ("the output is too small for the line",
         "It needs 6 bytes and 16 for each point of the line; 64,022 are always enough."),
}

# Numbers that are given no more, and why. Nothing else is given such a number.
ENDED = {10: f"it refused optimal pairing with more than {f.MOST_OPTIMAL} odd points, and such drawings are planned now."}

# What the writer says of a drawing that is to be saved, in its order, and what two of these numbers say there alone.
BY_THE_WRITER = [4, 5, 6, 15, 7, 8, 16]
MOST_FILE = 29666  # bytes of the largest file that it writes
OF_THE_WRITER = {
    4: ("the lists that the writer was handed do not fit one another",
        "The program that saves must hand over two coordinates for each point, and four numbers and four coordinates for each link."),
    16: ("the destination is too short for the file",
         f"The program that saves must lend more bytes: {MOST_FILE:,} are always enough. A plan never gives this number."),
}


def named(number, findings=()):
    condition, remedy = CONDITIONS[number]
    return Refusal(number, condition, list(findings), remedy)


def by_the_planner(file, number):
    """The refusal that the planner gave a file to which conditions 1 to 9, 11 and 15 don't apply."""
    return named(number, odd_points(graph(f.assembled(f.split(file)[0]))) if number == 13 else ())


def count(number, word):
    return f"{number:,} {word}" + ("" if number == 1 else "s")


def first_refusal(file, f64=f.PLAN_F64, byte=f.PLAN_BYTES):
    """The first of conditions 1 to 9, 11 and 15 that holds, with tables of these lengths; None if none does."""
    records, cut = f.split(file)
    for number, check in CHECKS.items():
        findings = list(check(file, records, cut))
        if findings:
            return named(number, findings)
    drawing = f.assembled(records)
    made = graph(drawing)
    if len(made.parts) > 1:
        return named(9, unlinked(made))
    floats, bytes_needed = f.tables_for(len(made.odd))
    if drawing.settings.pairing == f.OPTIMAL and (f64 < floats or byte < bytes_needed):
        return named(11, odd_points(made))
    return None


# ---- conditions 1 to 8 and 15: each gives its findings

def too_long(file, records, cut):
    if len(file) > MOST_BYTES:
        yield Finding(f"the file has {len(file):,} bytes")


def is_cut(file, records, cut):
    if cut is None:
        return
    left = len(file) - cut
    if left < f.HEAD:
        yield Finding(f"record {len(records)} begins at byte {cut:,}, and only {count(left, 'byte')} of its 6-byte head are there")
    else:
        length, kind = struct.unpack_from("<IH", file, cut)
        yield Finding(f"record {len(records)} ({kind_words(kind)}) begins at byte {cut:,} and says that its body has "
                      f"{length:,} bytes; {left - f.HEAD:,} are there")


def kind_words(kind):
    return KINDS.get(kind, f"of the unknown kind {kind}")


def out_of_order(file, records, cut):
    if not records:
        yield Finding("the file has no settings: it is empty")
    latest = 0
    for number, r in enumerate(records):
        if r.kind not in KINDS:
            yield Finding(f"record {number}, at byte {r.place:,}, is {kind_words(r.kind)}", number)
        elif number == 0 and r.kind != f.SETTINGS:
            yield Finding(f"the file begins with {kind_words(r.kind)}, not with the settings", number)
        elif number > 0 and r.kind == f.SETTINGS:
            yield Finding(f"record {number}, at byte {r.place:,}, has settings once more", number)
        elif r.kind < latest:
            yield Finding(f"record {number}, at byte {r.place:,}, is {kind_words(r.kind)} behind {kind_words(latest)}", number)
        else:
            latest = r.kind


def wrong_length(file, records, cut):
    for number, r in enumerate(records):
        if not f.length_fits(r.kind, len(r.body)):
            yield Finding(f"record {number}, at byte {r.place:,}, is {kind_words(r.kind)} with a body of "
                          f"{count(len(r.body), 'byte')}", number)


def setting_out_of_range(file, records, cut):
    s = f.settings_in(records[0].body)
    for name, value, most in (("width", s.width, MOST_SIDE), ("height", s.height, MOST_SIDE),
                              ("pairing", s.pairing, MOST_PAIRING), ("flags", s.flags, MOST_FLAGS)):
        if value > most:
            yield Finding(f"{name} {value:,} is above {most:,}", 0)


def too_much(file, records, cut):
    """Found where the count first passes its limit, so that a text can show the row."""
    lines = points = links = 0
    for number, r in enumerate(records):
        before = lines, points, links
        lines += r.kind == f.LINE
        links += r.kind == f.LINK
        points += len(r.body) // f.POINT_LENGTH if r.kind == f.LINE else 0
        for was, now, most in zip(before, (lines, points, links), (MOST_LINES, MOST_POINTS, MOST_LINKS)):
            if was <= most < now:
                break
        else:
            continue
        all_lines = [len(r.body) // f.POINT_LENGTH for r in records if r.kind == f.LINE]
        all_links = sum(r.kind == f.LINK for r in records)
        yield Finding(f"there are {count(len(all_lines), 'line')}, {count(sum(all_lines), 'point')} and {count(all_links, 'link')}", number)
        return


def own_links(file, records, cut):
    if not f.settings_in(records[0].body).flags & f.LINKING:
        return
    links = [(number, f.link_in(r.body)) for number, r in enumerate(records) if r.kind == f.LINK]
    for place, (number, link) in enumerate(links):
        words = f"link {place}, from line {link.line_a} at {point_text(link.a)} to line {link.line_b} at {point_text(link.b)}, stands in the file"
        marks = ([], [(link.a, link.b)]) if link.a != link.b else ([link.a], [])
        yield Finding(words, number, *marks)


def off_the_grid(file, records, cut):
    lines = links = 0
    for number, r in enumerate(records):
        if r.kind == f.LINE:
            for place, point in enumerate(f.points_in(r.body)):
                yield from off_in(point, f"line {lines}, point {place}", number)
            lines += 1
        elif r.kind == f.LINK:
            link = f.link_in(r.body)
            yield from off_in(link.a, f"link {links}, its first end", number)
            yield from off_in(link.b, f"link {links}, its second end", number)
            links += 1


def off_in(point, where, number):
    for axis, bits in zip("xy", point):
        if f.steps_of(bits) is None:
            yield Finding(f"{where}: {axis} {off_words(bits)}", number, [point])


def off_words(bits):
    value = f.float_of(bits)
    if math.isnan(value) or math.isinf(value):
        return f"is no number ({value})"
    if abs(value) > f.REACH:
        return f"= {coordinate_text(bits)} lies outside -{f.REACH:,} to {f.REACH:,}"
    below = math.floor(value * f.STEPS)
    return (f"= {coordinate_text(bits)} is no whole multiple of 1/{f.STEPS}; the nearest are "
            f"{steps_text(below)} and {steps_text(below + 1)}")


def link_astray(file, records, cut):
    lines = [len(r.body) // f.POINT_LENGTH for r in records if r.kind == f.LINE]
    links = [(number, f.link_in(r.body)) for number, r in enumerate(records) if r.kind == f.LINK]
    for place, (number, link) in enumerate(links):
        for end, line, segment, point in (("first", link.line_a, link.segment_a, link.a), ("second", link.line_b, link.segment_b, link.b)):
            wrong = astray(lines, line, segment)
            if wrong:
                yield Finding(f"link {place}, its {end} end at {point_text(point)}, names {wrong}", number, [point],
                              [(link.a, link.b)] if link.a != link.b else [])


def astray(lines, line, segment):
    """What is wrong with an end that names this segment of this line, of lines with so many points; None: nothing."""
    if line >= len(lines):
        there = "there are no lines" if not lines else f"the lines are 0 to {len(lines) - 1}" if len(lines) > 1 else "there is only line 0"
        return f"line {line}, and {there}"
    if lines[line] == 0:
        return f"line {line}, which has no points"
    last = max(0, lines[line] - 2)
    if segment > last:
        return f"segment {segment} of line {line}, which has " + (f"the segments 0 to {last}" if last else "only segment 0")
    return None


# In the order in which the planner checks them. Behind these a file says a drawing that can be planned.
CHECKS = {1: too_long, 2: is_cut, 3: out_of_order, 4: wrong_length, 5: setting_out_of_range, 6: too_much, 15: own_links,
          7: off_the_grid, 8: link_astray}

FROM_THE_FILE = {*CHECKS, 9, 11}  # what `first_refusal` tells


# ---- conditions 9 and 11

def pixels(point):
    """A point in grid steps as a pair of patterns, as findings have them."""
    return tuple(f.bits_of(c / f.STEPS) for c in point)


def unlinked(made):
    """A finding for each part that can't be reached, with a link that would join it."""
    first = next(number for number, line in enumerate(made.lines) if line)
    reached = set(made.parts[0])
    for part in made.parts[1:]:
        inside = set(part)
        lines = [number for number, line in enumerate(made.lines) if line and line[0] in inside]
        strokes = [(p, q) for p, q, *_ in made.pieces if p in inside] + [(l.a, l.b) for l in made.links if l.a in inside and l.a != l.b]
        if lines:
            words = f"line {lines[0]} starting at {point_text(pixels(made.lines[lines[0]][0]))} can't be reached from line {first}"
            if len(lines) > 1:
                words += "; with it " + listed("line", lines[1:])
            words += joining(made, reached, inside)
        else:
            number, link = next((n, l) for n, l in enumerate(made.links) if l.a in inside)
            words = (f"link {number} at {point_text(pixels(link.a))} can't be reached from line {first}: its ends lie beside the dots "
                     "that it names")
        yield Finding(words, None, [pixels(p) for p in part], [(pixels(p), pixels(q)) for p, q in strokes])


def listed(word, numbers):
    if len(numbers) > 8:
        return f"{len(numbers)} more {word}s"
    return word + ("s " if len(numbers) > 1 else " ") + ", ".join(map(str, numbers))


def joining(made, reached, inside):
    """A link from a reached line to this part: at a crossing if there is one, otherwise between the nearest points."""
    ends = [segments_of(made, among) for among in (reached, inside)]
    crossings = ((0, p, s, p, t) for s in ends[0] for t in ends[1] for p in crossing(s, t))
    best = next(crossings, None)
    crosses = best is not None
    if not crosses:
        best = min((f.squared(p, q), p, s, q, t) for s in ends[0] for t in ends[1] for p, q in nearest(s, t))
    _, p, s, q, t = best
    ends = [f"line {line} segment {segment} {point_text(pixels(at))}" for (line, segment, *_), at in ((s, p), (t, q))]
    crossed = f", but line {t[0]} meets line {s[0]} near {point_text(pixels(p))}" if crosses else ""
    return f"{crossed}; a link that would join them: link {ends[0]} to {ends[1]}"


def segments_of(made, among):
    """(line, segment, start, end) of the lines whose points are among these; a dot is a segment of one point twice."""
    return [(number, segment, p, q) for number, line in enumerate(made.lines) if line and line[0] in among
            for segment, (p, q) in enumerate(zip(line, line[1:] if len(line) > 1 else line))]


def crossing(s, t):
    """The grid point nearest to where two segments cross, if they do, each inside the other's two sides."""
    (a, b), (c, d) = s[2:], t[2:]
    side = lambda p, q, r: (q[0] - p[0]) * (r[1] - p[1]) - (q[1] - p[1]) * (r[0] - p[0])
    c_side, d_side = side(a, b, c), side(a, b, d)
    if c_side == d_side or c_side * d_side > 0 or side(c, d, a) * side(c, d, b) > 0:
        return
    along = lambda i: (c[i] * d_side - d[i] * c_side) / (d_side - c_side)
    yield round(along(0)), round(along(1))


def nearest(s, t):
    """Pairs of points of two segments that a link may join: their ends, and a foot that lies on the grid."""
    for p in s[2:]:
        for q in t[2:]:
            yield p, q
        for foot in foot_on(p, t):
            yield p, foot
    for q in t[2:]:
        for foot in foot_on(q, s):
            yield foot, q


def foot_on(point, segment):
    """The foot of the perpendicular from a point, where it lies on the segment and on the grid."""
    p, q = segment[2:]
    length = f.squared(p, q)
    part = (point[0] - p[0]) * (q[0] - p[0]) + (point[1] - p[1]) * (q[1] - p[1])
    if 0 < part < length and all((q[i] - p[i]) * part % length == 0 for i in (0, 1)):
        yield tuple(p[i] + (q[i] - p[i]) * part // length for i in (0, 1))


def odd_points(made):
    some = ", ".join(point_text(pixels(p)) for p in made.odd[:4])
    yield Finding(f"an odd number of strokes ends at {len(made.odd)} points, {some} among them", None, [pixels(p) for p in made.odd])


def of_number(number):
    """What a number says, as rows of text: of a file, and where the writer means something else by it, of saving; or that it is
    given no more. None: there is no such number."""
    rows = told(named(number)) if number in CONDITIONS else []
    if number in ENDED:
        rows.append(f"{number} is given no more: {ENDED[number]}")
    if number in OF_THE_WRITER:
        condition, remedy = OF_THE_WRITER[number]
        rows += [f"refused {number}, of a drawing that was to be saved: {condition}", "What to do: " + remedy]
    return rows or None


def told(refusal):
    """A refusal as rows of text."""
    rows = [f"refused {refusal.number}: {refusal.condition}"]
    shown = refusal.findings if len(refusal.findings) <= 12 else refusal.findings[:10]
    rows += ["  " + finding.words for finding in shown]
    if len(shown) < len(refusal.findings):
        rows.append(f"  and {len(refusal.findings) - len(shown)} more")
    return rows + ["What to do: " + refusal.remedy]
