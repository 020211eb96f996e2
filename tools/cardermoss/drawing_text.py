"""The readable text of a drawing, and the file that it says.

A row is one of these; '#' starts a comment, and a row with nothing else is passed over:

    canvas WIDTH HEIGHT
    pairing greedy | optimal
    flags none | close | inside | link, or several of the last three
    line (X, Y) (X, Y) ..
    link line L segment S (X, Y) to line M segment T (X, Y)

Numbers are decimals or fractions (4, -0.5, 3/1024), in pixels. -0 is minus zero, which the file then holds and the planner
reads as 0. `segment S` may be left out where the point lies on a segment of its line. For files that no planner takes there
are also: a number for pairing or flags, `bits:HEX` for a coordinate, `record KIND HEX` for a whole record and `bytes HEX` for a
row of bytes, so that every file has a text.
"""
import re
import struct
from fractions import Fraction

from . import drawing_file as f

PAIRINGS = {"greedy": f.GREEDY, "optimal": f.OPTIMAL}
FLAG_WORDS = {"close": f.CLOSE, "inside": f.INSIDE, "link": f.LINKING}  # in the order of the alphabet
FLAGS = {" ".join(word for word, bit in FLAG_WORDS.items() if flags & bit) or "none": flags for flags in range(8)}


# ---- file to text

def coordinate_text(bits):
    """A coordinate's shortest text that reads back as the same pattern; exact where it is on the grid."""
    if bits == f.MINUS_ZERO:
        return "-0"
    steps = f.steps_of(bits)
    if steps is not None:
        return steps_text(steps)
    value = f.float_of(bits)
    if value - value != 0:  # an infinity, or no number
        return f"bits:{bits:016x}"
    return repr(value)[:-2] if repr(value).endswith(".0") else repr(value)


def steps_text(steps):
    """Grid steps in pixels, as an exact decimal."""
    whole, part = divmod(abs(steps), f.STEPS)
    text = str(whole)
    if part:
        text += "." + str(part * 10**10 // f.STEPS).rjust(10, "0").rstrip("0")
    return "-" + text if steps < 0 else text


def point_text(point):
    return f"({coordinate_text(point[0])}, {coordinate_text(point[1])})"


def link_text(link):
    return (f"link line {link.line_a} segment {link.segment_a} {point_text(link.a)} "
            f"to line {link.line_b} segment {link.segment_b} {point_text(link.b)}")


def text_of(file):
    """The text of any file."""
    records, cut = f.split(file)
    rows = []
    for number, r in enumerate(records):
        if not f.length_fits(r.kind, len(r.body)) or (r.kind == f.SETTINGS and number > 0):
            rows.append(f"record {r.kind} {r.body.hex()}".rstrip())
        elif r.kind == f.SETTINGS:
            s = f.settings_in(r.body)
            rows.append(f"canvas {s.width} {s.height}")
            rows.append(f"pairing {word_of(PAIRINGS, s.pairing)}")
            rows.append(f"flags {word_of(FLAGS, s.flags)}")
        elif r.kind == f.LINE:
            rows.append(" ".join(["line", *map(point_text, f.points_in(r.body, f.as_it_stands))]))
        else:
            rows.append(link_text(f.link_in(r.body, f.as_it_stands)))
    if cut is not None:
        rows.append(f"bytes {file[cut:].hex()}")
    return "".join(row + "\n" for row in rows)


def word_of(words, value):
    return next((word for word, number in words.items() if number == value), str(value))


# ---- text to file

NUMBER = re.compile(r"[+-]?(\d{1,30}(\.\d{0,1100})?|\.\d{1,1100})(e[+-]?\d{1,3})?|[+-]?\d{1,30}/\d{1,30}", re.ASCII)
POINT = re.compile(r"\(\s*([^\s,()]+)\s*[,\s]\s*([^\s,()]+)\s*\)")
END = re.compile(r"line\s+(\d{1,9})(?:\s+segment\s+(\d{1,9}))?\s*(\([^()]*\))", re.ASCII)


class Unreadable(Exception):
    """A row that says nothing the file could hold."""


class Text:
    """A text that was read. file: what it says. rows: the row of each record. errors: rows that can't be read, so that
    there is no file. off: coordinates that are not on the grid, written as the nearest f64. notes: what may surprise.
    Each of the last three is a list of (row, words)."""

    def __init__(self, text):
        self.file, self.rows, self.errors, self.off, self.notes = b"", [], [], [], []
        self.lines = []       # the lines so far, as patterns; None for one that can't be read
        self.in_steps = {}    # those that a link names, in grid steps
        self.settings = {}    # the rows of settings before the first record
        self.parts = None     # the records, once the settings are over
        self.row = 0
        links = []
        for self.row, row in enumerate(text.split("\n"), 1):
            word, rest = [*row.partition("#")[0].split(None, 1), "", ""][:2]
            rest = rest.strip()
            try:
                if word in ("canvas", "pairing", "flags"):
                    self.setting(word, rest)
                elif word == "line":
                    self.lines.append(None)
                    self.lines[-1] = self.points(rest)
                    self.add(f.record(f.LINE, patterns(p for point in self.lines[-1] for p in point)))
                elif word == "link":
                    links.append((self.row, self.add(None), rest))
                elif word == "record":
                    kind, body = [*rest.split(None, 1), "", ""][:2]
                    self.add(f.record(whole(kind, 0xFFFF), hexadecimal(body)))
                elif word == "bytes":
                    self.add(hexadecimal(rest))
                elif word:
                    raise Unreadable(f"'{word}' is none of canvas, pairing, flags, line, link")
            except Unreadable as wrong:
                self.errors.append((self.row, str(wrong)))
        self.settle()
        # read last, since a link may leave out the segment of a line
        for self.row, place, rest in links:
            try:
                self.parts[place] = self.link(rest)
            except Unreadable as wrong:
                self.errors.append((self.row, str(wrong)))
        for found in (self.errors, self.off, self.notes):
            found.sort(key=lambda row_and_words: row_and_words[0])
        self.file = b"" if self.errors else b"".join(self.parts)

    def add(self, part):
        """Adds a record, and gives its number."""
        self.settle()
        self.rows.append(self.row)
        self.parts.append(part)
        return len(self.parts) - 1

    def settle(self):
        """Writes the settings, once, in front of the first record."""
        if self.parts is not None:
            return
        self.parts = []
        if not self.settings:
            return
        missing = [word for word in ("canvas", "pairing", "flags") if word not in self.settings]
        if missing:
            self.errors.append((self.row, f"no row before this one says {' and '.join(missing)}"))
        if any(value is None for _, value in self.settings.values()) or missing:
            return
        width, height = self.settings["canvas"][1]
        self.parts.append(f.settings(width, height, self.settings["pairing"][1], self.settings["flags"][1]))
        self.rows.append(self.settings["canvas"][0])

    def setting(self, word, rest):
        if self.parts is not None:
            raise Unreadable(f"{word} stands behind a line or a link")
        if word in self.settings:
            raise Unreadable(f"{word} is said twice")
        self.settings[word] = (self.row, None)  # until its value is read
        if word == "canvas":
            sides = rest.split()
            if len(sides) != 2:
                raise Unreadable("canvas wants a width and a height")
            value = [whole(side, 0xFFFFFFFF) for side in sides]
        else:
            words = PAIRINGS if word == "pairing" else FLAGS
            rest = " ".join(sorted(rest.split()))
            value = words[rest] if rest in words else whole(rest, 0xFF, f", nor one of {', '.join(words)}")
        self.settings[word] = (self.row, value)

    def points(self, rest):
        if POINT.sub("", rest).strip():
            raise Unreadable(f"'{POINT.sub('', rest).split()[0]}' is no point: a point is (X, Y)")
        return [self.point(*match.groups()) for match in POINT.finditer(rest)]

    def point(self, x, y):
        return self.coordinate(x), self.coordinate(y)

    def coordinate(self, word):
        if re.fullmatch("bits:[0-9a-f]{16}", word):
            bits = int(word[5:], 16)
            if f.steps_of(bits) is None:
                self.off.append((self.row, f"{word} is not on the grid"))
            return bits
        if not NUMBER.fullmatch(word):
            raise Unreadable(f"'{word}' is no number")
        try:
            value = Fraction(word)
            bits = f.bits_of(value)
        except (ZeroDivisionError, OverflowError):
            raise Unreadable(f"'{word}' is no number that a file can hold") from None
        if value == 0 and word[0] == "-":
            return f.MINUS_ZERO
        if abs(value) > f.REACH:
            self.off.append((self.row, f"{word} lies outside -{f.REACH:,} to {f.REACH:,}"))
        elif (value * f.STEPS).denominator != 1:
            below = value * f.STEPS // 1
            self.off.append((self.row, f"{word} is not on the grid of 1/{f.STEPS}: the nearest are "
                                       f"{steps_text(below)} and {steps_text(below + 1)}"))
        return bits

    def link(self, rest):
        match = re.fullmatch(rf"{END.pattern}\s*to\s+{END.pattern}", rest, re.ASCII)
        if not match:
            raise Unreadable("a link is: link line L segment S (X, Y) to line M segment T (X, Y)")
        ends = [self.end(*match.groups()[3 * i:3 * i + 3]) for i in (0, 1)]
        numbers = [number for line, segment, _ in ends for number in (line, segment)]
        return f.record(f.LINK, struct.pack("<HHHH", *numbers) + patterns(c for *_, point in ends for c in point))

    def end(self, line, segment, point):
        line = whole(line, 0xFFFF)
        inside = self.points(point)
        if len(inside) != 1:
            raise Unreadable(f"'{point}' is no point")
        point = inside[0]
        if line < len(self.lines) and self.lines[line] is None:
            return line, 0, point  # that row was told already
        if line not in self.in_steps and line < len(self.lines):
            self.in_steps[line] = [f.in_steps(p) for p in self.lines[line]]
        here = f.in_steps(point)  # the patterns of one place may differ: 0 and -0
        on = segments_with(self.in_steps.get(line, []), here)
        if segment is not None:
            segment = whole(segment, 0xFFFF)
            points = len(self.lines[line]) if line < len(self.lines) else 0
            if points == 1 and segment == 0 and not on:
                self.notes.append((self.row, f"{point_text(point)} is not the point of line {line}, a dot: the link won't join it"))
            elif segment < points - 1 and segment not in on:
                self.notes.append((self.row, f"{point_text(point)} does not lie on segment {segment} of line {line}, "
                                             "which will bend to it"))
            return line, segment, point
        if line >= len(self.lines):
            raise Unreadable(f"there is no line {line}")
        if not on:
            raise Unreadable(f"{point_text(point)} lies on no segment of line {line}: name one, which will bend to it")
        at_an_end = [s for s in on if here in self.in_steps[line][s:s + 2]]
        if len(on) > 1 and not at_an_end:
            raise Unreadable(f"{point_text(point)} lies on the segments {', '.join(map(str, on))} of line {line}: name one")
        return line, (at_an_end or on)[0], point


def segments_with(line, point):
    """The segments of a line that a point lies on, all in grid steps; a dot is segment 0. Nothing is said of a line or a
    point off the grid."""
    if None in point or any(None in p for p in line):
        return []
    pairs = zip(line, line[1:] if len(line) > 1 else line)
    return [segment for segment, (p, q) in enumerate(pairs)
            if (q[0] - p[0]) * (point[1] - p[1]) == (q[1] - p[1]) * (point[0] - p[0])
            and all(min(p[i], q[i]) <= point[i] <= max(p[i], q[i]) for i in (0, 1))]


def patterns(values):
    return b"".join(struct.pack("<Q", bits) for bits in values)


def whole(word, most, hint=""):
    if not re.fullmatch(r"\d{1,12}", word, re.ASCII) or int(word) > most:
        raise Unreadable(f"'{word}' is no whole number from 0 to {most:,}{hint}")
    return int(word)


def hexadecimal(word):
    if not re.fullmatch("([0-9a-f]{2})*", word):
        raise Unreadable("bytes are pairs of the digits 0 to 9 and a to f")
    return bytes.fromhex(word)
