"""Drawing files (docs/DRAWING-FILE.md): their records written and read, and coordinates on the grid.

A coordinate that was read is its 64-bit pattern, so that a file that is refused can be spoken of too. Minus zero is a zero: a
text has it as it stands in the file, `minus_zeros` counts it, and whatever else is read here has plain zero for it, as the planner does.
"""
import collections
import struct

SETTINGS, LINE, LINK = 1, 2, 3  # kinds of records
HEAD = 6                        # bytes of a record's head
LINK_LENGTH, SETTINGS_LENGTH, POINT_LENGTH = 40, 10, 16

STEPS = 1024                    # grid steps in a pixel
REACH = 4096                    # the largest coordinate, in pixels
MINUS_ZERO = 1 << 63            # its pattern

GREEDY, OPTIMAL = 0, 1          # pairing
CLOSE, INSIDE, LINKING = 1, 2, 4  # flags, each a bit

MOST_OPTIMAL = 20               # odd points for which optimal pairing compares all choices of pairs


def tables_for(n):
    """How many floats and bytes the tables need for optimal pairing with n odd points. Those for more than 20 have no bytes and are
    not enough for 4 to 20; those for 20 are enough for every drawing, since none has more than 1,022 odd points."""
    if n < 4:
        return 0, 0
    return (2**n + n * n, 2**n) if n <= MOST_OPTIMAL else (n * n, 0)


PLAN_TABLES = 12                # the odd points that the tables of the program `plan` are for
PLAN_F64, PLAN_BYTES, PLAN_OUTPUT = *tables_for(PLAN_TABLES), 6 + 16 * 4001  # what it lends
ENOUGH = tables_for(MOST_OPTIMAL)  # tables for every drawing

Record = collections.namedtuple("Record", "kind body place")
Settings = collections.namedtuple("Settings", "width height pairing flags")
Link = collections.namedtuple("Link", "line_a segment_a a line_b segment_b b")
Drawing = collections.namedtuple("Drawing", "settings lines links")


# ---- writing; points are pairs of floats, in pixels

def record(kind, body):
    return struct.pack("<IH", len(body), kind) + body


def settings(width=10, height=10, pairing=0, flags=0):
    return record(SETTINGS, struct.pack("<IIBB", width, height, pairing, flags))


def line(points):
    return record(LINE, b"".join(struct.pack("<dd", x, y) for x, y in points))


def link(line_a, segment_a, a, line_b, segment_b, b):
    return record(LINK, struct.pack("<HHHHdddd", line_a, segment_a, line_b, segment_b, *a, *b))


def drawing(lines, links=(), **settings_values):
    """A whole file; a link is the six values that `link` takes."""
    return settings(**settings_values) + b"".join(map(line, lines)) + b"".join(link(*l) for l in links)


# ---- coordinates

def bits_of(number):
    """The pattern of the f64 nearest to a number."""
    return struct.unpack("<Q", struct.pack("<d", float(number)))[0]


def float_of(bits):
    return struct.unpack("<d", struct.pack("<Q", bits))[0]


def steps_of(bits):
    """A coordinate in whole grid steps, or None where it is not on the grid."""
    value = float_of(bits)
    if not abs(value) <= REACH or not (value * STEPS).is_integer():
        return None
    return int(value * STEPS)


def clean(bits):
    """A pattern with plain zero for minus zero."""
    return 0 if bits == MINUS_ZERO else bits


def as_it_stands(bits):
    """A pattern as it is, minus zero too."""
    return bits


def in_steps(point):
    return steps_of(point[0]), steps_of(point[1])


def squared(p, q):
    """The squared distance of two points in grid steps."""
    return (p[0] - q[0]) ** 2 + (p[1] - q[1]) ** 2


# ---- reading

def split(file):
    """The records that lie whole in the file, and the place where the last one is cut off (None: nowhere)."""
    records, place = [], 0
    while place < len(file):
        if place + HEAD > len(file):
            return records, place
        length, kind = struct.unpack_from("<IH", file, place)
        if place + HEAD + length > len(file):
            return records, place
        records.append(Record(kind, file[place + HEAD:place + HEAD + length], place))
        place += HEAD + length
    return records, None


def length_fits(kind, length):
    """Whether a body of this length can be of this kind."""
    if kind == LINE:
        return length % POINT_LENGTH == 0
    return length == {SETTINGS: SETTINGS_LENGTH, LINK: LINK_LENGTH}.get(kind)


def points_in(body, each=clean):
    """The points of a line's body, as pairs of patterns; each is what becomes of a pattern: clean or as_it_stands."""
    flat = list(map(each, struct.unpack(f"<{len(body) // 8}Q", body)))
    return list(zip(flat[::2], flat[1::2]))


def link_in(body, each=clean):
    line_a, segment_a, line_b, segment_b = struct.unpack_from("<HHHH", body)
    a, b = points_in(body[8:], each)
    return Link(line_a, segment_a, a, line_b, segment_b, b)


def settings_in(body):
    return Settings(*struct.unpack("<IIBB", body))


def minus_zeros(records):
    """How many coordinates of lines and links are minus zero. All bodies have the length that their kind asks."""
    points = [p for r in records if r.kind == LINE for p in points_in(r.body, as_it_stands)]
    points += [p for r in records if r.kind == LINK for p in points_in(r.body[8:], as_it_stands)]
    return sum(bits == MINUS_ZERO for p in points for bits in p)


def assembled(records):
    """The drawing that records say, with plain zeros, so that points on the grid are the same where their patterns are. What does
    not fit its kind is passed over, so that a damaged drawing can be shown."""
    fitting = [r for r in records if length_fits(r.kind, len(r.body))]
    found = [settings_in(r.body) for r in fitting if r.kind == SETTINGS]
    return Drawing(found[0] if found else Settings(0, 0, GREEDY, 0),
                   [points_in(r.body) for r in fitting if r.kind == LINE],
                   [link_in(r.body) for r in fitting if r.kind == LINK])
