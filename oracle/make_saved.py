#!/usr/bin/env python3
"""Makes the fixed list of drawings handed to a writer, with the answers of writer.rs.

usage: oracle/make_saved.py ORACLE > oracle/saved.txt

oracle/saved.py says what a case looks like; oracle/wrong_writers.py what the list tells apart.
"""
import math
import sys

from generate import MINUS_ZERO, bits, of_bits
from handed import MOST_FILE, Handed, Plain
from saved import answered, rows_of, written

EXACT, SHORT = 0, -1  # a destination of as many bytes as the file has, and one byte less


def at(*numbers):
    """Points of these coordinates, in pixels."""
    patterns = [bits(float(n)) for n in numbers]
    return list(zip(patterns[::2], patterns[1::2]))


def link(line_a, segment_a, a, line_b, segment_b, b):
    return (line_a, segment_a, line_b, segment_b, *at(*a)[0], *at(*b)[0])


SEGMENT = at(0, 0, 3, 4)
DOT = at(1, 1)
BEND = at(-1, 2, 5, 2, 5, -6.5, 7, 8)  # segments 0 to 2
GOOD = link(0, 0, (0, 0), 1, 0, (1, 1))
OFF = bits(1 / 2048)
M = -0.0


def right():
    """Drawings that are saved; each with a destination, as bytes more than the file has."""
    yield "settings alone", Plain(), EXACT
    yield "settings alone, later bytes kept", Plain(), 1
    yield "settings alone, many later bytes kept", Plain(), 300
    yield "settings: the largest", Plain(width=8192, height=8192, pairing=1, flags=7), EXACT
    yield "settings: the smallest", Plain(width=0, height=0), EXACT
    yield "settings: width 258, height 1,029, lowest byte first", Plain(width=258, height=1029), EXACT
    for flags in (1, 2, 4, 7):
        yield f"settings: flags {flags}", Plain([SEGMENT, DOT], flags=flags, pairing=flags % 2), EXACT
    yield "line: one segment, the bytes of document 01", Plain([SEGMENT]), EXACT
    yield "line: one segment, later bytes kept", Plain([SEGMENT]), 23
    yield "line: empty", Plain([[]]), EXACT
    yield "line: a dot", Plain([DOT]), EXACT
    yield "lines: three empty ones", Plain([[], [], []]), EXACT
    yield "lines: of 3, 0, 1, 2 points and none, each gets its own", Plain([at(1, 2, 3, 4, 5, 6), [], at(7, 8), at(9, 10, 11, 12), []]), 5
    yield "lines: one point twice", Plain([at(2, 2, 2, 2)]), EXACT
    yield "coordinates: at the edges of the grid", Plain([at(4096, -4096, 1 / 1024, -1 / 1024, 4095 + 1023 / 1024, 1 / 1024 - 4096, 0, 1023 / 1024)]), 9
    yield "link: all its numbers different", Plain([at(1, 1), BEND, at(*range(12))], [link(1, 2, (0.25, 3), 2, 4, (-7, 4096))]), EXACT
    yield "link: the same, turned round", Plain([at(1, 1), BEND, at(*range(12))], [link(2, 4, (-7, 4096), 1, 2, (0.25, 3))]), EXACT
    yield "link: later bytes kept", Plain([SEGMENT, DOT], [GOOD]), 46
    yield "link: from a line to itself, one point twice", Plain([SEGMENT], [link(0, 0, (1, 1), 0, 0, (1, 1))]), EXACT
    yield "link: the last segment of a line", Plain([BEND], [link(0, 2, (5, 2), 0, 0, (0, 2))]), EXACT
    yield "link: segment 0 of a dot", Plain([DOT], [link(0, 0, (1, 1), 0, 0, (2, 1))]), EXACT
    yield "link: names a line behind an empty one", Plain([[], DOT], [link(1, 0, (1, 1), 1, 0, (1, 1))]), EXACT
    yield "links: three, in their order, two alike", Plain([SEGMENT, DOT], [GOOD, GOOD, link(1, 0, (1, 1), 0, 0, (3, 4))]), EXACT
    yield "lines: two that lie apart, which the planner refuses with 9", Plain([DOT, SEGMENT]), EXACT
    # Minus zero is saved as a plain one.
    yield "minus zero: x of a point", Plain([at(M, 1, 1, 1)]), EXACT
    yield "minus zero: y of a point", Plain([at(1, 1, 1, M)]), EXACT
    yield "minus zero: the last coordinate of the last of three lines", Plain([SEGMENT, [], [*BEND, *at(2, M)]]), 3
    yield "minus zero: all coordinates, beside plain ones", Plain([at(M, M, 0, M), at(M, 0)], flags=4), EXACT
    for k, name in enumerate(["x of the first end", "y of the first end", "x of the second end", "y of the second end"]):
        ends = [float(5 + n) if n != k else M for n in range(4)]
        yield f"minus zero: {name} of the last link", Plain([SEGMENT, DOT], [GOOD, link(0, 0, ends[:2], 1, 0, ends[2:])]), EXACT
    yield "minus zero: all ends of two links and all points", Plain([at(M, M), at(M, M, M, M)], [link(0, 0, (M, M), 1, 0, (M, M))] * 2), 30
    yield "minus zero: a line of one point twice, under two signs", Plain([at(0, 2, M, 2)]), EXACT
    yield "minus zero: two links alike, under two signs", Plain([SEGMENT, DOT], [link(0, 0, (0, M), 1, 0, (1, 1)), GOOD]), EXACT
    yield "minus zero: numbers of the grid that are next to it keep their sign", Plain([at(-1 / 1024, M, -1, 0, M, -4096)]), EXACT
    yield "minus zero: a byte short: 16", Plain([at(M, M)]), SHORT
    # At the limits.
    yield "limit: 256 empty lines", Plain([[]] * 256), EXACT
    yield "limit: 1,024 points in one line", Plain([at(5, 6) * 1024]), EXACT
    yield "limit: 1,024 points in two lines", Plain([at(5, 6) * 1023, DOT]), EXACT
    yield "limit: 255 links", Plain([SEGMENT, DOT], [GOOD] * 255), EXACT
    yield "limit: line 255, its number's second byte 0", Plain([DOT] * 256, [link(255, 0, (1, 1), 254, 0, (1, 1))]), EXACT
    yield "limit: segment 1,022, a number of two bytes", Plain([at(5, 6) * 1024], [link(0, 1022, (5, 6), 0, 513, (7, 8))]), EXACT
    full = Plain([at(0, 1, 2, 3, -4, 5.5, 6, 7)] * 256, [link(0, 1, (1, 2), 255, 2, (3, 4))] * 255, width=8192, height=1, pairing=1, flags=3)
    assert full.length() == MOST_FILE
    yield "limit: the largest drawing", full, EXACT
    yield "limit: the largest drawing, later bytes kept", full, 1000
    yield "limit: the largest drawing, a byte short: 16", full, SHORT
    # 16.
    yield "16: settings alone, a byte short", Plain(), SHORT
    yield "16: settings alone, no byte", Plain(), -16
    yield "16: one segment, a byte short", Plain([SEGMENT]), SHORT
    yield "16: one segment, room for all but its line", Plain([SEGMENT]), -38
    yield "16: one segment, no byte", Plain([SEGMENT]), -54
    yield "16: an empty line's head is counted", Plain([[], []]), -6
    yield "16: a link, a byte short", Plain([SEGMENT, DOT], [GOOD]), SHORT
    yield "16: a link, room for all but it", Plain([SEGMENT, DOT], [GOOD]), -46


def refused():
    """Drawings with one fault each, and long enough destinations."""
    for name, value in [("width", 8193), ("height", 8193), ("width", 2**32 - 1), ("height", 65546), ("pairing", 2), ("pairing", 252),
                        ("flags", 8), ("flags", 12), ("flags", 128)]:
        yield f"5: {name} {value:,}", Plain([SEGMENT], **{name: value})
    yield "6: 257 empty lines", Plain([[]] * 257)
    yield "6: 257 dots", Plain([DOT] * 257)
    yield "6: 1,025 points in one line", Plain([at(5, 6) * 1025])
    yield "6: 1,025 points in two lines", Plain([at(5, 6) * 1024, DOT])
    yield "6: 256 links", Plain([SEGMENT, DOT], [GOOD] * 256)
    yield "6: 65,536 lines", Plain([[]] * 65536)
    yield "6: 65,537 points", Plain([at(5, 6) * 65537])
    yield "6: 65,536 links", Plain([SEGMENT, DOT], [GOOD] * 65536)
    for flags in (4, 5, 7):
        yield f"15: a link and flags {flags}", Plain([SEGMENT, DOT], [GOOD], flags=flags)
    yield "15: 255 links and flags 4", Plain([SEGMENT, DOT], [GOOD] * 255, flags=4)
    odd = [of_bits(MINUS_ZERO + 1), of_bits(MINUS_ZERO + 1), 1 / 2048, 1 / 1024 + 2**-62, 4096 + 1 / 1024, -4096 - 1 / 1024, math.inf, -math.inf,
           of_bits(0x7ff8000000000000), of_bits(0xfff0000000000001), 5e-324, 2.0**-1022, 2.0**53, -2.0**64, of_bits(bits(4096.0) - 1), of_bits(bits(4096.0) + 1), of_bits(bits(-3.0) + 1)]
    for n, value in enumerate(odd):
        x = bits(value)
        line = [[(x, bits(1.0)), *DOT], [*DOT, (bits(1.0), x)]][n % 2]
        yield f"7: {'xy'[n % 2]} is {value!r}, {x:016x}", Plain([line])
    for k, name in enumerate(["x of the first end", "y of the first end", "x of the second end", "y of the second end"]):
        bad = list(GOOD)
        bad[4 + k] = MINUS_ZERO + 1 if k == 2 else OFF
        yield f"7: {name} of the last link", Plain([SEGMENT, DOT], [GOOD, tuple(bad)])
    yield "7: the last coordinate of the last of three lines", Plain([SEGMENT, [], [*BEND, (bits(2.0), OFF)]], [link(0, 0, (0, 0), 0, 0, (3, 4))])
    for name, end in [("line 2 of 2", (2, 0)), ("line 65,536", (65536, 0)), ("line 65,537", (65537, 0)), ("line 2^32 - 1", (2**32 - 1, 0)),
                      ("segment 1 of two points", (0, 1)), ("segment 1 of a dot", (1, 1)), ("segment 65,536", (0, 65536)), ("segment 2^32 - 1", (0, 2**32 - 1))]:
        yield f"8: the first end of the last link names {name}", Plain([SEGMENT, DOT], [GOOD, link(*end, (0, 0), 0, 0, (0, 0))])
        if end not in ((65537, 0), (2**32 - 1, 0), (0, 2**32 - 1)):
            yield f"8: the second end of the first link names {name}", Plain([SEGMENT, DOT], [link(0, 0, (0, 0), *end, (0, 0)), GOOD])
    yield "8: an empty line is named", Plain([SEGMENT, DOT, []], [link(0, 0, (0, 0), 2, 0, (0, 0))])
    yield "8: segment 3 of four points", Plain([BEND, DOT], [link(0, 3, (7, 8), 1, 0, (1, 1))])
    yield "8: there is no line", Plain([], [GOOD])
    # Beside a minus zero.
    yield "5: and a minus zero", Plain([at(M, 1)], width=8193)
    yield "6: 257 lines, and a minus zero", Plain([at(M, 1)] * 257)
    yield "15: and a link at minus zero", Plain([SEGMENT, DOT], [link(0, 0, (M, 0), 1, 0, (1, 1))], flags=4)
    yield "7: and a minus zero before it", Plain([[*at(M, 1), (OFF, MINUS_ZERO)]])
    yield "7: and a minus zero in the same link", Plain([SEGMENT], [(0, 0, 0, 0, MINUS_ZERO, 0, OFF, MINUS_ZERO)])
    yield "8: and a minus zero in the same link", Plain([SEGMENT], [link(1, 0, (M, 0), 0, 0, (3, 4))])


def misfits():
    """Slices that do not fit one another: handed over as they are."""
    good = Plain([SEGMENT, DOT], [GOOD]).handed()
    one, zero = bits(1.0), 0
    yield "4: a coordinate too many", good._replace(coordinates=good.coordinates + [one])
    yield "4: a point too many", good._replace(coordinates=good.coordinates + [one, one])
    yield "4: a coordinate too few", good._replace(coordinates=good.coordinates[:-1])
    yield "4: no coordinates", good._replace(coordinates=[])
    yield "4: no sizes", good._replace(sizes=[])
    yield "4: as many coordinates as points", good._replace(coordinates=good.coordinates[:3])
    yield "4: a size of 2^32 - 1", good._replace(sizes=[2, 2**32 - 1])
    yield "4: sizes of 2^32 in all, and no coordinates", Handed(10, 10, 0, 0, [2**31, 2**31], [], [], [])
    yield "4: a size of 2^31, which twice is 2^32, and no coordinates", Handed(10, 10, 0, 0, [2**31], [], [], [])
    yield "4: sizes of 2^32 + 1 in all, and one point", Handed(10, 10, 0, 0, [2**32 - 1, 2], [one, one], [], [])
    yield "4: three numbers for a link", good._replace(segments=good.segments[:3], ends=good.ends[:3])
    yield "4: five numbers for a link, and five ends", good._replace(segments=good.segments + [0], ends=good.ends + [one])
    yield "4: six numbers for links, and six ends", good._replace(segments=good.segments + [0, 0], ends=good.ends + [one, one])
    yield "4: a link without ends", good._replace(ends=[])
    yield "4: ends without a link", good._replace(segments=[])
    yield "4: one end too few", good._replace(ends=good.ends[:3])
    yield "4: two links, ends of one", good._replace(segments=good.segments * 2)
    yield "4: ends of two links, one link", good._replace(ends=good.ends + [one, zero, one, zero])


# Two faults at once. The lower number in the order of the refusals is given.
def orders():
    many, flagged, off, wrong = [[]] * 257, dict(flags=4), [(OFF, bits(1.0))], link(9, 0, (0, 0), 0, 0, (0, 0))
    off_link, wrong_off = (0, 0, 0, 0, 0, 0, 0, OFF), (9, 0, 0, 0, 0, 0, 0, OFF)
    yield "5 and 6", Plain(many, width=8193), EXACT
    yield "5 and 15", Plain([SEGMENT, DOT], [GOOD], flags=12), EXACT
    yield "5 and 7", Plain([off], pairing=2), EXACT
    yield "5 and 8", Plain([SEGMENT], [wrong], height=8193), EXACT
    yield "5 and 16", Plain([SEGMENT], pairing=2), SHORT
    yield "6 and 15", Plain([SEGMENT, DOT], [GOOD] * 256, **flagged), EXACT
    yield "6 and 7, in the first line", Plain([off, *many]), EXACT
    yield "6 and 7, 256 links", Plain([off, DOT], [GOOD] * 256), EXACT
    yield "6 and 8", Plain([SEGMENT, DOT], [wrong] + [GOOD] * 255), EXACT
    yield "6 and 8, 257 lines", Plain([SEGMENT, *many], [wrong[:1] + (0, 1) + wrong[3:]]), EXACT
    yield "6 and 16", Plain(many), SHORT
    yield "6 and 16, no byte", Plain([at(5, 6) * 1025]), -16 - 6 - 16 * 1025
    yield "15 and 7, in the lines", Plain([off], [link(0, 0, (0, 0), 0, 0, (1, 0))], **flagged), EXACT
    yield "15 and 7, in the link", Plain([SEGMENT], [off_link], **flagged), EXACT
    yield "15 and 8", Plain([SEGMENT], [wrong], **flagged), EXACT
    yield "15 and 16", Plain([SEGMENT, DOT], [GOOD], **flagged), SHORT
    yield "7 and 8, in one link", Plain([SEGMENT], [wrong_off]), EXACT
    yield "7 and 8, the link with 8 first", Plain([SEGMENT], [wrong, off_link]), EXACT
    yield "7 and 8, the link with 7 first", Plain([SEGMENT], [off_link, wrong]), EXACT
    yield "7 and 8, 7 in a line", Plain([SEGMENT, off], [wrong]), EXACT
    yield "7 and 16", Plain([off]), SHORT
    yield "7 and 16, no byte, 7 in a link", Plain([SEGMENT], [off_link]), -16 - 6 - 32 - 46
    yield "8 and 16", Plain([SEGMENT], [wrong]), SHORT
    yield "8 and 16, no byte", Plain([SEGMENT], [GOOD]), -16 - 6 - 32 - 46
    # 4 comes before each of the others.
    cut = lambda plain: (lambda given: given._replace(coordinates=given.coordinates + [0]))(plain.handed())
    yield "4 and 5", cut(Plain([SEGMENT], flags=255)), 500
    yield "4 and 6", cut(Plain(many)), 2000
    yield "4 and 15", cut(Plain([SEGMENT, DOT], [GOOD], **flagged)), 500
    yield "4 and 7", cut(Plain([off])), 500
    yield "4 and 8", cut(Plain([SEGMENT], [wrong])), 500
    yield "4 and 16", cut(Plain([SEGMENT])), 0


def listed():
    """Name, what is handed over, bytes of the destination."""
    for name, plain, more in right():
        yield name, plain.handed(), plain.length() + more
    for name, plain in refused():
        yield name, plain.handed(), min(plain.length() + 3, MOST_FILE)
    for name, handed in misfits():
        yield name, handed, 1000
    for name, given, size in orders():
        handed = given if isinstance(given, Handed) else given.handed()
        yield f"order: {name}", handed, size if given is handed else given.length() + size


def main():
    drawings = list(listed())
    rows = rows_of(f"{sys.argv[1]} --saved", [(handed, destination) for _, handed, destination in drawings])
    assert len(rows) == len(drawings)
    for (name, handed, destination), row in zip(drawings, rows):
        case = answered(name, handed, destination, row)
        # What a name says of the answer is so.
        said = name.removeprefix("order: ").split()[0].rstrip(":,")
        assert not said.isdigit() or case.refusal == int(said), f"{name}: {row}"
        assert case.refusal == 0 or said.isdigit() or name.endswith(f": {case.refusal}"), f"{name}: {row}"
        print(written(case), end="")


if __name__ == "__main__":
    main()
