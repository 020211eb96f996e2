#!/usr/bin/env python3
"""Makes the fixed list of drawings with the oracle's answers.

usage: oracle/make_answers.py ORACLE > oracle/answers.txt

oracle/answers.py says what a case looks like; oracle/variants.py what the list tells apart.
"""
import random
import re
import subprocess
import sys

import drawing as d
import generate as g
from answers import Case, written
from samples import CROSS, SAMPLES


def star(n, step=1):
    """n rays of different lengths and directions from (0, 0)."""
    spots = [(9, 1), (-2, 7), (5, -8), (-6, -3), (1, 4), (7, 6), (-9, 2), (3, -2), (-4, 9), (8, -5), (-1, -6), (2, 8),
             (-7, -8), (6, 3), (-3, 5), (4, -9), (-8, 6), (9, 7), (-5, -5), (1, -3), (7, -7), (-9, -9)]
    return [[(0, 0), (x * step, y * step)] for x, y in spots[:n]]


def from_samples():
    for name, file, options, _ in SAMPLES:
        lent = dict(zip((o.strip("-") for o in options[::2]), map(int, options[1::2])))
        yield "sample: " + name, file, dict(f64=lent.get("f64", d.PLAN_F64), byte=lent.get("bytes", d.PLAN_BYTES))


# Limit cases that tell no more than another one of the list, by how their names begin.
SPARED = [r"65,53\d bytes of nothing", r"(settings and )?[2346] bytes of a head", "body of 2.32-6", r".*kind (5|6|256|257|513)\b",
          "settings of kind (4|65535)", "settings at the end", "settings of (0|16) bytes", "line of (8|31) bytes", "link of (0|80)",
          r"(width|height) (0|2147483648)$", "height 4294967295", "pairing (0|1|255)", "flags [0123]$",
          "1,024 points in two", "settings and 1 bytes", "second body", "settings of kind 0", "line of 1 bytes",
          r"(y|x of a link's first end|y of a link's second end) number (?!2,|10,)", r"x number (4|5|9|16|12|14|17|18|20|22|23|24|25),",
          "(first|second) end names segment 65535", "second end names (line 65535|an empty line's|segment 2|segment 0)"]


def from_limits():
    for name, file in g.limit_cases():
        if not re.match("|".join(SPARED), name):
            yield "limit: " + name, file, {}


def by_hand():
    seg = [[(0, 0), (8, 0)]]
    end = (0, 0, (8, 0))
    yield "splits: P, Q, P at one distance stay", d.drawing(seg, [(0, 0, p, *end) for p in ((3, 4), (4, 3), (3, 4))])
    yield "splits: P, P, Q at one distance: the second P goes", d.drawing(seg, [(0, 0, p, *end) for p in ((3, 4), (3, 4), (4, 3))])
    yield "splits: P, end, P becomes P", d.drawing([[(0, 0), (5, 0)]], [(0, 0, (3, 4), 0, 0, (5, 0))] * 2)
    yield "splits: by distance, not along the segment", d.drawing(seg, [(0, 0, (-5, 0), 0, 0, (3, 0))])
    yield "splits: past the end", d.drawing(seg, [(0, 0, (9, 0), 0, 0, (3, 0))])
    yield "splits: off the segment, which bends", d.drawing(seg, [(0, 0, (2, 3), 0, 0, (6, -1))])
    yield "splits: on a zero-length segment, off it", d.drawing([[(2, 2), (2, 2)]], [(0, 0, (3, 3), 0, 0, (2, 2))])
    yield "splits: first end of a link before its second at one distance", d.drawing(seg, [(0, 0, (0, 3), 0, 0, (3, 0))])
    yield "splits: the other order", d.drawing(seg, [(0, 0, (3, 0), 0, 0, (0, 3))])
    yield "splits: two segments named for one corner", d.drawing(
        [[(0, 0), (4, 0), (4, 4)], [(6, 0), (6, 4)]], [(0, 0, (4, 0), 1, 0, (6, 0)), (0, 1, (4, 0), 1, 0, (6, 4))])
    yield "splits: a point of segment 1 named for segment 0", d.drawing([[(0, 0), (4, 0), (4, 4)]], [(0, 0, (4, 4), 0, 1, (0, 0))])
    yield "link: one point twice bends its segment", d.drawing(seg, [(0, 0, (4, 1), 0, 0, (4, 1))])
    yield "link: one point twice on its dot", d.drawing([[(1, 1)]], [(0, 0, (1, 1), 0, 0, (1, 1))])
    yield "link: one point twice beside its dot cannot be reached", d.drawing([[(1, 1)]], [(0, 0, (2, 1), 0, 0, (2, 1))])
    yield "link: from a dot to a place beside it", d.drawing([[(1, 1)]], [(0, 0, (1, 1), 0, 0, (2, 1))])
    yield "link: two alike", d.drawing([[(0, 0), (2, 0)], [(0, 3), (2, 3)]], [(0, 0, (1, 0), 1, 0, (1, 3))] * 2)
    yield "link: alike, turned round", d.drawing(
        [[(0, 0), (2, 0)], [(0, 3), (2, 3)]], [(0, 0, (1, 0), 1, 0, (1, 3)), (1, 0, (1, 3), 0, 0, (1, 0))])
    yield "link: along a segment that is drawn", d.drawing(seg, [(0, 0, (0, 0), 0, 0, (8, 0))])
    yield "link: names a line behind an empty one", d.drawing([[], [(0, 0), (2, 0)], [], [(1, 3)]], [(1, 0, (1, 0), 3, 0, (1, 3))])
    yield "lines: only empty ones", d.drawing([[], [], []])
    yield "lines: three dots on one place", d.drawing([[(1, 1)]] * 3)
    yield "lines: two dots apart", d.drawing([[(1, 1)], [(1, 2)]])
    yield "lines: meeting in a shared point", d.drawing([[(0, 0), (4, 0)], [(4, 0), (4, 4)]])
    yield "lines: crossing without a shared point", d.drawing([[(0, 4), (8, 4)], [(4, 0), (4, 8)]])
    yield "lines: the same segment three times", d.drawing([[(0, 0), (4, 0), (0, 0), (4, 0)]])
    yield "lines: the same segment three times, as lines", d.drawing([[(0, 0), (4, 0)], [(4, 0), (0, 0)], [(0, 0), (4, 0)]])
    yield "lines: zero-length segments between others", d.drawing([[(0, 0), (0, 0), (4, 0), (4, 0), (4, 0), (4, 4)]])
    yield "departure: a real edge joins the two ends, and two ways round", d.drawing(
        [[(0, 0), (4, 0)], [(0, 0), (2, 2), (4, 0)], [(0, 0), (2, -2), (4, 0)]])
    yield "departure: the same, Inside", d.drawing(
        [[(0, 0), (2, 2), (4, 0)], [(4, 0), (0, 0)], [(0, 0), (2, -2), (4, 0)]], flags=2)
    yield "departure: a segment and a loop at its end", d.drawing([[(0, 0), (4, 0), (6, 2), (6, -2), (4, 0)]])
    yield "departure: a link joins the two ends", d.drawing([[(0, 0), (4, 0), (4, 4), (0, 0)]], [(0, 0, (0, 0), 0, 1, (4, 4))])
    square = [(1, 1), (9, 1), (9, 9), (1, 9), (1, 1)]
    for flags in range(4):
        yield f"start: a square about the centre, all corners tie, flags {flags}", d.drawing([square], flags=flags)
        yield f"start: a line whose ends tie, flags {flags}", d.drawing([[(1, 5), (5, 6), (9, 5)]], flags=flags)
        yield f"start: a cross, flags {flags}", d.drawing(CROSS, flags=flags)
    yield "start: canvas 0 by 0", d.drawing([square], width=0, height=0)
    # Both ends as near to the centre; rounded down or up, it would be nearer to one.
    for flags in (0, 2):
        yield f"start: an odd width puts the centre on a half, flags {flags}", d.drawing([[(3, 5), (4, 5)]], width=7, flags=flags)
        yield f"start: an odd height puts the centre on a half, flags {flags}", d.drawing([[(5, 3), (5, 4)]], height=7, flags=flags)
    yield "start: one step nearer, Inside", d.drawing([[(1, 5), (5, 6), (9 - 1 / 1024, 5)]], flags=2)
    yield "orient: last point strictly better", d.drawing([[(4, 4), (0, 0)]])
    for n in (3, 6, 7, 12):
        yield f"greedy: star of {n}", d.drawing(star(n))
        yield f"greedy: star of {n}, closing", d.drawing(star(n), flags=1)
    row = [[(x, 0) for x in range(9)]] + [[(x, 0), (x, 1 + x % 3)] for x in range(1, 8)]
    yield "greedy: a row of stubs, nearest pairs tie", d.drawing(row)
    yield "greedy: a row of stubs, closing", d.drawing(row, flags=1)
    yield "greedy: a lattice of 4 by 4", d.drawing(
        [[(x, y) for x in range(4)] for y in range(4)] + [[(x, y) for y in range(4)] for x in range(4)])
    yield "optimal: a lattice of 4 by 4", d.drawing(
        [[(x, y) for x in range(4)] for y in range(4)] + [[(x, y) for y in range(4)] for x in range(4)], pairing=1)
    yield "optimal: a row of stubs, too many for plan's tables", d.drawing(row, pairing=1)
    for n in (3, 7, 12):
        yield f"optimal: star of {n}", d.drawing(star(n), pairing=1)
        yield f"optimal: star of {n}, closing", d.drawing(star(n), pairing=1, flags=1)
    yield "optimal: two odd nodes need no tables", d.drawing(seg, pairing=1, flags=1), dict(f64=0, byte=0)
    yield "optimal: no odd node needs no tables", d.drawing([square], pairing=1, flags=1), dict(f64=0, byte=0)
    yield "optimal: star of 20, tables exact", d.drawing(star(20), pairing=1), dict(f64=2**20 + 400, byte=2**20)
    yield "optimal: star of 20, an f64 short", d.drawing(star(20), pairing=1), dict(f64=2**20 + 399, byte=2**20)
    yield "optimal: star of 20, a byte short", d.drawing(star(20), pairing=1), dict(f64=2**20 + 400, byte=2**20 - 1)
    yield "optimal: star of 22", d.drawing(star(22), pairing=1), dict(f64=2**23, byte=2**23)
    yield "optimal: star of 14 in plan's tables", d.drawing(star(14), pairing=1)
    yield "optimal: cross, 15 bytes", d.drawing(CROSS, pairing=1), dict(f64=32, byte=15)
    off_grid = d.link(0, 0, g.OFF_GRID, 0, 0, (1, 0))
    yield "order: settings twice, the second of 9 bytes: 3 before 4", d.settings() + d.record(1, bytes(9))
    yield "order: a line of 15 bytes behind a link: 3 before 4", d.settings() + off_grid + d.record(2, bytes(15))
    yield "order: settings of 11 bytes, all above what is allowed: 4 before 5", d.record(1, b"\xff" * 11)
    yield "order: 257 lines and a link off the grid: 6 before 7", d.settings() + d.line([]) * 257 + off_grid
    yield "order: 256 links and a point off the grid: 6 before 7", d.drawing([[g.OFF_GRID, (8, 0)]], [(*end, *end)] * 256)
    yield "order: a point off the grid and a missing line: 7 before 8", d.drawing([[g.OFF_GRID, (8, 0)]], [(1, 0, (8, 0), *end)])
    yield "order: no tables and no output: 11 before 14", d.drawing(star(4), pairing=1), dict(f64=0, byte=0, output=0)
    yield "order: apart and no output: 9 before 14", d.drawing([[(0, 0)], [(1, 1)]]), dict(output=0)
    yield "length: the longest segment, closing", d.drawing([[(-4096, -4096), (4096, 4096)]], flags=1)
    yield "length: the shortest segment, closing", d.drawing([[(0, 0), (1 / 1024, 0)]], flags=1)
    yield "length: (27, 17) steps, where the C library's hypot is not the nearest", d.drawing([[(0, 0), (27 / 1024, 17 / 1024)]], flags=1)
    yield "length: (4,096, 4,095 and 1,023 steps), closing", d.drawing([[(-4096, -4096), (4096, 4095 + 1023 / 1024)]], flags=1)
    yield "lines: 257 of one point", d.settings() + d.line([(1, 1)]) * 257
    # The next five in grid steps; found by the generator, they change with a rule that is nearly right.
    yield "retrace: two ways back within 1e-10, the longer one taken", g.write(
        [[(0, 0), (1502067, 1730103), (3137829, 0)], [(0, 0), (1491291, -1729856), (3137829, 0)],
         [(0, 0), (1057626, -1688848), (3137829, 0)]], flags=1)
    # Three ways from end to end; the last one is longer than the first by less than 1e-10, and by a little more.
    span, third = (409600, 0), [(0, 0), (200000, -150000), (409600, 0)]
    for length, one, last in [("9.9988e-11", (371211, 80393), (405735, 58804)), ("1.0004e-10", (99244, 101905), (125262, 107358))]:
        yield f"retrace: a way back that is longer by {length}", g.write(
            [[(0, 0), one, span], third, [(0, 0), last, span]], flags=1)
    yield "retrace: two ways back of one length, whose sums round apart", g.write(
        [[(-1, -6), (405400, 557515), (406451, 555694), (1050, -1827)], [(406452, 555700), (406451, 555694)],
         [(405401, 557521), (406452, 555700), (1051, -1821), (0, 0), (-1, -6)], [(405401, 557521), (0, 0)]], pairing=1, flags=3)
    yield "optimal: the distance from the lower node to the higher decides, by its last bit", g.write(
        [[(-135, -347), p, q] for p, q in (((-226, -20), (-286, 337)), ((204, -84), (520, 169)), ((141, -578), (378, -784)),
                                           ((-423, -281), (-732, -209)), ((166, -59), (450, 262)), ((126, -57), (378, 252)))],
        width=0, pairing=1, flags=1)
    yield "output: settings only, 6 bytes", d.settings(), dict(output=6)
    yield "output: settings only, 5 bytes", d.settings(), dict(output=5)
    yield "output: settings only, none", d.settings(), dict(output=0)
    yield "output: two points, exact", d.drawing([[(0, 0), (3, 4)]]), dict(output=38)
    yield "output: two points, a byte short", d.drawing([[(0, 0), (3, 4)]]), dict(output=37)
    yield "output: cross closing, exact", d.drawing(CROSS, flags=1), dict(output=6 + 16 * 9)
    yield "output: cross closing, a byte short", d.drawing(CROSS, flags=1), dict(output=5 + 16 * 9)
    # 1,024 points in rows, and 255 links that each split their own segment twice.
    path = [(4 * (k % 32 if k // 32 % 2 == 0 else 31 - k % 32), 4 * (k // 32)) for k in range(1024)]
    within = lambda k, part: tuple(a + (b - a) * part / 4 for a, b in zip(path[k], path[k + 1]))
    yield "largest: 1,534 nodes, 1,788 edges before repair", d.drawing(
        [path], [(0, k, within(k, 1), 0, k, within(k, 3)) for k in range(2, 1022, 4)])
    yield "repair: exactly 4,000 edges, 4,001 points", g.hairpin(997, 3, 0, 1)
    yield "repair: 4,000 edges, a byte of output short", g.hairpin(997, 3, 0, 1), dict(output=d.PLAN_OUTPUT - 1)
    yield "repair: 4,001 edges after the closing retrace", g.hairpin(996, 3, 5, 1)
    yield "repair: 4,001 edges and no output: 13 before 14", g.hairpin(996, 3, 5, 1), dict(output=0)
    yield "repair: exactly 4,000 edges, not closing", g.hairpin(796, 5, 2, 0)
    yield "repair: 4,001 edges, not closing", g.hairpin(796, 5, 3, 0)
    yield "repair: past 4,000 edges with retraces to come", g.hairpin(960, 9, 0, 0)


def ring(x, y, side):
    return [(x, y), (x + side, y), (x + side, y + side), (x, y + side), (x, y)]


def with_flag_4():
    """Drawings for one rule each of the making of links."""
    made = lambda lines, **settings: d.drawing(lines, **dict(dict(flags=g.LINK), **settings))
    dots = lambda *points: [[p] for p in points]
    yield "made: no line", made([])
    yield "made: only empty lines", made([[], []])
    yield "made: one dot", made(dots((3, 2)))
    yield "made: one line gets no link, its own ends apart", made([[(0, 0), (4, 0), (4, 3)]])
    yield "made: one line between empty ones", made([[], [(0, 0), (4, 0), (4, 3)], []])
    letters = [[(0, 0), (0, 6), (3, 6)], [(6, 0), (6, 6)], [(9, 0), (11, 6), (13, 0)]]
    for flags in range(4, 8):
        yield f"made: three letters, flags {flags}", made(letters, flags=flags)
        yield f"made: three letters, flags {flags}, Optimal", made(letters, flags=flags, pairing=1)
    yield "made: the letters in another order and turned round", made([letters[2][::-1], letters[0], letters[1][::-1]])
    yield "made: a dot in a ring", made([ring(0, 0, 8), [(4, 3)]])
    yield "made: a ring in a ring", made([ring(0, 0, 9)[1:-1] + ring(0, 0, 9)[:2], ring(3, 2, 2)], flags=5)
    yield "made: two lines that touch at their ends", made([[(0, 0), (4, 0)], [(4, 0), (4, 4)]])
    yield "made: two lines that touch at their ends, and a third", made([[(0, 0), (4, 0)], [(7, 2), (9, 9)], [(4, 0), (4, 4)]])
    yield "made: two lines that meet where neither ends are linked all the same", made(CROSS)
    yield "made: the same, Optimal, closing", made(CROSS, pairing=1, flags=5)
    yield "made: a line that ends within another is linked all the same", made([[(0, 0), (3, 0), (8, 0)], [(3, 0), (3, 4)]])
    yield "made: two rings that meet in a corner where neither starts", made([ring(0, 0, 4), ring(4, 4, 3)[2:-1] + ring(4, 4, 3)[:3]])
    yield "made: two lines that cross without a shared point", made([[(0, 4), (8, 3)], [(4, 0), (5, 8)]])
    yield "made: two lines alike", made([[(0, 0), (4, 0), (4, 3)]] * 2)
    yield "made: three dots in one place and one beside", made(dots((1, 1), (1, 1), (3, 1), (1, 1)))
    yield "made: a line of one point twice", made([[(2, 2), (2, 2)], [(5, 3), (6, 6)]])
    yield "made: empty lines count in the numbering", made([[], [(1, 1), (3, 1)], [], [(6, 2), (9, 1)], []])
    yield "made: empty lines count in the numbering, bent lines", made([[(1, 1), (2, 5), (3, 1)], [], [], [(6, 2), (7, 7), (9, 1)], [(3, 3)]])
    yield "made: an end lies on the last segment, a start on the first", made(
        [[(0, 0), (4, 0), (4, 4), (8, 4)], [(9, 4), (12, 4), (12, 8)]])
    yield "made: two ends, on their last segments", made([[(0, 0), (4, 0), (4, 4), (8, 4)], [(12, 8), (12, 4), (9, 4)]])
    yield "made: two starts, on segment 0", made([[(8, 4), (4, 4), (4, 0), (0, 0)], [(9, 4), (12, 4), (12, 8)]])
    yield "made: ends, not the nearest points", made([[(0, 0), (5, 4), (10, 0)], [(5, 5), (1, 9), (9, 9)]])
    yield "made: as far apart as points can be", made(dots((-4096, -4096), (4096, 4096)), flags=5)
    yield "made: through the nearest, not in file order", made(dots((0, 0), (9, 0), (2, 1), (7, 1), (4, 0)))
    yield "made: a link along a line that is drawn", made([[(0, 0), (4, 0), (4, 4)], [(0, 0), (0, 4), (4, 4)], [(4, 8), (0, 8)]])
    # What is told apart by the rank alone.
    yield "rank: squares, not sums of differences", made([[(0, 0)], [(3, 3), (5, 0)]])
    yield "rank: squares, not the larger difference", made([[(0, 0)], [(4, 4), (5, 0)]])
    yield "rank: a grid step shorter", made([[(0, 0)], [(5 + 1 / 1024, 0), (0, 5)]])
    yield "rank: a square of 2^32 steps", made(dots((0, 0), (64, 0), (1, 0)))
    yield "rank: the same length three times round, by the lower line", made([[(0, 0), (4, 0)], [(4, 1), (4, 5)], [(3, 5), (0, 1)]])
    yield "rank: lower line before higher", made(dots((0, 0), (1, 5), (1, 0), (0, 5)))
    yield "rank: the higher line", made(dots((0, 0), (4, 1), (4, -1)))
    yield "rank: the lower line's end", made([[(0, 0), (4, 0)], [(2, 5)]])
    yield "rank: the higher line's end", made([[(2, 5)], [(0, 0), (4, 0)]])
    yield "rank: the lower line's end before the higher's", made([[(0, 0), (4, 0)], [(4, 3), (0, 3)]])
    yield "rank: all four at one length", made([[(0, 0), (2, 2)], [(2, 0), (0, 2)]])
    hub = dots((5, 1), (1, 5), (5, 5), (9, 6), (5, 10))
    for flags in (4, 5):
        yield f"rank: links of three lengths at one dot, flags {flags}", made(hub, flags=flags)
    yield "rank: links of one length at one dot, from both sides", made(dots((5, 2), (2, 5), (5, 5), (8, 5), (5, 8)), flags=5)
    # Both links end at the dot where the walk begins, and the one that comes later is walked first.
    centre = dict(flags=7, width=0, height=2)
    yield "rank: two links of one length where the walk begins", made([[(0, 1)], [(1, 0), (0, 0), (1, 1)], [(0, 0)]], **centre)
    yield "rank: two links where the walk begins, the shorter one to the higher line", made(
        [[(0, 1)], [(3, 0), (0, 0), (2, 1)], [(0, 0)]], **centre)
    yield "rank: two links where the walk begins, which end in the highest line", made(
        [[(3, 0), (0, 0), (2, 1)], [(0, 0)], [(0, 1)]], **centre)
    yield "rank: two links where the walk begins, one from each side", made([[(3, 0), (0, 0), (2, 1)], [(0, 1)], [(0, 0)]], **centre)
    yield "rank: two links where the walk begins, from a line's end", made([[(0, 4), (0, 1)], [(3, -1), (0, -1), (1, 1)], [(0, -1)]], **centre)
    square = [(x, y) for y in range(4) for x in range(4)]
    yield "rank: 16 dots in a square", made(dots(*square))
    yield "rank: 16 dots in a square, in another order", made(dots(*square[::3], *square[1::3], *square[2::3]))
    yield "made: 256 lines, all ends in one place", made([[(1, 1)]] * 256)
    yield "made: 256 dots in a square", made(dots(*[(x, y) for y in range(16) for x in range(16)]), flags=6)
    # What is judged behind it.
    yield "made: two lines and their link, output exact", made([[(0, 0), (4, 0)], [(6, 0), (9, 0)]]), dict(output=6 + 16 * 4)
    yield "made: two lines and their link, a byte short", made([[(0, 0), (4, 0)], [(6, 0), (9, 0)]]), dict(output=5 + 16 * 4)
    three = dots((5, 2), (2, 5), (5, 5), (8, 5))
    yield "made: four odd nodes by links alone, Optimal, tables exact", made(three, pairing=1), dict(f64=32, byte=16)
    yield "made: four odd nodes by links alone, Optimal, an f64 short", made(three, pairing=1), dict(f64=31, byte=16)
    rows = lambda count: dots(*[(x, y) for y in range(2) for x in range(count)])
    yield "made: 22 dots in two rows, Optimal: 20 odd nodes", made(rows(11), pairing=1)
    yield "made: 24 dots in two rows, Optimal: 22 odd nodes", made(rows(12), pairing=1)
    yield "made: exactly 4,000 edges", g.hairpin(997, 3, 0, 5)
    yield "made: a dot's link takes the repaired edges past 4,000", g.hairpin(997, 3, 0, 5) + d.line([(1, 1)])
    # Where the numbers stand.
    yield "order: flags 8 and 257 lines: 5 before 6", d.settings(flags=8) + d.line([]) * 257
    link = d.link(0, 0, (0, 0), 0, 0, (1, 0))
    yield "order: flags 12 and a link: 5 before 15", d.settings(flags=12) + d.line([(0, 0), (1, 0)]) + link
    yield "order: 257 lines and a link, flags 4: 6 before 15", d.settings(flags=4) + d.line([(0, 0), (1, 0)]) + d.line([]) * 256 + link
    yield "order: 256 lines and a link, flags 4", d.settings(flags=4) + d.line([(0, 0), (1, 0)]) + d.line([]) * 255 + link
    yield "order: a link and no output, flags 4: 15 before 14", made([[(0, 0), (1, 0)]]) + link, dict(output=0)


M = -0.0


def with_minus_zeros():
    """Drawings for one place each where a minus zero must be read as a plain one."""
    # In lines. The published planner keeps the two zeros apart, and gives 9 for most of these.
    for name, place, again in [
            ("(0, 0) and (-0, 0)", (0, 0), (M, 0)), ("(0, 0) and (0, -0)", (0, 0), (0, M)), ("(0, 0) and (-0, -0)", (0, 0), (M, M)),
            ("(-0, 0) and (0, -0)", (M, 0), (0, M)), ("(0, 3) and (-0, 3)", (0, 3), (M, 3)), ("(3, -0) and (3, 0)", (3, M), (3, 0))]:
        yield f"minus zero: lines that meet at {name}", d.drawing([[place, (1, 0)], [again, (0, 1)]])
        yield f"minus zero: one point twice, {name}", d.drawing([[place, again]])
    yield "minus zero: a line ends where the next one begins", d.drawing(
        [[(4, 2), (M, 2)], [(0, 2), (3, 5)], [(3, 5), (7, M)], [(7, 0), (9, 9)]])
    yield "minus zero: a dot at (-0, -0)", d.drawing([[(M, M)]])
    yield "minus zero: a dot on each axis", d.drawing([[(M, 3)], [(2, M)]], [(0, 0, (M, 3), 1, 0, (2, M))])
    yield "minus zero: dots at all four zeros are one", d.drawing([[(0, 0)], [(M, 0)], [(0, M)], [(M, M)]])
    yield "minus zero: a line closed in x", d.drawing([[(0, 1), (4, 0), (4, 4), (M, 1)]])
    yield "minus zero: a line closed in y", d.drawing([[(1, M), (4, 2), (4, 4), (1, 0)]])
    yield "minus zero: points that follow each other and differ in x", d.drawing([[(3, 4), (0, 4), (M, 4), (0, 2)]])
    yield "minus zero: points that follow each other and differ in y", d.drawing([[(4, 3), (4, M), (4, 0), (2, 0)]])
    yield "minus zero: a line that comes through (0, 0) under all four signs", d.drawing(
        [[(-2, 0), (0, 0), (2, 2), (M, 0), (0, -3), (0, M), (-5, 1), (M, M), (7, 1)]])
    cross = [[(-4, 0), (M, 0), (4, M)], [(M, -4), (0, M), (0, 4)]]
    for flags in range(4):
        yield f"minus zero: a cross, flags {flags}", d.drawing(cross, flags=flags)
        yield f"minus zero: a cross, Optimal, flags {flags}", d.drawing(cross, flags=flags, pairing=1)
    yield from minus_zero_links()
    yield from minus_zero_made()
    yield from minus_zero_refused()


def minus_zero_links():
    """At split points and beside them: at a segment's own ends the published planner takes these."""
    up, along = [[(0, -4), (0, 4)], [(3, 1)], [(-3, 2)]], [[(-4, 0), (4, 0)], [(1, 3)], [(2, -3)]]
    for axis, lines, plain, minus in (("x", up, (0, 1), (M, 1)), ("y", along, (1, 0), (1, M))):
        one, other = (1, 0, lines[1][0]), (2, 0, lines[2][0])
        for end, first, second in (("first", (0, 0, plain, *one), (0, 0, minus, *other)),
                                   ("second", (*one, 0, 0, plain), (*other, 0, 0, minus))):
            yield f"minus zero: {axis} of a link's {end} end, a split point that a link before has plain", d.drawing(lines, [first, second])
            yield f"minus zero: {axis} of a link's {end} end, a split point that a link behind has plain", d.drawing(lines, [second, first])
        yield f"minus zero: {axis} of a link's end, a corner of another line", d.drawing(
            lines[:1] + [[(9, 9), plain, (9, 8)]], [(0, 0, lines[0][0], 0, 0, minus)])
        yield f"minus zero: {axis} of a link's two ends, one point twice", d.drawing(lines[:1], [(0, 0, plain, 0, 0, minus)])
        yield f"minus zero: {axis} of a segment, split at a plain zero", d.drawing(
            [[tuple(v or M for v in p) for p in lines[0]], *lines[1:]], [(0, 0, plain, *one), (0, 0, plain, *other)])
    yield "minus zero: a link to a dot at (0, 0)", d.drawing([[(0, 0)], [(3, 4)]], [(0, 0, (M, M), 1, 0, (3, 4))])
    yield "minus zero: a link beside its dot, from a place to itself", d.drawing(
        [[(0, 0)]], [(0, 0, (0, 2), 0, 0, (M, 2)), (0, 0, (0, 0), 0, 0, (0, 2))])
    seg, end = [[(0, 0), (8, 0)]], (0, 0, (8, 0))
    for name, order in [("P, Q, -P at one distance stay", ((0, 5), (4, 3), (M, 5))),
                        ("P, -P, Q at one distance: -P goes", ((0, 5), (M, 5), (4, 3))), ("-P, P, -P: one stays", ((M, 5), (0, 5), (M, 5))),
                        ("the segment's end under the other sign goes", ((8, M), (3, 0), (3, M)))]:
        yield f"minus zero: splits, {name}", d.drawing(seg, [(0, 0, p, *end) for p in order])


def minus_zero_made():
    """With flag 4. Links are made at the ends, and lines meet elsewhere too."""
    made = lambda lines, **settings: d.drawing(lines, **dict(dict(flags=g.LINK), **settings))
    cross = [[(-4, 0), (0, 0), (4, 1)], [(0, -4), (M, M), (1, 4)]]
    for flags in range(4, 8):
        yield f"minus zero: flags {flags}, lines that meet where neither ends", made(cross, flags=flags)
    yield "minus zero: flags 4, Optimal, lines that meet where neither ends", made(cross, pairing=1)
    yield "minus zero: flags 4, a link of no length", made([[(0, 0), (4, 0)], [(M, 0), (0, 4)]])
    yield "minus zero: flags 4, two links of no length and one to a dot", made([[(0, 0)], [(M, 0)], [(3, M)], [(0, M)]])
    yield "minus zero: flags 4, two links of one length, by the higher line's end", made([[(0, 0)], [(5, M), (0, 5)]])
    yield "minus zero: flags 4, two links of one length, by the lower line's end", made([[(M, 5), (5, 0)], [(0, 0)]])
    yield "minus zero: flags 4, one line closed by a sign", made([[(0, 1), (4, 0), (4, 4), (M, 1)], [(6, M)]])


def minus_zero_refused():
    """Beside what is refused still."""
    beside, seg = g.of_bits(g.MINUS_ZERO + 1), [(M, 0), (1, 0)]
    end = (0, 0, (1, 0))
    yield "minus zero: x next to it: 7", d.drawing([[(beside, 1)]])
    yield "minus zero: y next to it, behind a minus zero: 7", d.drawing([[(M, M), (M, beside)]])
    yield "minus zero: x of a link's first end next to it: 7", d.drawing([seg], [(0, 0, (beside, M), *end)])
    yield "minus zero: y of a link's second end next to it: 7", d.drawing([seg], [(0, 0, (M, M), 0, 0, (1, beside))])
    yield "minus zero: half a step below: 7", d.drawing([[(M, 1), (-1 / 2048, 1)]])
    yield "minus zero: a step below is another place: 9", d.drawing([[(M, 1)], [(-1 / 1024, 1)]])
    yield "minus zero: a link at it names a missing line: 8", d.drawing([seg], [(1, 0, (M, 0), *end)])
    yield "minus zero: a link at it and flags 4: 15", d.drawing([seg], [(0, 0, (M, 0), *end)], flags=4)
    yield "minus zero: width 8,193: 5", d.drawing([seg], width=8193)
    yield "minus zero: two dots apart: 9", d.drawing([[(M, 0)], [(5, 5)]])
    yield "minus zero: a link from it to a place that nothing else has: 9", d.drawing([[(0, 0)], [(1, 1)]], [(0, 0, (0, 2), 0, 0, (M, 2))])
    rays = [[(M if k % 2 else 0, M if k % 3 else 0), ray[1]] for k, ray in enumerate(star(22))]
    yield "minus zero: 22 rays, Optimal", d.drawing(rays, pairing=1)
    yield "minus zero: 22 rays, Optimal, an f64 short: 11", d.drawing(rays, pairing=1), dict(f64=483, byte=0)
    yield "minus zero: four rays, Optimal, tables exact", d.drawing(rays[:4], pairing=1), dict(f64=32, byte=16)
    yield "minus zero: four rays, Optimal, an f64 short: 11", d.drawing(rays[:4], pairing=1), dict(f64=31, byte=16)
    for more, ends in ((0, ", output exact"), (-1, ", a byte short: 14")):
        yield f"minus zero: one point twice{ends}", d.drawing([[(0, 0), (M, M)]]), dict(output=22 + more)


def with_busy_nodes():
    """Drawings for the counts of the edges at a node, where they would be full, and for the marks of used edges."""
    turns = lambda times: [[(4, 4), (9, 9)][k % 2] for k in range(times + 1)]
    # The second end is the better start, so that it is seen if it is taken for a node without edges.
    for times in (255, 256, 257, 512):
        yield f"degree: a segment {times} times", d.drawing([turns(times)])
    # Where the two odd nodes are taken for even ones, the walk begins at the triangle.
    yield "degree: a segment 257 times, and a triangle at its end", d.drawing([turns(257) + [(12, 0), (0, 12), (9, 9)]])
    yield "degree: a segment 257 times in three lines, closing", d.drawing([turns(101), turns(100)[::-1], turns(56)], flags=1)
    # Each link gives its segment the chain .., hub, (4, 3), .., and joins the two once more: three edges more at the hub.
    hub, links = (3, 4), [(0, 0, (3, 4), 0, 0, (4, 3))] * 85
    for tail, count in (([], 255), ([hub], 256), ([hub, (7, 7)], 257)):
        yield f"degree: 85 links that split a segment twice, {count} edges at a node", d.drawing([[(0, 0), (9, 1), *tail]], links)
    # 128 rays, and as many copies: 256 edges at the node where the walk begins, or where it does not.
    tips = [(x, y) for x in range(16) for y in range(0, 16, 2)]
    rays = [[tip, (5, 5), other] for tip, other in zip(tips[::2], tips[1::2])]
    for flags in (1, 3):
        yield f"degree: 128 rays, 256 edges where they meet, flags {flags}", d.drawing(rays, flags=flags)
    yield "degree: 2,298 edges at a node, the most that we know of", g.busiest(1)
    spots = [(3, 1), (8, 2), (5, 9), (1, 6), (9, 7), (4, 4), (6, 12)]
    for count in (63, 64, 65, 127, 128, 129):
        for is_closed in (False, True):
            rng = random.Random(f"answers {count} edges")
            while True:
                walk = g.wander(rng, spots, count, is_closed)
                if (walk[0] == walk[-1]) == is_closed:
                    break
            lines = g.cut_up(rng, walk, rng.randint(1, 3))
            yield f"marks: {count} edges, {'closed' if is_closed else 'open'}", d.drawing(lines)
    yield from staying()


def staying():
    """Nothing goes from a place to itself."""
    square, place = [(1, 1), (9, 1), (9, 9), (1, 9), (1, 1)], (9, 1)
    for flags in (0, 1):
        yield f"staying: a line of one place at a corner of a square, flags {flags}", d.drawing([square, [place] * 3], flags=flags)
        yield f"staying: a point that follows itself, flags {flags}", d.drawing([[(0, 0), (4, 0), (4, 0), (4, 3)]], flags=flags)
    yield "staying: each point twice", d.drawing([[p for p in square for _ in range(2)]])
    yield "staying: a link from a corner to itself", d.drawing([square], [(0, 0, place, 0, 1, place)])
    yield "staying: three links from a node to itself, named by two lines", d.drawing(
        [square, [place, (5, 5)]], [(0, 0, place, 1, 0, place), (1, 0, place, 0, 1, place), (1, 0, place, 1, 0, place)])
    yield "staying: a link bends two segments over one place", d.drawing([square], [(0, 0, (5, 5), 0, 2, (5, 5))])
    yield "staying: a segment of one place is named, at its place", d.drawing(
        [[(0, 0), (4, 0), (4, 0), (4, 3)]], [(0, 1, (4, 0), 0, 0, (0, 0))])
    yield "staying: a segment of one place is split elsewhere and comes back", d.drawing(
        [[(0, 0), (4, 0), (4, 0), (4, 3)]], [(0, 1, (6, 0), 0, 1, (6, 0))])
    yield "staying: two dots on one node, flags 4", d.drawing([[(3, 3)], [(3, 3), (8, 8)], [(3, 3)] * 2], flags=g.LINK)


# Drawings of the generator that a rule which is nearly right would pair otherwise: kind and number with seed 1, the rule, and what is right.
# `oracle/pairings.py ORACLE 1 2000 --find RULE KIND` has found them.
TELLING = [
    ("many_odd_rounded", 292, "graph-on-a-tie", "one cost, other pairs: the Euclidean ones stay"),
    ("many_odd_stars", 153, "graph-on-a-tie", "one cost, other pairs, by arms of a few lengths"),
    ("many_odd_chains", 257, "only-graph", "the Euclidean pairs cost less"),
    ("many_odd_even", 332, "only-graph", "the Euclidean pairs cost less, one length everywhere"),
    ("many_odd_chains", 574, "only-euclidean", "the pairs by graph distance cost less"),
    ("many_odd_trees", 497, "only-euclidean", "the pairs by graph distance cost less, on a tree"),
    ("many_odd_even", 174, "only-euclidean", "the pairs by graph distance cost less, one length everywhere"),
    ("many_odd_lattices", 211, "only-euclidean", "the pairs by graph distance cost less, on a lattice"),
    ("many_odd_rounded", 775, "cost-from-the-last-pair", "costs are added from the first pair on, and the Euclidean one is the smaller"),
    ("many_odd_stars", 675, "cost-from-the-last-pair", "costs are added from the first pair on, and the other is the smaller"),
    ("many_odd_rounded", 782, "cost-from-the-second", "a pair costs the distance from its first node, Euclidean pairs"),
    ("many_odd_rounded", 130, "cost-from-the-second", "a pair costs the distance from its first node, pairs by graph distance"),
    ("many_odd_rounded", 419, "cost-from-the-lower", "a pair costs the distance from its first node, not from its lower one"),
    ("many_odd_rounded", 839, "cost-from-the-lower", "the same, Euclidean pairs"),
    ("many_odd_rounded", 1220, "cost-from-the-nearer", "a pair costs the distance from its first node, not the smaller one"),
    ("many_odd_stars", 287, "greedy-from-the-second", "the working list: the distance from the node that stands first"),
    ("many_odd_stars", 32, "greedy-from-the-lower", "the working list: from the node that stands first, not from the lower one"),
    ("many_odd_stars", 722, "greedy-from-the-lower", "the same, with 26 odd nodes"),
    ("many_odd_turned", 127, "greedy-from-the-nearer", "the working list: from the node that stands first, not the smaller one"),
    ("many_odd_chains", 850, "greedy-last-on-ties", "the working list: first on ties"),
    ("many_odd_chains", 692, "greedy-in-list-order", "the working list: the last one takes the place of one that goes"),
    ("many_odd_trees", 330, "greedy-in-list-order", "the same, on a tree"),
]


def telling(rows, begin):
    numbers = {}
    for kind, number, *_ in rows:
        numbers[kind] = max(number, numbers.get(kind, 0))
    made = {}
    for kind, last in numbers.items():
        rng = random.Random(f"{kind} 1")
        made[kind] = [g.KINDS[kind](rng)[0] for _ in range(last + 1)]
    for kind, number, _, what in rows:
        yield f"{begin}: {what}, {kind} {number}", made[kind][number]


def with_many_odd():
    """Drawings with Optimal about and above 20 odd nodes: the tables, the order of the checks, the two pairings and the choice."""
    many = lambda lines, **settings: d.drawing(lines, **dict(dict(pairing=1), **settings))
    rays = many(star(22))
    for name, lent in [("n^2 floats and no bytes", dict(f64=484, byte=0)), ("a float short: 11", dict(f64=483, byte=0)),
                       ("a float short and all bytes: 11", dict(f64=483, byte=2**20)), ("a float more, one byte", dict(f64=485, byte=1)),
                       ("no floats: 11", dict(f64=0, byte=0)), ("20^2 floats: 11", dict(f64=400, byte=0)),
                       ("half of n^2 floats: 11", dict(f64=242, byte=0)), ("n (n - 1) floats: 11", dict(f64=462, byte=0))]:
        yield f"many odd: 22 rays, {name}", rays, lent
    for name, lent in [("n^2 floats and no bytes: 11", dict(f64=400, byte=0)), ("n^2 floats and 2^n bytes: 11", dict(f64=400, byte=2**20)),
                       ("2^n + n^2 floats and no bytes: 11", dict(f64=2**20 + 400, byte=0))]:
        yield f"many odd: 20 rays, {name}", many(star(20)), lent
    # Rays by two in a line, which the program's own tables are enough for up to 64 odd nodes.
    tips = g.round_places()
    by_two = lambda count, **settings: g.write([[a, (0, 0), b] for a, b in zip(tips[:count:2], tips[1:count:2])], **dict(dict(pairing=1), **settings))
    yield "many odd: 64 arms of one length in plan's tables", by_two(64)
    yield "many odd: 66 arms of one length in plan's tables: 11", by_two(66)
    yield "many odd: 66 arms of one length, n^2 floats", by_two(66), dict(f64=66**2, byte=0)
    # In this order Greedy and the pairs by graph distance differ, and cost the same.
    for flags in range(4):
        yield f"many odd: 22 arms of one length, flags {flags}", by_two(22, flags=flags)
    yield "many odd: 22 arms of one length, Greedy", by_two(22, pairing=0)
    for flags in range(1, 4):
        yield f"many odd: 22 rays, flags {flags}", many(star(22), flags=flags)
    # Tips of two hubs beside each other.
    pairs = [[(0, 0), (40, 0)]] + [line for k in range(11) for line in ([(0, 0), (3 * k, 20)], [(40, 0), (3 * k + 1, 20)])]
    for flags in range(4):
        yield f"many odd: two hubs, near by eye and far along the lines, flags {flags}", many(pairs, flags=flags)
    yield "many odd: two hubs, Greedy", d.drawing(pairs)
    spine = [[(2 * k, 0) for k in range(13)]]
    yield "many odd: a spine with legs as long as its gaps", many(spine + [[(2 * k, 0), (2 * k, 2)] for k in range(1, 12)])
    yield "many odd: a spine with longer legs, closing", many(spine + [[(2 * k, 0), (2 * k, 3)] for k in range(1, 12)], flags=1)
    yield "many odd: a spine with legs on both sides", many(spine + [[(2 * k, -3), (2 * k, 0), (2 * k, 3)] for k in range(1, 12)])
    lattice = [[(x, y) for x in range(8)] for y in range(8)] + [[(x, y) for y in range(8)] for x in range(8)]
    yield "many odd: a lattice of 8 by 8", many(lattice)
    yield "many odd: a lattice of 8 by 8, closing, Inside", many(lattice, flags=3)
    for flags in (4, 7):
        yield f"many odd: 26 dots in two uneven rows, flags {flags}", many([[(5 * x + y * x % 3, 4 * y)] for y in range(2) for x in range(13)], flags=flags)
    yield from telling(TELLING, "many odd")
    yield "order: apart, 22 odd nodes and no tables: 9 before 11", many(star(22) + [[(50, 50)]]), dict(f64=0, byte=0)
    yield "order: apart, 22 odd nodes, a float short and no output: 9 before 11 and 14", many(star(22) + [[(50, 50)]]), dict(f64=483, byte=0, output=0)
    yield "order: 22 odd nodes, a float short and no output: 11 before 14", rays, dict(f64=483, byte=0, output=0)
    yield "order: 22 odd nodes, no output: 14", rays, dict(f64=484, byte=0, output=0)
    # 359 segments between two hubs, 11 arms at each, ten retraces.
    past = g.bridge(359, 11, 10, 0)
    yield "order: 22 odd nodes, 4,001 edges and a float short: 11 before 13", past, dict(f64=483, byte=0)
    yield "order: 22 odd nodes, 4,001 edges: 13", past, dict(f64=484, byte=0)
    yield "order: 22 odd nodes, 4,001 edges and no output: 13 before 14", past, dict(f64=484, byte=0, output=0)
    yield "many odd: 22 odd nodes, exactly 4,000 edges", g.bridge(359, 11, 9, 0), dict(f64=484, byte=0)


# Drawings for which another choice would cost less by a rule that is nearly change request 6's, as in TELLING. `oracle/cheapest.py ORACLE 1 250 --find RULE KIND` has found them.
TELLING_FEW = [
    ("few_odd_rounded", 187, "rising", "pairs are added in falling order of their lower nodes, on a star"),
    ("few_odd_turned", 11, "rising", "pairs are added in falling order, one cheapest choice"),
    ("few_odd_rounded", 78, "rising", "pairs are added in falling order, 10 odd nodes"),
    ("few_odd_hubs", 241, "rising", "pairs are added in falling order, on several hubs"),
    ("few_odd_turned", 76, "from-the-higher", "the distance from the lower node, 4 odd nodes"),
    ("few_odd_turned", 64, "from-the-higher", "the distance from the lower node, 6 odd nodes"),
    ("few_odd_rounded", 130, "from-the-higher", "the distance from the lower node, 8 odd nodes"),
    ("few_odd_rounded", 246, "the-smaller-of-both", "the distance from the lower node, not the smaller one, 8 odd nodes"),
    ("few_odd_turned", 202, "the-smaller-of-both", "the distance from the lower node, not the smaller one, 6 odd nodes"),
    ("few_odd_rounded", 231, "the-smaller-of-both", "the distance from the lower node, not the smaller one, 10 odd nodes"),
    ("few_odd_rounded", 92, "exact", "each sum is rounded, 6 odd nodes"),
    ("few_odd_hubs", 55, "exact", "each sum is rounded, 8 odd nodes"),
    ("few_odd_trees", 196, "exact", "each sum is rounded, 10 odd nodes"),
    ("few_odd_hubs", 137, "shortest-first", "in falling order, not from the shortest pair on"),
    ("few_odd_trees", 97, "shortest-first", "in falling order, not from the shortest pair on, on a tree"),
    ("few_odd_hubs", 125, "longest-first", "in falling order, not from the longest pair on"),
    ("few_odd_turned", 168, "longest-first", "in falling order, not from the longest pair on, arms of one length"),
]


# The smallest drawings that we know of for which another choice would cost less by a rule that is nearly change request 6's: lines and links in whole pixels, and flag 4
# or none; and four lines through one hub.
SMALLEST = [
    ("added in rising order, 184 bytes", [[(0, 0), (0, 1)], [(0, 2), (1, 0)]], [(1, 0, (2, 0), 0, 0, (2, 1)), (1, 0, (1, 1), 0, 0, (1, 2))], 0),
    ("added in rising order, 174 bytes", [[(0, 0)], [(0, 3)], [(1, 1), (2, 2)], [(1, 0), (2, 0)], [(1, 2), (3, 0)]], [], g.LINK),
    ("added in rising order, lines through a hub", [[(1, 0), (2, 1), (3, 2)], [(1, 2), (2, 1), (3, 0)], [(2, 2), (2, 1), (2, 0)], [(0, 1), (2, 1), (4, 1)]], [], 0),
    ("added exactly, 138 bytes", [[(0, 0), (0, 1)], [(1, 0), (1, 1)]], [(1, 0, (2, 0), 0, 0, (3, 0))], 0),
    ("added exactly, 136 bytes", [[(0, 0)], [(3, 3)], [(0, 2), (2, 0)], [(0, 1), (1, 0)]], [], g.LINK),
    ("from the higher node, 130 bytes", [[(1, 1), (2, 2), (3, 3), (0, 0)], [(0, 8)], [(8, 0)]], [], g.LINK),
    ("from the higher node, 132 bytes", [[(1, 3), (2, 2), (3, 3), (1, 1)]], [(0, 2, (0, 0), 0, 2, (6, 6))], 0),
    ("from the higher node, 140 bytes", [[(0, 0), (1, 1), (0, 2), (2, 0)], [(0, 1), (0, 2), (3, 0)]], [], 0),
]


def with_few_odd():
    """Drawings with Optimal and 4 to 20 odd nodes: the tables, the choice of pairs and what it costs, and the order of the checks."""
    few = lambda lines, links=(), **settings: d.drawing(lines, links, **dict(dict(pairing=1), **settings))
    for name, lines, links, flags in SMALLEST:
        for more in (0, 1):
            yield f"few odd: another choice would cost less {name}{', closing' * more}", few(lines, links, flags=flags + more)
    yield from telling(TELLING_FEW, "few odd")
    for n in (4, 6, 8, 10, 12, 14, 16, 18):
        yield f"few odd: {n} rays, tables exact", few(star(n)), g.tables_for(n)
        if n not in (14, 18):
            exact = g.tables_for(n)
            yield f"few odd: {n} rays, a float short: 11", few(star(n)), dict(exact, f64=exact["f64"] - 1)
            yield f"few odd: {n} rays, a byte short: 11", few(star(n)), dict(exact, byte=exact["byte"] - 1)
    yield "few odd: 8 rays, 2^n + n (n - 1) floats: 11", few(star(8)), dict(f64=256 + 56, byte=256)
    yield "few odd: 8 rays, 2^n floats: 11", few(star(8)), dict(f64=256, byte=256)
    yield "few odd: 8 rays, half of the bytes: 11", few(star(8)), dict(f64=320, byte=128)
    # Which two are left out: the first, the last, two that follow each other or not, by how long their rays are.
    rays = lambda lengths, **settings: few([[(0, 0), (x * k, y * k)] for (x, y), k in zip(
        [(1, 0), (0, 1), (-1, 0), (0, -1), (2, 1), (-1, 2), (-2, -1), (1, -2), (1, 2), (-2, 1)], lengths)], **settings)
    for name, lengths in [("the first two", (9, 9, 1, 2, 1, 2)), ("the last two", (2, 1, 2, 3, 7, 7)), ("the first and the last", (9, 1, 2, 2, 1, 7)),
                          ("two in the middle", (1, 2, 9, 9, 1, 1)), ("two apart in the middle", (1, 9, 2, 9, 1, 1)),
                          ("none of the first and the last two", (1, 2, 3, 9, 8, 1, 1, 1))]:
        yield f"few odd: the longest rays are left out, {name}", rays(lengths)
    # A row of places joined by one segment and by two, by turns: each with the one before it or behind it, near and far.
    for name, gaps in [("near ones first", (1, 5, 1, 5, 1)), ("far ones first", (5, 1, 5, 1, 5)), ("all alike", (1, 1, 1, 1, 1, 1, 1)), ("falling", (7, 6, 5, 4, 3, 2, 1)),
                       ("rising", (1, 2, 3, 4, 5, 6, 7)), ("a far one in the middle", (1, 1, 1, 9, 1, 1, 1)), ("ten of them", (3, 1, 4, 1, 5, 9, 2, 6, 5))]:
        at = [sum(gaps[:k]) for k in range(len(gaps) + 1)]
        doubled = [(at[k], at[k + 1]) for k in range(1, len(gaps), 2)]
        yield f"few odd: a row of places, {name}", few([[(x, 0) for x in at], *([(a, 0), (b, 0)] for a, b in doubled)])
    # Ties everywhere, and pairs that are near by eye and far along the lines.
    ladder = [[(x, 0) for x in range(4)], [(x, 1) for x in range(4)], *([(x, 0), (x, 1)] for x in range(4))]
    hubs = [[(0, 0), (40, 0)]] + [line for k in range(3) for line in ([(0, 0), (3 * k, 20)], [(40, 0), (3 * k + 1, 20)])]
    lattice = [[(x, y) for x in range(3)] for y in range(3)] + [[(x, y) for y in range(3)] for x in range(3)]
    for flags in range(4):
        yield f"few odd: a ladder of one length, flags {flags}", few(ladder, flags=flags)
        yield f"few odd: two hubs, near by eye and far along the lines, flags {flags}", few(hubs, flags=flags)
    yield "few odd: a lattice of 3 by 3", few(lattice)
    yield "few odd: a lattice of 3 by 3 with a thread at each corner", few(lattice + [[(x, y), (x + dx, y + dx)] for x, y, dx in ((0, 0, -1), (2, 2, 1))]
                                                                         + [[(0, 2), (-1, 3)], [(2, 0), (3, -1)]])
    teeth = [[(3 * k, 0), (3 * k, 4)] for k in range(3)]
    yield "few odd: a comb with links in its teeth", few(teeth, [(0, 0, (0, 1), 1, 0, (3, 1)), (1, 0, (3, 3), 2, 0, (6, 3))])
    yield "few odd: dots and a segment, flags 4", few([[(0, 0)], [(4, 1), (9, 5)], [(3, 3)], [(7, 0)], [(8, 8)], [(1, 6)]], flags=4)
    # Costs of more than 8,192 and of more than 65,536 pixels: from one corner of the grid to the other.
    for n in (4, 16):
        yield f"few odd: {n} rays from corner to corner", few([[(-4096, -4096), (4096 - 7 * (k % 5), 4096 - 3 * k)] for k in range(n)]), g.tables_for(n)
    # The row of two_ways has 1,003 segments and is split by 122 times two links: 4,000 edges where it is closed, and one more.
    yield "few odd: 4 odd nodes, exactly 4,000 edges", g.two_ways(1003, 122, 5, 1)
    past = g.two_ways(1003, 122, 6, 1)
    yield "order: 4 odd nodes, 4,001 edges: 13", past, g.tables_for(4)
    yield "order: 4 odd nodes, 4,001 edges and a float short: 11 before 13", past, dict(f64=31, byte=16)
    yield "order: 6 odd nodes, apart and a byte short: 9 before 11", few(star(6) + [[(50, 50)]]), dict(f64=100, byte=63)


# Cases of number 15 that tell no more than another one of the list, or that are long.
SPARED_OWN = ["no link, flags [0-35-8]", "a link, flags [1-3]", ".* and (256|257) lines", ".* 1,02[45] points", "255 links, flags 0",
              "255 links, the last", "256 links, .*flags 0", "no link and (height|flags)", "two links and height",
              "a link (off|naming) .*good one, flags 0"]


def from_own_links():
    for name, file in g.own_link_cases():
        if not re.match("|".join(SPARED_OWN), name):
            yield "own links: " + name, file, {}


def generated():
    """Small drawings of the generator's kinds."""
    wanted = dict(tiny=5, walks=2, lattice=1, lace=2, comb=1, cube=3, near=3, overlap=2, zero=2, links=4, dots=2, empty=1,
                  pieces=2, optimal=2, damaged=2, made_touching=4, made_dots=3, made_closed=3, made_empty=3, made_lattice=6,
                  made_few=3, made_crossing=3, own_links=3, minus_zero_lines=2, minus_zero_links=3, minus_zero_beside=2, minus_zero_splits=3,
                  minus_zero_dots=2, minus_zero_closed=2, minus_zero_made=3, minus_zero_refused=3, minus_zero_older=3,
                  staying=4, staying_made=3, many_edges=3)
    for kind, count in wanted.items():
        rng = random.Random(f"answers {kind}")
        number = 0
        while number < count:
            file, lent = g.KINDS[kind](rng)
            if 60 <= len(file) <= 800:
                number += 1
                yield f"{kind} {number}", file, lent


def main():
    makers = from_samples, from_limits, by_hand, generated, with_flag_4, from_own_links, with_minus_zeros, with_busy_nodes, with_many_odd, with_few_odd
    cases = [(name, file, *(lent or [{}])) for make in makers for name, file, *lent in make()]
    lent = [dict(dict(f64=d.PLAN_F64, byte=d.PLAN_BYTES, output=d.PLAN_OUTPUT), **lent) for _, _, lent in cases]
    batch = b"".join(d.batched(file, **sizes) for (_, file, _), sizes in zip(cases, lent))
    printed = subprocess.run([sys.argv[1], "--batch"], input=batch, capture_output=True, check=True).stdout.decode()
    answers = printed.split("--\n")
    assert answers.pop() == "" and len(answers) == len(cases)
    for (name, file, _), sizes, answer in zip(cases, lent, answers):
        print(written(Case(name, tuple(sizes.values()), file, answer.splitlines())), end="")


main()
