#!/usr/bin/env python3
"""Makes drawings for comparing planners, by kinds, the same ones for the same seed.

usage: oracle/generate.py KIND SEED COUNT     writes COUNT drawings in batch form to standard output
       oracle/generate.py --list              names the kinds

Points are pairs of whole grid steps (1/1024) here and become pixels when they are written.
"""
import math
import random
import struct
import sys

import drawing as d

STEP = 1024           # grid steps in a pixel
EDGE = 4096 * STEP    # the largest coordinate
FULL = dict(f64=2**20 + 20**2, byte=2**20)  # tables for 20 odd nodes
LINK = 4              # the flag that asks for links


def pixels(point):
    return (point[0] / STEP, point[1] / STEP)


def write(lines, links=(), **settings):
    """A file; a link is (line, segment, point, line, segment, point)."""
    return d.drawing([[pixels(p) for p in line] for line in lines],
                     [(la, sa, pixels(a), lb, sb, pixels(b)) for la, sa, a, lb, sb, b in links], **settings)


def any_settings(rng, largest=None):
    """Any settings of document 01. A small largest canvas puts the centre among the points, so that starts tie."""
    side = lambda: rng.choice([0, 1, 10, 8191, 8192, rng.randrange(8193)]) if largest is None else rng.randint(0, largest)
    return dict(width=side(), height=side(), pairing=rng.randrange(2), flags=rng.randrange(4))


def linking(rng, largest=None, optimal=0.5):
    """Any settings with the flag that asks for links."""
    settings = any_settings(rng, largest)
    settings["flags"] |= LINK
    settings["pairing"] = int(rng.random() < optimal)
    return settings


def clamp(v):
    return max(-EDGE, min(EDGE, v))


def spot(rng, reach=EDGE):
    return (rng.randint(-reach, reach), rng.randint(-reach, reach))


def segments_of(line):
    """The segment numbers that a link may name."""
    return range(max(1, len(line) - 1))


def place_on(rng, line, segment, ways=("start", "end", "middle", "third", "beside", "far")):
    """A point for a link that names this segment: at an end, on it, beside it or somewhere else."""
    (ax, ay), (bx, by) = line[segment], line[min(segment + 1, len(line) - 1)]
    way = rng.choice(ways)
    if way == "start":
        return (ax, ay)
    if way == "end":
        return (bx, by)
    if way == "middle":
        return ((ax + bx) // 2, (ay + by) // 2)
    if way == "third":
        k = rng.randint(1, 6)
        return (ax + (bx - ax) * k // 7, ay + (by - ay) * k // 7)
    if way == "beside":
        return (clamp((ax + bx) // 2 + rng.randint(-3, 3)), clamp((ay + by) // 2 + rng.randint(-3, 3)))
    return (clamp(ax + rng.randint(-5000, 5000)), clamp(ay + rng.randint(-5000, 5000)))


def tree_links(rng, lines, near=False, ways=("middle", "third")):
    """Links that join all lines with points: each one to an earlier one, or to the one before it."""
    links, earlier = [], []
    for number, line in enumerate(lines):
        if not line:
            continue
        if earlier:
            other = earlier[-1] if near else rng.choice(earlier)
            sa, sb = rng.choice(segments_of(lines[other])), rng.choice(segments_of(line))
            a = place_on(rng, lines[other], sa, ways if len(lines[other]) > 1 else ("start",))
            b = place_on(rng, line, sb, ways if len(line) > 1 else ("start",))
            ends = [(other, sa, a), (number, sb, b)]
            rng.shuffle(ends)
            links.append(ends[0] + ends[1])
        earlier.append(number)
    return links


def trails(rng, edges, most_lines=256):
    """Lines that draw each edge once, cut up at random; None if they would pass a limit."""
    at = {}
    for number, (a, b) in enumerate(edges):
        at.setdefault(a, []).append(number)
        at.setdefault(b, []).append(number)
    for numbers in at.values():
        rng.shuffle(numbers)
    used, lines = set(), []
    stop = rng.choice([0.0, 0.05, 0.3, 1.0])
    order = list(range(len(edges)))
    rng.shuffle(order)
    for first in order:
        if first in used:
            continue
        used.add(first)
        line = list(edges[first]) if rng.random() < 0.5 else list(edges[first])[::-1]
        while rng.random() >= stop:
            further = [n for n in at[line[-1]] if n not in used]
            if not further:
                break
            used.add(further[0])
            a, b = edges[further[0]]
            line.append(b if a == line[-1] else a)
        lines.append(line)
    return lines if len(lines) <= most_lines and sum(map(len, lines)) <= 1024 else None


def spread(rng, count, low, high):
    """Rising whole numbers, evenly spaced or not."""
    if rng.random() < 0.4:
        gap = rng.choice([1, 3, 1024, 2048, (high - low) // (count + 1)])
        return [low + gap * i for i in range(count)]
    return sorted(rng.sample(range(low, high), count))


# ---- The kinds. Each gives (file, what is lent). ----

def tiny(rng):
    """Up to four lines and three links on a 3 by 3 grid."""
    cells = [(x * STEP, y * STEP) for x in range(3) for y in range(3)]
    lines = [[rng.choice(cells) for _ in range(rng.randint(0, 5))] for _ in range(rng.randint(1, 4))]
    full = [n for n, line in enumerate(lines) if line]
    links = []
    for _ in range(rng.randint(0, 3) if full else 0):
        la, lb = rng.choice(full), rng.choice(full)
        links.append((la, rng.choice(segments_of(lines[la])), rng.choice(cells),
                      lb, rng.choice(segments_of(lines[lb])), rng.choice(cells)))
    return write(lines, links, **any_settings(rng, 4)), {}


def walks(rng):
    """Random walks over an uneven small grid, each starting where an earlier one was."""
    k = rng.randint(2, 8)
    xs, ys = spread(rng, k, 0, 20 * STEP), spread(rng, k, 0, 20 * STEP)
    seen, lines = [(rng.randrange(k), rng.randrange(k))], []
    for _ in range(rng.randint(1, 8)):
        at = rng.choice(seen)
        line = [at]
        for _ in range(rng.randint(0, 30)):
            at = (min(k - 1, max(0, at[0] + rng.randint(-1, 1))), min(k - 1, max(0, at[1] + rng.randint(-1, 1))))
            line.append(at)
        seen += line
        lines.append([(xs[i], ys[j]) for i, j in line])
    return write(lines, **any_settings(rng, rng.choice([20, None]))), FULL


def lattice(rng):
    """Rows and columns that cross in shared points, some crossings left out: many odd nodes and ties."""
    r, c = rng.randint(2, 16), rng.randint(2, 16)
    xs, ys = spread(rng, c, 0, 40 * STEP), spread(rng, r, 0, 40 * STEP)
    drop = rng.choice([0, 0, 0.05, 0.2])
    kept = lambda points: [p for n, p in enumerate(points) if n in (0, len(points) - 1) or rng.random() >= drop]
    lines = [kept([(x, y) for x in xs]) for y in ys] + [kept([(x, y) for y in ys]) for x in xs]
    rng.shuffle(lines)
    settings = any_settings(rng, rng.choice([40, None]))
    settings["pairing"] = rng.random() < 0.1
    return write(lines, **settings), FULL


def bricks(rows, columns, xs, ys, shift=lambda: 0):
    """Rows of a wall and every second upright between them: nearly every knot joins three threads."""
    knot = {(x, y): (xs[x] + shift(), ys[y] + shift()) for x in range(columns) for y in range(rows)}
    return ([[knot[x, y] for x in range(columns)] for y in range(rows)] +
            [[knot[x, y], knot[x, y + 1]] for y in range(rows - 1) for x in range(y % 2, columns, 2)])


def wall(rng, most_rows=20, most_columns=40):
    """A wall of bricks, even or uneven."""
    while True:
        rows, columns = rng.randint(2, most_rows), rng.randint(2, most_columns)
        uneven = rng.choice([0, 200, 500])
        gap = rng.choice([1500, 2 * STEP, STEP])
        lines = bricks(rows, columns, [gap * x for x in range(columns)], [gap * y for y in range(rows)],
                       lambda: rng.randint(-uneven, uneven))
        if len(lines) <= 256 and sum(map(len, lines)) <= 1024:
            rng.shuffle(lines)
            return lines


def honeycomb(rng):
    """A wall of bricks, even or uneven: as many odd nodes as knots, up to about 400."""
    lines = wall(rng)
    settings = any_settings(rng, rng.choice([40, None]))
    settings["pairing"] = rng.random() < 0.1
    return write(lines, **settings), FULL


def net(rng, most, least=4):
    """A random net: each knot tied to near ones, drawn in trails."""
    while True:
        n = rng.randint(least, most)
        reach = rng.choice([30, 3000, 40 * STEP, EDGE])
        knots = list({spot(rng, reach) for _ in range(n)})
        edges = []
        for i in range(1, len(knots)):
            near = sorted(range(i), key=lambda j: math.dist(knots[i], knots[j]))[:3]
            edges += [(knots[i], knots[j]) for j in rng.sample(near, rng.randint(1, len(near)))]
        lines = edges and trails(rng, edges)
        if lines:
            return lines


def lace(rng, most=260):
    """A random net: each knot tied to near ones, drawn in trails."""
    lines = net(rng, most)
    settings = any_settings(rng)
    settings["pairing"] = rng.random() < 0.1
    return write(lines, **settings), FULL


def toothed(rng, m=None, tight=None):
    """Teeth side by side, each linked to the one before or a near one."""
    m = m or rng.choice([2, 5, 20, 60, 60, 120, 120, 256])
    # Links close to the teeth's ends make pairs that are near along the lines too, so repair stays small.
    tight = rng.random() < 0.5 if tight is None else tight
    width, gap = rng.choice([400, 40 * STEP, EDGE]), rng.choice([1, 7, STEP, 2 * EDGE // 256])
    if tight:
        width, gap = 400, rng.choice([900, 2 * EDGE // 256])
    lines = [[(0, clamp(i * gap - EDGE)), (rng.choice([width, width - rng.randrange(300)]), clamp(i * gap - EDGE))]
             for i in range(m)]

    def place(k, side):
        right = lines[k][1][0]
        x = (rng.randint(1, right // 4), right - rng.randint(1, right // 4))[side] if tight else rng.randint(1, right - 1)
        return (x, lines[k][0][1])
    links = [(j, 0, place(j, 0), i, 0, place(i, 1))
             for i in range(1, m) for j in [max(0, i - (1 if tight else rng.choice([1, 1, 1, 2, 5])))]]
    return lines, links


def comb(rng, m=None, tight=None):
    """Teeth side by side, each linked to the one before or a near one: up to 1,022 odd nodes."""
    lines, links = toothed(rng, m, tight)
    settings = any_settings(rng)
    settings["pairing"] = rng.random() < 0.1
    return write(lines, links, **settings), FULL


def cube(rng):
    """Corners of a cube of 2 to 5 dimensions laid flat: ways of one length whose sums round apart."""
    k = rng.choice([2, 3, 3, 3, 4, 5])
    while True:
        sides = [spot(rng, rng.choice([9, 2000, 700 * STEP])) for _ in range(k)]
        corner = lambda mask: tuple(sum(s[axis] for i, s in enumerate(sides) if mask >> i & 1) for axis in (0, 1))
        if len({corner(mask) for mask in range(2**k)}) == 2**k:
            break
    edges = [(corner(mask), corner(mask | 1 << i)) for mask in range(2**k) for i in range(k) if not mask >> i & 1]
    edges = [edge for edge in edges if rng.random() >= rng.choice([0, 0, 0.1])]
    lines = trails(rng, edges) if edges else [[(0, 0)]]
    return write(lines, **any_settings(rng)), FULL


def near(rng):
    """Three or five ways from A to C, some of which differ by about 1e-10, one of them to be retraced."""
    span = rng.randint(100 * STEP, EDGE)
    whole = span * (1 + rng.random() / 2)
    found = []
    for x in rng.sample(range(1, span), 6000):
        # The y that brings the way over (x, y) next to the wanted length: both lie on one ellipse about A and C.
        first = (whole + (2 * span * x - span * span) / whole) / 2
        y = int(math.sqrt(max(0, first * first - x * x)))
        found.append((math.hypot(x, y) + math.hypot(span - x, y), (x, y)))
    found.sort()
    gap = lambda i: found[i + 1][0] - found[i][0]
    # Mirrored ways have gap 0 and tell nothing.
    closest = sorted((i for i in range(len(found) - 1) if gap(i) > 1e-9), key=gap)
    i = rng.choice(closest[:5])
    # One more way or three more to make it odd: longer ones, near ones, or anything.
    others = [found[i + 2:i + 5] or found[:3], found[-3:], found][rng.randrange(3)]
    middles = [found[i][1], found[i + 1][1]] + [rng.choice(others)[1] for _ in range(rng.choice([1, 1, 3]))]
    lines = []
    for x, y in rng.sample(middles, len(middles)):
        line = [(0, 0), (x, rng.choice([y, y, -y])), (span, 0)]
        lines.append(line if rng.random() < 0.5 else line[::-1])
    settings = any_settings(rng)
    settings["flags"] |= 1
    return write(lines, **settings), FULL


def overlap(rng):
    """Segments that lie on one another: lines back and forth over a few points of one straight line."""
    slope = rng.choice([(1, 0), (3, 4), (0, 1), (-5, 2)])
    scale = rng.choice([1, 100, STEP])
    lines = [[(slope[0] * k * scale, slope[1] * k * scale) for k in (rng.randint(0, 6) for _ in range(rng.randint(1, 7)))]
             for _ in range(rng.randint(1, 5))]
    links = tree_links(rng, lines, ways=("start", "end", "middle", "third")) if rng.random() < 0.6 else []
    return write(lines, links, **any_settings(rng, rng.choice([6, None]))), FULL


def zero(rng):
    """Zero-length segments, named by links whose points lie on them or off them."""
    lines = []
    for _ in range(rng.randint(1, 4)):
        line = []
        for _ in range(rng.randint(1, 4)):
            line += [(rng.randint(0, 3) * STEP, rng.randint(0, 3) * STEP)] * rng.randint(1, 3)
        lines.append(line)
    links = tree_links(rng, lines, ways=("start", "middle", "beside", "far"))
    for _ in range(rng.randint(0, 3)):
        la, lb = rng.randrange(len(lines)), rng.randrange(len(lines))
        sa, sb = rng.choice(segments_of(lines[la])), rng.choice(segments_of(lines[lb]))
        links.append((la, sa, place_on(rng, lines[la], sa), lb, sb, place_on(rng, lines[lb], sb)))
    return write(lines, links, **any_settings(rng, 4)), FULL


def links(rng):
    """Links with one point twice, alike, at ends, off their segment, and several at one distance (P, Q, P)."""
    lines = [[(rng.randint(-9, 9) * 256, rng.randint(-9, 9) * 256) for _ in range(rng.randint(2, 5))]
             for _ in range(rng.randint(1, 4))]
    out = tree_links(rng, lines, ways=("start", "end", "middle", "beside", "far"))
    for _ in range(rng.randint(0, 8)):
        la, lb = rng.randrange(len(lines)), rng.randrange(len(lines))
        sa, sb = rng.choice(segments_of(lines[la])), rng.choice(segments_of(lines[lb]))
        a, b = place_on(rng, lines[la], sa), place_on(rng, lines[lb], sb)
        way = rng.randrange(5)
        if way == 0:
            b = a                                        # one point twice
        elif way == 1 and out:
            out.append(rng.choice(out))                  # alike
            continue
        elif way == 2 and out:
            l = rng.choice(out)
            out.append(l[3:] + l[:3])                    # alike, turned round
            continue
        elif way == 3:
            # Points at one distance from the segment's start, in the order P, Q, P or with an end between.
            (sx, sy), (ex, ey) = lines[la][sa], lines[la][sa + 1]
            dx, dy = rng.choice([(ex - sx, ey - sy), (3 * 256, 4 * 256), (256, 0)])
            round_it = [(sx + dx, sy + dy), (sx - dy, sy + dx), (sx + dy, sy + dx), (sx - dx, sy - dy)]
            order = rng.choice([(0, 1, 0), (1, 0, 1), (1, 2, 1, 2), (0, 0, 1), (3, 1, 3), (1, 1)])
            out += [(la, sa, round_it[k], lb, sb, b) for k in order]
            continue
        out.append((la, sa, a, lb, sb, b))
    rng.shuffle(out)
    return write(lines, out, **any_settings(rng, rng.choice([4, None]))), FULL


def dots(rng):
    """Dots among short lines, linked to their own place or beside it, some not linked."""
    lines = [[(rng.randint(0, 6) * 512, rng.randint(0, 6) * 512) for _ in range(rng.choice([1, 1, 1, 2, 3]))]
             for _ in range(rng.randint(1, 12))]
    out = tree_links(rng, lines, ways=("start", "middle"))
    if out and rng.random() < 0.2:
        out.pop(rng.randrange(len(out)))
    if rng.random() < 0.2:
        n = rng.randrange(len(lines))
        p = place_on(rng, lines[n], 0, ("start", "beside", "far"))
        m = rng.randrange(len(lines))
        out.append((n, 0, p, m, 0, rng.choice([p, lines[m][0]])))
    return write(lines, out, **any_settings(rng, rng.choice([3, None]))), FULL


def empty(rng):
    """Empty lines between the others, which links must count but not name."""
    lines = [[] if rng.random() < 0.5 else [spot(rng, 3000) for _ in range(rng.randint(1, 4))] for _ in range(rng.randint(1, 14))]
    out = tree_links(rng, lines)
    if out and rng.random() < 0.15:
        l = rng.choice(out)
        out.append((rng.randrange(len(lines)), 0) + l[2:])
    return write(lines, out, **any_settings(rng)), FULL


def pieces(rng):
    """Drawings that fall apart, or hold together by a single point."""
    lines, shift = [], 0
    for _ in range(rng.randint(2, 5)):
        lines += [[(x + shift, y) for x, y in [(rng.randint(0, 2) * STEP, rng.randint(0, 2) * STEP) for _ in range(rng.randint(1, 4))]]
                  for _ in range(rng.randint(1, 3))]
        shift += rng.choice([0, 2, 2, 3]) * STEP
    out = tree_links(rng, lines, ways=("start", "end", "middle"))
    keep = rng.choice([0, 0.5, 0.9, 1])
    return write(lines, [l for l in out if rng.random() < keep], **any_settings(rng)), FULL


def bits(x):
    return struct.unpack("<Q", struct.pack("<d", x))[0]


def of_bits(b):
    return struct.unpack("<d", struct.pack("<Q", b))[0]


# Coordinates at and past the edges of check 7, in pixels.
COORDINATES = [4096.0, -4096.0, 4096 + 1 / 1024, -4096 - 1 / 1024, 8192.0, 1 / 1024, -1 / 1024, 1 / 2048, 1 / 1024 + 2**-62,
               0.0, -0.0, math.nan, -math.nan, math.inf, -math.inf, 5e-324, -5e-324, 2.0**-1022, 1e300,
               of_bits(bits(4096.0) + 1), of_bits(bits(4096.0) - 1), of_bits(bits(1.0) + 1), of_bits(bits(3.5) - 1),
               of_bits(0x7ff0000000000001), of_bits(0xfff8000000000000), 4095 + 1023 / 1024]


def limit_cases():
    """Named files at and just past each limit of document 01's checks 1 to 8."""
    s, seg = d.settings(), [(0, 0), (1, 0)]
    good = d.drawing([[(0, 0), (3, 4)], [(1, 1)]], [(0, 0, (0, 0), 1, 0, (1, 1))])
    eight = s + d.line([(1, 1)] * 4092) + d.line([]) * 7
    yield "65,536 bytes, too many points", eight
    yield "65,537 bytes", eight + b"\0"
    yield "65,537 bytes of nothing", bytes(65537)
    yield "65,536 bytes of nothing: records of length 0 and kind 0, then four bytes", bytes(65536)
    yield "65,532 bytes of nothing: whole records of kind 0", bytes(65532)
    for k in range(1, 7):
        yield f"{k} bytes of a head", s[:k]
        yield f"settings and {k} bytes of a head", s + d.line([])[:k]
    yield "settings short of one byte", s[:-1]
    yield "last record short of one byte", good[:-1]
    yield "last record and one byte more", good + b"\0"
    yield "body of 2^32-1 bytes", struct.pack("<IH", 2**32 - 1, 1) + bytes(20)
    yield "body of 2^32-6 bytes", struct.pack("<IH", 2**32 - 6, 1) + bytes(20)
    yield "second body of 2^32-1 bytes", s + struct.pack("<IH", 2**32 - 1, 2) + bytes(20)
    yield "a body one byte past the end, kinds wrong too", struct.pack("<IH", 7, 9) + bytes(6)
    for kind in (0, 4, 5, 6, 256, 257, 513, 65535):
        yield f"a record of kind {kind} after the settings", s + d.record(kind, b"")
        yield f"settings of kind {kind}", d.record(kind, s[6:])
    yield "settings twice", s + s
    yield "line before settings", d.line([]) + s
    yield "lines only", d.line([])
    yield "link before line", s + good[-46:] + d.line([(0, 0)])
    yield "line after link", good + d.line([(0, 0)])
    yield "settings at the end", good + s
    for n in (0, 9, 11, 16):
        yield f"settings of {n} bytes", d.record(1, bytes(n))
    for n in (1, 8, 15, 17, 31):
        yield f"line of {n} bytes", s + d.record(2, bytes(n))
    for n in (0, 39, 41, 80):
        yield f"link of {n} bytes", s + d.line(seg) + d.record(3, bytes(n))
    yield "wrong line length and wrong width", d.settings(width=9000) + d.record(2, bytes(7))
    for name in ("width", "height"):
        for v in (0, 8192, 8193, 2**31, 2**32 - 1):
            yield f"{name} {v}", d.drawing([seg], **{name: v})
    for v in (0, 1, 2, 255):
        yield f"pairing {v}", d.drawing([seg], pairing=v)
    for v in (0, 1, 2, 3, 4, 7, 8, 255):
        yield f"flags {v}", d.drawing([seg], flags=v)
    yield "flags 4 and too many lines", d.settings(flags=4) + d.line([]) * 257
    yield "256 empty lines", s + d.line([]) * 256
    yield "257 empty lines", s + d.line([]) * 257
    yield "256 lines of one point", s + d.line([(1, 1)]) * 256
    path = [(k % 32, k // 32) for k in range(1026)]
    yield "1,024 points in one line", s + d.line(path[:1024])
    yield "1,025 points in one line", s + d.line(path[:1025])
    yield "1,024 points in two lines", s + d.line(path[:512]) + d.line(path[511:1023])
    yield "1,025 points in two lines", s + d.line(path[:512]) + d.line(path[511:1024])
    ends = (0, 0, (0, 0), 0, 0, (1, 0))
    yield "255 links alike", d.drawing([seg], [ends] * 255, flags=1)
    yield "256 links alike", d.drawing([seg], [ends] * 256)
    yield "256 links and minus zero", d.drawing([[(-0.0, 0), (1, 0)]], [ends] * 256)
    for n, c in enumerate(COORDINATES):
        yield f"x number {n}, {c!r}", d.drawing([[(c, 1)]])
        yield f"y number {n}, {c!r}", d.drawing([[(1, 2), (1, c)]], flags=1)
        yield f"x of a link's first end number {n}, {c!r}", d.drawing([seg], [(0, 0, (c, 0), 0, 0, (1, 0))])
        yield f"y of a link's second end number {n}, {c!r}", d.drawing([seg], [(0, 0, (0, 0), 0, 0, (1, c))])
    yield "minus zero and a missing line", d.drawing([[(-0.0, 0), (1, 0)]], [(1, 0, (0, 0), 0, 0, (1, 0))])
    lines = [[(0, 0), (1, 0), (2, 0), (2, 1)], [], [(2, 2)]]
    join = (0, 2, (2, 1), 2, 0, (2, 2))
    for name, first in [("line 3 of 3", (3, 0)), ("line 65535", (65535, 0)), ("an empty line", (1, 0)),
                        ("an empty line's segment 1", (1, 1)), ("segment 2 of 4 points", (0, 2)),
                        ("segment 3 of 4 points", (0, 3)), ("segment 65535", (0, 65535)),
                        ("segment 0 of a dot", (2, 0)), ("segment 1 of a dot", (2, 1))]:
        point = (2, 2) if first[0] == 2 else (2, 0)
        yield f"first end names {name}", d.drawing(lines, [join, (*first, point, 0, 0, (1, 0))])
        yield f"second end names {name}", d.drawing(lines, [join, (0, 0, (1, 0), *first, point)])
    yield "segment 0 of two points", d.drawing([seg], [(0, 0, (0, 1), 0, 0, (1, 0))])
    yield "segment 1 of two points", d.drawing([seg], [(0, 1, (0, 1), 0, 0, (1, 0))])


LIMITS = []


def limits(rng):
    """The named limit cases in turn at random, sometimes with other settings or a byte changed."""
    if not LIMITS:
        LIMITS.extend(file for _, file in limit_cases())
    file = rng.choice(LIMITS)
    if rng.random() < 0.3 and len(file) > 16:
        return damage(rng, file), {}
    return file, {}


def hairpin(n, q, extra, flags, pairing=0):
    """A line of n segments that comes back to its start, q pairs of stubs at its two ends, and a closed
    line of `extra` segments. Stub ends of a pair lie a step apart but n + 2 edges along the lines, so
    each retrace is long: after k of them the graph has n + 2 q + extra + k (n + 2) edges."""
    half = n // 2
    spine = [(i * STEP, 0) for i in range(half + 1)] + [(i * STEP, 2) for i in range(n - half, 0, -1)]
    start, end = spine[0], spine[-1]
    lines = [spine]
    for k in range(q):
        tip = (-(k + 1) * 9 * STEP, (k + 1) * 5)
        lines += [[start, tip], [end, (tip[0], tip[1] + 1)]]
    if extra:
        ring = [(half * STEP, 50 + STEP * k) for k in range(extra - 1)]
        lines.append([spine[half]] + ring + [spine[half]])
    return write(lines, flags=flags, pairing=pairing)


def edges(rng):
    """Repairs that come near 4,000 edges, meet it exactly or pass it, in the last retrace or before."""
    q, flags = rng.choice([3, 3, 5, 7, 9]), rng.randrange(4)
    retraces = q - 1 + (flags & 1)
    # The largest spine that stays at most 4,000, if the limit of points allows it.
    n = min((4000 - 2 * q - 2 * retraces) // (retraces + 1), 1020 - 4 * q - 8)
    n -= rng.choice([0, 0, 1, 2, -1, 5, -30])
    n = min(n, 1023 - 4 * q)
    room = 4000 - (n + 2 * q + retraces * (n + 2))
    extra = max(0, min(room + rng.choice([0, 0, 1, -1, 2]), 1022 - 4 * q - n))
    return hairpin(n, q, extra if extra >= 2 else 0, flags), {}


def optimal(rng):
    """Optimal with 4 to 24 odd nodes: stars and caterpillars, tables exact, one short or as plan lends."""
    n = rng.choice([4, 4, 6, 6, 8, 8, 10, 10, 12, 12, 14, 14, 16, 18, 20, 22, 24])
    unit = rng.choice([1, STEP, 37, 1009])
    uneven = rng.choice([0, unit // 2])
    stray = lambda x, y: (x + rng.randint(-uneven, uneven), y + rng.randint(-uneven, uneven))
    if rng.random() < 0.5:
        # Rays of one to three segments: all pairings of the same ends cost the same but for rounding.
        centre, knees = spot(rng, 20 * unit), rng.randint(1, 3)
        lines = [[centre] + [stray(centre[0] + dx * unit * k, centre[1] + dy * unit * k) for k in range(1, knees + 1)]
                 for dx, dy in rng.sample([(x, y) for x in range(-9, 10) for y in range(-9, 10) if (x, y) != (0, 0)], n)]
    else:
        spine = [stray(k * 10 * unit, rng.randint(0, 3) * unit) for k in range(n // 2 + 1)]
        lines = [spine] + [[p, stray(p[0] + rng.randint(1, 9) * unit, p[1] - rng.randint(1, 9) * unit)]
                           for p in rng.sample(spine[1:-1], n // 2 - 1)]
        for _ in range(rng.choice([0, 1, 2])):
            # Bridges between far places of the spine give it other ways round.
            a, b = rng.sample(spine, 2)
            lines += [[a, (a[0], a[1] + 50 * unit), (b[0], b[1] + 50 * unit), b]]
    rng.shuffle(lines)
    exact = dict(f64=2**n + n * n, byte=2**n)
    lent = rng.choice([{}, FULL, exact, exact, exact, dict(exact, f64=2**n + n * n - 1), dict(exact, byte=2**n - 1), dict(f64=0, byte=0)])
    settings = any_settings(rng)
    settings["pairing"] = 1
    return write(lines, **settings), lent


def flags(rng):
    """One of a few shapes with every pairing, every value of the first two flags, and values just past check 5."""
    shape = rng.choice([
        [[(0, 4), (4, 4), (8, 4)], [(4, 0), (4, 4), (4, 8)]], [[(0, 0), (3, 4)]], [[(0, 0), (8, 0), (8, 8), (0, 8), (0, 0)]],
        [[(0, 0), (4, 0), (4, 4)], [(4, 0), (8, 0)]], [[(0, 0), (4, 0)], [(0, 0), (0, 4)], [(0, 0), (4, 4)]], [], [[(5, 5)]]])
    lines = [[(x * STEP, y * STEP) for x, y in line] for line in shape]
    return write(lines, width=rng.randint(0, 16), height=rng.randint(0, 16), pairing=rng.choice([0, 0, 1, 1, 2]),
                 flags=rng.choice([0, 1, 2, 3, 0, 1, 2, 3, 8])), {}


def output(rng):
    """Outputs that are exact, a byte or a point short, or shorter than a head."""
    k = rng.randint(0, 40)
    if rng.random() < 0.6:
        lines, points = [[(i * STEP, i % 3) for i in range(k)]], k
    else:
        lines = [[(0, 0), (STEP, 0)], [(0, 0), (0, STEP)], [(0, 0), (STEP, STEP)]]
        points = rng.randint(0, 8)
    room = max(0, 6 + 16 * points + rng.choice([0, 0, -1, -16, 1, 16, -6 - 16 * points, -16 * points]))
    settings = any_settings(rng)
    settings["flags"] &= 2
    return write(lines, **settings), dict(output=room)


def damage(rng, file):
    """A copy with something wrong: cut short, a bit turned, a byte more or less, a record's place changed."""
    data = bytearray(file)
    for _ in range(rng.choice([1, 1, 1, 2, 4])):
        if not data:
            break
        at = rng.randrange(len(data))
        way = rng.choice(["cut", "bit", "bit", "bit", "byte", "byte", "more", "less", "top bit", "one in the head"])
        if way == "cut":
            del data[at:]
        elif way == "bit":
            data[at] ^= 1 << rng.randrange(8)
        elif way == "byte":
            data[at] = rng.randrange(256)
        elif way == "more":
            data.insert(at, rng.randrange(256))
        elif way == "less":
            del data[at]
        elif way == "top bit":
            # A sign or exponent, if this is a coordinate's last byte; files are mostly coordinates.
            data[at - at % 2] ^= rng.choice([0x80, 0x40, 0x01])
        else:
            # The settings' own bytes, and the head of the second record.
            data[rng.randrange(min(22, len(data)))] ^= rng.choice([1, 2, 3, 4])
    return bytes(data)


def damaged(rng):
    """Damaged copies of good files of the small kinds."""
    file, lent = rng.choice([tiny, walks, links, dots, empty, overlap, zero, flags, cube])(rng)
    return damage(rng, file), lent


def big(rng):
    """As large as the limits allow: 1,024 points and 255 links, in one line or many."""
    count = rng.choice([1, 1, 2, 8, 64, 200])
    length = 1024 // count
    way = rng.randrange(3)
    points = []
    for k in range(length * count):
        if way == 0:
            points.append(spot(rng, EDGE))
        elif way == 1:
            points.append((round(k * STEP * math.cos(k / 9)), round(k * STEP * math.sin(k / 9))))
        else:
            row, column = divmod(k, 32)
            points.append(((column if row % 2 == 0 else 31 - column) * 2 * STEP, row * 2 * STEP + k % 5))
    lines = [points[i * length:(i + 1) * length] for i in range(count)]
    out = tree_links(rng, lines, near=way > 0)
    wanted = rng.choice([len(out), 255, 255, 100])
    while len(out) < wanted:
        la = rng.randrange(count)
        lb = min(count - 1, la + rng.randint(0, 1))
        sa = rng.choice(segments_of(lines[la]))
        sb = rng.choice(segments_of(lines[lb])) if way == 0 else min(sa + rng.randint(0, 40), segments_of(lines[lb])[-1])
        out.append((la, sa, place_on(rng, lines[la], sa, ("third", "middle", "beside")),
                    lb, sb, place_on(rng, lines[lb], sb, ("third", "middle", "beside"))))
    settings = any_settings(rng)
    settings["pairing"] = rng.random() < 0.05
    return write(lines, out, **settings), FULL


# ---- Kinds with flag 4: no links in the file. ----

def small_lines(rng, count, cells, most=4):
    """Lines of one to `most` points among a few cells."""
    return [[rng.choice(cells) for _ in range(rng.randint(1, most))] for _ in range(count)]


def made_touching(rng):
    """Flag 4: lines that begin, end or bend at a point of an earlier one, and some apart."""
    unit = rng.choice([1, 300, STEP])
    lines = [[spot(rng, 9 * unit) for _ in range(rng.randint(1, 4))]]
    for _ in range(rng.randint(1, 7)):
        line = [spot(rng, 9 * unit) for _ in range(rng.randint(1, 4))]
        if rng.random() < 0.8:
            line[rng.choice([0, -1, rng.randrange(len(line))])] = rng.choice(rng.choice(lines))
        lines.append(line)
    return write(lines, **linking(rng, rng.choice([9, None]))), FULL


def made_dots(rng):
    """Flag 4: dots, a few of them in one place, and some short lines."""
    reach = rng.choice([2, 5, 3000, EDGE])
    unit = rng.choice([1, 512]) if reach < 10 else 1
    place = lambda: tuple(v * unit for v in spot(rng, reach))
    share = rng.choice([1, 1, 0.7])
    lines = [[place()] if rng.random() < share else [place(), place()] for _ in range(rng.randint(2, 16))]
    return write(lines, **linking(rng, rng.choice([4, None]))), FULL


def made_closed(rng):
    """Flag 4: closed lines beside and in one another, dots in them, and lines of one point twice."""
    lines = []
    for _ in range(rng.randint(1, 6)):
        x, y = spot(rng, 12 * STEP)
        size = rng.choice([1, 2, 3, 8]) * STEP
        square = [(x, y), (x + size, y), (x + size, y + size), (x, y + size)]
        turn = rng.randrange(4)
        way = rng.choice(["square", "square", "triangle", "there and back", "twice", "dot", "open"])
        ring = square[turn:] + square[:turn + 1]
        lines.append({"square": ring, "triangle": ring[:3] + ring[:1], "there and back": ring[:2] + ring[:1],
                      "twice": [(x, y)] * rng.randint(2, 3), "dot": [(x + size // 2, y + size // 2)], "open": ring[:3]}[way])
    return write(lines, **linking(rng, rng.choice([20, None]))), FULL


def made_empty(rng):
    """Flag 4: empty lines before, between and behind the others."""
    lines = [[] if rng.random() < 0.5 else [spot(rng, rng.choice([3, 3000])) for _ in range(rng.randint(1, 4))]
             for _ in range(rng.randint(1, 16))]
    return write(lines, **linking(rng)), FULL


def made_lattice(rng):
    """Flag 4: all points on a lattice of 2 by 2 to 4 by 4, so that candidates of one length come by the dozen."""
    across, down, unit = rng.randint(2, 4), rng.randint(2, 4), rng.choice([1, 7, STEP, 900 * STEP])
    cells = [(x * unit, y * unit) for x in range(across) for y in range(down)]
    return write(small_lines(rng, rng.randint(2, 12), cells), **linking(rng, rng.choice([4, None]))), FULL


def made_few(rng):
    """Flag 4: no line, one line or two to five, near or as far apart as the grid allows."""
    reach = rng.choice([1, 5, 5000, EDGE, EDGE])
    lines = [[spot(rng, reach) for _ in range(rng.choice([1, 2, 2, 3, 6]))] for _ in range(rng.choice([0, 1, 1, 2, 3, 4, 5, 5]))]
    return write(lines, **linking(rng)), rng.choice([FULL, FULL, {}, dict(f64=0, byte=0), dict(output=rng.choice([0, 6, 22, 54, 86]))])


def made_crossing(rng):
    """Flag 4: straight lines and bent ones that cross each other without a shared point."""
    reach = rng.choice([40, 5000, EDGE])
    lines = []
    for _ in range(rng.randint(2, 24)):
        (x, y), bends = spot(rng, reach), rng.choice([0, 0, 0, 1, 4])
        lines.append([(x, y)] + [spot(rng, reach) for _ in range(bends)] + [rng.choice([(-x, -y), (-x, y), spot(rng, reach)])])
    return write(lines, **linking(rng, optimal=0.2)), FULL


def made_long(rng):
    """Flag 4: lines of many points, 1,024 in all."""
    count = rng.choice([1, 2, 3, 8, 30, 100])
    length, reach = 1024 // count, rng.choice([2000, EDGE])
    lines = []
    for _ in range(count):
        x, y = spot(rng, reach)
        step = rng.choice([1, 90, STEP])
        lines.append([(x, y)])
        for _ in range(rng.choice([length - 1, rng.randrange(length)])):
            x, y = clamp(x + rng.randint(-step, step)), clamp(y + rng.randint(-step, step))
            lines[-1].append((x, y))
    return write(lines, **linking(rng, optimal=0.1)), FULL


def many(rng, shape, count=256):
    """As many lines as a file may have: dots, long lines, all ends in one place, all on one circle, on a lattice."""
    if shape == "dots":
        return [[spot(rng)] for _ in range(count)]
    if shape == "long lines":
        return [[spot(rng) for _ in range(1024 // count)] for _ in range(count)]
    if shape == "one place":
        return [[(5, 7), spot(rng, 3000), (5, 7)] for _ in range(count)]
    if shape == "circle":
        angle = lambda k: 2 * math.pi * k / count
        return [[(round(EDGE * math.cos(angle(k))), round(EDGE * math.sin(angle(k))))] for k in range(count)]
    side = math.isqrt(count)
    cells = [(x * STEP, y * STEP) for x in range(side) for y in range(side)]
    return small_lines(rng, count, cells, 3)


def made_many(rng):
    """Flag 4: 200 to 256 lines, empty ones among them at times."""
    count = rng.choice([256, 256, 255, rng.randint(200, 256)])
    lines = many(rng, rng.choice(["dots", "long lines", "one place", "circle", "lattice"]), count)
    if rng.random() < 0.3:
        lines = [[] if rng.random() < 0.2 else line for line in lines]
    rng.shuffle(lines)
    return write(lines, **linking(rng, optimal=0.1)), FULL


OFF_GRID = (1 / 2048, 0)


def own_link_cases():
    """Named files for number 15, alone and with each check about it: the fault before the link records and in them."""
    lines, dot = [[(0, 0), (3, 4)], [(1, 1)]], (1, 0, (1, 1))
    good, none = (0, 0, (0, 0), *dot), []
    two = [good, (0, 0, (3, 4), *dot)]
    for flags in range(9):
        yield f"a link, flags {flags}", d.drawing(lines, [good], flags=flags)
        yield f"no link, flags {flags}", d.drawing(lines, flags=flags)
    for name, changed in [("width 8,193", dict(width=8193)), ("height 8,193", dict(height=8193)), ("pairing 2", dict(pairing=2)),
                          ("flags 12", dict(flags=12)), ("flags 255", dict(flags=255))]:
        for count, links in (("two links", two), ("no link", none)):
            yield f"{count} and {name}", d.drawing(lines, links, **dict(dict(flags=LINK), **changed))
    dots = lambda count: [[(k % 32, k // 32)] for k in range(count)]
    for count, links in (("a link", [(0, 0, (0, 0), 1, 0, (1, 0))]), ("no link", none)):
        yield f"{count} and 256 lines", d.drawing(dots(256), links, flags=LINK)
        yield f"{count} and 257 lines", d.drawing(dots(257), links, flags=LINK)
        yield f"{count} and 1,024 points", d.drawing([[(0, 0)], [(1, 0)] * 1023], links, flags=LINK)
        yield f"{count} and 1,025 points", d.drawing([[(0, 0)], [(1, 0)] * 1024], links, flags=LINK)
    for count in (255, 256):
        for flags in (0, LINK):
            yield f"{count} links, flags {flags}", d.drawing(lines, [good] * count, flags=flags)
            yield f"{count} links, the last one off the grid, flags {flags}", d.drawing(
                lines, [good] * (count - 1) + [(0, 0, OFF_GRID, *dot)], flags=flags)
    off_lines = [[OFF_GRID, (3, 4)], [(1, 1)]]
    wrong = {"off the grid": (0, 0, OFF_GRID, *dot), "naming a missing line": (2, 0, (0, 0), *dot), "naming segment 1": (0, 1, (0, 0), *dot),
             "naming an empty line": (2, 0, (0, 0), *dot)}
    for flags in (0, LINK):
        yield f"a point off the grid and two links, flags {flags}", d.drawing(off_lines, two, flags=flags)
        yield f"a point off the grid and no link, flags {flags}", d.drawing(off_lines, flags=flags)
        for name, link in wrong.items():
            drawn = lines + [[]] * ("empty" in name)
            yield f"a link {name}, flags {flags}", d.drawing(drawn, [link], flags=flags)
            yield f"a link {name} before a good one, flags {flags}", d.drawing(drawn, [link, good], flags=flags)
            yield f"a link {name} behind a good one, flags {flags}", d.drawing(drawn, [good, link], flags=flags)
        yield f"a link off the grid that names a missing line, flags {flags}", d.drawing(lines, [(2, 0, OFF_GRID, *dot)], flags=flags)
        yield f"a link of 39 bytes, flags {flags}", d.drawing(lines, flags=flags) + d.record(3, bytes(39))
        yield f"a link before a line, flags {flags}", d.drawing(lines, [good], flags=flags) + d.line([(1, 1)])


OWN_LINKS = []


def own_links(rng):
    """Number 15 alone and with checks 3 to 8, sometimes with other settings or a byte changed."""
    if not OWN_LINKS:
        OWN_LINKS.extend(file for _, file in own_link_cases())
    file = bytearray(rng.choice(OWN_LINKS))
    if rng.random() < 0.5:
        file[14], file[15] = rng.randrange(2), rng.randrange(9)
    return (damage(rng, file) if rng.random() < 0.2 else bytes(file)), {}


# ---- Kinds with minus zeros. A shape gives lines and links; -0.0 grid steps become a minus zero, and equal 0. ----

MINUS_ZERO = 1 << 63  # its bits
# Off the grid: next to minus zero, and as far from the grid as other kinds have it.
BESIDE = [MINUS_ZERO + 1, 1, 0x800fffffffffffff, 0x8010000000000000, bits(-1 / 2048), bits(1 / 2048), bits(-4096 - 1 / 1024),
          bits(math.nan), bits(-math.inf)]


def signs(rng, share=None):
    """A function that gives each zero of a point a minus sign with this chance."""
    share = rng.choice([0.2, 0.5, 0.5, 0.8, 1]) if share is None else share
    return lambda point: tuple(-0.0 if v == 0 and rng.random() < share else v for v in point)


def signed(rng, lines, links=(), in_lines=None, in_links=None):
    """The lines and links with minus zeros among their zeros."""
    in_lines, in_links = signs(rng, in_lines), signs(rng, in_links)
    return ([[in_lines(p) for p in line] for line in lines],
            [(la, sa, in_links(a), lb, sb, in_links(b)) for la, sa, a, lb, sb, b in links])


def about_zero(rng):
    """Lines over a small lattice about (0, 0), each begun where an earlier one was."""
    unit, reach = rng.choice([1, 512, STEP]), rng.randint(1, 3)
    cells = [(x * unit, y * unit) for x in range(-reach, reach + 1) for y in range(-reach, reach + 1)]
    lines, seen = [], [rng.choice(cells)]
    for _ in range(rng.randint(1, 5)):
        lines.append([rng.choice(seen)] + [rng.choice(cells) for _ in range(rng.randint(0, 5))])
        seen += lines[-1]
    return signed(rng, lines)


def linked_on_axes(rng):
    """Lines across the axes, linked where they cross them, to one another and to themselves."""
    unit = rng.choice([2, 300, 2 * STEP])
    lines = []
    for _ in range(rng.randint(1, 5)):
        k, y, turn = rng.randint(1, 3) * unit, rng.randint(-2, 2) * unit, rng.choice([1, -1])
        lines.append([(-k, y)[::turn], (k, y)[::turn]] + [spot(rng, 3 * unit)] * rng.choice([0, 0, 1]))
    ways = ("start", "end", "middle", "middle", "middle", "third", "beside")
    out = tree_links(rng, lines, ways=ways)
    for _ in range(rng.randint(0, 4)):
        la, lb = rng.randrange(len(lines)), rng.randrange(len(lines))
        sa, sb = rng.choice(segments_of(lines[la])), rng.choice(segments_of(lines[lb]))
        a = place_on(rng, lines[la], sa, ways)
        out.append((la, sa, a, lb, sb, rng.choice([a, place_on(rng, lines[lb], sb, ways)])))
    return signed(rng, lines, out, in_lines=rng.choice([0, 0, 0.5]))


def shared_places(rng):
    """Lines that share places on the axes, each under signs of its own, and hold together by nothing else."""
    unit = rng.choice([1, 300, STEP])
    places = rng.sample([(0, 0), (0, 4 * unit), (0, -2 * unit), (7 * unit, 0), (-3 * unit, 0)], rng.randint(1, 3))
    lines = []
    for _ in range(rng.randint(2, 6)):
        line = [spot(rng, 9 * unit) for _ in range(rng.randint(0, 2))]
        for place in rng.sample(places, rng.randint(1, len(places))):
            line.insert(rng.randint(0, len(line)), place)
        lines.append(line)
    return signed(rng, lines)


def split_on_an_axis(rng):
    """A line along an axis, split by several links, at one place by more than one, under either sign."""
    unit, turn = rng.choice([1, 256, STEP]), rng.choice([1, -1])
    corners = rng.choice([[-8, 8], [-8, 8], [0, 9], [-5, 0, 8], [8, 0, -8], [-8, 8, -8]])
    lines = [[(x * unit, 0)[::turn] for x in corners]]
    few = [rng.randint(-6, 6) for _ in range(rng.randint(1, 3))]
    place = lambda: (rng.choice(few) * unit, rng.choice([0, 0, 0, 0, unit]))[::turn]
    out = []
    for _ in range(rng.randint(1, 6)):
        ends = [(0, rng.choice(segments_of(lines[0])), place()) for _ in range(2)]
        if rng.random() < 0.8:
            # To a line of its own; without, from the axis to itself.
            lines.append([spot(rng, 9 * unit) for _ in range(rng.choice([1, 1, 2]))])
            ends[1] = (len(lines) - 1, 0, lines[-1][0])
        rng.shuffle(ends)
        out.append(ends[0] + ends[1])
    return signed(rng, lines, out, in_lines=rng.choice([0, 0, 1, 0.5]))


def dots_on_axes(rng):
    """Dots about (0, 0), some in one place, some not linked."""
    unit = rng.choice([1, 512])
    place = lambda: (rng.randint(-1, 1) * unit, rng.randint(-1, 1) * unit)
    lines = [[place()] * rng.choice([1, 1, 1, 2]) for _ in range(rng.randint(1, 7))]
    keep = rng.choice([0.3, 0.9, 1])
    return signed(rng, lines, [l for l in tree_links(rng, lines, ways=("start",)) if rng.random() < keep])


def closed_by_sign(rng):
    """Closed lines whose first and last point are one place under two signs, and places that follow themselves under another."""
    unit, lines = rng.choice([1, 300, STEP]), []
    for _ in range(rng.randint(1, 3)):
        start = (rng.randint(-2, 2) * unit, 0)[::rng.choice([1, -1])]
        line = [start] + [(rng.randint(-2, 2) * unit, rng.randint(-2, 2) * unit) for _ in range(rng.randint(0, 4))] + [start]
        for _ in range(rng.randint(0, 3)):
            at = rng.randrange(len(line))
            line.insert(at, line[at])
        lines.append(line)
    return signed(rng, lines, tree_links(rng, lines, ways=("start", "end", "middle")) if rng.random() < 0.6 else [])


SHAPES = about_zero, linked_on_axes, shared_places, split_on_an_axis, dots_on_axes, closed_by_sign


def minus_zero_lines(rng):
    """Minus zeros in lines that meet on the axes."""
    return write(*about_zero(rng), **any_settings(rng, rng.choice([3, None]))), FULL


def minus_zero_links(rng):
    """Minus zeros in x and y of both ends of links."""
    return write(*linked_on_axes(rng), **any_settings(rng, rng.choice([4, None]))), FULL


def minus_zero_beside(rng):
    """Minus zeros beside plain zeros at the same places."""
    return write(*shared_places(rng), **any_settings(rng, rng.choice([4, None]))), FULL


def minus_zero_splits(rng):
    """Minus zeros in split points of a line along an axis."""
    return write(*split_on_an_axis(rng), **any_settings(rng, rng.choice([9, None]))), FULL


def minus_zero_dots(rng):
    """Minus zeros in dots."""
    return write(*dots_on_axes(rng), **any_settings(rng, rng.choice([1, None]))), FULL


def minus_zero_closed(rng):
    """Minus zeros where a line closes, and where a point follows itself."""
    return write(*closed_by_sign(rng), **any_settings(rng, rng.choice([3, None]))), FULL


def minus_zero_made(rng):
    """Minus zeros and flag 4."""
    lines, _ = rng.choice(SHAPES)(rng)
    return write(lines, **linking(rng, rng.choice([4, None]))), FULL


def coordinate_places(file):
    """Where the coordinates of a file begin, x and y by turns; none where its records are not whole."""
    places, at = [], 0
    while at + 6 <= len(file):
        length, kind = struct.unpack_from("<IH", file, at)
        if kind == 2 and length % 16 == 0:
            places += range(at + 6, at + 6 + length, 8)
        elif kind == 3 and length == 40:
            places += range(at + 14, at + 46, 8)
        at += 6 + length
    return places if at == len(file) else []


def with_fault(rng, fault, lines, links, settings):
    """The file with a fault that gives this number. Any other number leaves it as it is."""
    if fault == 5:
        settings[rng.choice(["width", "height"])] = 8193
    elif fault == 6:
        lines, links = rng.choice([(lines + [[]] * 256, links), (lines + [[(0, -0.0)] * 1025], links),
                                   (lines, [(0, 0, (-0.0, 0), 0, 0, (0, -0.0))] * 256)])
    elif fault == 15:
        settings["flags"] |= LINK
        links = links or [(0, 0, (-0.0, 0), 0, 0, (0, -0.0))]
    elif fault == 8:
        wrong = rng.choice([(len(lines), 0), (0, len(lines[0])), (65535, 65535)])
        links = links + [rng.choice([(*wrong, (-0.0, 0), 0, 0, lines[0][0]), (0, 0, lines[0][0], *wrong, (0, -0.0))])]
    elif fault == 9:
        lines = lines + [[spot(rng, 3000)]]
    file = bytearray(write(lines, links, **settings))
    if fault == 7:
        struct.pack_into("<Q", file, rng.choice(coordinate_places(file)), rng.choice(BESIDE))
    return bytes(file)


def minus_zero_refused(rng):
    """Minus zeros in files with a fault or two: numbers 2 to 9, 11, 14 and 15."""
    (lines, links), settings = rng.choice(SHAPES)(rng), any_settings(rng)
    fault = rng.choice([0, 4, 5, 6, 7, 7, 8, 9, 9, 11, 14, 15])  # 4 for damage of any sort
    file = with_fault(rng, fault, lines, links, settings)
    if rng.random() < 0.2:
        # An off-grid coordinate beside any other fault.
        file = bytearray(file)
        struct.pack_into("<Q", file, rng.choice(coordinate_places(file)), rng.choice(BESIDE))
    if fault == 4:
        file = damage(rng, file)
    lent = {11: dict(f64=rng.choice([0, 31]), byte=16), 14: dict(FULL, output=rng.choice([0, 6, 21, 37, 70]))}.get(fault, FULL)
    return bytes(file), lent


QUICK = (tiny, walks, lattice, cube, overlap, zero, links, dots, empty, pieces, limits, flags, output, made_touching, made_dots, made_closed,
         made_empty, made_lattice, made_few, made_crossing, own_links)
SLOW = honeycomb, lace, comb, near, edges, optimal, made_long


def minus_zero_older(rng):
    """Drawings of the older kinds, moved so that points of them lie on the axes, with minus signs at some of their zeros."""
    file, lent = rng.choice(SLOW if rng.random() < 0.01 else QUICK)(rng)
    places = coordinate_places(file)
    values = list(struct.unpack("<" + "d" * len(places), b"".join(file[at:at + 8] for at in places)))
    for axis in (0, 1):
        if values and rng.random() < 0.7:
            shift = rng.choice(values[axis::2])
            moved = [v - shift for v in values[axis::2]]
            if all(abs(v) <= 4096 for v in moved):
                values[axis::2] = moved
    sign, file = signs(rng), bytearray(file)
    for at, value in zip(places, sign(values)):
        struct.pack_into("<d", file, at, value)
    return bytes(file), lent


# ---- Kinds with busy nodes and many edges: for the walk's counts of the edges at a node, and for its marks of used edges. ----

def beside(rng, least, most):
    """A number at or beside a multiple of 8, 32, 64 or 256."""
    unit = rng.choice([8, 32, 64, 64, 256])
    return max(least, min(most, unit * rng.randint(least // unit, most // unit) + rng.choice([-1, 0, 0, 1])))


def busy(rng, most):
    """How many edges a busy node is to have: where eight, nine or ten bits are full, the most, or any number."""
    return min(most, rng.choice([rng.randint(254, 258), rng.randint(254, 258), rng.randint(254, 258), rng.randint(510, 514),
                                 rng.randint(1022, 1026), most - rng.choice([0, 0, 1, 2]), rng.randint(250, most)]))


def places(rng, count, reach=60 * STEP, but=()):
    """So many different places, none of those that are left out."""
    found = dict.fromkeys(spot(rng, reach) for _ in range(count + len(but)))
    while len(found) < count + len(but):
        found[spot(rng, reach)] = None
    return [place for place in found if place not in but][:count]


def through(rng, hub, leaves, segments):
    """A line of so many segments, each with the hub at one end."""
    is_hub = rng.random() < 0.5
    return [hub if (k + is_hub) % 2 else rng.choice(leaves) for k in range(segments + 1)]


def parts(rng, whole, count):
    """So many whole numbers from 1 on with this sum."""
    cuts = [0, *sorted(rng.sample(range(1, whole), count - 1)), whole]
    return [b - a for a, b in zip(cuts, cuts[1:])]


def drawn_again(rng, lines, count):
    """Links between the two ends of segments that are drawn, so that they split nothing; each end may be named by any segment that has it."""
    at = {}
    for number, line in enumerate(lines):
        for segment, ends in enumerate(zip(line, line[1:])):
            for place in ends:
                at.setdefault(place, []).append((number, segment))
    pairs = [pair for line in lines for pair in zip(line, line[1:])]
    return [(*rng.choice(at[a]), a, *rng.choice(at[b]), b) for a, b in (rng.sample(rng.choice(pairs), 2) for _ in range(count))]


def paired(rng, odd, largest=None):
    """Any settings, Optimal mostly where there are few odd nodes, since it takes the published planner long where there are many."""
    settings = any_settings(rng, largest)
    settings["pairing"] = int(rng.random() < (0.5 if odd <= 10 else 0.05))
    return settings


def busy_node(rng):
    """One node with 250 to 1,278 edges before repair: lines out and back, through it and ending at it, and links."""
    wanted, hub = busy(rng, rng.choice([1023, 1023, 1278])), spot(rng, 50 * STEP)
    leaves = places(rng, rng.choice([1, 2, 3, 8, 8, 40, 300]), but=[hub])
    linked = max(wanted - 1023, min(255, wanted - 1) if rng.random() < 0.2 else rng.choice([0, 0, rng.randint(0, 100)]))
    count = min(rng.choice([1, 1, 1, 2, 9, 60]), 1024 - (wanted - linked), wanted - linked)
    lines = [through(rng, hub, leaves, segments) for segments in parts(rng, wanted - linked, count)]
    links = drawn_again(rng, lines, linked)
    if rng.random() < 0.3 and sum(map(len, lines)) < 1010:
        # Other ways from leaf to leaf.
        lines.append([rng.choice(leaves) for _ in range(rng.randint(2, 14))])
    return write(lines, links, **paired(rng, len(leaves), rng.choice([60, None]))), FULL


# The square of a distance at which 288 places lie about (0, 0), in grid steps.
ROUND_SQUARED = 5**2 * 13**2 * 17 * 29 * 37
ROUND = []


def round_places():
    """All places at that distance."""
    if not ROUND:
        for x in range(math.isqrt(ROUND_SQUARED) + 1):
            y = math.isqrt(ROUND_SQUARED - x * x)
            if x * x + y * y == ROUND_SQUARED:
                ROUND.extend((sx * x, sy * y) for sx in (1, -1) for sy in (1, -1))
    return ROUND


def busy_links(rng):
    """One node with up to 1,787 edges before repair, three by each link: its segment is split there and at a place as far from the start."""
    hub, *others = rng.sample(round_places(), 1 + rng.choice([1, 2, 2, 8, 50, 255]))
    # A link from the hub to a place Q: the chain start, hub, Q, hub, Q, .., end, and the link itself.
    wanted = busy(rng, rng.choice([767, 1023, 1787]))
    count = min(255, rng.choice([wanted // 3, wanted // 3, rng.randint(1, wanted // 3)]))
    count = max(count, -(-(wanted - 1022) // 3))
    tail = min(1022, wanted - 3 * count)
    ends = [((0, 0, hub), (0, 0, rng.choice(others))) for _ in range(count)]
    if rng.random() < 0.3:
        ends = [rng.sample(pair, 2) for pair in ends]
    line = [(0, 0), spot(rng, 9 * STEP)] + [hub if k % 2 == 0 else rng.choice(others) for k in range(tail)]
    return write([line], [a + b for a, b in ends], **paired(rng, len(others), rng.choice([9, None]))), FULL


def busy_pair(rng):
    """One segment gone over again and again, 250 to 1,023 times and up to 255 more by links, alone and within a drawing."""
    a, b, c, e = places(rng, 4)
    around = rng.choice([[], [], [], [[a, c]], [[a, c], [b, e]], [[a, c, b]], [[a, c, a]], [[c, e, b, c]], [[a, c, e, a], [e, b]], [[c, a], [a, e]]])
    room = 1023 - sum(map(len, around))
    wanted = busy(rng, rng.choice([room, room, room + 255]))
    linked = max(wanted - room, rng.choice([0, 0, 0, rng.randint(0, 60)]))
    count = min(rng.choice([1, 1, 1, 2, 2, 7, 100]), room + 1 - (wanted - linked))
    lines = [through(rng, a, [b], segments) for segments in parts(rng, wanted - linked, count)]
    return write(lines + around, drawn_again(rng, lines, linked), **any_settings(rng, rng.choice([60, None]))), FULL


def busiest(flags):
    """The most edges at one node that we know a drawing for, 2,298 where the line is closed: 256 lines of 1,024 points, with ends of their own,
    and 255 links that each split a segment at the hub and at a place of their own. These 766 places are odd, and every retrace goes through the hub."""
    hub, *others = round_places()[:256]
    leaves = iter([(20 * STEP + 7 * k, 3 * k * k % 5000) for k in range(1024)])
    leaf = lambda: next(leaves)
    lines = [[(0, 0), (9 * STEP, 5), hub, leaf()], [leaf(), hub, leaf(), hub]]
    lines += [[leaf(), hub, leaf()] for _ in range(127)] + [[leaf(), hub, leaf(), hub, leaf()] for _ in range(127)]
    return write(lines, [(0, 0, hub, 0, 0, place) for place in others], flags=flags)


def busy_retraces(rng):
    """Rays from one node, so that all retraces go through it: as many edges there again as rays, up to 1,024, and now and then 2,298."""
    if rng.random() < 0.03:
        return busiest(rng.randrange(4)), FULL
    rays = rng.choice([rng.randint(3, 20), rng.randint(62, 66), rng.randint(126, 130), rng.randint(126, 130), rng.randint(254, 258),
                       rng.choice([300, 511, 512])])
    hub, knees = spot(rng, 50 * STEP), rng.choice([1, 1, 1, 2, 3]) if rays < 150 else 1
    tips = places(rng, rays * knees, but=[hub])
    arms = [tips[k * knees:(k + 1) * knees] for k in range(rays)]
    lines = []
    while arms:
        # Two rays in a line, or one.
        one, other = arms.pop(), arms.pop() if arms and (rays > 250 or rng.random() < 0.7) else []
        lines.append(one[::-1] + [hub] + other)
    if rng.random() < 0.3 and rays < 300:
        # A way from tip to tip, which shortens some retraces.
        lines.append(rng.sample(tips, 3))
    rng.shuffle(lines)
    return write(lines, **paired(rng, rays, rng.choice([60, None]))), FULL


def stay(rng, line):
    """The line with points that follow themselves."""
    share = rng.choice([0.1, 0.5, 1])
    return [p for p in line for _ in range(rng.choice([2, 2, 3, 5]) if rng.random() < share else 1)]


def standing_lines(rng):
    """Lines over a few places, each begun where an earlier one was, in which points follow themselves, and lines of one place."""
    cells = [(x * STEP, y * STEP) for x in range(rng.randint(1, 4)) for y in range(rng.randint(1, 4))]
    lines, seen = [], [rng.choice(cells)]
    for _ in range(rng.randint(1, 6)):
        first = rng.choice(seen)
        lines.append(stay(rng, [first] + [rng.choice(cells) for _ in range(rng.choice([0, 0, 1, 3, 6]))]))
        seen += lines[-1]
    return lines


def staying(rng):
    """Points that follow themselves, lines of one place and links from a place to itself, of which none may become an edge."""
    lines, out = standing_lines(rng), []
    nodes = sorted({p for line in lines for p in line})
    for _ in range(rng.randint(0, 6)):
        la, lb = rng.randrange(len(lines)), rng.randrange(len(lines))
        sa, sb = rng.choice(segments_of(lines[la])), rng.choice(segments_of(lines[lb]))
        # A node, so that the link bends its segments over a place that is there; or any other.
        place = rng.choice(nodes) if rng.random() < 0.7 else place_on(rng, lines[la], sa)
        other = place if rng.random() < 0.7 else rng.choice(nodes)
        out.append((la, sa, place, lb, sb, other))
    return write(lines, out, **any_settings(rng, rng.choice([4, None]))), FULL


def staying_made(rng):
    """Flag 4: the same lines, whose ends often lie in one place, so that links of no length are made."""
    lines = standing_lines(rng)
    if rng.random() < 0.5:
        # Closed ones, and dots where they close.
        lines = [line + line[:1] for line in lines] + [[rng.choice(line)] for line in rng.sample(lines, rng.randint(0, len(lines)))]
    rng.shuffle(lines)
    return write(lines, **linking(rng, rng.choice([4, None]))), FULL


def wander(rng, nodes, count, is_closed):
    """A walk of so many steps over these places, never staying at one."""
    walk = [rng.choice(nodes)]
    while len(walk) <= count:
        walk.append(rng.choice([p for p in nodes if p != walk[-1]]))
    if is_closed and walk[-1] != walk[0]:
        # The last step but one may not be made to the start.
        spare = [p for p in nodes if p not in (walk[0], walk[-3])]
        if spare:
            walk[-2:] = [rng.choice(spare), walk[0]]
    return walk


def cut_up(rng, walk, count):
    """The walk's steps as so many lines, in any order and direction."""
    cuts = [0, *sorted(rng.sample(range(1, len(walk) - 1), count - 1)), len(walk) - 1]
    lines = [walk[a:b + 1][::rng.choice([1, -1])] for a, b in zip(cuts, cuts[1:])]
    rng.shuffle(lines)
    return lines


def repaired(rng, wanted):
    """A hairpin with so many repaired edges, open or closed; None if its points pass a limit."""
    q, flags = rng.choice([1, 3, 3, 5, 7]), rng.randrange(4)
    retraces = q - 1 + (flags & 1)
    n = (wanted - 2 * q - 2 * retraces) // (retraces + 1)
    extra = wanted - (n + 2 * q + retraces * (n + 2))
    if extra == 1:
        n, extra = n - 1, extra + retraces + 1
    # A closed line of one segment is none.
    fits = n >= 2 and extra != 1 and n + 1 + 4 * q + (extra + 1 if extra else 0) <= 1024
    return hairpin(n, q, extra, flags) if fits else None


def many_edges(rng):
    """Repaired edges, and the virtual edge's number with them, at and beside multiples of 8, 32 and 64, up to 4,000."""
    if rng.random() < 0.05:
        while True:
            file = repaired(rng, rng.choice([4000, 3999, 4001, beside(rng, 60, 4000), beside(rng, 60, 4000)]))
            if file:
                return file, {}
    nodes = places(rng, rng.choice([3, 5, 20, 100]))
    count = beside(rng, 7, rng.choice([130, 130, 260, 520, 1016]))
    walk = wander(rng, nodes, count, rng.random() < 0.5)
    settings = any_settings(rng, rng.choice([60, None]))
    # Closing an open one adds edges to it.
    settings["flags"] &= rng.choice([2, 2, 3])
    return write(cut_up(rng, walk, min(rng.choice([1, 1, 2, 5]), count, 1024 - count)), **settings), FULL


def many_visits(rng):
    """A walk that comes back to a node again and again: petals at one or two nodes, 60 to 520 edges, drawn in any order and some as links."""
    count = beside(rng, 60, rng.choice([70, 140, 260, 520]))
    hubs = places(rng, rng.choice([1, 1, 2]))
    tips, walk = places(rng, rng.choice([4, 12, 60]), but=hubs), hubs[:1]
    linked = rng.choice([0, 0, 0, 5, 30])
    while len(walk) <= count - linked:
        walk += wander(rng, tips, rng.randint(0, 4), False) + [rng.choice(hubs)]
    # The last petal may be cut short.
    lines = cut_up(rng, walk[:count - linked + 1], rng.choice([1, 1, 4, 9, 25]))
    return write(lines, drawn_again(rng, lines, linked), **paired(rng, 2 * linked, rng.choice([60, None]))), FULL


# ---- Kinds with Optimal and more than 20 odd nodes: for the two pairings, their costs and the choice between them. ----

def odd_places(lines, links=()):
    """The odd nodes' places. However a segment is split, a split point has two ends of its pieces, so that only its own two ends count."""
    odd = set()
    for a, b in [pair for line in lines for pair in zip(line, line[1:])] + [(a, b) for _, _, a, _, _, b in links]:
        odd ^= {a} ^ {b}
    return odd


def for_pairs(rng, n):
    """What is lent for n odd nodes: mostly a float for each two of them, or a few more, now and then one too few; bytes are not asked above 20."""
    floats = rng.choice([n * n] * 8 + [n * n + 1, n * n + 700, max(n * n, d.PLAN_F64), n * n - 1])
    return dict(f64=floats, byte=rng.choice([0, 0, 1, 4096])) if n > 20 else FULL


def many_odd(rng, lines, links=(), largest=None):
    """The drawing with Optimal and any other settings."""
    settings = dict(any_settings(rng, largest), pairing=1)
    return write(lines, links, **settings), for_pairs(rng, len(odd_places(lines, links)))


def how_many(rng, least=22, most=120):
    """Odd nodes, most often few of them."""
    return rng.randint(least, min(most, least + rng.choice([4, 18, 48, most])))


def joined_anywhere(lines, pairs):
    """The lines with a dot at a place of theirs, and links that name it, so that they split nothing."""
    dot = len(lines)
    return lines + [lines[0][:1]], [(dot, 0, a, dot, 0, b) for a, b in pairs]


def many_odd_nets(rng):
    """Lace and walls of bricks with 22 to some 120 odd nodes."""
    lines = wall(rng, 8, 15) if rng.random() < 0.3 else net(rng, rng.choice([60, 90, 200]), 40)
    return many_odd(rng, lines, largest=rng.choice([40, None]))


def many_odd_combs(rng):
    """Combs of 6 to 30 teeth, with two odd ends and up to two odd places of links at each."""
    return many_odd(rng, *toothed(rng, how_many(rng, 24, 120) // 4))


def arms_about(rng, hub, count, way):
    """Tips about a hub, by how long its arms are: all equal, of two or three lengths, a step apart, or any."""
    if way == "any":
        return [(hub[0] + x, hub[1] + y) for x, y in places(rng, count, rng.choice([300, 9000, 60 * STEP]), but=[(0, 0)])]
    tips = rng.sample(round_places(), count) if count <= 288 else places(rng, count, but=[(0, 0)])
    if way == "few lengths":
        scale = rng.choice([(1, 2), (1, 2, 3), (1, 1, 1, 4)])
        tips = [(x * k, y * k) for x, y in tips for k in [rng.choice(scale)]]
    if way == "a step apart":
        tips = [(x + rng.choice([0, 0, 1, -1]), y) for x, y in tips]
    return [(hub[0] + x, hub[1] + y) for x, y in dict.fromkeys(tips)]


def with_knees(rng, hub, tip, knees):
    """The way from a hub to a tip, with bends on or beside it whose lengths round."""
    (ax, ay), (bx, by) = hub, tip
    stray = rng.choice([0, 1, 40])
    bend = lambda k: (ax + (bx - ax) * k // (knees + 1) + rng.randint(-stray, stray), ay + (by - ay) * k // (knees + 1) + rng.randint(-stray, stray))
    return [hub, *(bend(k) for k in range(1, knees + 1)), tip]


def star_lines(rng, hub, tips, knees):
    """An arm to each tip, two of them in a line or one."""
    arms = [with_knees(rng, hub, tip, knees if knees < 2 else rng.randint(1, knees)) for tip in tips]
    rng.shuffle(arms)
    lines, by_two = [], rng.choice([0, 0.7, 1])
    while arms:
        one = arms.pop()
        lines.append(one[:0:-1] + arms.pop() if arms and (rng.random() < by_two or len(lines) > 200) else one[::rng.choice([1, -1])])
    return lines


def many_odd_stars(rng, least=22, most=120, finish=many_odd):
    """Arms about one hub, of one length, of a few lengths, a step apart or any, straight or bent."""
    hub, count = spot(rng, 20 * STEP), how_many(rng, least, most)
    tips = arms_about(rng, hub, count, rng.choice(["equal", "few lengths", "a step apart", "any"]))
    lines = star_lines(rng, hub, tips, rng.choice([0, 0, 1, 3]) if count < 200 else 0)
    if rng.random() < 0.2:
        # Ways from tip to tip.
        lines.append(rng.sample(tips, rng.randint(2, min(6, len(tips)))))
    return finish(rng, lines, largest=rng.choice([60, None]))


def level_star(rng, count, knees, reach=9000):
    """A star in which two arms are so long that both pairings leave them out. Whatever the pairs, all other arms are gone over once, so that
    the two costs differ by their roundings alone."""
    tips = places(rng, count - 2, reach, but=[(0, 0)])
    far = [(9 * reach + rng.randrange(999), rng.randrange(999)), (-9 * reach - rng.randrange(999), rng.randrange(999))]
    return star_lines(rng, (0, 0), tips + far, knees)


def turned_star(rng, count, steps, reach=900):
    """A star whose arms make the same few steps, each in any order and turned in any way: ways from tip to tip that share no step have one
    length, and are told apart by how their sums round, from the one end and from the other."""
    vectors = places(rng, steps, reach, but=[(0, 0)])
    turned = lambda v: tuple(s * c for s, c in zip(rng.choice([(1, 1), (1, -1), (-1, 1), (-1, -1)]), v[::rng.choice([1, -1])]))
    arms = {}
    # Short steps may lead to few tips.
    for _ in range(99 * count):
        if len(arms) == count:
            break
        arm = [(0, 0)]
        for dx, dy in map(turned, rng.sample(vectors, steps)):
            arm.append((arm[-1][0] + dx, arm[-1][1] + dy))
        arms[arm[-1]] = arm[::rng.choice([1, -1])]
    lines = list(arms.values())
    rng.shuffle(lines)
    return lines


def many_odd_turned(rng):
    """Stars whose arms make the same steps in another order: nearly every distance is the same but for the last bits."""
    count = 2 * rng.choice([11, 11, 11, 12, rng.randint(11, 20), rng.randint(11, 40)])
    return many_odd(rng, turned_star(rng, count, rng.choice([3, 3, 4, 5])), largest=rng.choice([9, None]))


def many_odd_rounded(rng):
    """Stars whose two pairings cost the same but for the last bits, by the order of the sums and the end that a distance runs from."""
    count = 2 * rng.choice([11, 11, 11, 12, 13, rng.randint(11, 20), rng.randint(11, 40)])
    return many_odd(rng, level_star(rng, count, rng.choice([0, 1, 1, 2, 3]), rng.choice([9, 90, 9000, 100 * STEP])), largest=rng.choice([60, None]))


def many_odd_hubs(rng, least=22, most=110, finish=many_odd):
    """Two to six hubs in a row or a ring; a tip stands beside one of another hub, near by eye and far along the lines."""
    hubs, count, apart = rng.randint(2, 6), how_many(rng, least, most), rng.choice([40, 3000, 90 * STEP])
    middles = [(k * apart, rng.randint(-3, 3)) for k in range(hubs)]
    lines = [middles if rng.random() < 0.5 or hubs == 2 else middles + middles[:1]]
    for k in range(count // 2):
        x, y = spot(rng, 4 * apart)
        one, other = rng.sample(middles, 2)
        lines += [[one, (x, y)], [other, (x + rng.randint(1, 3), y + rng.randint(-2, 2))]]
    rng.shuffle(lines)
    return finish(rng, lines, largest=rng.choice([60, None]))


def many_odd_lattices(rng, least=3, most=14, threads=30, finish=many_odd):
    """Rows and columns that cross in shared points, even or not, with threads at knots and at the border."""
    across, down = rng.randint(least, most), rng.randint(least + 1, most)
    xs, ys = spread(rng, across, 0, 40 * STEP), spread(rng, down, 0, 40 * STEP)
    lines = [[(x, y) for x in xs] for y in ys] + [[(x, y) for y in ys] for x in xs]
    # Threads as long as the gaps or longer ones; their ends may meet other threads'.
    reach = rng.choice([xs[1] - xs[0], 1, 3000])
    for _ in range(rng.randint(0, threads)):
        x, y = rng.choice(xs), rng.choice(ys)
        lines.append([(x, y), (x + rng.choice([reach, -reach, 0]), y + rng.choice([reach, -reach]))])
    rng.shuffle(lines)
    return finish(rng, lines, largest=rng.choice([40, None]))


def many_odd_trees(rng, least=30, most=140, linked=(0, 0, 1, 5, 20), finish=many_odd):
    """Random trees on a small grid or anywhere, and some links between their places."""
    count, unit = rng.randint(least, most), rng.choice([1, 700, STEP])
    side = math.isqrt(count) + rng.randint(1, 4)
    knots = [(x * unit, y * unit) for x, y in rng.sample([(x, y) for x in range(side) for y in range(side)], count)]
    if rng.random() < 0.4:
        knots = places(rng, count, rng.choice([5000, EDGE]))
    # To any earlier one, or to a near one.
    is_near = rng.random() < 0.6
    earlier = lambda i: min(rng.sample(range(i), min(i, 6)), key=lambda j: math.dist(knots[i], knots[j])) if is_near else rng.randrange(i)
    while True:
        lines = trails(rng, [(knots[i], knots[earlier(i)]) for i in range(1, count)], 255)
        if lines:
            break
    pairs = [rng.sample(knots, 2) for _ in range(rng.choice(linked))]
    return finish(rng, *joined_anywhere(lines, pairs), largest=rng.choice([40, None]))


def many_odd_even(rng, least=11, most=60, finish=many_odd):
    """Spines with legs on one side or both, evenly spaced, and rings with rays: one length everywhere, so that all ties are met."""
    count, gap, leg = rng.randint(least, most), rng.choice([1, 3, STEP]), rng.choice([1, 2, 3, 4])
    way = rng.choice(["one side", "both sides", "by turns", "two spines"])
    spine = [(k * gap, 0) for k in range(count)]
    sides = dict([("one side", [(1,)]), ("both sides", [(1, -1)]), ("by turns", [(1,), (-1,)]), ("two spines", [(1,)])])[way]
    legs = [[p, (p[0], s * leg * gap)] for k, p in enumerate(spine) for s in sides[k % len(sides)]]
    if way == "two spines":
        # Tips stand beside the other spine's, joined at one end.
        height = 2 * leg * gap + rng.choice([1, gap])
        legs += [[(x, height), (x, height - leg * gap)] for x, _ in spine]
        spine = [(k * gap, height) for k in reversed(range(count))] + [(-gap, height), (-gap, 0)] + spine
    turn = rng.choice([1, -1])
    lines = [[p[::turn] for p in line] for line in [spine] + rng.sample(legs, len(legs))]
    return finish(rng, lines[1:] + lines[:1] if rng.random() < 0.5 else lines, largest=rng.choice([40, None]))


def many_odd_chains(rng, least=22, most=110, finish=many_odd):
    """A row of places joined by one segment and by two, by turns: all are odd, and ways from both ends round otherwise. Straight, bent or in rows."""
    count, gap = 2 * (how_many(rng, least, most) // 2), rng.choice([1, 7, 1000])
    way = rng.choice(["even", "uneven", "bent", "bent", "nearly even", "nearly even", "in rows"])
    row, at = [], (0, 0)
    for k in range(count):
        row.append(at)
        step = gap if way == "even" else rng.randint(1, 9 * gap)
        if way == "bent":
            at = (at[0] + step, rng.randint(-5 * gap, 5 * gap))
        elif way == "nearly even":
            at = (at[0] + (90 if gap < 1000 else 30) * gap + rng.randint(-gap, gap), rng.randint(-9 * gap, 9 * gap))
        elif way == "in rows":
            at = ((k + 1) % 8 if (k + 1) // 8 % 2 == 0 else 7 - (k + 1) % 8) * gap, (k + 1) // 8 * gap + rng.choice([0, 0, 1])
        else:
            at = (at[0] + step, 0)
    pieces = [(row[k], row[k + 1]) for k in range(count - 1) for _ in range(1 + k % 2)]
    lines = None
    while lines is None:
        lines = trails(rng, pieces)
    return finish(rng, lines, largest=rng.choice([40, None]))


def many_odd_made(rng):
    """Flag 4 with Optimal: dots and short lines, linked by the planner, most of them with more than 20 odd nodes."""
    count, reach = rng.randint(20, 70), rng.choice([4, 9, 3000, EDGE])
    unit = 1 if reach > 99 else rng.choice([1, 512])
    place = lambda: tuple(v * unit for v in spot(rng, reach))
    lines = [[place() for _ in range(rng.choice([1, 1, 2, 2, 3]))] for _ in range(count)]
    settings = dict(linking(rng, rng.choice([9, None])), pairing=1)
    return write(lines, **settings), rng.choice([FULL, FULL, FULL, dict(f64=140**2, byte=0), {}, dict(f64=22**2, byte=0)])


def bridge(n, q, extra, flags):
    """Two hubs with n segments between them, q arms at each and a closed line of `extra` segments. Each arm is longer than the one
    before by more than the bridge, so that both pairings take arms of the two hubs together: after k retraces the graph has n + 2 q +
    extra + k (n + 2) edges."""
    arms = [[(x, 0), (x, k * (n + 9))] for k in range(1, q + 1) for x in (0, n)]
    ring = [[(0, 0)] + [(-9, -k) for k in range(1, extra)] + [(0, 0)]] if extra else []
    return write([[(x, 0) for x in range(n + 1)]] + arms + ring, flags=flags, pairing=1)


def near_4000(rng):
    """Bridges with 22 odd nodes or more that come near 4,000 edges, meet it exactly or pass it."""
    q, flags = rng.choice([11, 11, 13]), rng.randrange(4)
    retraces = q - 1 + (flags & 1)
    n = (4000 - 2 * q - 2 * retraces) // (retraces + 1) - rng.choice([0, 0, 1, -1, -40])
    extra = 4000 - (n + 2 * q + retraces * (n + 2)) + rng.choice([0, 0, 1, 1, -1])
    return bridge(n, q, extra if extra >= 2 else 0, flags), 2 * q


def many_odd_tables(rng):
    """18 to 26 odd nodes with tables exact, short and of other sizes, and 9, 11, 13 and 14 beside each other."""
    n = rng.choice([18, 20, 20, 22, 22, 22, 22, 24, 26])
    if rng.random() < 0.1:
        file, n = near_4000(rng)
    else:
        lines = star_lines(rng, (0, 0), places(rng, n, 900, but=[(0, 0)]), 0)
        lines += [[(STEP, STEP)]] * (rng.random() < 0.1)
        file = write(lines, **dict(any_settings(rng), pairing=1))
    floats = rng.choice([n * n] * 5 + [n * n - 1] * 3 + [n * n + 1, 0, 1, 4 * n, 20 * 20, d.PLAN_F64, 2**20 + 400])
    if n <= 20:
        floats = rng.choice([2**n + n * n, 2**n + n * n, 2**n + n * n - 1, n * n, 2**n, 0])
    lent = dict(f64=floats, byte=rng.choice([0, 0, 0, 1, 2**12] if n > 20 else [2**n, 2**n, 2**n - 1, 0]))
    return file, lent if rng.random() < 0.7 else dict(lent, output=rng.choice([0, 5, 6, 6 + 16 * n, 6 + 16 * (3 * n - 2), 6 + 16 * 3 * n]))


def many_odd_hundreds(rng):
    """The same with 120 to some 500 odd nodes."""
    make = rng.choice([lambda: many_odd(rng, wall(rng)), lambda: many_odd(rng, net(rng, 260, 220)), lambda: many_odd(rng, *toothed(rng, rng.randint(31, 126))),
                       lambda: many_odd_stars(rng, rng.choice([120, 200, 350]), 500), lambda: many_odd_hubs(rng, 120, 250),
                       lambda: many_odd_lattices(rng, 12, 20), lambda: many_odd_trees(rng, 200, 330), lambda: many_odd_even(rng, 60, 120),
                       lambda: many_odd_chains(rng, 120, 300)])
    return make()


def caterpillar(rng, spine):
    """A spine of 511 places and a leg at each but its ends, by lines and by links: 1,020 odd nodes."""
    reach = rng.choice([1, 3, 5000])
    legs = [((x, y), (clamp(x + rng.randint(-reach, reach)), clamp(y + rng.choice([reach, 2 * reach])))) for x, y in spine[1:-1]]
    rng.shuffle(legs)
    return joined_anywhere([spine] + [list(leg) for leg in legs[:254]], legs[254:])


def many_odd_most(rng):
    """As many odd nodes as a file can have, 1,022, or nearly: combs and caterpillars, and a hub with 765 arms, open and closed."""
    way = rng.randrange(4)
    if way == 0:
        return many_odd(rng, *toothed(rng, 256, rng.random() < 0.7))
    if way == 3:
        # Rays by two in a line, and links as rays.
        hub, *tips = places(rng, 766, EDGE)
        lines = [[a, hub, b] for a, b in zip(tips[:510:2], tips[1:510:2])]
        return many_odd(rng, *joined_anywhere(lines, [(hub, tip) for tip in tips[510:]]))
    gap = rng.choice([8, 2 * STEP])
    rows = [((k % 23 if k // 23 % 2 == 0 else 22 - k % 23) * gap, k // 23 * gap) for k in range(511)]
    return many_odd(rng, *caterpillar(rng, rows if way == 1 else [(k * gap - EDGE, rng.randint(-gap, gap)) for k in range(511)]))


# ---- Kinds with Optimal and 4 to 20 odd nodes: for the choice of pairs, its cost and the order in which that is added. ----

def tables_for(n):
    """What is lent for n odd nodes, no entry more."""
    return dict(zip(("f64", "byte"), d.tables_for(n)))


def few_odd(rng, lines, links=(), largest=None):
    """The drawing with Optimal, any other settings and tables that are enough. None unless it has 4 to 20 odd nodes, and mostly where these are more than 12,
    which take long."""
    n = len(odd_places(lines, links))
    if not 4 <= n <= 20 or n > 12 and rng.random() > 2**(12 - n):
        return None
    settings = dict(any_settings(rng, largest), pairing=1)
    return write(lines, links, **settings), rng.choice([tables_for(n)] * 4 + [tables_for(n + 2 if n < 20 else n)])


def until(make):
    """The first drawing that is one."""
    while True:
        made = make()
        if made:
            return made


def few(rng, least=4):
    """A number of odd nodes, most often 12 at most."""
    return max(least, rng.choice([4, 6, 6, 8, 8, 8, 8, 10, 10, 10, 10, 12, 12, rng.choice([14, 14, 14, 14, 16, 16, 18, 20])]))


def few_odd_tiny(rng):
    """Two to seven lines and up to six links on a 3 by 3 or 4 by 4 grid, pixels or steps: ties, splits and ways over one another."""
    def make():
        side, unit = rng.randint(3, 4), rng.choice([1, STEP])
        cells = [(x * unit, y * unit) for x in range(side) for y in range(side)]
        lines = [[rng.choice(cells) for _ in range(rng.randint(1, 4))] for _ in range(rng.randint(2, 7))]
        links = tree_links(rng, lines, ways=("start", "end", "middle", "third", "beside")) if rng.random() < 0.5 else []
        for _ in range(rng.randint(0, 3)):
            la, lb = rng.randrange(len(lines)), rng.randrange(len(lines))
            links.append((la, rng.choice(segments_of(lines[la])), rng.choice(cells), lb, rng.choice(segments_of(lines[lb])), rng.choice(cells)))
        return few_odd(rng, lines, links, largest=rng.choice([4, None]))
    return until(make)


def few_odd_even(rng):
    """Spines with legs, evenly spaced: one length everywhere, so that all ties are met."""
    return until(lambda: many_odd_even(rng, 2, 9, finish=few_odd))


def few_odd_stars(rng):
    """Arms about one hub, of one length, of a few lengths, a step apart or any, straight or bent."""
    return until(lambda: many_odd_stars(rng, few(rng), 20, finish=few_odd))


def few_odd_rounded(rng):
    """Stars whose two longest arms are left out: all choices cost the same but for their roundings, so that the order of the sum decides."""
    reach = rng.choice([3, 9, 90, 9000, 100 * STEP])
    return until(lambda: few_odd(rng, level_star(rng, few(rng, 6), rng.choice([0, 0, 1, 2]), reach), largest=rng.choice([60, None])))


def few_odd_turned(rng):
    """Stars whose arms make the same steps in another order: nearly every distance is the same but for its last bits, and other ones from the other end."""
    steps, reach = rng.choice([2, 2, 3, 3, 4, 5]), rng.choice([9, 900])
    return until(lambda: few_odd(rng, turned_star(rng, few(rng), steps, reach), largest=rng.choice([9, None])))


def few_odd_ordered(rng):
    """A few lengths at many places: combs whose teeth, gaps and ends have two or three lengths, so that choices are sums of the same distances in
    another order."""
    def make():
        lengths = rng.sample([(1, 0), (0, 1), (1, 1), (2, 1), (1, 2), (3, 1), (2, 3), (3, 4), (5, 2), (7, 1)], rng.choice([2, 2, 3]))
        unit, count = rng.choice([1, STEP, 99]), rng.randint(1, 7)
        step = lambda: tuple(unit * v for v in rng.choice(lengths))
        at, lines, spine = (0, 0), [], [(0, 0)]
        for _ in range(count):
            dx, dy = step()
            at = (at[0] + dx, at[1] + dy)
            spine.append(at)
            tx, ty = step()
            lines.append([at, (at[0] + rng.choice([tx, -tx]), at[1] - ty - (ty == 0) * unit)][::rng.choice([1, -1])])
            if rng.random() < 0.3:
                spine.append(at := (at[0] + dx, at[1] + dy))
        lines.append(spine + [(at[0] + v[0], at[1] + v[1]) for v in [step()]])
        rng.shuffle(lines)
        return few_odd(rng, lines, largest=rng.choice([20, None]))
    return until(make)


def few_odd_nets(rng):
    """Lace and walls of bricks with few knots."""
    return until(lambda: few_odd(rng, wall(rng, 3, 6) if rng.random() < 0.3 else net(rng, rng.choice([9, 14, 20])), largest=rng.choice([40, None])))


def few_odd_combs(rng):
    """Combs of two to five teeth, linked where the teeth end or anywhere."""
    return until(lambda: few_odd(rng, *toothed(rng, rng.choice([2, 2, 3, 3, 4, 5]))))


def few_odd_hubs(rng):
    """Two to six hubs in a row or a ring; a tip stands beside one of another hub, near by eye and far along the lines."""
    return until(lambda: many_odd_hubs(rng, 4, 14, finish=few_odd))


def few_odd_lattices(rng):
    """Rows and columns that cross in shared points, even or not, with a few threads."""
    return until(lambda: many_odd_lattices(rng, 2, 5, 6, finish=few_odd))


def few_odd_trees(rng):
    """Random trees on a small grid or anywhere, and some links between their places."""
    return until(lambda: many_odd_trees(rng, 5, 18, (0, 0, 1, 2, 4), finish=few_odd))


def few_odd_chains(rng):
    """Rows of places joined by one segment and by two, by turns: all are odd, and ways from both ends round otherwise."""
    return until(lambda: many_odd_chains(rng, 4, 14, finish=few_odd))


def few_odd_cubes(rng):
    """Corners of a cube laid flat, some edges left out: ways of one length whose sums round apart, from the one end and from the other."""
    def make():
        k = rng.choice([2, 3, 3, 3, 4])
        sides = [spot(rng, rng.choice([3, 9, 2000])) for _ in range(k)]
        corner = lambda mask: tuple(sum(s[axis] for i, s in enumerate(sides) if mask >> i & 1) for axis in (0, 1))
        if len({corner(mask) for mask in range(2**k)}) < 2**k:
            return None
        edges = [(corner(mask), corner(mask | 1 << i)) for mask in range(2**k) for i in range(k) if not mask >> i & 1]
        gone = rng.choice([0, 0.05, 0.1, 0.2])
        return few_odd(rng, trails(rng, [edge for edge in edges if rng.random() >= gone] or edges), largest=rng.choice([20, None]))
    return until(make)


def few_odd_made(rng):
    """Flag 4 with Optimal: dots and short lines, linked by the planner, most of them with 4 to 12 odd nodes: never more than two for each line."""
    count, reach = rng.choice([3, 4, 5, 5, 6, 6, 7, 7, rng.randint(8, 10)]), rng.choice([3, 5, 9, 3000, EDGE])
    unit = 1 if reach > 99 else rng.choice([1, 512, STEP])
    place = lambda: tuple(v * unit for v in spot(rng, reach))
    lines = [[place() for _ in range(rng.choice([1, 1, 2, 2, 2, 3]))] for _ in range(count)]
    settings = dict(linking(rng, rng.choice([9, None])), pairing=1)
    return write(lines, **settings), tables_for(14) if count <= 7 else FULL


def two_ways(n, pairs, extra, flags):
    """Two hubs joined by a straight row of n segments and by a longer way of two, a short arm and a very long one at each, and a closed line of `extra` segments. The row is
    split by `pairs` times two links alike. The short arms are paired and the long ones left out, each time over the row: closed, the graph has
    3 n + 8 pairs + 10 + extra edges."""
    gap = 4
    end = (n * gap, 0)
    row = [(gap * k, 0) for k in range(n + 1)]
    lines = [row, [row[0], (2 * n, 9 * n), end], [row[0], (-1, 1)], [end, (end[0] + 1, 1)], [row[0], (-9 * n * gap, -1)], [(end[0] + 9 * n * gap, -1), end]]
    if extra:
        lines.append([end] + [(end[0] + 9, 9 + k) for k in range(extra - 1)] + [end])
    splits = [(0, k, (gap * k + 1, 0), 0, k, (gap * k + 3, 0)) for k in range(pairs) for _ in range(2)]
    return write(lines, splits, flags=flags, pairing=1)


def few_odd_tables(rng):
    """4 to 20 odd nodes with tables exact, short and of other sizes, and 9, 11, 13 and 14 beside each other."""
    n = rng.choice([4, 4, 6, 6, 8, 10, 12, 12, 14, rng.choice([16, 18, 20])])
    if rng.random() < 0.01:
        # Some pass 4,000 edges where they are closed.
        n, file = 4, two_ways(1003, 122, 5 + rng.choice([0, 1, 0, 1, -2, 9]), rng.randrange(4))
    else:
        lines = star_lines(rng, (0, 0), places(rng, n, 900, but=[(0, 0)]), 0)
        lines += [[(STEP, STEP)]] * (rng.random() < 0.1)
        file = write(lines, **dict(any_settings(rng), pairing=1))
    floats, bytes_ = d.tables_for(n)
    lent = dict(f64=rng.choice([floats] * 6 + [floats - 1] * 3 + [floats + 1, 0, n * n, 2**n, 2**n + n * (n - 1), d.tables_for(n + 2)[0], d.tables_for(n - 2)[0]]),
                byte=rng.choice([bytes_] * 6 + [bytes_ - 1, bytes_ - 1, bytes_ + 1, 0, n * n, bytes_ // 2]))
    return file, lent if rng.random() < 0.7 else dict(lent, output=rng.choice([0, 5, 6, 6 + 16 * n, 6 + 16 * (2 * n - 1), 5 + 16 * (2 * n - 1), 6 + 16 * 3 * n]))


def few_odd_most(rng):
    """14 to 20 odd nodes: stars, combs, trees and lace."""
    def finish(rng, lines, links=(), largest=None):
        n = len(odd_places(lines, links))
        fits = 14 <= n <= rng.choice([14, 16, 16, 18, 20])
        return (write(lines, links, **dict(any_settings(rng, largest), pairing=1)), tables_for(n)) if fits else None
    return until(lambda: rng.choice([
        lambda: finish(rng, level_star(rng, 2 * rng.randint(7, 10), rng.choice([0, 1, 2]), rng.choice([9, 9000])), largest=60),
        lambda: finish(rng, turned_star(rng, 2 * rng.randint(7, 10), rng.choice([2, 3, 4])), largest=9),
        lambda: many_odd_stars(rng, 14, 20, finish=finish), lambda: many_odd_trees(rng, 14, 40, finish=finish), lambda: many_odd_even(rng, 5, 12, finish=finish),
        lambda: finish(rng, net(rng, 40, 14)), lambda: finish(rng, *toothed(rng, rng.randint(4, 6))), lambda: many_odd_chains(rng, 14, 20, finish=finish)])())


KINDS = {f.__name__: f for f in (tiny, walks, lattice, honeycomb, lace, comb, cube, near, overlap, zero, links, dots, empty, pieces,
                                 limits, edges, optimal, flags, output, damaged, big)}
# Of change request 1.
LINKING_KINDS = {f.__name__: f for f in (made_touching, made_dots, made_closed, made_empty, made_lattice, made_few, made_crossing,
                                         made_long, made_many, own_links)}
# Of change request 3.
MINUS_ZERO_KINDS = {f.__name__: f for f in (minus_zero_lines, minus_zero_links, minus_zero_beside, minus_zero_splits, minus_zero_dots,
                                            minus_zero_closed, minus_zero_made, minus_zero_refused, minus_zero_older)}
# Of change request 4.
BUSY_KINDS = {f.__name__: f for f in (busy_node, busy_links, busy_pair, busy_retraces, staying, staying_made, many_edges, many_visits)}
# Of change request 5.
MANY_ODD_KINDS = {f.__name__: f for f in (many_odd_nets, many_odd_combs, many_odd_stars, many_odd_rounded, many_odd_turned, many_odd_hubs, many_odd_lattices,
                                          many_odd_trees, many_odd_even, many_odd_chains, many_odd_made, many_odd_tables,
                                          many_odd_hundreds, many_odd_most)}
# Of change request 6.
FEW_ODD_KINDS = {f.__name__: f for f in (few_odd_tiny, few_odd_even, few_odd_stars, few_odd_rounded, few_odd_turned, few_odd_ordered, few_odd_nets, few_odd_combs,
                                         few_odd_hubs, few_odd_lattices, few_odd_trees, few_odd_chains, few_odd_cubes, few_odd_made, few_odd_tables, few_odd_most)}
KINDS |= LINKING_KINDS | MINUS_ZERO_KINDS | BUSY_KINDS | MANY_ODD_KINDS | FEW_ODD_KINDS

# The part of COUNT that is made of the kinds that take long to make or to plan, where a run has many drawings.
SHARE = dict(comb=1 / 100, big=1 / 100, made_many=1 / 100, made_long=1 / 50, honeycomb=1 / 20, near=1 / 5, lace=1 / 4, edges=1 / 4,
             optimal=1 / 2, busy_retraces=1 / 10, **dict.fromkeys(["many_odd_nets", "many_odd_combs", "many_odd_stars", "many_odd_hubs",
                                                                   "many_odd_lattices", "many_odd_trees", "many_odd_made"], 1 / 2),
             many_odd_hundreds=1 / 20, many_odd_most=1 / 150, few_odd_made=1 / 2, few_odd_tables=1 / 2, few_odd_most=1 / 50)


def main():
    if sys.argv[1:] == ["--list"]:
        for name, kind in KINDS.items():
            print(f"{name:18} {kind.__doc__.splitlines()[0]}")
        return
    name, seed, count = sys.argv[1], sys.argv[2], int(sys.argv[3])
    rng = random.Random(f"{name} {seed}")
    for _ in range(count):
        file, lent = KINDS[name](rng)
        sys.stdout.buffer.write(d.batched(file, **lent))


if __name__ == "__main__":
    main()
