"""Drawings as they are handed to a writer (handed.rs), in the batch form that the oracle reads, and a generator of them by kinds.

A kind gives a drawing and the bytes of the destination, the same ones for the same seed. Coordinates are 64-bit patterns here.
"""
import collections
import struct

from generate import COORDINATES, EDGE, LINK, MINUS_ZERO, STEP, bits

Handed = collections.namedtuple("Handed", "width height pairing flags sizes coordinates segments ends")

MOST_LINES, MOST_POINTS, MOST_LINKS = 256, 1024, 255
MOST_FILE = 16 + 6 * MOST_LINES + 16 * MOST_POINTS + 46 * MOST_LINKS
ROOM = 70_000  # the longest destination that the oracle lends


def batched(handed, destination):
    """One drawing of a batch: settings, lengths of the slices and of the destination, the slices."""
    sizes, coordinates, segments, ends = handed[4:]
    return (struct.pack("<9I", *handed[:4], len(sizes), len(coordinates), len(segments), len(ends), destination) +
            struct.pack(f"<{len(sizes)}I", *sizes) + struct.pack(f"<{len(coordinates)}Q", *coordinates) +
            struct.pack(f"<{len(segments)}I", *segments) + struct.pack(f"<{len(ends)}Q", *ends))


class Plain:
    """A drawing to put faults into: a line is a list of points, a link (line, segment, line, segment, x, y, x, y)."""

    def __init__(self, lines=(), links=(), width=10, height=10, pairing=0, flags=0):
        self.lines, self.links = [list(line) for line in lines], list(links)
        self.width, self.height, self.pairing, self.flags = width, height, pairing, flags

    def handed(self):
        return Handed(self.width, self.height, self.pairing, self.flags, [len(line) for line in self.lines],
                      [c for line in self.lines for point in line for c in point],
                      [n for link in self.links for n in link[:4]], [c for link in self.links for c in link[4:]])

    def points(self):
        return sum(map(len, self.lines))

    def length(self):
        """The bytes of its file."""
        return 16 + 6 * len(self.lines) + 16 * self.points() + 46 * len(self.links)


# ---- right drawings

def number(rng):
    """A coordinate that may be: any step, a small one, one at an edge."""
    way = rng.randrange(6)
    if way < 3:
        return bits(rng.randint(-EDGE, EDGE) / STEP)
    if way < 5:
        return bits(float(rng.randint(-9, 9)))
    return bits(rng.choice([0.0, 4096.0, -4096.0, 1 / 1024, -1 / 1024, 4095 + 1023 / 1024, 1 / 1024 - 4096, 0.5, -1.0]))


def point(rng):
    return (number(rng), number(rng))


def some_settings(rng):
    side = lambda: rng.choice([0, 1, 10, 255, 256, 8191, 8192, rng.randrange(8193)])
    return dict(width=side(), height=side(), pairing=rng.randrange(2), flags=rng.randrange(4))


def a_link(rng, plain):
    """A link that may be, of a drawing that has points."""
    names = []
    for _ in range(2):
        line = rng.choice([n for n, line in enumerate(plain.lines) if line])
        last = max(0, len(plain.lines[line]) - 2)
        names += [line, rng.choice([0, last, rng.randint(0, last)])]
    return (*names, *point(rng), *point(rng))


def with_links(rng, plain, count):
    if plain.points():
        plain.links = [a_link(rng, plain) for _ in range(count)]
    return plain


def small(rng):
    sizes = rng.choice([(0, 1, 2, 3, 4, 5, 6), (0, 0, 1), (1,), (0, 1, 2), (2, 3)])
    lines = [[point(rng) for _ in range(rng.choice(sizes))] for _ in range(rng.randint(0, 6))]
    plain = with_links(rng, Plain(lines, **some_settings(rng)), rng.choice([0, 0, 1, 1, 2, 3, 6]))
    if not plain.links and rng.random() < 0.5:
        plain.flags |= LINK
    return plain


def large(rng):
    """Near the limits: some of 256 lines, 1,024 points and 255 links."""
    count = rng.choice([1, 2, 100, 255, 256, 256])
    points = rng.choice([1024, 1024, 1023, rng.randint(count, 1024)])
    left = points - count
    sizes = [1] * count
    while left:
        part = min(left, rng.randint(1, max(1, points // 2)))
        sizes[rng.randrange(count)] += part
        left -= part
    if rng.random() < 0.3:
        # Some lines empty, their points in another.
        for _ in range(rng.randint(1, count)):
            a, b = rng.randrange(count), rng.randrange(count)
            if a != b:
                sizes[a], sizes[b] = 0, sizes[a] + sizes[b]
    common = [point(rng) for _ in range(40)]
    plain = Plain([[rng.choice(common) for _ in range(size)] for size in sizes], **some_settings(rng))
    with_links(rng, plain, rng.choice([0, 254, 255, 255, rng.randrange(256)]))
    if not plain.links and rng.random() < 0.5:
        plain.flags |= LINK
    return plain


# ---- faults, each for one refusal

def with_points(rng, plain):
    if not plain.points():
        plain.lines.append([point(rng)])
    return plain


def with_a_link(rng, plain):
    if not plain.links:
        with_points(rng, plain).links.append(a_link(rng, plain))
        plain.flags &= ~LINK
    return plain


def wrong_settings(rng, plain):
    """5"""
    above = lambda: rng.choice([8193, 8192 + 256, 65535, 65536, 65536 + 10, 2**31, 2**32 - 1, rng.randint(8193, 2**32 - 1)])
    way = rng.randrange(4)
    if way == 0:
        plain.width = above()
    elif way == 1:
        plain.height = above()
    elif way == 2:
        plain.pairing = rng.choice([2, 3, 128, 255, rng.randint(2, 255)])
    else:
        plain.flags = plain.flags & LINK | rng.choice([8, 9, 12, 16, 128, 255, rng.randint(8, 255)])  # with 15 it stays 15


def too_many(rng, plain):
    """6"""
    way = rng.randrange(3)
    more = rng.choice([1, 1, 1, 2, rng.randint(1, 300)])
    if way == 0:
        fill = rng.choice([lambda: [], lambda: [], lambda: [point(rng)]])
        spare = MOST_LINES + more - len(plain.lines)
        at = rng.choice([0, len(plain.lines)]) if not plain.links else len(plain.lines)
        plain.lines[at:at] = [fill() for _ in range(spare)]
    elif way == 1:
        common = [point(rng) for _ in range(8)]
        spare = [rng.choice(common) for _ in range(MOST_POINTS + more - plain.points())]
        if rng.random() < 0.5 and plain.lines:
            plain.lines[rng.randrange(len(plain.lines))] += spare
        else:
            cut = rng.randrange(len(spare) + 1)
            plain.lines += [spare[:cut], spare[cut:]] if rng.random() < 0.5 else [spare]
    else:
        with_a_link(rng, plain)
        plain.links += [rng.choice(plain.links) for _ in range(MOST_LINKS + more - len(plain.links))]


def own_links(rng, plain):
    """15"""
    with_a_link(rng, plain).flags |= LINK


def of_bits(pattern):
    return struct.unpack("<d", struct.pack("<Q", pattern))[0]


def is_on_grid(pattern):
    value = of_bits(pattern)
    return abs(value) <= 4096 and (value * 1024).is_integer()


ODD_PATTERNS = [bits(c) for c in COORDINATES] + [
    0x7ff0000000000001, 0x7fffffffffffffff, 0xffffffffffffffff, 0x000fffffffffffff, 0x800fffffffffffff, 0x0010000000000000, 0x8010000000000000,
    bits(4096.5), bits(-4096.5), bits(-8192.0), bits(2.0**52), bits(2.0**63), bits(-2.0**63), bits(2.0**64), bits(1 / 3), bits(0.1),
    bits(-4096.0) + 1, bits(1 / 1024) - 1, bits(1 / 1024) + 1, bits(1.0) - 1, bits(3 / 2048), bits(2047 / 2048), bits(4095 + 2047 / 2048)]
# Minus zero was among these before change request 3. The pattern next to it has its place, so that a seed makes the drawings that it made.
BAD = [pattern for pattern in (MINUS_ZERO + 1 if p == MINUS_ZERO else p for p in ODD_PATTERNS) if not is_on_grid(pattern)]


def odd_number(rng):
    """A pattern near one that may be: a bit turned, or anything. Most are off the grid."""
    way = rng.randrange(5)
    if way == 0:
        return rng.choice(ODD_PATTERNS)
    if way == 1:
        return number(rng) ^ 1 << rng.randrange(64)
    if way == 2:
        return max(0, number(rng) + rng.choice([-1, 1, 2, -2]))
    if way == 3:
        return bits(rng.choice([rng.randint(-2 * EDGE, 2 * EDGE) / STEP, rng.randint(-2 * EDGE, 2 * EDGE) / (2 * STEP)]))
    return rng.getrandbits(64)


def put_coordinate(rng, plain, pattern):
    """Anywhere: in a line or in a link, the first and the last more often."""
    places = [(n, k, axis) for n, line in enumerate(plain.lines) for k in range(len(line)) for axis in (0, 1)]
    places += [(n, axis) for n in range(len(plain.links)) for axis in range(4, 8)]
    place = rng.choice([places[0], places[-1], rng.choice(places), rng.choice(places)])
    if len(place) == 3:
        n, k, axis = place
        old = plain.lines[n][k]
        plain.lines[n][k] = (pattern, old[1]) if axis == 0 else (old[0], pattern)
    else:
        n, axis = place
        link = list(plain.links[n])
        link[axis] = pattern
        plain.links[n] = tuple(link)


def off_grid(rng, plain):
    """7"""
    with_points(rng, plain)
    for _ in range(rng.choice([1, 1, 1, 2])):
        put_coordinate(rng, plain, rng.choice(BAD))


def put_name(rng, plain, sure):
    """An end of some link names a line or a segment at or past an edge; past it, if it is to be sure."""
    n = rng.choice([0, len(plain.links) - 1, rng.randrange(len(plain.links))])
    link = list(plain.links[n])
    end = rng.choice([0, 2])
    if rng.random() < 0.5:
        empty = [k for k, line in enumerate(plain.lines) if not line]
        lines = len(plain.lines)
        past = [lines, lines + 1, max(lines, 255), max(lines, 256), 65535, 65536, 65536 + link[end], 2**31 + link[end], 2**32 - 1, *empty[:1] * 4]
        link[end] = rng.choice(past + ([] if sure else [lines - 1, 0]))
    else:
        size = len(plain.lines[link[end]])
        past = [max(1, size - 1), max(1, size), size + 1, 65535, 65536, 65536 + link[end + 1], 2**31, 2**32 - 1]
        link[end + 1] = rng.choice(past + ([] if sure else [max(0, size - 2), 0]))
    plain.links[n] = tuple(link)


def astray(rng, plain):
    """8"""
    with_a_link(rng, plain)
    plain.flags &= ~LINK
    put_name(rng, plain, True)


def misfit(rng, handed):
    """4: lengths that do not fit one another."""
    sizes, coordinates, segments, ends = map(list, handed[4:])
    was = (list(sizes), len(coordinates), len(segments), len(ends))
    way = rng.randrange(9)
    if way == 0:
        coordinates += [number(rng) for _ in range(rng.choice([1, 1, 2, 3, 4]))]
    elif way == 1 and coordinates:
        del coordinates[-rng.choice([1, 1, 2, len(coordinates)]):]
    elif way == 2:
        sizes.insert(rng.randint(0, len(sizes)), rng.choice([1, 2, 2**16, 2**31, 2**32 - 1]))
    elif way == 3 and sizes:
        k = rng.randrange(len(sizes))
        sizes[k] = rng.choice([max(0, sizes[k] - 1), sizes[k] + 1, sizes[k] + 2**16, (sizes[k] + 2**31) % 2**32, 2**32 - 1])
    elif way == 4:
        # Their sum is what it was, if it is taken in 32 bits.
        more = rng.choice([(2**31, 2**31), (2**32 - 1, 1), (1, 2**32 - 1), (2**31,)])
        at = rng.randint(0, len(sizes))
        sizes[at:at] = more
    elif way == 5:
        segments += [0] * rng.choice([1, 2, 3, 4])
    elif way == 6 and segments:
        del segments[-rng.choice([1, 2, 3, 4]):]
    elif way == 7:
        ends += [number(rng) for _ in range(rng.choice([1, 2, 3, 4, 8]))]
    elif way == 8:
        # As many of each, and no whole link.
        count = rng.randint(1, 3)
        segments += [0] * count
        ends += [number(rng) for _ in range(count)]
    if was == (sizes, len(coordinates), len(segments), len(ends)):
        segments.append(0)
    return handed._replace(sizes=sizes, coordinates=coordinates, segments=segments, ends=ends)


def enough(rng, plain):
    """A destination that is long enough."""
    length = plain.length()
    return min(ROOM, rng.choice([length, length, length + 1, length + rng.randint(1, 200), max(length, MOST_FILE), length + 2000]))


def too_short(rng, plain):
    """16"""
    length = min(plain.length(), ROOM)
    return max(0, rng.choice([length - 1, length - 1, 0, 1, 6, 15, 16, length // 2, rng.randrange(length), length - 46, length - 16]))


# ---- the kinds

def saved_small(rng):
    """Small drawings of all sorts: empty lines, dots, links, flag 4."""
    plain = small(rng)
    return plain.handed(), enough(rng, plain)


def saved_large(rng):
    """Drawings at the limits."""
    plain = large(rng)
    return plain.handed(), enough(rng, plain) if rng.random() < 0.8 else too_short(rng, plain)


def saved_lines(rng):
    """Hundreds of lines, most of them empty or dots, around the limit."""
    count = rng.choice([200, 255, 256, 256, 257, 300])
    plain = Plain([[point(rng) for _ in range(rng.choice([0, 0, 0, 1, 1, 3]))] for _ in range(count)], **some_settings(rng))
    with_links(rng, plain, rng.choice([0, 1, 2]))
    return plain.handed(), enough(rng, plain)


def saved_settings(rng):
    """Settings at and past their edges."""
    plain = small(rng)
    if rng.random() < 0.7:
        wrong_settings(rng, plain)
    else:
        plain.flags = rng.randrange(8)
    return plain.handed(), enough(rng, plain)


def saved_too_many(rng):
    """One line, point or link more than there may be, and many more."""
    plain = small(rng) if rng.random() < 0.7 else large(rng)
    too_many(rng, plain)
    return plain.handed(), enough(rng, plain)


def saved_flagged(rng):
    """Flag 4 with links and without."""
    plain = small(rng)
    own_links(rng, plain)
    if rng.random() < 0.2:
        plain.links = []
    return plain.handed(), enough(rng, plain)


def saved_coordinates(rng):
    """A coordinate that is near the grid or nothing like it, anywhere."""
    plain = with_points(rng, small(rng))
    for _ in range(rng.choice([1, 1, 1, 2, 5])):
        put_coordinate(rng, plain, odd_number(rng))
    return plain.handed(), enough(rng, plain)


def saved_names(rng):
    """Links that name lines and segments at and past the last."""
    plain = with_a_link(rng, small(rng))
    put_name(rng, plain, False)
    return plain.handed(), enough(rng, plain)


def saved_misfit(rng):
    """Slices whose lengths do not fit one another."""
    plain = small(rng)
    return misfit(rng, plain.handed()), rng.choice([enough, too_short])(rng, plain)


def saved_short(rng):
    """Destinations that are a byte short, empty, or too short in some other way."""
    plain = small(rng)
    return plain.handed(), too_short(rng, plain) if rng.random() < 0.8 else enough(rng, plain)


# In the order of the refusals; 4 and 16 are put in from outside.
FAULTS = {5: wrong_settings, 6: too_many, 15: own_links, 7: off_grid, 8: astray}
NUMBERS = [4, *FAULTS, 16]
# 15 and 8 are put in before 6 and 7, so that a link that they add does not come too late, and 15 after 8, which takes the flag away.
PUT_IN = [8, 15, 6, 7, 5]


def with_faults(rng, numbers, plain=None):
    plain = plain or small(rng)
    for which in PUT_IN:
        if which in numbers:
            FAULTS[which](rng, plain)
    handed = plain.handed()
    return misfit(rng, handed) if 4 in numbers else handed, (too_short if 16 in numbers else enough)(rng, plain)


def saved_two_faults(rng):
    """Two faults at once, for every two refusals."""
    return with_faults(rng, rng.sample(NUMBERS, 2))


def saved_many_faults(rng):
    """Three faults at once and more."""
    among = NUMBERS[rng.choice([0, 1, 1, 1, 2, 3]):]
    return with_faults(rng, rng.sample(among, rng.randint(3, len(among))))


def with_minus_zeros(rng, plain):
    """Some of its coordinates, or all, become minus zeros, and some plain ones."""
    share, minus = rng.choice([0.1, 0.3, 0.6, 1]), rng.choice([0.5, 0.9, 1])
    turned = lambda pattern: pattern if rng.random() >= share else MINUS_ZERO if rng.random() < minus else 0
    plain.lines = [[(turned(x), turned(y)) for x, y in line] for line in plain.lines]
    plain.links = [(*link[:4], *map(turned, link[4:])) for link in plain.links]
    put_coordinate(rng, with_points(rng, plain), MINUS_ZERO)
    return plain


def saved_minus_zero(rng):
    """Minus zeros in coordinates and in ends of links."""
    plain = with_minus_zeros(rng, with_a_link(rng, small(rng)) if rng.random() < 0.6 else small(rng))
    return plain.handed(), enough(rng, plain)


def saved_minus_zero_large(rng):
    """Minus zeros in drawings at the limits."""
    plain = with_minus_zeros(rng, large(rng))
    return plain.handed(), enough(rng, plain) if rng.random() < 0.9 else too_short(rng, plain)


def saved_minus_zero_faults(rng):
    """Minus zeros together with each fault, and with two."""
    return with_faults(rng, rng.sample(NUMBERS, rng.choice([1, 1, 2])), with_minus_zeros(rng, small(rng)))


def saved_far_too_many(rng):
    """So many lines, points or links that their number has more than two bytes."""
    count = 65536 + rng.choice([0, 1, 2, 20])
    plain = small(rng)
    way = rng.randrange(3)
    if way == 0:
        plain.lines += [[]] * count
    elif way == 1:
        plain.lines.append([point(rng)] * count)
    else:
        with_a_link(rng, plain)
        plain.links += [plain.links[0]] * count
    return plain.handed(), rng.choice([ROOM, 0, 100, MOST_FILE])


HANDED_KINDS = {f.__name__: f for f in (
    saved_small, saved_large, saved_lines, saved_settings, saved_too_many, saved_flagged, saved_coordinates, saved_names, saved_misfit,
    saved_short, saved_two_faults, saved_many_faults, saved_far_too_many, saved_minus_zero, saved_minus_zero_large,
    saved_minus_zero_faults)}
