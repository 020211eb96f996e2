#!/usr/bin/env python3
"""Writes crates/file_cases/data/cases: drawing files with what the reader has to answer to each.

Every refusal from 1 to 8, and 15 between 6 and 7, both sides of every limit, and minus zero, which is read as 0. What is
expected is worked out here, from documents 01 and 02, with exact fractions. All numbers are little-endian; the file is a u16
count of cases and then, for each case,
  u8 runs, and for each run a u32 repeat, a u16 length and the bytes (the drawing file is the runs, repeated),
  u8 refusal (0: accepted), u32 checksum of the settings, the lines and all arrays of places,
  u16 links, and for each four u16 (line, segment, line, segment) and four u32 places (x, y, x, y).
"""
import os
import random
import struct
from fractions import Fraction

STEPS = 1024
ORIGIN = 4096 * STEPS
PRIME = 4294967291


# ---- drawing files, as lists of runs (repeat, bytes)

def record(kind, body):
    return struct.pack("<IH", len(body), kind) + body


def settings(width=10, height=10, pairing=0, flags=0):
    return record(1, struct.pack("<IIBB", width, height, pairing, flags))


def coordinates(*values):
    return b"".join(v if isinstance(v, bytes) else struct.pack("<d", v) for v in values)


def line(*points):
    return record(2, b"".join(coordinates(x, y) for x, y in points))


def link(a, b, ends=((0.0, 0.0), (0.0, 0.0))):
    return record(3, struct.pack("<HHHH", *a, *b) + coordinates(*ends[0], *ends[1]))


def once(*parts):
    return [(1, b"".join(parts))]


def zeros(kind, size):
    """A record whose body is zeros, as two runs."""
    return [(1, struct.pack("<IH", size, kind)), (size, b"\0")]


# ---- document 01, with what CR 1 and 3 change, read as it stands

def place_of(bits):
    """A coordinate's place, or None where check 7 refuses it."""
    if bits >> 52 & 0x7FF == 0x7FF:
        return None
    steps = Fraction(struct.unpack("<d", struct.pack("<Q", bits))[0]) * STEPS
    if steps.denominator != 1 or abs(steps) > ORIGIN:
        return None
    return ORIGIN + steps.numerator


def records_of(data):
    found = []
    while data:
        if len(data) < 6:
            return None
        size, kind = struct.unpack("<IH", data[:6])
        if len(data) < 6 + size:
            return None
        found.append((kind, data[6:6 + size]))
        data = data[6 + size:]
    return found


def read(data):
    """The refusal, or 0 with the settings, the lines' places and the links."""
    if len(data) > 65536:
        return 1, None
    found = records_of(data)
    if found is None:
        return 2, None
    kinds = [kind for kind, _ in found]
    lines = [body for kind, body in found if kind == 2]
    links = [body for kind, body in found if kind == 3]
    if kinds != [1] + [2] * len(lines) + [3] * len(links):
        return 3, None
    top = found[0][1]
    if len(top) != 10 or any(len(b) % 16 for b in lines) or any(len(b) != 40 for b in links):
        return 4, None
    width, height, pairing, flags = struct.unpack("<IIBB", top)
    if width > 8192 or height > 8192 or pairing > 1 or flags > 7:
        return 5, None
    if len(lines) > 256 or sum(len(b) for b in lines) // 16 > 1024 or len(links) > 255:
        return 6, None
    if flags & 4 and links:
        return 15, None
    places = [[place_of(w) for w in struct.unpack(f"<{len(b) // 8}Q", b)] for b in lines]
    ends = [[place_of(w) for w in struct.unpack("<4Q", b[8:])] for b in links]
    if any(p is None for row in places + ends for p in row):
        return 7, None
    names = [struct.unpack("<4H", b[:8]) for b in links]
    for a, s, b, t in names:
        for where, segment in ((a, s), (b, t)):
            if where >= len(lines) or not lines[where] or segment > max(0, len(lines[where]) // 16 - 2):
                return 8, None
    return 0, ((width, height, pairing, flags), places, list(zip(names, ends)))


def checksum(found):
    """Over the settings and the arrays, with the zeros behind what they hold."""
    top, lines, links = found or ((0, 0, 0, 0), [], [])
    starts = [0]
    for row in lines:
        starts.append(starts[-1] + len(row) // 2)
    flat = [p for row in lines for p in row]
    values = list(top) + [len(lines)] + starts + [0] * (257 - len(starts)) + [starts[-1]]
    for axis in (flat[0::2], flat[1::2]):
        values += axis + [0] * (1024 - len(axis))
    values.append(len(links))
    total = 0
    for v in values:
        total = (total * 31 + v) % PRIME
    return total


# ---- the cases

def cases():
    base = settings()
    dot = line((0.0, 0.0))
    pair = line((0.0, 0.0), (3.0, 4.0))
    step = 1.0 / STEPS
    nan, infinite, off = struct.pack("<Q", 0x7FF8000000000000), struct.pack("<Q", 0x7FF0000000000000), step / 2

    # check 1
    eight = [(1, base)]
    for points in [511] * 7 + [515]:
        eight += zeros(2, 16 * points)
    yield eight                                       # 65,536 bytes: too many points
    yield eight + [(1, b"\0")]
    yield [(65536, b"\0")]
    yield [(65537, b"\0")]
    yield [(1, base)] + zeros(2, 65514)               # 65,536 bytes in two records
    yield [(1, base)] + zeros(2, 65515)

    # check 2: a head cut at each of its bytes, first in the file and later; a body cut; lengths past the end
    for n in range(1, 6):
        yield once(base[:n])
        yield once(base, dot[:n])
    yield once(base[:6])
    yield once(base[:15])
    yield once(base, pair[:-1])
    yield once(base, b"\xff\xff\xff\xff\x02\x00")
    yield once(base, b"\xff\xff\xff\xff\x02\x00", bytes(64))
    yield once(b"\x0b\0\0\0\x01\0", base[6:])
    yield once(base, record(2, b""), b"\0")
    yield once(b"\x09\0\x01\0\x01\0", base[6:])       # the length's third byte counts

    # check 3
    yield [(1, b"")]
    yield once(base)
    yield once(dot)
    yield once(base, base)
    yield once(dot, base)
    yield once(base, link((0, 0), (0, 0)), dot)
    yield once(base, dot, base)
    yield once(base, record(4, b""))
    yield once(base, record(0, b""))
    yield once(base, record(258, b""))
    yield once(record(257, base[6:]))
    yield once(base, dot, link((0, 0), (0, 0)), link((0, 0), (0, 0)))
    yield once(record(1, bytes(9)), record(7, b""))   # and not 4

    # check 4
    for n in (0, 9, 11, 20):
        yield once(record(1, bytes(n)))
    for n in (1, 8, 15, 17, 24, 31):
        yield once(base, record(2, bytes(n)))
        yield once(base, record(2, bytes(16)), record(2, bytes(n)))
    for n in (0, 39, 41, 80):
        yield once(base, dot, record(3, bytes(n)))
    yield once(base, record(2, b""))
    yield once(settings(9000), record(2, bytes(8)))   # and not 5

    # check 5
    for side in (0, 1, 8191, 8192, 8193, 65536, 2**32 - 1):
        yield once(settings(width=side))
        yield once(settings(height=side))
    for pairing in (0, 1, 2, 255):
        yield once(settings(pairing=pairing))
    for flags in (0, 1, 2, 3, 4, 5, 6, 7, 8, 9, 12, 16, 128, 255):
        yield once(settings(flags=flags))
    yield [(1, settings(flags=8)), (257, record(2, b""))]   # and not 6

    # check 6
    yield [(1, base), (256, record(2, b""))]
    yield [(1, base), (257, record(2, b""))]
    yield [(1, base), (256, dot)]
    yield [(1, base), (257, dot)]
    yield [(1, base), (1, struct.pack("<IH", 16 * 1024, 2)), (1024, coordinates(1.0, -2.0))]
    yield [(1, base), (1, struct.pack("<IH", 16 * 1025, 2)), (1025, coordinates(1.0, -2.0))]
    yield [(1, base), (1, struct.pack("<IH", 16 * 1023, 2)), (1023, coordinates(1.5, 2.0)), (1, dot)]
    yield [(1, base), (1, struct.pack("<IH", 16 * 1023, 2)), (1023, coordinates(1.5, 2.0)), (2, dot)]
    some = link((1, 0), (0, 0), ((1.0, 2.0), (-3.0, 4.5)))
    yield [(1, base), (2, pair), (255, some)]
    yield [(1, base), (2, pair), (256, some)]
    yield [(1, base), (257, line((off, 0.0)))]               # and not 7

    # check 15: a link for each value of the flags, and none; the neighbours, each also with a link and no flag
    other = line((1.0, 0.0), (1.0, 2.0))
    joined = link((0, 0), (1, 0), ((0.0, 0.0), (1.0, 0.0)))
    for flags in range(8):
        yield once(settings(flags=flags), pair, other, joined)
        yield once(settings(flags=flags), pair, line(), other)
    yield once(settings(flags=4), link((0, 0), (0, 0)))
    yield [(1, settings(flags=4)), (2, pair), (255, some)]
    yield once(settings(flags=12), pair, other, joined)                                  # 5 and not 15
    yield once(settings(pairing=2, flags=4), pair, other, joined)
    yield [(1, settings(flags=4)), (2, pair), (256, some)]                               # 6 and not 15
    yield [(1, settings(flags=4)), (257, dot), (1, some)]
    for flags in (0, 4):
        yield once(settings(flags=flags), pair, line((off, 0.0)), joined)                # 15 and not 7
        yield once(settings(flags=flags), pair, other, link((0, 0), (1, 0), ((nan, 0.0), (1.0, 0.0))))
        yield once(settings(flags=flags), pair, other, link((0, 1), (1, 0)))             # 15 and not 8
        yield once(settings(flags=flags), pair, line(), link((0, 0), (1, 0)))
        yield once(settings(flags=flags), pair, other, joined, link((9, 0), (0, 0), ((nan, 0.0), (0.0, 0.0))))

    # check 7: in a line, x and y, first and last; in each coordinate of a link
    for value in (4096.0, 4096.0 + step, -4096.0, -4096.0 - step, step, -step, off, 4096.0 - step, 0.0,
                  nan, infinite, 1e300, 5e-324, -5e-324, 2.5, -1023.25):
        yield once(base, line((value, 0.0)))
        yield once(base, line((1.0, 1.0), (0.0, value)))
        yield once(base, pair, line(), line((1.0, 1.0), (value, 2.0)))
    for where in range(4):
        for value in (4096.0, 4096.0 + step, nan, -step):
            ends = [0.0] * 4
            ends[where] = value
            yield once(base, pair, link((0, 0), (0, 0)), link((0, 0), (0, 0), (ends[:2], ends[2:])))
    yield once(base, pair, link((9, 0), (0, 0), ((nan, 0.0), (0.0, 0.0))))   # and not 8

    yield from with_minus_zero()

    # check 8: missing and empty lines; segments at and past their bound; either end
    three = line((0.0, 0.0), (1.0, 0.0), (2.0, 0.0))
    lines = [line(), dot, pair, three]
    for where in range(5):
        for segment in (0, 1, 2):
            yield once(base, *lines, link((where, segment), (1, 0)))
            yield once(base, *lines, link((1, 0), (where, segment)))
    for a in ((65535, 0), (3, 65535), (256, 0)):
        yield once(base, *lines, link(a, (1, 0)))
        yield once(base, *lines, link((1, 0), (1, 0)), link((1, 0), a))
    yield once(base, link((0, 0), (0, 0)))
    yield [(1, base), (255, dot), (1, three), (1, link((255, 1), (0, 0)))]
    yield [(1, base), (255, dot), (1, three), (1, link((255, 2), (0, 0)))]

    # the sample of document 01, and drawings from a fixed seed
    yield once(base, line((0.0, 0.0), (8.0, 0.0)), line((4.0, 4.0)), link((0, 0), (1, 0), ((4.0, 0.0), (4.0, 4.0))))
    chance = random.Random(20261115)

    def anywhere():
        return chance.randint(-ORIGIN, ORIGIN) / STEPS or 0.0

    for number in range(16):
        flags = number % 8
        counts = [chance.choice((0, 1, 2, 3, 5, 9)) for _ in range(chance.randint(1, 12))]
        parts = [settings(chance.randint(0, 8192), chance.randint(0, 8192), chance.randint(0, 1), flags)]
        parts += [line(*((anywhere(), anywhere()) for _ in range(n))) for n in counts]
        full_lines = [i for i, n in enumerate(counts) if n]
        for _ in range(chance.randint(0, 6) if full_lines and not flags & 4 else 0):
            a, b = chance.choice(full_lines), chance.choice(full_lines)
            named = [(i, chance.randint(0, max(0, counts[i] - 2))) for i in (a, b)]
            parts.append(link(*named, ((anywhere(), anywhere()), (anywhere(), anywhere()))))
        yield once(*parts)


def with_minus_zero():
    """Minus zero is taken and read at the place of 0: at every place in a line and in a link, alone and all at once, and
    beside what is refused."""
    base, dot, pair = settings(), line((0.0, 0.0)), line((0.0, 0.0), (3.0, 4.0))
    minus, nan, off = struct.pack("<Q", 1 << 63), struct.pack("<Q", 0x7FF8000000000000), 0.5 / STEPS
    for x, y in ((minus, 0.0), (minus, 3.0), (0.0, minus), (-2.5, minus), (minus, minus)):
        yield once(base, line((x, y)))
        yield once(base, line((1.0, 1.0), (x, y)))
        yield once(base, pair, line(), line((x, y), (1.0, 1.0), (0.0, 0.0)), line((2.0, 2.0), (x, y)))
        yield once(settings(flags=4), pair, line((x, y), (0.0, 0.0)))
    for where in range(4):
        for ends in ([0.0] * 4, [5.0, -6.0, 7.0, -8.0]):
            ends[where] = minus
            yield once(base, pair, dot, link((0, 0), (1, 0)), link((0, 0), (1, 0), (ends[:2], ends[2:])), link((1, 0), (1, 0)))
    three = line(*[(minus, minus)] * 3)
    joined = link((0, 1), (0, 0), [(minus, minus)] * 2)
    yield once(base, three, joined, joined)
    for wrong in (off, -off, nan, 5e-324, -5e-324):
        yield once(base, line((minus, wrong)), line((minus, 0.0)))                      # 7
        yield once(base, pair, link((0, 0), (0, 0), ((minus, 0.0), (0.0, wrong))))
    yield once(base, three, link((0, 2), (0, 0), ((minus, 0.0), (0.0, 0.0))))           # 8
    yield once(base, three, link((0, 0), (1, 0), ((0.0, 0.0), (0.0, minus))))
    yield once(settings(flags=4), three, joined)                                        # 15
    yield [(1, base), (257, line((minus, 0.0)))]                                        # 6


def main():
    packed = []
    answers = []
    for runs in cases():
        data = b"".join(text * repeat for repeat, text in runs)
        number, found = read(data)
        answers.append(number)
        out = struct.pack("<B", len(runs))
        for repeat, text in runs:
            out += struct.pack("<IH", repeat, len(text)) + text
        links = found[2] if found else []
        out += struct.pack("<BIH", number, checksum(found), len(links))
        for names, ends in links:
            out += struct.pack("<4H4I", *names, *ends)
        packed.append(out)
    here = os.path.dirname(os.path.abspath(__file__))
    path = os.path.join(here, "..", "crates", "file_cases", "data", "cases")
    os.makedirs(os.path.dirname(path), exist_ok=True)
    with open(path, "wb") as out:
        out.write(struct.pack("<H", len(packed)) + b"".join(packed))
    counted = ", ".join(f"{answers.count(n)} of {n}" for n in (0, 1, 2, 3, 4, 5, 6, 15, 7, 8))
    print(f"{len(packed)} files: {counted}; {os.path.getsize(path)} bytes")


main()
