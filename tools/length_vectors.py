#!/usr/bin/env python3
"""Writes the root vectors of crates/length_vectors/data/vectors: n and the bits of its length, u64s, little-endian.

The length is the f64 nearest to the root of n, divided by 1,024. It is worked out apart from the definitions: a root of 200 binary places,
cut off, with a last digit that says whether anything was cut, and Python's own conversion of a whole number to the nearest float.
The same file is written on every run.
"""

import math
import pathlib
import random
import struct

PLACES = 200


def length(n):
    """The f64 nearest to the root of n, over 1,024."""
    wide = n << (2 * PLACES)
    root = math.isqrt(wide)
    sticky = 2 * root + (root * root != wide)
    return math.ldexp(float(sticky), -(PLACES + 1) - 10)


def halfway(n):
    """How far the root of n lies from the middle of two f64s, in parts of 2^-60 of their distance."""
    places = (106 - n.bit_length()) // 2
    wide = n << (2 * (places + 60))
    part = math.isqrt(wide) % (1 << 60)
    return abs(part - (1 << 59))


def around(values, width):
    return [v + d for v in values for d in range(-width, width + 1)]


def numbers():
    rng = random.Random(1873)
    yield from [0, 1, 2, 3, 25 << 20, 2**64 - 1, 2**64 - 2]
    yield from around([1 << e for e in range(1, 65)], 2)
    yield from around([2**47], 20)
    # perfect squares, of every size, and their neighbours
    for e in range(1, 33):
        roots = [2**e - 1, 2**e - 2, 2 ** (e - 1)] + [rng.randrange(2 ** (e - 1), 2**e) for _ in range(6)]
        yield from around([r * r for r in roots], 1)
    # the middle of two f64s is M / 2^(k+1) for an odd M of 54 digits, and M = j * 2^(2k+1) +- 1 has a square next to a multiple of 4^(k+1)
    for k in range(21, 27):
        least, most = 2**53 >> (2 * k + 1), 2**54 >> (2 * k + 1)
        for _ in range(40):
            j = rng.randrange(least, most + 1)
            yield from [(j * j << (2 * k)) + j, (j * j << (2 * k)) - j]
    # below 2^47 there is no such rule: the nearest of many
    tried = [rng.randrange(1, 2 ** rng.randrange(20, 48)) for _ in range(300000)]
    yield from sorted(tried, key=halfway)[:600]
    # and any others
    for e in range(1, 65):
        yield from [rng.randrange(2 ** (e - 1), 2**e) for _ in range(48)]


def main():
    path = pathlib.Path(__file__).parent.parent / "crates" / "length_vectors" / "data" / "vectors"
    kept = sorted({n for n in numbers() if 0 <= n < 2**64})
    path.write_bytes(b"".join(struct.pack("<Qd", n, length(n)) for n in kept))
    print(f"{len(kept)} vectors")


if __name__ == "__main__":
    main()
