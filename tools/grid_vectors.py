#!/usr/bin/env python3
"""Writes crates/grid_vectors/data/vectors: 64-bit patterns with their places by check 7, where minus zero is a zero (CR 3).

Each line is fixed in width: a kind, a pattern in 16 hex digits, a place in 8. Kind `r` is a pattern to read,
with its place, or ffffffff where it is not on the grid. Kind `w` is a place whose pattern is to be written.
Minus zero's place is that of 0, and what is written there is plain zero: this pattern alone does not come back.
All numbers are exact (fractions.Fraction), and the random ones come from a fixed seed.
"""
import os
import random
import struct
from fractions import Fraction

STEPS = 1024
REACH = 4096
ORIGIN = REACH * STEPS
OFF = 0xFFFFFFFF


def float_of(bits):
    return struct.unpack("<d", struct.pack("<Q", bits))[0]


def bits_of(number):
    """The pattern of a number that an f64 holds exactly."""
    as_float = float(number)
    assert Fraction(as_float) == number
    return struct.unpack("<Q", struct.pack("<d", as_float))[0]


def place_of(bits):
    """Check 7, from the pattern's value as a fraction."""
    value = float_of(bits)
    if value != value or value in (float("inf"), float("-inf")):
        return OFF
    steps = Fraction(value) * STEPS
    if steps.denominator != 1 or abs(steps) > ORIGIN:
        return OFF
    return ORIGIN + steps.numerator


def pattern_at(place):
    return bits_of(Fraction(place - ORIGIN, STEPS))


def edges():
    """The ends of every clause of the check, and their neighbours among the patterns."""
    numbers = [Fraction(REACH), Fraction(REACH) + Fraction(1, STEPS), Fraction(1, STEPS), Fraction(3, STEPS)]
    numbers += [Fraction(1, 2 * STEPS), Fraction(1), Fraction(5, 2), Fraction(REACH - 1), Fraction(2 * REACH)]
    numbers += [Fraction(REACH) - Fraction(1, STEPS), Fraction(2**52), Fraction(2**53)]
    for number in numbers:
        middle = bits_of(number)
        for near in (middle - 1, middle, middle + 1):
            yield near
            yield near | 1 << 63
    for field in [*range(0, 2048, 16), *range(1005, 1045), 2046, 2047]:
        yield field << 52
        yield field << 52 | 1 << 63
    for small in (1, 2, 2**51, 2**52 - 1):
        yield small
        yield small | 1 << 63
    for top in (0x7FF0000000000000, 0x7FF0000000000001, 0x7FF8000000000000, 0x7FFFFFFFFFFFFFFF):
        yield top
        yield top | 1 << 63


def seeded(chance):
    """Random patterns, random places, and random places with one bit of the pattern flipped."""
    for _ in range(600):
        yield chance.getrandbits(64)
    for _ in range(600):
        # an exponent at which some patterns are on the grid
        yield chance.getrandbits(1) << 63 | chance.randint(1011, 1037) << 52 | chance.getrandbits(52)
    for _ in range(1000):
        pattern = pattern_at(chance.randint(0, 2 * ORIGIN))
        yield pattern
        yield pattern ^ 1 << chance.randrange(64)


def main():
    chance = random.Random(20261115)
    patterns = list(edges()) + list(seeded(chance))
    lines = [f"r {bits:016x} {place_of(bits):08x}\n" for bits in patterns]
    places = [0, 1, ORIGIN - 1, ORIGIN, ORIGIN + 1, 2 * ORIGIN, 2 * ORIGIN + 1, 2**32 - 1]
    places += [chance.getrandbits(32) for _ in range(200)]
    lines += [f"w {pattern_at(place):016x} {place:08x}\n" for place in places]
    here = os.path.dirname(os.path.abspath(__file__))
    path = os.path.join(here, "..", "crates", "grid_vectors", "data", "vectors")
    os.makedirs(os.path.dirname(path), exist_ok=True)
    with open(path, "w", encoding="ascii") as out:
        out.writelines(lines)
    on = sum(1 for bits in patterns if place_of(bits) != OFF)
    print(f"{len(lines)} lines: {len(patterns)} patterns, {on} of them on the grid, and {len(places)} places")


main()
