#!/usr/bin/env python3
"""Runs a planner on every drawing of document 01's section 'Sample drawings'.

usage: oracle/samples.py PROGRAM [--plan]

PROGRAM reads one drawing on standard input and prints what document 01 says `plan` prints. The cases
with tables of 31 and 32 entries need the oracle's own options; --plan leaves them out.
"""
import struct
import subprocess
import sys

from drawing import drawing

CROSS = [[(0, 4), (4, 4), (8, 4)], [(4, 0), (4, 4), (4, 8)]]
SEGMENT = [[(0, 0), (3, 4)]]
STALK = [[(0, 0), (8, 0)], [(4, 4)]]
STALK_LINK = [(0, 0, (4, 0), 1, 0, (4, 4))]
EXAMPLE = bytes.fromhex("0a0000000100 0a0000000a0000000000"
                        "200000000200 0000000000000000 0000000000000000 0000000000000840 0000000000001040")

# Name, file, options, then the refusal, or: retrace, odd before, odd after, points, and what is said of
# the points: all of them in order, or a set of two ends, or nothing.
SAMPLES = [
    ("settings only", drawing([]), [], (0.0, 0, 0, 0, [])),
    ("empty file", b"", [], 3),
    ("one point", drawing([[(2, 3)]]), [], (0.0, 0, 0, 1, [(2, 3)])),
    ("one point twice", drawing([[(2, 3), (2, 3)]]), [], (0.0, 0, 0, 1, [(2, 3)])),
    ("one segment", drawing(SEGMENT), [], (0.0, 2, 2, 2, [(0, 0), (3, 4)])),
    ("one segment, Inside", drawing(SEGMENT, flags=2), [], (0.0, 2, 2, 2, [(3, 4), (0, 0)])),
    ("one segment, closing", drawing(SEGMENT, flags=1), [], (5.0, 2, 0, 3, None)),
    ("cross", drawing(CROSS), [], (8.0, 4, 2, 7, {(8, 4), (4, 8)})),
    ("cross, closing", drawing(CROSS, flags=1), [], (16.0, 4, 0, 9, None)),
    ("cross, Optimal", drawing(CROSS, pairing=1), [], (8.0, 4, 2, 7, {(0, 4), (8, 4)})),
    ("cross, Optimal, 32 entries", drawing(CROSS, pairing=1), ["--f64", "32", "--bytes", "16"], (8.0, 4, 2, 7, None)),
    ("cross, Optimal, 31 entries", drawing(CROSS, pairing=1), ["--f64", "31", "--bytes", "16"], 11),
    ("linked dot", drawing(STALK, STALK_LINK), [], (4.0, 4, 2, 5, None)),
    ("dot without its link", drawing(STALK), [], 9),
    ("4,096", drawing([[(4096, 4096)]]), [], (0.0, 0, 0, 1, [(4096, 4096)])),
    ("4,096 and a step", drawing([[(4096 + 1 / 1024, 4096)]]), [], 7),
    ("the example of plan", EXAMPLE, [], (0.0, 2, 2, 2, [(0, 0), (3, 4)])),
]


def fits(want, printed):
    rows = printed.split("\n")
    if isinstance(want, int):
        return printed == f"refused {want}\n"
    retrace, before, after, count, points = want
    if rows[0] != f"ok {struct.pack('>d', retrace).hex()} {before} {after} {count}" or len(rows) != count + 2:
        return False
    got = [tuple(int(word) / 1024 for word in row.split(" ")) for row in rows[1:-1]]
    if isinstance(points, set):
        return {got[0], got[-1]} == points
    return points is None or got == points


def main():
    program, wrong = sys.argv[1], 0
    samples = [s for s in SAMPLES if not s[2] or "--plan" not in sys.argv]
    for name, file, options, want in samples:
        printed = subprocess.run([program, *options], input=file, capture_output=True, check=True).stdout.decode()
        if not fits(want, printed):
            wrong += 1
            print(f"{name}: wanted {want}, got\n{printed}")
    print(f"{len(samples) - wrong} samples right, {wrong} wrong")
    sys.exit(wrong > 0)


if __name__ == "__main__":
    main()
