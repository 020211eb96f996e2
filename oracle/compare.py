#!/usr/bin/env python3
"""Holds two planners against each other on generated drawings.

usage: oracle/compare.py PLANNER PLANNER SEED COUNT [KIND ...]      (all kinds if none is named)

A PLANNER is a command that reads a batch and prints one line for each drawing, such as
'OUT/oracle --batch --line', or 'each COMMAND' for a program like `plan` that reads one drawing; that
one lends itself what `plan` lends, so the other is lent that too.
Prints for each kind how many drawings were compared, what became of them and how many differ, and the
smallest file that differs.
"""
import collections
import os
import random
import shlex
import subprocess
import sys

import drawing as d
from generate import KINDS

AS_PLAN = (d.PLAN_F64, d.PLAN_BYTES, d.PLAN_OUTPUT)


def answers(planner, drawings):
    words = shlex.split(planner)
    if words[0] != "each":
        batch = b"".join(d.batched(file, *lent) for lent, file in drawings)
        return subprocess.run(words, input=batch, capture_output=True, check=True).stdout.decode().splitlines()
    run = lambda file: subprocess.run(words[1:], input=file, capture_output=True, check=True).stdout.decode()
    return [" ".join(run(file).splitlines()) for _, file in drawings]


def main():
    one, two, seed, count = sys.argv[1], sys.argv[2], sys.argv[3], int(sys.argv[4])
    os.nice(10)
    all_compared = all_different = 0
    for kind in sys.argv[5:] or KINDS:
        rng = random.Random(f"{kind} {seed}")
        drawings = []
        for _ in range(count):
            file, lent = KINDS[kind](rng)
            *lent, file = next(d.unbatched(d.batched(file, **lent)))
            drawings.append((tuple(lent), file))
        if "each" in (one.split()[0], two.split()[0]):
            drawings = [(AS_PLAN, file) for _, file in drawings]
        a, b = answers(one, drawings), answers(two, drawings)
        assert len(a) == len(b) == len(drawings), "a planner gave too few or too many answers"
        what = collections.Counter("ok" if line.startswith("ok") else line for line in a)
        different = [(len(file), lent, file.hex(), x, y) for (lent, file), x, y in zip(drawings, a, b) if x != y]
        all_compared += len(drawings)
        all_different += len(different)
        print(f"{kind}: {len(drawings)} compared, {len(different)} differ;", ", ".join(f"{n} {w}" for w, n in sorted(what.items())))
        if different:
            _, lent, file, x, y = min(different)
            print("  smallest: lent", *lent, "file", file[:2000])
            print("   ", x[:500])
            print("   ", y[:500])
        sys.stdout.flush()
    print(f"{all_compared} compared, {all_different} differ")
    sys.exit(all_different > 0)


main()
