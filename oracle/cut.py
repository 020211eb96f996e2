#!/usr/bin/env python3
"""Where document 01's departure changes the answer: with it against without it.

usage: oracle/cut.py ORACLE ORACLE_AS_PUBLISHED SEED COUNT [KIND ...]     (all kinds if none is named)

The two answers may differ only where the line has two ends and a real edge joins them, that is where
some step of the line lies between its own first and last point. Even there they can be equal: the
published code drops the steps between the ends and then strings the rest together again, which now and
then gives the same line. The output is lent large enough here, since a shorter line fits a shorter one.
"""
import os
import random
import subprocess
import sys

import drawing as d
from generate import KINDS


def joined_ends(answer):
    words = answer.split(" ")
    if words[0] != "ok" or words[3] != "2":
        return False
    points = list(zip(words[5::2], words[6::2]))
    ends = {points[0], points[-1]}
    return any({a, b} == ends for a, b in zip(points, points[1:]))


def main():
    cut, published, seed, count = sys.argv[1:5]
    os.nice(10)
    total = differ = same = wrong = 0
    for kind in sys.argv[5:] or KINDS:
        rng = random.Random(f"{kind} {seed}")
        drawings = [KINDS[kind](rng) for _ in range(int(count))]
        batch = b"".join(d.batched(file, **dict(lent, output=d.PLAN_OUTPUT)) for file, lent in drawings)
        a, b = (subprocess.run([program, "--batch", "--line"], input=batch, capture_output=True, check=True)
                .stdout.decode().splitlines() for program in (cut, published))
        both = list(zip(a, b, strict=True))
        changed = [x for x, y in both if x != y]
        against = [x for x in changed if not joined_ends(x)]
        kept = [x for x, y in both if x == y and joined_ends(x)]
        print(f"{kind}: {len(a)} drawings, {len(changed)} differ, {len(against)} of them without a real edge between the ends;",
              f"{len(kept)} equal with one")
        for x in against[:1]:
            print("  ", x[:500])
        sys.stdout.flush()
        total, differ, wrong, same = total + len(a), differ + len(changed), wrong + len(against), same + len(kept)
    print(f"{total} drawings, {differ} differ, {wrong} of them without a real edge between the ends; {same} equal with one")
    sys.exit(wrong > 0)


main()
