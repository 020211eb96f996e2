#!/usr/bin/env python3
"""Lists generated drawings with the oracle's answers, in the format of answers.txt.

usage: oracle/list.py ORACLE SEED COUNT MOST [KIND ...]      (all kinds if none is named)

COUNT drawings of each kind, those of more than MOST bytes left out. tools/definitions.py takes such a list.
"""
import random
import subprocess
import sys

import drawing as d
from answers import Case, written
from generate import KINDS


def main():
    oracle, seed, count, most = sys.argv[1], sys.argv[2], int(sys.argv[3]), int(sys.argv[4])
    for kind in sys.argv[5:] or KINDS:
        rng = random.Random(f"{kind} {seed}")
        drawings = [KINDS[kind](rng) for _ in range(count)]
        drawings = [next(d.unbatched(d.batched(file, **lent))) for file, lent in drawings if len(file) <= most]
        batch = b"".join(d.batched(file, *lent) for *lent, file in drawings)
        printed = subprocess.run([oracle, "--batch"], input=batch, capture_output=True, check=True).stdout.decode()
        for i, ((*lent, file), answer) in enumerate(zip(drawings, printed.split("--\n"))):
            print(written(Case(f"{kind} {seed} {i}", lent, file, answer.splitlines())), end="")


if __name__ == "__main__":
    main()
