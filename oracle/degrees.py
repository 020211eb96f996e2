#!/usr/bin/env python3
"""How many edges the published walk meets at one node, on generated drawings.

usage: oracle/degrees.py ORACLE SEED COUNT [KIND ...]      (all kinds if none is named)

COUNT drawings of each kind, fewer of the slow kinds. Counted are the repaired edges and the virtual one. Prints for each kind how many
drawings were accepted, the most edges at one node, and how many edges join a node to itself; then of all. Fails if a node has more than
4,001 edges, which is every one that there can be, or if an edge joins a node to itself.
"""
import collections
import os
import random
import subprocess
import sys

import drawing as d
from generate import KINDS, SHARE

MOST = 4001


def main():
    oracle, seed, count = sys.argv[1], sys.argv[2], int(sys.argv[3])
    os.nice(10)
    sums, highest = collections.Counter(), (0, "none", b"")
    for kind in sys.argv[4:] or KINDS:
        rng = random.Random(f"{kind} {seed}")
        drawings = [KINDS[kind](rng) for _ in range(max(1, round(count * SHARE.get(kind, 1))))]
        batch = b"".join(d.batched(file, **lent) for file, lent in drawings)
        printed = subprocess.run([oracle, "--batch", "--degrees"], input=batch, capture_output=True, check=True).stdout.decode()
        # `degree N loops N`, or `refused N`.
        rows = [(line.split(), file) for line, (file, _) in zip(printed.splitlines(), drawings, strict=True)]
        met = [(int(words[1]), int(words[3]), file) for words, file in rows if words[0] == "degree"]
        top = max(((degree, kind, file) for degree, _, file in met), key=lambda row: row[0], default=(0, kind, b""))
        loops = sum(loops for _, loops, _ in met)
        print(f"{kind}: {len(rows)} drawings, {len(met)} accepted, at most {top[0]} edges at a node, {loops} from a node to itself", flush=True)
        sums.update(drawings=len(rows), accepted=len(met), loops=loops, above=sum(degree > MOST for degree, _, _ in met))
        highest = max(highest, top, key=lambda row: row[0])
    degree, kind, file = highest
    print(f"in all: {sums['drawings']} drawings, {sums['accepted']} accepted, {sums['above']} with more than {MOST} edges at a node, "
          f"{sums['loops']} edges from a node to itself")
    print(f"at most: {degree} edges, by a drawing of {kind} of {len(file)} bytes")
    sys.exit(sums["above"] + sums["loops"] > 0)


main()
