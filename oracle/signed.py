#!/usr/bin/env python3
"""Where change request 3's departure changes the answer: minus zeros read as plain ones, against two zeros kept apart.

usage: oracle/signed.py ORACLE ORACLE_AS_SIGNED SEED COUNT [KIND ...]     (the kinds with minus zeros if none is named)

ORACLE_AS_SIGNED was built with --as-signed. The two answers may differ only where the file has a minus zero, and on the cleaned
file they may not. Prints for each kind how often they differ and in what way, and of all the smallest file with both answers. What
is printed has no sign at a zero, so that an answer that differs in such a sign alone counts as equal.
"""
import collections
import os
import random
import subprocess
import sys

import drawing as d
from generate import KINDS, MINUS_ZERO_KINDS


def run(program, batch, *options):
    return subprocess.run([program, "--batch", *options], input=batch, capture_output=True, check=True).stdout


def answers(program, batch):
    return run(program, batch, "--line").decode().splitlines()


def what(answer):
    return "ok" if answer.startswith("ok") else answer


def compared(oracle, signed, drawings):
    """Each drawing's file, whether it has a minus zero, both answers to it, and the second one's answer to the cleaned file."""
    batch = b"".join(d.batched(file, **lent) for file, lent in drawings)
    cleaned = run(oracle, batch, "--cleaned")
    has_one = [file != plain for (file, _), (*_, plain) in zip(drawings, d.unbatched(cleaned), strict=True)]
    files = [file for file, _ in drawings]
    return list(zip(files, has_one, answers(oracle, batch), answers(signed, batch), answers(signed, cleaned), strict=True))


def main():
    oracle, signed, seed, count = sys.argv[1:5]
    os.nice(10)
    total, smallest = collections.Counter(), []
    for kind in sys.argv[5:] or MINUS_ZERO_KINDS:
        rng = random.Random(f"{kind} {seed}")
        rows = compared(oracle, signed, [KINDS[kind](rng) for _ in range(int(count))])
        differ = [(len(file), file, a, b) for file, _, a, b, _ in rows if a != b]
        ways = collections.Counter(f"{what(a)}, and {what(b)} with signs" for *_, a, b in differ)
        sums = dict(drawings=len(rows), minus=sum(has_one for _, has_one, *_ in rows), differ=len(differ),
                    wrong=sum(a != b and not has_one or a != c for _, has_one, a, b, c in rows))
        print(f"{kind}: {told(sums)}", *(f"  {n} times {way}" for way, n in ways.most_common()), sep="\n", flush=True)
        total.update(sums)
        smallest = sorted(smallest + differ)[:1]
    print(f"in all: {told(total)}")
    for length, file, a, b in smallest:
        print(f"smallest, of {length} bytes: {file.hex()}\n  {a}\n  {b} with signs")
    sys.exit(total["wrong"] > 0)


def told(sums):
    return (f"{sums['drawings']} drawings, {sums['minus']} with a minus zero, {sums['differ']} differ; "
            f"{sums['wrong']} differ without one or when cleaned")


main()
