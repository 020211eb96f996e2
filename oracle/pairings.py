#!/usr/bin/env python3
"""Counts what the two pairings of generated drawings with more than 20 odd nodes are like, and looks for drawings that tell rules apart.

usage: oracle/pairings.py ORACLE SEED COUNT [KIND ...]            (the kinds many_odd_.. if none is named)
       oracle/pairings.py ORACLE SEED COUNT --find RULE KIND ...
       oracle/pairings.py ORACLE SEED COUNT --longer [KIND ...]

COUNT drawings of each kind, fewer of the slow kinds. For each kind it prints how many have more than 20 odd nodes, and of these: how many keep
the pairs by graph distance; the Euclidean ones because they cost less; how many have the same pairs twice; other pairs that
cost the same; costs that are one to four steps of f64 apart; and how many each rule of pairings.rs would pair otherwise.
With --find it prints, by their numbers, three drawings that the rule would pair otherwise, and as few other rules as can be, small ones first;
make_answers.py has some of them. With --longer it counts the drawings that Optimal retraces farther than Greedy does, open and closed: the choice is
made by the pairs' costs, in which the closing retrace is not.
Fails where the rule `right` would pair a drawing otherwise: pairings.rs has it from the request's words.
"""
import argparse
import collections
import os
import random
import re
import struct
import subprocess
import sys

import drawing as d
from generate import KINDS, MANY_ODD_KINDS, SHARE

CLOSE = 4


def made(kind, seed, count):
    rng = random.Random(f"{kind} {seed}")
    return [KINDS[kind](rng)[0] for _ in range(max(1, round(count * SHARE.get(kind, 1))))]


def retraces(oracle, drawings, pairing, closing):
    """The retrace of each drawing with this pairing, open or closed; None where it is refused."""
    batch = b"".join(d.batched(f[:14] + bytes([pairing, f[15] & ~1 | closing]) + f[16:], f64=2**20 + 400, byte=2**20) for f in drawings)
    printed = subprocess.run([oracle, "--batch", "--line"], input=batch, capture_output=True, check=True).stdout.decode().splitlines()
    return [struct.unpack(">d", bytes.fromhex(line.split()[1]))[0] if line.startswith("ok") else None for line in printed]


def print_longer(oracle, kind, drawings):
    for closing, name in ((0, "open"), (1, "closed")):
        both = list(zip(retraces(oracle, drawings, 1, closing), retraces(oracle, drawings, 0, closing), strict=True))
        longer = [(a - b, a, b) for a, b in both if None not in (a, b) and a > b]
        print(f"{kind}, {name}: {len(longer)} of {len(both)} longer by Optimal, {sum(by > 1e-9 for by, _, _ in longer)} of them by more than 1e-9"
              + "".join(f"; by {by:.3g} at most, {a:.3f} for {b:.3f}" for by, a, b in sorted(longer)[-1:]), flush=True)


def rows(oracle, kind, seed, count):
    """Number, bytes of the file and the oracle's words for each drawing."""
    drawings = made(kind, seed, count)
    printed = subprocess.run([oracle, "--batch", "--pairings"], input=b"".join(map(d.batched, drawings)), capture_output=True, check=True)
    return [(k, len(file), line) for k, (file, line) in enumerate(zip(drawings, printed.stdout.decode().splitlines(), strict=True))]


def counted(found):
    counts = collections.Counter(drawings=len(found))
    for _, _, line in found:
        words = re.fullmatch(r"odd (\d+) taken (\w+) pairs (\w+) apart (\d+) told ?(.*)", line)
        if not words:
            continue
        odd, taken, pairs, apart, told = words.groups()
        counts["above 20"] += 1
        counts["most"] = max(counts["most"], int(odd))
        counts["graph kept" if taken == "graph" else "same pairs" if pairs == "same" else "equal cost" if apart == "0" else "Euclidean cheaper"] += 1
        counts["close"] += 1 <= int(apart) <= CLOSE
        counts["close, graph kept"] += 1 <= int(apart) <= CLOSE and taken == "graph"
        counts.update(told.split())
    return counts


def main():
    parser = argparse.ArgumentParser()
    parser.add_argument("oracle")
    parser.add_argument("seed")
    parser.add_argument("count", type=int)
    parser.add_argument("kinds", nargs="*", metavar="KIND")
    parser.add_argument("--find", metavar="RULE")
    parser.add_argument("--longer", action="store_true")
    args = parser.parse_intermixed_args()
    os.nice(10)
    sums, most = collections.Counter(), 0
    for kind in args.kinds or MANY_ODD_KINDS:
        if args.longer:
            print_longer(args.oracle, kind, made(kind, args.seed, args.count))
            continue
        found = rows(args.oracle, kind, args.seed, args.count)
        if args.find:
            told = sorted((line.partition(" told ")[2].count(" "), size, k, line) for k, size, line in found
                          if args.find in line.partition(" told ")[2].split())
            print(f"{kind} {args.seed}: {len(told)} of {len(found)}", flush=True)
            print("".join(f"  number {k}, {size} bytes, {line}\n" for _, size, k, line in told[:3]), end="", flush=True)
            continue
        counts = counted(found)
        most = max(most, counts.pop("most", 0))
        sums.update(counts)
        print(f"{kind}: " + ", ".join(f"{n} {what}" for what, n in counts.items() if n), flush=True)
    if not args.find and not args.longer:
        print("in all: " + ", ".join(f"{n} {what}" for what, n in sums.items()) + f"; at most {most} odd nodes")
    sys.exit(sums["right"] > 0)


main()
