#!/usr/bin/env python3
"""Holds the planner that is linked into the oracle against the published one, on generated drawings, kind by kind.

usage: oracle/against.py ORACLE SEED COUNT [--all-settings | --sizes | --linked | --minus-zero | --damaged N | --changed N] [KIND ...]
       oracle/against.py ORACLE SEED COUNT --busy | --many-odd | --few-odd [--all-settings | --sizes | --damaged N | --changed N]
       oracle/against.py ORACLE SEED COUNT --saved | --rewritten [KIND ...]

ORACLE was built with --planner. COUNT drawings of each kind, fewer of the slow kinds (SHARE); with --all-settings each
with both pairings and all flags, with --sizes each at many sizes of tables and output, with --linked each one also with
its made links written into it (of the kinds with flag 4 if none is named), with --minus-zero each one also cleaned (of the
kinds with minus zeros if none is named), with --damaged N damaged copies of each, with --changed N copies with points, links
and settings changed. With --busy only the kinds with busy nodes and many edges, with --many-odd only those with Optimal and more than 20 odd
nodes, with --few-odd only those with Optimal and 4 to 20 odd nodes. oracle/against.rs says what is compared.
With --saved the drawings are handed to the port's writer, of the kinds of oracle/handed.py; with --rewritten each file is read and
saved again, those of oracle/answers.txt too, as the kind `answers`. oracle/saved.rs says what is compared.
Prints the oracle's line for each kind, and the sums.
"""
import argparse
import collections
import os
import pathlib
import random
import re
import subprocess
import sys

import answers
import drawing as d
import generate
import handed
from generate import BUSY_KINDS, FEW_ODD_KINDS, KINDS, LINKING_KINDS, MANY_ODD_KINDS, MINUS_ZERO_KINDS

# The part of COUNT that is made of the kinds that take long, those of handed.py among them.
SHARE = generate.SHARE | dict(saved_large=1 / 10, saved_too_many=1 / 5, saved_lines=1 / 2, saved_far_too_many=1 / 100,
                              saved_minus_zero_large=1 / 10)
LISTED = pathlib.Path(__file__).resolve().parent / "answers.txt"


def drawings(kind, args):
    """In batch form, one after the other."""
    if args.rewritten and kind == "answers":
        yield from (d.batched(case.file, *case.lent) for case in answers.cases(LISTED))
        return
    rng = random.Random(f"{kind} {args.seed}")
    for _ in range(max(1, round(args.count * SHARE.get(kind, 1)))):
        if args.saved:
            yield handed.batched(*handed.HANDED_KINDS[kind](rng))
        else:
            file, lent = KINDS[kind](rng)
            yield d.batched(file, **lent)


def main():
    parser = argparse.ArgumentParser()
    parser.add_argument("oracle")
    parser.add_argument("seed")
    parser.add_argument("count", type=int)
    parser.add_argument("kinds", nargs="*", metavar="KIND")
    parser.add_argument("--all-settings", action="store_true")
    parser.add_argument("--sizes", action="store_true")
    parser.add_argument("--linked", action="store_true")
    parser.add_argument("--minus-zero", action="store_true")
    parser.add_argument("--busy", action="store_true")
    parser.add_argument("--many-odd", action="store_true")
    parser.add_argument("--few-odd", action="store_true")
    parser.add_argument("--saved", action="store_true")
    parser.add_argument("--rewritten", action="store_true")
    parser.add_argument("--damaged", type=int)
    parser.add_argument("--changed", type=int)
    args = parser.parse_intermixed_args()
    mode = next(([f"--against-{name}", *number] for name, wanted, *number in [
        ("damaged", args.damaged, str(args.damaged)), ("changed", args.changed, str(args.changed)), ("sizes", args.sizes),
        ("linked", args.linked), ("minus-zero", args.minus_zero), ("all-settings", args.all_settings), ("saved", args.saved),
        ("rewritten", args.rewritten)] if wanted), ["--against"])
    os.nice(10)
    sums, failed = collections.Counter(), False
    kinds = next((kinds for wanted, kinds in [(args.saved, handed.HANDED_KINDS), (args.linked, LINKING_KINDS),
                                              (args.minus_zero, MINUS_ZERO_KINDS), (args.busy, BUSY_KINDS),
                                              (args.many_odd, MANY_ODD_KINDS), (args.few_odd, FEW_ODD_KINDS),
                                              (args.rewritten, ["answers", *KINDS])] if wanted), KINDS)
    for kind in args.kinds or kinds:
        run = subprocess.Popen([args.oracle, *mode], stdin=subprocess.PIPE, stdout=subprocess.PIPE)
        try:
            for drawing in drawings(kind, args):
                run.stdin.write(drawing)
            run.stdin.close()
        except BrokenPipeError:
            pass  # it has stopped, and said why
        printed = run.stdout.read().decode()
        failed |= run.wait() != 0
        print(f"{kind}: {printed or 'stopped'}", end="" if printed else "\n", flush=True)
        for count, what in re.findall(r"(\d+) (\w+(?: \d+)?)", printed.split("\n")[0]):
            sums[what] += int(count)
    print("in all: " + ", ".join(f"{count} {what}" for what, count in sums.items()))
    sys.exit(failed)


main()
