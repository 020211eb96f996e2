#!/usr/bin/env python3
"""Holds the program `save` against the oracle's reader, one file a run.

usage: oracle/saved_again.py SAVE ORACLE SEED COUNT [KIND ...]      (the files of answers.txt and all kinds if none is named)

COUNT files of each kind of the generator, and those of oracle/answers.txt as the kind `answers`. A file that the reader takes must
come out on standard output, byte for byte, with plain zeros for its minus zeros; for any other `refused N` must stand on standard
error, and nothing else anywhere. The status is 0 both times.
"""
import collections
import pathlib
import random
import subprocess
import sys

import answers
import drawing as d
from generate import KINDS


def files(kind, seed, count):
    if kind == "answers":
        return [case.file for case in answers.cases(pathlib.Path(__file__).resolve().parent / "answers.txt")]
    rng = random.Random(f"{kind} {seed}")
    return [KINDS[kind](rng)[0] for _ in range(count)]


def main():
    save, oracle, seed, count, *kinds = sys.argv[1:]
    tally, wrong = collections.Counter(), 0
    for kind in kinds or ["answers", *KINDS]:
        given = files(kind, seed, int(count))
        batch = b"".join(map(d.batched, given))
        asked = lambda option: subprocess.run([oracle, "--batch", option], input=batch, stdout=subprocess.PIPE, check=True).stdout
        numbers, cleaned = map(int, asked("--read").split()), d.unbatched(asked("--cleaned"))
        for file, number, (*_, plain) in zip(given, numbers, cleaned, strict=True):
            run = subprocess.run([save], input=file, capture_output=True)
            wanted = (0, b"", f"refused {number}\n".encode()) if number else (0, plain, b"")
            tally[number] += 1
            if (run.returncode, run.stdout, run.stderr) != wanted:
                wrong += 1
                print(f"{kind}: status {run.returncode}, {len(run.stdout)} bytes, {run.stderr[:200]}, wanted {number}; file {file.hex()}")
    counts = ", ".join(f"{n} refused {number}" if number else f"{n} ok" for number, n in sorted(tally.items()))
    print(f"{sum(tally.values())} files, {wrong} differ; {counts}")
    sys.exit(wrong > 0)


main()
