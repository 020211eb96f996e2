#!/usr/bin/env python3
"""Reads and writes the list of drawings handed to a writer, with its answers: saved.txt.

usage: oracle/saved.py 'ORACLE --port-saved'     says which answers of the list this command gives otherwise

A case is a line `case NAME`; a line `settings WIDTH HEIGHT PAIRING FLAGS`; a line for each of `sizes`, `coordinates`, `segments` and
`ends` with its numbers, coordinates as 16 hexadecimal digits, and `V,W*N` for N times V W; a line `destination BYTES`; the answer, which
is `refused N`, or `saved BYTES` and then `file HEX`, or `sha256 HEX` of a file that is long; and an empty line.
"""
import collections
import hashlib
import pathlib
import re
import shlex
import subprocess
import sys

sys.path.insert(0, str(pathlib.Path(__file__).resolve().parent))
import handed as h  # noqa: E402

LIST = pathlib.Path(__file__).resolve().parent / "saved.txt"
LONG = 400  # bytes of a file from which on only its digest is listed

# The answer: the refusal's number or 0, the bytes of the file, and the file or its digest.
Case = collections.namedtuple("Case", "name handed destination refusal bytes file sha256")


def cases(path=LIST):
    blocks = pathlib.Path(path).read_text(encoding="utf-8").split("\n\n")
    if blocks.pop() != "" or not blocks:
        raise SystemExit(f"{path}: no case, or no empty line at the end")
    found = [parsed(block, path) for block in blocks]
    twice = [name for name, count in collections.Counter(case.name for case in found).items() if count > 1]
    if twice:
        raise SystemExit(f"{path}: two cases are called '{twice[0]}'")
    return found


CASE = re.compile(r"case (?P<name>.+)\nsettings (?P<settings>\d+ \d+ \d+ \d+)\nsizes(?P<sizes>.*)\ncoordinates(?P<coordinates>.*)\n"
                  r"segments(?P<segments>.*)\nends(?P<ends>.*)\ndestination (?P<destination>\d+)\n"
                  r"(?:refused (?P<refusal>\d+)|saved (?P<bytes>\d+)\n(?:file (?P<file>[0-9a-f]+)|sha256 (?P<sha256>[0-9a-f]{64})))")


def parsed(block, path):
    case = CASE.fullmatch(block)
    if not case:
        raise SystemExit(f"{path}: not a case:\n{block[:400]}")
    slices = [numbers(case[name], base) for name, base in (("sizes", 10), ("coordinates", 16), ("segments", 10), ("ends", 16))]
    file = case["file"] and bytes.fromhex(case["file"])
    if file and len(file) != int(case["bytes"]):
        raise SystemExit(f"{path}: {case['name']}: the file has not as many bytes as the answer says")
    return Case(case["name"], h.Handed(*map(int, case["settings"].split()), *slices), int(case["destination"]),
                int(case["refusal"] or 0), int(case["bytes"] or 0), file, case["sha256"])


def numbers(text, base):
    found = []
    for word in text.split():
        group, _, count = word.partition("*")
        found += [int(value, base) for value in group.split(",")] * int(count or 1)
    return found


def runs(values, form):
    """The numbers as words; groups that are repeated are written once."""
    values, at, text = tuple(values), 0, ""
    while at < len(values):
        size, count = max(((size, repeated(values, at, size)) for size in (1, 2, 4, 8)), key=lambda group: group[0] * group[1] * (group[1] > 1))
        size = size if count > 1 else 1
        text += " " + ",".join(map(form.format, values[at:at + size])) + (f"*{count}" if count > 1 else "")
        at += size * count
    return text


def repeated(values, at, size):
    """How often the group of this size that begins here stands in a row."""
    count, group = 1, values[at:at + size]
    while values[at + size * count:at + size * (count + 1)] == group and len(group) == size:
        count += 1
    return count


def written(case):
    given = case.handed
    rows = [f"case {case.name}", "settings {} {} {} {}".format(*given[:4]), "sizes" + runs(given.sizes, "{}"),
            "coordinates" + runs(given.coordinates, "{:016x}"), "segments" + runs(given.segments, "{}"),
            "ends" + runs(given.ends, "{:016x}"), f"destination {case.destination}"]
    if case.refusal:
        rows.append(f"refused {case.refusal}")
    else:
        rows += [f"saved {case.bytes}", f"file {case.file.hex()}" if case.file else f"sha256 {case.sha256}"]
    return "\n".join(rows) + "\n\n"


def answered(name, handed, destination, row):
    """The case with the oracle's row (handed.rs) for its answer."""
    refused, saved = re.fullmatch(r"refused (\d+) kept", row), re.fullmatch(r"saved (\d+) ([0-9a-f]+) kept", row)
    if refused:
        return Case(name, handed, destination, int(refused[1]), 0, None, None)
    if not saved:
        raise SystemExit(f"{name}: {row}")
    file = bytes.fromhex(saved[2])
    is_long = len(file) > LONG
    return Case(name, handed, destination, 0, int(saved[1]), None if is_long else file, hashlib.sha256(file).hexdigest() if is_long else None)


def rows_of(command, drawings):
    """What a command prints for drawings, each with the bytes of its destination."""
    batch = b"".join(h.batched(*drawing) for drawing in drawings)
    return subprocess.run(shlex.split(command), input=batch, stdout=subprocess.PIPE, check=True).stdout.decode().splitlines()


def main():
    listed = cases()
    rows = rows_of(sys.argv[1], [(case.handed, case.destination) for case in listed])
    assert len(rows) == len(listed)
    wrong = 0
    for case, row in zip(listed, rows):
        try:
            is_same = answered(*case[:3], row) == case
        except SystemExit:
            is_same = False
        if not is_same:
            wrong += 1
            print(f"{case.name}: {row[:300]}")
    print(f"{len(listed)} drawings, {wrong} answered otherwise than the list says")
    sys.exit(wrong > 0)


if __name__ == "__main__":
    main()
