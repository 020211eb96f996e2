"""Reads and writes lists of drawings with their answers, such as answers.txt.

A case is a line `case NAME`, a line `lent F64 BYTES OUTPUT` (entries, entries, bytes), a line `file HEX` (only `file` if
it is empty), the answer's lines as `plan` prints them, and an empty line. Anything else is an error, an empty list too.
"""
import collections
import re

Case = collections.namedtuple("Case", "name lent file answer")  # the answer is a list of lines


def cases(path):
    with open(path, encoding="utf-8") as file:
        text = file.read()
    blocks = text.split("\n\n")
    if blocks.pop() != "" or not blocks:
        raise SystemExit(f"{path}: no case, or no empty line at the end")
    found = [parsed(block, path) for block in blocks]
    names = collections.Counter(case.name for case in found)
    twice = [name for name, count in names.items() if count > 1]
    if twice:
        raise SystemExit(f"{path}: two cases are called '{twice[0]}'")
    return found


def parsed(block, path):
    lines = block.split("\n")
    case = re.fullmatch(r"case (.+)\nlent (\d+) (\d+) (\d+)\nfile(?: ((?:[0-9a-f]{2})+))?", "\n".join(lines[:3]))
    answer = lines[3:]
    points = re.fullmatch(r"ok [0-9a-f]{16} \d+ \d+ (\d+)", answer[0]) if answer else None
    is_whole = (points and len(answer) == 1 + int(points[1]) and all(re.fullmatch(r"-?\d+ -?\d+", line) for line in answer[1:])
                or len(answer) == 1 and re.fullmatch(r"refused \d+", answer[0]))
    if not case or not is_whole:
        raise SystemExit(f"{path}: not a case:\n{block[:400]}")
    name, *lent, file = case.groups()
    return Case(name, tuple(map(int, lent)), bytes.fromhex(file or ""), answer)


def written(case):
    lines = [f"case {case.name}", "lent {} {} {}".format(*case.lent), f"file {case.file.hex()}".strip(), *case.answer]
    return "\n".join(lines) + "\n\n"
