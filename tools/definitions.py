#!/usr/bin/env python3
"""Has the checker compute the definition of the whole planner, or of the writer, on drawings whose answers are known.

usage: tools/definitions.py ANSWERS OUT [--each N] [--most BYTES]
       tools/definitions.py --saved LIST OUT [--each N]

ANSWERS is a list of drawings and answers in the format of oracle/answers.txt. OUT is a folder outside the
repository, for a scratch repository of the definitions and one crate more, `computed`: `rt check` in OUT/crates/computed proves,
a theorem for each drawing and N theorems to a file, that the definition `plan` gives its answer for just what the case says is
lent: whole, with every byte of the output. Some cases take more steps than the checker allows, or too long; they are counted and
named, and left to the program that replays the list with the planner's code:
- files of more than BYTES bytes that pass checks 1 to 8 and 15,
- Optimal with 10 to 20 odd nodes, since the definition tries every pairing; above 20 it takes the checker some 13 seconds a drawing.

With --saved, LIST is one in the format of oracle/saved.txt, and the theorems say that `save_given` gives the answer, and the
destination afterwards with every byte, for just what is handed over. Left to the replay are drawings of which the list has only
a digest of the file, and those with more than 2,000 numbers.
"""
import argparse
import collections
import os
import pathlib
import shutil
import struct
import sys

sys.path.insert(0, str(pathlib.Path(__file__).resolve().parent.parent / "oracle"))
import answers
import saved
from cardermoss import refusals

# What every byte of the output, or of the destination, is before the call.
BEFORE = 7


def too_long(case, most):
    """Why the checker doesn't compute this case, or nothing."""
    head = case.answer[0].split()
    is_read = head[0] == "ok" or int(head[1]) not in refusals.CHECKS
    if is_read and len(case.file) > most:
        return f"files of more than {most:,} bytes that pass checks 1 to 8 and 15"
    if head[0] == "ok" and case.file[14] == 1 and 10 <= int(head[2]) <= 20:
        return "Optimal with 10 to 20 odd nodes"
    if is_read and case.file[15] & 4 and lines_in(case.file) > MOST_LINES_LINKED:
        return f"links made for more than {MOST_LINES_LINKED} lines"
    return None


# Four candidates for each two lines are sorted: the checker takes too many steps for 24 lines.
MOST_LINES_LINKED = 20


def lines_in(file):
    """How many lines a file has that passes the checks of a file."""
    count, at = 0, 0
    while at < len(file):
        length, kind = struct.unpack_from("<IH", file, at)
        count += kind == 2
        at += 6 + length
    return count


def numbers(values, rest="[]"):
    return " ∷ ".join([str(v) for v in values] + [rest])


def expected(case):
    """The answer and the output after the call, as a term."""
    head = case.answer[0].split()
    if head[0] == "refused":
        return f"record {{ answer = refusal {head[1]}; output = replicate {case.lent[2]} {BEFORE} }}"
    retrace, before, after, points = int(head[1], 16), int(head[2]), int(head[3]), int(head[4])
    record = struct.pack("<IH", 16 * points, 4)
    for line in case.answer[1:]:
        for steps in line.split():
            record += struct.pack("<d", int(steps) / 1024)
    later = case.lent[2] - len(record)
    if later < 0:
        sys.exit(f"{case.name}: accepted with too short an output")
    return (
        f"record {{ answer = planned (record {{ retrace = {retrace}; before = {before}; after = {after}; points = {points} }});"
        f" output = {numbers(record, f'replicate {later} {BEFORE}')} }}"
    )


def scratch(out, definitions):
    """A repository with a crate of definitions and what it uses, and an empty crate `computed` over it."""
    uses = {}
    for line in open("crates.txt", encoding="utf-8"):
        head, _, deps = line.split("#")[0].partition(":")
        if head.strip():
            uses[head.split()[0]] = deps.split()
    wanted, todo = set(), [definitions]
    while todo:
        name = todo.pop()
        if name in uses and name not in wanted:
            wanted.add(name)
            todo += uses[name]
    shutil.rmtree(os.path.join(out, "crates"), ignore_errors=True)
    for name in wanted:
        shutil.copytree(os.path.join("crates", name), os.path.join(out, "crates", name), ignore=shutil.ignore_patterns("out"))
    crate = os.path.join(out, "crates", "computed")
    os.makedirs(os.path.join(crate, "src"))
    os.makedirs(os.path.join(crate, "specs"))
    with open(os.path.join(crate, "src", "lib.rt"), "w", encoding="utf-8") as f:
        f.write("// Definitions only.\n#![tactic(auto)]\n")
    with open(os.path.join(out, "crates.txt"), "w", encoding="utf-8") as f:
        for name in sorted(wanted):
            f.write(f"{name}: {' '.join(uses[name])}\n")
        f.write(f"computed: {definitions}\n")
    return crate


def planned(case):
    """The theorem of a drawing that is planned: the call, its answer, and what is opened to compute it."""
    floats, tables, output = case.lent
    lent = f"record {{ floats = {floats}; bytes = {tables}; output = replicate {output} {BEFORE} }}"
    return f"plan ({numbers(case.file)}) ({lent})", expected(case), "plan"


def is_saved(case):
    """The theorem of a drawing that is saved, likewise."""
    given = case.handed
    settings = f"record {{ width = {given.width}; height = {given.height}; pairing = {given.pairing}; flags = {given.flags} }}"
    lists = " ".join(f"({numbers(some)})" for some in (given.sizes, given.coordinates, given.segments, given.ends))
    if case.refusal:
        after = f"record {{ answer = refusal {case.refusal}; destination = replicate {case.destination} {BEFORE} }}"
    else:
        later = f"replicate {case.destination - case.bytes} {BEFORE}"
        after = f"record {{ answer = written {case.bytes}; destination = {numbers(case.file, later)} }}"
    return f"save_given (given ({settings}) {lists}) (replicate {case.destination} {BEFORE})", after, "save_given"


def too_much(case):
    """Why the checker doesn't compute this drawing that is saved, or nothing."""
    if not case.refusal and case.file is None:
        return "files of which the list has a digest"
    if sum(map(len, (case.handed.sizes, case.handed.coordinates, case.handed.segments, case.handed.ends))) > 2000:
        return "more than 2,000 numbers"
    return None


def write(crate, chosen, each, head, theorem):
    """Theorems for these cases, `each` to a file."""
    mods = []
    for k in range(0, len(chosen), each):
        name = f"Batch{k // each}"
        mods.append(name)
        with open(os.path.join(crate, "specs", name + ".antt"), "w", encoding="utf-8") as f:
            f.write(head)
            for i, case in enumerate(chosen[k : k + each]):
                call, after, opened = theorem(case)
                f.write(f"-- {case.name}\nagrees{i} : {call} ≡ {after}\nunfolding {opened}\nagrees{i} = refl\n\n")
    with open(os.path.join(crate, "specs", "Lib.antt"), "w", encoding="utf-8") as f:
        f.write("".join(f"pub mod {m}\n" for m in mods))
    return mods


def answer_of(case):
    if isinstance(case, saved.Case):
        return f"refused {case.refusal}" if case.refusal else "ok"
    return "ok" if len(case.answer[0]) > 10 else case.answer[0]


def main():
    ap = argparse.ArgumentParser()
    ap.add_argument("--saved", action="store_true")
    ap.add_argument("answers")
    ap.add_argument("out")
    ap.add_argument("--each", type=int, default=8)
    ap.add_argument("--most", type=int, default=1700)
    a = ap.parse_args()
    cases = saved.cases(a.answers) if a.saved else answers.cases(a.answers)
    left = collections.defaultdict(list)
    for case in cases:
        left[too_much(case) if a.saved else too_long(case, a.most)].append(case)
    chosen = left.pop(None, [])
    if not chosen:
        sys.exit("no case is left to compute")
    crate = scratch(a.out, "writer_spec" if a.saved else "planner_spec")
    mods = write(crate, chosen, a.each, HEAD_SAVED if a.saved else HEAD, is_saved if a.saved else planned)
    print(f"{len(cases)} drawings, {len(chosen)} to compute in {len(mods)} files")
    for why, group in left.items():
        what = collections.Counter(answer_of(case) for case in group)
        print(f"{len(group)} left to the replay, {why} ({', '.join(f'{n} {w}' for w, n in sorted(what.items()))}):")
        print("".join(f"    {case.name}\n" for case in group), end="")


HEAD = """use Prim.Native.Nat.{ℕ}
use mathlib.Core.Path.{◌≡◌, refl}
use mathlib.Core.List.{List, [], ◌∷◌}
use lib.ListN.{replicate}
use Rattle.planner_spec.specs.Plan.{Lent, Planned, Answer, refusal, planned, Outcome, plan}

"""

HEAD_SAVED = """use Prim.Native.Nat.{ℕ}
use mathlib.Core.Path.{◌≡◌, refl}
use mathlib.Core.List.{List, [], ◌∷◌}
use lib.ListN.{replicate}
use Rattle.writer_spec.specs.Save.{Answer, refusal, written, Saved}
use Rattle.writer_spec.specs.Given.{given, save_given}

"""

if __name__ == "__main__":
    main()
