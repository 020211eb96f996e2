#!/usr/bin/env python3
"""Times the planner that is linked into the oracle beside the published one, as tables for docs/PERFORMANCE.md.

usage: oracle/timing.py ORACLE TABLE ...       TABLE is goals, slow, growth, small, phases, walk, found, links, many-odd,
                                               stack or saved
       oracle/timing.py --programs PLAN RUST   the programs as a person runs them
       oracle/timing.py --write FOLDER         the drawings of all tables as files, for other planners

ORACLE was built with --planner and --petgraph (and --phases, for the port's columns of phases and walk). Both planners
run in one process on the same drawings; a time is the least of nine rounds in which they take turns, as processor time
of a call. The port also writes the record of the line, which the published functions leave to their caller.
`saved` times the writer: beside writer.rs, and beside the port's reader on the same file if ORACLE was built with --reader.

PLAN is crates/plan/out/plan, RUST an oracle built with --petgraph alone: each reads a drawing on standard input and prints
its answer, here to /dev/null. A time is that of a whole run, from the start of the process to its end: the least of fifteen
rounds, each the mean of several runs, in which the two take turns.
"""
import os
import pathlib
import random
import re
import subprocess
import sys
import tempfile
import time

import drawing as d
import generate as g
import handed as h
import slow
from samples import CROSS


def tables(odd):
    """Work tables for so many odd nodes."""
    return dict(f64=2**odd + odd**2, byte=2**odd)


def pair_tables(file):
    """A float for each two odd nodes, which Optimal asks for above 20 of them."""
    return dict(f64=slow.odd_count(file)**2, byte=0)


def line(count, flags=0):
    """One line back and forth in rows, as a designer's picture is filled."""
    return d.drawing([[(k % 32 * 3, k // 32 * 2) for k in range(count)]], flags=flags)


def rays(odd):
    """Optimal: as many rays of different lengths from one point."""
    return g.write([[(0, 0), (4096 + 90 * k, 9000 - 700 * k)] for k in range(odd)], pairing=1)


def lace():
    rng = random.Random("timing")
    steps = lambda n: [2 * g.STEP * k for k in range(n)]
    return g.bricks(14, 29, steps(29), steps(14), lambda: rng.randint(-400, 400))


def teeth(count):
    """Greedy, not closing: teeth with two odd ends each, linked in a row by links with two odd ends each."""
    file, _ = g.comb(random.Random("timing teeth"), count, True)
    return d.settings() + file[len(d.settings()):]


def largest(flags=1):
    """1,024 points in rows, and 255 links that each split their own segment twice."""
    path = [(4 * (k % 32 if k // 32 % 2 == 0 else 31 - k % 32), 4 * (k // 32)) for k in range(1024)]
    within = lambda k, part: tuple(a + (b - a) * part / 4 for a, b in zip(path[k], path[k + 1]))
    return d.drawing([path], [(0, k, within(k, 1), 0, k, within(k, 3)) for k in range(2, 1022, 4)], flags=flags)


def full():
    """256 lines, 1,024 points, 255 links: 1,022 odd nodes whose retraces pass 4,000 edges."""
    rng = random.Random("timing full")
    corners = lambda: (0, 130 + rng.randrange(9), 260 + rng.randrange(9), 400 - rng.randrange(40))
    lines = [[(x, 900 * i - g.EDGE) for x in corners()] for i in range(256)]
    on = lambda i: (rng.randint(1, 129), lines[i][0][1])
    return g.write(lines, [(j, 0, on(j), i, 0, on(i)) for i in range(1, 256) for j in [max(0, i - rng.choice([1, 7, 20]))]])


# The rows that have a goal: name, file, what is lent, the goal as a part of the published planner's time.
def goals():
    yield "cross, Greedy", d.drawing(CROSS), {}, 1.0
    yield "cross, Optimal", d.drawing(CROSS, pairing=1), {}, 1.0
    yield "a line of 1,000 points, open", line(1000), {}, 0.3
    yield "a line of 1,000 points, closed", line(1000, flags=1), {}, 0.2
    yield "Optimal, 12 odd nodes", rays(12), {}, 0.4
    yield "Optimal, 20 odd nodes", rays(20), tables(20), 0.1
    yield "lace, closed", g.write(lace(), flags=1), {}, 0.01
    yield "1,534 nodes, 512 odd, closed", largest(), {}, 0.015
    yield "1,022 odd nodes, Greedy", teeth(256), {}, 0.005
    yield "refusal 13, all limits full", full(), {}, 0.007


def growth():
    for count in (125, 250, 500, 1000):
        yield f"a line of {count:,} points, closed", line(count, flags=1), {}
    for count in (16, 32, 64, 128, 256):
        yield f"Greedy, {4 * count - 2:,} odd nodes", teeth(count), {}
    for odd in range(4, 21, 2):
        yield f"Optimal, {odd} odd nodes", rays(odd), tables(odd)
    for odd in (0, 12, 16, 20):
        yield f"cross, Greedy, tables for {odd} odd nodes lent", d.drawing(CROSS), tables(odd)


def small():
    yield "an empty file", b"", {}
    yield "an empty file, no tables lent", b"", dict(f64=0, byte=0)
    yield "settings alone", d.settings(), {}
    yield "settings alone, no tables lent", d.settings(), dict(f64=0, byte=0)
    yield "a dot", d.drawing([[(1, 2)]]), {}
    yield "one segment", d.drawing([[(0, 0), (3, 4)]]), {}
    yield "cross, no tables lent", d.drawing(CROSS), dict(f64=0, byte=0)
    yield "65,537 bytes", d.settings() + bytes(65521), {}
    yield "10,920 empty lines", d.settings() + d.line([]) * 10920, {}
    yield "a dot without its link", d.drawing([[(0, 0), (8, 0)], [(4, 4)]]), {}
    yield "the largest drawing, its last coordinate off the grid", largest()[:-8] + b"\xff" * 8, {}
    yield "the largest drawing, the last output byte missing", largest(0), dict(output=6 + 16 * 1788)


def slow_ones():
    for name, file, odd in slow.cases():
        yield name, file, tables(odd) if odd else {}


def found():
    """Generated drawings of at least 100 points, to look for slow ones among them."""
    for kind in ("walks", "lattice", "honeycomb", "lace", "comb", "edges", "big"):
        rng = random.Random(f"timing {kind}")
        drawings = [g.KINDS[kind](rng)[0] for _ in range(12)]
        yield from ((f"{kind} {k}", file, enough(file)) for k, file in enumerate(drawings) if len(file) >= 1600)


def enough(file):
    """What `plan` lends, but floats for all pairs where Optimal has so many odd nodes that these are more."""
    is_many = file[14] == 1 and slow.odd_count(file)**2 > d.PLAN_F64
    return pair_tables(file) if is_many else {}


# Change request 5: Optimal above 20 odd nodes, with just the floats that it asks for.
def many_odd():
    rows = [("22 odd nodes", rays(22)), ("64 odd nodes, the most in what `plan` lends", rays(64))]
    rows += [(f"comb, {4 * count - 2:,} odd nodes", slow.with_optimal(teeth(count))) for count in (16, 32, 64, 128, 256)]
    rows += [("lace", g.write(lace(), pairing=1)), ("lace, closed", g.write(lace(), pairing=1, flags=1)),
             ("1,534 nodes, 512 odd, closed", slow.with_optimal(largest()))]
    rows += [(name, slow.with_optimal(file)) for name, file in slow.many_odd()]
    for name, file in rows:
        yield name, file, {} if "`plan`" in name else pair_tables(file)


# For issues 8 and 9: what each phase takes.
def phases():
    yield "cross", d.drawing(CROSS), {}
    yield "a line of 1,000 points, closed", line(1000, flags=1), {}
    wanted = ("510 split points, mixed", "255 split points twice, mixed", "hub, 510 arms", "hub, 1,020 odd nodes",
              "far pairs, two hubs")
    yield from (row for row in slow_ones() if row[0] in wanted)
    yield from (row[:3] for row in list(goals())[4:])
    wanted = ("lace, closed", "comb, 1,022 odd nodes")
    yield from ((f"{name}, Optimal", file, lent) for name, file, lent in many_odd() if name in wanted)


# A line that repair lengthens to so many edges.
def walk():
    for edges in (500, 1000, 2000, 4000):
        yield f"{edges:,} edges", g.hairpin((edges - 12) // 4, 3, 0, 1), {}


# Drawings with flag 4. With Optimal and no tables they are refused with 11 as soon as the graph is there, or have two odd nodes
# at most, so that little but the making is in their times. (Before change request 5 most of them were refused with 10 there.)
def links():
    for shape in ("dots", "long lines", "one place", "circle"):
        for count in (256,) if shape != "dots" else (32, 64, 128, 256):
            lines = g.many(random.Random(f"timing {shape}"), shape, count)
            yield f"{count} lines, {shape}, Optimal", g.write(lines, pairing=1, flags=g.LINK), dict(f64=0, byte=0)
    for shape in ("dots", "long lines"):
        yield f"256 lines, {shape}, Greedy", g.write(g.many(random.Random(f"timing {shape}"), shape), flags=g.LINK), {}
    yield "three letters", d.drawing([[(0, 0), (0, 6), (3, 6)], [(6, 0), (6, 6)], [(9, 0), (11, 6), (13, 0)]], flags=g.LINK), {}
    yield "two dots", d.drawing([[(0, 0)], [(3, 4)]], flags=g.LINK), {}


def saved():
    """Drawings handed to the writer, with the bytes of the destination: name, drawing, bytes."""
    def net(lines, points, links):
        drawn = h.Plain([[(g.bits(3.0 * i - 100.5), g.bits(k - 2.25)) for k in range(points)] for i in range(lines)], width=800, height=600)
        last = max(0, points - 2)
        ends = lambda i: [g.bits(c) for c in (i - 99.0, 0.5, 2.0, -7.0)]
        drawn.links = [(i % lines, last // 2, (i + 1) % lines, last, *ends(i)) for i in range(links)]
        return drawn
    most = net(256, 4, 255)
    assert most.length() == h.MOST_FILE
    for name, drawn in [("256 lines, 1,024 points, 255 links", most), ("one line of 1,024 points", net(1, 1024, 0)),
                        ("256 dots, 255 links", net(256, 1, 255)), ("256 empty lines", net(256, 0, 0)),
                        ("64 lines, 512 points, 63 links", net(64, 8, 63)), ("three lines, 9 points, 2 links", net(3, 3, 2)),
                        ("settings alone", net(0, 0, 0))]:
        yield name, drawn.handed(), drawn.length()
    whole, room = most.handed(), h.MOST_FILE
    yield "the first, ends of one link missing: 4", whole._replace(ends=whole.ends[:-4]), room
    yield "the first, flags 8: 5", whole._replace(flags=8), room
    yield "the first, one link more: 6", whole._replace(segments=whole.segments + [0] * 4, ends=whole.ends + [0] * 4), room
    yield "the first, flags 4: 15", whole._replace(flags=4), room
    yield "the first, its last coordinate off the grid: 7", whole._replace(ends=whole.ends[:-1] + [1]), room
    yield "the first, its last segment missing: 8", whole._replace(segments=whole.segments[:-1] + [3]), room
    yield "the first, a byte short: 16", whole, room - 1


def print_saved(oracle):
    rows = list(saved())
    batch = b"".join(h.batched(*row[1:]) for row in rows)
    printed = subprocess.run([oracle, "--bench-saved"], input=batch, stdout=subprocess.PIPE, check=True).stdout.decode().splitlines()
    head("drawing (µs)", "answer, bytes of the file", "port's writer", "writer.rs", "port by it", "port's reader, same file", "writer by reader",
         "reader.rs")
    for (name, *_), row in zip(rows, printed, strict=True):
        (refusal, length), numbers = row.split("|")[0].split(), [float(n) for n in row.split("|")[1].split()]
        port, rust, rust_reader, port_reader = numbers + [None] * (4 - len(numbers))
        answer = (f"refused {refusal}" if refusal != "0" else "saved") + (f", {int(length):,}" if length != "0" else "")
        print("|", " | ".join([name, answer, micro(port), micro(rust), ratio(port, rust), micro(port_reader) if port_reader else "-",
                               ratio(port, port_reader) if port_reader else "-", micro(rust_reader) if rust_reader else "-"]), "|")


def run(oracle, mode, rows):
    """The oracle's line for each row: its sizes, then groups of numbers."""
    batch = b"".join(d.batched(file, **lent) for _, file, lent, *_ in rows)
    printed = subprocess.run([oracle, mode], input=batch, stdout=subprocess.PIPE, check=True).stdout.decode().splitlines()
    assert len(printed) == len(rows)
    return [(sizes, *[[float(n) for n in numbers.split()] for numbers in groups])
            for sizes, *groups in (row.split("|") for row in printed)]


def micro(nanoseconds):
    value = nanoseconds / 1000
    return f"{value:.2f}" if value < 10 else f"{value:.1f}" if value < 100 else f"{value:,.0f}"


def ratio(one, other):
    """In two digits."""
    value = one / other
    return f"{value:.0f}" if value >= 10 else f"{value:.1f}" if value >= 1 else f"{value:.2f}" if value >= 0.1 else f"{value:.2g}"


def sizes(text):
    return text.strip() if "refused" in text else " / ".join(re.findall(r"\d+", text))


def head(*names):
    print("| " + " | ".join(names) + " |\n|" + "---|" * len(names))


def print_whole(oracle, rows, most=None):
    """The rows with their times; with `most`, those that take longest, or longest by the published planner's time."""
    has_goals = len(rows[0]) > 3
    head("drawing (µs)", "nodes / edges / odd / repaired edges / points", "port", "Rust, C library's hypot", "port by it",
         *(["goal"] if has_goals else []), "Rust, machine's root", "port by it")
    timed = [(*row, text, *times) for row, (text, times) in zip(rows, run(oracle, "--bench", rows))]
    orders = [lambda row: row[-3], lambda row: row[-3] / row[-2], lambda row: row[-3] / row[-1]]
    chosen = timed if most is None else [row for row in timed if any(row in sorted(timed, key=o)[-most:] for o in orders)]
    for name, _, _, *goal, text, port, library, machine in chosen:
        print("|", " | ".join([name, sizes(text), micro(port), micro(library), ratio(port, library), *map(str, goal),
                               micro(machine), ratio(port, machine)]), "|")
    longest, by_library, by_machine = (max(timed, key=order) for order in orders)
    print(f"\n{len(timed)} drawings. Longest: {longest[0]}, {micro(longest[-3])} µs. Highest ratio: {by_library[0]},"
          f" {ratio(by_library[-3], by_library[-2])}; to the machine's root {by_machine[0]}, {ratio(by_machine[-3], by_machine[-1])}.")


def print_links(oracle, rows):
    """Each drawing as it is and with its made links in the file; the difference is the making, less the reading of the links' records.

    The published planner makes no links, so its time is that of the second file."""
    batch = b"".join(d.batched(file, **lent) for _, file, lent in rows)
    linked = subprocess.run([oracle, "--batch", "--linked"], input=batch, stdout=subprocess.PIPE, check=True).stdout
    with_links = [(name, file, lent) for (name, _, lent), (*_, file) in zip(rows, d.unbatched(linked), strict=True)]
    head("drawing (µs)", "nodes / edges / odd / repaired edges / points", "port", "port, links in the file", "difference",
         "Rust, C library's hypot, links in the file", "port by it")
    found = run(oracle, "--bench", [row for both in zip(rows, with_links) for row in both])
    for (name, *_), (text, (port, *_)), (same, (port_linked, library, _)) in zip(rows, found[::2], found[1::2]):
        assert text == same, f"{name}: {text} with the flag, {same} with the links"
        print("|", " | ".join([name, sizes(text), micro(port), micro(port_linked), micro(port - port_linked), micro(library),
                               ratio(port, library)]), "|")


# The searches are those of a graph without copies, so that the retraces take what the copies add to them too. The port's
# times are differences of calls that go from the start. Its pairs hold the clearing of the tables that are lent; its
# searches are those of the pairs, and the one that closes a line is among its retraces.
PHASES = ["read", "build_graph", "check 9, odd nodes", "pairs", "searches", "retraces", "walk to line"]
REPAIR = slice(3, 6)


def print_phases(oracle, rows):
    found = run(oracle, "--phases", rows)
    names = [name for name, *_ in rows]
    head("drawing", "nodes / edges / odd / repaired edges / points")
    for name, row in zip(names, found):
        print_row(name, [sizes(row[0])], [""])
    print()
    titles = "Rust, C library's hypot", "Rust, machine's root", "port"
    for title, times in zip(titles, list(zip(*found))[1:]):
        if not times[0]:
            return
        # The port has one more, the whole planner, which also writes the record.
        columns = PHASES if title != "port" else [*PHASES, "whole"]
        head(f"{title} (µs)", *columns)
        for name, row in zip(names, times):
            print_row(name, [micro(t) if title != "port" or k == 7 or seen(row, k) else "-" for k, t in enumerate(row)], columns)
        print()
    for at, title in enumerate(titles[:2], 1):
        columns = [*PHASES, "pairs, searches, retraces"]
        head(f"port by {title}", *columns)
        for name, row in zip(names, found):
            rust, port = row[at], row[3]
            cells = [ratio(p, r) if seen(port, k) and r else "-" for k, (p, r) in enumerate(zip(port, rust))]
            cells += [""] * (len(PHASES) - len(cells))
            print_row(name, [*cells, ratio(sum(port[REPAIR]), sum(rust[REPAIR])) if len(rust) > 5 else ""], columns)
        print()


def print_row(name, cells, columns):
    """A refused drawing has fewer phases."""
    print("|", " | ".join([name, *cells, *[""] * (len(columns) - len(cells))]), "|")


def seen(port, k):
    """Whether the difference is more than what comes before it strays."""
    return port[k] > sum(port[:k]) / 50


def print_stack(oracle, rows):
    found = run(oracle, "--stack", rows)
    deepest = max(zip((row[1][0] for row in found), (name for name, *_ in rows)))
    print(f"Deepest stack of a call, over {len(rows)} drawings: {deepest[0]:,.0f} bytes ({deepest[1]}).")
    handed = list(saved())
    batch = b"".join(h.batched(*row[1:]) for row in handed)
    printed = subprocess.run([oracle, "--stack-saved"], input=batch, stdout=subprocess.PIPE, check=True).stdout.decode().split()
    deepest = max(zip(map(int, printed), (name for name, *_ in handed), strict=True))
    # The 256 bytes next to the caller's are not looked at.
    print(f"Of the writer, over {len(handed)} drawings: " + (f"{deepest[0]:,} bytes ({deepest[1]})." if deepest[0] else "at most 256 bytes."))


def run_often(program, path, count):
    """The mean time of a run, in nanoseconds."""
    null = os.open(os.devnull, os.O_WRONLY)
    began = time.perf_counter_ns()
    for _ in range(count):
        given = os.open(path, os.O_RDONLY)
        child = os.posix_spawn(program, [program], os.environ, file_actions=[
            (os.POSIX_SPAWN_DUP2, given, 0), (os.POSIX_SPAWN_DUP2, null, 1), (os.POSIX_SPAWN_DUP2, null, 2)])
        os.close(given)
        os.waitpid(child, 0)
    took = (time.perf_counter_ns() - began) / count
    os.close(null)
    return took


def print_programs(plan, rust):
    head("drawing (µs for a run)", "port", "Rust", "port by it")
    rows = [*((name, file) for name, file, lent in small() if not lent), *((row[0], row[1]) for row in goals() if not row[2])]
    for name, file in rows:
        with tempfile.NamedTemporaryFile() as path:
            path.write(file)
            path.flush()
            # so many runs that a round takes some 100 ms
            count = max(1, int(1e8 / run_often(rust, path.name, 1)))
            rounds = [(run_often(plan, path.name, count), run_often(rust, path.name, count)) for _ in range(15)]
        port, other = map(min, zip(*rounds))
        print_row(name, [micro(port), micro(other), ratio(port, other)], range(3))


TABLES = {"goals": goals, "slow": slow_ones, "growth": growth, "small": small, "phases": phases, "walk": walk, "found": found, "links": links,
          "many-odd": many_odd}


def main():
    if sys.argv[1] == "--write":
        folder = pathlib.Path(sys.argv[2])
        folder.mkdir(parents=True, exist_ok=True)
        for rows in TABLES.values():
            for name, file, *_ in rows():
                (folder / f"{name.replace(' ', '-')}.drawing").write_bytes(file)
        return
    if sys.argv[1] == "--programs":
        print_programs(*sys.argv[2:])
        return
    oracle, *wanted = sys.argv[1:]
    for name in wanted:
        if name == "stack":
            print_stack(oracle, [row for rows in TABLES.values() for row in rows()])
        elif name == "saved":
            print_saved(oracle)
        elif name == "links":
            print_links(oracle, list(links()))
        elif name in ("phases", "walk"):
            print_phases(oracle, list(TABLES[name]()))
        else:
            print_whole(oracle, list(TABLES[name]()), 4 if name == "found" else None)
        print()


main()
