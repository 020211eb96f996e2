#!/usr/bin/env python3
"""Looks at the pairs that Optimal takes for 4 to 20 odd nodes: whether another choice costs less, which change request 6 says none does.

usage: oracle/cheapest.py ORACLE SEED COUNT [KIND ...]                  (`optimal` and the kinds few_odd_.. if none is named)
       oracle/cheapest.py ORACLE SEED COUNT --plan PLANNER [KIND ...]   the pairs read off lines that a planner has written
       oracle/cheapest.py ORACLE SEED COUNT --find RULE [KIND ...]      drawings for which a rule would not take these pairs
       oracle/cheapest.py ORACLE SEED COUNT --faulty [KIND ...]         shows that wrong pairs and wrong rules are seen

COUNT drawings of each kind, fewer of the slow kinds. `ORACLE --taken` says which pairs the published planner takes. A drawing with flag 4 is
judged on the file with its links in it (`ORACLE --linked`).

A choice is a list of pairs of different odd nodes, no node twice, all but two used. A pair costs the least distance from its lower node to its
higher, over all ways, weights added from the lower node on, each sum rounded. The pairs are added from 0.0 on, in falling order of their lower node,
each sum rounded. Of each drawing: the pairs taken are a choice, and no choice costs less. For 4 to 10 odd nodes every choice is listed, with its cost; for
4 to 20 a table over sets of nodes gives the least cost, since the pair with the lowest node is added last. Up to 10 both ways must agree.
Also counted are drawings with several cheapest choices, and those for which another choice would cost less by a rule that is nearly the
request's (RULES); these have 4 to 10 odd nodes.

With --plan the pairs are not asked for. PLANNER is a command as oracle/compare.py takes it: it reads a batch and prints one line for each drawing, or
it is 'each COMMAND' for a program like `plan`, which lends itself tables for 12 odd nodes. In the line that it writes, the steps
between two points less the pieces and links there are copies. Where a drawing is not closed and its copies are ways apart from each other, their ends are the
pairs, and these must be a choice that no other one is cheaper than. In any case all odd points but two, and no other, must be ends of an odd number of copies; these
two are left out, and where the pairs can't be read off, some cheapest choice must leave them out.

This file shares nothing with the planners: it reads the drawing files itself, takes its lengths from whole numbers and relaxes edges until nothing
changes.
"""
import argparse
import collections
import functools
import itertools
import math
import os
import random
import shlex
import struct
import subprocess
import sys

import drawing as d
from generate import FEW_ODD_KINDS, KINDS, SHARE

LEAST, MOST_LISTED, MOST = 4, 10, 20
FULL = dict(f64=2**20 + 400, byte=2**20)


# ---- a drawing file that its reader took; points are pairs of whole grid steps, so that a minus zero is a zero

def read(file):
    """Whether it is Optimal, the flags, the lines, and the links as two ends, each (line, segment, point)."""
    lines, links, at, optimal, flags = [], [], 0, None, None
    while at < len(file):
        length, kind = struct.unpack_from("<IH", file, at)
        body = file[at + 6:at + 6 + length]
        if kind == 1:
            optimal, flags = body[8] == 1, body[9]
        elif kind == 2:
            steps = in_steps(body)
            lines.append(list(zip(steps[::2], steps[1::2])))
        elif kind == 3:
            la, sa, lb, sb = struct.unpack_from("<HHHH", body)
            ax, ay, bx, by = in_steps(body[8:])
            links.append(((la, sa, (ax, ay)), (lb, sb, (bx, by))))
        at += 6 + length
    return optimal, flags, lines, links


def in_steps(body):
    return [int(c * 1024) for c in struct.unpack(f"<{len(body) // 8}d", body)]


def square(p, q):
    return (p[0] - q[0]) ** 2 + (p[1] - q[1]) ** 2


def chain(start, end, splits):
    """Document 01's: the segment's start, the split points that are kept, its end. No two squares are so near that their roots round alike."""
    inner = [p for p in sorted(splits, key=lambda p: square(start, p)) if p not in (start, end)]
    kept = [p for k, p in enumerate(inner) if k == 0 or p != inner[k - 1]]
    return [start, *kept, end]


def strokes(lines, links):
    """All points in the order of their first use, and for each piece and each link its two points."""
    splits = collections.defaultdict(list)
    for ends in links:
        for line, segment, point in ends:
            splits[line, segment].append(point)
    points, drawn = [], []
    for number, line in enumerate(lines):
        points += line[:1]
        for segment, (start, end) in enumerate(zip(line, line[1:])):
            way = chain(start, end, splits[number, segment])
            points += way
            drawn += [(p, q) for p, q in zip(way, way[1:]) if p != q]
    for (_, _, p), (_, _, q) in links:
        points += [p, q]
        drawn += [(p, q)] if p != q else []
    return list(dict.fromkeys(points)), drawn


@functools.cache
def length(squared):
    """The f64 nearest to the root of so many squared grid steps, in pixels. The root is taken of a number that is larger by an even power of two, so that
    it has 53 bits before its point; there is no tie, since the square of a number that ends in a half ends in a quarter."""
    shift = (106 - squared.bit_length()) // 2
    root = math.isqrt(squared << 2 * shift)
    root += (squared << 2 * shift) > root * (root + 1)
    assert root == 0 or 2**52 <= root <= 2**53
    return math.ldexp(root, -shift - 10)


def least_from(source, count, edges):
    """The least distance from a node to each, weights added from it on: whatever way is shorter is taken, until none is."""
    least = [math.inf] * count
    least[source] = 0.0
    changed = True
    while changed:
        changed = False
        for a, b, weight in edges:
            if least[a] + weight < least[b]:
                least[b] = least[a] + weight
                changed = True
            if least[b] + weight < least[a]:
                least[a] = least[b] + weight
                changed = True
    return least


class Drawn:
    """A file's graph: its odd nodes by their numbers, and the distances from each of them to each, by their places in that list."""

    def __init__(self, file):
        self.optimal, self.flags, self.lines, links = read(file)
        self.points, self.drawn = strokes(self.lines, links)
        number = {point: k for k, point in enumerate(self.points)}
        self.edges = [(number[p], number[q], length(square(p, q))) for p, q in self.drawn]
        ends = collections.Counter(node for a, b, _ in self.edges for node in (a, b))
        self.odd = [node for node in range(len(self.points)) if ends[node] % 2]

    @functools.cached_property
    def distances(self):
        rows = [least_from(node, len(self.points), self.edges) for node in self.odd]
        return [[row[node] for node in self.odd] for row in rows]

    def in_places(self, pairs):
        """Pairs of nodes by the places of these among the odd ones, the lower node first, in falling order of the lower nodes."""
        place = {node: k for k, node in enumerate(self.odd)}
        return sorted((tuple(sorted((place[a], place[b]))) for a, b in pairs), reverse=True)


# ---- choices and their costs

def choices_of(nodes, left_out=2):
    """Every choice of pairs of these nodes that leaves so many out, with rising lower nodes, each pair with its lower node first."""
    if len(nodes) == left_out:
        yield []
        return
    first, *rest = nodes
    if left_out:
        yield from choices_of(rest, left_out - 1)
    for k, other in enumerate(rest):
        for more in choices_of(rest[:k] + rest[k + 1:], left_out):
            yield [(first, other), *more]


@functools.cache
def choices(count):
    """Every choice for so many odd nodes, in falling order of the lower nodes: as many as there are twos to leave out, times 1, 3, 5, .. up to count - 3."""
    found = [choice[::-1] for choice in choices_of(list(range(count)))]
    assert len(found) == math.comb(count, 2) * math.prod(range(1, count - 2, 2)) == len(set(map(tuple, found)))
    return found


@functools.cache
def columns(count):
    """For each place in a choice, which distance every choice has there, of all distances in one row."""
    return [[a * count + b for a, b in column] for column in zip(*choices(count))]


def added(start, places, row):
    """Every choice's cost: its distances added from the start on, one after the other."""
    sums = [start] * len(places[0])
    for column in places:
        sums = [so_far + row[k] for so_far, k in zip(sums, column)]
    return sums


def in_one_row(distances):
    return [dist for row in distances for dist in row]


def costs(distances):
    """What every choice costs, as the request says."""
    return added(0.0, columns(len(distances)), in_one_row(distances))


def cost(distances, pairs):
    """What these pairs cost; they are in falling order of their lower nodes."""
    total = 0.0
    for a, b in pairs:
        total += distances[a][b]
    return total


def least_by_table(distances, left=None):
    """The least cost of a choice, of one that leaves these two out if they are given, by a table of the least cost for each set of nodes that is paired off: the pair
    of its lowest node is added last. Sets are bits; those that no choice comes to are not looked at."""
    table, whole = {0: 0.0}, (1 << len(distances)) - 1

    def least(nodes):
        if nodes not in table:
            lowest = nodes & -nodes
            row, rest = distances[lowest.bit_length() - 1], nodes ^ lowest
            found, left = math.inf, rest
            while left:
                bit = left & -left
                found = min(found, least(rest ^ bit) + row[bit.bit_length() - 1])
                left ^= bit
            table[nodes] = found
        return table[nodes]

    return min(least(whole ^ 1 << a ^ 1 << b) for a, b in ([left] if left else itertools.combinations(range(len(distances)), 2)))


def faults(drawn, pairs):
    """What is wrong with the pairs taken, by their nodes' numbers: a list of words."""
    odd = set(drawn.odd)
    used = [node for pair in pairs for node in pair]
    if any(a == b for a, b in pairs):
        return ["a node paired with itself"]
    if any(node not in odd for node in used):
        return ["a node that is not odd"]
    if len(set(used)) < len(used):
        return ["a node in two pairs"]
    if len(used) != len(odd) - 2:
        return [f"{len(odd) - len(used)} nodes left out, not 2"]
    distances = drawn.distances
    total, least = cost(distances, drawn.in_places(pairs)), None
    if len(odd) <= MOST_LISTED:
        least = min(costs(distances))
        if least != least_by_table(distances):
            return [f"the two ways of judging disagree: {least!r} and {least_by_table(distances)!r}"]
    else:
        least = least_by_table(distances)
    return [f"these cost {total!r}, and others {least!r}"] if total != least else []


# ---- rules that are nearly the request's. Each gives every choice's cost.

def turned(distances):
    return [list(column) for column in zip(*distances)]


def exactly(distance):
    """In steps that are so small that every distance is a whole number of them."""
    whole = int(math.ldexp(distance, 62))
    assert math.ldexp(whole, -62) == distance
    return whole


def by_size(distances, is_falling):
    row = in_one_row(distances)
    ranked = [sorted((row[k] for k in places), reverse=is_falling) for places in zip(*columns(len(distances)))]
    return [functools.reduce(lambda total, dist: total + dist, each, 0.0) for each in ranked]


RULES = {
    # As the published planner lists the pairs that it takes.
    "rising": lambda distances: added(0.0, columns(len(distances))[::-1], in_one_row(distances)),
    "from-the-higher": lambda distances: costs(turned(distances)),
    "the-smaller-of-both": lambda distances: costs([[min(p, q) for p, q in zip(*rows)] for rows in zip(distances, turned(distances))]),
    "exact": lambda distances: added(0, columns(len(distances)), [exactly(dist) for dist in in_one_row(distances)]),
    "shortest-first": lambda distances: by_size(distances, False),
    "longest-first": lambda distances: by_size(distances, True),
}


def told(drawn, pairs):
    """Which rules would have another choice cost less than these pairs, and how many choices are cheapest by the request's."""
    distances, mine = drawn.distances, choices(len(drawn.odd)).index(drawn.in_places(pairs))
    found = [name for name, rule in RULES.items() for each in [rule(distances)] if each[mine] > min(each)]
    each = costs(distances)
    return found, each.count(min(each))


# ---- running

def generated(kind, seed, count):
    rng = random.Random(f"{kind} {seed}")
    return [KINDS[kind](rng)[0] for _ in range(max(1, round(count * SHARE.get(kind, 1))))]


def run(command, files, lent):
    batch = b"".join(d.batched(file, **lent) for file in files)
    return subprocess.run(command, input=batch, stdout=subprocess.PIPE, check=True).stdout


def linked(oracle, files):
    """The files with their links in them; what was refused stays as it is."""
    return [file for *_, file in d.unbatched(run([oracle, "--batch", "--linked"], files, {}))]


def taken(oracle, files):
    """For each file the pairs taken, or None where it was refused."""
    rows = run([oracle, "--batch", "--taken"], files, FULL).decode().splitlines()
    assert len(rows) == len(files), "the oracle gave too few or too many lines"
    return [parsed(row.split()) for row in rows]


def parsed(words):
    if words[0] == "refused":
        return None
    assert words[0] == "odd" and words[2] == "taken"
    return int(words[1]), [tuple(map(int, pair.split("-"))) for pair in words[3:]]


def judged(oracle, kind, seed, count):
    """For each generated drawing its number, its file, its graph and the pairs taken; the last two are None if it is refused, not Optimal or has not 4 to
    20 odd nodes."""
    files = generated(kind, seed, count)
    for k, (file, whole, pairs) in enumerate(zip(files, linked(oracle, files), taken(oracle, files), strict=True)):
        if pairs is not None:
            drawn = Drawn(whole)
            if len(drawn.odd) != pairs[0]:
                raise SystemExit(f"{kind} {k}: {len(drawn.odd)} odd nodes here, {pairs[0]} there: {file.hex()}")
            if drawn.optimal and LEAST <= pairs[0] <= MOST:
                yield k, file, drawn, pairs[1]
                continue
        yield k, file, None, None


def judge(oracle, seed, count, kinds):
    sums, odd, wrong = collections.Counter(), collections.Counter(), 0
    for kind in kinds:
        counts, found = collections.Counter(), []
        for _, file, drawn, pairs in judged(oracle, kind, seed, count):
            counts["drawings"] += 1
            if drawn is None:
                continue
            odd[len(drawn.odd)] += 1
            bad = faults(drawn, pairs)
            found += [(len(file), file.hex(), fault) for fault in bad]
            if len(drawn.odd) > MOST_LISTED:
                counts["by the table"] += 1
            else:
                counts["by all choices"] += 1
                if not bad:
                    rules, cheapest = told(drawn, pairs)
                    counts.update(rules)
                    counts["several cheapest"] += cheapest > 1
        print(f"{kind}: " + ", ".join(f"{counts[name]} {name}" for name in ("drawings", "by all choices", "by the table", "several cheapest", *RULES))
              + f"; {len(found)} wrong", flush=True)
        if found:
            _, file, fault = min(found)
            print(f"  smallest: {fault}: {file[:2000]}")
        wrong += len(found)
        sums.update(counts)
    print("in all: " + ", ".join(f"{sums[name]} {name}" for name in ("drawings", "by all choices", "by the table", "several cheapest", *RULES)) + f"; {wrong} wrong")
    print("by odd nodes: " + ", ".join(f"{count} with {n}" for n, count in sorted(odd.items())))
    return wrong == 0


def find(oracle, seed, count, kinds, rule):
    """Small drawings that this rule tells, and as few others as can be; `several` for several cheapest choices."""
    for kind in kinds:
        found = []
        for k, file, drawn, pairs in judged(oracle, kind, seed, count):
            if drawn is not None and len(drawn.odd) <= MOST_LISTED:
                rules, cheapest = told(drawn, pairs)
                if rule in rules + ["several"] * (cheapest > 1):
                    found.append((len(rules) - (rule in rules), len(file), k, len(drawn.odd), cheapest, rules))
        print(f"{kind} {seed}: {len(found)}", flush=True)
        for _, size, k, nodes, cheapest, rules in sorted(found)[:4]:
            print(f"  number {k}, {size} bytes, {nodes} odd nodes, {cheapest} cheapest, told by {' '.join(rules)}", flush=True)


# ---- pairs read off a line

def lines_of(planner, files):
    """For each file the points of the line that a planner writes for it, in grid steps, or None."""
    words = shlex.split(planner)
    if words[0] == "each":
        rows = [" ".join(subprocess.run(words[1:], input=file, capture_output=True, check=True).stdout.decode().split()) for file in files]
    else:
        rows = run(words, files, FULL).decode().splitlines()
    assert len(rows) == len(files), "the planner gave too few or too many lines"
    for row in rows:
        head, *rest = row.split()
        if head == "refused":
            yield None
            continue
        numbers = list(map(int, rest[4:]))
        assert head == "ok" and len(numbers) == 2 * int(rest[3])
        yield list(zip(numbers[::2], numbers[1::2]))


def copies(drawn, line):
    """How often the line goes between two points more than there are strokes; None if it misses one or goes where there is none."""
    between = lambda p, q: (min(p, q), max(p, q))
    there = collections.Counter(between(p, q) for p, q in drawn.drawn)
    steps = collections.Counter(between(p, q) for p, q in zip(line, line[1:]))
    if steps.keys() != there.keys() or any(steps[each] < count for each, count in there.items()):
        return None
    return steps - there


def ends_of_ways(left):
    """The two ends of each way, if the copies are ways that have no point in common; otherwise None."""
    beside = collections.defaultdict(list)
    for (p, q), count in left.items():
        if count > 1:
            return None
        beside[p].append(q)
        beside[q].append(p)
    if any(len(others) > 2 for others in beside.values()):
        return None
    ends, seen = [], set()
    for start in [point for point, others in beside.items() if len(others) == 1]:
        if start in seen:
            continue
        before, at = None, start
        seen.add(at)
        while at == start or len(beside[at]) == 2:
            before, at = at, next(other for other in beside[at] if other != before)
            seen.add(at)
        ends.append((start, at))
    return ends if len(seen) == len(beside) else None


def judge_lines(oracle, planner, seed, count, kinds):
    sums, wrong = collections.Counter(), 0
    for kind in kinds:
        counts, found = collections.Counter(), []
        files = generated(kind, seed, count)
        counts["drawings"] = len(files)
        wanted = []
        for file, whole, pairs in zip(files, linked(oracle, files), taken(oracle, files), strict=True):
            if pairs is not None and LEAST <= pairs[0] <= MOST:
                drawn = Drawn(whole)
                if drawn.optimal and not drawn.flags & 1:
                    wanted.append((file, drawn))
        counts["open"] = len(wanted)
        for (file, drawn), line in zip(wanted, lines_of(planner, [file for file, _ in wanted]), strict=True):
            if line is None:
                counts["refused"] += 1
                continue
            counts["lines"] += 1
            left = copies(drawn, line)
            if left is None:
                found.append((len(file), file.hex(), "a stroke is missing, or a step goes where there is none"))
                continue
            number = {point: k for k, point in enumerate(drawn.points)}
            met = collections.Counter(number[point] for (p, q), times in left.items() for point in (p, q) for _ in range(times))
            paired = {node for node, times in met.items() if times % 2}
            if not paired <= set(drawn.odd) or len(paired) != len(drawn.odd) - 2:
                found.append((len(file), file.hex(), "the copies do not leave two odd points out"))
                continue
            ends = ends_of_ways(left)
            if ends is None:
                counts["two read off"] += 1
                if least_by_table(drawn.distances, [k for k, node in enumerate(drawn.odd) if node not in paired]) != least_by_table(drawn.distances):
                    found.append((len(file), file.hex(), "no choice that leaves these two out is a cheapest one"))
                continue
            counts["pairs read off"] += 1
            counts[len(ends)] += 1
            found += [(len(file), file.hex(), fault) for fault in faults(drawn, [(number[p], number[q]) for p, q in ends])]
        print(f"{kind}: {lines_counted(counts)}; {len(found)} wrong", flush=True)
        if found:
            _, file, fault = min(found)
            print(f"  smallest: {fault}: {file[:2000]}")
        wrong += len(found)
        sums.update(counts)
    print(f"in all: {lines_counted(sums)}; {wrong} wrong")
    return wrong == 0


def lines_counted(counts):
    by_pairs = ", ".join(f"{counts[n]} with {n}" for n in range(1, 10) if counts[n])
    return ", ".join(f"{counts[name]} {name}" for name in ("drawings", "open", "refused", "lines", "pairs read off")) + (f" ({by_pairs})" if by_pairs else "") \
        + f", {counts['two read off']} only the two that are left out"


# ---- wrong pairs. Each takes a graph and right pairs and gives wrong ones, or None where it has no place.

def left_out(drawn, pairs):
    used = {node for pair in pairs for node in pair}
    return [node for node in drawn.odd if node not in used]


def is_dearer(drawn, pairs, than):
    return cost(drawn.distances, drawn.in_places(pairs)) > cost(drawn.distances, drawn.in_places(than))


def first_dearer(drawn, pairs, others):
    """The first of these choices that costs more."""
    return next((other for other in others if is_dearer(drawn, other, pairs)), None)


def other_partners(rng, drawn, pairs):
    """Two pairs with their partners exchanged."""
    others = []
    for (a, b), (c, e) in rng.sample(list(itertools.combinations(pairs, 2)), math.comb(len(pairs), 2)):
        rest = [pair for pair in pairs if pair not in ((a, b), (c, e))]
        others += [rest + [(a, c), (b, e)], rest + [(a, e), (b, c)]]
    return first_dearer(drawn, pairs, others)


def another_left_out(rng, drawn, pairs):
    """One of the two that are left out takes the place of a paired one."""
    others = [[tuple(out if node == gone else node for node in pair) for pair in pairs]
              for out in left_out(drawn, pairs) for gone in rng.sample([node for pair in pairs for node in pair], 2 * len(pairs))]
    return first_dearer(drawn, pairs, others)


def two_others_left_out(rng, drawn, pairs):
    """The two that are left out are paired, in place of a pair."""
    return first_dearer(drawn, pairs, [[pair for pair in pairs if pair != gone] + [tuple(left_out(drawn, pairs))] for gone in pairs])


def first_two_left_out(rng, drawn, pairs):
    """Each with the next one."""
    other = list(zip(drawn.odd[2::2], drawn.odd[3::2]))
    return first_dearer(drawn, pairs, [other])


def last_two_left_out(rng, drawn, pairs):
    return first_dearer(drawn, pairs, [list(zip(drawn.odd[:-2:2], drawn.odd[1:-2:2]))])


def cheapest_by(rule):
    def wrong(rng, drawn, pairs):
        """A cheapest choice by a rule that is nearly right."""
        if len(drawn.odd) > MOST_LISTED:
            return None
        each = RULES[rule](drawn.distances)
        least = min(each)
        found = [choice for choice, total in zip(choices(len(drawn.odd)), each) if total == least]
        return first_dearer(drawn, pairs, [[(drawn.odd[a], drawn.odd[b]) for a, b in choice] for choice in found])
    wrong.__name__ = f"cheapest_by_the_rule_{rule.replace('-', '_')}"
    return wrong


def dearest_of_all(rng, drawn, pairs):
    """The choice that costs the most."""
    if len(drawn.odd) > MOST_LISTED:
        return None
    each = costs(drawn.distances)
    choice = choices(len(drawn.odd))[each.index(max(each))]
    return first_dearer(drawn, pairs, [[(drawn.odd[a], drawn.odd[b]) for a, b in choice]])


def by_last_bits(rng, drawn, pairs):
    """A choice that costs more by the least that can be."""
    if len(drawn.odd) > MOST_LISTED:
        return None
    each = costs(drawn.distances)
    more = [total for total in set(each) if total > min(each)]
    if not more or min(more) - min(each) > 1e-11:
        return None
    return [(drawn.odd[a], drawn.odd[b]) for a, b in choices(len(drawn.odd))[each.index(min(more))]]


def one_node_twice(rng, drawn, pairs):
    (a, b), *rest = pairs
    return [(a, rest[0][0]), *rest] if rest else [(a, b), (a, left_out(drawn, pairs)[0])]


def one_pair_twice(rng, drawn, pairs):
    return [pairs[0], pairs[0], *pairs[2:]] if len(pairs) > 1 else None


def none_left_out(rng, drawn, pairs):
    return pairs + [tuple(left_out(drawn, pairs))]


def four_left_out(rng, drawn, pairs):
    return pairs[1:]


def an_even_node(rng, drawn, pairs):
    even = [node for node in range(len(drawn.points)) if node not in drawn.odd]
    return [(pairs[0][0], rng.choice(even)), *pairs[1:]] if even else None


def a_pair_of_even_nodes(rng, drawn, pairs):
    """A pair of two even nodes in place of one."""
    even = [node for node in range(len(drawn.points)) if node not in drawn.odd]
    return [tuple(even[:2]), *pairs[1:]] if len(even) > 1 else None


def a_node_with_itself(rng, drawn, pairs):
    return [(pairs[0][0], pairs[0][0]), *pairs[1:]]


def a_node_behind_the_last(rng, drawn, pairs):
    return [(pairs[0][0], len(drawn.points)), *pairs[1:]]


FAULTS = [other_partners, another_left_out, two_others_left_out, first_two_left_out, last_two_left_out, dearest_of_all, by_last_bits,
          *map(cheapest_by, RULES), one_node_twice, one_pair_twice, none_left_out, four_left_out, an_even_node, a_pair_of_even_nodes,
          a_node_with_itself, a_node_behind_the_last]


def show_faulty(oracle, seed, count, kinds):
    rng, tried, missed, rules = random.Random(f"faulty {seed}"), collections.Counter(), collections.Counter(), collections.Counter()
    drawings = 0
    for kind in kinds:
        for _, _, drawn, pairs in judged(oracle, kind, seed, count):
            if drawn is None or len(drawn.odd) > 12:
                continue
            drawings += 1
            for fault in FAULTS:
                wrong = fault(rng, drawn, pairs)
                if wrong is not None:
                    tried[fault] += 1
                    missed[fault] += not faults(drawn, wrong)
            if len(drawn.odd) <= MOST_LISTED:
                rules.update(told(drawn, pairs)[0])
    for fault in FAULTS:
        print(f"{fault.__name__.replace('_', ' ')}: {tried[fault]} wrong pairs, {missed[fault]} not seen")
    for rule in RULES:
        print(f"the rule {rule}: false for {rules[rule]} drawings")
    bad = sum(missed.values()) + sum(tried[fault] == 0 for fault in FAULTS) + sum(rules[rule] == 0 for rule in RULES)
    print(f"{drawings} drawings, {sum(tried.values())} wrong pairs of {len(FAULTS)} sorts, {sum(missed.values())} not seen; {sum(rules[rule] == 0 for rule in RULES)} "
          f"of {len(RULES)} wrong rules not seen")
    return bad == 0


def main():
    parser = argparse.ArgumentParser()
    parser.add_argument("oracle")
    parser.add_argument("seed")
    parser.add_argument("count", type=int)
    parser.add_argument("kinds", nargs="*", metavar="KIND")
    parser.add_argument("--faulty", action="store_true")
    parser.add_argument("--find", metavar="RULE", choices=[*RULES, "several"])
    parser.add_argument("--plan", metavar="PLANNER")
    args = parser.parse_intermixed_args()
    os.nice(10)
    kinds = args.kinds or ["optimal", *FEW_ODD_KINDS]
    if args.find:
        find(args.oracle, args.seed, args.count, kinds, args.find)
    elif args.plan:
        sys.exit(not judge_lines(args.oracle, args.plan, args.seed, args.count, kinds))
    elif args.faulty:
        sys.exit(not show_faulty(args.oracle, args.seed, args.count, kinds))
    else:
        sys.exit(not judge(args.oracle, args.seed, args.count, kinds))


if __name__ == "__main__":
    main()
