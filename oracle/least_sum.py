#!/usr/bin/env python3
"""Looks at made links: whether they are what change request 1 asks for.

usage: oracle/least_sum.py MAKER SEED COUNT [KIND ...]      (the kinds with flag 4 if none is named)
       oracle/least_sum.py --faulty MAKER SEED COUNT        shows that wrong sets are seen

MAKER is a command that reads a batch and prints the made links of each drawing, such as 'OUT/oracle --batch --links': a
row `made N` and a row for each link (line, segment, x, y, line, segment, x, y, squared length; grid steps), or a row
`refused N`, and then a row `--`. COUNT drawings of each kind, fewer of the slow ones (FEW).

Of each set: m - 1 links for m lines with points; each one between ends of two different lines with points, each end on
the segment that the request names, the squared length as printed; the links by themselves lead from each line to each
other; no other such set has a smaller sum of squared lengths. Up to five lines with points every set of m - 1 candidates
is tried. With more it is enough that no exchange of one link for one candidate makes the sum smaller, since the links
form a spanning tree. Up to five lines both ways must agree.

This file shares nothing with the makers: it reads the drawing files itself, and ranks, sorts and grows nothing.
"""
import collections
import itertools
import os
import random
import shlex
import struct
import subprocess
import sys

import drawing as d
from generate import KINDS, LINKING_KINDS

# As oracle/against.py has it, so that the same seed and count give it the same drawings.
FEW = dict(made_many=1 / 100, made_long=1 / 50)


# ---- a drawing file that its reader took

def flags_and_lines(file):
    """The flags, and the lines as lists of points in grid steps."""
    lines, at, flags = [], 0, None
    while at < len(file):
        length, kind = struct.unpack_from("<IH", file, at)
        body = file[at + 6:at + 6 + length]
        if kind == 1:
            flags = body[9]
        elif kind == 2:
            steps = [int(c * 1024) for c in struct.unpack(f"<{length // 8}d", body)]
            lines.append(list(zip(steps[::2], steps[1::2])))
        at += 6 + length
    return flags, lines


# ---- what the request asks for

def places(line):
    """The two ends of a line with points: segment and point."""
    return (0, line[0]), (max(0, len(line) - 2), line[-1])


def square(a, b):
    return (a[0] - b[0]) ** 2 + (a[1] - b[1]) ** 2


def leads_everywhere(lines, joined):
    """Whether the pairs of lines in `joined` lead from the first of these lines to each other one."""
    beside = collections.defaultdict(list)
    for a, b in joined:
        beside[a].append(b)
        beside[b].append(a)
    reached, open_ = {lines[0]}, [lines[0]]
    while open_:
        for other in beside[open_.pop()]:
            if other not in reached:
                reached.add(other)
                open_.append(other)
    return reached == set(lines)


def pairs_of(count):
    return list(itertools.combinations(range(count), 2))


SPANNING = {}


def spanning_sets(count):
    """All sets of count - 1 candidates, by their places in `candidates`, that lead from each of so many lines to each other."""
    if count not in SPANNING:
        of_candidate = [pair for pair in pairs_of(count) for _ in range(4)]
        SPANNING[count] = [chosen for chosen in itertools.combinations(range(len(of_candidate)), count - 1)
                           if leads_everywhere(range(count), [of_candidate[k] for k in chosen])]
    return SPANNING[count]


def least_by_trying(lines):
    """The least sum over all sets; these lines all have points."""
    candidates = [square(p, q) for a, b in pairs_of(len(lines)) for _, p in places(lines[a]) for _, q in places(lines[b])]
    return min(sum(candidates[k] for k in chosen) for chosen in spanning_sets(len(lines)))


def no_exchange_is_better(lines, links):
    """Of a spanning tree over these lines: whether each candidate is at least as long as every link on the way between its lines."""
    beside = collections.defaultdict(list)
    for a, b, squared in links:
        beside[a].append((b, squared))
        beside[b].append((a, squared))
    for first in range(len(lines)):
        # The longest link on the way to each line.
        longest, open_ = {first: 0}, [first]
        while open_:
            at = open_.pop()
            for other, squared in beside[at]:
                if other not in longest:
                    longest[other] = max(longest[at], squared)
                    open_.append(other)
        for other in range(first):
            if min(square(p, q) for _, p in places(lines[first]) for _, q in places(lines[other])) < longest[other]:
                return False
    return True


def faults(file, made):
    """What is wrong with the links made for a file: a list of words."""
    flags, lines = flags_and_lines(file)
    with_points = [number for number, line in enumerate(lines) if line]
    wanted = max(0, len(with_points) - 1) if flags & 4 else 0
    if len(made) != wanted:
        return [f"{len(made)} links, not {wanted}"]
    for la, sa, ax, ay, lb, sb, bx, by, squared in made:
        for line, segment, point in ((la, sa, (ax, ay)), (lb, sb, (bx, by))):
            if line >= len(lines) or not lines[line]:
                return [f"a link to line {line}, which has no points"]
            if (segment, point) not in places(lines[line]):
                return [f"line {line} has no end at {point} on segment {segment}"]
        if la == lb:
            return [f"a link from line {la} to itself"]
        if squared != square((ax, ay), (bx, by)):
            return [f"{squared} is not the square of a link's length"]
    if wanted == 0:
        return []
    joined = [(link[0], link[4]) for link in made]
    if not leads_everywhere(with_points, joined):
        return ["some line can't be reached"]
    place = {number: k for k, number in enumerate(with_points)}
    full = [lines[number] for number in with_points]
    is_least = no_exchange_is_better(full, [(place[link[0]], place[link[4]], link[8]) for link in made])
    if len(full) <= 5:
        least, total = least_by_trying(full), sum(link[8] for link in made)
        if (total == least) != is_least:
            return [f"the two ways of judging the sum disagree: {total}, {least}"]
    return [] if is_least else ["a set with a smaller sum exists"]


# ---- running

def made_sets(maker, files):
    """For each file its made links, or None where it was refused."""
    batch = b"".join(d.batched(file) for file in files)
    printed = subprocess.run(shlex.split(maker), input=batch, stdout=subprocess.PIPE, check=True).stdout.decode()
    sets = printed.split("--\n")
    assert sets.pop() == "" and len(sets) == len(files), "the maker gave too few or too many sets"
    return [parsed(rows.splitlines()) for rows in sets]


def parsed(rows):
    word, number = rows[0].split()
    if word == "refused" and len(rows) == 1:
        return None
    links = [tuple(map(int, row.split())) for row in rows[1:]]
    if word != "made" or int(number) != len(links) or any(len(link) != 9 for link in links):
        raise SystemExit(f"not a set: {rows[:3]}")
    return links


def generated(kind, seed, count):
    rng = random.Random(f"{kind} {seed}")
    return [KINDS[kind](rng)[0] for _ in range(max(1, round(count * FEW.get(kind, 1))))]


def judge(maker, seed, count, kinds):
    judged = wrong = 0
    for kind in kinds:
        files = generated(kind, seed, count)
        sets, sizes = made_sets(maker, files), collections.Counter()
        found = []
        for file, made in zip(files, sets):
            if made is not None:
                sizes["by all sets" if len(made) <= 4 else "by exchanges"] += 1
                found += [(len(file), file.hex(), fault) for fault in faults(file, made)]
        print(f"{kind}: {len(files)} drawings, {sets.count(None)} refused,", ", ".join(f"{n} judged {w}" for w, n in sorted(sizes.items())) + ";",
              f"{len(found)} wrong", flush=True)
        if found:
            _, file, fault = min(found)
            print(f"  smallest: {fault}: {file[:2000]}")
        judged += sum(sizes.values())
        wrong += len(found)
    print(f"{judged} sets judged, {wrong} wrong")
    return wrong == 0


# ---- wrong sets. Each takes the file's lines and a right set and gives a wrong one, or None where it has no place.

def with_point(lines, link, side, line, segment, point):
    """The link with another end, and the length that belongs to it."""
    ends = [link[0:4], link[4:8]]
    ends[side] = (line, segment, *point)
    return (*ends[0], *ends[1], square(ends[0][2:], ends[1][2:]))


def one_fewer(rng, lines, made):
    return made[1:] if made else None


def one_more(rng, lines, made):
    return made + [rng.choice(made)] if made else None


def one_twice(rng, lines, made):
    """In place of another link that is needed."""
    return made[:-1] + [made[0]] if len(made) > 1 else None


def empty_line(rng, lines, made):
    empty = [number for number, line in enumerate(lines) if not line]
    return [with_point(lines, made[0], 1, empty[0], 0, made[0][6:8])] + made[1:] if made and empty else None


def end_on_segment_0(rng, lines, made):
    for k, link in enumerate(made):
        for side in (0, 1):
            line, segment, *point = link[4 * side:4 * side + 4]
            if segment > 0 and lines[line][0] != tuple(point):
                return made[:k] + [with_point(lines, link, side, line, 0, point)] + made[k + 1:]
    return None


def start_on_last_segment(rng, lines, made):
    for k, link in enumerate(made):
        for side in (0, 1):
            line, _, *point = link[4 * side:4 * side + 4]
            last = len(lines[line]) - 2
            if last > 0 and lines[line][0] == tuple(point) != lines[line][-1]:
                return made[:k] + [with_point(lines, link, side, line, last, point)] + made[k + 1:]
    return None


def segment_behind_the_last(rng, lines, made):
    if not made:
        return None
    line, segment, *point = made[0][:4]
    return [with_point(lines, made[0], 0, line, max(1, len(lines[line]) - 1), point)] + made[1:]


def a_step_beside(rng, lines, made):
    if not made:
        return None
    line, segment, x, y = made[0][:4]
    beside = next(p for p in ((x + 1, y), (x, y + 1), (x - 1, y)) if p not in (lines[line][0], lines[line][-1]))
    return [with_point(lines, made[0], 0, line, segment, beside)] + made[1:]


def an_inner_point(rng, lines, made):
    for k, link in enumerate(made):
        line, inner = lines[link[0]], lines[link[0]][1:-1]
        at = next((i for i, p in enumerate(inner) if p not in (line[0], line[-1])), None)
        if at is not None:
            return made[:k] + [with_point(lines, link, 0, link[0], at, inner[at])] + made[k + 1:]
    return None


def a_line_to_itself(rng, lines, made):
    if not made:
        return None
    line = made[0][0]
    segment, point = places(lines[line])[1]
    return [with_point(lines, made[0], 1, line, segment, point)] + made[1:]


def wrong_length(rng, lines, made):
    return [made[0][:8] + (made[0][8] + 1,)] + made[1:] if made else None


def a_longer_end(rng, lines, made):
    """The other end of a line, where that is farther."""
    for k, link in enumerate(made):
        for side in (0, 1):
            for segment, point in places(lines[link[4 * side]]):
                longer = with_point(lines, link, side, link[4 * side], segment, point)
                if longer[8] > link[8]:
                    return made[:k] + [longer] + made[k + 1:]
    return None


def a_longer_way(rng, lines, made):
    """A link taken out and the two parts joined by the longest candidate between them."""
    full = [number for number, line in enumerate(lines) if line]
    if not made:
        return None
    gone = rng.randrange(len(made))
    rest = made[:gone] + made[gone + 1:]
    part, grew = {made[gone][0]}, True
    while grew:
        grew = False
        for link in rest:
            if (link[0] in part) != (link[4] in part):
                part |= {link[0], link[4]}
                grew = True
    found = [(a, sa, *p, b, sb, *q, square(p, q)) for a in full if a in part for b in full if b not in part
             for sa, p in places(lines[a]) for sb, q in places(lines[b])]
    longest = max(found, key=lambda link: link[8])
    return rest + [longest] if longest[8] > made[gone][8] else None


def as_in_the_file(rng, lines, made):
    """Each line's end linked to the start of the next one, where that sum is larger."""
    full = [number for number, line in enumerate(lines) if line]
    chain = []
    for a, b in zip(full, full[1:]):
        (sa, p), (sb, q) = places(lines[a])[1], places(lines[b])[0]
        chain.append((a, sa, *p, b, sb, *q, square(p, q)))
    return chain if sum(link[8] for link in chain) > sum(link[8] for link in made) else None


FAULTS = [one_fewer, one_more, one_twice, empty_line, end_on_segment_0, start_on_last_segment, segment_behind_the_last, a_step_beside,
          an_inner_point, a_line_to_itself, wrong_length, a_longer_end, a_longer_way, as_in_the_file]


def show_faulty(maker, seed, count):
    rng, tried, missed = random.Random(f"faulty {seed}"), collections.Counter(), collections.Counter()
    for kind in LINKING_KINDS:
        files = generated(kind, seed, count)
        for file, made in zip(files, made_sets(maker, files)):
            if made is None or not flags_and_lines(file)[0] & 4:
                continue
            for fault in FAULTS:
                wrong = fault(rng, flags_and_lines(file)[1], made)
                if wrong is not None:
                    tried[fault] += 1
                    missed[fault] += not faults(file, wrong)
    for fault in FAULTS:
        print(f"{fault.__name__.replace('_', ' ')}: {tried[fault]} wrong sets, {missed[fault]} not seen")
    bad = sum(missed.values()) + sum(tried[fault] == 0 for fault in FAULTS)
    print(f"{sum(tried.values())} wrong sets of {len(FAULTS)} sorts, {sum(missed.values())} not seen")
    return bad == 0


def main():
    os.nice(10)
    if sys.argv[1] == "--faulty":
        sys.exit(not show_faulty(sys.argv[2], sys.argv[3], int(sys.argv[4])))
    maker, seed, count = sys.argv[1], sys.argv[2], int(sys.argv[3])
    sys.exit(not judge(maker, seed, count, sys.argv[4:] or LINKING_KINDS))


main()
