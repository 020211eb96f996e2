"""What the pairs of optimal pairing cost with 4 to 20 odd points, where all choices of pairs are compared. It is worked out from the
drawing alone, so that what the planner answers can be held against it.

A choice leaves two odd points out and pairs the others. Points are counted in the order in which the drawing has them. A pair costs the
least distance from its lower point to its higher, and the pairs are added from 0.0 on, in falling order of their lower points. Each sum
is rounded, as in the planner; added in another order they could differ in the last bits.
"""
import collections
import functools
import heapq
import math

from .drawing_file import CLOSE, MOST_OPTIMAL, OPTIMAL, STEPS, squared

FEWEST = 4  # odd points; where there are fewer, none are paired


def ways_between(made):
    """For each odd point of a graph its least distances along the strokes to all of them, in pixels."""
    strokes = collections.defaultdict(set)  # strokes between the same points are equally long
    for p, q in [(p, q) for p, q, *_ in made.pieces] + [(link.a, link.b) for link in made.links]:
        length = math.sqrt(squared(p, q)) / STEPS  # the float that is nearest to it
        strokes[p].add((q, length))
        strokes[q].add((p, length))
    rows = (distances(strokes, start) for start in made.odd)
    return [[row[point] for point in made.odd] for row in rows]


def distances(strokes, start):
    """The least distance from a point to each that strokes lead to; lengths are added from that point on."""
    found, waiting = {}, [(0.0, start)]
    while waiting:
        way, point = heapq.heappop(waiting)
        if point not in found:
            found[point] = way
            for other, length in strokes[point]:
                heapq.heappush(waiting, (way + length, other))
    return found


def least_sum(ways):
    """The least sum of all choices. What is left is a row of points, of which so many are still to be left out: its lowest is one of
    these, or is paired with a higher one, and its pair is added last."""
    @functools.lru_cache(maxsize=None)
    def least(left, out):
        if len(left) == out:
            return 0.0
        low, others = left[0], left[1:]
        sums = [least(others[:place] + others[place + 1:], out) + ways[low][high] for place, high in enumerate(others)]
        if out:
            sums.append(least(others, out - 1))
        return min(sums)

    return least(tuple(range(len(ways))), 2)


def choices(n):
    """How many choices there are for n points: which two are left out, and with which of the others the lowest one is paired, then
    the lowest one of the rest, and so on."""
    return math.comb(n, 2) * math.prod(range(n - 3, 0, -2))


def told(settings, made):
    """What is compared, and the least sum, as rows of text; none where not all choices are compared."""
    n = len(made.odd)
    if settings.pairing != OPTIMAL or not FEWEST <= n <= MOST_OPTIMAL:
        return []
    closing = "; the way that closes the line comes on top" if settings.flags & CLOSE else ""
    return [f"all {choices(n):,} choices of pairs that leave two of these out are compared, and none has ways back that add up to less than "
            f"those taken: {least_sum(ways_between(made)):.10g} pixels{closing}"]
