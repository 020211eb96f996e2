"""A drawing's graph as `build_graph` makes it: chains, pieces, links, what can be reached, odd points.

Points are pairs of whole grid steps, all numbers exact. The drawing has passed conditions 1 to 8 and 15. Its links are
those that it is planned with: its own, or those that are made for it.
"""
import collections

from .drawing_file import in_steps, squared
from .made_links import planned

Graph = collections.namedtuple("Graph", "points lines links pieces parts odd")


def chain(start, end, split_points):
    """A segment's start, its split points in order, and its end. Of equal points that follow each other `build_graph`
    keeps one; here they stay, since no piece lies between them."""
    inside = [p for p in split_points if p not in (start, end)]
    return [start, *sorted(inside, key=lambda p: squared(start, p)), end]


class Joined:
    """Points put into parts: two are in one part when strokes lead from one to the other."""

    def __init__(self):
        self.above = {}

    def top(self, point):
        self.above.setdefault(point, point)
        while self.above[point] != point:
            self.above[point] = self.above[self.above[point]]
            point = self.above[point]
        return point

    def join(self, p, q):
        self.above[self.top(p)] = self.top(q)


def graph(drawing):
    """points: all nodes, in order of first use. lines and links: the drawing's, in grid steps. pieces: (p, q, line,
    segment). parts: lists of points, the one of the first node first. odd: the points where an odd number of pieces
    and links ends."""
    drawing = planned(drawing)
    lines = [[in_steps(p) for p in line] for line in drawing.lines]
    links = [l._replace(a=in_steps(l.a), b=in_steps(l.b)) for l in drawing.links]
    named = collections.defaultdict(list)  # the link ends that name a segment
    for link in links:
        named[link.line_a, link.segment_a].append(link.a)
        named[link.line_b, link.segment_b].append(link.b)
    points, pieces, joined, degree = {}, [], Joined(), collections.Counter()

    def use(*of):
        for point in of:
            points.setdefault(point)
            joined.top(point)

    def edge(p, q):
        joined.join(p, q)
        degree.update((p, q))

    for number, line in enumerate(lines):
        use(*line[:1])
        for segment, (start, end) in enumerate(zip(line, line[1:])):
            through = chain(start, end, named[number, segment])
            use(*through)
            for p, q in zip(through, through[1:]):
                if p != q:
                    pieces.append((p, q, number, segment))
                    edge(p, q)
    for link in links:
        use(link.a, link.b)
        if link.a != link.b:
            edge(link.a, link.b)
    parts = collections.defaultdict(list)
    for point in points:
        parts[joined.top(point)].append(point)
    return Graph(list(points), lines, links, pieces, list(parts.values()), [p for p in points if degree[p] % 2])
