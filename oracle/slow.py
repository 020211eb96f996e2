"""Drawings that are slow on purpose, found by hand and by random search; the same ones each time.

Points are pairs of grid steps, as in generate.py. Each kind was made against one part of a planner: searches that meet
a hub's arms, pairs that lie far apart along the lines, points of one hash bucket, split points in a bad order, odd
nodes in places that are bad for Greedy.
"""
import math
import random
import struct

from generate import EDGE, odd_places, write

SIDES = dict(width=640, height=480)


def anywhere(lines, pairs):
    """Links between any two points: both ends name a line of one point, which no point splits."""
    dot = next(i for i, line in enumerate(lines) if len(line) == 1)
    return [(dot, 0, p, dot, 0, q) for p, q in pairs]


def ray(centre, radius, angle):
    return (centre[0] + round(radius * math.cos(angle)), centre[1] + round(radius * math.sin(angle)))


# ---- Hubs: every search meets all the arms. ----

def star(rng, spread=0.02, chain=0, loops=0, flags=0):
    """510 arms of nearly one length, and points near the hub that each search goes through first."""
    hub, radius, arms = (0, 0), 3000 * 1024, 510
    tips = [ray(hub, radius * (1 + spread * rng.random()), 2 * math.pi * (k + 0.8 * rng.random()) / arms) for k in range(arms)]
    lines = [[hub]] + [[hub, tip] for tip in tips[:254]]
    blob = [hub] + [ray(hub, 1024 * (2 + k * 0.9), 2.399963 * k) for k in range(chain)]
    for k in range(loops):
        blob += [ray(hub, 1024 * (1000 + rng.random() * 900), 2.399963 * k), hub]
    if len(blob) > 1:
        lines.append(blob)
    return write(lines, anywhere(lines, [(hub, tip) for tip in tips[254:509]]), flags=flags, **SIDES)


def wide_star(rng, core=1, split=False, short=0.0, flags=0):
    """Lines from tip through the hub to tip, 510 tips, and 255 links to further tips. Before a line's second tip stand
    `core` points near the hub. split: a link leaves its line near the hub, at a point that is odd too. short: the part
    of the tips that are nearer, so that searches for the others go by all of them."""
    hub, lines, links = (0, 0), [[(0, 0)]], []
    far = lambda angle: ray(hub, 3000 * 1024 * ((0.7 if rng.random() < short else 1) + 0.02 * rng.random()), angle)
    for k in range(255):
        angle = 2 * math.pi * k / 255
        here = core if sum(map(len, lines)) + (255 - k) * 3 + core <= 1024 else 0
        near = [ray(hub, 1024 * (20 + 9 * i + 5 * rng.random()), angle + 0.002) for i in range(here)]
        line = [far(angle), hub] + near + [far(angle + 0.008)]
        if split and here:
            links.append((len(lines), 1, (line[2][0] // 2, line[2][1] // 2), 0, 0, far(angle + 0.016)))
        else:
            links.append((0, 0, hub, 0, 0, far(angle + 0.016)))
        lines.append(line)
    return write(lines, links, flags=flags, **SIDES)


def two_hubs(rng, flags=0):
    """Tips of two hubs stand beside each other: each pair is near by eye and far along the lines."""
    a, b, count = (-900 * 1024, 0), (900 * 1024, 0), 254
    lines, pairs = [[a, b], [a]], []
    for k in range(count):
        p = (rng.randint(-200, 200), round((k - count / 2) * 9 / count * 1024 * 800))
        lines.append([a, p])
        pairs.append((b, (p[0] + 3, p[1] + rng.randint(-2, 2))))
    return write(lines, anywhere(lines, pairs), flags=flags, **SIDES)


def many_hubs(rng, hubs=16):
    """Hubs in a ring about one in the middle; tips of a hub stand beside tips of the hub across."""
    middle = (0, 0)
    places = [ray(middle, 2000 * 1024, 2 * math.pi * k / hubs) for k in range(hubs)]
    lines, pairs = [[middle]] + [[middle, place] for place in places], []
    for k in range(256 - len(lines)):
        p = (rng.randint(-900 * 1024, 900 * 1024), rng.randint(-900 * 1024, 900 * 1024))
        lines.append([places[k % hubs], p])
        pairs.append((places[(k + hubs // 2) % hubs], (p[0] + 1, p[1] + 1)))
    return write(lines, anywhere(lines, pairs), **SIDES)


def behind_a_lattice(rng):
    """Pairs on two far hubs; every search goes through a lattice of short pieces between them."""
    a, b, side = (-3000 * 1024, 0), (3000 * 1024, 0), 16
    turned = lambda points, k: points if k % 2 == 0 else points[::-1]
    rows = [p for y in range(side) for p in turned([(1024 * x, 1024 * y) for x in range(side)], y)]
    columns = [p for x in range(side) for p in turned([(1024 * x, 1024 * y) for y in range(side)], x)]
    lines, pairs = [[a], rows, columns, [a, (0, 0)], [b, (0, 0)]], []
    while len(lines) < 256 and sum(map(len, lines)) <= 1020:
        p = (rng.randint(-1000 * 1024, 1000 * 1024), 3900 * 1024 - rng.randint(0, 1000))
        lines.append([a, p])
        pairs.append((b, (p[0] + 2, p[1] + 1)))
    return write(lines, anywhere(lines, pairs), **SIDES)


# ---- Greedy: as many odd nodes as can be, in given places. ----

def caterpillar(points):
    """A spine through every second point and a leg from each of its points to the next: all of them odd."""
    spine, legs = points[0:1022:2], points[1:1022:2]
    lines, pairs = [[points[0]], spine], []
    for p, q in zip(spine, legs):
        if len(lines) < 256 and sum(map(len, lines)) + 2 <= 1024:
            lines.append([p, q])
        elif len(pairs) < 255:
            pairs.append((p, q))
    return write(lines, anywhere(lines, pairs), **SIDES)


def about_a_cluster(rng):
    """A third of them in a cluster, the others at distances that grow: the cluster's are nearest to many."""
    points = {(0, 0)}
    while len(points) < 358:
        points.add((rng.randint(-40, 40), rng.randint(-40, 40)))
    while len(points) < 1022:
        points.add(ray((0, 0), 60 * math.exp(rng.random() * 11), rng.random() * 2 * math.pi))
    points = sorted(p for p in points if max(map(abs, p)) <= EDGE)
    rng.shuffle(points)
    return points


def growing(rng):
    """On one straight line, each gap a little wider: the nearest of each is the one before it, which is taken."""
    return [(-4000 * 1024 + 4000 * k + 7 * k * (k - 1) // 2, 0) for k in range(1022)]


def on_a_lattice(rng):
    points = [(1024 * x, 1024 * y) for y in range(32) for x in range(32)][:1022]
    rng.shuffle(points)
    return points


def uniform(rng, count=1022):
    return [(rng.randint(-EDGE, EDGE), rng.randint(-EDGE, EDGE)) for _ in range(count)]


def rings(rng):
    """Small rings round a middle: with the middle gone, every one of the ring has to look again."""
    points = []
    while len(points) < 1022:
        middle = (rng.randint(-3000, 3000) * 1024, rng.randint(-3000, 3000) * 1024)
        points += [middle] + [ray(middle, 50000 + 10 * k, 2 * math.pi * k / 6) for k in range(6)]
    return points[:1022]


# ---- Nodes in one bucket of a hash. ----

def mixed_bucket(x, y):
    """The prototype's hash."""
    return (((x + EDGE) * 0x2f9e3779b9 + (y + EDGE) * 0x357c15f39d) >> 32) & 2047


def prime_bucket(x, y):
    """1009 x + y modulo a prime, the first hash of the port."""
    return (1009 * (x + EDGE) + (y + EDGE)) % 2039


def one_bucket(rng, bucket, links=255):
    points, seen = [], set()
    while len(points) < 1024 + 2 * links:
        p = (rng.randint(-EDGE, EDGE), rng.randint(-EDGE, EDGE))
        if bucket(*p) == 0 and p not in seen:
            seen.add(p)
            points.append(p)
    line = points[:1023]
    pairs = [pair for k in range(links // 2) for pair in ((line[k], points[1024 + k]), (points[1024 + k], line[k]))]
    lines = [line, [line[0]]]
    return write(lines, anywhere(lines, pairs), **SIDES)


def even_steps(dx, dy):
    """Strokes up and down in steps of (dx, dy) pixels; (2, 21) is 0 in `prime_bucket`."""
    points, x, y, way = [], -1000, -1900, 1
    for k in range(1000):
        points.append((x * 1024, y * 1024))
        if (k + 1) % 180 == 0:
            x, way = x + 1, -way
        else:
            x, y = x + dx, y + way * dy
    return write([points], **SIDES)


# ---- Split points, Optimal on long lines, all limits full. ----

def splits(rng, order, doubled=False):
    """255 links on one segment, filed in an order; doubled: each twice, so that few nodes are odd."""
    xs = sorted(rng.sample(range(-3999 * 1024, 3999 * 1024), 510))
    if order == "down":
        xs.reverse()
    elif order == "mixed":
        rng.shuffle(xs)
    elif order == "in and out":
        xs = [x for k in range(255) for x in (xs[k], xs[509 - k])]
    pick = [k // 2 if doubled else k for k in range(255)]
    return write([[(-4000 * 1024, 0), (4000 * 1024, 0)]], [(0, 0, (xs[2 * j], 0), 0, 0, (xs[2 * j + 1], 0)) for j in pick], **SIDES)


def optimal(rng, odd, nodes, flags=0):
    """`odd` odd nodes on a long line of `nodes` points with legs."""
    n = nodes - odd
    side = math.isqrt(n) + 1
    line = [(2048 * (k % side if k // side % 2 == 0 else side - 1 - k % side) + rng.randint(-300, 300),
             2048 * (k // side) + rng.randint(-300, 300)) for k in range(n)]
    legs = [line[(k + 1) * (n - 1) // odd] for k in range((odd - 2) // 2)]
    return write([line] + [[p, (p[0] + 700, p[1] + 650)] for p in legs], pairing=1, flags=flags, **SIDES)


def full(rng, flags=1, reach=1024 * 60):
    """Lines that form a tree and 255 links as rungs between any places of it: up to 1,534 nodes and 1,788 edges."""
    lines, points = [], []
    for k in range(255):
        line = [rng.choice(points) if points else (0, 0)]
        for _ in range(3 if k < 240 else 4):
            step = lambda v: max(-EDGE, min(EDGE, v + rng.randint(-reach, reach)))
            line.append((step(line[-1][0]), step(line[-1][1])))
            points.append(line[-1])
        lines.append(line[:1024 - sum(map(len, lines)) - 1])
    lines = [line for line in lines if line] + [[points[0]]]
    segments = [(i, s) for i, line in enumerate(lines) for s in range(len(line) - 1)]
    links = []
    for _ in range(255):
        ends = []
        for i, s in (rng.choice(segments), rng.choice(segments)):
            (ax, ay), (bx, by), part = lines[i][s], lines[i][s + 1], rng.random()
            ends += [i, s, (round(ax + (bx - ax) * part), round(ay + (by - ay) * part))]
        links.append(tuple(ends))
    return write(lines, links, flags=flags, **SIDES)


# ---- Optimal above 20 odd nodes. ----

def with_optimal(file):
    return file[:14] + b"\1" + file[15:]


def odd_count(file):
    """The odd nodes of a file that carries its links."""
    lines, links, at = [], [], 0
    while at < len(file):
        length, kind = struct.unpack_from("<IH", file, at)
        numbers = struct.unpack_from(f"<{length // 8}d", file, at + 6) if kind != 1 else ()
        points = list(zip(numbers[::2], numbers[1::2]))
        if kind == 2:
            lines.append(points)
        elif kind == 3:
            # Four line and segment numbers, which are eight bytes, stand before the ends.
            links.append((0, 0, numbers[1:3], 0, 0, numbers[3:5]))
        at += 6 + length
    return len(odd_places(lines, links))


def many_odd():
    """Name and file. Each two odd nodes are asked for their distance, and both pairings look at all of them again and again."""
    rng = lambda name: random.Random("slow " + name)
    yield "hub, 510 arms", star(rng("1"))
    yield "hub, 510 equal arms", star(rng("3"), spread=0)
    yield "hub, 765 arms", wide_star(rng("6"), core=0)
    yield "hub, 1,020 odd nodes", wide_star(rng("9"), split=True)
    yield "hub, 1,020 odd nodes, closed", wide_star(rng("10"), split=True, flags=1)
    yield "far pairs, two hubs", two_hubs(rng("11"))
    for make in (about_a_cluster, growing, on_a_lattice, uniform, rings):
        name = make.__name__.replace("_", " ")
        yield f"caterpillar, {name}", caterpillar(make(rng(name)))
    for k in range(2):
        yield f"all limits full, {k}", full(rng(f"full {k}"), flags=k)


def cases():
    """Name, file, odd nodes that tables are needed for (0 where `plan`'s own suffice)."""
    rng = lambda name: random.Random("slow " + name)
    yield "hub, 510 arms", star(rng("1")), 0
    yield "hub, 510 arms, closed", star(rng("2"), flags=1), 0
    yield "hub, 510 equal arms", star(rng("3"), spread=0), 0
    yield "hub, 510 arms and a chain", star(rng("4"), chain=512), 0
    yield "hub, 510 arms and loops", star(rng("5"), loops=256), 0
    yield "hub, 765 arms", wide_star(rng("6"), core=0), 0
    yield "hub, 765 arms and a core", wide_star(rng("7")), 0
    yield "hub, 765 arms, half of them short", wide_star(rng("8"), short=0.5), 0
    yield "hub, 1,020 odd nodes", wide_star(rng("9"), split=True), 0
    yield "hub, 1,020 odd nodes, closed", wide_star(rng("10"), split=True, flags=1), 0
    yield "far pairs, two hubs", two_hubs(rng("11")), 0
    yield "far pairs, two hubs, closed", two_hubs(rng("12"), flags=1), 0
    yield "far pairs, sixteen hubs", many_hubs(rng("13")), 0
    yield "far pairs behind a lattice", behind_a_lattice(rng("14")), 0
    for make in (about_a_cluster, growing, on_a_lattice, uniform, rings):
        name = make.__name__.replace("_", " ")
        yield f"Greedy, {name}", caterpillar(make(rng(name))), 0
        yield f"Greedy, {name}, in order", caterpillar(sorted(make(rng(name)))), 0
    yield "one bucket, mixed", one_bucket(rng("15"), mixed_bucket), 0
    yield "one bucket, prime", one_bucket(rng("16"), prime_bucket), 0
    yield "one bucket, prime, a line", one_bucket(rng("17"), prime_bucket, links=0), 0
    yield "steps of (2, 21)", even_steps(2, 21), 0
    yield "a line of 1,024 random points", write([uniform(rng("18"), 1024)], **SIDES), 0
    yield "a line of 1,024 random points, closed", write([uniform(rng("19"), 1024)], flags=1, **SIDES), 0
    for order in ("up", "down", "mixed", "in and out"):
        yield f"510 split points, {order}", splits(rng(order), order), 0
        yield f"255 split points twice, {order}", splits(rng(order), order, doubled=True), 0
    yield "Optimal, 20 odd nodes on 1,000", optimal(rng("20"), 20, 1000), 20
    yield "Optimal, 12 odd nodes on 1,000, closed", optimal(rng("21"), 12, 1000, flags=1), 0
    for k in range(3):
        yield f"all limits full, {k}", full(rng(f"full {k}"), flags=k % 2), 0
    yield "all limits full, wide", full(rng("wide"), reach=1024 * 2000), 0
