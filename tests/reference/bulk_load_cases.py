"""Cases for the call `bulk_load` of Change 6, with everything that the call must answer and leave.

    python3 bulk_load_cases.py > lists/bulk_load.txt
    python3 bulk_load_cases.py campaign [seconds, 20 if none is given] [seed]

The answers come from sweep.py. What each case is about, how many points its seed takes, where 9 is met, is known here
by its making and held against them. An accepted call is held against what Change 6 and demand 3 claim of it, and
against a run from the seed that has grown. The campaign holds lists at random against the same.
"""

import math
import random
import sys
import time

import heights
import lists
import meshes
import selfcheck
import sweep
from run_cases import turned
from skipped_cases import Watch

LIMIT = sweep.LIMIT
SIZES = (2, 1, 24, 2, 1)  # of the rows p o h f e, for each point
RING = ("nodes", "freed", "buckets")


class Case:
    """Points, their heights, and the rows that are lent: exactly long enough, or with room for `spare` points more,
    and one of them an entry short. The mesh's rows hold lists.PAST in every entry or, with `old`, one of four numbers.
    Without `high` the heights row is not written."""

    def __init__(self, points, zs=None, pending=8, spare=0, short=None, old=None, high=True):
        n = len(points) + spare
        self.points, self.zs, self.tags = points, zs, lists.HIGH if high else "mpohf"
        rows = [[past] * (size * n) for past, size in zip(lists.PAST, SIZES)]
        if old is not None:
            rows = [[old.choice([past, 1, 2, 7]) for past in row] for row in rows]
        for tag, row in zip(lists.ROWS, rows):
            if tag == short:
                row.pop()
        self.mesh = sweep.Mesh(*rows[:4], 0, 0, 0, rows[4] if high else None)
        self.lengths = {"nodes": n + 1, "freed": n + 1, "buckets": max(16, n), "pending": pending,
                        "answers": sweep.WORDS * n}
        if short in self.lengths:
            self.lengths[short] -= 1

    def lent(self):
        return sweep.Lent(*([7] * self.lengths[k] for k in RING + ("pending", "answers")))

    def heights(self):
        return [0] * len(self.points) if self.zs is None else self.zs

    def lines(self):
        flat = [c for p in self.points for c in p]
        told = lists.mesh_lines(self.mesh, self.tags) + [
            lists.line("n", [self.lengths[k] for k in RING]), lists.line("q", (self.lengths["pending"], 7)),
            lists.line("w", (self.lengths["answers"], 7)), lists.line("v", [len(self.points)] + flat)]
        return told + ([lists.row_line("y", self.zs)] if self.zs is not None else [])


# ---------------------------------------------------------------------------------------------------
# What is true of a call


class Grown:
    """A list with pending entries in plenty: the seed that grows, the centre, the answers of all points, and of the
    points that the seed takes what the search has found."""

    def __init__(self, points, zs=None):
        n = len(points)
        self.mesh, lent = meshes.with_room(sweep.Mesh([], [], [], [], 0, 0, 0), n), sweep.lent_for(n, 4096, n)
        with Watch() as watch:
            _, self.taken, self.centre = sweep.grown(self.mesh, lent, points, zs or [0] * n)
        self.found = watch.found
        mesh, lent = meshes.with_room(sweep.Mesh([], [], [], [], 0, 0, 0), n), sweep.lent_for(n, 4096, n)
        self.answer = sweep.bulk_load(mesh, lent, points)
        self.answers = selfcheck.answers_of(lent.answers)
        assert self.answer[0] == 0 and mesh.left_out == 0

    def insertions(self):
        """Of the points that a seed with triangles takes: what the search has found, and the answer."""
        mesh = self.answers[self.taken - len(self.found):self.taken]
        return list(zip(self.found, mesh))

    def rest(self):
        return self.answers[self.taken:]


def vertices_told(case, grown, number, place):
    """The positions and heights of the vertices, as the points go in: those of the seed in list order, then as in a
    run. Where 9 is met, up to the point that it names."""
    order = list(range(grown.taken))
    if number == 9 and place < grown.taken:
        order = order[:place + 1]
    else:
        order += [grown.taken + i for i in selfcheck.went_in(grown.rest(), number, place - grown.taken)]
    told = []
    for i in order:
        fate, vertex, faces, flips = grown.answers[i]
        if fate == 9:
            assert told[vertex][0] == case.points[i] and (faces, flips) == (0, 0), "fate 9"
            told[vertex] = (case.points[i], case.heights()[i])
        else:
            assert vertex == len(told), "vertex number"
            told.append((case.points[i], case.heights()[i]))
    return told


def answers_told(grown, number, place):
    """The answers that stand."""
    seed = [w for a in grown.answers[:grown.taken] for w in a]
    if number == 9 and place < grown.taken:
        return seed[:sweep.WORDS * place] + [0] * (sweep.WORDS * (len(grown.answers) - place))
    return seed + selfcheck.answers_told(grown.rest(), number, place - grown.taken)


def line_stands(mesh):
    """Change 6: "A line's links join its vertices in order of position, with no area; it may hold one vertex (its
    links 0), or none". """
    v, e, f = mesh.counts()
    if v < 2:
        assert (e, f) == (0, v) and mesh.outs[:v] == [0] * v and mesh.stored[:f] == [0] * f, "one vertex or none"
        return
    assert (e, f) == (v - 1, 1) and mesh.stored[0] == 0 and sweep.links_agree(mesh), "a line"
    order = sorted(range(v), key=mesh.at)
    assert all(sweep.orient2d(mesh.at(order[0]), mesh.at(order[-1]), mesh.at(u)) == 0 for u in order), "off the line"
    walk = sweep.boundary(mesh)
    there = order[:-1] + order[:0:-1]
    turned_round = [[mesh.origin(h) for h in walk[i:] + walk[:i]] for i in range(2 * e)]
    assert len(walk) == 2 * e and there in turned_round, "not in order"
    assert len({mesh.at(u) for u in order}) == v and not any(mesh.face(h) for h in walk)
    assert all(mesh.origin(mesh.outs[u]) == u for u in order)


def hull_area(points):
    """Twice the area of the points' hull."""
    def chain(points):
        kept = []
        for p in points:
            while len(kept) > 1 and sweep.orient2d(kept[-2], kept[-1], p) <= 0:
                kept.pop()
            kept.append(p)
        return kept[:-1]
    points = sorted(set(points))
    ring = chain(points) + chain(points[::-1])
    return sum(a[0] * b[1] - a[1] * b[0] for a, b in zip(ring, ring[1:] + ring[:1]))


def run_from_seed(case, grown):
    """The rest of the list as a run from the seed with its centre, refused by no check: its answer and mesh."""
    n = len(case.points)
    start = Grown(case.points, case.heights()).mesh
    rest = case.points[grown.taken:]
    lent = sweep.lent_for(n, case.lengths["pending"], len(rest))
    number, place, *totals = sweep.run(start, lent, grown.centre, rest, case.heights()[grown.taken:])
    return (number, place + grown.taken if number else 0, *totals), start, lent.answers


def watched(case, grown, mesh, lent, answer):
    number, place, v, e, f, changes, line, *totals = answer
    assert (v, e, f) == mesh.counts() and changes == mesh.changes == 0 and mesh.left_out == 0
    selfcheck.untouched(mesh.rows(), case.mesh.rows(), mesh.counts())
    assert not any(lent.nodes + lent.freed + lent.buckets + lent.pending), "zeros"
    told = answers_told(grown, number, place)
    assert lent.answers[:len(told)] == told and set(lent.answers[len(told):]) <= {7}, "answers"
    assert [(mesh.at(u), mesh.heights[u]) for u in range(v)] == vertices_told(case, grown, number, place), "vertices"
    assert line == (number == 0 and f < 2), "line"
    if line:
        line_stands(mesh)
        assert totals == [0, 0, 0]
        return
    selfcheck.standing(mesh)
    if number == 0:
        selfcheck.finished(mesh)
        assert sweep.boundary_area(mesh) == hull_area(case.points), "hull"
        assert v == len(set(case.points)), "one vertex for each position"
    if grown.centre is not None and not (number == 9 and place < grown.taken):
        run, left, answers = run_from_seed(case, grown)
        assert run == (number, place, *totals) and left.counts() == mesh.counts(), "a run from the seed"
        assert left.halves[:8 * e] == mesh.halves[:8 * e] and left.stored[:f] == mesh.stored[:f]
        assert left.outs[:v] == mesh.outs[:v] and left.heights[:v] == mesh.heights[:v]
        assert answers == lent.answers[sweep.WORDS * grown.taken:sweep.WORDS * len(case.points)]


def met_in(grown, watch, number, place):
    """Where 9 is met."""
    if number != 9:
        return None
    if place < grown.taken:
        return "growing " + watch.stage()
    if place == len(grown.answers):
        return "convexity"
    return "step" if grown.answers[place][0] == 1 else "skipped " + watch.stage()


def called(case):
    """The call, watched: its answer, the lines of what it leaves, and what is found of it."""
    mesh, lent = case.mesh.copy(), case.lent()
    with Watch() as watch:
        answer = sweep.bulk_load(mesh, lent, case.points, case.zs)
    number, place = answer[:2]
    found = {"number": number, "place": place, "line": answer[6]}
    if number not in (0, 9):
        assert mesh.rows() == case.mesh.rows() and answer[2:] == (0,) * 8
        assert set(lent.nodes + lent.freed + lent.buckets + lent.pending + lent.answers) <= {7}
        return answer, [], found
    grown = Grown(case.points, case.heights())
    watched(case, grown, mesh, lent, answer)
    found.update(taken=grown.taken, started=grown.centre is not None, met=met_in(grown, watch, number, place),
                 fates=[a[0] for a in grown.answers])
    return answer, lists.mesh_lines(mesh, case.tags.upper()) + [lists.row_line("W", lent.answers)], found


def add(out, name, case, **told):
    """Puts a case into the list; what is told of it must be so: number, place, line, taken, started, met, fates."""
    answer, left, found = called(case)
    out.remark(name)
    out.add(*case.lines(), *left, lists.line("r", answer))
    for key, value in {"number": 0, **told}.items():
        assert found[key] == value, (name, key, found[key], value)


# ---------------------------------------------------------------------------------------------------
# Points on a line


ENDS = [(LIMIT, LIMIT), (-LIMIT, LIMIT), (LIMIT, -LIMIT), (-LIMIT, -LIMIT)]
WAYS = [(1, 0), (0, 1), (1, 1), (1, -1), (-2, 3), (-1, -4)]
ORDERS = {"along it": [0, 1, 2, 3, 4], "against it": [4, 3, 2, 1, 0], "from the middle": [2, 3, 1, 4, 0],
          "from the ends": [0, 4, 1, 3, 2], "by halves": [0, 4, 2, 1, 3], "with repeats": [1, 1, 3, 1, 2, 3, 0, 2, 0]}


def few(rng):
    yield "no points", Case([]), dict(line=1, taken=0)
    yield "no points, heights that are not looked at", Case([], zs=[5, heights.LIMIT + 1]), dict(line=1)
    yield "no points, rows for three", Case([], spare=3), dict(line=1)
    yield "no points, rows for three with anything in them", Case([], spare=3, old=rng), dict(line=1)
    yield "no points, no heights row", Case([], spare=1, high=False), dict(line=1)
    yield "no points, more pending entries", Case([], pending=40), dict(line=1)
    for p in [(0, 0), (5, -7), *ENDS]:
        yield "one point", Case([p], zs=[11]), dict(line=1, taken=1, fates=[1])
    yield "one point, rows for three", Case([(3, 4)], zs=[-9], spare=2), dict(line=1)
    yield "one point, rows with anything in them", Case([(3, 4)], zs=[-9], spare=1, old=rng), dict(line=1)
    yield "one point, no heights", Case([(3, 4)], high=False), dict(line=1)
    pairs = [((0, 0), (1, 0)), ((1, 0), (0, 0)), ((0, 0), (0, 1)), ((3, 9), (3, -9)), ((-2, 5), (4, -7)),
             (ENDS[0], ENDS[3]), (ENDS[1], ENDS[2])]
    for a, b in pairs:
        yield "two points", Case([a, b], zs=[1, 2]), dict(line=1, taken=2, fates=[1, 1])
    yield "two points, rows for four", Case([(0, 0), (9, 2)], zs=[1, 2], spare=2, old=rng), dict(line=1)
    yield "two points, no heights", Case([(0, 0), (9, 2)], high=False), dict(line=1)


def equal():
    for p in ((7, -7), ENDS[2]):
        for count in (2, 3, 6):
            zs = [(-5) ** i for i in range(count)]
            yield "%d equal points" % count, Case([p] * count, zs=zs), dict(line=1, fates=[1] + [9] * (count - 1))
    twice = [(1, 1), (2, 5), (1, 1), (2, 5), (2, 5), (1, 1)]
    yield "two positions again and again", Case(twice, zs=[1, 2, 3, 4, 5, 6]), dict(line=1, fates=[1, 1, 9, 9, 9, 9])
    yield "two positions, no heights", Case(twice, high=False), dict(line=1)


def on_a_line(rng):
    for i, (dx, dy) in enumerate(WAYS):
        for j, (order, places) in enumerate(ORDERS.items()):
            start = ((0, 0), (-3, 8), (LIMIT - 20, -LIMIT + 20))[(i + j) % 3]
            points = [(start[0] + k * dx, start[1] + k * dy) for k in places]
            zs = [100 * i + j for j in range(len(points))]
            told = dict(line=1, taken=len(points))
            yield "on a line, " + order, Case(points, zs=zs, old=rng if (i + j) % 4 == 0 else None), told
    long = [(-LIMIT, -LIMIT), (LIMIT, LIMIT), (0, 0), (-1, -1), (1, 1), (LIMIT - 1, LIMIT - 1)]
    yield "a line through the whole range", Case(long), dict(line=1)
    yield "the same against it", Case(long[::-1]), dict(line=1)
    steep = [(0, k) for k in (LIMIT, -LIMIT, 3, -3, 0, LIMIT - 1)]
    yield "an upright line through the whole range", Case(steep), dict(line=1)
    for count in (15, 16, 17):
        places = rng.sample(range(-50, 50), count)
        yield "a line of %d" % count, Case([(2 * k, -3 * k) for k in places]), dict(line=1)


def off_a_line():
    """One point off a line: beside its middle or an end, or beyond an end, on either side; first, third or last."""
    for dx, dy in ((1, 0), (0, 1), (2, -1)):
        on = [(2 * k * dx, 2 * k * dy) for k in (1, 3, 0, 2)]
        for along in (-2, 0, 3, 9):
            for s in (1, -1):
                off = (along * dx - 3 * s * dy, along * dy + 3 * s * dx)
                for name, place in (("first", 0), ("third", 2), ("last", 4)):
                    points = on[:place] + [off] + on[place:]
                    taken = 5 if place == 4 else 3
                    if name != "third" or along == 0:
                        yield ("a line and a point off it, " + name, Case(points, zs=[1, -2, 3, -4, 5]),
                               dict(line=0, taken=taken))
    # After a longer line, in any order, whose edges have other numbers.
    for places in ([3, 0, 5, 1, 4, 2, 6], [6, 5, 4, 3, 2, 1, 0], [0, 6, 3, 1, 5, 2, 4]):
        for off in ((5, 9), (-4, -9), (30, 1)):
            points = [(2 * k, k) for k in places] + [off]
            yield "a point off a longer line", Case(points), dict(line=0, fates=[1] * 8)
            again = [points[3], points[0], off]
            yield "the same, met again", Case(points + again, zs=list(range(11))), dict(line=0)


# ---------------------------------------------------------------------------------------------------
# Seeds that grow on, and where the sweep starts


def to_side(points, quarters):
    """Points that are given by their distance from the range's end, and y, turned."""
    return [turned((LIMIT - back, y), quarters) for back, y in points]


def middles():
    """The middle of the last three vertices: strictly inside, on an edge, at a vertex, outside."""
    yield "the middle inside", Case([(0, 0), (3, 0), (0, 3)]), dict(started=True, taken=3)
    yield "turning right", Case([(0, 0), (0, 3), (3, 0)]), dict(started=True, taken=3)
    on_edge = [(0, 0), (0, 5), (0, -5), (7, 1)]
    yield "the middle on an edge", Case(on_edge), dict(started=False, taken=4, line=0)
    yield "the middle on an edge, then inside", Case(on_edge + [(9, 9), (-9, 2)]), dict(started=True, taken=5)
    yield "the middle on an edge, that vertex again", Case(on_edge + [(7, 1), (0, 5)], zs=[1, 2, 3, 4, 5, 6]), dict(
        started=False, taken=6)
    at_vertex = [(0, 0), (1, 0), (-1, 0), (5, 3), (-4, -3)]
    yield "the middle at a vertex", Case(at_vertex), dict(started=False, taken=5)
    yield "the middle at a vertex, then inside", Case(at_vertex + [(20, 3), (0, 9)]), dict(started=True, taken=6)
    yield "the middle at a vertex, then on an edge", Case(at_vertex + [(9, 6), (-5, -3)]), dict(started=False, taken=7)
    for quarters in range(4):
        corner = [(0, LIMIT), (1, LIMIT), (0, LIMIT - 1)]
        yield "a small triangle at a corner of the range", Case(to_side(corner, quarters)), dict(
            started=False, taken=3, line=0)
        wider = corner + [(3, LIMIT), (0, LIMIT - 3), (3, LIMIT - 3)]
        yield "small triangles, then a wider one", Case(to_side(wider, quarters)), dict(started=True, taken=5)
        side = [(0, 0), (0, 4), (1, 2)]
        yield "a small triangle at a side of the range", Case(to_side(side, quarters)), dict(started=False, taken=3)
        yield "a wider triangle at a side of the range", Case(to_side([(0, 0), (0, 4), (2, 2)], quarters)), dict(
            started=True, taken=3)
    far = LIMIT // 3
    yield "the third of 1 tells", Case([(far, 0), (far, 3), (far - 1, 1)]), dict(started=True, taken=3)
    # At the limit of a third of the range the middle moves out by a sixth, and by a third at two thirds.
    for k in (LIMIT // 2, 2 * LIMIT // 3 - 1, 2 * LIMIT // 3 + 2, LIMIT - 3):
        points = [(k, 0), (k, 9), (k - 1, 4)]
        yield "the middle of a thin triangle", Case(points), dict(started=k < 2 * LIMIT // 3, taken=3)
        yield "the same in the west", Case([(-x, y) for x, y in points]), dict(started=k < 2 * LIMIT // 3, taken=3)
    yield "the middle of the last three, not of the first", Case(
        [(0, 0), (0, 4), (0, -4), (6, 0), (6, 3), (6, -3), (30, 1)]), dict(taken=5)
    yield "the start with the last point", Case(on_edge + [(3, 9)]), dict(started=True, taken=5)
    yield "a point at the centre", Case([(-1, -1), (1, 0), (0, 1), (0, 0), (4, 4)]), dict(
        started=True, taken=3, fates=[1, 1, 1, 6, 1])
    yield "points at the centre, with heights", Case([(-1, -1), (0, 1), (1, 0), (0, 0), (0, 0), (5, 0)],
                                                     zs=[1, 2, 3, 4, 5, 6]), dict(fates=[1, 1, 1, 6, 9, 1])


def columns(rng, count):
    """Two columns at a side of the range, after a line that may lead there from afar."""
    tall, points = rng.choice([3, 12, 60]), []
    afar = rng.random() < 0.6
    for _ in range(rng.randrange(count // 2 + 1)):
        points.append((rng.randint(0, tall), 0) if afar else (0, rng.randint(0, tall)))
    points += [(1, 0), (0, 0)] if afar else []
    while len(points) < count:
        back = len(points) > 2 and rng.random() < 0.4 and points[-1][0] == points[-2][0] == 0
        points.append((int(back), rng.randint(-tall // 3, tall)))
    return to_side(points, rng.randrange(4))


def about_origin(rng, count):
    """The origin, then points and their opposites."""
    spread, points = rng.choice([1, 2, 3, 4]), [(0, 0)]
    while len(points) < count:
        p = (rng.randint(-spread, spread), rng.randint(-spread, spread))
        points += [p, (-p[0], -p[1])]
        if rng.random() < 0.3:
            points.append((rng.randint(-spread, spread), rng.randint(-spread, spread)))
    return points[:count]


def line_first(rng, count):
    """A line through the origin whose last two points are opposite, then points off it."""
    dx, dy = rng.choice(WAYS)
    places = [0] + [rng.randint(-4, 4) for _ in range(rng.randrange(4))] + [5, -5]
    points = [(k * dx, k * dy) for k in places]
    while len(points) < count:
        points.append((rng.randint(-9, 9), rng.randint(-9, 9)))
    return points


def in_a_corner(rng, count):
    size, (x, y) = rng.choice([1, 1, 2, 3]), rng.choice(ENDS)
    near = lambda c: max(-LIMIT, min(LIMIT, c + rng.randint(-size, size)))
    return [(near(x), near(y)) for _ in range(count)]


KINDS = (columns, columns, about_origin, line_first, in_a_corner)


def kind_of(found, answer):
    """What an insertion into the growing seed shows."""
    faces, flips = min(answer[2], 3), min(answer[3], 2)
    return (found, faces, flips)


# What the search finds, the faces up to three, the flips up to two: so many cases each.
WANTED = {("6", 2, 0): 3, ("6", 2, 1): 3, ("6", 2, 2): 4, ("7", 1, 0): 3, ("7", 1, 1): 3, ("7", 1, 2): 4,
          ("7 inner", 2, 0): 3, ("7 inner", 2, 1): 2, ("7 inner", 2, 2): 3, ("8", 1, 0): 2, ("8", 1, 1): 3,
          ("8", 1, 2): 4, ("8", 2, 0): 2, ("8", 2, 1): 3, ("8", 2, 2): 4, ("8", 3, 0): 2, ("8", 3, 1): 3,
          ("8", 3, 2): 2, ("9", 0, 0): 3}


def growing_on(rng):
    """Lists whose seeds take points into triangles, on edges, outside and on vertices."""
    wanted, tries = dict(WANTED), 0
    while any(wanted.values()) and tries < 20000:
        tries += 1
        points = rng.choice(KINDS)(rng, rng.choice([5, 7, 9, 12, 16]))
        grown = Grown(points)
        shown = {kind_of(*i) for i in grown.insertions()} if grown.found else set()
        if not any(wanted.get(k) for k in shown):
            continue
        for k in shown:
            wanted[k] = max(0, wanted.get(k, 0) - 1)
        zs = heights.random_heights(rng, len(points))
        yield "a seed that takes %d points" % grown.taken, Case(points, zs=zs, pending=64), dict(taken=grown.taken)
    assert not any(wanted.values()), wanted
    for least, count in ((12, 16), (25, 34), (40, 60)):
        grown = None
        while grown is None or grown.taken < least:
            points = columns(rng, count)
            grown = Grown(points)
        yield "a seed that takes %d points" % grown.taken, Case(points, pending=64), dict(taken=grown.taken)


# ---------------------------------------------------------------------------------------------------
# 9


# Where 9 is met with 8 pending entries: into a triangle, on an edge or outside, and the legalization there. The points
# of AT_THE_SIDE are given by their distance from the range's end, and y.
AT_THE_SIDE = {
    "growing 6 edge 0": [(60, 0), (89, 0), (12, 0), (33, 0), (57, 0), (58, 0), (67, 0), (50, 0), (27, 0), (1, 0), (0, 0),
                         (0, -150), (0, -2), (1, -75)],
    "growing 6 edge 1": [(56, 0), (963, 0), (30, 0), (21, 0), (14, 0), (237, 0), (29, 0), (37, 0), (45, 0), (1, 0),
                         (0, 0), (0, -2000), (1, -1000)],
    "growing 6 edge 2": [(368, 0), (43, 0), (639, 0), (13, 0), (12, 0), (449, 0), (7, 0), (512, 0), (19, 0), (1, 0),
                         (0, 0), (0, 23909), (0, -6806), (1, -3403)],
    "growing 7 edge 0": [(8, 0), (119, 0), (26, 0), (152, 0), (35, 0), (9, 0), (20, 0), (1, 0), (0, 0), (0, -2000),
                         (1, -1000), (0, -29)],
    "growing 7 edge 1": [(26, 0), (845, 0), (95, 0), (6, 0), (57, 0), (35, 0), (32, 0), (63, 0), (1, 0), (0, 0),
                         (0, -12153), (0, -7)],
    "growing 7 inner edge 0": [(2, 0), (0, -9), (0, -12), (0, -13), (0, -15), (0, -16), (0, -17), (0, -18), (0, -19),
                               (0, -20), (1, -6), (0, -36), (1, -10)],
    "growing 7 inner edge 1": [(42, 0), (2059, 0), (50, 0), (13, 0), (656, 0), (57, 0), (542, 0), (53, 0), (3432, 0),
                               (2, 0), (1, 0), (0, -10000), (1, -5000)],
    "growing 7 inner edge 2": [(2, 0), (0, -16), (0, -14), (0, -19), (0, -18), (0, -12), (0, -13), (0, -15), (0, -17),
                               (0, -30), (1, -7), (0, -440), (1, -15)],
    "growing 7 inner edge 3": [(7, 0), (40, 0), (86, 0), (21, 0), (159, 0), (58, 0), (52, 0), (163, 0), (55, 0), (1, 0),
                               (0, 0), (1, -7526), (1, -5171)],
    "growing 8": [(24, 0), (3, 0), (32, 0), (6, 0), (7, 0), (60, 0), (30, 0), (39, 0), (1, 0), (0, 0), (0, 1), (1, 1)],
    "growing 8 first loop": [(41, 0), (52, 0), (916, 0), (617, 0), (34, 0), (685, 0), (37, 0), (398, 0), (60, 0), (1, 0),
                             (0, 0), (1, 2), (0, 1), (0, 364)],
    "skipped 6 edge 0": [(37, 0), (53, 0), (24, 0), (18, 0), (28, 0), (60, 0), (31, 0), (51, 0), (25, 0), (1, 0), (0, 60),
                         (0, -1231), (1, -45)],
    "skipped 6 edge 1": [(26, 0), (2, 0), (9, 0), (1, 0), (7, 0), (5, 0), (11, 0), (12, 0), (4, 0), (6, 0), (0, -24),
                         (1, -11)],
    "skipped 6 edge 2": [(7, 0), (39, 0), (3, 0), (11, 0), (26, 0), (42, 0), (1, 0), (16, 0), (44, 0), (0, 12), (0, 231),
                         (1, 12)],
    "skipped 7 edge 0": [(38, 0), (5, 0), (32, 0), (55, 0), (58, 0), (43, 0), (16, 0), (41, 0), (0, 0), (1, 3), (0, 1230),
                         (0, 12)],
    "skipped 7 edge 1": [(12, 0), (9, 0), (2, 0), (10, 0), (4, 0), (5, 0), (6, 0), (15, 0), (7, 0), (0, 120), (0, 2),
                         (0, 3)]}
ELSEWHERE = {
    "skipped 7 inner edge 1": [(-20, -33), (-17, -33), (-17, -40), (-17, -42), (-17, -46), (-17, -45), (-17, -44),
                               (-17, -39), (-17, -41), (-17, -43), (-17, -38), (-17, -37), (-19, -37)],
    "skipped 7 inner edge 3": [(-28, -145), (-29, -145), (-40, -145), (-39, -145), (-37, -145), (-33, -145), (-31, -145),
                               (-38, -145), (-36, -145), (-42, -145), (-25, -106), (-26, -113), (-25, -111)],
    "step": [(-18, -42), (-18, -1042), (-17, -1042), (-16, -1042), (-15, -1042), (-14, -1042), (-13, -1042), (-12, -1042),
             (-11, -1042), (-10, -1042), (-21, -901)],
    "convexity": [(5, -8), (5, -11), (4, -11), (0, -11), (-2, -11), (-3, -11), (-4, -11), (-5, -11), (-6, -11), (-7, -11),
                  (6, -5)]}


def stage_of(points, pending=8):
    """Where 9 is met, and the point that it names."""
    n = len(points)
    lent = sweep.lent_for(n, pending, n)
    with Watch() as watch:
        number, place, *_ = sweep.bulk_load(meshes.with_room(sweep.Mesh([], [], [], [], 0, 0, 0), n), lent, points)
    return (met_in(Grown(points), watch, number, place), place) if number else (None, None)


def least_pending(points):
    """As many pending entries as the list takes."""
    pending = 8
    while stage_of(points, pending)[0]:
        pending += 1
    return pending


def with_others(rng, points, stage):
    """The list with some points more, met again or near others, before and after, so that 9 is met in the same place."""
    for _ in range(400):
        more = list(points)
        for _ in range(rng.randint(1, 4)):
            x, y = rng.choice(points)
            p = rng.choice([(x, y), (x + rng.randint(-3, 3), y + rng.randint(-3, 3))])
            more.insert(rng.choice([rng.randint(3, len(more)), len(more)]), tuple(
                max(-LIMIT, min(LIMIT, c)) for c in p))
        if len(more) < 20 and stage_of(more)[0] == stage:
            return more
    raise AssertionError(stage)


def filling(rng):
    """9 in each place where it is met, with as many entries as the list takes, and with one less."""
    lists_of = [(stage, to_side(points, 0)) for stage, points in AT_THE_SIDE.items()] + list(ELSEWHERE.items())
    for i, (stage, points) in enumerate(lists_of):
        points = [turned(p, i % 4) for p in points]
        zs = heights.random_heights(rng, len(points))
        found, place = stage_of(points)
        assert found == stage, (stage, found)
        told = dict(number=9, met=stage, place=place)
        yield "9, " + stage, Case(points, zs=zs, old=rng if i % 3 == 0 else None), told
        enough = least_pending(points)
        yield "as many entries as it takes", Case(points, zs=zs, pending=enough), {}
        if enough > 9:
            yield "one entry less", Case(points, zs=zs, pending=enough - 1), dict(number=9)
        for _ in range(1 + i % 2):
            more = with_others(rng, points, stage)
            told = dict(number=9, met=stage)
            yield "9 among others, " + stage, Case(more, zs=heights.random_heights(rng, len(more))), told
    last = to_side(AT_THE_SIDE["growing 8"], 0)
    after = last + [(LIMIT, 7), (0, 0), (LIMIT - 24, 0), (LIMIT, LIMIT)]
    yield "9 while the seed grows, points after it", Case(after, zs=list(range(16))), dict(number=9, place=11)


# ---------------------------------------------------------------------------------------------------
# Refusals and rows


FIVE, ZS = [(0, 0), (4, 0), (0, 4), (5, 5), (2, 1)], [1, -2, 3, -4, 5]
ROWS = (*lists.ROWS, *RING, "pending", "answers")


def put(row, i, value):
    return row[:i] + [value] + row[i + 1:]


def refusals():
    """Name, case, told."""
    two, beyond, high = dict(number=2, place=0), (LIMIT + 1, 3), heights.LIMIT + 1
    for row in ROWS:
        yield "a row one entry short: " + row, Case(FIVE, ZS, short=row), two
        yield "one point, a row one entry short: " + row, Case(FIVE[:1], ZS[:1], short=row), two
    for row in RING + ("pending",):
        yield "no points, a row one entry short: " + row, Case([], short=row), two
    for pending in (0, 1, 7):
        yield "%d pending entries" % pending, Case(FIVE, ZS, pending=pending), two
    sixteen = [(3 * i, i * i) for i in range(17)]
    for count in (15, 16, 17):
        yield "%d points, every row exactly long enough" % count, Case(sixteen[:count]), {}
        for row in ("buckets", "nodes", "freed", "answers"):
            yield "%d points, a row one entry short: %s" % (count, row), Case(sixteen[:count], short=row), two
    yield "the points' heights one short", Case(FIVE, ZS[:4]), two
    yield "no heights of the points", Case(FIVE, []), two
    yield "more heights than points, not looked at", Case(FIVE, ZS + [high, -9]), {}
    for row, size in (("p", 5), ("h", 30), ("h", 24), ("f", 5), ("answers", 5)):
        case = Case(FIVE, ZS)
        if row == "answers":
            case.lengths[row] = size
        else:
            del dict(zip(lists.ROWS, case.mesh.rows()))[row][size:]
        yield "%d entries for five points: %s" % (size, row), case, two
    # A number that stands alone counts as a point.
    for points, zs in (([(9,)], [1]), ([(9,)], []), ([(1, 2), (3,)], [1, 2]), ([(1, 2), (LIMIT + 1,)], [1, 2]),
                       ([beyond, (3,)], [1, 2]), ([(1, 2), (3,)], [high, 2]), ([*FIVE, (7,)], [*ZS, 0])):
        yield "a number alone in the row of points", Case(points, zs), two
    # 3, and that 2 comes before it.
    for place in (0, 2, 4):
        for axis in (0, 1):
            for c in (LIMIT + 1, -LIMIT - 1, 2147483647, -2147483648):
                point = tuple(put(list(FIVE[place]), axis, c))
                if place == 2 or c in (LIMIT + 1, -2147483648):
                    yield "a coordinate beyond", Case(put(FIVE, place, point), ZS), dict(number=3, place=place)
    three = put(put(FIVE, 1, beyond), 3, (0, -LIMIT - 1))
    yield "two points beyond", Case(three, ZS), dict(number=3, place=1)
    yield "every point beyond", Case([beyond] * 3, [0] * 3), dict(number=3, place=0)
    yield "one point, beyond", Case([beyond], [0]), dict(number=3, place=0)
    yield "the last of two beyond", Case([(0, 0), beyond], [0, 0]), dict(number=3, place=1)
    yield "met again, beyond", Case([(0, 0), beyond, beyond], [0] * 3), dict(number=3, place=1)
    for row in ROWS:
        yield "a point beyond and a row one entry short: " + row, Case(three, ZS, short=row), two
    yield "a point beyond and the points' heights one short", Case(three, ZS[:4]), two
    # 10 after 3, and 2 before it.
    for place in (0, 2, 4):
        for z in (high, -high) if place else (high, -high, 2147483647, -2147483648):
            yield "a height beyond", Case(FIVE, put(ZS, place, z)), dict(number=10, place=0)
    yield "every height beyond", Case(FIVE, [high] * 5), dict(number=10, place=0)
    yield "a height beyond, no heights row", Case(FIVE, put(ZS, 1, high), high=False), dict(number=10, place=0)
    yield "one point, its height beyond", Case([(0, 0)], [-high]), dict(number=10, place=0)
    yield "a height beyond of a point that is met again", Case([(1, 1), (1, 1)], [0, high]), dict(number=10)
    for place in (0, 1, 4):
        yield "a point and a height beyond", Case(three, put(ZS, place, high)), dict(number=3, place=1)
    for row in ROWS:
        yield "a height beyond and a row one entry short: " + row, Case(FIVE, put(ZS, 0, high), short=row), two
    yield "a height beyond and the points' heights one short", Case(FIVE, [high, 2, 3, 4]), two
    yield "a point and a height beyond, a row one entry short", Case(three, put(ZS, 0, high), short="e"), two


def rows_lent(rng):
    """Rows that are longer, and what is in them."""
    for spare in (1, 4):
        yield "rows for %d points more" % spare, Case(FIVE, ZS, spare=spare), {}
        yield "rows for %d points more, with anything in them" % spare, Case(FIVE, ZS, spare=spare, old=rng), {}
        yield "rows for %d points more, a line" % spare, Case([(0, 0), (2, 2), (1, 1)], ZS[:3], spare=spare, old=rng), {}
    yield "no heights row and no heights", Case(FIVE, high=False), {}
    yield "a heights row and no heights", Case(FIVE), {}
    for tag, more in (("p", 3), ("o", 2), ("h", 5), ("f", 1), ("e", 4)):
        case = Case(FIVE, ZS)
        row = dict(zip(lists.ROWS, case.mesh.rows()))[tag]
        row += row[:1] * more
        yield "one row longer: " + tag, case, {}
    for row in RING + ("pending", "answers"):
        case = Case(FIVE, ZS)
        case.lengths[row] += 3
        yield "one row longer: " + row, case, {}


def at_the_limits():
    """Coordinates and heights at the ends of their ranges."""
    most = heights.LIMIT
    yield "the corners of the range", Case(ENDS, [most, -most, most, -most]), {}
    yield "the corners of the range and its middle", Case(ENDS + [(0, 0), (LIMIT, 0)], [-most] * 6), {}
    for p in ENDS:
        yield "a corner of the range", Case([(0, 0), (1, 0), (0, 1), p], [most, 0, -most, most]), {}
        yield "a corner of the range first", Case([p, (0, 0), (1, 0), (0, 1), p], [most, 0, -most, 3, -most]), {}
    yield "heights of points that are met again", Case(
        [(0, 0), (0, 0), (4, 0), (2, 0), (2, 0), (0, 3), (4, 0), (1, 1), (1, 1), (9, 9), (9, 9)],
        [1, 2, 3, 4, 5, 6, 7, 8, 9, 10, 11]), {}
    # The last three of these are skipped, met again, and dropped.
    yield "heights in list order, then those of skipped points", Case(
        [(0, 0), (6, 0), (0, 6), (1, 1), (6, 6), (1, 1), (6, 6), (0, 0), (6, 0), (1, 2)],
        [1, 2, 3, 4, 5, 6, 7, 8, 9, 10]), {}


# ---------------------------------------------------------------------------------------------------
# Sweeps from seeds that have grown


def anywhere(rng, count):
    spread = rng.choice([2, 3, 5, 30, 1000, LIMIT])
    return [(rng.randint(-spread, spread), rng.randint(-spread, spread)) for _ in range(count)]


def grid(rng, count):
    side = max(2, math.isqrt(count))
    points = [(x * 3 - 4, y * 3 + 1) for y in range(side) for x in range(side)]
    if rng.random() < 0.5:
        rng.shuffle(points)
    return points


def far_apart(rng, count):
    x, y = rng.choice([*ENDS, (LIMIT, 0), (0, -LIMIT), (LIMIT // 2, 7)])
    size, order = rng.choice([1, 1, 2, 6]), rng.randrange(3)
    points = []
    for i in range(count):
        s = (1 if 2 * i < count else -1, 1 - 2 * (i % 2), rng.choice([1, -1]))[order]
        near = lambda c: max(-LIMIT, min(LIMIT, s * c + rng.randint(-size, size)))
        points.append((near(x), near(y)))
    return points


def outward(rng, count):
    """Round and round, outward."""
    turns, far = rng.choice([0.6, 2.3, 4.1]), rng.choice([9, 500, 9000000])
    at = lambda i: far * (i + 1) / count
    return [(round(at(i) * math.cos(turns * i)), round(at(i) * math.sin(turns * i))) for i in range(count)]


def sorted_by_distance(rng, count):
    points = anywhere(rng, count)
    return sorted(points, key=lambda p: p[0] ** 2 + p[1] ** 2)


SWEPT = (anywhere, anywhere, grid, far_apart, far_apart, outward, sorted_by_distance)


def features(grown, convexity):
    """What the sweep of a list shows: fates with faces and flips, and the convexity passes."""
    shown = {(a[0], min(a[2], 2), min(a[3], 1)) for a in grown.rest()}
    faces, flips = grown.answer[7:9]
    shown |= {("faces", min(faces, 2)), ("flips", min(flips, 1)), ("passes", min(convexity, 3))}
    return shown


SHOWN = {(1, 1, 0): 4, (1, 1, 1): 4, (1, 2, 0): 4, (1, 2, 1): 4, (2, 0, 0): 4, (6, 2, 0): 4, (6, 2, 1): 4, (7, 1, 0): 4,
         (7, 1, 1): 4, (7, 2, 0): 4, (7, 2, 1): 4, (8, 1, 0): 4, (9, 0, 0): 4, ("faces", 1): 4, ("faces", 2): 4,
         ("flips", 1): 4, ("passes", 3): 4}


def passes_of(points):
    """The passes of the first convexity stage."""
    found, kept = [], sweep.convexity_passes

    def passes(mesh, capacity):
        found.append(kept(mesh, capacity))
        return found[-1]

    sweep.convexity_passes = passes
    try:
        grown = Grown(points)
    finally:
        sweep.convexity_passes = kept
    return grown, found[0][1] if found else 0


def sweeps(rng):
    wanted = dict(SHOWN)
    while any(wanted.values()):
        points = rng.choice(SWEPT)(rng, rng.choice([5, 6, 8, 11]))
        grown, convexity = passes_of(points)
        if grown.centre is None:
            continue
        shown = features(grown, convexity)
        if not any(wanted.get(k) for k in shown):
            continue
        for k in shown:
            wanted[k] = max(0, wanted.get(k, 0) - 1)
        zs = heights.random_heights(rng, len(points))
        yield "swept from %d points" % grown.taken, Case(points, zs, pending=64), dict(taken=grown.taken, line=0)
    small = [(1 - LIMIT, 1 - LIMIT), (LIMIT, LIMIT - 1), (LIMIT, LIMIT), (-LIMIT, -LIMIT)]
    yield "far apart, the last outside", Case(small, [1, 2, 3, 4]), dict(fates=[1, 1, 1, 8])
    yield "a second pass adds a face", Case([(2, -1), (1, 3), (3, -4), (-2, 2), (-1, 1)]), {}
    yield "a second pass adds a face, and a point is skipped", Case(
        [(-3, -4), (8, -6), (-9, -5), (3, 7), (2, 3), (-3, -2)], [1, 2, 3, 4, 5, 6]), {}
    for _ in range(4):
        points = far_apart(rng, 9)
        yield "two clusters far apart", Case(points, heights.random_heights(rng, 9), pending=64), {}


def large(rng):
    yield "255 equal points", Case([(5, 5)] * 255, list(range(255))), dict(line=1)
    places = list(range(-60, 60))
    rng.shuffle(places)
    yield "a line of 120", Case([(k, 7) for k in places], high=False), dict(line=1)
    yield "a seed on a line of 40, then off it", Case([(2 * k, k) for k in rng.sample(places, 40)] + [(3, 50), (-9, -50)],
                                                     pending=64), {}
    for maker, count in ((anywhere, 60), (outward, 50), (grid, 49)):
        points = maker(rng, count)
        grown = Grown(points)
        yield "%d points" % count, Case(points, heights.random_heights(rng, len(points)), pending=128), dict(
            taken=grown.taken)
    few_places = [(rng.randint(-3, 3), rng.randint(-3, 3)) for _ in range(255)]
    yield "255 points at few places", Case(few_places, heights.random_heights(rng, 255), pending=64), {}


def made():
    out, rng = lists.List("bulk_load_cases.py"), random.Random(106)
    makers = (few(rng), equal(), on_a_line(rng), off_a_line(), middles(), growing_on(rng), filling(rng), refusals(),
              rows_lent(rng), at_the_limits(), sweeps(rng), large(rng))
    for maker in makers:
        for name, case, told in maker:
            add(out, name, case, **told)
    return out


def campaign(seconds, seed):
    rng, tally, end = random.Random(seed), {}, time.time() + seconds
    along = lambda rng, count: [turned((k, 3 * k), rng.randrange(4)) for k in rng.choices(range(-9, 9), k=count)]
    while time.time() < end:
        points = rng.choice(KINDS + SWEPT + (along,))(rng, rng.choice([3, 5, 8, 13, 30]))
        points = points[:rng.choice([0, 1, 2, 40, 40, 40, 40])]
        pending = rng.choice([8, 8, 9, 12, 4096])
        try:
            found = called(Case(points, heights.random_heights(rng, len(points)), pending, rng.randrange(3), old=rng))[2]
        except AssertionError:
            print(points, pending)
            raise
        started = "started" if found["started"] else "not started"
        key = "9 in " + found["met"].split()[0] if found["number"] else "a line" if found["line"] else "a mesh, " + started
        tally[key] = tally.get(key, 0) + 1
    print(", ".join("%s %d" % kv for kv in sorted(tally.items())))


if __name__ == "__main__":
    if sys.argv[1:2] == ["campaign"]:
        campaign(float(sys.argv[2]) if len(sys.argv) > 2 else 20, int(sys.argv[3]) if len(sys.argv) > 3 else 1)
    else:
        made().print()
