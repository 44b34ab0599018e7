"""Cases of Change 2 for run.txt and listing.txt: skipped points go in. Made by run_cases.py and listing_cases.py.

What each case is about, the fate of every point, the stage that 9 is met in, is known here by its making and held
against sweep.py when the lists are made.
"""

import math
import os
import random

import answer as oracle
import heights
import lists
import meshes
import selfcheck
import sweep
from run_cases import Case, as_given, turned, tri

LIMIT = sweep.LIMIT
SQUARE = [(0, 0), (4, 0), (4, 4), (0, 4)]
# A triangle about (0, 0) within long ones that go round it like the sails of a mill, and an ear, vertex 0, that
# has (0, 0) nearer than both its neighbours. From there the search turns about the middle for ever.
MILL = [(-14, 6), (6, 7), (-9, 2), (3, -9), (-1, 1), (0, -1), (1, 1), (6, 15), (-16, -2), (10, -13)]
SAILS = [(7, 6, 1), (4, 3, 5), (5, 1, 6), (6, 2, 4), (8, 4, 2), (9, 5, 3), (6, 7, 2), (4, 8, 3), (8, 7, 0), (5, 9, 1),
         (8, 9, 3), (9, 7, 1), (7, 8, 2)]
MIDDLE = (4, 5, 6)


def placed(points, scale, shift, quarters):
    """Each point turned, enlarged and moved."""
    return [tuple(scale * c + s for c, s in zip(turned(p, quarters), shift)) for p in points]


class Watch:
    """What a run does while its skipped points go in: the places that the search finds, how it finds them, and
    which legalization of an insertion is the last one."""

    NAMES = ("search", "scan", "legalize_edge", "create_single_face_between_edge_and_next")

    def __init__(self):
        self.found, self.scanned, self.stages, self.closed = [], 0, [], None

    def __enter__(self):
        self.kept = {name: getattr(sweep, name) for name in self.NAMES}

        def search(mesh, target):
            fate, met = self.kept["search"](mesh, target)
            inner = fate == 7 and mesh.face(sweep.rev(met)) != 0
            self.found.append("7 inner" if inner else str(fate))
            self.stages, self.closed = [], None
            return fate, met

        def scan(mesh, target):
            self.scanned += 1
            return self.kept["scan"](mesh, target)

        def legalize_edge(mesh, edge, capacity):
            # The first loop outside closes the corner after the edge that it legalizes, the second before it.
            loop = "" if self.closed is None else " first loop" if edge == self.closed else " second loop"
            self.stages.append(loop)
            return self.kept["legalize_edge"](mesh, edge, capacity)

        def create(mesh, edge):
            self.closed = edge
            return self.kept["create_single_face_between_edge_and_next"](mesh, edge)

        for name, new in zip(self.NAMES, (search, scan, legalize_edge, create)):
            setattr(sweep, name, new)
        return self

    def __exit__(self, *_):
        for name, old in self.kept.items():
            setattr(sweep, name, old)

    def stage(self):
        """Where the last insertion stopped: its fate, and the loop, or the number of the edge that was
        collected."""
        which = self.stages[-1] if self.found[-1] == "8" else " edge %d" % (len(self.stages) - 1)
        return self.found[-1] + which


def watched_run(mesh, centre, points, pending):
    """The answer of a run, and its watch."""
    n = mesh.vertices + len(points)
    with Watch() as watch:
        answer = sweep.run(meshes.with_room(mesh, n), sweep.lent_for(n, pending, len(points)), centre, points)
    return answer, watch


def square(diagonal=0):
    sides = [(0, 1, 2), (0, 2, 3)] if diagonal == 0 else [(1, 2, 3), (1, 3, 0)]
    return meshes.of_triangles(SQUARE, sides)


def hexagon():
    """Six triangles about (0, 0)."""
    return meshes.rim([(8, 0), (4, 8), (-4, 8), (-8, 0), (-4, -8), (4, -8)])


def each_fate(rng):
    """Name, case, the fates of its points, the faces."""
    told = (("into a triangle", (3, 1), 6, 2), ("into the other triangle", (1, 3), 6, 2),
            ("on the inner edge", (2, 2), 7, 2), ("on the inner edge, nearer its origin", (1, 1), 7, 2),
            ("on the inner edge, nearer its end", (3, 3), 7, 2), ("on the south side", (2, 0), 7, 1),
            ("on the east side", (4, 1), 7, 1), ("on the north side", (1, 4), 7, 1), ("on the west side", (0, 3), 7, 1))
    for scale, shift in ((1, (0, 0)), (LIMIT // 2, (-LIMIT, -LIMIT))):
        for diagonal in (0, 1):
            for name, point, fate, faces in told:
                point = point if diagonal == 0 else (4 - point[0], point[1])
                mesh = moved(square(diagonal), scale, shift)
                (p, c) = placed([point, (2, 3)], scale, shift, 0)
                centre = (c[0] + 0.5, c[1] - 0.25)
                yield name, Case(mesh, centre, [p]), [fate], [faces]
                yield name + ", other numbers", Case(meshes.renumbered(mesh, rng), centre, [p]), [fate], [faces]
    for quarters in range(4):
        for point, fate, faces in (((1, 1), 6, 2), ((4, 0), 7, 2), ((6, 4), 7, 1), ((3, 7), 6, 2), ((0, 8), 7, 1),
                                   ((0, 0), 9, 0), ((2, 4), 7, 2)):
            mesh, p = moved(hexagon(), 1, (0, 0), quarters), turned(point, quarters)
            yield "in six triangles", Case(meshes.renumbered(mesh, rng), (0.5, 0.25), [p]), [fate], [faces]
    # The centre just outside: what lies there is outside, and so is the centre itself.
    for quarters in range(4):
        low = [(0, 0), (40, 0), (20, 30)]
        for points, fates, faces in (([(20, -4)], [8], [1]), ([(20, -2), (20, -4)], [8, 8], [1, 2]),
                                     ([(20, -4), (21, -2)], [8, 6], [1, 2]), ([(10, -1), (30, -1), (20, -4)],
                                                                             [8, 8, 8], [1, 1, 3]),
                                     ([(20, -4), (20, -4)], [8, 9], [1, 0])):
            seed, points = moved(tri(*low), 1, (0, 0), quarters), [turned(p, quarters) for p in points]
            centre = tuple(map(float, turned((20, -4), quarters)))
            yield "the centre outside", Case(seed, centre, points), fates, faces
            yield ("the centre outside, other numbers", Case(meshes.renumbered(seed, rng), centre, points), fates,
                   None)


def moved(mesh, scale, shift, quarters=0):
    """The same links, every position turned, enlarged and moved."""
    mesh = mesh.copy()
    for v in range(mesh.vertices):
        mesh.positions[2 * v:2 * v + 2] = placed([mesh.at(v)], scale, shift, quarters)[0]
    return mesh


def mill(inner, scale=1, first=True):
    """The mill with these triangles in its middle, numbered first or last; `inner` adds a vertex there."""
    points, filling = [(scale * x, scale * y) for x, y in MILL], [MIDDLE]
    if inner is not None:
        a, b, c = MIDDLE
        points, filling = points + [inner], [(a, b, 10), (b, c, 10), (c, a, 10)]
    return meshes.of_triangles(points, filling + SAILS if first else SAILS + filling)


def ear_first(mesh, rng):
    """Other numbers for everything but vertex 0."""
    while True:
        other = meshes.renumbered(mesh, rng)
        if other.at(0) == mesh.at(0):
            return other


def mills(rng):
    """Name, case, fates: the first point is found by the scan."""
    rest = [(3, 2), (0, 0), (-5, 1)]
    for first in (True, False):
        for centre in ((0.25, 0.5), (0.0, 0.0)):  # skipped as not left of an edge, and as at the centre
            yield "a mill, the scan finds a triangle", Case(mill(None, 1, first), centre, [(0, 0)]), [6]
        for inner, fate in (((0, 0), 9), ((1, -1), 7), ((-1, -1), 7), ((0, 3), 7), ((1, 1), 6), ((-2, 2), 6)):
            name = {9: "a vertex", 7: "an edge", 6: "one of three triangles"}[fate]
            mesh = mill(inner, 4, first)
            yield "a mill, the scan finds " + name, Case(mesh, (0.25, 0.5), [(0, 0)]), [fate]
            yield ("a mill with other numbers, the scan finds " + name,
                   Case(ear_first(mesh, rng), (0.25, 0.5), [(0, 0)] + rest), [fate])
    for quarters, shift in ((0, (1, 1)), (1, (-1, 1)), (2, (-1, 1)), (3, (0, 0))):
        mesh = moved(ear_first(mill(None), rng), LIMIT // 16, shift, quarters)
        yield ("a mill at the ends of the range, the scan finds a triangle",
               Case(mesh, (shift[0] + 0.5, shift[1] + 7.25), [shift, (shift[0] + 1, shift[1])], pending=16), [6])
    turned_round = meshes.renumbered(mill((0, 3), 4), rng)
    yield "a mill, the search from another vertex", Case(turned_round, (0.25, 0.5), [(0, 0)]), [7]


ORACLE = os.path.join(os.path.dirname(os.path.abspath(__file__)), "..", "..", "oracle", "answers.txt")


def on_which_the_rust_panics():
    """The inputs of the oracle's list whose answer has a line `l`: its search goes round for ever."""
    case = {}
    for line in open(ORACLE):
        tag, *numbers = line.split()
        if tag == "i":
            case = {}
        if tag == "l":
            yield case
        if tag != "#" and tag not in case:  # the seed's mesh stands before those of the answer
            case[tag] = [int(n) for n in numbers]


def pinwheels():
    """Name, case: seeds of nine vertices, three blades about a triangle that holds the first point. The links are the
    oracle's, so that the gate asks what the Rust cannot tell. Only the heights are ours."""
    for case in on_which_the_rust_panics():
        points = oracle.pairs(case["q"])
        mesh = heights.put(oracle.mesh_of(case), more=len(points))
        assert mesh.vertices == 9 and oracle.answer(case)[-1] == "l"
        yield ("a pinwheel, case %d of the oracle's list" % case["i"][0],
               as_given(mesh, tuple(map(oracle.of_bits, case["c"])), points, [50 * i - 20 for i in range(len(points))],
                        pending=64))


OVERLAPS = (  # corners, triangles, centre, points, the fates: where triangles overlap the search is not the scan
    ("outside, though a triangle holds it", [(-2, -3), (2, 3), (1, 3)], [(0, 1, 2)], (-1, -5),
     [(2, 0), (1, -1), (5, 2), (4, -18), (2, 0), (4, 12), (7, 4)]),
    ("outside, though on an edge", [(-2, 2), (1, -2), (2, 0)], [(0, 1, 2)], (-1, 4),
     [(-1, 2), (-3, 0), (3, 5), (-7, 2), (-3, 2)]),
    ("outside, though at a vertex", [(3, 0), (-3, -2), (2, -3), (0, 1), (0, -3)],
     [(0, 1, 2), (1, 0, 3), (2, 1, 4)], (3, 2), [(1, 0), (1, 1), (-11, 1), (-3, 1), (7, 13), (-11, 1), (7, 13)]),
    ("on an edge, though at a vertex", [(2, -3), (1, 2), (-1, -2), (2, 3)], [(0, 1, 2), (1, 0, 3)], (9, -3),
     [(10, 4), (5, -1), (5, -2), (4, -2), (11, 5), (10, 4), (5, -1), (4, -2)]),
    ("outside, though on an edge", [(1, 0), (0, 1), (-1, 0), (0, -1)], [(0, 2, 3), (2, 0, 1)], (2, -2),
     [(7, 5), (10, 8), (1, -1), (4, 2), (6, -11), (19, 17)]))


def overlaps():
    """Name, case: the centre is given as its double."""
    for name, corners, triangles, centre, points in OVERLAPS:
        seed = meshes.of_triangles(corners, triangles)
        for quarters in range(4):
            for scale, shift in ((2, (0, 0)), (LIMIT // 20, (5, -7))):
                mesh = moved(seed, scale, shift, quarters)
                given = placed(points, scale, shift, quarters)
                # Half of a doubled centre, on the grid or between its points.
                x, y = (scale * c / 2 + s for c, s in zip(turned(centre, quarters), shift))
                yield name, Case(mesh, (float(x), float(y)), given, pending=32)


def differs(case):
    """Whether the search and the scan disagree on a point of a run."""
    mesh, skipped = selfcheck.steps_watched(case.mesh, case.centre, case.points, selfcheck.PLENTY, {})
    sweep.convexity(mesh, selfcheck.PLENTY)
    found = False
    for p in skipped:
        given, told = sweep.search(mesh, p), sweep.scan(mesh, p)
        found |= given[0] != told[0]
        sweep.insert_skipped(mesh, p, 0, selfcheck.PLENTY)
    return found


def between(a, b, share):
    return tuple(p + (q - p) * share for p, q in zip(a, b))


def hull_fan(rng):
    """A hull of three vertices with a fan within it, about one of them or about a vertex near a side, to points
    on a line, and triangles beyond them that may be flipped too; a centre outside, or within."""
    size, n = rng.choice([300, 1000, 5000]), rng.randint(6, 13)
    hull = [(0, 0), (0, -size), (size, size)]
    k = rng.randrange(3)
    apex, b, c = hull[k:] + hull[:k]
    rest, points = [], []
    if rng.random() < 0.5:
        points, rest = [apex], [(3 + n, 1, 0), (3 + n, 0, 2)]
        side = between(apex, b, rng.uniform(0.05, 0.95))
        apex = tuple(map(round, between(side, c, rng.choice([0.003, 0.01, 0.03, 0.1]))))
    start, end = (between(q, apex, rng.uniform(0.02, 0.98)) for q in (b, c))
    low = rng.uniform(0.0, 0.5)
    high = rng.uniform(low, 1.0)
    line = [between(start, end, low + (high - low) * (j + 0.5) / n) for j in range(n)]
    points = [apex, b, c] + [tuple(map(round, p)) for p in line] + points
    chain = [1] + list(range(3, 3 + n)) + [2]
    triangles = [(0, chain[i], chain[i + 1]) for i in range(n + 1)]
    if rng.random() < 0.5:
        triangles += [(1, 2, chain[-2])] + [(1, chain[i + 1], chain[i]) for i in range(1, n)]
    else:
        triangles += [(1, 2, chain[1])] + [(2, chain[i + 1], chain[i]) for i in range(1, n)]
    triangles += rest
    if not all(sweep.left(*(points[v] for v in t)) for t in triangles):
        return hull_fan(rng)
    centre = (float(size), float(-size)) if rng.random() < 0.7 else (size / 3, 1.0)
    return meshes.of_triangles(points, triangles), centre, size


# The stage in which 9 is met, and seeds of drawn_full that draw it (found by trying one after another).
STAGES = {"6 edge 0": (125, 201), "6 edge 1": (49, 121), "6 edge 2": (57, 78), "7 edge 0": (84, 543),
          "7 edge 1": (68, 255), "7 inner edge 0": (87, 275), "7 inner edge 1": (96, 426),
          "7 inner edge 2": (3368, 11828), "7 inner edge 3": (22, 103), "8": (1633, 4547),
          "8 first loop": (9522, 26538), "8 second loop": (48821, 60697)}


def on_an_edge(mesh, rng):
    """A grid point within an edge, if one is found."""
    for _ in range(20):
        e = rng.randrange(2 * mesh.edges)
        a, b = mesh.at(mesh.origin(e)), mesh.at(mesh.to(e))
        dx, dy = b[0] - a[0], b[1] - a[1]
        g = math.gcd(dx, dy)
        if g > 1:
            k = rng.randint(1, g - 1)
            return a[0] + dx // g * k, a[1] + dy // g * k
    return mesh.at(0)


def drawn_full(seed):
    """A run of one point, which now and then is refused 9 with 8 entries while that point goes in."""
    rng = random.Random(seed)
    mesh, centre, size = hull_fan(rng)
    kind = rng.randrange(4)
    if kind < 2:
        p = (round(-2 * size * rng.uniform(0.05, 1.5)), round(-size * rng.uniform(0.05, 1.5)))
    elif kind == 2:
        p = on_an_edge(mesh, rng)
    else:
        f = rng.randrange(1, mesh.faces)
        p = tuple(sum(q[i] for q in sweep.face_corners(mesh, f)) // 3 for i in (0, 1))
    if rng.random() < 0.5:  # mirrored, so that the fan turns the other way
        mesh, centre, p = mirrored(mesh), centre[::-1], p[::-1]
    return rng, meshes.renumbered(mesh, rng), centre, p, size


def mirrored(mesh):
    """Coordinates exchanged; the triangles turn left again."""
    return meshes.of_triangles([mesh.at(v)[::-1] for v in range(mesh.vertices)],
                               [tuple(sweep.face_vertices(mesh, f)[::-1]) for f in range(1, mesh.faces)])


def stage_of(mesh, centre, points, pending=8):
    """The stage of the insertion that is refused 9, and its place; None where there is no such."""
    answer, watch = watched_run(mesh, centre, points, pending)
    return (watch.stage(), answer[1]) if answer[0] == 9 and watch.found else None


def full_cases():
    """The stage, mesh, centre, points: refusal 9 with 8 entries while the third point goes in. Points before it
    and after it are added, dropped and skipped."""
    for stage, seeds in STAGES.items():
        for seed in seeds:
            rng, mesh, centre, p, size = drawn_full(seed)
            assert stage_of(mesh, centre, [p]) == (stage, 0)
            yield stage, mesh, centre, around(rng, mesh, centre, p, size, stage)


def around(rng, mesh, centre, p, size, stage):
    """Two points before p and three after it, with which the run stops at the same stage."""
    while True:
        others = [mesh.at(rng.randrange(mesh.vertices)) for _ in range(3)]
        others += [on_an_edge(mesh, rng), on_an_edge(mesh, rng), (9 * size, -size), (-9 * size, 8 * size)]
        points = rng.sample(others, 2) + [p] + rng.sample(others, 3)
        if stage_of(mesh, centre, points) == (stage, 2):
            return points


def least_pending(mesh, centre, points):
    return next(n for n in range(8, 200) if watched_run(mesh, centre, points, n)[0][0] == 0)


def refused_nine(rng):
    """Name, case, number, the place."""
    for stage, mesh, centre, points in full_cases():
        zs = heights.random_heights(rng, len(points))
        high = heights.put(mesh, more=len(points))
        yield "9 while a skipped point goes in, fate " + stage, as_given(high, centre, points, zs), 9, 2
        pending = least_pending(high, centre, points)
        yield ("the same with just as many entries as it takes",
               as_given(high, centre, points, zs, pending=pending), 0, 0)
        yield "and with one less", as_given(high, centre, points, zs, pending=pending - 1), 9, None
    # In a step: skipped points before it answer 0. In the first convexity stage: all skipped points do.
    fan = heights.put(meshes.flat_fan(8), more=7)
    skip = [(70, 3), (60, 3), (100, 2), (0, 0), (300, 0), (1, -1), (5, 5)]
    for points, place in ((skip, 5), (skip[1:], 4), ([skip[1], skip[5]] + skip[:1], 1), (skip[5:] + skip[:3], 0)):
        zs = [7 * i - 9 for i in range(len(points))]
        mesh = heights.put(meshes.flat_fan(8), more=len(points))
        yield "9 in a step, skipped points before it", as_given(mesh, (70.0, 3.0), points, zs), 9, place
        yield ("the same with room for it", as_given(mesh, (70.0, 3.0), points, zs, pending=64), 0, 0)
    for points in ([(-1, 0), (-50, 0), (-2, 0), (-3, 3)], [(50, 1), (-2, 1)], [(-2, -2)]):
        mesh = heights.put(meshes.corner_beside_fan(5), more=len(points))
        zs = [11 - 5 * i for i in range(len(points))]
        for pending in (8, 10):
            yield ("9 in the convexity passes, before skipped points go in",
                   as_given(mesh, (-1.0, 0.5), points, zs, pending=pending), 9, len(points))
        yield ("the same with room for it", as_given(mesh, (-1.0, 0.5), points, zs, pending=64), 0, 0)


def met_again(rng):
    """Name, case, fates, the heights of the vertices in the end: fate 9."""
    s, centre = heights.put(square(), [1, 2, 3, 4], 6), (2.0, 1.5)
    inner = [(1, 2), (3, 1), (1, 2), (1, 2), (3, 1), (1, 2)]
    yield ("one vertex met again and again, in list order",
           as_given(s, centre, inner, [10, 20, 30, -40, 50, 60]), [6, 6, 9, 9, 9, 9], [1, 2, 3, 4, 60, 50])
    yield ("the same heights in another order",
           as_given(s, centre, inner, [60, 50, -40, 30, 20, 10]), [6, 6, 9, 9, 9, 9], [1, 2, 3, 4, 10, 20])
    # A hexagon's middle is a vertex of the seed.
    h = heights.put(hexagon(), [5, 6, 7, 8, 9, 10, 11], 3)
    yield ("a vertex of the seed", as_given(h, (0.5, 0.25), [(0, 0), (1, 1), (0, 0)], [-1, -2, -3]),
           [9, 6, 9], [-3, 6, 7, 8, 9, 10, 11, -2])
    yield ("a vertex of the seed at the limits of heights",
           as_given(h, (0.5, 0.25), [(0, 0)] * 3, [heights.LIMIT, 0, -heights.LIMIT]), [9, 9, 9],
           [-heights.LIMIT, 6, 7, 8, 9, 10, 11])
    yield ("a vertex of the seed, no heights row", Case(hexagon(), (0.5, 0.25), [(0, 0), (0, 0)]), [9, 9], None)
    # A point that is skipped first and lies on a vertex that a later step makes; a drop leaves no height.
    t = heights.put(tri((0, 0), (40, 0), (20, 30)), [1, 2, 3], 4)
    yield ("skipped before a step that covers it, and met again",
           as_given(t, (20.0, -4.0), [(20, -4), (20, -40), (20, -4), (20, -40)], [4, 5, 6, 7]), [6, 1, 9, 2],
           [1, 2, 3, 5, 6])
    early = [(0, 2), (9, 9), (0, 2), (9, 9), (4, 4), (0, 4)]
    yield ("fate 2 keeps its vertex's height, fate 9 does not",
           as_given(s, (2.0, 1.0), early, [71, 72, 73, 74, 75, 76]), None, None)
    behind = heights.put(tri((0, 0), (0, -1), (1, 1)), [-1, -2, -3], 6)
    points = [(-2, -1), (3, 4), (-2, -1), (1, -1), (0, 7), (5, -5)]
    yield ("fate 4 twice at one position",
           as_given(behind, (1.0, -1.0), points, [4, 5, 6, 7, 8, 9]), [8, 1, 9, 6, 1, 1], None)
    # Two vertices at (6, 4): the one that is met takes the height, the other keeps its own.
    twins = heights.put(tri((-6, 4), (0, -6), (6, 4)), [1, 2, 3], 8)
    points = [(6, 0), (12, -2), (6, 4), (6, 16), (28, 5), (16, -1), (6, 4), (6, 4)]
    for count in (7, 8):
        yield ("two vertices at one position",
               as_given(twins, (6.0, -5.0), points[:count], [21, 22, 23, 24, 25, 26, 27, 28][:count]), None, None)
    other = sweep.Mesh([0, -6, -6, 4, 6, 4], [0, 5, 1],
                       [3, 5, 1, 0, 4, 2, 0, 2, 1, 4, 0, 1, 5, 0, 1, 2, 2, 1, 0, 0, 0, 3, 1, 1], [2, 3], 3, 3, 2)
    points = points[:3] + [(-21, 6), (-18, -24), (-11, 16), (6, 28), (4, 2), (6, 4), (6, 4)]
    yield ("two vertices at one position, the scan would find the other one",
           as_given(heights.put(other, [1, 2, 3], 10), (6.0, -5.0), points, list(range(31, 41))), None, None)
    found = 0
    while found < 3:
        case = later_vertex(rng)
        if case:
            found += 1
            yield "skipped, and its vertex is made by the step of a later point", case, None, None


def later_vertex(rng):
    """A run in which a skipped point meets the vertex of a point that comes later in the list, if one is
    drawn."""
    spread = rng.choice([2, 3, 6])
    seed = meshes.grown(rng, rng.choice([3, 3, 4, 6]), spread)
    centre = (rng.randint(-4 * spread, 4 * spread) / 2, rng.randint(-4 * spread, 4 * spread) / 2)
    points = selfcheck.random_points(rng, centre, 2 * spread, 8)
    points = points + rng.sample(points, 4)
    try:
        sweep.refuse_centre(seed, centre)
        sweep.refuse_ring(seed, centre)
    except sweep.Refusal:
        return None
    full = selfcheck.plenty(seed, centre, points)
    by_step = {a[1]: i for i, a in enumerate(full) if a[0] == 1}
    if not any(a[0] == 9 and by_step.get(a[1], -1) > i for i, a in enumerate(full)):
        return None
    mesh = heights.put(seed, more=len(points))
    return as_given(mesh, centre, points, [100 * i + 7 for i in range(len(points))], pending=64)


def later_passes():
    """Name, case: a convexity pass after the first adds a face, before the skipped points go in."""
    for points in ([(0, 2)], [(0, 2), (1, 2), (-2, 4)], [(-3, 5), (0, 2), (1, -1)]):
        yield ("skipped points after an extra pass",
               Case(tri((-3, 3), (6, -6), (-3, 9)), (0.0, 2.0), points[:1] + [(-18, 12), (-9, 6)] + points[1:]))
    low = (0.0, -13000000.0)
    for arms in (6, 9):
        points = [(0, -13000000), (1, -9000000), (0, -2000000), (0, 9), (-5, 3000000)]
        yield "zigzag arms and skipped points", Case(meshes.zigzag_arms(arms), low, points, pending=32)


def all_but_three(rng):
    """Name, case: three points are added first, last or between, all others are skipped."""
    limit = LIMIT
    for spread, count in ((6, 30), (1000, 40), (limit, 24)):
        few = [(-spread, -spread), (spread, -spread), (0, spread)]
        seed = tri(*[(x // 3 * 2, y // 3 * 2) for x, y in few])
        inside = [tuple(rng.randint(-(spread // 4), spread // 4) for _ in range(2)) for _ in range(count)]
        for points in (few + inside, inside + few, few[:1] + inside[::2] + few[1:2] + inside[1::2] + few[2:]):
            yield ("all but three are skipped, spread %d" % spread,
                   Case(seed, (0.5, -0.25), points, pending=64))
    seed = tri((-limit, -limit), (limit, -limit), (0, limit))
    grid = [(x, y) for x in range(-3, 4) for y in range(-3, 4)]
    rng.shuffle(grid)
    yield "all are skipped, a grid", Case(seed, (0.5, -0.25), grid, pending=64)
    line = [(i, 0) for i in range(-12, 13)]
    yield "all are skipped, on one line", Case(seed, (0.5, -0.25), line[::2] + line[1::2], pending=64)
    yield "all are skipped, one position", Case(seed, (0.5, -0.25), [(5, 5)] * 9, pending=64)
    south = [(x, -limit) for x in (0, -limit // 2, limit // 2, 1, limit - 1, -limit + 1)]
    yield "all are skipped, on the south side", Case(seed, (0.5, -0.25), south + [(0, limit), (limit, limit)], pending=64)


def unsettled(rng, spread):
    """A settled mesh of points at random, its inner edges then flipped at random."""
    n = rng.randint(6, 14)
    mesh = meshes.with_room(meshes.grown(rng, 3, spread), n)
    while mesh.vertices < n:
        sweep.insert_skipped(mesh, (rng.randint(-spread, spread), rng.randint(-spread, spread)), 0, selfcheck.PLENTY)
    meshes.random_flips(mesh, rng, rng.choice([5, 20, 60]))
    return meshes.renumbered(mesh, rng)


def on_unsettled(rng, count):
    """Name, case: points at vertices, on edges and elsewhere in seeds that are not settled."""
    found = 0
    while found < count:
        spread = rng.choice([6, 12, 30, 1000, LIMIT])
        mesh = unsettled(rng, spread)
        centre = selfcheck.random_centre(rng, mesh, spread)
        box = lambda: (rng.randint(-spread, spread), rng.randint(-spread, spread))
        points = [rng.choice([box, box, lambda: on_an_edge(mesh, rng), lambda: mesh.at(rng.randrange(mesh.vertices))])()
                  for _ in range(rng.choice([2, 4, 7]))]
        zs = heights.random_heights(rng, len(points))
        high = heights.put(mesh, more=len(points))
        case = as_given(high, centre, points, zs, pending=rng.choice([8, 12, 64]))
        number = sweep.run(case.mesh.copy(), case.lent(), centre, points, zs)[0]
        if number == 0 or number == 9 and rng.random() < 0.5:
            found += 1
            yield "an unsettled seed, %d" % found, case


def random_runs(rng, count):
    """Name, case: adversarial runs in which points are skipped."""
    found = 0
    while found < count:
        seed, centre, points = selfcheck.outside_centre(rng) if found % 2 else selfcheck.adversarial(rng)
        if not 3 <= len(points) <= 13 or seed.vertices > 20:
            continue
        pending = rng.choice([8, 9, 64])
        mesh, lent, answer = selfcheck.run_of(seed, centre, points, pending)
        fates = lent.answers[0::sweep.WORDS]
        wanted = 8 if found % 2 else 6
        if answer[0] in (0, 9) and wanted in fates and sum(f > 5 for f in fates) > 1:
            found += 1
            zs = heights.random_heights(rng, len(points))
            high = heights.put(seed, heights.random_heights(rng, seed.vertices), len(points))
            yield "random, skipped points %d" % found, as_given(high, centre, points, zs, pending=pending)


def fates_of(case):
    lent = case.lent()
    sweep.run(case.mesh.copy(), lent, case.centre, case.points, case.zs)
    return lent.answers[0:sweep.WORDS * len(case.points):sweep.WORDS]


def add_cases(out, add_run, rng):
    """All of them, each held against what its making tells of it."""
    for name, case, fates, faces in each_fate(rng):
        assert add_run(out, name, case)[0] == 0 and fates_of(case) == fates, (name, fates_of(case))
        lent = case.lent()
        sweep.run(case.mesh.copy(), lent, case.centre, case.points)
        assert faces is None or lent.answers[2::sweep.WORDS] == faces, name
    for name, case, fates in mills(rng):
        answer, watch = watched_run(case.mesh, case.centre, case.points, case.lengths["pending"])
        assert (watch.scanned > 0) == ("another vertex" not in name), (name, watch.scanned)
        assert add_run(out, name, case)[0] == 0 and fates_of(case)[:1] == fates, (name, fates_of(case))
    wheels = list(pinwheels())
    for name, case in wheels:
        answered, watch = watched_run(case.mesh, case.centre, case.points, 64)
        assert watch.found[0] == "6" and watch.scanned > 0, (name, watch.found)
        assert add_run(out, name, case)[0] == 0 and fates_of(case)[0] == 6, (name, fates_of(case))
    assert len(wheels) == 4
    for name, case in overlaps():
        assert differs(case) and add_run(out, name, case)[0] == 0, name
    for name, case, number, place in refused_nine(rng):
        answer = add_run(out, name, case)
        assert answer[0] == number and (place is None or answer[1] == place), (name, answer)
    for name, case, fates, told in met_again(rng):
        assert add_run(out, name, case)[0] == 0 and (fates is None or fates_of(case) == fates), (name, fates_of(case))
        if told is not None:
            mesh = case.mesh.copy()
            sweep.run(mesh, case.lent(), case.centre, case.points, case.zs)
            assert mesh.heights[:mesh.vertices] == told, (name, mesh.heights)
    for name, case in later_passes():
        mesh, skipped = selfcheck.steps_watched(case.mesh, case.centre, case.points, selfcheck.PLENTY, {})
        assert skipped and sweep.convexity_passes(mesh, selfcheck.PLENTY)[1] > 2, name
        assert add_run(out, name, case)[0] == 0, name
    for name, case in all_but_three(rng):
        assert add_run(out, name, case)[0] == 0, name
        assert sum(f == 1 for f in fates_of(case)) <= 3, name
    for name, case in [*on_unsettled(rng, 30), *random_runs(rng, 30)]:
        add_run(out, name, case)
