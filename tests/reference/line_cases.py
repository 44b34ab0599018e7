"""Points along lines, for the lists of `finish`, `step` and `run`: cases in which the pending list of
`legalize_edges_after_removal` grows long and falls empty again, in rows of many lengths, and cases in which many nodes of the
ring stand in one bucket.

How long the lists become and how full the buckets is watched while the cases are made (`pending_lists`, `crowd`); a line of
the lists does not say it.
"""

import collections

import hull
import meshes
import sweep
import verify
from run_cases import Case, spiked_fan, tri, turned

PLENTY = 6000
LONG = 16  # entries from which on it may pay to hold the edges of a list in a set as well
ROWS = (8, 16, 17, 31, 32, 33, 34, 40, 48, 63, 64, 65, 66)  # lengths of pending rows, whatever the list


class Watched(list):
    """A pending list that keeps the lengths it had after each flip."""

    def __setitem__(self, where, entries):
        list.__setitem__(self, where, entries)
        self.lengths.append(len(entries))


def pending_lists(work):
    """For each call of `legalize_edges_after_removal` in some work: its longest list, and the mesh's edges."""
    called, legalize = [], sweep.legalize_edges_after_removal

    def watched(mesh, pending, capacity):
        kept = Watched(pending)
        kept.lengths = [len(pending)]
        called.append((kept.lengths, mesh.edges))
        return legalize(mesh, kept, capacity)

    sweep.legalize_edges_after_removal = watched
    try:
        work()
    finally:
        sweep.legalize_edges_after_removal = legalize
    return [(max(lengths), edges) for lengths, edges in called]


def words(edges):
    """A set of so many edges, one bit each, in words of 32 bits."""
    return -(-edges // 32)


def row_lengths(longest, edges, few=False):
    """Lengths of a pending row: the longest list fits, just fits and does not, and so does a set behind it, when the list has
    just become long and when it is longest."""
    most, set_words = longest, words(edges)
    about = {most - 1, most, most + set_words - 1, most + set_words}
    if not few:
        about |= {most + 1, most + set_words + 1, LONG + set_words - 1, LONG + set_words, LONG + set_words + 1}
    return sorted(n for n in about if n >= sweep.LEAST_PENDING)


# ---------------------------------------------------------------------------------------------------
# Meshes in which one corner lets many edges flip


def corner_of(triangles):
    """`meshes.corner_beside_fan` for a fan of any size: the list grows to twice its triangles and one."""
    return meshes.fan([(0, 0)] + [(1000, i) for i in range(triangles + 1)] + [(-3, 3), (-3, -3), (1, -1)])


def two_corners(first, second):
    """Two such fans back to back, so that the list grows long, falls empty and grows long again."""
    points, triangles = [], []
    for size, sign, (left, up) in ((first, 1, (0, 0)), (second, -1, (-20, 1))):
        at = len(points)
        fan = [(0, 0)] + [(1000, i) for i in range(size + 1)] + [(-3, 3), (-3, -3), (1, -1)]
        points += [(sign * x + left, sign * y + up) for x, y in fan]
        triangles += [(at, at + i, at + i + 1) for i in range(1, size + 4)]
    a, b = first + 2, first + 5 + second + 2  # the two corners of each back
    return meshes.of_triangles(points, triangles + [(a, b + 1, b), (a, b, a + 1)])


def triangles_of(points):
    """Triangles over points, by their indices."""
    c = next(i for i in range(2, len(points)) if sweep.orient2d(points[0], points[1], points[i]))
    corners = [0, 1, c] if sweep.left(points[0], points[1], points[c]) else [0, c, 1]
    rest = [i for i in range(len(points)) if i not in corners]
    mesh = meshes.with_room(sweep.seed_triangle([points[i] for i in corners], 3), len(points))
    centre = tuple(sum(points[i][k] for i in corners) / 3 for k in (0, 1))
    answer = sweep.run(mesh, sweep.lent_for(len(points), PLENTY, len(rest)), centre, [points[i] for i in rest])
    assert answer[0] == 0
    number = {p: i for i, p in enumerate(points)}
    return [tuple(number[p] for p in sweep.face_corners(mesh, f)) for f in range(1, mesh.faces)]


def beside_pocket(points, reach, back):
    """Triangles over points above the edge from (0, 0) to (reach, 0), and a fan about (0, 0) from their last side there to
    the points of `back`; None where the edge is no side of the boundary or the fan would not turn left."""
    points = [(0, 0), (reach, 0)] + [p for p in points if p not in ((0, 0), (reach, 0))]
    inner = triangles_of(points)
    sides = {(t[i], t[(i + 1) % 3]) for t in inner for i in range(3)}
    last = [p for p, q in sides if q == 0 and (0, p) not in sides]
    if (0, 1) not in sides or (1, 0) in sides or not sweep.left((0, 0), points[last[0]], back[0]):
        return None
    n = len(points)
    around = last + list(range(n, n + len(back)))
    return meshes.of_triangles(points + back, inner + [(0, a, b) for a, b in zip(around, around[1:])])


def above(rng):
    """Points above an edge, and its reach: on few lines, along a flat curve, in columns."""
    kind, count, reach = rng.randrange(4), rng.choice([20, 24, 30, 40]), rng.choice([1000, 10000, 100000])
    if kind == 0:
        ways = [(rng.randint(1, 9), rng.randint(1, 9)) for _ in range(rng.randint(2, 4))]
        points = {(2 + k * x, 1 + k * y) for x, y in ways for k in range(1, count // len(ways) + 1)}
    elif kind == 1:
        points = {(reach - rng.randint(0, 5), 1 + k * rng.randint(1, 3)) for k in range(count)}
    elif kind == 2:
        points = {(reach - k * k // 8 - rng.randint(0, 2), 2 + k * 5 + rng.randint(0, 2)) for k in range(count)}
    else:
        points = {(rng.choice((reach * 2 // 3, reach * 5 // 6, reach)), rng.randint(1, count)) for _ in range(count)}
    return sorted(points, key=lambda _: rng.random()), reach


def pocket(rng):
    """A mesh with one corner that lets edges of an unsettled part flip, some more than once."""
    mesh = None
    while mesh is None:
        mesh = beside_pocket(*above(rng), [(-3, 3), (-3, -3), (1, -1)])
    meshes.random_flips(mesh, rng, rng.choice([0, 1, 3, 10, 40]) * mesh.edges)
    return mesh


def finished_by(module, mesh, pending):
    """What a finish answers and leaves, by sweep.py or a changed one."""
    *rows, heights = map(list, mesh.rows())
    copy = module.Mesh(*rows, *mesh.counts(), heights)
    return module.finish(copy, module.Lent(pending=[7] * pending)), copy.rows()


def telling_pockets(rng, count):
    """Pockets that are told from what each change of `verify.LONG_LISTS` makes of them, so many for each, with the lengths of
    pending rows that tell them."""
    wanted = {m[0]: count for m in verify.LONG_LISTS}
    changed = {name: verify.changed_as(name) for name in wanted}
    while any(wanted.values()):
        mesh = pocket(rng)
        longest, edges = max(pending_lists(lambda: finished_by(sweep, mesh, PLENTY)))
        if longest <= LONG:
            continue
        rows = row_lengths(longest, edges, few=True)
        given = {n: finished_by(sweep, mesh, n) for n in rows}
        told = {}
        for name in wanted:
            n = next((n for n in rows if wanted[name] and finished_by(changed[name], mesh, n) != given[n]), None)
            if n is not None:
                wanted[name] -= 1
                told[n] = name
        if told:
            yield mesh, sorted(told)


def add_finishes(out, add, rng):
    """The cases of finish.txt. Answers the longest list."""
    longest = 0

    def each(name, mesh, rows=()):
        nonlocal longest
        most, edges = max(pending_lists(lambda: finished_by(sweep, mesh, PLENTY)))
        for n in rows or row_lengths(most, edges, few=True):
            answer = add(out, "%s: a list of %d, %d entries" % (name, most, n), mesh, n)
            assert answer[0] == (9 if n < most else 0), name
        longest = max(longest, most)

    for size in (4, 8, 12, 16, 20, 28, 32, 40, 64):  # 32 edges at 12, 64 at 28
        mesh = corner_of(size)
        rows = row_lengths(2 * size + 1, mesh.edges + 1) if size in (8, 16, 32) else ()
        each("a corner beside a fan of %d" % size, mesh, sorted({*rows, *ROWS}) if size == 16 else rows)
    each("a corner beside a fan of 110", corner_of(110), [221, 227, 228])
    for first, second in ((9, 20), (33, 17)):
        each("corners beside fans of %d and %d" % (first, second), two_corners(first, second))
    each("corners beside fans of 40 and 66", two_corners(40, 66), [132, 139])
    for i, (mesh, rows) in enumerate(telling_pockets(rng, 2)):
        each("a pocket %d" % i, mesh, rows)
    return longest


# ---------------------------------------------------------------------------------------------------
# Steps and runs with long lists


def spiked(triangles):
    """A fan, a spike beside it and the point that covers both: closing the corner between them flips the whole fan."""
    mesh = spiked_fan(triangles, max(100, 20 * triangles), [(4 * triangles + 1, (-13, 4))])
    return mesh, (-1.0, 1.0), (13, -15)


def stepped(case, pending=PLENTY):
    return sweep.step(case.mesh.copy(), sweep.lent_for(case.mesh.vertices + 1, pending), case.centre, case.points[0])


def ran(case, pending=PLENTY):
    n = case.mesh.vertices + len(case.points)
    return sweep.run(case.mesh.copy(), sweep.lent_for(n, pending, len(case.points)), case.centre, case.points)


def spiked_pockets(rng, count):
    """Seeds like pockets, with a point that closes the corner."""
    while count:
        mesh = beside_pocket(*above(rng), [(-13, 4)])
        if mesh is None:
            continue
        meshes.random_flips(mesh, rng, rng.choice([0, 1, 3, 10]) * mesh.edges)
        case = Case(mesh, (-1.0, 1.0), [(13, -15)])
        if stepped(case)[:1] != (0,):
            continue
        called = pending_lists(lambda: stepped(case))
        if called and max(called)[0] > LONG:
            count -= 1
            yield mesh


def add_steps(out, add_step, rng):
    """The cases of step.txt. Answers the longest list."""
    longest = 0

    def each(name, mesh, centre, point, rows=()):
        nonlocal longest
        most, edges = max(pending_lists(lambda: stepped(Case(mesh, centre, [point]))))
        for n in rows or row_lengths(most, edges, few=True):
            case = Case(mesh, centre, [point], pending=n)
            number = add_step(out, "%s: a list of %d, %d entries" % (name, most, n), case)[0]
            assert number == (9 if n < most else 0), name
        longest = max(longest, most)

    for size in (4, 8, 13, 16, 29, 32, 70):  # 32 edges at 13, 64 at 29
        each("a fan of %d beside a spike" % size, *spiked(size), sorted({*ROWS, 35}) if size == 16 else ())
    for i, mesh in enumerate(spiked_pockets(rng, 6)):
        each("a pocket beside a spike %d" % i, mesh, (-1.0, 1.0), (13, -15))
    return longest


def by_distance(points):
    """A seed from the first points that are not on one line, its middle, and the others, nearest first."""
    middle = [sum(p[k] for p in points) / len(points) for k in (0, 1)]
    points = sorted(set(points), key=lambda p: ((p[0] - middle[0]) ** 2 + (p[1] - middle[1]) ** 2, p))
    a, b = points[:2]
    c = next(p for p in points if sweep.orient2d(a, b, p))
    corners = [a, b, c] if sweep.left(a, b, c) else [a, c, b]
    centre = tuple(sum(p[k] for p in corners) / 3 for k in (0, 1))
    return tri(*corners), centre, [p for p in points if p not in corners]


def along_lines(rng, count):
    """Points within a millimetre or so of few lines."""
    lines = [[rng.randint(-1000000, 1000000), rng.randint(-1000000, 1000000), rng.randint(-20, 20), rng.randint(-20, 20)]
             for _ in range(rng.choice([2, 2, 3, 4]))]
    noise, points = rng.choice([0, 1, 3]), set()
    for i in range(count):
        x, y, dx, dy = lines[i % len(lines)]
        t = rng.randint(-100000, 100000)
        points.add((x + t * dx + rng.randint(-noise, noise), y + t * dy + rng.randint(-noise, noise)))
    return sorted(points)


def long_runs(rng, wanted):
    """Cases along lines whose lists become so long, at least three of them longer than LONG, with what was watched."""
    for count, least in wanted:
        while True:
            try:
                mesh, centre, points = by_distance(along_lines(rng, count))
            except StopIteration:  # all on one line
                continue
            case = Case(mesh, centre, points)
            called = pending_lists(lambda: ran(case))
            if called and max(called)[0] >= least and sum(most > LONG for most, _ in called) >= 3:
                yield case, called
                break


def add_long_runs(out, add_run, rng):
    """The cases of run.txt with long lists. Answers the longest."""
    longest = 0

    def each(name, case, rows=()):
        nonlocal longest
        most, edges = max(pending_lists(lambda: ran(case)))
        for n in rows or row_lengths(most, edges, few=True):
            given = Case(case.mesh, case.centre, case.points, pending=n)
            answer = add_run(out, "%s: a list of %d, %d entries" % (name, most, n), given)
            assert answer[0] == (9 if n < most else 0), (name, answer)
        longest = max(longest, most)

    for size in (8, 16, 33, 66):
        mesh, centre, point = spiked(size)
        each("a fan of %d beside a spike" % size, Case(mesh, centre, [(-40, 3), point, (14, -40), (3, -2)]),
             sorted({*ROWS, 35}) if size == 16 else ())
    for first, second, points in ((9, 20, []), (20, 12, [(-10, 900), (-10, -900), (2, -2)]), (33, 20, [(2, -2)])):
        each("corners beside fans of %d and %d" % (first, second), Case(two_corners(first, second), (-10.0, 0.5), points))
    each("corners beside fans of 66 and 70", Case(two_corners(66, 70), (-10.0, 0.5), [(-10, 900)]), [141, 150])
    for case, called in long_runs(rng, [(40, 17)] * 3 + [(60, 24)] * 2 + [(90, 33)]):
        each("along lines, %d long lists" % sum(most > LONG for most, _ in called), case)
    return longest


# ---------------------------------------------------------------------------------------------------
# Runs that crowd the ring


def crowd(case):
    """The most nodes of a run's ring in one bucket; how often the node that was put last in the bucket of a point's angle is in
    use elsewhere, or not at all, when that point comes; and the numbers of buckets in turn."""
    mesh = meshes.with_room(case.mesh, case.mesh.vertices + len(case.points))
    carried = hull.Hull(mesh, case.centre)
    last, fullest, gone, buckets = {}, 0, 0, [8]
    for p in case.points:
        fate, edge = sweep.fate_of(mesh, p, case.centre)
        if fate == 5:
            continue
        angle = sweep.pseudo_angle(p, case.centre)
        at = carried.floored_bucket(angle)
        if at in last:
            node = last[at]
            gone += node in carried.empty or carried.floored_bucket(carried.data[node].angle) != at
        if fate != 1:
            continue
        vertex = sweep.insertion(mesh, edge, p, case.centre, 1 << 30)[0]
        carried.insert_vertex(mesh, vertex)
        if len(carried.buckets) != buckets[-1]:
            buckets.append(len(carried.buckets))
            last = {}
        used = [i for i in range(len(carried.data)) if i not in carried.empty]
        last[carried.floored_bucket(angle)] = next(i for i in used if carried.data[i].angle == angle)
        held = collections.Counter(carried.floored_bucket(carried.data[i].angle) for i in used)
        fullest = max(fullest, *held.values())
    return fullest, gone, buckets


def on_lines(count, way, offsets, apex=()):
    """Points on parallel lines, one for each offset, and others."""
    per = count // len(offsets)
    points = [(x + (k - per // 2) * way[0], y + (k - per // 2) * way[1]) for k in range(per) for x, y in offsets]
    return points + list(apex)


def arc(count, far, quarters, up=0):
    """Points close together and far out, on a curve that bulges outwards, from one end to the other, so that each is a corner of
    the boundary: on an axis, in two buckets, or above it, in one."""
    half = count // 2
    return [turned((far - k * k // 4, up + 5 * k), quarters) for k in range(-half, count - half)]


def in_order(points, order, rng):
    if order == "from one end":
        return points
    if order == "from the middle":
        return sorted(points, key=lambda p: abs(points.index(p) - len(points) // 2))
    if order == "from both ends":
        return sorted(points, key=lambda p: -abs(points.index(p) - len(points) // 2))
    return rng.sample(points, len(points))


def crowded_lines(rng):
    """Name, case: one line, two and three parallel ones, nearest first and farthest first."""
    for quarters in range(4):
        points = [turned(p, quarters) for p in on_lines(44, (32, 0), [(0, 0)], [(16, 32)])]
        yield "one line, nearest first", Case(*by_distance(points), pending=64)
    for quarters in (0, 2):
        corners = [turned(p, quarters) for p in ((0, 0), (32, 0), (16, 32))]
        points = [turned((32 * k, 0), quarters) for k in range(2, 236)]
        centre = tuple(float(c) for c in turned((16, 10), quarters))
        yield "half of a long line, nearest first", Case(tri(*corners), centre, points, pending=64)
    for way in ((12, 28), (-28, 12), (30, -70)):
        points = on_lines(44, way, [(0, 0)], [(way[0] // 2 - way[1], way[1] // 2 + way[0])])
        yield "one slanted line, nearest first", Case(*by_distance(points), pending=64)
    for way, offsets in (((30, 70), [(0, 0), (-9, 4)]), ((-63, 27), [(0, 0), (4, 9)]), ((31, 0), [(0, 0), (7, 10)]),
                         ((30, 70), [(0, 0), (-9, 4), (-18, 9)]), ((0, 30), [(0, 0), (3, 1), (-4, 2)])):
        mesh, centre, points = by_distance(on_lines(48, way, offsets))
        name = "%d parallel lines, " % len(offsets)
        yield name + "nearest first", Case(mesh, centre, points, pending=64)
        yield name + "farthest first", Case(mesh, centre, points[::-1], pending=128)
        yield name + "in any order", Case(mesh, centre, rng.sample(points, len(points)), pending=128, spare=9)


def crowded_arcs(rng):
    """Name, case: corners of the boundary close together, in several orders, also about dead west."""
    seed = tri((-2, -2), (3, -1), (-1, 3))
    for quarters in range(4):
        for order in ("from one end", "from the middle", "from both ends", "in any order"):
            for up in (0, 400000):
                points = in_order(arc(30, 1000000, quarters, up), order, rng)
                yield "an arc, " + order, Case(seed, (0.0, 0.0), points, pending=256, spare=rng.choice([0, 0, 5]))
    points = in_order(arc(244, 9000000, 2, 3600000), "in any order", rng)
    yield "a long arc, in any order", Case(seed, (0.0, 0.0), points, pending=1024)
    points = in_order(arc(120, 9000000, 2), "in any order", rng)
    yield "an arc about dead west, in any order", Case(seed, (0.0, 0.0), points, pending=1024)
    west = [(-1000000 + k * k // 4, 5 * k) for k in range(-12, 13)]
    yield ("dead west first and again", Case(seed, (0.0, 0.0), [(-500000, 0)] + west + [(-2000000, 0), (-2100000, 1),
                                                                                      (-2100000, -1)], pending=128))


def covered_arcs(rng):
    """Name, case: an arc, a far point that covers it, and another arc from the nodes that it freed, again and again."""
    seed = tri((-2, -2), (3, -1), (-1, 3))
    for quarters in range(4):
        for orders in (("in any order", "from both ends", "in any order"), ("from the middle", "in any order", "from one end")):
            points = []
            for order, count, far in zip(orders, (36, 9, 20), (30000, 300000, 3000000)):
                points += in_order(arc(count, far, quarters, far * 2 // 5), order, rng)
                points += [turned((far * 4, far * 6 // 5), quarters)]  # in another bucket
            yield "arcs, each covered by a point", Case(seed, (0.0, 0.0), points, pending=256, spare=rng.choice([0, 30]))
    for quarters in range(4):
        corners = [turned(p, quarters) for p in ((0, -30000), (2, 0), (-2, 0))]
        points, low = [], -4
        for top in (1000, 4000, 16000, 64000, 256000, 1000000):
            points += [(i, low + i * i) for i in range(3, 11)] + [(5, low + 40), (0, top)]  # the last in the bucket before
            low = top
        centre = tuple(float(c) for c in turned((0.25, -25000), quarters))
        yield ("curves, each covered by a point", Case(tri(*corners), centre, [turned(p, quarters) for p in points], pending=256,
                                                       spare=quarters))
    points = []
    for far, quarters in ((100000, 0), (300000, 1), (700000, 2), (1500000, 3), (3100000, 2), (6300000, 0)):
        points += in_order(arc(24, far, quarters), "in any order", rng) + [turned((far * 2, 3), quarters)]
    yield "arcs in turn about the centre", Case(seed, (0.0, 0.0), points, pending=512)


def add_crowded(out, add_run, rng):
    """The cases of run.txt that crowd the ring. Answers the most nodes in one bucket, and how often a bucket's last one had gone."""
    told = []
    for name, case in [*crowded_lines(rng), *crowded_arcs(rng), *covered_arcs(rng)]:
        told.append(crowd(case))
        answer = add_run(out, name, case)
        assert answer[0] == 0, (name, answer)
    assert any([8, 16, 32, 64, 128] == buckets for _, _, buckets in told)
    return max(fullest for fullest, _, _ in told), sum(gone for _, gone, _ in told)
