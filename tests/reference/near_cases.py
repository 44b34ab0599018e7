"""Runs whose skipped points tell a wrong search from near by, for run.txt. Made by run_cases.py.

The search starts at vertex 0, as Change 2 defines it; a program may start elsewhere only where that answers the same.
"""

import meshes
import selfcheck
import skipped_cases
import sweep
from run_cases import Case, tri

LIMIT = sweep.LIMIT


def upper(d):
    return d[1] > 0 or d[1] == 0 and d[0] > 0


def corners(mesh):
    """The directions of each boundary half-edge and the next."""
    walk = sweep.boundary(mesh)
    ways = [tuple(b - a for a, b in zip(mesh.at(mesh.origin(e)), mesh.at(mesh.to(e)))) for e in walk]
    return list(zip(ways, ways[1:] + ways[:1]))


def turns_back(mesh):
    return any(u[0] * v[1] == u[1] * v[0] and u[0] * v[0] + u[1] * v[1] < 0 for u, v in corners(mesh))


def full_circles(mesh):
    return sum(upper(u) and not upper(v) for u, v in corners(mesh))


def holding(mesh, p):
    """The triangles that hold a point strictly inside."""
    return [f for f in range(1, mesh.faces)
            if all(sweep.side(mesh, e, p) > 0 for e in sweep.cycle(mesh.next, mesh.stored[f], 3))]


def settled(rng, corners_, inside):
    """A settled convex mesh: two triangles of a square, and points within."""
    mesh = meshes.with_room(meshes.of_triangles(corners_, [(0, 1, 2), (0, 2, 3)]), 4 + inside)
    low, high = corners_[0], corners_[2]
    while mesh.vertices < 4 + inside:
        sweep.insert_skipped(mesh, tuple(rng.randint(a + 1, b - 1) for a, b in zip(low, high)), 0, selfcheck.PLENTY)
    return meshes.renumbered(mesh, rng)


def square(low, high):
    return [(low, low), (high, low), (high, high), (low, high)]


def jumping(points):
    """From end to end of the list."""
    points = sorted(points)
    return [points[i // 2 if i % 2 == 0 else -1 - i // 2] for i in range(len(points))]


def mixed(rng, mesh, low, high, count):
    """Points anywhere, on edges, at vertices and at points before them."""
    points = []
    for _ in range(count):
        kind = rng.randrange(8)
        points.append(skipped_cases.on_an_edge(mesh, rng) if kind < 2 else mesh.at(rng.randrange(mesh.vertices)) if kind == 2
                      else rng.choice(points) if kind == 3 and points
                      else (rng.randint(low, high), rng.choice([low, high])) if kind == 4
                      else (rng.randint(low, high), rng.randint(low, high)))
    return points


def in_settled(rng):
    """Name, case: many points in settled convex meshes, centre within."""
    for spread in (2, 3, 5, 40, 1000, LIMIT):
        for count in (20, 30):
            mesh = settled(rng, square(-spread, spread), min(5, spread))
            points = mixed(rng, mesh, -spread, spread, count)
            yield "settled, spread %d" % spread, Case(mesh, (0.5, -0.25), points, pending=64)
            yield "settled, end to end", Case(mesh, (0.5, -0.25), jumping(points), pending=64)
    mesh = settled(rng, square(-LIMIT, LIMIT), 2)
    for name, points in (("one column", [(77, rng.randint(-LIMIT, LIMIT)) for _ in range(24)]),
                         ("one row", [(rng.randint(-LIMIT, LIMIT), -5) for _ in range(24)]),
                         ("two far clusters", [(s * (LIMIT - rng.randint(0, 9)), s * (LIMIT - rng.randint(0, 9)))
                                               for _ in range(12) for s in (1, -1)]),
                         ("a cluster", [(rng.randint(90, 99), rng.randint(90, 99)) for _ in range(26)])):
        yield name, Case(mesh, (0.5, -0.25), points, pending=64)
        yield name + ", end to end", Case(mesh, (0.5, -0.25), jumping(points), pending=64)
    points = mixed(rng, mesh, -900, 900, 120)
    yield "many points", Case(mesh, (0.5, -0.25), points, pending=128)


def outside_between(rng):
    """Name, case: the centre below the south side, so that points between them are outside when they go in."""
    for spread in (40, 1000, LIMIT // 2):
        for _ in range(3):
            mesh = settled(rng, square(0, spread), 3)
            deep = spread // 4
            points = mixed(rng, mesh, 1, spread - 1, 18)
            for i in range(0, 18, 3):
                points[i] = (spread // 2 + rng.randint(-2, 2), -rng.randint(1, deep - 1))
            yield "outside between insides", Case(mesh, (spread / 2, float(-deep)), points, pending=64)


def beside_broken(rng, count):
    """Name, case: seeds that are not settled, points beside the middles of edges that break the circle rule."""
    while count:
        mesh = skipped_cases.unsettled(rng, rng.choice([30, 1000]))
        broken = [u for u in range(mesh.edges) if sweep.breaks_circle(mesh, u)]
        centre = selfcheck.random_centre(rng, mesh, 30)
        points = [tuple((a + b) // 2 + rng.randint(-2, 2) for a, b in zip(mesh.at(mesh.origin(2 * u)), mesh.at(mesh.to(2 * u))))
                  for u in broken for _ in range(3)][:24]
        case = Case(mesh, centre, points, pending=64)
        if len(points) > 8 and sweep.run(case.mesh.copy(), case.lent(), centre, points)[0] == 0:
            count -= 1
            yield "beside broken edges", case


def not_to_walk_on(rng):
    """Name, case: the seeds of `OVERLAPS`, which after the convexity passes turn straight back and through two circles, with
    points all over their triangles."""
    for name, corners_, triangles, centre, points in skipped_cases.OVERLAPS:
        for quarters in (0, 1):
            mesh = skipped_cases.moved(meshes.of_triangles(corners_, triangles), 60, (0, 0), quarters)
            given = skipped_cases.placed(points, 60, (0, 0), quarters)
            middle = tuple(30.0 * c for c in skipped_cases.turned(centre, quarters))
            after = meshes.with_room(mesh, mesh.vertices + len(given))
            for p in given:
                sweep.one_step(after, p, middle, 1 << 16)
            before = after.copy()
            sweep.convexity(after, 1 << 16)
            assert turns_back(after) and full_circles(after) == 2
            more = []
            for f in range(1, after.faces):
                a, b, c = sweep.face_corners(after, f)
                for i, j in ((1, 1), (2, 1), (1, 2)):
                    more.append(tuple((i * x + j * y + z) // (i + j + 1) for x, y, z in zip(a, b, c)))
            more = [p for p in more if sweep.fate_of(before, p, middle)[0] in (3, 4, 5)]
            yield "turns straight back, two circles: " + name, Case(mesh, middle, given + more, pending=64)


def add_cases(out, add_run, rng):
    """All of them; answers how many of each kind."""
    told = {}
    for maker in (in_settled(rng), outside_between(rng), beside_broken(rng, 8), not_to_walk_on(rng)):
        for name, case in maker:
            answer = add_run(out, name, case)
            assert answer[0] == 0, (name, answer)
            told[name] = told.get(name, 0) + 1
    return told
