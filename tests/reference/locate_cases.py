"""Meshes, centres and angles for the call `locate`, with the edge and the nodes passed, or the refusal.

    python3 locate_cases.py > lists/locate.txt

The answers come from sweep.py, which finds the edge by looking at every segment and counts the nodes by
01's formula and by a walk from the bucket; here the Rust's `Hull` is held against both.
"""

import math
import random

import check_cases
import heights
import hull
import lists
import meshes
import sweep
from samples import bits

NAN, INF = float("nan"), float("inf")
WEST = -2.0 ** -40  # a centre's y that a vertex at y = 0 is above, by too little to count far west


def rows_for(mesh):
    n = mesh.vertices
    return [n + 1, n + 1, max(16, n)]


def query(mesh, rows, centre, angle):
    lent = sweep.Lent(*([7] * r for r in rows))
    before = mesh.copy()
    answer = sweep.locate(mesh, lent, centre, angle)
    assert mesh.rows() == before.rows()
    left = set(lent.nodes + lent.freed + lent.buckets)
    assert left <= ({7} if answer[0] else {0})
    if answer[0] == 0:
        assert hull.Hull(mesh, centre).get(angle) == answer[2:], (centre, angle)
    return lists.line("l", (bits(angle),) + answer)


def angles_of(mesh, centre, rng):
    """Every boundary angle with its neighbours, eighths, and the ends."""
    angles = [0.0, -0.0, 1.0, 1e-300, 5e-324, math.nextafter(1.0, 0.0), 2.0 ** -53]
    for i in range(1, 8):
        angles += [i / 8, math.nextafter(i / 8, 0.0), math.nextafter(i / 8, 1.0)]
    try:
        boundary = [a for a, _ in sweep.boundary_angles(mesh, centre)]
    except ValueError:
        boundary = []
    for a in boundary:
        for b in (a, math.nextafter(a, -1.0), math.nextafter(a, 2.0)):
            if 0.0 <= b <= 1.0:
                angles.append(b)
    angles += [rng.random() for _ in range(3)]
    return sorted({bits(a): a for a in angles}.values(), key=lambda a: (a, math.copysign(1.0, a)))


def add(out, name, mesh, centre, rng, angles=None, rows=None):
    mesh = lists.with_past(mesh, max(mesh.vertices, len(mesh.outs)))
    return add_given(out, name, mesh, centre, rng, angles, rows, "mpohf")


def add_given(out, name, mesh, centre, rng, angles, rows, tags):
    """With rows just as they are given; with lists.HIGH for tags the heights are written too."""
    rows = rows or rows_for(mesh)
    out.remark(name)
    out.add(*lists.mesh_lines(mesh, tags), lists.line("n", rows), lists.line("x", map(bits, centre)))
    found = [query(mesh, rows, centre, a) for a in (angles or angles_of(mesh, centre, rng))]
    out.add(*found)
    return {int(line.split()[2]) for line in found}


def refused(out, rng):
    t, s = check_cases.triangle(), check_cases.square()
    one, half = (1.0, 1.0), [0.5]
    assert add(out, "two vertices", check_cases.counted(t, 2), one, rng, half) == {1}
    for i in range(3):
        rows = rows_for(s)
        rows[i] -= 1
        assert add(out, "a ring row one entry short", s, one, rng, half, rows) == {2}
    big = check_cases.hexagon()
    big = meshes.of_triangles([big.at(v) for v in range(7)] + [(0, 9 + 3 * i) for i in range(12)],
                              [(0, i + 1, (i + 1) % 6 + 1) for i in range(6)]
                              + [(3, 2, 7)] + [(3, 7 + i, 8 + i) for i in range(11)])
    rows = rows_for(big)
    assert rows[2] > 16
    assert add(out, "one bucket too few for more than 16 vertices", big, one, rng, half,
               rows[:2] + [rows[2] - 1]) == {2}
    for row in "pohf":
        given = check_cases.cut(s, row)
        out.remark("a mesh row one entry short: " + row)
        out.add(*lists.mesh_lines(given), lists.line("n", rows_for(s)), lists.line("x", map(bits, one)),
                query(given, rows_for(s), one, 0.5))
    assert add(out, "a coordinate beyond", check_cases.changed(t, "p", 5, -(1 << 25)), one, rng,
               half) == {3}
    assert add(out, "a broken link", check_cases.changed(t, "h", 0, 4), (NAN, 0.0), rng, half) == {4}
    assert add(out, "a flat face", check_cases.triangle((0, 0), (2, 2), (4, 4)), one, rng, half) == {5}
    limit, beyond = float(sweep.LIMIT), math.nextafter(float(sweep.LIMIT), INF)
    for centre in ((NAN, 1.0), (1.0, NAN), (INF, 1.0), (1.0, -INF), (beyond, 1.0), (1.0, -beyond),
                   (0.0, 0.0), (-0.0, 0.0), (4.0, 0.0), (0.0, 4.0), (1e300, 1e300)):
        assert add(out, "a centre that is refused", t, centre, rng, [0.5, NAN]) == {6}
    for centre in ((9.0, 9.0), (limit, limit), (-limit, 1.0), (2.0, 0.0), (2.0, 2.0), (8.0, 0.0),
                   (-1e-300, 2.0), (5e-324, 5e-324)):
        add(out, "a centre outside, on a side or near a corner", t, centre, rng, [0.5, NAN])
    assert add(out, "angles that are refused", t, one, rng,
               [NAN, -NAN, INF, -INF, -5e-324, -1e-300, -1.0, math.nextafter(1.0, 2.0), 2.0, 1e300]) == {8}
    turned = meshes.of_triangles([(0, 0), (-4, -4), (4, -4), (8, 8), (4, 4), (-4, 4)],
                                 [(0, 1, 2), (0, 2, 4), (2, 3, 4), (0, 4, 5), (0, 5, 1)])
    assert add(out, "equal neighbouring angles", turned, (0.0, 0.0), rng, [0.5, NAN]) == {7}
    assert add(out, "the same mesh about another centre", turned, (0.0, -1.0), rng) == {0}


def main():
    out, rng = lists.List("locate_cases.py"), random.Random(63)
    refused(out, rng)
    t = check_cases.triangle()
    assert add(out, "M3, M8", t, (1.0, 1.0), rng) == {0}
    assert add(out, "M3, other angles", t, (1.0, 1.0), rng, [0.1, 37 / 64, 0.6]) == {0}
    assert add(out, "a centre of fractions", t, (4 * (1 / 3.0), 1e-3), rng) == {0}
    assert add(out, "a subnormal centre", t, (5e-324, 1.0), rng) == {0}
    assert add(out, "the centre at an inner vertex", check_cases.hexagon(), (0.0, 0.0), rng) == {0}

    for d in (((-4, 0), (-5, 5), (0, 4)), ((0, 4), (5, 5), (4, 0)), ((4, 0), (5, -5), (0, -4)),
              ((0, -4), (-5, -5), (-4, 0))):
        corner = check_cases.triangle(*reversed(d))
        assert add(out, "a gap of 3/4", corner, (0.0, 0.0), rng) == {0}
    wide = check_cases.triangle((0, 4), (-5, 5), (-4, 1))
    assert add(out, "a gap above 3/4", wide, (0.0, 0.0), rng, [0.5]) == {7}
    wide = check_cases.triangle((0, 4), (-5, 5), (-sweep.LIMIT, 0))
    assert add(out, "a gap of 3/4", wide, (0.0, 0.0), rng) == {0}
    assert add(out, "a gap just below 3/4", wide, (0.0, WEST), rng) == {0}

    far = sweep.LIMIT
    star = [(far, 0), (5, 4), (0, 7), (-5, 5), (-far, 0), (-3, -9), (2, -8)]
    for y in (0.0, -0.0, WEST, -WEST, -5e-324, 5e-324, -1e-300, 2.0 ** -30, -2.0 ** -30):
        assert add(out, "a vertex dead west, or nearly so", meshes.rim(star), (0.0, y), rng) == {0}
    near = [(9, 0), (5, 4), (0, 7), (-5, 5), (-1, 0), (-3, -9), (2, -8)]
    assert add(out, "near west", meshes.rim(near), (0.0, WEST), rng) == {0}

    fine = [(1000, 3 * i) for i in range(-3, 9)] + [(0, 2000), (-2000, 0), (0, -2000)]
    assert add(out, "many nodes in one bucket", meshes.rim(fine), (0.0, 0.0), rng) == {0}
    assert add(out, "many nodes about east", meshes.rim(fine), (0.25, 7.5), rng) == {0}
    eight = [(4, 0), (4, 4), (0, 4), (-4, 4), (-4, 0), (-4, -4), (0, -4), (4, -4)]
    assert add(out, "an angle at every eighth", meshes.rim(eight), (0.0, 0.0), rng) == {0}
    assert add(out, "an angle at every eighth, 0.0 in place of 1.0",
               meshes.rim([(x * (far // 4), y * (far // 4)) for x, y in eight]), (0.0, WEST), rng) == {0}
    twenty = [(round(9000 * math.cos(i * math.pi / 10)), round(7000 * math.sin(i * math.pi / 10)))
              for i in range(20)]
    assert add(out, "twenty boundary vertices", meshes.rim(twenty), (100.5, -33.25), rng) == {0}
    found = 0
    while found < 20:
        spread = rng.choice([5, 30, 1000, sweep.LIMIT])
        mesh = meshes.renumbered(meshes.grown(rng, rng.randint(3, 9), spread, flips=9), rng)
        f = rng.randrange(1, mesh.faces)
        corners = sweep.face_corners(mesh, f)
        centre = tuple(sum(p[i] for p in corners) * (1 / 3.0) for i in range(2))
        sample = [a for a in angles_of(mesh, centre, rng) if rng.random() < 0.4] or [0.5]
        if add(lists.List(""), "", mesh, centre, rng, [0.5]) == {0}:
            found += 1
            add(out, "random %d" % found, mesh, centre, rng, sample)
    with_heights(out, random.Random(64))
    out.print()


def with_heights(out, rng):
    """Cases with a heights row."""
    def high(name, mesh, centre, angles=None, rows=None):
        return add_given(out, name, mesh, centre, rng, angles, rows, lists.HIGH)

    one = (1.0, 1.0)
    for name, mesh, number, _ in heights.refusals(0):
        # Rows of nodes for a million vertices are never lent: the mesh's own are too short already.
        rows = [4, 4, 16] if mesh.vertices > 100 else None
        assert high(name, mesh, one, [0.5], rows) == {number}, name
    s = heights.put(check_cases.square())
    for z in heights.BEYOND:
        low = heights.at(s, 3, z)
        rows = rows_for(s)
        assert high("a height beyond and a centre that is refused", low, (NAN, 1.0), [0.5]) == {10}
        assert high("a height beyond and a centre at a vertex", low, (4.0, 0.0), [0.5]) == {10}
        assert high("a height beyond and the centre outside", low, (9.0, 9.0), [0.5, NAN]) == {10}
        assert high("a height beyond and angles that are refused", low, one, [NAN, -1.0, 2.0]) == {10}
        for i in range(3):
            short = rows[:i] + [rows[i] - 1] + rows[i + 1:]
            assert high("a height beyond and a ring row one entry short", low, one, [0.5], short) == {2}
    assert high("a centre that is refused", s, (NAN, 1.0), [0.5]) == {6}
    assert high("the centre outside", s, (9.0, 9.0), [0.5]) == {7}
    assert high("angles that are refused", s, one, [NAN, -1.0, 2.0]) == {8}
    for more in (0, 2):
        mesh = heights.put(check_cases.hexagon(), heights.random_heights(rng, 7), more)
        assert high("heights that differ", mesh, (0.5, -0.25)) == {0}


if __name__ == "__main__":
    main()
