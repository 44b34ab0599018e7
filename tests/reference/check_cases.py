"""Meshes for the call `check`, with the refusal and place that it must answer.

    python3 check_cases.py > lists/check.txt

The named cases have their answers written here, and in heights.py, by hand, each held against sweep.py;
those of the damaged random meshes come from sweep.py.
"""

import random

import lists
import meshes
import sweep
from sweep import NEXT, PREV, FACE, ORIGIN

MOST = 4294967295


def of_faces(points, origins, faces):
    """A mesh from the half-edges' origins and the cycles of the faces, whatever they are."""
    n, edges = len(points), len(origins) // 2
    mesh = sweep.Mesh([c for p in points for c in p], [0] * n, [0] * (24 * n), [0] * (2 * n), n, edges,
                      len(faces))
    for f, cycles in enumerate(faces):
        cycles = cycles if isinstance(cycles[0], list) else [cycles]
        for around in cycles:
            for i, h in enumerate(around):
                sweep.put_half(mesh, h, around[(i + 1) % len(around)], around[i - 1], f, origins[h])
        mesh.stored[f] = cycles[0][0]
    for h, v in enumerate(origins):
        mesh.outs[v] = h
    return mesh


def triangle(*corners):
    return sweep.seed_triangle(corners or [(0, 0), (4, 0), (0, 4)], 3)


def square():
    return meshes.of_triangles([(0, 0), (4, 0), (4, 4), (0, 4)], [(0, 1, 2), (0, 2, 3)])


def hexagon():
    """Six triangles about vertex 0."""
    rim = [(4, 0), (2, 4), (-2, 4), (-4, 0), (-2, -4), (2, -4)]
    return meshes.of_triangles([(0, 0)] + rim, [(0, i + 1, (i + 1) % 6 + 1) for i in range(6)])


def row_of(mesh, tag):
    return dict(zip(lists.ROWS, mesh.rows()))[tag]


def changed(mesh, row, index, value):
    out = mesh.copy()
    row_of(out, row)[index] = value
    return out


def counted(mesh, vertices=None, edges=None, faces=None):
    out = mesh.copy()
    for name, value in (("vertices", vertices), ("edges", edges), ("faces", faces)):
        if value is not None:
            setattr(out, name, value)
    return out


def cut(mesh, row):
    """One entry of a row taken away."""
    out = mesh.copy()
    row_of(out, row).pop()
    return out


def digon_inside():
    """A triangle with a second edge between vertices 0 and 1: an inner face of two edges."""
    return of_faces([(0, 0), (4, 0), (0, 4)], [0, 1, 1, 2, 2, 0, 0, 1],
                    [[7, 5, 3], [0, 2, 4], [1, 6]])


def four_sided():
    return of_faces([(0, 0), (4, 0), (4, 4), (0, 4)], [0, 1, 1, 2, 2, 3, 3, 0],
                    [[1, 7, 5, 3], [0, 2, 4, 6]])


def outer_of_two():
    """Two triangles back to back over the edges 1-2 and 2-0, open between two edges 0-1."""
    return of_faces([(0, 0), (4, 0), (0, 4)], [0, 1, 1, 2, 2, 0, 1, 0],
                    [[1, 7], [0, 2, 4], [6, 5, 3]])


def ring_and_triangle(apart):
    """A ring of triangles about a hole, and maybe a triangle apart: three outer cycles, and then Euler's
    count is kept."""
    outer, inner = [(0, 0), (30, 0), (0, 30)], [(8, 8), (12, 8), (8, 12)]
    points, triangles = outer + inner, []
    for i in range(3):
        j = (i + 1) % 3
        triangles += [(i, j, 3 + j), (i, 3 + j, 3 + i)]
    if apart:
        points, triangles = points + [(50, 50), (54, 50), (50, 54)], triangles + [(6, 7, 8)]
    return meshes.of_triangles(points, triangles)


def shared_labels():
    """Two triangles apart whose inner faces are both called 1: V - E + F = 6 - 6 + 2."""
    origins = [0, 1, 1, 2, 2, 0, 3, 4, 4, 5, 5, 3]
    return of_faces([(0, 0), (4, 0), (0, 4), (9, 0), (13, 0), (9, 4)], origins,
                    [[[1, 5, 3], [7, 11, 9]], [[0, 2, 4], [6, 8, 10]]])


def dangling():
    """A triangle with an edge that has the outer face on both sides."""
    return of_faces([(0, 0), (4, 0), (0, 4), (-4, -4)], [0, 1, 1, 2, 2, 0, 0, 3],
                    [[1, 6, 7, 5, 3], [0, 2, 4]])


def two_fans(joined):
    """Two triangles that share vertex 0 only."""
    points = [(0, 0), (4, 1), (4, 4), (-4, -1), (-4, -4)]
    if joined:
        return meshes.of_triangles(points, [(0, 1, 2), (0, 3, 4)])
    return of_faces(points, [0, 1, 1, 2, 2, 0, 0, 3, 3, 4, 4, 0],
                    [[[1, 5, 3], [7, 11, 9]], [0, 2, 4], [6, 8, 10]])


def closed_beside():
    """A triangle and a closed tetrahedron that share the vertices 0 and 1 by name only: every rule holds
    but that turning meets every half-edge."""
    sides = [(0, 1, 3), (1, 0, 4), (0, 3, 4), (1, 4, 3)]
    number, origins, faces = {}, [0, 1, 1, 2, 2, 0], [[1, 5, 3], [0, 2, 4]]
    for t in sides:
        around = []
        for p, q in ((t[0], t[1]), (t[1], t[2]), (t[2], t[0])):
            if (q, p) in number:
                number[p, q] = number[q, p] ^ 1
            else:
                number[p, q] = len(origins)
                origins += [p, q]
            around.append(number[p, q])
        faces.append(around)
    return of_faces([(0, 0), (4, 0), (0, 4), (9, 9), (7, 5)], origins, faces)


def torus():
    """Seven vertices, each two joined, one triangle left out: only Euler's count fails."""
    triangles = [(i, (i + 1) % 7, (i + 3) % 7) for i in range(7)]
    triangles += [(i, (i + 3) % 7, (i + 2) % 7) for i in range(7)]
    points = [(i * i, i * (7 - i)) for i in range(7)]
    return meshes.of_triangles(points, triangles[1:])


def with_more_vertices(mesh, points):
    """Vertices that no half-edge starts at, with out edge 0."""
    n = mesh.vertices + len(points)
    out = meshes.with_room(mesh, n)
    for v, p in enumerate(points, mesh.vertices):
        out.positions[2 * v:2 * v + 2] = list(p)
    out.vertices = n
    return out


def split_names():
    """The torus with one half-edge at each of two vertices said to start at a new vertex: turning meets
    all that is asked, and Euler's count is kept, but origins do not agree."""
    mesh = with_more_vertices(torus(), [(0, 9), (9, 9)])
    for v, new in ((0, 7), (3, 8)):
        h = sweep.turn_about(mesh, v)[1]
        mesh.set(h, ORIGIN, new)
        mesh.outs[new] = h
    return mesh


def winding_twice():
    """Vertex 0 inside, its triangles going round it twice."""
    rim = [(4, 0), (0, 4), (-4, 0), (0, -4)] * 2
    return meshes.of_triangles([(0, 0)] + rim, [(0, i + 1, (i + 1) % 8 + 1) for i in range(8)])


def overlapping():
    """A fan of five right angles."""
    rim = [(4, 0), (0, 4), (-4, 0), (0, -4), (5, 0), (0, 5)]
    return meshes.of_triangles([(0, 0)] + rim, [(0, i, i + 1) for i in range(1, 6)])


def equal_positions():
    """Vertices 3, 5 and 6 at one position."""
    return meshes.of_triangles([(0, 0), (4, 0), (0, 4), (4, 4), (8, 0), (4, 4), (4, 4), (0, 8)],
                               [(0, 1, 2), (1, 3, 2), (1, 4, 5), (2, 6, 7)])


def mirrored(mesh):
    out = mesh.copy()
    for v in range(out.vertices):
        out.positions[2 * v] = -out.positions[2 * v]
    return out


def only(rule, mesh):
    """The mesh, which breaks this one rule and no other."""
    rules = (sweep.in_range, sweep.links_agree, sweep.faces_are_cycles, sweep.edges_have_inner_face,
             sweep.vertices_are_turned, sweep.euler)
    assert [r for r in rules if not r(mesh)] == [rule], rule
    return mesh


def named():
    """Name, mesh, number, place."""
    s, h, t = square(), hexagon(), triangle()
    yield "a triangle", t, 0, 0
    yield "a square", s, 0, 0
    yield "a hexagon", h, 0, 0
    yield "rows longer than they need be", meshes.with_room(s, 7), 0, 0
    # 1
    empty = sweep.Mesh([], [], [], [], 0, 0, 0)
    yield "no vertices, empty rows", empty, 1, 0
    yield "no vertices, rows of a triangle", counted(t, 0, 0, 0), 1, 0
    yield "one vertex", counted(t, 1), 1, 0
    yield "two vertices", counted(t, 2), 1, 0
    yield "two vertices, empty rows", counted(empty, 2), 1, 0
    yield "1,000,001 vertices", counted(t, 1000001), 1, 0
    yield "4,294,967,295 vertices", counted(t, MOST), 1, 0
    # 2
    yield "1,000,000 vertices in rows of three", counted(t, 1000000), 2, 0
    yield "three vertices, empty rows", counted(empty, 3), 2, 0
    for row in "pohf":
        yield "one entry short: " + row, cut(t, row), 2, 0
        yield "one entry short: " + row, cut(h, row), 2, 0
    yield "the last y missing, and 3 before it", cut(changed(t, "p", 0, 99999999), "p"), 2, 0
    yield "four vertices in a triangle's rows", counted(t, 4), 2, 0
    # 3
    big = sweep.LIMIT
    yield "at the limits", triangle((-big, -big), (big, -big), (big, big)), 0, 0
    yield "at the limits", triangle((big, big), (-big, big), (-big, -big)), 0, 0
    for v in range(3):
        for c in range(2):
            yield "one beyond", changed(t, "p", 2 * v + c, big + 1), 3, v
            yield "one beyond", changed(t, "p", 2 * v + c, -big - 1), 3, v
    yield "two beyond, the first named", changed(changed(h, "p", 13, big + 1), "p", 8, -2147483648), 3, 4
    yield "beyond, and a broken link", changed(changed(h, "p", 13, 2147483647), "h", 0, MOST), 3, 6
    yield "beyond, and a right turn", changed(s, "p", 2, -big - 1), 3, 1
    # 4: entries out of range
    for e in (0, 1, 5):
        yield "next out of range", changed(t, "h", 4 * e + NEXT, 6), 4, 0
        yield "prev out of range", changed(t, "h", 4 * e + PREV, 6), 4, 0
        yield "face out of range", changed(t, "h", 4 * e + FACE, 2), 4, 0
        yield "origin out of range", changed(t, "h", 4 * e + ORIGIN, 3), 4, 0
        for field in range(4):
            yield "4,294,967,295 in a half-edge", changed(t, "h", 4 * e + field, MOST), 4, 0
    yield "out edge out of range", changed(t, "o", 1, 6), 4, 0
    yield "out edge out of range", changed(t, "o", 2, MOST), 4, 0
    yield "stored edge out of range", changed(t, "f", 0, 6), 4, 0
    yield "stored edge out of range", changed(t, "f", 1, MOST), 4, 0
    # 4: counts
    yield "no edges", counted(t, edges=0), 4, 0
    yield "no faces", counted(t, faces=0), 4, 0
    yield "no edges, no faces", counted(t, edges=0, faces=0), 4, 0
    yield "the outer face alone", counted(t, faces=1), 4, 0
    yield "more edges than the rows hold", counted(t, edges=10), 4, 0
    yield "more faces than the rows hold", counted(t, faces=7), 4, 0
    for many in (MOST, MOST // 2 + 1, 1 << 29, (1 << 29) + 3):
        yield "counts far beyond the rows", counted(t, edges=many), 4, 0
        yield "counts far beyond the rows", counted(t, faces=many), 4, 0
    yield "counts far beyond the rows", counted(t, edges=MOST, faces=MOST), 4, 0
    yield "one edge more", counted(s, edges=6), 4, 0
    yield "one edge fewer", counted(s, edges=4), 4, 0
    yield "one face more", counted(s, faces=4), 4, 0
    yield "one face fewer", counted(s, faces=2), 4, 0
    yield "one vertex more", counted(meshes.with_room(s, 5), vertices=5), 4, 0
    yield "one vertex fewer", counted(s, vertices=3), 4, 0
    # 4: one rule at a time
    yield "prev does not undo next", changed(h, "h", 4 * 3 + PREV, h.next(3)), 4, 0
    yield "next does not undo prev", changed(h, "h", 4 * 3 + NEXT, h.prev(3)), 4, 0
    both = changed(changed(s, "h", NEXT, s.prev(0)), "h", PREV, s.next(0))
    yield "next and prev of one half-edge exchanged", both, 4, 0
    yield "next changes the face", changed(s, "h", 4 * s.stored[1] + FACE, 2), 4, 0
    yield "an outer half-edge called inner", changed(t, "h", 4 * 1 + FACE, 1), 4, 0
    yield "an inner half-edge called outer", changed(t, "h", FACE, 0), 4, 0
    yield "another origin", changed(h, "h", 4 * 2 + ORIGIN, 5), 4, 0
    yield "an inner face of two edges", only(sweep.faces_are_cycles, digon_inside()), 4, 0
    yield "an inner face of four edges", only(sweep.faces_are_cycles, four_sided()), 4, 0
    yield "an outer cycle of two", only(sweep.faces_are_cycles, outer_of_two()), 4, 0
    yield ("three outer cycles, Euler's count kept",
           only(sweep.faces_are_cycles, ring_and_triangle(True)), 4, 0)
    yield "two outer cycles", ring_and_triangle(False), 4, 0
    yield ("two triangles under one face number",
           only(sweep.faces_are_cycles, shared_labels()), 4, 0)
    yield ("the outer face on both sides of an edge",
           only(sweep.edges_have_inner_face, dangling()), 4, 0)
    yield ("an out edge that starts elsewhere",
           only(sweep.vertices_are_turned, changed(h, "o", 0, h.outs[1])), 4, 0)
    yield "an out edge that starts elsewhere", changed(h, "o", 6, h.outs[6] ^ 1), 4, 0
    yield "two fans that turning does not join", two_fans(False), 4, 0
    yield ("two fans that turning does not join, all other rules kept",
           only(sweep.vertices_are_turned, closed_beside()), 4, 0)
    yield ("a stored edge of another face",
           only(sweep.faces_are_cycles, changed(s, "f", 1, s.stored[2])), 4, 0)
    yield "a stored edge of the outer face", changed(s, "f", 2, s.stored[0]), 4, 0
    yield "the outer face's stored edge inside", changed(s, "f", 0, s.stored[0] ^ 1), 4, 0
    yield "Euler's count alone: a torus with a hole", only(sweep.euler, torus()), 4, 0
    yield ("vertices that no half-edge starts at, all other rules kept",
           only(sweep.vertices_are_turned, with_more_vertices(torus(), [(0, 9), (9, 9)])), 4, 0)
    yield ("a vertex under two names, all other rules kept",
           only(sweep.links_agree, split_names()), 4, 0)
    # 5
    yield "a flat face", triangle((0, 0), (2, 2), (4, 4)), 5, 1
    yield "a right-turning face", triangle((0, 0), (0, 4), (4, 0)), 5, 1
    yield "a face of one position", triangle((3, 3), (3, 3), (3, 3)), 5, 1
    yield "the second face flat", changed(s, "p", 7, 0), 5, 2
    yield "the first face flat", changed(changed(s, "p", 2, 2), "p", 3, 2), 5, 1
    yield "all faces turn right", mirrored(h), 5, 1
    yield "two faces of six, the lower named", changed(changed(h, "p", 6, 5), "p", 7, -3), 5, 2
    yield "faces 3 and 4 flat", changed(changed(h, "p", 8, 0), "p", 9, 0), 5, 3
    yield "a rule broken and a right turn", changed(triangle((0, 0), (0, 4), (4, 0)), "o", 0, 1), 4, 0
    # lawful oddities
    yield "a vertex that touches the boundary twice", two_fans(True), 0, 0
    yield "round an inner vertex twice", winding_twice(), 0, 0
    yield "a fan that overlaps itself", overlapping(), 0, 0
    yield "three vertices at one position", equal_positions(), 0, 0
    yield "another out edge", changed(s, "o", 0, next(e for e in sweep.turn_about(s, 0)
                                                    if e != s.outs[0])), 0, 0
    yield "another stored edge", changed(s, "f", 0, s.next(s.stored[0])), 0, 0
    yield "boundary vertices on a line", meshes.flat_fan(5), 0, 0
    yield "three triangles at one vertex, none sharing a side", meshes.of_triangles(
        [(0, 0), (4, 1), (4, 4), (-4, 1), (-4, -4), (1, -9), (4, -9)],
        [(0, 1, 2), (0, 3, 4), (0, 5, 6)]), 0, 0


def damaged(rng):
    """A lawful random mesh with one entry changed."""
    mesh = meshes.renumbered(meshes.grown(rng, rng.randint(3, 9), 8, flips=6), rng)
    v, e, f = mesh.counts()
    kind = rng.randrange(10)
    if kind == 0:
        return changed(mesh, "p", rng.randrange(2 * v), rng.choice([-9, 9, rng.randint(-8, 8)]))
    if kind == 1:
        return changed(mesh, "o", rng.randrange(v), rng.randrange(2 * e))
    if kind == 2:
        return changed(mesh, "f", rng.randrange(f), rng.randrange(2 * e))
    if kind == 3:
        h = rng.randrange(f)
        return changed(mesh, "f", h, mesh.next(mesh.stored[h]))
    if kind == 4:
        x = rng.randrange(v)
        return changed(mesh, "o", x, rng.choice(sweep.turn_about(mesh, x)))
    if kind == 5:
        return mesh
    field = rng.randrange(4)
    most = (2 * e, 2 * e, f, v)[field]
    return changed(mesh, "h", 4 * rng.randrange(2 * e) + field, rng.randrange(most + 1))


def main():
    out, rng = lists.List("check_cases.py"), random.Random(31)
    for name, mesh, number, place in named():
        answer = sweep.check(mesh)
        assert answer == (number, place), (name, answer)
        if number != 2 and 3 <= mesh.vertices <= 9 and len(mesh.outs) >= mesh.vertices:
            padded = lists.with_past(mesh, max(len(mesh.outs), mesh.vertices))
            if sweep.check(padded) == answer:
                mesh = padded
        out.remark(name)
        out.add(*lists.mesh_lines(mesh), lists.line("r", answer))
    for i in range(220):
        mesh = lists.with_past(damaged(rng))
        out.remark("damaged %d" % i)
        out.add(*lists.mesh_lines(mesh), lists.line("r", sweep.check(mesh)))
    with_heights(out, random.Random(32))
    out.print()


def with_heights(out, rng):
    """Cases with a heights row."""
    import heights  # which makes its meshes with this module
    for name, mesh, number, place in heights.refusals(0):
        answer = sweep.check(mesh)
        assert answer == (number, place), (name, answer)
        out.remark(name)
        out.add(*lists.mesh_lines(mesh, lists.HIGH), lists.line("r", answer))
    for i in range(40):
        mesh = damaged(rng)
        mesh = heights.put(mesh, heights.random_heights(rng, mesh.vertices))
        if i % 4 == 0:
            mesh = heights.at(mesh, rng.randrange(mesh.vertices), rng.choice(heights.BEYOND))
        out.remark("damaged, with heights %d" % i)
        out.add(*lists.mesh_lines(mesh, lists.HIGH), lists.line("r", sweep.check(mesh)))


if __name__ == "__main__":
    main()
