"""Meshes for the call `finish`, with the mesh, the counts and the refusal that it must leave.

    python3 finish_cases.py > lists/finish.txt

The answers come from sweep.py; those of accepted cases are held against what demand 3 claims of a
finished mesh.
"""

import random

import check_cases
import heights
import line_cases
import lists
import meshes
import selfcheck
import sweep

ENOUGH = 1000


def need(mesh):
    """The least number of pending entries, 8 or more, with which a finish is not refused 9."""
    for pending in range(sweep.LEAST_PENDING, ENOUGH):
        # A short list is refused early, so trying one after another is cheap.
        if sweep.finish(mesh.copy(), sweep.Lent(pending=[7] * pending))[0] != 9:
            return pending
    raise ValueError


def add(out, name, mesh, pending):
    return add_given(out, name, lists.with_past(mesh, max(mesh.vertices, len(mesh.outs))), pending, "mpohf")


def add_given(out, name, given, pending, tags):
    """With rows just as they are given; with lists.HIGH for tags the heights are written too."""
    after, lent = given.copy(), sweep.Lent(pending=[7] * pending)
    answer = sweep.finish(after, lent)
    out.remark(name)
    out.add(*lists.mesh_lines(given, tags), lists.line("q", (pending, 7)))
    if answer[0] in (0, 9):
        selfcheck.standing(after)
        assert not any(lent.pending) and after.left_out == 0
        selfcheck.untouched(after.rows(), given.rows(), after.counts())
        out.add(*lists.mesh_lines(after, tags.upper()))
        assert after.heights == given.heights
    else:
        assert after.rows() == given.rows() and set(lent.pending) <= {7}
    if answer[0] == 0:
        selfcheck.finished(after)
    out.add(lists.line("r", answer))
    return answer


def both_sides_of_full(out, name, mesh):
    """With just enough pending entries, and with one fewer where that may be lent."""
    n = need(mesh)
    answer = add(out, "%s, %d entries" % (name, n), mesh, n)
    assert answer[0] == 0
    if n > sweep.LEAST_PENDING:
        assert add(out, "%s, %d entries" % (name, n - 1), mesh, n - 1)[0] == 9
    if n > sweep.LEAST_PENDING + 1:
        assert add(out, "%s, 8 entries" % name, mesh, 8)[0] == 9


def refused(out):
    t, s = check_cases.triangle(), check_cases.square()
    flat = check_cases.triangle((0, 0), (2, 2), (4, 4))
    add(out, "two vertices", check_cases.counted(t, 2), 8)
    add(out, "seven pending entries", t, 7)
    add(out, "no pending entries", t, 0)
    for row in "pohf":
        given = check_cases.cut(s, row)
        out.remark("one entry short: " + row)
        out.add(*lists.mesh_lines(given), lists.line("q", (8, 7)),
                lists.line("r", sweep.finish(given, sweep.Lent(pending=[7] * 8))))
    add(out, "seven pending entries and a coordinate beyond", check_cases.changed(t, "p", 3, 1 << 25), 7)
    add(out, "a coordinate beyond", check_cases.changed(t, "p", 3, 1 << 25), 8)
    add(out, "a broken link", check_cases.changed(s, "h", 0, 9), 8)
    add(out, "a flat face", flat, 8)


def main():
    out, rng = lists.List("finish_cases.py"), random.Random(52)
    refused(out)
    add(out, "a triangle: nothing to do", check_cases.triangle(), 8)
    add(out, "a square: four on a circle keep their diagonal", check_cases.square(), 8)
    for name, corners, added, answer in SMALL:
        assert add(out, name, grown_by(corners, added), 8) == (0, 0) + answer, name
    for n in (4, 6, 9, 13, 20, 30):
        add(out, "zigzag arms of %d" % n, meshes.zigzag_arms(n), 8)
    for n in (2, 5, 9):
        add(out, "an unsettled fan of %d" % n, unsettled_fan(n), 8)
    for n in (5, 7, 8, 9, 12):
        both_sides_of_full(out, "a corner beside a fan of %d" % n, meshes.corner_beside_fan(n))
    for mesh in (check_cases.two_fans(True), check_cases.winding_twice(), check_cases.overlapping(),
                 check_cases.equal_positions(), check_cases.hexagon()):
        both_sides_of_full(out, "a lawful oddity", mesh)
    pinched = meshes.of_triangles([(0, 0), (4, 1), (4, 4), (-4, 1), (-4, -4), (1, -9), (4, -9)],
                                  [(0, 1, 2), (0, 3, 4), (0, 5, 6)])
    both_sides_of_full(out, "three fans at a vertex", pinched)
    for i in range(24):
        mesh = meshes.grown(rng, rng.randint(4, 11), rng.choice([4, 10, 1000, sweep.LIMIT]), flips=30)
        both_sides_of_full(out, "random %d" % i, meshes.renumbered(mesh, rng))
    found = 0
    while found < 14:  # random meshes that fill eight entries
        mesh = meshes.grown(rng, rng.randint(9, 14), rng.choice([10, 100, 10000]), flips=60, closing=0.1)
        mesh = meshes.renumbered(mesh, rng)
        if sweep.finish(mesh.copy(), sweep.Lent(pending=[7] * 8))[0] == 9:
            found += 1
            both_sides_of_full(out, "filling %d" % found, mesh)
    with_heights(out, random.Random(53))
    assert line_cases.add_finishes(out, add, random.Random(54)) > 128
    out.print()


def with_heights(out, rng):
    """Cases with a heights row. A finish adds no vertex, so it leaves the row as it was."""
    high = lambda name, mesh, pending: add_given(out, name, mesh, pending, lists.HIGH)
    for name, mesh, number, place in heights.refusals(0):
        assert high(name, mesh, 8)[:2] == (number, place), name
    low = heights.at(heights.put(check_cases.square()), 1, -heights.LIMIT - 1)
    assert high("a height beyond and seven pending entries", low, 7)[0] == 2
    for name, corners, added, answer in SMALL:
        mesh = grown_by(corners, added)
        mesh = heights.put(mesh, heights.random_heights(rng, mesh.vertices))
        assert high(name + ", with heights", mesh, 8) == (0, 0) + answer, name
    for n, pending, number in ((5, 10, 9), (5, 11, 0), (7, 8, 9)):
        mesh = meshes.corner_beside_fan(n)
        mesh = heights.put(mesh, heights.random_heights(rng, mesh.vertices), 2)
        assert high("a corner beside a fan of %d, with heights, %d entries" % (n, pending), mesh,
                    pending)[0] == number
    for mesh in (check_cases.overlapping(), check_cases.equal_positions(), meshes.zigzag_arms(6)):
        mesh = heights.put(mesh, heights.random_heights(rng, mesh.vertices))
        assert high("with heights", mesh, 64)[0] == 0
    for i in range(12):
        mesh = meshes.grown(rng, rng.randint(4, 11), rng.choice([4, 1000, sweep.LIMIT]), flips=30)
        mesh = meshes.renumbered(mesh, rng)
        mesh = heights.put(mesh, heights.random_heights(rng, mesh.vertices), i % 3)
        high("random, with heights %d" % i, mesh, 8 if i % 2 else 64)


# A triangle, the vertices added beside its half-edges, and the answer: faces, convexity flips, closing flips.
SMALL = (
    ("M5's two triangles: one closing flip", [(0, 0), (4, 0), (2, 1)], [(1, (2, -1))], (0, 0, 1)),
    ("a dart: one face closes its reflex corner", [(3, 0), (8, 0), (1, 8)], [(1, (2, -8))], (1, 0, 0)),
    ("four on a circle, no square", [(-4, -3), (4, -3), (0, 5)], [(1, (0, -5))], (0, 0, 0)),
    ("a pass that flips and leaves a left corner, and a second pass", [(0, 0), (4, 0), (0, 4)],
     [(1, (-2, -6)), (5, (-1, -2))], (2, 1, 0)),
    ("two closing turns that flip", [(0, 0), (8, 0), (0, 8)], [(1, (4, -2)), (3, (6, 6))], (0, 0, 2)),
)


def grown_by(corners, added):
    mesh = sweep.seed_triangle(corners, 3 + len(added))
    for e, point in added:
        sweep.create_new_face_adjacent_to_edge(mesh, e, point)
    return mesh


def unsettled_fan(triangles):
    """A fan whose circles hold the neighbours' far vertices."""
    mesh = meshes.flat_fan(triangles)
    mesh = meshes.with_room(mesh, mesh.vertices + 1)
    e = next(e for e in sweep.boundary(mesh) if mesh.to(e) == 0)
    sweep.create_new_face_adjacent_to_edge(mesh, e, (1, -1))
    return mesh


if __name__ == "__main__":
    main()
