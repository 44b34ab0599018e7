"""Checks of the reference itself: the listing of 01 and Change 2, M1 to M10, rare cases, volumes, areas, quotes, bare
points, and an adversarial campaign of whole runs that asserts what demand 3 claims of them, what the search and the insertion
of skipped points must satisfy, what heights must and must not change, and what quotes and commits have of a step.

    python3 selfcheck.py [seconds of campaign, 20 if none is given] [seed]
"""

import math
import random
import sys
import time

import hull
import meshes
import sweep
import volume_cases

SAMPLE = b"S 0 0 4 0 0 4\nC 1 1\nP 4 4\nP 2 2\nP 4 4\nP 1 1\n"
SAMPLE_OUT = (b"p 0 1 3 1 0\np 1 7 4 2 0\np 2 2 0 0 0\np 3 7 5 2 0\nt 6 11 6 32 0 0 0\n")
PLENTY = 1 << 30  # pending entries that are never filled


def run_of(seed, centre, points, pending=4096):
    n = seed.vertices + len(points)
    mesh, lent = meshes.with_room(seed, n), sweep.lent_for(n, pending, len(points))
    return mesh, lent, sweep.run(mesh, lent, centre, points)


def step_fates(seed, centre, points):
    """The fates that the steps of a run give, 3 to 5 among them."""
    mesh = meshes.with_room(seed, seed.vertices + len(points))
    return [sweep.one_step(mesh, p, centre, PLENTY)[0] for p in points]


def marked():
    """M1 to M10."""
    o = (0.0, 0.0)
    for p, a in (((-4, 0), 1.0), ((0, 4), 0.25), ((4, 0), 0.5), ((0, -4), 0.75), ((4, 4), 0.375),
                 ((-4, -4), 0.875)):
        assert sweep.pseudo_angle(p, o) == a, "M1"
    assert sweep.pseudo_angle((-16777216, 0), (0.0, -2.0 ** -40)) == 0.0, "M2"
    corners = [(0, 0), (4, 0), (0, 4)]
    seed = sweep.seed_triangle(corners, 3)
    assert [sweep.pseudo_angle(p, (1.0, 1.0)) for p in corners] == [0.875, 0.5625, 0.1875], "M3"
    assert ([a for a, _ in sweep.boundary_angles(seed, (1.0, 1.0))] == [0.5625, 0.875, 0.1875]), "M3"
    mesh, _, answer = run_of(seed, (1.0, 1.0), [(4, 4), (2, 2), (4, 4), (1, 1)])
    assert answer[0] == 0 and sweep.height_sum(mesh) == 1248, "M4"

    five = sweep.seed_triangle([(0, 0), (4, 0), (2, 1)], 4)
    assert sweep.incircle((0, 0), (4, 0), (2, 1), (2, -1)) == 24, "M5"
    before = five.copy()
    sweep.create_new_face_adjacent_to_edge(before, 1, (2, -1))
    assert sweep.height_sum(before) == 168, "M5"
    lent = sweep.lent_for(4, 8)
    assert sweep.step(five, lent, (2.0, 0.5), (2, -1)) == (0, 0, (1, 3, 1, 1)), "M5"
    assert sweep.height_sum(five) == 144, "M5"

    big = sweep.seed_triangle([(0, 0), (16777216, 0), (0, 16777216)], 3)
    assert sweep.check(big) == (0, 0), "M6"
    big.positions[2] += 1
    assert sweep.check(big) == (3, 1), "M6"
    two = sweep.seed_triangle(corners, 3)
    two.vertices = 2
    assert sweep.check(two) == (1, 0), "M7"
    assert sweep.locate(seed, sweep.lent_for(3, 8), (1.0, 1.0), 1.0)[0] == 0, "M8"
    assert sweep.locate(seed, sweep.lent_for(3, 8), (1.0, 1.0), float("nan"))[:2] == (8, 0), "M8"
    assert run_of(seed, (9.0, 9.0), [])[2][:2] == (7, 0), "M9"
    mesh, _, answer = run_of(five, (2.0, 0.5), [])
    alone = five.copy()
    assert answer == sweep.finish(alone, sweep.lent_for(4, 8)) and alone.rows() == mesh.rows(), "M10"


def examples():
    """Rare cases, each at its smallest."""
    tri = sweep.seed_triangle
    seed = tri([(0, 0), (0, -1), (1, 1)], 3)
    _, lent, answer = run_of(seed, (1.0, -1.0), [(-2, -1)])
    assert step_fates(seed, (1.0, -1.0), [(-2, -1)]) == [4], "fate 4"
    assert answer[0] == 0 and lent.answers == [8, 3, 2, 0], "fate 4, then 8"

    square = meshes.of_triangles([(0, 0), (4, 0), (4, 4), (0, 4)], [(0, 1, 2), (0, 2, 3)])
    mesh, lent, answer = run_of(square, (2.0, 1.0), [(1, 1), (2, 1), (0, 0), (0, 2), (1, 1), (0, 4)])
    assert answer[0] == 0 and lent.answers[0::sweep.WORDS] == [7, 6, 2, 7, 9, 2], "fates 2, 6, 7, 9"
    assert lent.answers[2::sweep.WORDS] == [2, 2, 0, 1, 0, 0] and mesh.counts() == (7, 13, 8)

    mesh, lent, answer = run_of(tri([(-6, 4), (0, -6), (6, 4)], 3), (6.0, -5.0),
                                [(6, 0), (12, -2), (6, 4)])
    assert answer[0] == 0 and lent.answers[0::sweep.WORDS] == [1, 1, 1], "a vertex at an existing position"
    assert mesh.at(2) == mesh.at(5) == (6, 4)
    ring = [mesh.at(mesh.origin(e)) for e in sweep.boundary(mesh)]
    n = len(ring)
    corners = [(ring[i], ring[(i + 1) % n], ring[(i + 2) % n]) for i in range(n)]
    assert any(a == c or (sweep.orient2d(a, b, c) == 0
                          and (b[0] - a[0]) * (c[0] - b[0]) + (b[1] - a[1]) * (c[1] - b[1]) < 0)
               for a, b, c in corners), "turns straight back"

    mesh = tri([(-3, 3), (6, -6), (-3, 9)], 5)
    for p in ((-18, 12), (-9, 6)):
        sweep.one_step(mesh, p, (0.0, 2.0), 4096)
    assert sweep.convexity_passes(mesh, 4096)[1] == 3, "one extra pass"

    seed = tri([(-1, 0), (1, -1), (0, 0)], 5)
    centre = (-0.5, 0.0)
    assert sweep.strict(sweep.boundary_angles(seed, centre))
    assert sweep.one_step(seed, (1, 0), centre, 8)[0] == 1
    angles = sweep.boundary_angles(seed, centre)
    assert sweep.sound(angles) and not sweep.strict(angles), "sound but not strict"
    assert sweep.one_step(seed, (3, 5), centre, 8)[0] == 1

    for triangles, pending, number in ((7, 8, 0), (8, 8, 9), (8, 9, 0), (9, 9, 9)):
        seed = meshes.flat_fan(triangles)
        _, _, answer = run_of(seed, (70.0, 3.0), [(1, -1)], pending)
        assert answer[0] == number, "a fan of n triangles needs n + 1 pending entries"


def heights():
    """Change 1 at its smallest: a wedge over a triangle whose volume is known, and the rounding."""
    wedge = sweep.seed_triangle([(0, 0), (3000, 0), (0, 2000)], 3)
    wedge.heights = [1000, 1000, 1000]  # a prism of 3 m² and 1 m
    assert sweep.volume(wedge, 0) == (0, 0, 0, 18 * 10 ** 9, 3)
    wedge.heights = [1000, 0, 0]  # a third of it
    assert sweep.volume(wedge, 0) == (0, 0, 0, 6 * 10 ** 9, 1)
    assert sweep.volume(wedge, 1000) == (0, 0, (1 << 64) - 1, (1 << 64) - 12 * 10 ** 9, -2)
    assert sweep.volume(wedge, 1048577)[:2] == (10, 0)
    assert [sweep.cubic_metres(h * 3 * 10 ** 9) for h in (-7, -5, -3, -2, -1, 0, 1, 2, 3, 5, 7)] == [
        -4, -2, -2, -1, 0, 0, 0, 1, 2, 2, 4]
    wedge.heights[1] = -1048577
    assert sweep.check(wedge) == (10, 0)


def areas():
    """An area total past 64 bits, which no list has, and its neighbours below."""
    for rim, odd, halves in ((1 << 15, False, (1, 0)), (1 << 15, True, (0, (1 << 64) - (1 << 26) + 1)),
                             (1 << 16, True, (1, (1 << 64) - (1 << 26) + 1))):
        assert sweep.area_total(volume_cases.often_round(rim, odd)) == (0, 0) + halves, rim


def quotes():
    """Change 5 at its smallest: 01's sample, asked and committed point by point."""
    mesh, centre = sweep.seed_triangle([(0, 0), (4, 0), (0, 4)], 6), (1.0, 1.0)
    told = ((4, 4), (0, 4, 4, 9, 1, 1), (1, 3, 1, 0)), ((2, 2), (1, 2, 2, 9, 3, 0), (3, 0, 0, 0)), (
        (4, 4), (1, 4, 4, 9, 2, 0), (2, 0, 0, 0)), ((1, 1), (1, 1, 1, 9, 5, 0), (5, 0, 0, 0))
    for point, quote, answer in told:
        assert sweep.ask(mesh, sweep.lent_for(5, 8), centre, point, 9) == (0, 0, quote)
        assert sweep.commit(mesh, sweep.lent_for(5, 8), centre, point, quote, 9) == (0, 0, answer)
    assert sweep.ask(mesh, sweep.lent_for(4, 8), centre, (9, 9))[0] == 2, "the point is counted"
    mesh.changes = sweep.MOST_CHANGES - 1
    last = sweep.ask(mesh, sweep.lent_for(5, 8), centre, (-4, 9))
    assert sweep.commit(mesh, sweep.lent_for(5, 8), centre, (-4, 9), last[2])[0] == 0
    assert mesh.changes == sweep.MOST_CHANGES and mesh.vertices == 5
    for point, fate, faces in (((-4, 9), 2, 0), ((9, -4), 1, 1)):
        assert sweep.ask(mesh, sweep.lent_for(6, 8), centre, point) == (12, 0, sweep.NO_QUOTE)
        quote = (sweep.MOST_CHANGES, *point, 0, fate, faces)
        assert sweep.commit(mesh, sweep.lent_for(6, 8), centre, point, quote)[0] == 12
        assert sweep.commit(mesh, sweep.lent_for(6, 8), centre, point, last[2])[0] == 11
    for outside, number, changes in (((9.0, 99.0), 7, sweep.MOST_CHANGES), (centre, 0, 0)):
        assert sweep.run(mesh, sweep.lent_for(6, 8, 1), outside, [(9, -4)])[0] == number and mesh.changes == changes


def bulk_load_of(points, pending=64, heights=None):
    n = len(points)
    mesh, lent = meshes.with_room(sweep.Mesh([], [], [], [], 0, 0, 0), n), sweep.lent_for(n, pending, n)
    return sweep.bulk_load(mesh, lent, points, heights), mesh, answers_of(lent.answers)


def bare():
    """Change 6 at its smallest: no points, one, a line, 01's sample without its seed, and refusal 1, which no list has."""
    assert bulk_load_of([])[0] == (0, 0, 0, 0, 0, 0, 1, 0, 0, 0)
    answer, mesh, answers = bulk_load_of([(3, 4), (3, 4)], heights=[5, 6])
    assert answer == (0, 0, 1, 0, 1, 0, 1, 0, 0, 0) and answers == [(1, 0, 0, 0), (9, 0, 0, 0)] and mesh.heights[0] == 6
    answer, mesh, answers = bulk_load_of([(0, 0), (4, 0), (1, 0)])
    assert answer == (0, 0, 3, 2, 1, 0, 1, 0, 0, 0) and mesh.outs[:3] == [3, 1, 2] and mesh.stored[0] == 0
    assert mesh.halves[:16] == [1, 3, 0, 2, 2, 0, 0, 1, 3, 1, 0, 2, 0, 2, 0, 0]
    answer, mesh, answers = bulk_load_of([(0, 0), (4, 0), (0, 4), (4, 4), (2, 2), (4, 4), (1, 1)])
    assert answer == (0, 0, 6, 11, 7, 0, 0, 0, 0, 0) and sweep.height_sum(mesh) == 1248
    assert answers == [(1, 0, 0, 0), (1, 1, 0, 0), (1, 2, 1, 0), (1, 3, 1, 0), (7, 4, 2, 0), (2, 0, 0, 0), (7, 5, 2, 0)]
    third = 11184811 / 33554432
    assert sweep.hull_centre(sweep.seed_triangle([(0, 0), (4, 0), (0, 4)], 3)) == (4.0 * third, 4.0 * third)
    rows = sweep.Mesh([], [], [], [], 0, 0, 0)
    for count, number in ((1000000, 2), (1000001, 1)):
        assert sweep.bulk_load(rows, sweep.lent_for(0, 8), [(1 << 30, 0)] * count)[:2] == (number, 0)


# ---------------------------------------------------------------------------------------------------
# Demand 3 on whole runs


def corners_of(mesh):
    """01: "a corner is the origins of e, of next(e) and of the one after, for each e of face 0" """
    for e in sweep.boundary(mesh):
        n = mesh.next(e)
        yield tuple(mesh.at(mesh.origin(h)) for h in (e, n, mesh.next(n)))


def standing(mesh):
    """Linked, left-turning, its areas adding up."""
    assert sweep.check(mesh) == (0, 0), "rules"
    assert sweep.inner_area(mesh) == sweep.boundary_area(mesh), "areas"


def finished(mesh):
    standing(mesh)
    assert not any(sweep.left(*c) for c in corners_of(mesh)), "left corner"
    for f in range(1, mesh.faces):
        for e in sweep.cycle(mesh.next, mesh.stored[f], 3):
            far = mesh.far(sweep.rev(e))
            if far is not None:
                assert sweep.incircle(*sweep.face_corners(mesh, f), mesh.at(far)) <= 0, "circle"


def went_in(full, number, place):
    """The points of fates 1 and 6 to 9 in the order in which they go in, up to the one that 9 names; `full` are
    the answers of the same run with pending entries in plenty."""
    steps = [i for i, a in enumerate(full) if a[0] == 1]
    skipped = [i for i, a in enumerate(full) if a[0] in (6, 7, 8, 9)]
    if number == 0:
        return steps + skipped
    if place == len(full):  # in the convexity passes
        return steps
    if full[place][0] == 1:
        return steps[:steps.index(place) + 1]
    return steps + skipped[:skipped.index(place) + 1]


def answers_told(full, number, place):
    """The answers that stand. 01: those of a step's index on are 0; Change 2: "A 9 met here names that point's
    index, whose answer is 0; after any 9 a skipped point not yet in answers 0, and from convexity on the rest
    stand." """
    stand = set(went_in(full, number, place))
    in_step = number == 9 and place < len(full) and full[place][0] == 1
    stand |= {i for i, a in enumerate(full) if a[0] == 2 and not (in_step and i > place)}
    if number == 9:
        stand.discard(place)
    return [word for i, a in enumerate(full) for word in (a if i in stand else (0, 0, 0, 0))]


def answers_of(row):
    return [sweep.answer_at(row, i) for i in range(len(row) // sweep.WORDS)]


def plenty(seed, centre, points):
    """The answers of the run with pending entries in plenty."""
    _, lent, answer = run_of(seed, centre, points, 1 << 16)
    assert answer[0] == 0
    return answers_of(lent.answers)


def vertices_kept(mesh, seed, points, full, answer, heights=None):
    """The vertices are the seed's and the points that went in, each at its position, numbered as they went in.
    A height is the vertex's own, or that of the last point of fate 9 that met it. `full` as in went_in."""
    zs = heights or [0] * len(points)
    expected = [[seed.at(v), seed.heights[v]] for v in range(seed.vertices)]
    for i in went_in(full, *answer[:2]):
        fate, vertex, faces, flips = full[i]
        if fate == 9:
            assert expected[vertex][0] == points[i] and (faces, flips) == (0, 0), "fate 9"
            expected[vertex][1] = zs[i]
        else:
            assert vertex == len(expected), "vertex number"
            assert faces == 2 if fate == 6 else faces in (1, 2) if fate == 7 else faces >= 1, "faces"
            expected.append([points[i], zs[i]])
    assert all(a == (2, 0, 0, 0) for a in full if a[0] not in (1, 6, 7, 8, 9)), "fate 2"
    assert [[mesh.at(v), mesh.heights[v]] for v in range(mesh.vertices)] == expected, "vertices"


def untouched(rows, before, counts):
    """Entries past the counts in use."""
    v, e, f = counts
    for row, was, used in zip(rows, before, (2 * v, v, 8 * e, f, v)):
        assert row[used:] == was[used:], "entries past the counts"


def one_pass_with_counter(mesh, capacity):
    """The pass without a stack: a counter, for the stack is a chain of boundary edges."""
    length, current, depth, flips = 2 * mesh.edges - 3 * (mesh.faces - 1), mesh.stored[0], 0, 0
    for _ in range(length + 1):
        current, depth = mesh.next(current), depth + 1
        while depth >= 2:
            e2 = mesh.prev(current)
            e1 = mesh.prev(e2)
            if not sweep.left(mesh.at(mesh.origin(e1)), mesh.at(mesh.to(e1)), mesh.at(mesh.to(e2))):
                break
            sweep.create_single_face_between_edge_and_next(mesh, e1)
            depth -= 1
            flips += sweep.legalize_edges_after_removal(mesh, [e1 // 2, e2 // 2], capacity)
    return flips


def steps_watched(seed, centre, points, pending, tally):
    """The run's steps once more, one by one, with the carried ring beside them and the height sum's
    fall held against the flips; answers the mesh that they leave, and the skipped points."""
    mesh, skipped = meshes.with_room(seed, seed.vertices + len(points)), []
    carried = hull.Hull(mesh, centre)
    carried.agree(mesh)
    for p in points:
        fate, edge = sweep.fate_of(mesh, p, centre)
        tally["step's fate %d" % fate] = tally.get("step's fate %d" % fate, 0) + 1
        if fate in (3, 4, 5):
            skipped.append(p)
        if fate != 5:
            assert carried.get(sweep.pseudo_angle(p, centre))[0] == edge, "located"
        if fate != 1:
            continue
        angle = sweep.pseudo_angle(p, centre)
        chain = sweep.chain_of(mesh, edge, p, angle, centre)
        bare = mesh.copy()
        before, counts = mesh.copy(), mesh.counts()
        vertex, faces, flips = sweep.insertion(mesh, edge, p, centre, pending)
        assert faces == len(chain) and mesh.counts() == (counts[0] + 1, counts[1] + faces + 1,
                                                         counts[2] + faces), "counts of a step"
        sweep.create_new_face_adjacent_to_edge(bare, edge, p)  # the same faces without flips
        for e in reversed(chain[:chain.index(edge)]):
            sweep.create_single_face_between_edge_and_next(bare, e)
        for _ in chain[chain.index(edge) + 1:]:
            out = next(e for e in sweep.turn_about(bare, vertex) if bare.face(e) == 0)
            sweep.create_single_face_between_edge_and_next(bare, out)
        assert sweep.height_sum(bare) - sweep.height_sum(mesh) >= flips, "height"
        assert sweep.sound(sweep.boundary_angles(mesh, centre))
        carried.insert_vertex(mesh, vertex)
        size, buckets, nodes = carried.agree(mesh)
        n = seed.vertices + len(points)
        assert nodes <= n + 1 and buckets <= max(16, n), "ring rows"
        tally["most buckets"] = max(tally.get("most buckets", 0), buckets)
    return mesh, skipped


def convexity_watched(mesh, pending, tally):
    """The convexity passes once more, one by one."""
    twin = mesh.copy()
    flips = 0
    passes = 0
    while True:
        faces = mesh.faces
        flips += sweep.fix_convexity(mesh, pending)
        one_pass_with_counter(twin, pending)
        assert mesh.rows() == twin.rows() and mesh.counts() == twin.counts(), "stack and counter"
        passes += 1
        if mesh.faces == faces:
            break
    tally["most passes"] = max(tally.get("most passes", 0), passes)
    return flips


def closing_watched(mesh):
    height = sweep.height_sum(mesh)
    closing = sweep.closing_pass(mesh)
    assert height - sweep.height_sum(mesh) >= closing, "height"
    return closing


def place_holds(mesh, fate, met, p):
    """What the search answers is true of the mesh, also where the mesh overlaps itself."""
    if fate == 9:
        return mesh.at(met) == p
    if fate == 8:
        return mesh.face(met) == 0 and sweep.side(mesh, met, p) > 0
    if fate == 7:
        beside = [mesh.next(met), mesh.prev(met)]
        return (mesh.face(met) != 0 and sweep.side(mesh, met, p) == 0
                and all(sweep.side(mesh, e, p) > 0 for e in beside))
    return all(sweep.side(mesh, e, p) > 0 for e in sweep.cycle(mesh.next, mesh.stored[met], 3))


def without_flips(mesh, p):
    """The insertion of a point with nothing legalized."""
    bare, legalize_edge = mesh.copy(), sweep.legalize_edge
    sweep.legalize_edge = lambda *_: 0
    try:
        sweep.insert_skipped(bare, p, 0, PLENTY)
    finally:
        sweep.legalize_edge = legalize_edge
    return bare


def insertions_watched(mesh, skipped, pending, tally):
    """The insertions once more, one by one: what the search answers, the counts, the boundary, and the height
    sum's fall held against the flips."""
    for p in skipped:
        fate, met = sweep.search(mesh, p)
        assert place_holds(mesh, fate, met, p) and place_holds(mesh, *sweep.scan(mesh, p), p), "search"
        if fate != sweep.scan(mesh, p)[0]:
            tally["search and scan differ"] = tally.get("search and scan differ", 0) + 1
        bare, (v, e, f), area = without_flips(mesh, p), mesh.counts(), sweep.boundary_area(mesh)
        outline = len(sweep.boundary(mesh))
        answer = sweep.insert_skipped(mesh, p, 0, pending)
        faces, flips = answer[2:]
        assert answer[:2] == (fate, met if fate == 9 else v)
        if fate == 9:
            assert mesh.counts() == (v, e, f) and mesh.rows() == bare.rows()
            continue
        at_boundary = 2 * (e + 1 + faces) - 3 * (f - 1 + faces)
        assert mesh.counts() == (v + 1, e + 1 + faces, f + faces), "counts of an insertion"
        assert len(sweep.boundary(mesh)) == at_boundary
        assert fate == 8 or at_boundary == outline + 2 - faces and area == sweep.boundary_area(mesh), "boundary"
        standing(bare)
        standing(mesh)
        assert sweep.height_sum(bare) - sweep.height_sum(mesh) >= flips, "height"
        assert not any(sweep.left(*c) for c in corners_of(mesh)), "a left corner after an insertion"


def run_watched(seed, centre, points, pending, tally):
    """The whole run once more; answers the mesh that it leaves, its convexity flips and its closing flips."""
    mesh, skipped = steps_watched(seed, centre, points, pending, tally)
    standing(mesh)
    flips = convexity_watched(mesh, pending, tally)
    insertions_watched(mesh, skipped, pending, tally)
    faces = mesh.faces
    flips += convexity_watched(mesh, pending, tally)
    assert mesh.faces == faces, "faces after the insertions"
    return mesh, flips, closing_watched(mesh)


def at_heights(seed, centre, points, pending, plain, rng):
    """The same run with heights: but for the heights row nothing else is answered or left, and the row has
    the heights that vertices_kept tells, also where the run is refused 9."""
    n = seed.vertices + len(points)
    most = rng.choice([2, 1000, sweep.HEIGHT_LIMIT])
    zs = [rng.randint(-most, most) for _ in points]
    mesh, lent = meshes.with_room(seed, n), sweep.lent_for(n, pending, len(points))
    mesh.heights[:] = [rng.randint(-most, most) for _ in range(seed.vertices)] + [7654321] * len(points)
    given = mesh.copy()
    answer = sweep.run(mesh, lent, centre, points, zs)
    flat, flat_lent, flat_answer = plain
    assert answer == flat_answer and lent.answers == flat_lent.answers, "heights and answers"
    assert mesh.rows()[:4] == flat.rows()[:4] and mesh.counts() == flat.counts(), "heights and links"
    if answer[0] in (0, 9):
        vertices_kept(mesh, given, points, plenty(seed, centre, points), answer, zs)
    kept = mesh.vertices
    assert mesh.heights[kept:] == given.heights[kept:], "the heights row"
    return mesh


def volumes(mesh, rng):
    """What volumes must satisfy, whatever the mesh."""
    most = sweep.HEIGHT_LIMIT
    level, area = rng.randint(-most, most - 1), sweep.inner_area(mesh)
    six = sweep.six_volumes(mesh, level)
    number, place, high, low, metres = sweep.volume(mesh, level)
    assert (number, place) == (0, 0) and (high - (high >> 63 << 64)) * (1 << 64) + low == six, "halves"
    rounded = metres * sweep.CUBIC_METRE
    off = 2 * abs(rounded - six)
    assert off < sweep.CUBIC_METRE or off == sweep.CUBIC_METRE and metres % 2 == 0, "the nearest"
    assert sweep.six_volumes(mesh, level + 1) == six - 3 * area, "the level one higher"
    twin = meshes.renumbered(meshes.with_room(mesh, mesh.vertices), rng)
    assert sweep.volume(twin, level) == sweep.volume(mesh, level), "other numbers"
    assert sweep.area_total(mesh) == sweep.area_total(twin) == (0, 0) + divmod(area, 1 << 64), "the area total"
    twin.heights = [2 * level - z for z in twin.heights]
    assert sweep.six_volumes(twin, level) == -six, "mirrored at the level"
    twin.heights = [level] * len(twin.heights)
    assert sweep.six_volumes(twin, level) == 0, "every height at the level"


def whole_run(seed, centre, points, pending, tally, rng):
    mesh, lent, answer = run_of(seed, centre, points, pending)
    high = at_heights(seed, centre, points, pending, (mesh, lent, answer), rng)
    if answer[0] in (0, 9):
        volumes(high, rng)
    key = "refused %d" % answer[0] if answer[0] else "accepted"
    tally[key] = tally.get(key, 0) + 1
    given = meshes.with_room(seed, seed.vertices + len(points))
    if answer[0] and answer[0] != 9:
        assert mesh.rows() == given.rows() and mesh.counts() == given.counts(), "refused: untouched"
        assert set(lent.nodes + lent.pending + lent.answers) <= {7}
        return
    assert not any(lent.nodes + lent.freed + lent.buckets + lent.pending), "zeros"
    for fate in filter(None, lent.answers[0::sweep.WORDS]):
        tally["fate %d" % fate] = tally.get("fate %d" % fate, 0) + 1
    untouched(mesh.rows(), given.rows(), mesh.counts())
    assert mesh.left_out == 0, "a flip left out"
    full = plenty(seed, centre, points)
    assert lent.answers == answers_told(full, *answer[:2]), "answers"
    if answer[0] == 9:
        standing(mesh)
        stage = full[answer[1]][0] if answer[1] < len(points) else "convexity"
        tally["9 at %s" % stage] = tally.get("9 at %s" % stage, 0) + 1
        return
    vertices_kept(mesh, seed, points, full, answer)
    finished(mesh)
    again, flips, closing = run_watched(seed, centre, points, pending, tally)
    assert (flips, closing) == answer[3:] and again.rows() == mesh.rows(), "the run step by step"
    flips += sum(sweep.answer_at(lent.answers, i)[3] for i in range(len(points)))
    tally["flips"] = tally.get("flips", 0) + flips
    tally["closing flips"] = tally.get("closing flips", 0) + closing
    settled = meshes.with_room(mesh, mesh.vertices)
    same = settled.copy()
    assert sweep.finish(settled, sweep.lent_for(mesh.vertices, 8)) == (0, 0, 0, 0, 0), "finished twice"
    assert settled.rows() == same.rows()


def same_mesh(mesh, other):
    return mesh.rows() == other.rows() and mesh.counts() == other.counts()


def another(quote, rng):
    """A quote that differs in one part."""
    part = rng.randrange(6)
    least, most = ((0, 2 ** 32 - 1), (-2 ** 31, 2 ** 31 - 1), (0, 2 ** 64 - 1))[(part > 0) + (part > 3)]
    value = rng.choice([quote[part] - 1, quote[part] + 1, least, most, rng.randint(least, most)])
    if value == quote[part] or not least <= value <= most:
        return another(quote, rng)
    return quote[:part] + (value,) + quote[part + 1:]


def quotes_watched(seed, centre, points, pending, tally, rng):
    """Each point asked and committed in turn. Asking gives what a step with pending entries in plenty answers; a
    commit of its quote is the step on the same rows, and raises the count where a vertex is added, after 9 too; one
    of another quote changes nothing."""
    mesh = meshes.with_room(seed, seed.vertices + len(points))
    mesh.changes = rng.choice([0, 5, sweep.MOST_CHANGES - 2])
    for p in points:
        n, z, given = mesh.vertices + 1, rng.randint(-9, 9), mesh.copy()
        lent = sweep.lent_for(n, 0)
        number, place, quote = sweep.ask(mesh, lent, centre, p, z)
        full, alone = mesh.copy(), mesh.copy()
        told = sweep.step(full, sweep.lent_for(n, 4096), centre, p, z)
        assert same_mesh(mesh, given) and mesh.changes == given.changes, "asking leaves the mesh"
        if number:
            assert (number, place) == told[:2] or number == 12 and given.changes == sweep.MOST_CHANGES, "ask refused"
            assert quote == sweep.NO_QUOTE and set(lent.nodes + lent.freed + lent.buckets) == {7}
            return
        assert quote == (mesh.changes, *p, z, told[2][0], told[2][2]) and told[0] == 0, "a quote"
        assert not any(lent.nodes + lent.freed + lent.buckets)
        lent = sweep.lent_for(n, pending)
        assert sweep.commit(mesh, lent, centre, p, another(quote, rng), z) == (11, 0, (0, 0, 0, 0)), "stale"
        assert same_mesh(mesh, given) and mesh.changes == given.changes and set(lent.nodes + lent.pending) == {7}
        stepped = sweep.step(alone, sweep.lent_for(n, pending), centre, p, z)
        assert alone.changes == given.changes, "a step leaves the count"
        assert sweep.commit(mesh, lent, centre, p, quote, z) == stepped and same_mesh(mesh, alone), "a commit is a step"
        assert not any(lent.nodes + lent.freed + lent.buckets + lent.pending)
        added = mesh.vertices - given.vertices
        assert mesh.changes == given.changes + added and added == (quote[4] == 1), "the count"
        key = "commits refused 9" if stepped[0] else "commits"
        tally[key] = tally.get(key, 0) + 1


def random_points(rng, centre, spread, count):
    """Lists that are sorted by distance, unsorted, spiral, on few rays, repeated."""
    kind = rng.randrange(6)
    box = lambda: (rng.randint(-spread, spread), rng.randint(-spread, spread))
    points = [box() for _ in range(count)]
    if kind == 1:
        points.sort(key=lambda p: (p[0] - centre[0]) ** 2 + (p[1] - centre[1]) ** 2)
    elif kind == 2:
        points.sort(key=lambda p: sweep.pseudo_angle(p, (centre[0] + 0.125, centre[1] + 0.0625)))
    elif kind == 3:
        rays = [(rng.randint(-3, 3), rng.randint(-3, 3)) for _ in range(4)]
        cx, cy = round(centre[0]), round(centre[1])
        for i in range(count):
            (dx, dy), k = rng.choice(rays), rng.randint(0, 6)
            points[i] = (cx + k * dx, cy + k * dy)
    elif kind == 4:
        points = [rng.choice(points[:max(1, count // 3)]) for _ in range(count)]
    elif kind == 5:
        points = [(x if rng.random() < 0.7 else round(centre[0]), y) for x, y in points]
    clip = lambda c: max(-sweep.LIMIT, min(sweep.LIMIT, c))
    return [(clip(x), clip(y)) for x, y in points]


def random_centre(rng, seed, spread):
    kind = rng.randrange(4)
    if kind == 0:
        f = rng.randrange(1, seed.faces)
        xs = sweep.face_corners(seed, f)
        return (sum(x for x, _ in xs) * (1.0 / 3.0), sum(y for _, y in xs) * (1.0 / 3.0))
    if kind == 1:
        return (float(rng.randint(-spread, spread)), float(rng.randint(-spread, spread)))
    if kind == 2:
        return (rng.randint(-2 * spread, 2 * spread) / 2, rng.randint(-2 * spread, 2 * spread) / 2)
    return (rng.uniform(-spread, spread), rng.uniform(-spread, spread) * 2.0 ** -rng.randint(0, 60))


def random_seed(rng, spread):
    kind = rng.randrange(3)
    if kind == 0:
        return meshes.grown(rng, 3, spread)
    mesh = meshes.grown(rng, rng.randint(3, 12), spread, flips=rng.randrange(20))
    return meshes.renumbered(mesh, rng) if kind == 1 else mesh


def built(rng):
    """A seed of a special make, renumbered, with a centre that suits it and points about it."""
    kind = rng.randrange(4)
    if kind == 0:
        mesh, centre, last = meshes.flat_fan(rng.randint(5, 12)), (70.0, 3.0), (1, -1)
    elif kind == 1:
        mesh, centre, last = meshes.corner_beside_fan(rng.randint(2, 9)), (-1.0, 0.5), (-9, 0)
    elif kind == 2:
        mesh, centre = meshes.zigzag_arms(rng.randint(4, 16)), (0.0, -13000000.0)
        last = (rng.randint(-9, 9), sweep.LIMIT)
    else:
        n, r = rng.randint(5, 40), rng.choice([60, 9000, sweep.LIMIT - 1])
        around = [(round(r * math.cos(6.28 * i / n)), round(r * math.sin(6.28 * i / n)))
                  for i in range(n)]
        mesh, centre = meshes.rim(around), (rng.uniform(-9, 9), rng.uniform(-9, 9))
        meshes.random_flips(mesh, rng, 3 * n)
        last = (sweep.LIMIT, sweep.LIMIT)
    points = random_points(rng, centre, rng.choice([9, 100, 20000]), rng.randint(0, 9)) + [last]
    points = points if rng.random() < 0.7 else []
    # The arms' scan starts at their bottom, so they keep their numbers.
    return (mesh if kind == 2 else meshes.renumbered(mesh, rng)), centre, points


def outside_centre(rng):
    """Small triangles with the centre outside, where fate 4 is met."""
    spread = rng.choice([1, 2, 3, 5])
    centre = (rng.randint(-4 * spread, 4 * spread) / 2, rng.randint(-4 * spread, 4 * spread) / 2)
    return meshes.grown(rng, 3, spread), centre, random_points(rng, centre, 2 * spread, rng.randint(1, 8))


def adversarial(rng):
    """A seed, a centre and points."""
    kind = rng.randrange(10)
    if kind == 0:
        return built(rng)
    if kind < 5:
        return outside_centre(rng)
    spread = rng.choice([2, 3, 4, 6, 10, 30, 1000, sweep.LIMIT])
    start = random_seed(rng, spread)
    centre = random_centre(rng, start, spread)
    return start, centre, random_points(rng, centre, spread, rng.choice([0, 1, 2, 3, 5, 8, 13, 30]))


def campaign(seconds, seed):
    rng, tally, end, runs = random.Random(seed), {}, time.time() + seconds, 0
    while time.time() < end:
        start, centre, points = adversarial(rng)
        pending = rng.choice([8, 8, 9, 10, 12, 4096])
        runs += 1
        try:
            whole_run(start, centre, points, pending, tally, rng)
            quotes_watched(start, centre, points, pending, tally, rng)
        except AssertionError:
            print("run", runs, [start.at(v) for v in range(start.vertices)], centre, points, pending)
            raise
    print("%d runs:" % runs, ", ".join("%s %d" % kv for kv in sorted(tally.items())))


if __name__ == "__main__":
    assert sweep.listing(SAMPLE) == SAMPLE_OUT
    marked()
    examples()
    heights()
    areas()
    quotes()
    bare()
    print("the listing, M1 to M10, the rare cases, the volumes, the areas, the quotes and the bare points agree")
    campaign(float(sys.argv[1]) if len(sys.argv) > 1 else 20, int(sys.argv[2]) if len(sys.argv) > 2 else 1)
