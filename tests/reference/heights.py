"""Heights for the lists: meshes whose heights decide what a call answers, and heights for any mesh.
All randomness comes from a generator that the caller seeds.
"""

import check_cases
import lists
import sweep

LIMIT = sweep.HEIGHT_LIMIT
MOST, LEAST = 2147483647, -2147483648
BEYOND = (LIMIT + 1, -LIMIT - 1)


def put(mesh, heights=None, more=0):
    """A copy with rows for `more` vertices beyond the mesh's, whose entries past the counts hold lists.PAST,
    and with these heights; where none are given, they differ from vertex to vertex."""
    out = lists.with_past(mesh, mesh.vertices + more)
    v = mesh.vertices
    out.heights[:v] = [(-7) ** (i % 6) + i for i in range(v)] if heights is None else heights
    return out


def at(mesh, v, z):
    """The mesh with another height at a vertex."""
    return check_cases.changed(mesh, "e", v, z)


def random_heights(rng, count, spread=LIMIT):
    """Small ones and large ones, and now and then one at a limit."""
    most = rng.choice([3, 1000, spread])
    return [rng.randint(-most, most) if rng.random() < 0.9 else rng.choice([-LIMIT, 0, LIMIT])
            for _ in range(count)]


def refusals(more):
    """Name, mesh, number, place: what a call must answer that asks rows for `more` vertices beyond the
    mesh's, where nothing else is wrong."""
    t, s = put(check_cases.triangle(), more=more), put(check_cases.square(), more=more)
    h = put(check_cases.hexagon(), more=more)
    changed, counted, cut = check_cases.changed, check_cases.counted, check_cases.cut
    yield "heights that differ", h, 0, 0
    for z in (LIMIT, -LIMIT):
        yield "heights at the limits", put(t, [z, -z, z], more), 0, 0
    for v in range(3):
        for z in BEYOND:
            yield "a height one beyond", at(t, v, z), 10, 0
    for mesh, v, z in ((h, 4, LIMIT + 1), (s, 0, MOST), (s, 3, LEAST)):
        yield "a height beyond", at(mesh, v, z), 10, 0
    yield "every height beyond", put(t, [LIMIT + 1] * 3, more), 10, 0
    # The row's length. Entries past the counts in use are not looked at, whatever they hold.
    longer = t.copy()
    longer.heights += [LIMIT + 1, LEAST, MOST]
    yield "spare entries in the heights row alone", longer, 0, 0
    just_past = s.copy()
    just_past.heights[4:] = [LIMIT + 1] + just_past.heights[5:]
    yield "a height one beyond just past the counts in use", just_past, 0, 0
    yield "the heights row one entry short", cut(t, "e"), 2, 0
    yield "the heights row one entry short", cut(s, "e"), 2, 0
    yield "the heights row one entry short, a height beyond", cut(at(t, 0, LIMIT + 1), "e"), 2, 0
    yield ("the heights row one entry short, a coordinate beyond",
           cut(changed(t, "p", 0, sweep.LIMIT + 1), "e"), 2, 0)
    empty = t.copy()
    empty.heights = []
    yield "an empty heights row", empty, 2, 0
    if more:
        few = s.copy()
        del few.heights[4:]
        yield "heights for the mesh's own vertices alone", few, 2, 0
    # All of 3 before all of 10, 10 before 4 and 5.
    for v in range(3):
        beyond = changed(t, "p", 2 * v + v % 2, -sweep.LIMIT - 1)
        yield "a coordinate and a height beyond", at(beyond, 2 - v, LIMIT + 1), 3, v
    yield "both beyond at one vertex", at(changed(s, "p", 5, sweep.LIMIT + 1), 2, -LIMIT - 1), 3, 2
    yield "a height beyond and a broken link", at(changed(s, "h", 0, 9), 3, LIMIT + 1), 10, 0
    yield "a height beyond and an out edge out of range", at(changed(t, "o", 1, 6), 0, LEAST), 10, 0
    yield "a height beyond and no faces", at(counted(t, faces=0), 1, MOST), 10, 0
    yield ("a height beyond and edges far beyond the rows",
           at(counted(t, edges=check_cases.MOST), 1, LIMIT + 1), 10, 0)
    yield "a broken link", changed(s, "h", 0, 9), 4, 0
    right = put(check_cases.triangle((0, 0), (0, 4), (4, 0)), more=more)
    yield "a height beyond and a right-turning face", at(right, 0, LIMIT + 1), 10, 0
    yield "a height beyond and a flat face", at(changed(s, "p", 7, 0), 2, -LIMIT - 1), 10, 0
    yield "the second face flat", changed(s, "p", 7, 0), 5, 2
    # 1 and 2 before 10.
    if more < 3:
        yield "a height beyond and too few vertices", at(counted(t, 2 - more), 0, MOST), 1, 0
    yield "a height beyond and 1,000,001 vertices", at(counted(t, 1000001 - more), 0, LEAST), 1, 0
    yield ("a height beyond and 1,000,000 vertices in rows of three",
           at(counted(t, 1000000 - more), 0, LEAST), 2, 0)
    for row in "pohf":
        yield "a height beyond and a row one entry short: " + row, cut(at(t, 2, LIMIT + 1), row), 2, 0
