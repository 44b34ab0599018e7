"""The load sheet of a heap (examples/sheet.md) by the reading of sweep.py.

    python3 sheet.py TEXT HEIGHTS LEVEL      the same lines as bindings/rust/examples/sheet.rs
"""

import sys

import sweep


def surveyed(text, heights):
    """The mesh after the run of a listing's text, its vertices and points at these heights."""
    lines = [line.split() for line in text.splitlines()]
    s, centre = [list(map(int, lines[i][1:])) for i in (0, 1)]
    points = [tuple(map(int, line[1:])) for line in lines[2:]]
    n = 3 + len(points)
    mesh = sweep.seed_triangle([(s[0], s[1]), (s[2], s[3]), (s[4], s[5])], n)
    mesh.heights[:3] = heights[:3]
    lent = sweep.lent_for(n, sweep.LISTING_PENDING, len(points))
    refusal = sweep.run(mesh, lent, tuple(map(float, centre)), points, heights[3:])[:2]
    assert refusal == (0, 0), refusal
    return mesh


def sheet(mesh, level):
    yield "triangle  vertices  doubled area  heights - 3 * %d  product" % level
    for f in range(1, mesh.faces):
        corners = sweep.face_vertices(mesh, f)
        area = sweep.orient2d(*sweep.face_corners(mesh, f))
        above = sum(mesh.heights[v] for v in corners) - 3 * level
        yield "%d  %d %d %d  %d  %d  %d" % ((f,) + tuple(corners) + (area, above, area * above))
    # the boundary's area, which the triangles' total
    assert sweep.inner_area(mesh) == sweep.boundary_area(mesh)
    yield "area total %d" % sweep.boundary_area(mesh)
    number, place, high, low, metres = sweep.volume(mesh, level)
    assert (number, place) == (0, 0) and (high, low) == sweep.two_halves(sweep.six_volumes(mesh, level))
    yield "six volumes %d" % sweep.six_volumes(mesh, level)
    yield "cubic metres %d" % metres


def main():
    text, heights, level = sys.argv[1:]
    with open(text) as f, open(heights) as g:
        mesh = surveyed(f.read(), [int(z) for z in g.read().split()])
    print("\n".join(sheet(mesh, int(level))))


if __name__ == "__main__":
    main()
