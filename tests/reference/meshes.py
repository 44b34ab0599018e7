"""Makers of meshes for the tests: from lists of triangles, grown at random, renumbered at random.
All randomness comes from a generator that the caller seeds.
"""

import sweep
from sweep import rev, NEXT, PREV, FACE, ORIGIN


def of_triangles(points, triangles, n=None):
    """The mesh of left-turning triangles that share whole edges.  Edges are numbered as the triangles'
    sides come, 2u the side that comes first; where a vertex has several fans they are joined in the
    order of their triangles."""
    number, halves = {}, []
    for f, (a, b, c) in enumerate(triangles):
        for p, q in ((a, b), (b, c), (c, a)):
            if (p, q) in number:
                raise ValueError("a side twice")
            if (q, p) in number:
                number[p, q] = rev(number[q, p])
            else:
                number[p, q] = 2 * len(halves)
                halves.append((p, q))
    edges, faces = len(halves), len(triangles) + 1
    n = n or len(points)
    mesh = sweep.Mesh([0] * (2 * n), [0] * n, [0] * (24 * n), [0] * (2 * n), len(points), edges, faces,
                      [0] * n)
    for v, (x, y) in enumerate(points):
        mesh.positions[2 * v:2 * v + 2] = [x, y]
    inner = {}
    for f, (a, b, c) in enumerate(triangles):
        e = [number[a, b], number[b, c], number[c, a]]
        mesh.stored[f + 1] = e[0]
        for i in range(3):
            sweep.put_half(mesh, e[i], e[(i + 1) % 3], e[(i + 2) % 3], f + 1, (a, b, c)[i])
            inner[e[i]] = f + 1
    outer = [h for h in range(2 * edges) if h not in inner]
    for h in outer:
        p, q = halves[h // 2] if h % 2 == 0 else halves[h // 2][::-1]
        mesh.set(h, FACE, 0)
        mesh.set(h, ORIGIN, p)
    # A fan at v is entered by the reverse of an outer half-edge that ends at v and left by an outer one.
    fans = {}
    for h in sorted(outer, key=lambda h: inner[rev(h)]):
        e = rev(h)
        while e in inner:
            e = rev(mesh.prev(e))
        fans.setdefault(mesh.origin(rev(h)), []).append((h, e))
    for v, around in fans.items():
        for i, (_, leaves) in enumerate(around):
            arrives = around[(i + 1) % len(around)][0]
            mesh.set(arrives, NEXT, leaves)
            mesh.set(leaves, PREV, arrives)
    for h in range(2 * edges):
        mesh.outs[mesh.origin(h)] = h
    mesh.stored[0] = outer[0]
    return mesh


def with_room(mesh, n):
    """A copy whose rows have exactly the sizes for n vertices; entries past the counts are kept."""
    def sized(row, size):
        return (row + [0] * size)[:size]
    return sweep.Mesh(sized(mesh.positions, 2 * n), sized(mesh.outs, n), sized(mesh.halves, 24 * n),
                      sized(mesh.stored, 2 * n), *mesh.counts(), sized(mesh.heights, n))


def renumbered(mesh, rng):
    """The same mesh under other vertex, edge, half-edge and face numbers, with other stored edges."""
    v, e, f = mesh.counts()
    vertex = list(range(v))
    rng.shuffle(vertex)
    face = [0] + rng.sample(range(1, f), f - 1)
    edge, turn = list(range(e)), [rng.randrange(2) for _ in range(e)]
    rng.shuffle(edge)
    half = [2 * edge[h // 2] + ((h % 2) ^ turn[h // 2]) for h in range(2 * e)]
    n = len(mesh.outs)
    out = sweep.Mesh([0] * (2 * n), [0] * n, [0] * (24 * n), [0] * (2 * n), v, e, f, [0] * n)
    starts, rounds = {}, {}
    for h in range(2 * e):
        sweep.put_half(out, half[h], half[mesh.next(h)], half[mesh.prev(h)], face[mesh.face(h)],
                       vertex[mesh.origin(h)])
        starts.setdefault(vertex[mesh.origin(h)], []).append(half[h])
        rounds.setdefault(face[mesh.face(h)], []).append(half[h])
    for i in range(v):
        out.positions[2 * vertex[i]:2 * vertex[i] + 2] = list(mesh.at(i))
        out.heights[vertex[i]] = mesh.heights[i]
        out.outs[i] = rng.choice(starts[i])
    for i in range(f):
        out.stored[i] = rng.choice(rounds[i])
    return out


def random_flips(mesh, rng, times):
    """Flips that keep left turning, settled or not: the two new triangles turn left."""
    for _ in range(times):
        u = rng.randrange(mesh.edges)
        c, d = mesh.far(2 * u), mesh.far(2 * u + 1)
        if c is None or d is None:
            continue
        a, b, c, d = (mesh.at(v) for v in (mesh.origin(2 * u), mesh.to(2 * u), c, d))
        if sweep.left(d, c, a) and sweep.left(c, d, b):
            sweep.flip_cw(mesh, u)


def grown(rng, vertices, spread, flips=0, closing=0.3):
    """A mesh grown from a triangle: new vertices outside boundary edges and left corners closed, at
    random, without regard to what lies there already (so it may overlap itself)."""
    while True:
        corners = [(rng.randint(-spread, spread), rng.randint(-spread, spread)) for _ in range(3)]
        if sweep.left(*corners):
            break
    mesh = sweep.seed_triangle(corners, vertices)
    tries = 0
    while mesh.vertices < vertices and tries < 400:
        tries += 1
        e = rng.choice(sweep.boundary(mesh))
        a, b = mesh.at(mesh.origin(e)), mesh.at(mesh.to(e))
        if rng.random() < closing:
            if sweep.left(a, b, mesh.at(mesh.to(mesh.next(e)))):
                sweep.create_single_face_between_edge_and_next(mesh, e)
        else:
            p = (rng.randint(-spread, spread), rng.randint(-spread, spread))
            if sweep.left(a, b, p):
                sweep.create_new_face_adjacent_to_edge(mesh, e, p)
    random_flips(mesh, rng, flips)
    return with_room(mesh, mesh.vertices)


def fan(points):
    """Triangles from point 0 to each pair of the following points in turn."""
    return of_triangles(points, [(0, i, i + 1) for i in range(1, len(points) - 1)])


def flat_fan(triangles):
    """A fan about (0, 0) to points on a vertical line.  A point (1, -1) is inside all its circles, so
    that all inner edges flip, and the list of `legalize_edge` grows to triangles + 1."""
    return fan([(0, 0)] + [(100, i) for i in range(triangles + 1)])


def corner_beside_fan(triangles):
    """A fan about (0, 0) that lacks the triangle between its last point, (1, -1), and its first: closing
    that corner lets the others flip."""
    return fan([(0, 0)] + [(100, i) for i in range(triangles + 1)] + [(-3, 3), (-3, -3), (1, -1)])


def rim(points, centre=(0, 0)):
    """A fan about an inner vertex to a closed rim, whose points are in the order of turning left."""
    n = len(points)
    return of_triangles([centre] + points, [(0, i + 1, (i + 1) % n + 1) for i in range(n)])


def zigzag_arms(points, base=40000000 // 3):
    """A pocket between two arms that flare: the corner at its bottom closes to one side, and only then
    to the other, so that each pass of the convexity scan closes one corner on each side.  The scan
    starts at the bottom."""
    chain, x, rise, y = [], 1.0, float(sweep.LIMIT) * 0.4, 0.0
    for j in range(points):
        chain.append((round(x) if j % 2 else -round(x), round(y)))
        x, y, rise = x * 1.7 + 1, y + rise, max(rise * 0.6, 1.0)
    ordered = sorted(chain)
    apex = len(ordered)
    mesh = of_triangles(ordered + [(0, -base)],
                        [(apex, i + 1, i) for i in range(len(ordered) - 1)])
    bottom = next(e for e in sweep.boundary(mesh)
                  if {mesh.at(mesh.origin(e)), mesh.at(mesh.to(e))} == {chain[0], chain[1]})
    mesh.stored[0] = bottom
    return mesh
