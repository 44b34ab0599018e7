"""An executable reading of 01-scope.md and of Changes 1 to 3, 5 and 6 to it (02-change-requests.md), independent of
the proved code.

Every function states one sentence of 01 or of a change (cited as '01: "..."', 'Change 1: "..."') or one
function of the Rust that they name (000 bulk_load.rs, 001 dcel_operations.rs, 002 triangulation_ext.rs, 003
math.rs).  Where they can be read in two ways the reading of docs/DECISIONS.md is taken.  Plain Python 3,
whole numbers of any size, floats as IEEE doubles.  Nothing here is fast: the ring is made anew from the
boundary at every step, because that is what the words say.

Rows are Python lists, laid out as the proved code has them:
  positions x, y per vertex; heights one number per vertex; outs one half-edge per vertex; halves next,
  prev, face, origin per half-edge; stored one half-edge per face; answers fate, vertex, faces and flips
  per point.
Only the lengths of the ring's rows (nodes, freed, buckets) and of pending matter here.  Where a caller
gives no heights, of the vertices or of the points, they are zeros in a row that is long enough.

The mesh's change count is carried with its counts. A quote is a tuple: change count, x, y, z, fate, faces.
Where a call is given no mesh, its rows are lent in a Mesh whose counts are 0.
"""

from fractions import Fraction
import math

LIMIT = 16777216
HEIGHT_LIMIT = 1048576
MOST_VERTICES = 1000000
MOST_CHANGES = 4294967295
LEAST_PENDING = 8
NEXT, PREV, FACE, ORIGIN = 0, 1, 2, 3
WORDS = 4  # of an answer in the answers row
CUBIC_METRE = 6 * 10 ** 9  # cubic millimetres, six times over


class Refusal(Exception):
    """A row of 01's table, or a number of Change 1 or 5: its number and a place."""

    def __init__(self, number, place=0):
        super().__init__(number, place)
        self.number, self.place = number, place


class PendingFull(Exception):
    """Row 9 while the flips are being made; the call that is under way names the place."""


# ---------------------------------------------------------------------------------------------------
# The mesh and its accessors


class Mesh:
    """The lent rows of a mesh and the counts in use."""

    def __init__(self, positions, outs, halves, stored, vertices, edges, faces, heights=None, changes=0):
        self.positions, self.outs, self.halves, self.stored = positions, outs, halves, stored
        self.vertices, self.edges, self.faces = vertices, edges, faces
        # Zeros are long enough wherever the positions are, for a vertex has two of those.
        self.heights = [0] * len(positions) if heights is None else heights
        self.changes = changes  # Change 5: "the mesh's change count"
        self.left_out = 0  # flips of legalize_edges_after_removal left out, "recorded"

    def copy(self):
        return Mesh(self.positions[:], self.outs[:], self.halves[:], self.stored[:],
                    self.vertices, self.edges, self.faces, self.heights[:], self.changes)

    def rows(self):
        return (self.positions, self.outs, self.halves, self.stored, self.heights)

    def counts(self):
        return (self.vertices, self.edges, self.faces)

    def next(self, e):
        return self.halves[4 * e + NEXT]

    def prev(self, e):
        return self.halves[4 * e + PREV]

    def face(self, e):
        return self.halves[4 * e + FACE]

    def origin(self, e):
        return self.halves[4 * e + ORIGIN]

    def set(self, e, field, value):
        self.halves[4 * e + field] = value

    def to(self, e):
        return self.origin(rev(e))

    def at(self, v):
        return (self.positions[2 * v], self.positions[2 * v + 1])

    def far(self, e):
        """01: "A far vertex is the origin of prev; a half-edge of the outer face has no far vertex." """
        return None if self.face(e) == 0 else self.origin(self.prev(e))


def rev(e):
    """01: "Half-edges 2u and 2u+1 are each other's reverse." """
    return e ^ 1


def cycle(step, start, most):
    """start, step(start), .. until start comes again; None if it does not within `most` steps."""
    seen, e = [start], step(start)
    while e != start:
        if len(seen) >= most:
            return None
        seen.append(e)
        e = step(e)
    return seen


def boundary(mesh):
    """01: "The walk of `HullIterator` starts at face 0's stored edge and follows next." """
    return cycle(mesh.next, mesh.stored[0], 2 * mesh.edges)


def turn_about(mesh, v):
    """01: "`out_edges` starts at the stored out edge; each further one is the reverse of prev." """
    return cycle(lambda e: rev(mesh.prev(e)), mesh.outs[v], 2 * mesh.edges)


# ---------------------------------------------------------------------------------------------------
# Exact tests (003)


def orient2d(a, b, c):
    """003, `side_query`, in the value of Shewchuk's orient2d.  Change 3: "The side test answers the exact signed
    doubled area, positive on the left": c is left of a -> b."""
    return (b[0] - a[0]) * (c[1] - a[1]) - (b[1] - a[1]) * (c[0] - a[0])


def incircle(a, b, c, d):
    """Shewchuk's incircle as a determinant; positive: d is strictly inside the circle of a, b, c that
    turn left."""
    rows = []
    for p in (a, b, c):
        x, y = p[0] - d[0], p[1] - d[1]
        rows.append((x, y, x * x + y * y))
    (ax, ay, az), (bx, by, bz), (cx, cy, cz) = rows
    return (ax * (by * cz - bz * cy) - ay * (bx * cz - bz * cx) + az * (bx * cy - by * cx))


def left(a, b, c):
    """01: "Left is strictly positive." """
    return orient2d(a, b, c) > 0


def contained_in_circumference(v1, v2, v3, p):
    """003: robust::incircle(v3, v2, v1, p) < 0.0"""
    return incircle(v3, v2, v1, p) < 0


def is_behind_edge(e1, e2, query):
    """01: "`is_behind_edge` equals the whole-number comparison factor > length_2." """
    dx, dy = e2[0] - e1[0], e2[1] - e1[1]
    factor = (query[0] - e1[0]) * dx + (query[1] - e1[1]) * dy
    return factor > dx * dx + dy * dy


def face_vertices(mesh, f):
    """The vertices of an inner face, from its stored edge by next."""
    e = mesh.stored[f]
    return [mesh.origin(h) for h in (e, mesh.next(e), mesh.next(mesh.next(e)))]


def face_corners(mesh, f):
    """Their positions."""
    return [mesh.at(v) for v in face_vertices(mesh, f)]


def boundary_area(mesh):
    """01: "The boundary's doubled area is the usual cross-product sum over face 0's cycle, walked
    against next." """
    total, start = 0, mesh.stored[0]
    for e in cycle(mesh.prev, start, 2 * mesh.edges):
        # Walked against next: from the end of e to its origin.
        (ax, ay), (bx, by) = mesh.at(mesh.to(e)), mesh.at(mesh.origin(e))
        total += ax * by - ay * bx
    return total


def inner_area(mesh):
    """The doubled areas of the inner faces, added up.  Change 3: "the area total from its value" """
    return sum(orient2d(*face_corners(mesh, f)) for f in range(1, mesh.faces))


def height_sum(mesh):
    """Over all triangles: doubled area times the sum of the three squared distances from the origin
    (M4, M5; each flip lowers it by exactly the circle determinant)."""
    total = 0
    for f in range(1, mesh.faces):
        corners = face_corners(mesh, f)
        total += orient2d(*corners) * sum(x * x + y * y for x, y in corners)
    return total


# ---------------------------------------------------------------------------------------------------
# Refusals 1 to 5 and 10


def refuse_count(n):
    """1: "fewer than 3 or more than 1,000,000 vertices, seed plus points" """
    if n < 3 or n > MOST_VERTICES:
        raise Refusal(1)


def refuse_mesh_rows(mesh, n):
    """2, 01: "For N vertices: N positions, N out edges, 6N half-edges, 2N faces"; Change 1: "each vertex
    gains a height", so N heights """
    if (len(mesh.positions) < 2 * n or len(mesh.outs) < n or len(mesh.halves) < 4 * 6 * n
            or len(mesh.stored) < 2 * n or len(mesh.heights) < n):
        raise Refusal(2)


def refuse_ring_rows(lent, n):
    """2, 01: "N + 1 ring nodes and freed nodes, max(16, N) buckets" """
    if len(lent.nodes) < n + 1 or len(lent.freed) < n + 1 or len(lent.buckets) < max(16, n):
        raise Refusal(2)


def refuse_pending_row(lent):
    """2, 01: "at least 8 pending entries" """
    if len(lent.pending) < LEAST_PENDING:
        raise Refusal(2)


def refuse_point_row(points):
    """2: "a lent row is shorter than the sizes": a number that stands alone at the end of the row of
    points is a point whose y is missing (docs/DECISIONS.md). It is given here as a tuple of one."""
    if any(len(p) < 2 for p in points):
        raise Refusal(2)


def refuse_height_row(points, heights):
    """2: the row of the points' heights has one number for each point, the one without y counted"""
    if len(heights) < len(points):
        raise Refusal(2)


def refuse_answer_row(lent, points):
    """2, 01: "one answer (fate, vertex, faces, flips) per point" """
    if len(lent.answers) < WORDS * points:
        raise Refusal(2)


def refuse_positions(positions):
    """3: "a coordinate is outside -16,777,216..16,777,216 (place = the first such vertex .." """
    for i, p in enumerate(positions):
        if any(c < -LIMIT or c > LIMIT for c in p):
            raise Refusal(3, i)


def refuse_coordinates(mesh, points):
    """3: ".. points counted on after the seed's)" """
    refuse_positions([mesh.at(v) for v in range(mesh.vertices)] + list(points))


def refuse_heights(mesh, others):
    """10, Change 1: "a height or level outside -1,048,576..1,048,576, checked straight after 3", of the
    vertices in use, of the points and the level. No place is named for it, so it is 0."""
    if any(z < -HEIGHT_LIMIT or z > HEIGHT_LIMIT for z in mesh.heights[:mesh.vertices] + list(others)):
        raise Refusal(10)


def in_range(mesh):
    """Every link, face, origin, out edge and stored edge is in use, and the rows hold the counts in use
    (otherwise the sentences below have no meaning: a mesh rule fails)."""
    v, e, f = mesh.counts()
    if 8 * e > len(mesh.halves) or f > len(mesh.stored) or f < 1:
        return False
    return (all(mesh.next(h) < 2 * e and mesh.prev(h) < 2 * e and mesh.face(h) < f
                and mesh.origin(h) < v for h in range(2 * e))
            and all(mesh.outs[i] < 2 * e for i in range(v))
            and all(mesh.stored[i] < 2 * e for i in range(f)))


def links_agree(mesh):
    """01: "next and prev undo each other, and next keeps the face. The origin of next(e) is the origin of
    e's reverse." """
    return all(mesh.prev(mesh.next(h)) == h and mesh.next(mesh.prev(h)) == h
               and mesh.face(mesh.next(h)) == mesh.face(h)
               and mesh.origin(mesh.next(h)) == mesh.origin(rev(h)) for h in range(2 * mesh.edges))


def faces_are_cycles(mesh):
    """01: "An inner face is a cycle of three through its stored edge. Face 0 is one cycle of at least
    three." """
    edges_of = [set() for _ in range(mesh.faces)]
    for h in range(2 * mesh.edges):
        edges_of[mesh.face(h)].add(h)
    for f in range(mesh.faces):
        ring = cycle(mesh.next, mesh.stored[f], 2 * mesh.edges)
        if ring is None or set(ring) != edges_of[f]:
            return False
        if (len(ring) < 3) if f == 0 else (len(ring) != 3):
            return False
    return True


def edges_have_inner_face(mesh):
    """01: "Every edge has an inner face on a side." """
    return all(mesh.face(2 * u) != 0 or mesh.face(2 * u + 1) != 0 for u in range(mesh.edges))


def vertices_are_turned(mesh):
    """01: "Every vertex has an out edge, and turning about the vertex from it meets every half-edge that
    starts there." """
    starts_at = [set() for _ in range(mesh.vertices)]
    for h in range(2 * mesh.edges):
        starts_at[mesh.origin(h)].add(h)
    for v in range(mesh.vertices):
        if mesh.origin(mesh.outs[v]) != v:
            return False
        turn = turn_about(mesh, v)
        if turn is None or not starts_at[v] <= set(turn):
            return False
    return True


def euler(mesh):
    """01: "vertices - edges + faces = 2, the outer face counted." """
    return mesh.vertices - mesh.edges + mesh.faces == 2


def mesh_rules(mesh):
    """01, "Mesh rules" """
    return (in_range(mesh) and links_agree(mesh) and faces_are_cycles(mesh)
            and edges_have_inner_face(mesh) and vertices_are_turned(mesh) and euler(mesh))


def refuse_mesh(mesh):
    """4: "a mesh rule fails"; 5: "an inner face doesn't turn strictly left (place = lowest face)" """
    if not mesh_rules(mesh):
        raise Refusal(4)
    for f in range(1, mesh.faces):
        if not left(*face_corners(mesh, f)):
            raise Refusal(5, f)


# ---------------------------------------------------------------------------------------------------
# Angles


def pseudo_angle(p, centre):
    """000, `pseudo_angle`; 01: "each float operation rounded once. .. A point at the centre has no
    angle." """
    dx, dy = float(p[0]) - centre[0], float(p[1]) - centre[1]
    if dx == 0.0 and dy == 0.0:
        raise ValueError("a point at the centre has no angle")
    q = dx / (abs(dx) + abs(dy))
    return 1.0 - ((3.0 - q) if dy > 0.0 else (1.0 + q)) * 0.25


def turns(angle):
    """01: "every angle is a whole number of 2^-53 from 0.0 to 1.0" """
    t = Fraction(angle) * 2 ** 53
    assert t.denominator == 1 and 0 <= t <= 2 ** 53, angle
    return int(t)


def contains_angle(first, second, angle):
    """01: "A segment is either plain or wrapping, and carries its two angles; it holds its first and not
    its second." """
    if first < second:
        return first <= angle < second
    return first <= angle or angle < second


def gap(first, second):
    """01: "each gap (second minus first, plus 1 where it wraps)", exactly"""
    g = Fraction(second) - Fraction(first)
    return g if first < second else g + 1


# ---------------------------------------------------------------------------------------------------
# Ring: (angle, edge) in boundary order, made from a list of boundary edges and their origins' angles


def boundary_angles(mesh, centre):
    """Each boundary edge with the angle of its origin, in the order of the walk."""
    return [(pseudo_angle(mesh.at(mesh.origin(e)), centre), e) for e in boundary(mesh)]


def merge(angles):
    """01: "Equal neighbouring boundary angles count as one, and the run's last edge stands for it."
    The walk is a cycle, so a run may pass its end."""
    n = len(angles)
    kept = [angles[i] for i in range(n) if angles[i][0] != angles[(i + 1) % n][0]]
    return kept if kept else [angles[-1]]  # all equal: one remains


def sound(angles):
    """01: "A ring is sound when at least three angles remain, all differ, exactly one is followed by a
    smaller one, and each gap (second minus first, plus 1 where it wraps) is at most 3/4." """
    remain = [a for a, _ in merge(angles)]
    n = len(remain)
    pairs = [(remain[i], remain[(i + 1) % n]) for i in range(n)]
    return (n >= 3 and len(set(remain)) == n and sum(b < a for a, b in pairs) == 1
            and all(gap(a, b) <= Fraction(3, 4) for a, b in pairs))


def strict(angles):
    """01: "It is strict when in addition no neighbours were equal." """
    n = len(angles)
    return sound(angles) and all(angles[i][0] != angles[(i + 1) % n][0] for i in range(n))


def located(ring, angle):
    """The edge whose segment holds the angle, of a merged ring: by looking at every segment."""
    n = len(ring)
    found = [ring[i][1] for i in range(n) if contains_angle(ring[i][0], ring[(i + 1) % n][0], angle)]
    assert len(found) == 1, (ring, angle)
    return found[0]


def nodes_passed(ring, angle):
    """01: "With n = 8 and i = floor(8a), that count is the number of boundary angles above i/8 and up to
    a. At a = 1.0 it is ring size minus 1 if some boundary angle is 0.0, otherwise 0." """
    angles = [a for a, _ in ring]
    if angle == 1.0:
        return len(angles) - 1 if 0.0 in angles else 0
    i = math.floor(Fraction(angle) * 8)
    return sum(Fraction(i, 8) < Fraction(a) <= Fraction(angle) for a in angles)


def nodes_passed_by_walk(ring, angle):
    """The same by a walk: from the node that bucket floor(8a) mod 8 holds (01: "Bucket i holds the node
    whose segment holds i/n") to the right until a segment holds the angle."""
    n, passed = len(ring), 0
    i = math.floor(Fraction(angle) * 8) % 8
    at = [j for j in range(n) if contains_angle(ring[j][0], ring[(j + 1) % n][0], i / 8)][0]
    while not contains_angle(ring[at][0], ring[(at + 1) % n][0], angle):
        at, passed = (at + 1) % n, passed + 1
    return passed


def refuse_centre(mesh, centre):
    """6: "the centre isn't finite, has a coordinate outside the range of 3, or equals a boundary
    vertex" """
    if any(not math.isfinite(c) or abs(c) > LIMIT for c in centre):
        raise Refusal(6)
    if any(mesh.at(mesh.origin(e)) == (centre[0], centre[1]) for e in boundary(mesh)):
        raise Refusal(6)


def refuse_ring(mesh, centre):
    """7: "the start ring is not strict" """
    if not strict(boundary_angles(mesh, centre)):
        raise Refusal(7)


def refuse_angle(angle):
    """8: "the angle is NaN, below 0.0 or above 1.0" """
    if not (0.0 <= angle <= 1.0):
        raise Refusal(8)


# ---------------------------------------------------------------------------------------------------
# The operations of 001, link by link: 01's three, then Change 2's


def flip_cw(mesh, u):
    e = 2 * u
    en, ep, e_face, e_origin = mesh.next(e), mesh.prev(e), mesh.face(e), mesh.origin(e)
    t = rev(e)
    tn, tp, t_face, t_origin = mesh.next(t), mesh.prev(t), mesh.face(t), mesh.origin(t)

    mesh.set(en, NEXT, e)
    mesh.set(en, PREV, tp)
    mesh.set(e, NEXT, tp)
    mesh.set(e, PREV, en)
    mesh.set(e, ORIGIN, mesh.origin(ep))
    mesh.set(tp, NEXT, en)
    mesh.set(tp, PREV, e)
    mesh.set(tp, FACE, e_face)

    mesh.set(tn, NEXT, t)
    mesh.set(tn, PREV, ep)
    mesh.set(t, NEXT, ep)
    mesh.set(t, PREV, tn)
    mesh.set(t, ORIGIN, mesh.origin(tp))
    mesh.set(ep, NEXT, tn)
    mesh.set(ep, PREV, t)
    mesh.set(ep, FACE, t_face)

    mesh.outs[e_origin] = tn
    mesh.outs[t_origin] = en
    mesh.stored[e_face] = e
    mesh.stored[t_face] = t


def put_half(mesh, e, next_, prev_, face, origin):
    mesh.halves[4 * e:4 * e + 4] = [next_, prev_, face, origin]


def create_single_face_between_edge_and_next(mesh, edge):
    """Answers the new outer half-edge."""
    following = mesh.next(edge)
    before, after, origin = mesh.prev(edge), mesh.next(following), mesh.origin(edge)
    next_to = mesh.to(following)
    new_face, new_inner = mesh.faces, 2 * mesh.edges
    new_outer = rev(new_inner)

    put_half(mesh, new_inner, edge, following, new_face, next_to)
    put_half(mesh, new_outer, after, before, 0, origin)
    mesh.set(before, NEXT, new_outer)
    mesh.set(edge, PREV, new_inner)
    mesh.set(following, NEXT, new_inner)
    mesh.set(after, PREV, new_outer)
    mesh.set(edge, FACE, new_face)
    mesh.set(following, FACE, new_face)
    mesh.stored[0] = new_outer
    mesh.stored[new_face] = new_inner
    mesh.edges += 1
    mesh.faces += 1
    return new_outer


def append_unconnected_vertex(mesh, point, z):
    """01: "An added vertex takes the next number after those in use." Change 1: "Every call that carries a
    vertex carries it through." Answers the vertex."""
    vertex = mesh.vertices
    mesh.positions[2 * vertex:2 * vertex + 2] = list(point)
    mesh.heights[vertex] = z
    mesh.vertices += 1
    return vertex


def create_new_face_adjacent_to_edge(mesh, edge, point, z=0):
    """The new vertex is appended first (`VertexToInsert::NewVertex`). Answers the vertex."""
    vertex = append_unconnected_vertex(mesh, point, z)
    entry_next, entry_prev, entry_face = mesh.next(edge), mesh.prev(edge), mesh.face(edge)
    edge_from, edge_to = mesh.origin(edge), mesh.to(edge)
    new_next, new_prev, new_face = 2 * mesh.edges, 2 * mesh.edges + 2, mesh.faces

    put_half(mesh, new_next, new_prev, edge, new_face, edge_to)
    put_half(mesh, rev(new_next), entry_next, rev(new_prev), entry_face, vertex)
    put_half(mesh, new_prev, edge, new_next, new_face, vertex)
    put_half(mesh, rev(new_prev), rev(new_next), entry_prev, entry_face, edge_from)
    mesh.stored[new_face] = edge
    mesh.edges += 2
    mesh.faces += 1
    mesh.outs[vertex] = new_prev
    put_half(mesh, edge, new_next, new_prev, new_face, edge_from)
    mesh.stored[entry_face] = rev(new_prev)
    mesh.set(entry_next, PREV, rev(new_next))
    mesh.set(entry_prev, NEXT, rev(new_prev))
    return vertex


def insert_into_triangle(mesh, f0, point, z):
    """Answers the vertex."""
    v = append_unconnected_vertex(mesh, point, z)
    e0 = mesh.stored[f0]
    e1 = mesh.next(e0)
    e2 = mesh.next(e1)
    e3, e4, e5, e6, e7, e8 = range(2 * mesh.edges, 2 * mesh.edges + 6)
    v0, v1, v2 = mesh.origin(e0), mesh.origin(e1), mesh.origin(e2)
    f1, f2 = mesh.faces, mesh.faces + 1

    mesh.stored[f1], mesh.stored[f2] = e1, e2
    mesh.outs[v] = e4
    put_half(mesh, e0, e3, e8, f0, v0)
    put_half(mesh, e1, e5, e4, f1, v1)
    put_half(mesh, e2, e7, e6, f2, v2)
    put_half(mesh, e3, e8, e0, f0, v1)
    put_half(mesh, e4, e1, e5, f1, v)
    put_half(mesh, e5, e4, e1, f1, v2)
    put_half(mesh, e6, e2, e7, f2, v)
    put_half(mesh, e7, e6, e2, f2, v0)
    put_half(mesh, e8, e0, e3, f0, v)
    mesh.edges += 3
    mesh.faces += 2
    return v


def split_half_edge(mesh, edge, point, z):
    """Of an inner half-edge whose reverse is outer. Answers the vertex."""
    vertex = append_unconnected_vertex(mesh, point, z)
    en, ep, twin = mesh.next(edge), mesh.prev(edge), rev(edge)
    v, to = mesh.origin(ep), mesh.to(edge)
    twin_prev, twin_face = mesh.prev(twin), mesh.face(twin)
    f1, nf = mesh.face(edge), mesh.faces
    e1, t1, e2, t2 = range(2 * mesh.edges, 2 * mesh.edges + 4)

    put_half(mesh, e1, e2, en, nf, v)
    put_half(mesh, t1, ep, edge, f1, vertex)
    put_half(mesh, e2, en, e1, nf, vertex)
    put_half(mesh, t2, twin, twin_prev, twin_face, to)
    mesh.stored[nf] = e2
    mesh.edges += 2
    mesh.faces += 1
    mesh.outs[vertex] = e2
    mesh.set(twin_prev, NEXT, t2)
    mesh.set(en, PREV, e2)
    mesh.set(ep, PREV, t1)
    mesh.set(twin, PREV, t2)
    mesh.set(en, NEXT, e1)
    mesh.set(edge, NEXT, t1)
    mesh.set(en, FACE, nf)
    mesh.set(twin, ORIGIN, vertex)
    mesh.outs[to] = t2
    mesh.stored[f1] = edge
    return vertex


def split_edge(mesh, e0, point, z):
    """Of an edge with an inner face on both sides. Answers the vertex."""
    v0 = append_unconnected_vertex(mesh, point, z)
    t0 = rev(e0)
    ep, en, tn, tp = mesh.prev(e0), mesh.next(e0), mesh.next(t0), mesh.prev(t0)
    f0, f1, f2, f3 = mesh.face(e0), mesh.face(t0), mesh.faces, mesh.faces + 1
    e1, t1, e2, t2, e3, t3 = range(2 * mesh.edges, 2 * mesh.edges + 6)
    v1, v2, v3, v4 = mesh.origin(e0), mesh.origin(tp), mesh.origin(t0), mesh.origin(ep)

    put_half(mesh, e0, t3, ep, f0, v1)
    put_half(mesh, t0, tn, e1, f1, v0)
    put_half(mesh, e1, t0, tn, f1, v2)
    put_half(mesh, t1, tp, e2, f2, v0)
    put_half(mesh, e2, t1, tp, f2, v3)
    put_half(mesh, t2, en, e3, f3, v0)
    put_half(mesh, e3, t2, en, f3, v4)
    put_half(mesh, t3, ep, e0, f0, v0)
    mesh.edges += 3
    mesh.set(en, NEXT, e3)
    mesh.set(en, PREV, t2)
    mesh.set(en, FACE, f3)
    mesh.set(tp, NEXT, e2)
    mesh.set(tp, PREV, t1)
    mesh.set(tp, FACE, f2)
    mesh.set(tn, NEXT, e1)
    mesh.set(ep, PREV, t3)
    mesh.outs[v0] = t0
    mesh.outs[v3] = e2
    mesh.stored[f0], mesh.stored[f1], mesh.stored[f2], mesh.stored[f3] = e0, e1, e2, e3
    mesh.faces += 2
    return v0


# On a line of vertices both half-edges of an edge are the outer face's (Change 6).


def setup_initial_two_vertices(mesh, first, second):
    put_half(mesh, 0, 1, 1, 0, first)
    put_half(mesh, 1, 0, 0, 0, second)
    mesh.edges += 1
    mesh.outs[first], mesh.outs[second] = 0, 1
    mesh.stored[0] = 0


def extend_line(mesh, end, point, z):
    """The new vertex beyond the line's vertex `end`. Answers the vertex."""
    vertex = append_unconnected_vertex(mesh, point, z)
    out_edge, in_edge = mesh.outs[end], rev(mesh.outs[end])
    face = mesh.face(out_edge)
    new_edge, new_edge_rev = 2 * mesh.edges, 2 * mesh.edges + 1

    mesh.set(out_edge, PREV, new_edge)
    mesh.set(in_edge, NEXT, new_edge_rev)
    put_half(mesh, new_edge, out_edge, new_edge_rev, face, vertex)
    put_half(mesh, new_edge_rev, new_edge, in_edge, face, end)
    mesh.edges += 1
    mesh.outs[vertex] = new_edge
    return vertex


def split_edge_when_all_vertices_on_line(mesh, edge, point, z):
    """The edge then ends at the new vertex, and a new one leads on from there. Answers the vertex."""
    vertex = append_unconnected_vertex(mesh, point, z)
    twin = rev(edge)
    edge_next, twin_prev, to, face = mesh.next(edge), mesh.prev(twin), mesh.to(edge), mesh.face(edge)
    new_edge, new_edge_rev = 2 * mesh.edges, 2 * mesh.edges + 1

    mesh.set(edge, NEXT, new_edge)
    mesh.set(twin, PREV, new_edge_rev)
    mesh.set(twin, ORIGIN, vertex)
    mesh.outs[to] = new_edge_rev
    if edge_next == twin:  # the line ends at `to`
        edge_next, twin_prev = new_edge_rev, new_edge
    else:
        mesh.set(edge_next, PREV, new_edge)
        mesh.set(twin_prev, NEXT, new_edge_rev)
    put_half(mesh, new_edge, edge_next, edge, face, vertex)
    put_half(mesh, new_edge_rev, twin, twin_prev, face, to)
    mesh.edges += 1
    mesh.outs[vertex] = new_edge
    return vertex


# ---------------------------------------------------------------------------------------------------
# Flipping with a pending list (002)


def legalize_edge(mesh, edge, capacity):
    """002, `legalize_edge` with fully_legalize false; answers the number of flips.
    9: "the pushes of a flip would overfill the pending list; that flip isn't made" """
    pending, flips = [edge], 0
    while pending:
        e = pending.pop()
        v2, v3 = mesh.far(rev(e)), mesh.far(e)
        if v2 is None or v3 is None:
            continue
        v0, v1 = mesh.at(mesh.origin(e)), mesh.at(mesh.to(e))
        if contained_in_circumference(mesh.at(v2), v1, v0, mesh.at(v3)):
            pushes = [mesh.next(rev(e)), mesh.prev(rev(e))]
            if len(pending) + len(pushes) > capacity:
                raise PendingFull
            pending += pushes
            flip_cw(mesh, e // 2)
            flips += 1
    return flips


def legalize_edges_after_removal(mesh, pending, capacity):
    """002, `legalize_edges_after_removal`; answers the number of flips.  01: "If it flips for any reason
    but the circle test, that flip is left out and recorded." """
    flips = 0
    while pending:
        u = pending.pop()
        e, t = 2 * u, 2 * u + 1
        e2, e4 = mesh.prev(e), mesh.prev(t)
        start, end = mesh.at(mesh.origin(e)), mesh.at(mesh.to(e))
        far_left, far_right = mesh.far(e), mesh.far(t)
        if far_left is None or far_right is None:
            if far_left is None:
                hull_flip = orient2d(mesh.at(far_right), start, end) >= 0
            else:
                hull_flip = orient2d(mesh.at(far_left), end, start) >= 0
            mesh.left_out += hull_flip
            continue
        if contained_in_circumference(start, end, mesh.at(far_left), mesh.at(far_right)):
            e1, e3 = mesh.next(e), mesh.next(t)
            pushed = pending[:]
            for h in (e1, e2, e3, e4):
                if h // 2 not in pushed:
                    pushed.append(h // 2)
            if len(pushed) > capacity:
                raise PendingFull
            pending[:] = pushed
            flip_cw(mesh, u)
            flips += 1
    return flips


# ---------------------------------------------------------------------------------------------------
# Step


def wants_face_before(mesh, prev_edge, point, angle, centre):
    """The counterclockwise walk's test in `single_bulk_insertion_step`, of the boundary edge before."""
    start, end = mesh.at(mesh.origin(prev_edge)), mesh.at(mesh.to(prev_edge))
    angle_condition = (not is_behind_edge(point, end, start)
                       or angle == pseudo_angle(end, centre))
    return angle_condition and left(start, end, point)


def wants_face_after(mesh, next_edge, point, angle, centre):
    """The clockwise walk's test, of the boundary edge after."""
    middle, end = mesh.at(mesh.origin(next_edge)), mesh.at(mesh.to(next_edge))
    angle_condition = (not is_behind_edge(middle, point, end)
                       or angle == pseudo_angle(middle, centre))
    return angle_condition and left(middle, end, point)


def chain_of(mesh, edge, point, angle, centre):
    """The boundary edges that get a face from the new vertex, in boundary order.  01: "The two walks look
    at boundary edges only, and flips never move those" """
    chain = [edge]
    most = len(boundary(mesh))
    while wants_face_before(mesh, mesh.prev(chain[0]), point, angle, centre):
        chain.insert(0, mesh.prev(chain[0]))
        assert len(chain) < most
    while wants_face_after(mesh, mesh.next(chain[-1]), point, angle, centre):
        chain.append(mesh.next(chain[-1]))
        assert len(chain) < most
    return chain


def angles_after(mesh, chain, angle, centre):
    """The boundary that the step would leave: the chain gives way to the new vertex's two edges (whose
    numbers do not matter for soundness)."""
    rest, e = [], mesh.next(chain[-1])
    while e != chain[0]:
        rest.append(e)
        e = mesh.next(e)
    kept = [(pseudo_angle(mesh.at(mesh.origin(e)), centre), e) for e in rest]
    start = (pseudo_angle(mesh.at(mesh.origin(chain[0])), centre), -1)
    return [start, (angle, -2)] + kept


def fate_of(mesh, point, centre):
    """01: "Fates, tested in this order": 5, 2, 3, 4, 1.  Answers the fate and the located edge."""
    if (float(point[0]), float(point[1])) == (centre[0], centre[1]):
        return 5, None
    angle = pseudo_angle(point, centre)
    edge = located(merge(boundary_angles(mesh, centre)), angle)
    start, end = mesh.at(mesh.origin(edge)), mesh.at(mesh.to(edge))
    if point == start or point == end:
        return 2, edge
    if not left(start, end, point):
        return 3, edge
    if not sound(angles_after(mesh, chain_of(mesh, edge, point, angle, centre), angle, centre)):
        return 4, edge
    return 1, edge


def insertion(mesh, edge, point, centre, capacity, z=0):
    """000, `single_bulk_insertion_step` from the new face on; answers vertex, faces, flips."""
    angle = pseudo_angle(point, centre)
    faces_before = mesh.faces
    vertex = create_new_face_adjacent_to_edge(mesh, edge, point, z)
    ccw_walk_start, cw_walk_start = rev(mesh.prev(edge)), rev(mesh.next(edge))
    flips = legalize_edge(mesh, edge, capacity)

    current = ccw_walk_start
    while wants_face_before(mesh, mesh.prev(current), point, angle, centre):
        before = mesh.prev(current)
        new_edge = create_single_face_between_edge_and_next(mesh, before)
        flips += legalize_edges_after_removal(mesh, [current // 2, before // 2], capacity)
        current = new_edge

    current = cw_walk_start
    while wants_face_after(mesh, mesh.next(current), point, angle, centre):
        after = mesh.next(current)
        new_edge = create_single_face_between_edge_and_next(mesh, current)
        flips += legalize_edges_after_removal(mesh, [current // 2, after // 2], capacity)
        current = new_edge
    return vertex, mesh.faces - faces_before, flips


def one_step(mesh, point, centre, capacity, z=0):
    """01: "An answer is a fate together with its counts"; "Fates 2 to 5 leave the mesh alone." Change 1:
    "Links and fates keep ignoring z." """
    fate, edge = fate_of(mesh, point, centre)
    if fate != 1:
        return (fate, 0, 0, 0)
    return (1,) + insertion(mesh, edge, point, centre, capacity, z)


# ---------------------------------------------------------------------------------------------------
# Finish


def fix_convexity(mesh, capacity):
    """000, `fix_convexity`: one pass, with its stack; answers the flips."""
    flips, convex_edges = 0, []
    current = mesh.stored[0]
    while True:
        convex_edges.append(current)
        current = mesh.next(current)
        while len(convex_edges) >= 2:
            edge1, edge2 = convex_edges[-2], convex_edges[-1]
            if not left(mesh.at(mesh.origin(edge1)), mesh.at(mesh.to(edge1)), mesh.at(mesh.to(edge2))):
                break
            new_edge = create_single_face_between_edge_and_next(mesh, edge1)
            convex_edges[-2:] = [new_edge]
            flips += legalize_edges_after_removal(mesh, [edge1 // 2, edge2 // 2], capacity)
        if len(convex_edges) > 1 and convex_edges[1] == current:
            return flips


def convexity_passes(mesh, capacity):
    """01: "Finish makes the first pass of `fix_convexity`, then repeats passes until one adds no face."
    Answers the flips of all passes and the number of passes."""
    flips, passes = 0, 0
    while True:
        faces_before = mesh.faces
        flips += fix_convexity(mesh, capacity)
        passes += 1
        if mesh.faces == faces_before:
            return flips, passes


def breaks_circle(mesh, u):
    """01: "where both half-edges of edge u have a far vertex and that of 2u+1 is strictly inside the
    circle of 2u's triangle" """
    e, t = 2 * u, 2 * u + 1
    far_e, far_t = mesh.far(e), mesh.far(t)
    if far_e is None or far_t is None:
        return False
    corners = [mesh.at(mesh.origin(e)), mesh.at(mesh.to(e)), mesh.at(far_e)]
    return incircle(*corners, mesh.at(far_t)) > 0


def closing_pass(mesh):
    """01: "It tests the edges by rising number from 0 .. a turn that flipped is followed by another from
    0, and one that flipped nothing ends the pass." Answers the count."""
    count = 0
    while True:
        flipped = False
        for u in range(mesh.edges):
            if breaks_circle(mesh, u):
                flip_cw(mesh, u)
                count += 1
                flipped = True
        if not flipped:
            return count


def convexity(mesh, capacity):
    """Answers faces added and flips."""
    faces_before = mesh.faces
    flips, _ = convexity_passes(mesh, capacity)
    return mesh.faces - faces_before, flips


# ---------------------------------------------------------------------------------------------------
# Skipped points: the search


INTO, ON_EDGE, OUTSIDE, ON_VERTEX = 6, 7, 8, 9
SKIPPED = (3, 4, 5)


class TooManyTurns(Exception):
    """Change 2: "where a loop of it would take more turns than the mesh has half-edges" """


def side(mesh, e, target):
    """`side_query` of a half-edge: positive on its left.  Change 3: "walks .. take their decision from its
    sign" """
    return orient2d(mesh.at(mesh.origin(e)), mesh.at(mesh.to(e)), target)


def distance_2(a, b):
    return (a[0] - b[0]) ** 2 + (a[1] - b[1]) ** 2


def walk_to_nearest_neighbor(mesh, start, target):
    """002: to the end of the first out edge that is strictly closer, until there is none."""
    vertex, turns_left = start, 2 * mesh.edges
    while True:
        closest = distance_2(mesh.at(vertex), target)
        closer = [v for v in (mesh.to(e) for e in turn_about(mesh, vertex))
                  if distance_2(mesh.at(v), target) < closest]
        if not closer:
            return vertex
        if turns_left == 0:
            raise TooManyTurns
        turns_left -= 1
        vertex = closer[0]


def walk_to_target(mesh, start, target):
    """002, `locate_with_hint_fixed_core` from the closest vertex on: the rotating loop, line by line.
    Answers a fate and the face, edge or vertex that was met."""
    e0 = mesh.outs[start]
    query = side(mesh, e0, target)
    rotate_ccw = query >= 0
    turns_left = 2 * mesh.edges
    while True:
        if turns_left == 0:
            raise TooManyTurns
        turns_left -= 1
        if mesh.at(mesh.origin(e0)) == target:
            return ON_VERTEX, mesh.origin(e0)
        if mesh.at(mesh.to(e0)) == target:
            return ON_VERTEX, mesh.to(e0)
        if query == 0:
            if mesh.face(e0) == 0:
                e0 = rev(e0)
            e0 = mesh.prev(e0)
            query = side(mesh, e0, target)
            rotate_ccw = query >= 0
            continue
        e1 = e0 if rotate_ccw else rev(e0)
        if mesh.face(e1) == 0:
            return OUTSIDE, e1
        rotated = rev(mesh.prev(e0)) if rotate_ccw else mesh.next(rev(e0))
        rotated_query = side(mesh, rotated, target)
        if rotated_query == 0 or (rotated_query > 0) == rotate_ccw:
            e0, query = rotated, rotated_query
            continue
        e2 = mesh.next(e1) if rotate_ccw else mesh.prev(e1)
        e2_query = side(mesh, e2, target)
        if e2_query == 0:
            return ON_EDGE, e2
        if e2_query > 0:
            return INTO, mesh.face(e1)
        e0, query = rev(e2), -e2_query
        if mesh.face(e0) != 0:
            e0 = mesh.prev(e0)
            query = side(mesh, e0, target)
        rotate_ccw = query >= 0


def scan(mesh, target):
    """Change 2: "a scan of the triangles by number, then of the boundary, decides by its first hit, edges
    by next from the stored one". A triangle has its corners, its sides and its inside."""
    for f in range(1, mesh.faces):
        around = cycle(mesh.next, mesh.stored[f], 3)
        sides = [side(mesh, e, target) for e in around]
        if min(sides) < 0:
            continue
        for e, s in zip(around, sides):
            if mesh.at(mesh.origin(e)) == target:
                return ON_VERTEX, mesh.origin(e)
            if s == 0 and mesh.at(mesh.to(e)) != target:
                return ON_EDGE, e
        return INTO, f
    for e in boundary(mesh):
        if side(mesh, e, target) > 0:
            return OUTSIDE, e
    raise AssertionError("every point is in a triangle or left of a boundary edge")


def search(mesh, target):
    """Change 2: "The search starts at vertex 0" """
    try:
        return walk_to_target(mesh, walk_to_nearest_neighbor(mesh, 0, target), target)
    except TooManyTurns:
        return scan(mesh, target)


# ---------------------------------------------------------------------------------------------------
# Skipped points go in (002, `insert_with_hint_option_impl`)


def legalize_vertex(mesh, vertex, capacity):
    """002; the edges that it collects are no pending entries, and each is legalized with a list of its own.
    Answers the flips."""
    edges = [mesh.next(e) for e in turn_about(mesh, vertex) if mesh.face(e) != 0]
    return sum(legalize_edge(mesh, e, capacity) for e in edges)


def insert_on_edge(mesh, edge, point, z):
    """002; the edge is a triangle's own half-edge. Answers the vertex."""
    if mesh.face(rev(edge)) == 0:
        return split_half_edge(mesh, edge, point, z)
    return split_edge(mesh, edge, point, z)


def insert_outside_of_convex_hull(mesh, edge, point, z, capacity):
    """002; answers the vertex and the flips."""
    vertex = create_new_face_adjacent_to_edge(mesh, edge, point, z)
    ccw_walk_start, cw_walk_start = rev(mesh.prev(edge)), rev(mesh.next(edge))
    flips = legalize_edge(mesh, edge, capacity)

    current = ccw_walk_start
    while side(mesh, mesh.prev(current), point) > 0:
        before = mesh.prev(current)
        current = create_single_face_between_edge_and_next(mesh, before)
        flips += legalize_edge(mesh, before, capacity)

    current = cw_walk_start
    while side(mesh, mesh.next(current), point) > 0:
        after = mesh.next(current)
        current = create_single_face_between_edge_and_next(mesh, current)
        flips += legalize_edge(mesh, after, capacity)
    return vertex, flips


def insert_skipped(mesh, point, z, capacity):
    """Change 2: "into a triangle (fate 6), on an edge (7), outside (8), or on an existing vertex (9: that
    vertex takes the new height)"; "Fates 6 to 9 give their vertex, with the inner faces that the insertion
    adds and its flips .. for fate 9 both are 0." """
    faces_before = mesh.faces
    fate, met = search(mesh, point)
    if fate == ON_VERTEX:
        mesh.heights[met] = z
        return (fate, met, 0, 0)
    if fate == OUTSIDE:
        vertex, flips = insert_outside_of_convex_hull(mesh, met, point, z, capacity)
    else:
        put = insert_into_triangle if fate == INTO else insert_on_edge
        vertex = put(mesh, met, point, z)
        flips = legalize_vertex(mesh, vertex, capacity)
    return (fate, vertex, mesh.faces - faces_before, flips)


# ---------------------------------------------------------------------------------------------------
# The seed grows (Change 6; 002, `insert_with_hint_option_impl` by the number of vertices, and 000, `bulk_load`)


PARTS = 1 << 25  # the centre is a whole number of 2^-25
THIRD = 11184811  # of these parts in the Rust's 1f32 / 3f32
MET, SPLIT, OFF, BEYOND = "OnVertex", "OnEdge", "NotOnLine", "ExtendingLine"


def locate_when_all_vertices_on_line(mesh, point):
    """002: off the line, by half-edge 0 or its reverse; else by the vertices in the order of x, then y. Answers which
    it is, and the vertex or half-edge."""
    query = side(mesh, 0, point)
    if query != 0:
        return OFF, 0 if query > 0 else 1
    vertices = sorted(range(mesh.vertices), key=mesh.at)
    index = sum(mesh.at(v) < point for v in vertices)
    if index < mesh.vertices and mesh.at(vertices[index]) == point:
        return MET, vertices[index]
    if index == 0 or index == mesh.vertices:
        return BEYOND, vertices[min(index, mesh.vertices - 1)]
    after, before = vertices[index], vertices[index - 1]
    return SPLIT, next(e for e in turn_about(mesh, after) if mesh.to(e) == before)


def insert_when_all_vertices_on_line(mesh, point, z, capacity):
    """002. Change 6: "one on an existing vertex Change 2's fate 9", so that the vertex takes the height."""
    faces_before, flips = mesh.faces, 0
    place, found = locate_when_all_vertices_on_line(mesh, point)
    if place == MET:
        mesh.heights[found] = z
        return (9, found, 0, 0)
    if place == OFF:
        vertex, flips = insert_outside_of_convex_hull(mesh, found, point, z, capacity)
    elif place == SPLIT:
        vertex = split_edge_when_all_vertices_on_line(mesh, found, point, z)
    else:
        vertex = extend_line(mesh, found, point, z)
    return (1, vertex, mesh.faces - faces_before, flips)


def insert_first_vertex(mesh, point, z):
    """Change 6: "it may hold one vertex (its links 0)": its out edge and face 0's stored edge."""
    vertex = append_unconnected_vertex(mesh, point, z)
    mesh.outs[vertex] = mesh.stored[0] = 0
    mesh.faces = 1
    return (1, vertex, 0, 0)


def insert_second_vertex(mesh, point, z):
    """002"""
    if mesh.at(0) == point:
        mesh.heights[0] = z
        return (9, 0, 0, 0)
    vertex = append_unconnected_vertex(mesh, point, z)
    setup_initial_two_vertices(mesh, 0, vertex)
    return (1, vertex, 0, 0)


def grow(mesh, point, z, capacity):
    """Change 6: "A point placed in this phase has fate 1 with its vertex and the counts as in Change 2, one on an
    existing vertex Change 2's fate 9." Answers fate, vertex, faces, flips."""
    if mesh.vertices == 0:
        return insert_first_vertex(mesh, point, z)
    if mesh.vertices == 1:
        return insert_second_vertex(mesh, point, z)
    if mesh.faces == 1:
        return insert_when_all_vertices_on_line(mesh, point, z, capacity)
    fate, vertex, faces, flips = insert_skipped(mesh, point, z, capacity)
    return (9 if fate == ON_VERTEX else 1, vertex, faces, flips)


def holds(mesh, f, target):
    """Whether the position, in whole parts, is strictly inside an inner face."""
    corners = [tuple(PARTS * c for c in p) for p in face_corners(mesh, f)]
    return all(left(corners[i - 1], corners[i], target) for i in range(3))


def hull_centre(mesh):
    """000, `try_get_hull_center` of the last three vertices by number: the centre where a triangle has it strictly
    inside, else None. Change 6: "The centre is worked out with the Rust's own float steps"; each of them is exact."""
    if mesh.faces < 2:
        return None
    last = [mesh.at(v) for v in range(mesh.vertices - 3, mesh.vertices)]
    target = tuple(THIRD * sum(c) for c in zip(*last))
    if not any(holds(mesh, f, target) for f in range(1, mesh.faces)):
        return None
    return tuple(float(c) / PARTS for c in target)


def start_of_sweep(mesh):
    """Change 6: "until `try_get_hull_center` and `Hull::from_triangulation` succeed with a strict ring". The centre,
    or None."""
    centre = hull_centre(mesh)
    if centre is not None:
        try:
            refuse_centre(mesh, centre)
            refuse_ring(mesh, centre)
        except Refusal:
            centre = None
    return centre


# ---------------------------------------------------------------------------------------------------
# Volume


def six_volumes(mesh, level):
    """Change 1: "six times the signed volume between the mesh and a level L, exactly: over all triangles,
    doubled area times (the three heights minus 3L)" """
    total = 0
    for f in range(1, mesh.faces):
        heights = [mesh.heights[v] for v in face_vertices(mesh, f)]
        total += orient2d(*face_corners(mesh, f)) * (sum(heights) - 3 * level)
    return total


def two_halves(number):
    """Change 1: "A number past 64 bits .. is two's complement in a high and a low 64-bit half." """
    pattern = number % (1 << 128)
    return (pattern >> 64, pattern % (1 << 64))


def cubic_metres(six):
    """Change 1: "that volume in cubic metres (10^9 mm³), rounded to the nearest whole"; Change 7: "rounds a half
    cubic metre to the even whole: 2.5 gives 2, 3.5 gives 4, -2.5 gives -2" """
    whole, rest = divmod(abs(six), CUBIC_METRE)
    if 2 * rest > CUBIC_METRE or 2 * rest == CUBIC_METRE and whole % 2 == 1:
        whole += 1
    return whole if six > 0 else -whole


# ---------------------------------------------------------------------------------------------------
# Quotes


NO_QUOTE = (0, 0, 0, 0, 0, 0)


def asked(mesh, point, centre):
    """Change 5: "Asking gives the fate number and faces of a step's answer". Neither depends on a flip, for the
    faces are one for each boundary edge that the walks find, so both are given also where the step would be
    refused 9; the faces are 0 unless the fate is 1."""
    fate, edge = fate_of(mesh, point, centre)
    if fate != 1:
        return (fate, 0)
    return (fate, len(chain_of(mesh, edge, point, pseudo_angle(point, centre), centre)))


def quote_of(mesh, point, z, centre):
    """Change 5: "A quote carries the mesh's change count"; the point that it is for is x, y and z."""
    return (mesh.changes, *point, z, *asked(mesh, point, centre))


def refuse_quote(mesh, point, z, centre, quote):
    """11, Change 5: "the quote's count or point isn't the present one, or its fate or faces differ from what
    asking gives now". No place is named for it, so it is 0."""
    changes, x, y, height, fate, faces = quote
    if changes != mesh.changes:
        raise Refusal(11)
    if (x, y, height) != (*point, z):
        raise Refusal(11)
    if (fate, faces) != asked(mesh, point, centre):
        raise Refusal(11)


def refuse_end(mesh):
    """12, Change 5: "the change count is at its end"; "The count stops at 4,294,967,295 and no quote is given
    there." No place is named for it, so it is 0."""
    if mesh.changes == MOST_CHANGES:
        raise Refusal(12)


# ---------------------------------------------------------------------------------------------------
# The public calls: 01's five, the volume, the area total, the side query, those of quotes, and that of bare points


class Lent:
    """The rows that a call is lent besides the mesh's."""

    def __init__(self, nodes=(), freed=(), buckets=(), pending=(), answers=()):
        self.nodes, self.freed, self.buckets = list(nodes), list(freed), list(buckets)
        self.pending, self.answers = list(pending), list(answers)

    def clear_ring(self):
        """01: "After 9 and after every accepted call the ring, freed, bucket and pending rows hold
        zeros" """
        self.nodes[:] = [0] * len(self.nodes)
        self.freed[:] = [0] * len(self.freed)
        self.buckets[:] = [0] * len(self.buckets)

    def clear_pending(self):
        self.pending[:] = [0] * len(self.pending)


def lent_for(n, pending, points=0):
    """Rows of exactly the sizes that 01 names for N vertices."""
    return Lent([7] * (n + 1), [7] * (n + 1), [7] * max(16, n), [7] * pending, [7] * (WORDS * points))


def check(mesh):
    """Answers (number, place), (0, 0) for an accepted mesh.  01: "Check needs the mesh's rows only" """
    try:
        refuse_count(mesh.vertices)
        refuse_mesh_rows(mesh, mesh.vertices)
        refuse_coordinates(mesh, [])
        refuse_heights(mesh, [])
        refuse_mesh(mesh)
    except Refusal as r:
        return (r.number, r.place)
    return (0, 0)


def locate(mesh, lent, centre, angle):
    """Answers (0, 0, edge, nodes passed) or (number, place, 0, 0).  01: "locate those and the ring's" """
    try:
        refuse_count(mesh.vertices)
        refuse_mesh_rows(mesh, mesh.vertices)
        refuse_ring_rows(lent, mesh.vertices)
        refuse_coordinates(mesh, [])
        refuse_heights(mesh, [])
        refuse_mesh(mesh)
        refuse_centre(mesh, centre)
        refuse_ring(mesh, centre)
        refuse_angle(angle)
    except Refusal as r:
        return (r.number, r.place, 0, 0)
    ring = merge(boundary_angles(mesh, centre))
    passed = nodes_passed(ring, angle)
    assert passed == nodes_passed_by_walk(ring, angle)
    lent.clear_ring()
    return (0, 0, located(ring, angle), passed)


def refuse_run(mesh, lent, centre, points, answered, heights=None):
    """The checks of step and run, from the top of the table down."""
    heights = [0] * len(points) if heights is None else heights
    n = mesh.vertices + len(points)
    refuse_count(n)
    refuse_mesh_rows(mesh, n)
    refuse_ring_rows(lent, n)
    refuse_pending_row(lent)
    refuse_point_row(points)
    refuse_height_row(points, heights)
    refuse_answer_row(lent, answered)
    refuse_coordinates(mesh, points)
    refuse_heights(mesh, heights[:len(points)])
    refuse_mesh(mesh)
    refuse_centre(mesh, centre)
    refuse_ring(mesh, centre)


def refuse_bulk_load(mesh, lent, points, zs):
    """Change 6: "the 1,000,000 limit counts all points, and fewer than 3 is no refusal in this call. It needs a run's
    rows". 3 names the point's index; there is no mesh, so 4 to 7 refuse nothing."""
    count = len(points)
    if count > MOST_VERTICES:
        raise Refusal(1)
    refuse_mesh_rows(mesh, count)
    refuse_ring_rows(lent, count)
    refuse_pending_row(lent)
    refuse_point_row(points)
    refuse_height_row(points, zs)
    refuse_answer_row(lent, count)
    refuse_positions(points)
    refuse_heights(mesh, zs[:count])


def step(mesh, lent, centre, point, z=0):
    """Answers (number, place, answer).  The answer is given back, not written to a row."""
    try:
        refuse_run(mesh, lent, centre, [point], 0, [z])
    except Refusal as r:
        return (r.number, r.place, (0, 0, 0, 0))
    try:
        answer, number = one_step(mesh, point, centre, len(lent.pending), z), 0
    except PendingFull:
        answer, number = (0, 0, 0, 0), 9
    lent.clear_ring()
    lent.clear_pending()
    return (number, 0, answer)


def ask(mesh, lent, centre, point, z=0):
    """Answers (number, place, quote).  Change 5: "Both make a step's checks", so the point is counted; "on a
    locate's rows", so pending is not lent; it takes no quote, so 12 comes after 7. Asking "leaves the mesh
    alone". """
    n = mesh.vertices + 1
    try:
        refuse_count(n)
        refuse_mesh_rows(mesh, n)
        refuse_ring_rows(lent, n)
        refuse_coordinates(mesh, [point])
        refuse_heights(mesh, [z])
        refuse_mesh(mesh)
        refuse_centre(mesh, centre)
        refuse_ring(mesh, centre)
        refuse_end(mesh)
    except Refusal as r:
        return (r.number, r.place, NO_QUOTE)
    lent.clear_ring()
    return (0, 0, quote_of(mesh, point, z, centre))


def commit(mesh, lent, centre, point, quote, z=0):
    """Answers (number, place, answer).  Change 5: "Committing takes the quote and the point, and gives the mesh and
    answer that a step gives, on a step's rows"; 11 is "checked after 7", 12 "after 11"; the change count "rises by
    one with each commit that adds a vertex or is refused 9". """
    try:
        refuse_run(mesh, lent, centre, [point], 0, [z])
        refuse_quote(mesh, point, z, centre, quote)
        refuse_end(mesh)
    except Refusal as r:
        return (r.number, r.place, (0, 0, 0, 0))
    number, place, answer = step(mesh, lent, centre, point, z)
    if answer[0] == 1 or number == 9:
        mesh.changes += 1
    return (number, place, answer)


def finish(mesh, lent):
    """Answers (number, place, faces added, convexity flips, closing flips).  01: "finish those of the
    mesh and pending" """
    try:
        refuse_count(mesh.vertices)
        refuse_mesh_rows(mesh, mesh.vertices)
        refuse_pending_row(lent)
        refuse_coordinates(mesh, [])
        refuse_heights(mesh, [])
        refuse_mesh(mesh)
    except Refusal as r:
        return (r.number, r.place, 0, 0, 0)
    try:
        answer = (0, 0) + convexity(mesh, len(lent.pending)) + (closing_pass(mesh),)
    except PendingFull:
        answer = (9, 0, 0, 0, 0)
    lent.clear_pending()
    return answer


def put_answer(row, i, answer):
    """The answer of point i, to the row."""
    row[WORDS * i:WORDS * i + WORDS] = answer


def answer_at(row, i):
    """The answer of point i, back from the row."""
    fate, vertex, faces, flips = row[WORDS * i:WORDS * i + WORDS]
    return (fate, vertex, faces, flips)


def clear_answers(lent, points):
    """Until it is in, a point answers 0."""
    lent.answers[:WORDS * len(points)] = [0] * (WORDS * len(points))


def swept(mesh, lent, centre, points, heights, first=0):
    """The sweep of the points from the index `first` on. Answers (number, place, faces added, convexity flips, closing
    flips); the points' answers go to the row.  01: "A run takes its points in list order." Change 2: "After convexity
    and before the closing pass, points of fates 3, 4 and 5 are inserted in list order"; "Convexity passes then repeat
    until one adds no face." """
    capacity, skipped = len(lent.pending), []
    try:
        for place in range(first, len(points)):
            answer = one_step(mesh, points[place], centre, capacity, heights[place])
            if answer[0] in SKIPPED:
                skipped.append(place)
            else:
                put_answer(lent.answers, place, answer)
        place = len(points)
        faces, flips = convexity(mesh, capacity)
        for place in skipped:
            put_answer(lent.answers, place, insert_skipped(mesh, points[place], heights[place], capacity))
        place = len(points)
        more_faces, more_flips = convexity(mesh, capacity)
        answer = (0, 0, faces + more_faces, flips + more_flips, closing_pass(mesh))
    except PendingFull:
        # 9 "answers the point's index (.. the point count in a finish within a run ..)"; Change 2: "A 9 met
        # here names that point's index"
        answer = (9, place, 0, 0, 0)
    return answer


def run(mesh, lent, centre, points, heights=None):
    """Answers as `swept`. A run that is refused by a check leaves the change count, one that is refused 9 was made. """
    heights = [0] * len(points) if heights is None else heights
    try:
        refuse_run(mesh, lent, centre, points, len(points), heights)
    except Refusal as r:
        return (r.number, r.place, 0, 0, 0)
    mesh.changes = 0  # Change 5: "the run starts it at 0"
    clear_answers(lent, points)
    answer = swept(mesh, lent, centre, points, heights)
    lent.clear_ring()
    lent.clear_pending()
    return answer


def grown(mesh, lent, points, heights):
    """Change 6: "The seed grows from the front of the list". Answers whether 9 was met, how many points are in before
    that, and the centre, None where the list ends first. After 9 no later point is looked at."""
    count, centre = 0, None
    try:
        while count < len(points) and centre is None:
            put_answer(lent.answers, count, grow(mesh, points[count], heights[count], len(lent.pending)))
            count, centre = count + 1, start_of_sweep(mesh)
    except PendingFull:
        return True, count, None
    return False, count, centre


def bulk_load(mesh, lent, points, heights=None):
    """Answers (number, place, vertices, edges, faces, change count, line, faces added, convexity flips, closing flips):
    all 0 but number and place where a check refuses.  Change 6: "If the list ends first, the answer is the mesh so
    far, finished if it has a triangle, else marked as a line of points." """
    heights = [0] * len(points) if heights is None else heights
    try:
        refuse_bulk_load(mesh, lent, points, heights)
    except Refusal as r:
        return (r.number, r.place, 0, 0, 0, 0, 0, 0, 0, 0)
    mesh.changes, line = 0, 0  # Change 6: "starts the change count at 0"
    clear_answers(lent, points)
    full, count, centre = grown(mesh, lent, points, heights)
    if full:
        number, place, *totals = (9, count, 0, 0, 0)
    elif mesh.faces < 2:
        number, place, *totals = (0, 0, 0, 0, 0)
        line = 1
    else:  # where the list has ended, the finish alone
        number, place, *totals = swept(mesh, lent, centre, points, heights, count)
    lent.clear_ring()
    lent.clear_pending()
    return (number, place, *mesh.counts(), mesh.changes, line, *totals)


def volume(mesh, level):
    """Answers (number, place, high half, low half, cubic metres).  Change 1: "A new call that names no rows
    needs the mesh's only." """
    try:
        refuse_count(mesh.vertices)
        refuse_mesh_rows(mesh, mesh.vertices)
        refuse_coordinates(mesh, [])
        refuse_heights(mesh, [level])
        refuse_mesh(mesh)
    except Refusal as r:
        return (r.number, r.place, 0, 0, 0)
    six = six_volumes(mesh, level)
    return (0, 0) + two_halves(six) + (cubic_metres(six),)


def area_total(mesh):
    """Answers (number, place, high half, low half): Change 3's area total, past 64 bits as Change 1 says it, of a
    mesh that a check accepts; else the check's refusal."""
    number, place = check(mesh)
    if number:
        return (number, place, 0, 0)
    return (0, 0) + two_halves(inner_area(mesh))


def side_query(a, b, c):
    """Answers (number, place, doubled area): Change 3's side test of three positions that are in range; else 3, and
    the first that is not, 0 for a, 1 for b, 2 for c."""
    try:
        refuse_positions([a, b, c])
    except Refusal as r:
        return (r.number, r.place, 0)
    return (0, 0, orient2d(a, b, c))


# ---------------------------------------------------------------------------------------------------
# The listing program


def seed_triangle(corners, n):
    """Half-edges 0, 2, 4 are v0 -> v1, v1 -> v2, v2 -> v0 in face 1, the odd ones their reverses in face
    0; rows lent for n vertices."""
    mesh = Mesh([0] * (2 * n), [0] * n, [0] * (24 * n), [0] * (2 * n), 3, 3, 2, [0] * n)
    for v, (x, y) in enumerate(corners):
        mesh.positions[2 * v:2 * v + 2] = [x, y]
        mesh.outs[v] = 2 * v
        put_half(mesh, 2 * v, 2 * ((v + 1) % 3), 2 * ((v + 2) % 3), 1, v)
        put_half(mesh, 2 * v + 1, 2 * ((v + 2) % 3) + 1, 2 * ((v + 1) % 3) + 1, 0, (v + 1) % 3)
    mesh.stored[0], mesh.stored[1] = 1, 0
    return mesh


LISTING_MOST, LISTING_PENDING = 400, 4096


def numbers_of(line, tag, count):
    """A line's numbers, None if it is malformed: the tag and exactly `count` whole numbers of 32 signed
    bits, one blank between two fields."""
    fields = line.split(b" ")
    if len(fields) != count + 1 or fields[0] != tag:
        return None
    numbers = []
    for field in fields[1:]:
        digits = field[1:] if field[:1] == b"-" else field
        if not digits or any(d not in b"0123456789" for d in digits):
            return None
        value = int(digits) if digits is field else -int(digits)
        if not -2 ** 31 <= value < 2 ** 31:
            return None
        numbers.append(value)
    return numbers


def listing(text):
    """01: "It prints `p index fate vertex faces flips` per point, then `t ..`. A refusal prints `r number
    place` alone; a line that is malformed, missing, out of order or past the 400 prints `r 0 line`
    alone, lines from 1." """
    lines = text.split(b"\n")
    if lines[-1] == b"":
        lines.pop()  # bytes after the last line feed are a line unless there are none
    wanted = [(b"S", 6), (b"C", 2)]
    read = []
    for i, line in enumerate(lines):
        tag, count = wanted[i] if i < 2 else (b"P", 2)
        numbers = numbers_of(line, tag, count)
        if numbers is None or i - 2 >= LISTING_MOST - 3:
            return b"r 0 %d\n" % (i + 1)
        read.append(numbers)
    if len(read) < 2:
        return b"r 0 %d\n" % (len(read) + 1)

    s, centre, points = read[0], read[1], [tuple(p) for p in read[2:]]
    n = 3 + len(points)
    mesh = seed_triangle([(s[0], s[1]), (s[2], s[3]), (s[4], s[5])], n)
    lent = lent_for(n, LISTING_PENDING, len(points))
    number, place, faces, convex, closing = run(mesh, lent, (float(centre[0]), float(centre[1])), points)
    if number:
        return b"r %d %d\n" % (number, place)
    out = [b"p %d %d %d %d %d\n" % ((i,) + answer_at(lent.answers, i)) for i in range(len(points))]
    out.append(b"t %d %d %d %d %d %d %d\n" % (mesh.vertices, mesh.edges, mesh.faces - 1,
                                             boundary_area(mesh), faces, convex, closing))
    return b"".join(out)


if __name__ == "__main__":
    import sys
    sys.stdout.buffer.write(listing(sys.stdin.buffer.read()))
