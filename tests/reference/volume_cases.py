"""Meshes, heights and levels for the calls `volume` and `area_total`, with the two halves and the cubic metres, or the
refusal, and the two halves of the area total, or its refusal.

    python3 volume_cases.py > lists/volume.txt

The named cases have six times their volume written here by hand; the halves and the cubic metres are worked
out here from that number in another way than sweep.py has it, and both are held against sweep.py. The answers
of the random meshes come from sweep.py, each held against a sum over single heights. The area totals of most are
written here as well; all are held against the boundary and against another formula.
"""

import fractions
import random

import check_cases
import heights
import lists
import meshes
import sweep

LIMIT = heights.LIMIT
WORD = 1 << 64
LARGEST = 2 * sweep.LIMIT  # difference of two coordinates


def pattern(number):
    """A whole number as 64 bits in two's complement."""
    assert -WORD // 2 <= number < WORD // 2
    return number if number >= 0 else number + WORD


def add(out, name, mesh, level, number=0, place=0, six=None, tags=lists.HIGH, area=None, bare=None):
    """A case; where the number is 0 the six volumes are these, if they are told. `bare` are the number and place of
    the area total where they are others, because it has no level; where it is not refused it is this, if it is told."""
    before = mesh.copy()
    answer, total = sweep.volume(mesh, level), sweep.area_total(mesh)
    assert mesh.rows() == before.rows() and answer[:2] == (number, place), (name, answer)
    if number:
        assert answer[2:] == (0, 0, 0)
    else:
        assert six is None or answer[2:] == told(six), (name, six, answer)
    assert total[:2] == (bare or (number, place)), (name, total)
    if total[0]:
        assert total[2:] == (0, 0)
    else:
        twice = twice_area(mesh)
        assert area in (None, twice) and total[2:] == divmod(twice, WORD), (name, area, total)
    out.remark(name)
    out.add(*lists.mesh_lines(mesh, tags), lists.line("l", [level]),
            lists.line("r", answer[:4] + (pattern(answer[4]),)), lists.line("a", total))


def twice_area(mesh):
    """The doubled area in two other ways: round the boundary, and of each triangle by columns."""
    columns = 0
    for f in range(1, mesh.faces):
        (ax, ay), (bx, by), (cx, cy) = sweep.face_corners(mesh, f)
        columns += ax * (by - cy) + bx * (cy - ay) + cx * (ay - by)
    assert columns == sweep.boundary_area(mesh) > 0
    return columns


def told(six):
    """The halves as a signed and an unsigned number put together again, and the cubic metres as the whole
    number that is nearest: of two that are as near, the even one."""
    high, low = divmod(six, WORD)
    metre = sweep.CUBIC_METRE
    near = [six // metre, six // metre + 1]
    nearest = min(near, key=lambda m: (abs(m * metre - six), m % 2))
    assert nearest == round(fractions.Fraction(six, metre)), "Python's own rounding, which is to even"
    return (high % WORD, low, nearest)


def triangle_of(area, turn=0):
    """A triangle of just this doubled area, its vertices in any of three orders."""
    wide = next(w for w in (60000, LARGEST) if (area + w - 1) // w <= LARGEST)
    tall = (area + wide - 1) // wide
    corners = [(0, 0), (wide, wide * tall - area), (1, tall)]
    if max(wide, tall) > sweep.LIMIT:
        corners = [(x - sweep.LIMIT, y - sweep.LIMIT) for x, y in corners]
    corners = corners[turn % 3:] + corners[:turn % 3]
    assert sweep.orient2d(*corners) == area
    return check_cases.triangle(*corners)


def heights_of(total):
    """Three heights with this sum, which differ where the limits leave room."""
    third, rest = divmod(total, 3)
    by = min(5, LIMIT - 1 - max(third, -third)) if abs(third) < LIMIT else 0
    found = [third + by + (rest > 0), third + (rest > 1), third - by]
    assert sum(found) == total and all(abs(z) <= LIMIT for z in found), total
    return found


def made(area, factor, level, turn=0):
    """A triangle of this doubled area whose three heights minus three levels are this factor."""
    return heights.put(triangle_of(area, turn), heights_of(factor + 3 * level)), level


def extremes(out):
    """The largest triangle between the limits of heights and levels."""
    big = sweep.LIMIT
    largest = heights.put(check_cases.triangle((-big, -big), (big, -big), (-big, big)), [LIMIT] * 3)
    deepest = heights.put(largest, [-LIMIT] * 3)
    add(out, "the largest triangle, highest above the lowest level", largest, -LIMIT, six=6 << 70, area=1 << 50)
    add(out, "the largest triangle, lowest below the highest level", deepest, LIMIT, six=-6 << 70, area=1 << 50)
    add(out, "the largest triangle, one height one less", heights.at(largest, 1, LIMIT - 1), -LIMIT,
        six=(6 << 70) - (1 << 50))
    add(out, "the largest triangle, one height one more", heights.at(deepest, 2, 1 - LIMIT), LIMIT,
        six=(1 << 50) - (6 << 70))
    add(out, "the largest triangle, the level one nearer", largest, 1 - LIMIT, six=(6 << 70) - (3 << 50))
    for level in (0, LIMIT, -LIMIT):
        flat = heights.put(largest, [level] * 3)
        add(out, "every height at the level", flat, level, six=0)
        add(out, "the level at a limit or 0", largest, level, six=3 * (LIMIT - level) << 50)
    small = heights.put(check_cases.triangle((0, 0), (1, 0), (0, 1)), [5, 6, 7])
    add(out, "the smallest triangle", small, 6, six=0, area=1)
    add(out, "the smallest triangle, the level one lower", small, 5, six=3)
    add(out, "the smallest triangle, the level one higher", small, 7, six=-3)
    for v in range(3):
        for z in (1, -1, LIMIT, -LIMIT):
            one = heights.put(small, [z if i == v else 0 for i in range(3)])
            add(out, "one height alone", one, 0, six=z)
    add(out, "no heights row: zeros", check_cases.square(), -7, six=32 * 21, tags="mpohf", area=32)
    add(out, "no heights row: zeros", check_cases.square(), 0, six=0, tags="mpohf")


def halves(out):
    """Cubic metres: exact halves on both sides of zero, above an even and an odd whole, with every rest from two less
    than a half to two more, and whole numbers."""
    metre = sweep.CUBIC_METRE
    for half in (1, 3, 5, 7, 9, 11):
        for sign in (1, -1):
            for more, name in NEAR:
                six = sign * (half * metre // 2 + more)
                mesh, level = made(abs(six), sign, 40 * half)
                add(out, "%d half cubic metres%s" % (sign * half, name), mesh, level, six=six, area=abs(six))
    for half in (1, 3, 5, 7):
        for sign in (1, -1):
            mesh, level = made(10 ** 6, sign * half * 3000, -5, half)
            add(out, "%d half cubic metres, by the heights" % (sign * half), mesh, level,
                six=sign * half * 3 * 10 ** 9, area=10 ** 6)
    for six in (1, -1, metre, -metre, metre - 1, 1 - metre, metre + 1, -metre - 1, 2 * metre, -2 * metre):
        mesh, level = made(abs(six), 1 if six > 0 else -1, 1)
        add(out, "about whole cubic metres", mesh, level, six=six, area=abs(six))
    # Many cubic metres and a half, where a double would no longer tell the neighbours apart: the factor has no
    # divisor in common with two cubic metres, so some area leaves any wanted rest above an even or an odd whole.
    factor = 6291451
    for sign in (1, -1):
        for odd in (0, 1):
            for more, name in NEAR:
                rest = odd * metre + metre // 2 + more
                area = 180000 * metre + rest * pow(factor, -1, 2 * metre) % (2 * metre)
                mesh, level = made(area, sign * factor, -sign * LIMIT)
                assert area * factor % (2 * metre) == rest
                add(out, "an %s number of cubic metres, large, and a half%s" % (("even", "odd")[odd], name), mesh, level,
                    six=sign * area * factor, area=area)


NEAR = ((-2, " less two"), (-1, " less one"), (0, ""), (1, " and one"), (2, " and two"))
WORDS = (  # a number, and a factor of it that heights and a level can have
    (2 ** 63 - 1, 92737), (2 ** 63, 2 ** 20), (2 ** 63 + 1, 43 * 5419), (2 ** 64 - 1, 257 * 641),
    (2 ** 64, 2 ** 21), (2 ** 64 + 1, 274177), (2 ** 65, 2 ** 22), (2 ** 32, 1), (2 ** 32 - 1, 3),
    (2 ** 62, 2 ** 17), (2 ** 63 + 2 ** 62, 3 * 2 ** 18), (2 ** 70, 2 ** 21), (3 * 2 ** 64, 3 * 2 ** 19),
)


def words(out):
    """Numbers about the ends of the halves."""
    for i, (number, factor) in enumerate(WORDS):
        for sign in (1, -1):
            far = abs(factor) > 3 * LIMIT
            level = -sign * LIMIT if far else 100 * i
            assert number % factor == 0
            mesh, level = made(number // factor, sign * factor, level, i)
            add(out, "the number %d" % (sign * number), mesh, level, six=sign * number, area=number // factor)


def cancelling(out):
    """Two triangles of nearly 2^49 each, one above and one below the level: little or nothing is left."""
    big = sweep.LIMIT
    for lower in (0, 1, -1):
        # The second doubled area is larger than the first by `lower`.
        mesh = meshes.of_triangles([(0, -big), (big, 9), (1, big), (1 - big, lower - 9)],
                                   [(0, 1, 2), (0, 2, 3)])
        for level, z in ((0, LIMIT), (0, -LIMIT), (-5, LIMIT - 5)):
            mesh = heights.put(mesh, [level, level + z, level, level - z])
            add(out, "large triangles against each other", mesh, level, six=-z * lower)


def refused(out):
    for name, mesh, number, place in heights.refusals(0):
        add(out, name, mesh, 17, number, place)
    t, s = heights.put(check_cases.triangle()), heights.put(check_cases.square())
    changed, counted, cut, at = check_cases.changed, check_cases.counted, check_cases.cut, heights.at
    flat = changed(s, "p", 7, 0)
    for level in (LIMIT + 1, -LIMIT - 1, heights.MOST, heights.LEAST):
        add(out, "a level beyond", s, level, 10, bare=(0, 0), area=32)
        add(out, "a level beyond, no heights row", check_cases.square(), level, 10, tags="mpohf", bare=(0, 0), area=32)
    for level in heights.BEYOND:
        add(out, "a level beyond and a height beyond", at(s, 3, -level), level, 10)
        add(out, "a level beyond and two vertices", counted(t, 2), level, 1)
        add(out, "a level beyond and 1,000,001 vertices", counted(t, 1000001), level, 1)
        for row in "peohf":
            add(out, "a level beyond and a row one entry short: " + row, cut(t, row), level, 2)
        add(out, "a level and a coordinate beyond", changed(t, "p", 4, sweep.LIMIT + 1), level, 3, 2)
        add(out, "a level, a coordinate and a height beyond",
            at(changed(t, "p", 4, sweep.LIMIT + 1), 0, level), level, 3, 2)
        add(out, "a level beyond and a broken link", changed(t, "h", 0, 4), level, 10, bare=(4, 0))
        add(out, "a level beyond and a flat face", flat, level, 10, bare=(5, 2))
    big = sweep.LIMIT
    for three in (((0, 0), (0, 4), (4, 0)), ((-big, -big), (-big, big), (big, -big))):
        add(out, "a triangle that turns right", heights.put(check_cases.triangle(*three)), 0, 5, 1)
    add(out, "the second face turns right", changed(s, "p", 7, -1), 0, 5, 2)
    for level in (LIMIT, -LIMIT):
        add(out, "a level at the limit", s, level)
        add(out, "a level at the limit and a flat face", flat, level, 5, 2)


def odd_meshes():
    """Lawful meshes that overlap themselves, touch themselves, or go round a vertex twice."""
    yield check_cases.two_fans(True)
    yield check_cases.winding_twice()
    yield check_cases.overlapping()
    yield check_cases.equal_positions()
    yield check_cases.hexagon()
    yield meshes.flat_fan(5)


def often_round(rim, odd=False):
    """Vertex 0 with so many triangles about it, four to each time round, as large as can be; or with two corners one
    nearer, so that the area total is odd."""
    big = sweep.LIMIT
    corners = [(big, big), (-big, big), (-big, -big), (big, -big)]
    points = [corners[i % 4] for i in range(rim)]
    if odd:
        points[:2] = [(big - 1, big), (-big, big - 1)]
    return meshes.of_triangles([(0, 0)] + points, [(0, i + 1, (i + 1) % rim + 1) for i in range(rim)])


TOTALS = (1, 2, 3, 2 ** 31 - 1, 2 ** 31, 2 ** 31 + 1, 2 ** 32 - 1, 2 ** 32, 2 ** 32 + 1, 3 * 2 ** 31, 2 ** 33,
          2 ** 48 + 1, 2 ** 49 - 1, 2 ** 50 - 1, 2 ** 50)


def areas(out):
    """Area totals: about the ends of 32 bits, past the 53 of a double, and where every triangle has a bit of its own.
    Heights and level do not count."""
    for i, area in enumerate(TOTALS):
        z = (5, -LIMIT, LIMIT)[i % 3]
        mesh = heights.put(triangle_of(area, i), [z] * 3, i % 2)
        add(out, "the area total %d" % area, mesh, -z, six=6 * area * z, area=area)
    for count, wide in ((2, 1), (3, sweep.LIMIT), (24, 1), (24, sweep.LIMIT)):
        fan = meshes.fan([(0, 0)] + [(wide, 2 ** i - 1) for i in range(count + 1)])
        for level in (0, LIMIT):
            mesh = heights.put(fan, [level] * fan.vertices)
            add(out, "%d triangles, each twice the one before" % count, mesh, level, six=0, area=(2 ** count - 1) * wide)
    for rim, level in ((4, 0), (56, 7), (252, -LIMIT)):
        odd = heights.put(often_round(rim, True), [level + 1] * (rim + 1))
        area = (rim << 49) - (1 << 26) + 1
        add(out, "%d large triangles about a vertex, an odd total" % rim, odd, level, six=3 * area, area=area)


def apart(mesh, level):
    """Six volumes in another way: the heights of a triangle one by one, and its area by another formula."""
    total = 0
    for f in range(1, mesh.faces):
        a, b, c = sweep.face_vertices(mesh, f)
        (ax, ay), (bx, by), (cx, cy) = (mesh.at(v) for v in (a, b, c))
        area = ax * (by - cy) + bx * (cy - ay) + cx * (ay - by)
        total += sum(area * (mesh.heights[v] - level) for v in (a, b, c))
    return total


def random_meshes(out, rng):
    for mesh in odd_meshes():
        mesh = heights.put(mesh, heights.random_heights(rng, mesh.vertices))
        level = rng.randint(-LIMIT, LIMIT)
        add(out, "a lawful oddity", mesh, level, six=apart(mesh, level))
    for i in range(12):
        area, level = rng.randint(1 << 30, 1 << 49), rng.randint(-LIMIT // 2, LIMIT // 2)
        factor = rng.choice([1, -1]) * rng.randint(1, LIMIT)
        mesh, level = made(area, factor, level, i)
        add(out, "a random triangle", mesh, level, six=area * factor, area=area)
    for i in range(16):
        mesh = meshes.grown(rng, rng.randint(3, 9), rng.choice([4, 1000, 100000, sweep.LIMIT]), flips=9)
        mesh = meshes.renumbered(mesh, rng)
        mesh = heights.put(mesh, heights.random_heights(rng, mesh.vertices), i % 3)
        level = heights.random_heights(rng, 1)[0]
        add(out, "random %d" % i, mesh, level, six=apart(mesh, level))
    for rim, z, level in ((8, LIMIT, -LIMIT), (12, -LIMIT, LIMIT), (56, LIMIT, -LIMIT)):
        mesh = heights.put(often_round(rim), [z] * (rim + 1))
        add(out, "%d large triangles about a vertex" % rim, mesh, level, six=rim * 3 * (z - level) << 49, area=rim << 49)
    mesh = meshes.renumbered(meshes.grown(rng, 40, sweep.LIMIT, flips=99), rng)
    mesh = heights.put(mesh, heights.random_heights(rng, mesh.vertices))
    add(out, "%d vertices" % mesh.vertices, mesh, -12345, six=apart(mesh, -12345))


def main():
    out, rng = lists.List("volume_cases.py"), random.Random(96)
    extremes(out)
    halves(out)
    words(out)
    cancelling(out)
    refused(out)
    random_meshes(out, rng)
    areas(out)
    out.print()


if __name__ == "__main__":
    main()
