"""Samples of side queries and the other exact tests, of angles, segments and buckets, with what they must give.

    python3 samples.py > lists/samples.txt

The values come from exact rational arithmetic: determinants by the sum over permutations, each float
operation of `pseudo_angle` as a rational rounded to the nearest double (ties to even, subnormals
included), buckets and segments by comparing rationals.  Each is then held against sweep.py, which
takes another way.  The format is described in README.md.
"""

import itertools
import math
import random
import struct
from fractions import Fraction

import sweep

LIMIT = sweep.LIMIT


def bits(x):
    return struct.unpack("<Q", struct.pack("<d", x))[0]


def of_bits(b):
    return struct.unpack("<d", struct.pack("<Q", b))[0]


# ---------------------------------------------------------------------------------------------------
# Exact values


def determinant(rows):
    """The sum over permutations."""
    n, total = len(rows), 0
    for perm in itertools.permutations(range(n)):
        sign = (-1) ** sum(perm[i] > perm[j] for i in range(n) for j in range(i + 1, n))
        total += sign * math.prod(rows[i][perm[i]] for i in range(n))
    return total


def sign(x):
    return (x > 0) - (x < 0)


def doubled_area(a, b, c):
    """Shewchuk: the 3x3 determinant with the column of ones."""
    return determinant([[x, y, 1] for x, y in (a, b, c)])


def side_answer(*points):
    """Number, place and doubled area: a point is out of range where the nearest point in range is another."""
    moved = [clip(p) != p for p in points]
    return (3, moved.index(True), 0) if any(moved) else (0, 0, doubled_area(*points))


def incircle_sign(a, b, c, d):
    """Shewchuk: the 4x4 determinant with the column of ones."""
    return sign(determinant([[x, y, x * x + y * y, 1] for x, y in (a, b, c, d)]))


def behind(e1, e2, q):
    """The projection of q falls behind e2: its parameter along e1 -> e2 is above 1."""
    d = (e2[0] - e1[0], e2[1] - e1[1])
    if d == (0, 0):
        return 0
    t = Fraction((q[0] - e1[0]) * d[0] + (q[1] - e1[1]) * d[1], d[0] * d[0] + d[1] * d[1])
    return int(t > 1)


def rounded(x):
    """The double nearest to a rational, ties to even."""
    if x == 0:
        return x
    m = abs(x)
    e = m.numerator.bit_length() - m.denominator.bit_length()
    if m < Fraction(2) ** e:
        e -= 1
    unit = Fraction(2) ** max(e - 52, -1074)
    q = m / unit
    k = q.numerator // q.denominator
    rest = q - k
    if rest > Fraction(1, 2) or (rest == Fraction(1, 2) and k % 2 == 1):
        k += 1
    return (1 if x > 0 else -1) * k * unit


def exact_angle(p, centre):
    """`pseudo_angle` of 000, each operation rounded once."""
    dx = rounded(Fraction(p[0]) - Fraction(centre[0]))
    dy = rounded(Fraction(p[1]) - Fraction(centre[1]))
    q = rounded(dx / rounded(abs(dx) + abs(dy)))
    inner = rounded(3 - q) if dy > 0 else rounded(1 + q)
    return rounded(1 - rounded(inner * Fraction(1, 4)))


def holds(first, second, angle):
    first, second, angle = Fraction(first), Fraction(second), Fraction(angle)
    if first < second:
        return int(first <= angle < second)
    return int(first <= angle or angle < second)


# ---------------------------------------------------------------------------------------------------
# What is sampled


def box(rng, spread):
    return (rng.randint(-spread, spread), rng.randint(-spread, spread))


def clip(p):
    return tuple(max(-LIMIT, min(LIMIT, c)) for c in p)


def corner(rng):
    return (rng.choice([-LIMIT, LIMIT, 0, -LIMIT + 1, LIMIT - 1]),
            rng.choice([-LIMIT, LIMIT, 0, -LIMIT + 1, LIMIT - 1]))


def nearly_on_line(rng, spread):
    """Three points on a line, the last moved by at most one step."""
    dx, dy = box(rng, max(1, spread // 1000))
    a = box(rng, spread // 2)
    i, j = rng.randint(-400, 400), rng.randint(-400, 400)
    b, c = (a[0] + i * dx, a[1] + i * dy), (a[0] + j * dx, a[1] + j * dy)
    c = (c[0] + rng.randint(-1, 1), c[1] + rng.randint(-1, 1))
    return clip(a), clip(b), clip(c)


def on_circle(rng):
    """Four points on a circle of lattice points."""
    r = rng.choice([5, 25, 65, 325, 1105])
    ring = [(x, y) for x in range(-r, r + 1) for y in (math.isqrt(r * r - x * x),)
            if x * x + y * y == r * r]
    ring += [(x, -y) for x, y in ring if y]
    k = rng.randint(1, (LIMIT // 2) // r)
    cx, cy = box(rng, LIMIT // 2 - 1)
    return [(cx + k * x, cy + k * y) for x, y in rng.sample(ring, 4)]


def orient_samples(rng):
    for spread in (2, 10, 1000, LIMIT):
        for _ in range(20):
            yield box(rng, spread), box(rng, spread), box(rng, spread)
    for spread in (1000, 100000, LIMIT):
        for _ in range(25):
            yield nearly_on_line(rng, spread)
    for _ in range(30):
        yield corner(rng), corner(rng), corner(rng)
    p = (LIMIT, -LIMIT)
    yield p, p, p
    yield p, p, (0, 0)
    yield (-LIMIT, -LIMIT), (LIMIT, LIMIT), (0, 0)
    yield (-LIMIT, -LIMIT), (LIMIT, LIMIT), (0, 1)
    yield (-LIMIT, -LIMIT), (LIMIT, LIMIT), (1, 0)
    yield (-LIMIT, -LIMIT), (LIMIT, LIMIT - 1), (LIMIT - 1, LIMIT - 2)


CORNERS = [(-LIMIT, -LIMIT), (LIMIT, -LIMIT), (LIMIT, LIMIT), (-LIMIT, LIMIT)]
NARROW = (1, 2, 1 << 16, 1 << 24, (1 << 31) - 1, 1 << 31, (1 << 31) + 1, (1 << 32) - 1, 1 << 32, (1 << 32) + 1,
          3 << 31, (3 << 31) + 1, 1 << 33, (1 << 33) - 1, 5 << 32, (1 << 40) - 1)


def fibonacci(most):
    """The last three that are at most this: the square of the middle one is one off the product of the others."""
    a, b, c = 0, 1, 1
    while b + c <= most:
        a, b, c = b, c, b + c
    return a, b, c


def told_areas():
    """A doubled area, and three points that have it: the ends of the range, areas about the ends of 32 bits, long thin
    triangles next to 0, and none."""
    a, b, c, d = CORNERS
    for three in ((a, b, c), (b, c, d), (c, d, a), (d, a, b)):
        yield 1 << 50, three
    yield (1 << 50) - 1, (a, (LIMIT, 1 - LIMIT), (1 - LIMIT, LIMIT))
    yield (1 << 50) - 2, (a, (LIMIT, 2 - LIMIT), (1 - LIMIT, LIMIT))
    yield (1 << 50) - (1 << 25), (a, b, (LIMIT, LIMIT - 1))
    yield (1 << 50) - (1 << 26) + 1, (a, (LIMIT - 1, -LIMIT), (-LIMIT, LIMIT - 1))
    yield 1 << 49, ((0, 0), c, d)
    for area in NARROW:
        tall = (area + 65535) // 65536
        yield area, ((0, 0), (65536, 65536 * tall - area), (1, tall))
    most, (x, y, z) = 2 * LIMIT, fibonacci(2 * LIMIT)
    for area, u, v in ((1, (z, y), (y, x)), (-1, (y, x), (z - y, y - x)), (1, (most, most - 1), (1, 1)),
                       (-1, (most, most - 1), (most - 1, most - 2))):
        for sx, sy in ((1, 1), (-1, 1), (-1, -1), (1, -1)):  # from each corner of the range; a mirror turns them
            yield area * sx * sy, [(sx * (p[0] - LIMIT), sy * (p[1] - LIMIT)) for p in ((0, 0), u, v)]
    for three in ((a, c, (0, 0)), (b, d, (0, 0)), (a, c, c), (a, (0, -1), (LIMIT, LIMIT - 2)), (a, b, (1, -LIMIT)),
                  (a, (LIMIT, 0), (0, -LIMIT // 2)), (c, b, (LIMIT, 7))):
        yield 0, three


def area_samples():
    """Those from each of the three points on, turning one way and the other, with what must be answered."""
    for area, (a, b, c) in told_areas():
        for p, q, r in ((a, b, c), (b, c, a), (c, a, b)):
            yield (0, 0, area), (p, q, r)
            yield (0, 0, -area), (q, p, r)


BEYOND = (LIMIT + 1, -LIMIT - 1, (1 << 31) - 1, -1 << 31)
ENDS = (-LIMIT, LIMIT, LIMIT, -LIMIT, LIMIT, LIMIT)
NEAR = (3, -2, 9, 1, 4, 8)


def points_of(six):
    return [tuple(six[i:i + 2]) for i in (0, 2, 4)]


def beyond_samples():
    """What must be answered, if it is told, and three points: each coordinate alone at an end of the range and one
    beyond it; every choice of coordinates out of range, the others at the ends or near 0; then one point out of range
    or all three, with little area or none."""
    for i in range(6):
        for end in (LIMIT, -LIMIT):
            yield None, points_of(NEAR[:i] + (end,) + NEAR[i + 1:])
            yield (3, i // 2, 0), points_of(NEAR[:i] + (end + sign(end),) + NEAR[i + 1:])
    for chosen in [*itertools.product((True, False), repeat=6)][:-1]:  # the last one chooses none
        for turn in range(4):
            values = itertools.cycle(BEYOND[turn:] + BEYOND[:turn])  # each of another sign than the one before
            others = ENDS if turn < 2 else NEAR
            yield (3, chosen.index(True) // 2, 0), points_of([next(values) if c else o for c, o in zip(chosen, others)])
    for x in BEYOND:
        end, inner = sign(x) * LIMIT, x - sign(x)
        for turned in (1, -1):  # out of range in x, then in y
            out, on, by = [p[::turned] for p in ((x, 0), (end, 0), (end, 1))]
            for place in range(3):
                for a, b in ((on, by), (on, on)):
                    yield (3, place, 0), (a, b)[:place] + (out,) + (a, b)[place:]
            yield (3, 0, 0), (out, out, out)
        yield (3, 0, 0), ((x, x), (inner, x), (x, inner))


def circle_samples(rng):
    for spread in (2, 10, 1000, LIMIT):
        for _ in range(20):
            yield [box(rng, spread) for _ in range(4)]
    for _ in range(45):
        yield on_circle(rng)
    for _ in range(45):
        four = on_circle(rng)
        i = rng.randrange(4)
        four[i] = clip((four[i][0] + rng.randint(-1, 1), four[i][1] + rng.randint(-1, 1)))
        yield four
    for _ in range(40):
        yield [corner(rng) for _ in range(4)]
    for _ in range(10):  # on one line, and with repeated points
        a, b, c = nearly_on_line(rng, LIMIT)
        yield [a, b, c, a]
        yield [a, b, (2 * a[0] - b[0], 2 * a[1] - b[1]) if max(map(abs, a + b)) < LIMIT // 4 else b, c]
    square = [(-LIMIT, -LIMIT), (LIMIT, -LIMIT), (LIMIT, LIMIT), (-LIMIT, LIMIT)]
    for turn in range(4):
        yield square[turn:] + square[:turn]
    yield square[:3] + [(0, 0)]
    yield square[:3] + [(-LIMIT + 1, LIMIT)]
    yield [square[2], square[1], square[0], (0, 0)]
    yield [(0, 0), (4, 0), (2, 1), (2, -1)]  # M5
    yield [(0, 0), (4, 0), (4, 4), (0, 4)]


def behind_samples(rng):
    for spread in (2, 10, 1000, LIMIT):
        for _ in range(15):
            yield box(rng, spread), box(rng, spread), box(rng, spread)
    for _ in range(60):  # a right angle at e2, moved by at most one step
        e1, d, k = box(rng, LIMIT // 4), box(rng, 2000), rng.randint(-1000, 1000)
        e2 = (e1[0] + d[0], e1[1] + d[1])
        q = (e2[0] - k * d[1] + rng.randint(-1, 1), e2[1] + k * d[0] + rng.randint(-1, 1))
        yield e1, e2, clip(q)
    for _ in range(30):
        yield corner(rng), corner(rng), corner(rng)
    yield (5, 5), (5, 5), (9, 9)
    yield (-LIMIT, -LIMIT), (LIMIT, LIMIT), (LIMIT, LIMIT)


TINY = [5e-324, -5e-324, 1e-320, -1e-310, 2.2250738585072014e-308, 1e-300, -1e-300, 2.0 ** -142,
        2.0 ** -60, -2.0 ** -60, 2.0 ** -53, 2.0 ** -40, -2.0 ** -40, 2.0 ** -30, 1e-9, -1e-9]


def angle_samples(rng):
    o = (0.0, 0.0)
    for p in ((-4, 0), (0, 4), (4, 0), (0, -4), (4, 4), (-4, -4), (4, -4), (-4, 4)):  # M1
        yield p, o
        yield p, (-0.0, -0.0)
    for t in TINY:  # M2 and its like: dead west on either side of it, and the other axes
        for p in ((-LIMIT, 0), (LIMIT, 0), (0, LIMIT), (0, -LIMIT), (-1, 0), (0, 0)):
            if rng.random() < 0.7:
                yield p, (0.0, t)
            if rng.random() < 0.7:
                yield p, (t, 0.0)
        yield (0, 0), (t, t)
        yield (0, 0), (t, -t)
        yield (0, 0), (t, rng.choice(TINY))
    for p, c in (((0, 0), (1.0, 1.0)), ((4, 0), (1.0, 1.0)), ((0, 4), (1.0, 1.0))):  # M3
        yield p, c
    for spread in (3, 20, 1000, LIMIT):
        for _ in range(15):
            p = box(rng, spread)
            c = (float(rng.randint(-spread, spread)), float(rng.randint(-spread, spread)))
            yield p, c
            yield p, (rng.uniform(-spread, spread), rng.uniform(-spread, spread))
            yield p, (sum(rng.randint(-spread, spread) for _ in range(3)) * (1.0 / 3.0) / 3, c[1] / 3)
    for _ in range(40):  # very near the centre, and very near an axis
        p = box(rng, rng.choice([5, 100000, LIMIT - 1]))
        near = lambda v: v + rng.choice([-1, 1, 0]) * math.ulp(float(v)) * rng.choice([1, 2, 3, 1 << 20])
        yield p, (near(p[0]), near(p[1]))
        yield box(rng, LIMIT), (near(p[0]), near(p[1]))
    for _ in range(20):
        yield corner(rng), (float(rng.choice([-LIMIT, LIMIT, 0])), rng.uniform(-LIMIT, LIMIT))


def some_angle(rng):
    """A whole number of 2^-53 from 0.0 to 1.0."""
    kind = rng.randrange(4)
    if kind == 0:
        return rng.choice([0.0, 1.0, 0.5, 0.25, 0.75, 0.375, 2.0 ** -53, 1.0 - 2.0 ** -53])
    if kind == 1:
        return rng.randrange(0, 9) / 8
    if kind == 2:
        return rng.randrange(2 ** 53 + 1) / 2 ** 53
    return rng.randrange(0, 65) / 64 + rng.choice([0, 1]) * 2.0 ** -53 if rng.random() < 0.5 else 0.0


SMALL = [0.0, -0.0, 5e-324, 1e-320, 2.2250738585072014e-308, 2.225073858507201e-308, 1e-300, 2.0 ** -142,
         2.0 ** -60, 2.0 ** -54, 2.0 ** -53, 3 * 2.0 ** -54]


def any_angle(rng):
    """Any double from 0.0 to 1.0, -0.0 included."""
    kind = rng.randrange(4)
    if kind == 0:
        return rng.choice(SMALL)
    if kind == 1:
        return min(1.0, some_angle(rng))
    if kind == 2:
        return of_bits(rng.randrange(bits(1.0) + 1))
    a = min(1.0, some_angle(rng))
    return min(1.0, max(0.0, math.nextafter(a, rng.choice([0.0, 1.0]))))


AXES = ((-4, 0), (0, 4), (4, 0), (0, -4), (4, 4), (-4, -4), (4, -4), (-4, 4))


def segment_ends(rng):
    """Two points and a centre whose angles differ: the ends of a segment."""
    kind = rng.randrange(3)
    if kind == 0:  # dead west is 1.0, or 0.0 when the centre is a little below
        return rng.choice(AXES), rng.choice(AXES), (0.0, rng.choice([0.0, -0.0, -2.0 ** -60, 2.0 ** -60]))
    spread = rng.choice([3, 1000, LIMIT])
    return box(rng, spread), box(rng, spread), (rng.uniform(-spread, spread), rng.uniform(-spread, spread))


def segment_samples(rng):
    count = 0
    while count < 260:
        p, q, c = segment_ends(rng)
        if any(v[0] == c[0] and v[1] == c[1] for v in (p, q)):
            continue
        first, second = float(exact_angle(p, c)), float(exact_angle(q, c))
        if first == second:
            continue
        kind = rng.randrange(5)
        angle = any_angle(rng)
        if kind == 0:
            angle = rng.choice([first, second])
        elif kind == 1:
            angle = rng.choice([math.nextafter(first, 0.0), math.nextafter(first, 1.0),
                                math.nextafter(second, 0.0), math.nextafter(second, 1.0)])
        count += 1
        yield p, q, c, first, second, angle


def floor_samples(rng):
    for n in (8, 16, 64, 1024, 1 << 20):
        for a in SMALL + [1.0, math.nextafter(1.0, 0.0), 0.5, math.nextafter(0.5, 0.0)]:
            yield a, n
        for _ in range(14):
            yield any_angle(rng), n
        for _ in range(6):
            a = rng.randrange(1, n) / n
            yield rng.choice([a, math.nextafter(a, 0.0), math.nextafter(a, 1.0)]), n


def flat(*points):
    return " ".join("%d %d" % p for p in points)


def lines():
    rng = random.Random(20152)
    yield "# side_query: o ax ay bx by cx cy number place area"
    for told, three in [*((None, s) for s in orient_samples(rng)), *area_samples(), *beyond_samples()]:
        answer = side_answer(*three)
        assert answer == sweep.side_query(*three) and told in (None, answer), three
        yield "o %s %d %d %d" % (flat(*three), *answer)
    yield "# incircle: i ax ay bx by cx cy dx dy sign"
    for a, b, c, d in circle_samples(rng):
        s = incircle_sign(a, b, c, d)
        assert s == sign(sweep.incircle(a, b, c, d))
        assert (s > 0) == sweep.contained_in_circumference(a, b, c, d)
        yield "i %s %d" % (flat(a, b, c, d), s)
    yield "# is_behind_edge: b e1x e1y e2x e2y qx qy answer"
    for a, b, c in behind_samples(rng):
        s = behind(a, b, c)
        assert s == sweep.is_behind_edge(a, b, c)
        yield "b %s %d" % (flat(a, b, c), s)
    yield ("# pseudo_angle: a px py centre_x centre_y angle turns floor8 ceiling8 floor64 ceiling64 "
           "floor1048576 ceiling1048576")
    for p, c in angle_samples(rng):
        if max(map(abs, c)) > LIMIT or (p[0] == c[0] and p[1] == c[1]):
            continue
        angle = exact_angle(p, c)
        assert angle == sweep.pseudo_angle(p, c) and 0 <= angle <= 1
        turns = angle * 2 ** 53
        assert turns == sweep.turns(float(angle))
        buckets = []
        for n in (8, 64, 1 << 20):
            buckets += [math.floor(angle * n) % n, math.ceil(angle * n) % n]
        yield "a %s %d %d %d %d %s" % (flat(p), bits(c[0]), bits(c[1]), bits(float(angle)), turns,
                                       " ".join(map(str, buckets)))
    yield "# contains_angle: s px py qx qy centre_x centre_y angle answer"
    for p, q, c, first, second, angle in segment_samples(rng):
        r = holds(first, second, angle)
        assert r == sweep.contains_angle(first, second, angle)
        yield "s %s %d %d %d %d" % (flat(p, q), bits(c[0]), bits(c[1]), bits(angle), r)
    yield "# the floor bucket of any angle: f angle buckets bucket"
    for a, n in floor_samples(rng):
        yield "f %d %d %d" % (bits(a), n, math.floor(Fraction(a) * n) % n)


if __name__ == "__main__":
    print("# Made by tests/reference/samples.py with exact rational arithmetic.")
    count = 0
    for line in lines():
        count += line[0] != "#"
        print(line)
    print("z %d" % count)
