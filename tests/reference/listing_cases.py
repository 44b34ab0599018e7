"""Inputs of the listing program with the text that it must print.

    python3 listing_cases.py > lists/listing.txt
    python3 listing_cases.py DIRECTORY        # the same as pairs of files NNN.in, NNN.out

The texts that must be printed come from sweep.py. What is wrong in a malformed input, which refusal is given,
and how many pending entries a case needs, is known here by its making, and held against sweep.py.
"""

import math
import os
import random
import sys

import run_cases
import selfcheck
import skipped_cases
import sweep
from selfcheck import SAMPLE, SAMPLE_OUT

HERE = os.path.dirname(os.path.abspath(__file__))

S, C = b"S 0 0 4 0 0 4\n", b"C 1 1\n"
TRIANGLE = [(0, 0), (4, 0), (0, 4)], (1, 1)


def text(seed, centre, points):
    flat = lambda ps: b" ".join(b"%d %d" % p for p in ps)
    return b"".join([b"S " + flat(seed) + b"\n", b"C " + flat([centre]) + b"\n"]
                    + [b"P %d %d\n" % p for p in points])


def malformed():
    """Name, input, the line that is wrong."""
    yield "empty", b"", 1
    yield "a line feed alone", b"\n", 1
    yield "no C", S, 2
    yield "no C, and no line feed after S", S[:-1], 2
    yield "an empty line for C", S + b"\n", 2
    yield "an empty line first", b"\n" + S + C, 1
    yield "a blank before C", S + b" C 1 1\n", 2
    yield "a tag twice", S + b"CC 1 1\n", 2
    yield "an empty line alone for P", S + C + b"\n", 3
    yield "a tab between numbers", S + b"C 1\t1\n", 2
    yield "a letter behind a digit", S + C + b"P 1a 9\n", 3
    yield "P in place of C", S + b"P 1 1\n", 2
    yield "C first", C + S, 1
    yield "P first", b"P 1 1\n" + S + C, 1
    yield "two S", S + S + C, 2
    yield "two C", S + C + C, 3
    yield "S after C", S + C + S, 3
    yield "S of five numbers", b"S 0 0 4 0 0\n" + C, 1
    yield "S of seven numbers", b"S 0 0 4 0 0 4 4\n" + C, 1
    yield "C of one number", S + b"C 1\n", 2
    yield "C of three numbers", S + b"C 1 1 1\n", 2
    yield "P of one number", S + C + b"P 1\n", 3
    yield "P of three numbers", S + C + b"P 1 1 1\n", 3
    yield "P alone", S + C + b"P\n", 3
    yield "an empty line at the end", S + C + b"P 9 9\n\n", 4
    yield "an empty line in the middle", S + C + b"\nP 9 9\n", 3
    yield "a blank before the tag", b" " + S + C, 1
    yield "a blank at the end", S + C + b"P 9 9 \n", 3
    yield "two blanks", S + C + b"P  9 9\n", 3
    yield "two blanks", S + C + b"P 9  9\n", 3
    yield "a tab", S + C + b"P\t9 9\n", 3
    yield "carriage returns", b"S 0 0 4 0 0 4\r\nC 1 1\r\n", 1
    yield "a carriage return", S + b"C 1 1\r\n", 2
    yield "small letters", b"s 0 0 4 0 0 4\n" + C, 1
    yield "a plus", S + C + b"P +9 9\n", 3
    yield "a plus in C", S + b"C 1 +1\n", 2
    yield "a plus in S", b"S 0 0 +4 0 0 4\n" + C, 1
    yield "two minus signs", S + C + b"P --9 9\n", 3
    yield "a minus alone", S + C + b"P - 9\n", 3
    yield "a minus behind", S + C + b"P 9- 9\n", 3
    yield "a fraction", S + b"C 1.5 1\n", 2
    yield "an exponent", S + C + b"P 1e3 1\n", 3
    yield "a letter", S + C + b"P 9 a\n", 3
    yield "a hexadecimal number", S + C + b"P 0x9 9\n", 3
    yield "a comma", S + C + b"P 9,9\n", 3
    yield "2147483648", S + C + b"P 2147483648 0\n", 3
    yield "2147483648 in C", S + b"C 2147483648 1\n", 2
    yield "2147483648 in S", b"S 0 0 4 0 0 2147483648\n" + C, 1
    yield "-2147483649", S + C + b"P 0 -2147483649\n", 3
    yield "-2147483649 in C", S + b"C -2147483649 1\n", 2
    yield "4294967297", S + C + b"P 4294967297 0\n", 3
    yield "18446744073709551617", S + b"C 18446744073709551617 1\n", 2
    yield "a number of many digits", S + C + b"P 1" + b"0" * 60 + b" 0\n", 3
    yield "a zero byte", S + C + b"P 9 9\0\n", 3
    yield "a byte above 127", S + C + b"P 9 \xb9\n", 3
    yield "a mark of byte order", b"\xef\xbb\xbf" + S + C, 1
    yield "the tag run together with the number", S + C + b"P9 9\n", 3
    yield "another tag", S + C + b"Q 9 9\n", 3
    yield "two wrong lines, the first named", S + C + b"P 9 9\nP x 9\nP 9 x\n", 4
    yield "wrong line before refusals", b"S 0 0 0 4 4 0\nC 0 0\nP 99999999 0\nP\n", 4
    yield "the wrong line without a line feed", S + C + b"P 9 9\nP 9", 4
    for line in (10, 57, 100, 399):
        yield "line %d" % line, S + C + b"P 5 5\n" * (line - 3) + b"P 5,5\n", line
    many = b"".join(b"P %d 7\n" % i for i in range(398))
    yield "the 398th P", S + C + many, 400
    yield "the 398th P, no line feed at the end", S + C + many[:-1], 400
    yield "the 398th P and more", S + C + many + b"P 1 1\nQ\n", 400
    yield "a wrong line before the 398th P", S + C + many[:many.index(b"P 300 ")] + b"Q\n" + many, 303


def refused():
    """Name, input, what must be printed."""
    yield "M9", S + b"C 9 9\n", b"r 7 0\n"
    yield "the centre on a vertex", S + b"C 4 0\nP 9 9\n", b"r 6 0\n"
    yield "M6", b"S 0 0 16777217 0 0 4\n" + C, b"r 3 1\n"
    yield "the last corner beyond", b"S 0 0 4 0 0 -16777217\n" + C, b"r 3 2\n"
    yield "a point beyond", S + C + b"P 9 9\nP 9 16777217\nP -2147483648 0\n", b"r 3 4\n"
    yield "a point beyond, centre on a vertex", S + b"C 0 0\nP 2147483647 0\n", b"r 3 3\n"
    yield "the centre beyond", S + b"C 16777217 0\n", b"r 6 0\n"
    yield "the centre at the end of 32 bits", S + b"C -2147483648 2147483647\n", b"r 6 0\n"
    yield "the seed turns right", b"S 0 0 0 4 4 0\n" + C, b"r 5 1\n"
    yield "the seed is flat", b"S 0 0 2 2 4 4\n" + C, b"r 5 1\n"
    yield "the seed is a point", b"S 1 1 1 1 1 1\n" + C, b"r 5 1\n"
    yield "the centre on a side's line", S + b"C 8 0\n", b"r 7 0\n"
    yield "the centre outside, with points", S + b"C -9 4\nP 9 9\nP 7 -7\n", b"r 7 0\n"
    yield "the first corner beyond", b"S -16777217 0 4 0 0 4\n" + C, b"r 3 0\n"
    yield "beyond before turning right", b"S 0 0 0 4 16777217 0\nC 0 0\n", b"r 3 2\n"
    yield "turning right before the centre", b"S 0 0 0 4 4 0\nC 0 0\nP 5 5\n", b"r 5 1\n"
    for place, count in ((3, 1), (4, 3), (5, 3), (12, 20), (103, 150), (399, 397)):
        points = [(i % 7 + 5, i % 11 - 5) for i in range(count)]
        points[place - 3] = ((16777217, 0), (0, -16777217))[place % 2]
        points[place - 2:] = [(-2147483648, 2147483647)] * len(points[place - 2:])
        yield "the first that is beyond, vertex %d" % place, text(*TRIANGLE, points), b"r 3 %d\n" % place


def accepted(rng):
    yield "01's sample", SAMPLE
    yield "the sample without the last line feed", SAMPLE[:-1]
    yield "no points", S + C
    yield "no points, no line feed at the end", S + C[:-1]
    yield "leading zeros and minus zero", b"S -0 000 0004 0 -00 04\nC 001 1\nP 0000000000000000000009 -0\n"
    yield "at the limits", text([(-16777216, -16777216), (16777216, -16777216), (0, 16777216)], (0, 0),
                                [(16777216, 16777216), (-16777216, 16777216), (0, 0)])
    yield "fate 4", text([(0, 0), (0, -1), (1, 1)], (1, -1), [(-2, -1)])
    yield "an existing position", text([(-6, 4), (0, -6), (6, 4)], (6, -5), [(6, 0), (12, -2), (6, 4)])
    yield "one extra pass", text([(-3, 3), (6, -6), (-3, 9)], (0, 2), [(-18, 12), (-9, 6)])
    yield "the centre on a side", text([(0, 0), (4, 0), (0, 4)], (2, 2), [(2, 2), (4, 4), (2, 3)])
    seed = [(-2, -2), (3, -1), (-1, 3)]
    for kind in run_cases.KINDS:
        for spread in (9, 20000, sweep.LIMIT):
            yield "%s, %d" % (kind, spread), text(seed, (0, 0), run_cases.listed(kind, rng, 12, spread))
    yield ("397 points: the most that are allowed",
           text(seed, (0, 0), run_cases.listed("unsorted", rng, 397, 5000)))
    yield "396 points", text([(900, -40), (1000, 80), (-700, 60)], (300, 20),
                             run_cases.listed("near to far", rng, 396, 9000000))


def unsound():
    """Inputs in which the first point would leave no sound ring."""
    corners, centre = [(0, 0), (0, -1), (1, 1)], (1, -1)
    points = [(-2, -1), (3, 4), (-2, -1), (1, -1), (0, 7), (5, -5)]
    for quarters in range(4):
        for scale, (x, y) in ((1, (0, 0)), (3, (-5, 8)), (1000000, (70, -9000000))):
            def moved(p):
                p = run_cases.turned(p, quarters)
                return scale * p[0] + x, scale * p[1] + y
            yield list(map(moved, corners)), moved(centre), list(map(moved, points))


def fan(count, x, rise, first, then):
    """So many triangles from (0, 0) to points on a vertical line, upwards or downwards, with points before
    and after those of the line. Every circle of the fan holds what lies just beside (0, 0) towards the line."""
    seed = [(0, 0), (x, 0), (x, rise)] if rise > 0 else [(x, rise), (x, 0), (0, 0)]
    centre = (x * 9 // 10, abs(rise) * 4 // 10 * (1 if rise > 0 else -1))
    return seed, centre, first + [(x, rise * i) for i in range(2, count + 1)] + then


def filling():
    """Name, input, the pending entries that it needs, the point at which fewer are too few (the number of
    points for the finish)."""
    beside = [(1, -1), (2, -2), (3, -3)]
    for count in (7, 8, 9, 30, 101, 300):
        yield "a fan", fan(count, 100000, 10, [], beside), count + 1, count - 1
    yield "a fan of 400 vertices", fan(396, 100000, 10, [], beside[:2]), 397, 395
    for quarters in (1, 2, 3):
        seed, centre, points = fan(12, 1000, 10, [], beside)
        turn = lambda p: run_cases.turned(p, quarters)
        yield "a fan, turned", ([turn(p) for p in seed], turn(centre), [turn(p) for p in points]), 13, 11
    for count in (9, 20, 120):
        yield ("a corner beside a fan, closed by the finish",
               fan(count, 100000, -3, [(95561, 5)], [(99934, 55)]), count + 1, count + 1)
    for given, need, at in ((fan(20, 100, -10, [(-197, -173)], [(204, -266), (161, -240), (271, 98)]), 16, 22),
                            (fan(12, 100, -3, [], [(181, -122), (175, 33), (167, 69)]), 18, 12),
                            (fan(12, 1000, -10, [], [(1114, -138), (1126, -112), (827, -221)]), 14, 13),
                            (fan(20, 1000, 10, [(1940, -69)], [(312, 765), (-780, -108), (1696, 717)]), 13, 22),
                            (fan(110, 100, 3, [(162, 128)], [(116, 365)]), 50, 110)):
        yield "a fan that a walk reaches", given, need, at


def with_pending(given, entries):
    """The listing with so many pending entries."""
    lent, sweep.LISTING_PENDING = sweep.LISTING_PENDING, entries
    try:
        return sweep.listing(given)
    finally:
        sweep.LISTING_PENDING = lent


def spiral(turn, growth, count, start):
    """Points ever nearer or farther, round (0, 0)."""
    return [(round(start * growth ** i * math.cos(turn * i)), round(start * growth ** i * math.sin(turn * i)))
            for i in range(count)]


def great():
    """Name, input: counts that are seldom met."""
    arc = spiral(4.5 / 399, math.exp(-1.35 / 399), 400, sweep.LIMIT - 1)
    third = lambda c: sum(p[c] for p in arc[:3]) // 3
    yield ("the longest listing: every point flips every inner edge",
           text(arc[:3], (third(0), third(1)), arc[3:]))
    wide = [(-900, -800), (1000, -700), (-700, 1100)]
    for turn, growth, count, start in ((0.015, 1.02299, 397, 2000), (0.03, 1.046, 196, 2000),
                                       (0.03, 1.046, 160, 2000), (0.05, 1.09, 100, 2000)):
        yield "a spiral that the finish fills", text(wide, (11, -7), spiral(turn, growth, count + 1, start)[1:])
    for end in (13, 23, 43, 83, 133):
        chain = [(i, i * i - 4) for i in range(3, end)]
        points = chain + [(0, 40000)] + run_cases.round_about(40, 200000, (0, -25000))
        yield "%d faces by one point" % (end - 2), text([(0, -30000), (2, 0), (-2, 0)], (0, -25000), points)


def drawn(rng):
    """A triangle, a centre, mostly in it, and points, at random."""
    spread = rng.choice([3, 6, 30, 1000, 20000, sweep.LIMIT])
    a, b, c = ((rng.randint(-spread, spread), rng.randint(-spread, spread)) for _ in range(3))
    if not sweep.left(a, b, c):
        b, c = c, b
    weights = [rng.random() for _ in range(3)]
    centre = tuple(round(sum(w * p[i] for w, p in zip(weights, (a, b, c))) / sum(weights)) for i in range(2))
    if rng.random() < 0.4:
        centre = (rng.randint(-spread, spread), rng.randint(-spread, spread))
    count, reach = rng.choice([3, 6, 12, 30]), min(2 * spread, sweep.LIMIT)
    return [a, b, c], centre, selfcheck.random_points(rng, centre, reach, count)


def drawn_cases(rng):
    """Name, input: so many of each kind."""
    fate = lambda n: lambda given, ps, t: n in step_fates(given)
    wanted = [["convexity flips", 24, lambda given, ps, t: t[5] > 0],
              ["several convexity flips", 8, lambda given, ps, t: t[5] > 2],
              ["fate 5", 8, fate(5)], ["fate 2", 6, fate(2)], ["fate 3", 6, fate(3)],
              ["faces from the finish", 8, lambda given, ps, t: t[4] > 1],
              ["the centre exchanged is accepted too", 10, lambda given, ps, t: accepts(exchanged(given))]]
    while any(w[1] for w in wanted):
        given = drawn(rng)
        if given[1][0] == given[1][1] or any(abs(c) > sweep.LIMIT for p in given[2] for c in p):
            continue
        printed = sweep.listing(text(*given))
        if not accepts(printed):
            continue
        ps, t = counts_of(printed)
        for w in wanted:
            if w[1] and w[2](given, ps, t):
                w[1] -= 1
                yield "drawn: " + w[0], text(*given)
                break


def step_fates(given):
    """The fates that the steps give: 3 to 5 stand in no listing."""
    seed, centre, points = given
    return selfcheck.step_fates(sweep.seed_triangle(seed, 3), tuple(map(float, centre)), points)


def exchanged(given):
    seed, (x, y), points = given
    return sweep.listing(text(seed, (y, x), points))


def accepts(printed):
    return not printed.startswith(b"r")


def counts_of(printed):
    """The numbers of the lines `p`, and of the line `t`."""
    *ps, t = [tuple(map(int, line.split(b" ")[1:])) for line in printed.split(b"\n")[:-1]]
    return ps, t


def skipped(rng):
    """Name, input, the fates of the points or None: skipped points go in."""
    low, centre = [(0, 0), (40, 0), (20, 30)], (20, -4)
    for quarters in range(4):
        for points, fates in (([(20, -4)], [8]), ([(20, -2), (20, -4)], [8, 8]), ([(20, -4), (21, -2)], [8, 6]),
                              ([(10, -1), (30, -1), (20, -4)], [8, 8, 8]), ([(20, -4), (20, -4)], [8, 9]),
                              ([(20, 10), (20, 0), (20, 10), (20, 5), (10, 15)], [6, 7, 9, 7, 7]),
                              ([(20, -4), (20, -40), (20, -4), (20, -40)], [6, 1, 9, 2])):
            turn = lambda ps: [run_cases.turned(p, quarters) for p in ps]
            yield "about the centre outside", (turn(low), *turn([centre]), turn(points)), fates
    corners, centre = TRIANGLE
    for far in (50, 9000, sweep.LIMIT):
        points = [(-far, -far), (far, -far), (far, far), (-far, far)] + corners + [corners[2], (1, 1)]
        yield "at the seed's corners, covered", (corners, centre, points), [1] * 4 + [9] * 4 + [6]
    for name, corners, triangles, twice, points in skipped_cases.OVERLAPS:
        if len(corners) == 3:
            for scale, shift in ((2, (0, 0)), (600000, (7, -5))):
                where = lambda ps: skipped_cases.placed(ps, scale, shift, 0)
                at = tuple(scale * c // 2 + s for c, s in zip(twice, shift))
                yield name, (where(corners), at, where(points)), None
    limit = sweep.LIMIT
    wide = [(-limit, -limit), (limit, -limit), (0, limit)]
    grid = [(x, y) for x in range(-7, 8) for y in range(-5, 6)]
    rng.shuffle(grid)
    yield "a grid, every point skipped", (wide, (1, 0), grid), None
    few = [(-9000, -9000), (9000, -9000), (0, 9000)]
    for count, spread in ((20, 2), (60, 30), (394, 2000)):
        inside = [(rng.randint(-spread, spread), rng.randint(-spread, spread)) for _ in range(count)]
        seed = [(x // 3 * 2, y // 3 * 2) for x, y in few]
        points = few[:1] + inside[::2] + few[1:2] + inside[1::2] + few[2:]
        yield "all but three are skipped, %d points" % len(points), (seed, (0, 1), points), None
    yield "one position, again and again", (wide, (1, 0), [(5, 5)] * 30 + [(limit, limit)] + [(5, 5)] * 3), None
    sides = [(x, -limit) for x in range(-limit + 5, limit, limit // 8)]
    yield "on a side", (wide, (1, 0), sides), [7] * len(sides)


def skipped_fans():
    """Name, input, the pending entries that it needs, the point at which fewer are too few: a point in a fan's
    first triangle is within all its circles, and its insertion flips them all."""
    for count in (9, 30, 101, 300):
        yield "a skipped point in a fan", fan(count, 100000, 10, [(20001, 1)], []), count, 0
    yield "a skipped point in a fan after others", fan(40, 100000, 10, [], [(1, -1), (20001, 1)]), 41, 39
    yield "a skipped point in a fan that turns the other way", fan(30, 100000, -10, [(20001, -1)], []), 8, 0


def drawn_skipped(rng):
    """Name, input: so many runs of each kind, drawn."""
    wanted = {6: 10, 7: 14, 8: 14, 9: 10}
    while any(wanted.values()):
        given = drawn(rng)
        if any(abs(c) > sweep.LIMIT for p in given[2] for c in p):
            continue
        printed = sweep.listing(text(*given))
        if accepts(printed):
            for fate in (8, 9, 7, 6):
                if wanted[fate] and sum(p[1] == fate for p in counts_of(printed)[0]) > (fate != 8):
                    wanted[fate] -= 1
                    yield "drawn: fate %d" % fate, text(*given)
                    break


def examples():
    """Name, input, what must be printed: those of examples/."""
    folder = os.path.join(HERE, "..", "..", "examples")
    for name in sorted(os.listdir(folder)):
        if name.endswith(".txt"):
            with open(os.path.join(folder, name), "rb") as given:
                with open(os.path.join(folder, name[:-4] + ".out"), "rb") as told:
                    yield "examples/" + name, given.read(), told.read()


def varied(found):
    """Each field of the lines `p`, `t` and `r` has many values. From a triangle the mesh stays settled
    (docs/DIFFERENCES.md), so no listing shows a closing flip."""
    ps, ts, rs = [], [], []
    for _, _, printed in found:
        if accepts(printed):
            p, t = counts_of(printed)
            ps, ts = ps + p, ts + [t]
        else:
            rs.append(tuple(map(int, printed.split()[1:])))
    index, fate, vertex, faces, flips = map(set, zip(*ps))
    assert index == set(range(397)) and fate == {1, 2, 6, 7, 8, 9} and vertex == set(range(400))
    assert {p[2] for p in ps if p[1] == 9} > {0, 1, 2} and all(sum(p[1] == f for p in ps) > 40 for f in fate)
    assert len(faces) > 15 and max(faces) > 100 and len(flips) > 300 and max(flips) > 390
    *counts, closing = map(set, zip(*ts))
    assert all(len(values) > 12 for values in counts) and closing == {0}
    assert max(counts[4]) > 100 and max(counts[5]) > 1000 and sum(t[5] > 0 for t in ts) > 40
    assert {n for n, _ in rs} == {0, 3, 5, 6, 7}
    assert len({place for n, place in rs if n == 0}) > 8 and len({place for n, place in rs if n == 3}) > 8
    assert max(len(printed) for _, _, printed in found) == 6860


def cases():
    rng = random.Random(96)
    for name, given in [*accepted(rng), *drawn_cases(rng), *great()]:
        printed = sweep.listing(given)
        assert accepts(printed), name
        yield name, given, printed
    assert sweep.listing(SAMPLE) == SAMPLE_OUT
    for given in unsound():
        assert step_fates(given)[0] == 4
        printed = sweep.listing(text(*given))
        assert printed.startswith(b"p 0 8 6 "), printed
        yield "fate 4 in its step, then others", text(*given), printed
    for name, given, need, at in [*filling(), *skipped_fans()]:
        given = text(*given)
        printed = sweep.listing(given)
        assert accepts(printed) and with_pending(given, need) == printed, name
        assert with_pending(given, need - 1) == (b"r 2 0\n" if need == 8 else b"r 9 %d\n" % at), name
        yield "%s: %d pending entries" % (name, need), given, printed
    rng = random.Random(97)
    for name, given, fates in skipped(rng):
        printed = sweep.listing(text(*given))
        assert accepts(printed), name
        assert fates is None or [p[1] for p in counts_of(printed)[0]] == fates, (name, printed)
        yield name, text(*given), printed
    for name, given in drawn_skipped(rng):
        yield name, given, sweep.listing(given)
    for name, given, printed in [*examples(), *refused()]:
        assert printed == sweep.listing(given), (name, sweep.listing(given))
        yield name, given, printed
    for name, given, wrong in malformed():
        printed = sweep.listing(given)
        assert printed == b"r 0 %d\n" % wrong, (name, printed)
        yield name, given, printed


def list_of(found):
    """The list in the words of README.md."""
    out = [b"# Made by tests/reference/listing_cases.py.\n"]
    for name, given, printed in found:
        out += [b"# %s\n" % name.encode(), b"b %d\n%s\n" % (len(given), given),
                b"e %d\n%s\n" % (len(printed), printed)]
    return b"".join(out + [b"z %d\n" % len(found)])


if __name__ == "__main__":
    found = list(cases())
    varied(found)
    if len(sys.argv) > 1:
        for i, (name, given, printed) in enumerate(found):
            for end, data in ((".in", given), (".out", printed)):
                with open(os.path.join(sys.argv[1], "%03d%s" % (i, end)), "wb") as f:
                    f.write(data)
    else:
        sys.stdout.buffer.write(list_of(found))
