"""Reads the lists by the words of README.md and holds each case against sweep.py; then changes sweep.py
in one place at a time and shows that some list notices each change, so that the lists can fail. A change of
the listing program's part has to be noticed by three cases of its list.

    python3 verify.py                    # the lists as they stand
    python3 verify.py mutants            # and the changes
    python3 verify.py mutants skipped    # and some of the changes: base, heights, skipped, areas, quotes, bare, lines, listing
"""

import math
import os
import signal
import struct
import sys
import types
from fractions import Fraction

HERE = os.path.dirname(os.path.abspath(__file__))
SECONDS = 20.0  # the longest case takes two
SHORT = 1000  # bytes of a listing's text that every change is tried on
FEWEST = 3  # cases of the listing's list that notice a change of the listing
NAMES = ("samples", "check", "finish", "locate", "step", "run", "volume", "ask", "commit", "bulk_load", "listing")
ORDER = "mpeohfcnqxwvygGlMPEOHFWra"  # of the lines of a case, as far as it has them
CHANGES = [7]  # the change count where the line `c` is missing


def of_bits(b):
    return struct.unpack("<d", struct.pack("<Q", b))[0]


def bits(x):
    return struct.unpack("<Q", struct.pack("<d", x))[0]


def read(name):
    """The lines of a list as (tag, numbers)."""
    with open(os.path.join(HERE, "lists", name + ".txt"), "rb") as f:
        data = f.read()
    lines, rows = data.split(b"\n"), []
    assert lines.pop() == b""
    for line in lines:
        if line[:1] == b"#":
            continue
        fields = line.split(b" ")
        assert all(f.lstrip(b"-").isdigit() for f in fields[1:]) and len(fields[0]) == 1, line
        rows.append((fields[0].decode(), [int(f) for f in fields[1:]]))
        assert all(-2 ** 63 <= n < 2 ** 64 for n in rows[-1][1]), line
    tag, (count,) = rows.pop()
    assert tag == "z" and count == len(rows), name
    return rows


def read_texts():
    """The cases of the listing's list: a text, and what it must print."""
    with open(os.path.join(HERE, "lists", "listing.txt"), "rb") as f:
        data = f.read()
    at, found = 0, []

    def text(tag):
        nonlocal at
        start = data.index(b"\n", at) + 1
        count = int(data[at + 2:start])
        assert data[at:start] == b"%s %d\n" % (tag, count) and data[start + count:][:1] == b"\n", at
        at = start + count + 1
        return data[start:start + count]

    while data[at:at + 1] in b"#b":
        if data[at:at + 1] == b"#":
            at = data.index(b"\n", at) + 1
        else:
            found.append((text(b"b"), text(b"e")))
    assert data[at:] == b"z %d\n" % len(found)
    return found


def row(numbers):
    length, past, *written = numbers
    return written + [past] * (length - len(written))


def mesh_of(sweep, case, tags):
    """The mesh of the lines with these tags; where the line of the heights is missing they are zeros."""
    counts, positions, heights, *rows = tags
    return sweep.Mesh(row(case[positions]), *(row(case[t]) for t in rows), *case[counts],
                      row(case[heights]) if heights in case else None, *case.get("c", CHANGES))


def in_order(case):
    """The lines come in the order of README.md, and `E` is there just where `e` and `M` are."""
    return list(case) == [t for t in ORDER if t in case] and ("E" in case) == ("e" in case and "M" in case)


def cases(rows, last):
    case = {}
    for tag, numbers in rows:
        assert tag not in case, (tag, case)
        case[tag] = numbers
        if tag == last:
            assert in_order(case), case
            yield case
            case = {}
    assert not case


def left_as_told(sweep, case, mesh, changes=None):
    """The counts and rows are those of `M P E O H F`, or the given ones where these are missing; so is the change
    count, where no other is told."""
    told = mesh_of(sweep, case, "MPEOHF" if "M" in case else "mpeohf")
    return (mesh.rows() == told.rows() and mesh.counts() == told.counts()
            and mesh.changes == (told.changes if changes is None else changes))


def cleared(number, *rows):
    return all(x == (0 if number in (0, 9) else 7) for r in rows for x in r)


def pairs(numbers):
    """Two by two; a last number that stands alone is a tuple of one."""
    return [tuple(numbers[i:i + 2]) for i in range(0, len(numbers), 2)]


def sample(sweep, tag, n):
    sign = lambda x: (x > 0) - (x < 0)
    if tag == "o":
        number, place, area = n[6:]
        assert number == place == 0 and abs(area) <= 2 ** 50 or number == 3 and place in (0, 1, 2) and area == 0, n
        assert all(-2 ** 31 <= c < 2 ** 31 for c in n[:6]), n
        return list(sweep.side_query(*pairs(n[:6]))) == n[6:]
    if tag == "i":
        p = pairs(n[:8])
        return sign(sweep.incircle(*p)) == n[8] and sweep.contained_in_circumference(*p) == (n[8] == 1)
    if tag == "b":
        return sweep.is_behind_edge(*pairs(n[:6])) == n[6]
    if tag == "a":
        angle = sweep.pseudo_angle((n[0], n[1]), (of_bits(n[2]), of_bits(n[3])))
        found = [bits(angle), sweep.turns(angle)]
        for k in (8, 64, 1 << 20):
            found += [math.floor(angle * k) % k, math.ceil(angle * k) % k]
        return found == n[4:]
    if tag == "s":
        c = of_bits(n[4]), of_bits(n[5])
        ends = [sweep.pseudo_angle(p, c) for p in pairs(n[:4])]
        return sweep.contains_angle(*ends, of_bits(n[6])) == n[7]
    return math.floor(Fraction(of_bits(n[0])) * n[1]) % n[1] == n[2]


def check_one(sweep, case):
    mesh = mesh_of(sweep, case, "mpeohf")
    return list(sweep.check(mesh)) == case["r"] and left_as_told(sweep, case, mesh)


def volume_one(sweep, case):
    mesh = mesh_of(sweep, case, "mpeohf")
    number, place, high, low, metres = sweep.volume(mesh, *case["l"])
    return ([number, place, high, low, metres % (1 << 64)] == case["r"] and list(sweep.area_total(mesh)) == case["a"]
            and left_as_told(sweep, case, mesh))


def finish_one(sweep, case):
    mesh, lent = mesh_of(sweep, case, "mpeohf"), sweep.Lent(pending=row(case["q"]))
    answer = sweep.finish(mesh, lent)
    return (list(answer) == case["r"] and left_as_told(sweep, case, mesh)
            and cleared(answer[0], lent.pending))


def locate_one(sweep, case, numbers):
    lent = sweep.Lent(*([7] * n for n in case["n"]))
    mesh = mesh_of(sweep, case, "mpeohf")
    answer = sweep.locate(mesh, lent, tuple(map(of_bits, case["x"])), of_bits(numbers[0]))
    return (list(answer) == numbers[1:] and left_as_told(sweep, case, mesh)
            and cleared(answer[0], lent.nodes, lent.freed, lent.buckets))


def call_one(sweep, case):
    """A run or, where there is no answers row, a step."""
    lent = sweep.Lent(*([7] * n for n in case["n"]), pending=row(case["q"]),
                      answers=row(case.get("w", [0, 0])))
    mesh, points = mesh_of(sweep, case, "mpeohf"), pairs(case["v"][1:])
    assert len(points) == case["v"][0]
    centre = tuple(map(of_bits, case["x"]))
    if "w" in case:
        answer = sweep.run(mesh, lent, centre, points, row(case["y"]) if "y" in case else None)
        told, changes = row(case["W"] if "W" in case else case["w"]), 0 if "M" in case else None
    else:
        number, place, given = sweep.step(mesh, lent, centre, points[0], *case.get("y", [0]))
        answer, told, changes = (number, place) + tuple(given), [], None
    return (list(answer) == case["r"] and left_as_told(sweep, case, mesh, changes) and lent.answers == told
            and cleared(answer[0], lent.nodes, lent.freed, lent.buckets, lent.pending))


def ask_one(sweep, case):
    lent, mesh = sweep.Lent(*([7] * n for n in case["n"])), mesh_of(sweep, case, "mpeohf")
    (point,), centre = pairs(case["v"][1:]), tuple(map(of_bits, case["x"]))
    number, place, quote = sweep.ask(mesh, lent, centre, point, *case.get("y", [0]))
    assert "c" in case and "M" not in case
    return ([number, place] == case["r"] and list(quote) == case["G"] and left_as_told(sweep, case, mesh)
            and cleared(number, lent.nodes, lent.freed, lent.buckets))


def commit_one(sweep, case):
    lent = sweep.Lent(*([7] * n for n in case["n"]), pending=row(case["q"]))
    mesh, (point,), centre = mesh_of(sweep, case, "mpeohf"), pairs(case["v"][1:]), tuple(map(of_bits, case["x"]))
    number, place, answer = sweep.commit(mesh, lent, centre, point, tuple(case["g"]), *case.get("y", [0]))
    assert "c" in case
    return ([number, place, *answer, mesh.changes] == case["r"] and left_as_told(sweep, case, mesh, mesh.changes)
            and cleared(number, lent.nodes, lent.freed, lent.buckets, lent.pending))


def bulk_load_one(sweep, case):
    """Rows without a mesh: the counts that are given are those that a refused call answers."""
    lent = sweep.Lent(*([7] * n for n in case["n"]), pending=row(case["q"]), answers=row(case["w"]))
    mesh, points = mesh_of(sweep, case, "mpeohf"), pairs(case["v"][1:])
    assert case["m"] == [0, 0, 0] and len(points) == case["v"][0] and "c" not in case and "x" not in case
    answer = sweep.bulk_load(mesh, lent, points, row(case["y"]) if "y" in case else None)
    told, changes = row(case["W"] if "W" in case else case["w"]), 0 if "M" in case else None
    return (list(answer) == case["r"] and case["r"][2:5] == case.get("M", case["m"])
            and left_as_told(sweep, case, mesh, changes) and lent.answers == told
            and cleared(answer[0], lent.nodes, lent.freed, lent.buckets, lent.pending))


def listing_one(sweep, given, printed):
    return sweep.listing(given) == printed


def held(test, *arguments):
    """False also where a changed sweep.py fails or runs for ever."""
    signal.setitimer(signal.ITIMER_REAL, SECONDS)
    try:
        return test(*arguments)
    except Exception:
        return False
    finally:
        signal.setitimer(signal.ITIMER_REAL, 0)


def too_long(*_):
    raise TimeoutError


def failures(sweep, name, first_only=False):
    """The number of cases of a list, and of those that sweep.py answers otherwise."""
    total = bad = 0
    rows = read(name) if name != "listing" else []
    if name == "listing":
        tests = ((listing_one, given, printed) for given, printed in read_texts()
                 if not first_only or len(given) < SHORT)
    elif name == "samples":
        tests = ((sample, tag, n) for tag, n in rows)
    elif name == "locate":
        def queries():
            case = {}
            for tag, n in rows:
                if tag == "m":
                    case = {}
                if tag == "l":
                    assert in_order(case), case
                    yield locate_one, dict(case), n
                else:
                    case[tag] = n
        tests = queries()
    else:
        one, last = {"check": (check_one, "r"), "finish": (finish_one, "r"), "step": (call_one, "r"),
                     "run": (call_one, "r"), "volume": (volume_one, "a"), "ask": (ask_one, "r"),
                     "commit": (commit_one, "r"), "bulk_load": (bulk_load_one, "r")}[name]
        tests = ((one, case) for case in cases(rows, last))
    for test, *arguments in tests:
        total += 1
        if not held(test, sweep, *arguments):
            bad += 1
            if first_only:
                break
    return total, bad


FATE_2 = "    if point == start or point == end:\n        return 2, edge\n"
FATE_3 = "    if not left(start, end, point):\n        return 3, edge\n"
MUTANTS = [  # name, text, what takes its place; and why, where no list can notice it
    ("a flip on a circle test of 0", "*corners, mesh.at(far_t)) > 0", "*corners, mesh.at(far_t)) >= 0"),
    ("the circle test turned", "return incircle(v3, v2, v1, p) < 0", "return incircle(v3, v2, v1, p) > 0"),
    ("a circle test that includes the circle", "return incircle(v3, v2, v1, p) < 0",
     "return incircle(v3, v2, v1, p) <= 0"),
    ("9 one entry early in legalize_edge", "len(pending) + len(pushes) > capacity",
     "len(pending) + len(pushes) >= capacity"),
    ("9 one entry late in legalize_edge", "len(pending) + len(pushes) > capacity",
     "len(pending) + len(pushes) > capacity + 1"),
    ("9 one entry early after removal", "len(pushed) > capacity", "len(pushed) >= capacity"),
    ("9 one entry late after removal", "len(pushed) > capacity", "len(pushed) > capacity + 1"),
    ("9 by four entries, pushed or not", "len(pushed) > capacity", "len(pending) + 4 > capacity"),
    ("the flip made before 9 is given", "                raise PendingFull\n            pending[:] = pushed",
     "                flip_cw(mesh, u)\n                raise PendingFull\n            pending[:] = pushed"),
    ("pushes twice what is there already", "if h // 2 not in pushed:", "if True:"),
    ("another pushing order", "for h in (e1, e2, e3, e4):", "for h in (e4, e3, e2, e1):"),
    ("another pushing order in legalize_edge", "[mesh.next(rev(e)), mesh.prev(rev(e))]",
     "[mesh.prev(rev(e)), mesh.next(rev(e))]"),
    ("is_behind_edge turned in the first walk", "is_behind_edge(point, end, start)",
     "is_behind_edge(end, point, start)"),
    ("is_behind_edge turned in the second walk", "is_behind_edge(middle, point, end)",
     "is_behind_edge(point, middle, end)"),
    ("is_behind_edge of another edge in the first walk", "is_behind_edge(point, end, start)",
     "is_behind_edge(point, start, end)"),
    ("is_behind_edge of another edge in the second walk", "is_behind_edge(middle, point, end)",
     "is_behind_edge(middle, end, point)"),
    ("the other end asked in the first walk", "is_behind_edge(point, end, start)",
     "is_behind_edge(start, end, point)", "(the same test)"),
    ("the other end asked in the second walk", "is_behind_edge(middle, point, end)",
     "is_behind_edge(end, point, middle)", "(the same test)"),
    ("a single convexity pass", "        if mesh.faces == faces_before:\n            return flips, passes",
     "        return flips, passes"),
    ("a closing pass of one turn", "        if not flipped:\n            return count", "        return count"),
    ("the closing pass from the last edge down", "for u in range(mesh.edges):\n            if breaks",
     "for u in reversed(range(mesh.edges)):\n            if breaks"),
    ("a flip that forgets the out edge", "    mesh.outs[t_origin] = en\n", ""),
    ("a flip that forgets the face's edge", "    mesh.stored[t_face] = t\n", ""),
    ("the outer face's stored edge kept", "    mesh.stored[0] = new_outer\n", ""),
    ("the new face's stored edge", "mesh.stored[new_face] = new_inner", "mesh.stored[new_face] = edge"),
    ("left or on the line", "return orient2d(a, b, c) > 0", "return orient2d(a, b, c) >= 0"),
    ("the left-over half-edges not counted", "ring is None or set(ring) != edges_of[f]",
     "ring is None or not set(ring) <= edges_of[f]"),
    ("an outer cycle of two accepted", "(len(ring) < 3) if f == 0", "(len(ring) < 2) if f == 0"),
    ("an inner cycle of any length", "else (len(ring) != 3)", "else (len(ring) < 3)"),
    ("an edge with the outer face twice", "            and edges_have_inner_face(mesh) and", "            and"),
    ("vertices not turned", "if turn is None or not starts_at[v] <= set(turn)", "if turn is None"),
    ("an out edge that starts elsewhere", "if mesh.origin(mesh.outs[v]) != v:", "if False:"),
    ("no count of Euler", "and vertices_are_turned(mesh) and euler(mesh))", "and vertices_are_turned(mesh))"),
    ("next need not keep the face", "               and mesh.face(mesh.next(h)) == mesh.face(h)\n", "",
     "(the other rules imply it)"),
    ("origins not compared", "               and mesh.origin(mesh.next(h)) == mesh.origin(rev(h)) for",
     "               for"),
    ("the highest face named", "for f in range(1, mesh.faces):\n        if not left",
     "for f in reversed(range(1, mesh.faces)):\n        if not left"),
    ("a coordinate limit one too high", "any(c < -LIMIT or c > LIMIT for c in p)",
     "any(c < -LIMIT or c > LIMIT + 1 for c in p)"),
    ("a coordinate limit one too low", "any(c < -LIMIT or c > LIMIT for c in p)",
     "any(c <= -LIMIT or c > LIMIT for c in p)"),
    ("points counted from 0", "for v in range(mesh.vertices)] + list(points))",
     "for v in range(mesh.vertices)][:0] + list(points))"),
    ("2 before 1", "    refuse_count(n)\n    refuse_mesh_rows(mesh, n)\n    refuse_ring",
     "    refuse_mesh_rows(mesh, n)\n    refuse_count(n)\n    refuse_ring"),
    ("buckets for N alone", "len(lent.buckets) < max(16, n)", "len(lent.buckets) < n"),
    ("16 buckets alone", "len(lent.buckets) < max(16, n)", "len(lent.buckets) < 16"),
    ("N freed nodes", "len(lent.freed) < n + 1", "len(lent.freed) < n"),
    ("seven pending entries", "LEAST_PENDING = 8", "LEAST_PENDING = 7"),
    ("a quarter for a half", "(1.0 + q)) * 0.25", "(1.5 + q)) * 0.25"),
    ("dy of 0 counts as positive", "if dy > 0.0 else", "if dy >= 0.0 else"),
    ("a segment without its first", "return first <= angle < second", "return first < angle <= second"),
    ("a wrapping segment without its first", "return first <= angle or angle < second",
     "return first < angle or angle < second"),
    ("the counter starts at one", "if 0.0 in angles else 0\n", "if 0.0 in angles else 1\n"),
    ("1.0 for 0.0", "if angle == 1.0:\n        return", "if False:\n        return"),
    ("the run's first edge", "for i in range(n) if angles[i][0] != angles[(i + 1) % n][0]]",
     "for i in range(n) if angles[i][0] != angles[i - 1][0]]"),
    ("gaps below 3/4", "gap(a, b) <= Fraction(3, 4)", "gap(a, b) < Fraction(3, 4)"),
    ("gaps not looked at", "            and all(gap(a, b) <= Fraction(3, 4) for a, b in pairs))", "            )"),
    ("two angles are enough", "return (n >= 3 and", "return (n >= 2 and"),
    ("7 for a ring that is only not sound", "if not strict(boundary_angles", "if not sound(boundary_angles"),
    ("a centre on a boundary vertex accepted", "(centre[0], centre[1]) for e in boundary(mesh)):",
     "(centre[0], centre[1]) for e in []):"),
    ("a centre at the limit refused", "abs(c) > LIMIT for c in centre", "abs(c) >= LIMIT for c in centre"),
    ("the angle 1.0 refused", "if not (0.0 <= angle <= 1.0)", "if not (0.0 <= angle < 1.0)"),
    ("-0.0 refused", "if not (0.0 <= angle <= 1.0)",
     "if not (math.copysign(1.0, angle) > 0 and angle <= 1.0)"),
    ("8 before 7", "        refuse_ring(mesh, centre)\n        refuse_angle(angle)",
     "        refuse_angle(angle)\n        refuse_ring(mesh, centre)"),
    ("behind or at the end", "return factor > dx * dx + dy * dy", "return factor >= dx * dx + dy * dy"),
    ("the walks without the angle", "                       or angle == pseudo_angle(end, centre))",
     "                       )"),
    ("the other walk without the angle", "                       or angle == pseudo_angle(middle, centre))",
     "                       )", "(never needed in a sound ring)"),
    ("fate 3 before fate 2", FATE_2 + FATE_3, FATE_3 + FATE_2),
    ("fate 2 at the located edge's origin only", "if point == start or point == end:", "if point == start:",
     "(a segment does not hold its second angle)"),
    ("no fate 4", "        return 4, edge", "        pass"),
    ("no fate 5", "        return 5, None", "        return 3, None"),
    ("a number alone taken for a point", "if any(len(p) < 2 for p in points):", "if False:"),
    ("a number alone not counted", "n = mesh.vertices + len(points)",
     "n = mesh.vertices + sum(len(p) == 2 for p in points)"),
    ("an answers row of five words", "WORDS = 4", "WORDS = 5"),
    ("an answer's words turned round", "row[WORDS * i:WORDS * i + WORDS] = answer",
     "row[WORDS * i:WORDS * i + WORDS] = answer[::-1]"),
    ("answers after 9 kept", "lent.answers[:WORDS * len(points)] = [0] * (WORDS * len(points))", "pass"),
    ("9 names no place", "answer = (9, place, 0, 0, 0)", "answer = (9, 0, 0, 0, 0)"),
    ("the pending row not cleared", "        self.pending[:] = [0] * len(self.pending)", "        pass"),
    ("the buckets not cleared", "        self.buckets[:] = [0] * len(self.buckets)", "        pass"),
    ("at most 64 pending entries used", "capacity, skipped = len(lent.pending), []",
     "capacity, skipped = min(64, len(lent.pending)), []"),
]
# Pieces of sweep.py that the changes below put in another order.
COORDINATES, NO_OTHERS = "        refuse_coordinates(mesh, [])\n", "        refuse_heights(mesh, [])\n"
RULES, LEVEL = "        refuse_mesh(mesh)\n", "        refuse_heights(mesh, [level])\n"
BARE = COORDINATES + RULES  # without 10
CHECKED = COORDINATES + NO_OTHERS + RULES
HEIGHTS_FIRST, HEIGHTS_LAST = NO_OTHERS + COORDINATES + RULES, COORDINATES + RULES + NO_OTHERS
AFTER = {  # what follows these checks in a call
    "a check": "    except Refusal as r:\n        return (r.number, r.place)\n",
    "a finish": ("    except Refusal as r:\n        return (r.number, r.place, 0, 0, 0)\n    try:\n"
                 "        answer = (0, 0)"),
    "a locate": ("        refuse_centre(mesh, centre)\n        refuse_ring(mesh, centre)\n"
                 "        refuse_angle(angle)\n")}
BAD_LEVEL = "        if abs(level) > HEIGHT_LIMIT:\n            raise Refusal(10)\n"
RUN_COUNT = "    refuse_count(n)\n    refuse_mesh_rows(mesh, n)\n    refuse_ring"
RUN_RING_ROWS = "    refuse_ring_rows(lent, n)\n    refuse_pending_row(lent)\n"
RUN_COORDINATES = "    refuse_coordinates(mesh, points)\n"
RUN_HEIGHTS = "    refuse_heights(mesh, heights[:len(points)])\n"
RUN_HEIGHT_ROW = "    refuse_height_row(points, heights)\n"
RUN_ANSWER_ROW = "    refuse_answer_row(lent, answered)\n"
RUN_RULES, RUN_CENTRE = "    refuse_mesh(mesh)\n", "    refuse_centre(mesh, centre)\n"
RUN_RING = "    refuse_ring(mesh, centre)\n"
ANY_HEIGHT = "    refuse_heights(mesh, heights)\n"
FULL = "    except PendingFull:\n        answer, number = (0, 0, 0, 0), 9\n"
RUN_FULL = "        answer = (9, place, 0, 0, 0)\n"
LOSE = "        mesh.heights[mesh.vertices - 1] = 0\n"
STORED = "    mesh.heights[vertex] = z\n"
NO_FATE = "    if fate != 1:\n        return (fate, 0, 0, 0)\n"
ROW = " or len(mesh.heights) < n):"
POINTS_ROW = "if len(heights) < len(points):"
IN_RANGE = "z < -HEIGHT_LIMIT or z > HEIGHT_LIMIT"
IN_USE = "for z in mesh.heights[:mesh.vertices] + list(others)"
GIVEN = "capacity, heights[place])"
FACTOR = "(sum(heights) - 3 * level)"
EACH_FACE = "    for f in range(1, mesh.faces):\n        heights"
TOTAL = "    return total\n\n\ndef two_halves"
PATTERN = "pattern = number % (1 << 128)"
HALVES = "return (pattern >> 64, pattern % (1 << 64))"
ROUNDED_WITH = "    if 2 * rest > CUBIC_METRE or 2 * rest == CUBIC_METRE and %s:\n"
ROUNDED = ROUNDED_WITH % "whole % 2 == 1"
SIGNED = "    return whole if six > 0 else -whole"
METRE = "CUBIC_METRE = 6 * 10 ** 9"
HEIGHTS = [  # the same of Change 1
    ("a step stores no height", STORED, ""),
    ("a step stores the height 0", STORED, "    mesh.heights[vertex] = 0\n"),
    ("a step stores the height without its sign", STORED, "    mesh.heights[vertex] = abs(z)\n"),
    ("a step stores x for the height", STORED, "    mesh.heights[vertex] = point[0]\n"),
    ("the height stored at the vertex before", STORED, "    mesh.heights[vertex - 1] = z\n"),
    ("the height stored at the vertex after", STORED,
     "    mesh.heights[min(vertex + 1, len(mesh.heights) - 1)] = z\n"),
    ("the height stored at vertex 0", STORED, "    mesh.heights[0] = z\n"),
    ("the height stored at the edge's origin too", "    mesh.outs[vertex] = new_prev\n",
     "    mesh.outs[vertex] = new_prev\n    mesh.heights[edge_from] = z\n"),
    ("zeros past the new vertex", STORED,
     STORED + "    mesh.heights[vertex + 1:] = [0] * len(mesh.heights[vertex + 1:])\n"),
    ("a skipped point's height stored past the counts", NO_FATE,
     "    if fate != 1:\n        mesh.heights[mesh.vertices] = z\n        return (fate, 0, 0, 0)\n"),
    ("a dropped point's height stored at its vertex", NO_FATE,
     "    if fate == 2:\n        mesh.heights[mesh.origin(edge)] = z\n" + NO_FATE),
    ("the height lost after 9 in a step", FULL, FULL + LOSE),
    ("the height lost after 9 in a run", RUN_FULL, RUN_FULL + LOSE),
    ("heights of points not reached stored after 9", RUN_FULL,
     RUN_FULL + "        for i in range(place + 1, len(points)):\n"
     "            mesh.heights[mesh.vertices - 1 + i - place] = heights[i]\n"),
    ("the last point's height for every point", GIVEN, "capacity, heights[len(points) - 1])"),
    ("the next point's height", GIVEN, "capacity, heights[(place + 1) % len(points)])"),
    ("points' heights counted by the points added", GIVEN,
     "capacity, heights[sum(f == 1 for f in lent.answers[:WORDS * place:WORDS])])"),
    ("the heights row's length not asked", ROW, "):"),
    ("a heights row of the vertices alone", ROW, " or len(mesh.heights) < mesh.vertices):"),
    ("a heights row one entry longer asked", ROW, " or len(mesh.heights) < n + 1):"),
    ("two heights for each vertex", ROW, " or len(mesh.heights) < 2 * n):"),
    ("a heights row that may be one entry short", ROW, " or len(mesh.heights) < n - 1):"),
    ("the points' heights row not asked", POINTS_ROW, "if False:"),
    ("a points' heights row that may be one short", POINTS_ROW, "if len(heights) < len(points) - 1:"),
    ("a points' heights row one entry longer asked", POINTS_ROW, "if len(heights) <= len(points):"),
    ("a points' heights row of just the length", POINTS_ROW, "if len(heights) != len(points):"),
    ("the points' heights row checked after 3", RUN_HEIGHT_ROW + RUN_ANSWER_ROW + RUN_COORDINATES,
     RUN_ANSWER_ROW + RUN_COORDINATES + RUN_HEIGHT_ROW),
    ("10 before 1 in a run and a step", RUN_COUNT, ANY_HEIGHT + RUN_COUNT),
    ("10 before 2 in a run and a step", RUN_RING_ROWS, ANY_HEIGHT + RUN_RING_ROWS),
    ("10 before 3 in a run and a step", RUN_COORDINATES + RUN_HEIGHTS, RUN_HEIGHTS + RUN_COORDINATES),
    ("10 after 4 and 5 in a run and a step", RUN_HEIGHTS + RUN_RULES, RUN_RULES + RUN_HEIGHTS),
    ("10 after 6 in a run and a step", RUN_HEIGHTS + RUN_RULES + RUN_CENTRE,
     RUN_RULES + RUN_CENTRE + RUN_HEIGHTS),
    ("10 after 7 in a run and a step", RUN_HEIGHTS + RUN_RULES + RUN_CENTRE + RUN_RING,
     RUN_RULES + RUN_CENTRE + RUN_RING + RUN_HEIGHTS),
    ("no 10 in a run and a step", RUN_HEIGHTS, ""),
    ("the points' heights unchecked", RUN_HEIGHTS, "    refuse_heights(mesh, [])\n"),
    ("the first point's height unchecked", RUN_HEIGHTS, "    refuse_heights(mesh, heights[1:len(points)])\n"),
    ("the last point's height unchecked", RUN_HEIGHTS, "    refuse_heights(mesh, heights[:len(points) - 1])\n"),
    ("heights past the points checked", RUN_HEIGHTS, ANY_HEIGHT),
    ("the heights of added points checked alone", RUN_HEIGHTS + RUN_RULES + RUN_CENTRE + RUN_RING,
     "    refuse_heights(mesh, [])\n" + RUN_RULES + RUN_CENTRE + RUN_RING + "    refuse_heights(mesh, "
     "[z for p, z in zip(points, heights) if fate_of(mesh, p, centre)[0] == 1])\n"),
    *(("%s in %s" % (name, call), CHECKED + end, checks + end) for call, end in AFTER.items()
      for name, checks in (("10 before 3", HEIGHTS_FIRST), ("10 after 4 and 5", HEIGHTS_LAST),
                           ("no 10", BARE))),
    ("10 after 8 in a locate", CHECKED + AFTER["a locate"], BARE + AFTER["a locate"] + NO_OTHERS),
    ("10 before 3 in a volume", COORDINATES + LEVEL, LEVEL + COORDINATES),
    ("10 after 4 and 5 in a volume", LEVEL + RULES, RULES + LEVEL),
    ("the level after 4 and 5", LEVEL + RULES, NO_OTHERS + RULES + LEVEL),
    ("the level before 3", COORDINATES + LEVEL, BAD_LEVEL + COORDINATES + LEVEL),
    ("no 10 in a volume", LEVEL, ""),
    ("the level unchecked", LEVEL, NO_OTHERS),
    ("the level alone checked", LEVEL, BAD_LEVEL),
    ("the range of coordinates for the level", LEVEL,
     "        refuse_coordinates(mesh, [(level, level)])\n" + NO_OTHERS),
    ("the range one wider above", IN_RANGE, "z < -HEIGHT_LIMIT or z > HEIGHT_LIMIT + 1"),
    ("the range one narrower above", IN_RANGE, "z < -HEIGHT_LIMIT or z > HEIGHT_LIMIT - 1"),
    ("the range one wider below", IN_RANGE, "z < -HEIGHT_LIMIT - 1 or z > HEIGHT_LIMIT"),
    ("the range one narrower below", IN_RANGE, "z < -HEIGHT_LIMIT + 1 or z > HEIGHT_LIMIT"),
    ("no range above", IN_RANGE, "z < -HEIGHT_LIMIT"),
    ("no range below", IN_RANGE, "z > HEIGHT_LIMIT"),
    ("the range of coordinates", "HEIGHT_LIMIT = 1048576", "HEIGHT_LIMIT = 16777216"),
    ("10 names the vertex", "        raise Refusal(10)\n",
     "        raise Refusal(10, next(i for i, z in enumerate(mesh.heights[:mesh.vertices] + list(others))"
     " if abs(z) > HEIGHT_LIMIT))\n"),
    ("a height past the counts in use checked", IN_USE,
     "for z in mesh.heights[:mesh.vertices + 1] + list(others)"),
    ("the whole heights row checked", IN_USE, "for z in mesh.heights + list(others)"),
    ("the first height unchecked", IN_USE, "for z in mesh.heights[1:mesh.vertices] + list(others)"),
    ("the last height unchecked", IN_USE, "for z in mesh.heights[:mesh.vertices - 1] + list(others)"),
    ("the first and last heights checked alone", IN_USE,
     "for z in mesh.heights[:1] + mesh.heights[mesh.vertices - 1:mesh.vertices] + list(others)"),
    ("2L for 3L", FACTOR, "(sum(heights) - 2 * level)"),
    ("L for 3L", FACTOR, "(sum(heights) - level)"),
    ("the level added", FACTOR, "(sum(heights) + 3 * level)"),
    ("the level left out", FACTOR, "sum(heights)"),
    ("the first height dropped", FACTOR, "(sum(heights[1:]) - 3 * level)"),
    ("the second height dropped", FACTOR, "(heights[0] + heights[2] - 3 * level)"),
    ("the last height dropped", FACTOR, "(sum(heights[:2]) - 3 * level)"),
    ("one height three times", FACTOR, "3 * (heights[0] - level)"),
    ("the highest of the three", FACTOR, "3 * (max(heights) - level)"),
    ("volumes below the level left out", FACTOR, "max(0, sum(heights) - 3 * level)"),
    ("volumes without a sign", FACTOR, "abs(sum(heights) - 3 * level)"),
    ("the sign turned", FACTOR, "(3 * level - sum(heights))"),
    ("the first face left out", EACH_FACE, "    for f in range(2, mesh.faces):\n        heights"),
    ("the last face left out", EACH_FACE, "    for f in range(1, mesh.faces - 1):\n        heights"),
    ("the outer face counted as an inner one", EACH_FACE, "    for f in range(mesh.faces):\n        heights"),
    ("the heights by the faces' numbers", "[mesh.heights[v] for v in face_vertices(mesh, f)]",
     "mesh.heights[f - 1:f + 2]"),
    ("the first face's heights for all", TOTAL,
     "    return (sum(mesh.heights[v] for v in face_vertices(mesh, 1)) - 3 * level) * inner_area(mesh)"
     "\n\n\ndef two_halves"),
    ("64 bits of the number", PATTERN, "pattern = number % (1 << 64)"),
    ("64 bits of the number, signed", PATTERN,
     "pattern = ((number + (1 << 63)) % (1 << 64) - (1 << 63)) % (1 << 128)"),
    ("the number without its sign", PATTERN, "pattern = abs(number)"),
    ("the halves exchanged", HALVES, "return (pattern % (1 << 64), pattern >> 64)"),
    ("the high half left out", HALVES, "return (0, pattern % (1 << 64))"),
    ("the low half left out", HALVES, "return (pattern >> 64, 0)"),
    ("a low half of 63 bits", HALVES, "return (pattern >> 63, pattern % (1 << 63))"),
    ("a low half that is signed", HALVES,
     "return ((pattern >> 64) - (pattern >> 63 & 1), pattern % (1 << 64))"),
    ("exact halves away from zero", ROUNDED, "    if 2 * rest >= CUBIC_METRE:\n"),
    ("exact halves to odd", ROUNDED, ROUNDED_WITH % "whole % 2 == 0"),
    ("exact halves up", ROUNDED, ROUNDED_WITH % "six > 0"),
    ("exact halves down", ROUNDED, ROUNDED_WITH % "six < 0"),
    ("exact halves towards zero", ROUNDED, "    if 2 * rest > CUBIC_METRE:\n"),
    ("one less than a half away from zero", ROUNDED, "    if 2 * rest >= CUBIC_METRE - 2:\n"),
    ("one less than a half to even", ROUNDED, ROUNDED.replace("rest", "(rest + 1)")),
    ("one more than a half to even", ROUNDED, ROUNDED.replace("rest", "(rest - 1)")),
    ("every half of an odd whole up", ROUNDED, "    if 2 * rest > CUBIC_METRE or whole % 2 == 1:\n"),
    ("exact halves below zero away from it", SIGNED,
     "    return whole if six > 0 else -((abs(six) + CUBIC_METRE // 2) // CUBIC_METRE)"),
    ("the fraction cut off", ROUNDED, "    if False:\n"),
    ("any fraction away from zero", ROUNDED, "    if rest:\n"),
    ("the floor", SIGNED, "    return six // CUBIC_METRE"),
    ("the ceiling", SIGNED, "    return -(-six // CUBIC_METRE)"),
    ("cubic metres without a sign", SIGNED, "    return whole"),
    ("cubic metres by a float", SIGNED, "    return round(six / CUBIC_METRE)"),
    ("cubic metres of six times the volume", METRE, "CUBIC_METRE = 10 ** 9"),
    ("cubic metres of twice the volume", METRE, "CUBIC_METRE = 3 * 10 ** 9"),
    ("litres for cubic metres", METRE, "CUBIC_METRE = 6 * 10 ** 6"),
    ("cubic metres of the low half", "(cubic_metres(six),)",
     "(cubic_metres((six + (1 << 63)) % (1 << 64) - (1 << 63)),)"),
]
FROM_ZERO = "walk_to_nearest_neighbor(mesh, 0, target)"
ROUND = "        return walk_to_target(mesh, walk_to_nearest_neighbor(mesh, 0, target), target)\n"
LOOP = "    turns_left = 2 * mesh.edges\n    while True:\n        if turns_left == 0:\n            raise TooManyTurns\n"
LAST_SIDE = ("        if e2_query == 0:\n            return ON_EDGE, e2\n        if e2_query > 0:\n"
             "            return INTO, mesh.face(e1)\n")
BOTH_ENDS = ("        if mesh.at(mesh.origin(e0)) == target:\n            return ON_VERTEX, mesh.origin(e0)\n"
             "        if mesh.at(mesh.to(e0)) == target:\n            return ON_VERTEX, mesh.to(e0)\n")
HITS = "            if s == 0 and mesh.at(mesh.to(e)) != target:\n                return ON_EDGE, e\n"
EACH = "    return sum(legalize_edge(mesh, e, capacity) for e in edges)\n"
FIRST = "    flips = legalize_edge(mesh, edge, capacity)\n\n    current = ccw_walk_start\n    while side("
BEFORE = ("        current = create_single_face_between_edge_and_next(mesh, before)\n"
          "        flips += legalize_edge(mesh, before, capacity)\n")
AFTER_IT = ("        current = create_single_face_between_edge_and_next(mesh, current)\n"
            "        flips += legalize_edge(mesh, after, capacity)\n")
LEFT_LOOP = ("    current = ccw_walk_start\n    while side(mesh, mesh.prev(current), point) > 0:\n"
             "        before = mesh.prev(current)\n" + BEFORE)
RIGHT_LOOP = ("    current = cw_walk_start\n    while side(mesh, mesh.next(current), point) > 0:\n"
              "        after = mesh.next(current)\n" + AFTER_IT)
LEGALIZED = "        flips = legalize_vertex(mesh, vertex, capacity)\n"
MET = "        mesh.heights[met] = z\n"
ANSWER_9 = "        return (fate, met, 0, 0)\n"
ANSWER_IN = "    return (fate, vertex, mesh.faces - faces_before, flips)\n"
SORTED = ("            if answer[0] in SKIPPED:\n                skipped.append(place)\n            else:\n"
          "                put_answer(lent.answers, place, answer)\n")
PASSES = "        faces, flips = convexity(mesh, capacity)\n"
GO_IN = ("        for place in skipped:\n            put_answer(lent.answers, place, "
         "insert_skipped(mesh, points[place], heights[place], capacity))\n")
WITH_HEIGHT = "insert_skipped(mesh, points[place], heights[place], capacity)"
SKIPPING = [  # the same of Change 2
    ("the search from vertex 1", FROM_ZERO, "walk_to_nearest_neighbor(mesh, 1, target)"),
    ("the search from the last vertex", FROM_ZERO, "walk_to_nearest_neighbor(mesh, mesh.vertices - 1, target)"),
    ("the search without the walk to the nearest", ROUND, "        return walk_to_target(mesh, 0, target)\n"),
    ("the last closer neighbour", "        vertex = closer[0]\n", "        vertex = closer[-1]\n"),
    ("the closest neighbour", "        vertex = closer[0]\n",
     "        vertex = min(closer, key=lambda v: distance_2(mesh.at(v), target))\n"),
    ("a neighbour as close is closer", "target) < closest]", "target) <= closest]"),
    ("the scan for the search", ROUND, "        return scan(mesh, target)\n"),
    ("the search from 0, then from 1", "        return scan(mesh, target)\n",
     "        return walk_to_target(mesh, 1, target)\n"),
    ("eight turns of the rotating loop", LOOP, LOOP.replace("2 * mesh.edges", "8")),
    ("no turn of the nearest walk", "vertex, turns_left = start, 2 * mesh.edges", "vertex, turns_left = start, 0"),
    ("an outer edge on the line not turned round", "            if mesh.face(e0) == 0:\n                e0 = rev(e0)\n", "",
     "(no run is known that tells it)"),
    ("the next edge for the one before, on the line", "                e0 = rev(e0)\n            e0 = mesh.prev(e0)\n",
     "                e0 = rev(e0)\n            e0 = mesh.next(e0)\n"),
    ("turned on to the point's line", "if rotated_query == 0 or (rotated_query > 0) == rotate_ccw:",
     "if (rotated_query > 0) == rotate_ccw:"),
    ("turned the other way", "rotated = rev(mesh.prev(e0)) if rotate_ccw else mesh.next(rev(e0))",
     "rotated = mesh.next(rev(e0)) if rotate_ccw else rev(mesh.prev(e0))"),
    ("the other side of the segment", "e2 = mesh.next(e1) if rotate_ccw else mesh.prev(e1)",
     "e2 = mesh.prev(e1) if rotate_ccw else mesh.next(e1)"),
    ("the walk goes on round the near end", "        if mesh.face(e0) != 0:\n            e0 = mesh.prev(e0)\n",
     "        if mesh.face(e0) != 0:\n            e0 = mesh.next(e0)\n"),
    ("a point on an edge put into the triangle", LAST_SIDE, LAST_SIDE.replace("e2_query == 0", "False").replace("> 0", ">= 0")),
    ("the edge named from the other side", "            return ON_EDGE, e2\n", "            return ON_EDGE, rev(e2)\n"),
    ("an end of the edge not looked at", "        if mesh.at(mesh.to(e0)) == target:\n", "        if False:\n",
     "(no run is known that tells it: a later turn finds the vertex)"),
    ("the origin not looked at", "        if mesh.at(mesh.origin(e0)) == target:\n", "        if False:\n",
     "(no run is known that tells it: a later turn finds the vertex)"),
    ("neither end of the edge looked at", BOTH_ENDS, ""),
    ("a scan without triangle 1", "    for f in range(1, mesh.faces):\n        around",
     "    for f in range(2, mesh.faces):\n        around"),
    ("a scan without the last triangle", "    for f in range(1, mesh.faces):\n        around",
     "    for f in range(1, mesh.faces - 1):\n        around"),
    ("a scan from the last triangle down", "    for f in range(1, mesh.faces):\n        around",
     "    for f in reversed(range(1, mesh.faces)):\n        around"),
    ("a scan that names the other half-edge", HITS, HITS.replace("ON_EDGE, e", "ON_EDGE, rev(e)")),
    ("a scan without edges", HITS, ""),
    ("a scan without corners", "            if mesh.at(mesh.origin(e)) == target:\n", "            if False:\n"),
    ("a scan of the boundary from its last edge", "    for e in boundary(mesh):\n        if side",
     "    for e in boundary(mesh)[::-1]:\n        if side",
     "(no run is known in which the scan goes on to the boundary)"),
    ("the collected edges turned round", EACH, EACH.replace("in edges)", "in reversed(edges))")),
    ("the collected edges from the second on", EACH, EACH.replace("in edges)", "in edges[1:] + edges[:1])")),
    ("the last collected edge forgotten", EACH, EACH.replace("in edges)", "in edges[:-1])")),
    ("the first collected edge forgotten", EACH, EACH.replace("in edges)", "in edges[1:])")),
    ("the collected edges are pending entries", EACH,
     "    return sum(legalize_edge(mesh, e, capacity - len(edges) + 1 + i) for i, e in enumerate(edges))\n"),
    ("the edges at the new vertex collected", "edges = [mesh.next(e) for e in turn_about(mesh, vertex)",
     "edges = [e for e in turn_about(mesh, vertex)"),
    ("an inserted vertex not legalized", LEGALIZED, "        flips = 0\n"),
    ("flips of an insertion not counted", LEGALIZED, LEGALIZED + "        flips = 0\n"),
    ("the edge found outside not legalized", FIRST, FIRST.replace("legalize_edge(mesh, edge, capacity)", "0", 1)),
    ("the first loop outside left out", LEFT_LOOP, ""),
    ("the second loop outside left out", RIGHT_LOOP, ""),
    ("the loops outside in the other order", LEFT_LOOP + "\n" + RIGHT_LOOP, RIGHT_LOOP + "\n" + LEFT_LOOP),
    ("the first loop outside at most once", BEFORE, BEFORE + "        break\n"),
    ("the second loop outside at most once", AFTER_IT, AFTER_IT + "        break\n"),
    ("nothing legalized in the first loop", BEFORE, BEFORE.replace("legalize_edge(mesh, before, capacity)", "0")),
    ("nothing legalized in the second loop", AFTER_IT, AFTER_IT.replace("legalize_edge(mesh, after, capacity)", "0")),
    ("the first loop legalizes as a step does", BEFORE,
     BEFORE.replace("current = create", "near, current = current, create")
     .replace("legalize_edge(mesh, before, capacity)",
              "legalize_edges_after_removal(mesh, [near // 2, before // 2], capacity)")),
    ("the second loop legalizes as a step does", AFTER_IT,
     AFTER_IT.replace("current = create", "near, current = current, create")
     .replace("legalize_edge(mesh, after, capacity)",
              "legalize_edges_after_removal(mesh, [near // 2, after // 2], capacity)")),
    ("the first loop closes straight corners", "while side(mesh, mesh.prev(current), point) > 0:",
     "while side(mesh, mesh.prev(current), point) >= 0:"),
    ("the second loop closes straight corners", "while side(mesh, mesh.next(current), point) > 0:",
     "while side(mesh, mesh.next(current), point) >= 0:"),
    ("a triangle's new out edge", "    mesh.outs[v] = e4\n", "    mesh.outs[v] = e6\n"),
    ("a triangle's new stored edges", "    mesh.stored[f1], mesh.stored[f2] = e1, e2\n",
     "    mesh.stored[f1], mesh.stored[f2] = e4, e6\n"),
    ("a triangle split from another side", "    e0 = mesh.stored[f0]\n", "    e0 = mesh.next(mesh.stored[f0])\n"),
    ("the new faces of a triangle exchanged", "    f1, f2 = mesh.faces, mesh.faces + 1\n",
     "    f2, f1 = mesh.faces, mesh.faces + 1\n"),
    ("a split side's out edge forgotten", "    mesh.outs[to] = t2\n", ""),
    ("a split side's stored edge forgotten", "    mesh.stored[f1] = edge\n", ""),
    ("a split side's new out edge", "    mesh.outs[vertex] = e2\n", "    mesh.outs[vertex] = t1\n"),
    ("a split side's new stored edge", "    mesh.stored[nf] = e2\n", "    mesh.stored[nf] = e1\n"),
    ("a split side's new edges exchanged", "    e1, t1, e2, t2 = range(2 * mesh.edges, 2 * mesh.edges + 4)\n",
     "    e2, t2, e1, t1 = range(2 * mesh.edges, 2 * mesh.edges + 4)\n"),
    ("a split edge's out edge forgotten", "    mesh.outs[v3] = e2\n", ""),
    ("a split edge's new out edge", "    mesh.outs[v0] = t0\n", "    mesh.outs[v0] = t1\n"),
    ("a split edge's stored edges", "mesh.stored[f3] = e0, e1, e2, e3\n", "mesh.stored[f3] = e0, t0, e2, e3\n"),
    ("a split edge's new edges exchanged", "    e1, t1, e2, t2, e3, t3 = range(", "    e3, t3, e2, t2, e1, t1 = range("),
    ("a split edge's new faces exchanged", "mesh.face(e0), mesh.face(t0), mesh.faces, mesh.faces + 1\n",
     "mesh.face(e0), mesh.face(t0), mesh.faces + 1, mesh.faces\n"),
    ("fate 9 keeps the old height", MET, ""),
    ("fate 9 keeps the higher height", MET, "        mesh.heights[met] = max(z, mesh.heights[met])\n"),
    ("fate 9 gives its height to vertex 0", MET, "        mesh.heights[0] = z\n"),
    ("fate 9 gives its height to every vertex there", MET,
     "        for v in range(mesh.vertices):\n            if mesh.at(v) == point:\n"
     "                mesh.heights[v] = z\n"),
    ("fate 9 names no vertex", ANSWER_9, "        return (fate, 0, 0, 0)\n"),
    ("fate 2 for fate 9", ANSWER_9, "        return (2, 0, 0, 0)\n"),
    ("two faces for every insertion", ANSWER_IN, "    return (fate, vertex, 2, flips)\n"),
    ("fate 1 for an inserted point", ANSWER_IN, ANSWER_IN.replace("(fate,", "(1,")),
    ("fates 6 and 7 exchanged", "INTO, ON_EDGE, OUTSIDE, ON_VERTEX = 6, 7, 8, 9", "INTO, ON_EDGE, OUTSIDE, ON_VERTEX = 7, 6, 8, 9"),
    ("points of fate 3 left out", "SKIPPED = (3, 4, 5)", "SKIPPED = (4, 5)"),
    ("points of fate 4 left out", "SKIPPED = (3, 4, 5)", "SKIPPED = (3, 5)"),
    ("points of fate 5 left out", "SKIPPED = (3, 4, 5)", "SKIPPED = (3, 4)"),
    ("dropped points inserted too", "SKIPPED = (3, 4, 5)", "SKIPPED = (2, 3, 4, 5)"),
    ("the first skipped point forgotten", GO_IN, GO_IN.replace("in skipped", "in skipped[1:]")),
    ("the last skipped point forgotten", GO_IN, GO_IN.replace("in skipped", "in skipped[:-1]")),
    ("the skipped points from the last", GO_IN, GO_IN.replace("in skipped", "in reversed(skipped)")),
    ("skipped points go in at once", SORTED,
     SORTED.replace("                skipped.append(place)\n",
                    "                put_answer(lent.answers, place, %s)\n" % WITH_HEIGHT)),
    ("skipped points go in before convexity", PASSES + GO_IN, GO_IN + "        place = len(points)\n" + PASSES),
    ("skipped points go in after one pass", PASSES,
     "        faces, flips = mesh.faces, fix_convexity(mesh, capacity)\n        faces = mesh.faces - faces\n"),
    ("no convexity passes after the insertions", "        more_faces, more_flips = convexity(mesh, capacity)\n",
     "        more_faces, more_flips = 0, 0\n", "(they add no face)"),
    ("skipped points answer 3 to 5 until they are in", SORTED,
     "            put_answer(lent.answers, place, answer)\n            if answer[0] in SKIPPED:\n"
     "                skipped.append(place)\n"),
    ("skipped points before a step's 9 go in", RUN_FULL, RUN_FULL +
     "        if place < len(points) and mesh.at(mesh.vertices - 1) == points[place] and answer_at(lent.answers, place)[0] == 0"
     " and place not in skipped:\n            for i in skipped:\n"
     "                put_answer(lent.answers, i, insert_skipped(mesh, points[i], heights[i], 1 << 30))\n"),
    ("answers after an insertion's 9 all 0", RUN_FULL, RUN_FULL +
     "        lent.answers[WORDS * place:WORDS * len(points)] = [0] * (WORDS * (len(points) - place))\n"),
    ("answers of insertions lost after 9", RUN_FULL, RUN_FULL +
     "        for i in skipped:\n            put_answer(lent.answers, i, (0, 0, 0, 0))\n"),
    ("the refused insertion answers its vertex", RUN_FULL, RUN_FULL +
     "        if place in skipped:\n            put_answer(lent.answers, place, (0, mesh.vertices - 1, 0, 0))\n"),
    ("an insertion's 9 names the number of points", RUN_FULL,
     "        answer = (9, len(points) if place in skipped else place, 0, 0, 0)\n"),
    ("an insertion's 9 names the place among the skipped", RUN_FULL,
     "        answer = (9, skipped.index(place) if place in skipped else place, 0, 0, 0)\n"),
    ("the refused insertion taken back", RUN_FULL, RUN_FULL +
     "        if place in skipped:\n            mesh.vertices -= 1\n"),
    ("the refused insertion's height lost", RUN_FULL, RUN_FULL +
     "        if place in skipped:\n            mesh.heights[mesh.vertices - 1] = 0\n"),
    ("the height 0 for a skipped point", WITH_HEIGHT, WITH_HEIGHT.replace("heights[place]", "0")),
    ("the next point's height for a skipped one", WITH_HEIGHT,
     WITH_HEIGHT.replace("heights[place]", "heights[(place + 1) % len(points)]")),
    ("skipped points' heights counted by themselves", WITH_HEIGHT,
     WITH_HEIGHT.replace("heights[place]", "heights[skipped.index(place)]")),
    ("a run's flips without those of the first passes", "faces + more_faces, flips + more_flips,",
     "faces + more_faces, more_flips,"),
]
DETERMINANT = "    return (b[0] - a[0]) * (c[1] - a[1]) - (b[1] - a[1]) * (c[0] - a[0])\n"
AREA = DETERMINANT[len("    return "):-1]
TESTED = "        refuse_positions([a, b, c])\n"
NAMED = "        for i, p in %s:\n            if %s:\n                raise Refusal(3, %s)\n"  # points, test, place
POINTS, OUT = "enumerate([a, b, c])", "max(map(abs, p)) > LIMIT"
REFUSED_SIDE = "        return (r.number, r.place, 0)\n"
ACCEPTED_SIDE = "    return (0, 0, orient2d(a, b, c))\n"
SUM = "    return sum(orient2d(*face_corners(mesh, f)) for f in range(1, mesh.faces))\n"
CHECKED_AREA = "    number, place = check(mesh)\n"
REFUSED_AREA = "        return (number, place, 0, 0)\n"
HALVES_OF_AREA = "two_halves(inner_area(mesh))"
AT_BOUNDARY = "0 in [mesh.face(rev(h)) for h in cycle(mesh.next, mesh.stored[f], 3)]"
AREAS = [  # the same of Change 3: the side test, the side query, then the area total
    ("a side test without its sign", DETERMINANT, "    return abs(%s)\n" % AREA),
    ("a side test turned", DETERMINANT, "    return -(%s)\n" % AREA),
    ("the sign of the area alone", DETERMINANT, "    area = %s\n    return (area > 0) - (area < 0)\n" % AREA),
    ("the area not doubled", DETERMINANT, "    return (%s) // 2\n" % AREA),
    ("the area doubled twice", DETERMINANT, "    return 2 * (%s)\n" % AREA),
    ("32 bits of the area, signed", DETERMINANT, "    return ((%s) + 2 ** 31) %% 2 ** 32 - 2 ** 31\n" % AREA),
    ("32 bits of the area, unsigned", DETERMINANT, "    return (%s) %% 2 ** 32\n" % AREA),
    ("32 bits of the area and its sign", DETERMINANT,
     "    area = %s\n    return abs(area) %% 2 ** 32 * ((area > 0) - (area < 0))\n" % AREA),
    ("an area that stops at 32 bits", DETERMINANT, "    return max(-2 ** 31, min(2 ** 31 - 1, %s))\n" % AREA),
    ("an area of 50 bits", DETERMINANT, "    return ((%s) + 2 ** 49) %% 2 ** 50 - 2 ** 49\n" % AREA),
    ("an area of 51 bits", DETERMINANT, "    return ((%s) + 2 ** 50) %% 2 ** 51 - 2 ** 50\n" % AREA),
    ("an area that stops one below 2^50", DETERMINANT, "    return max(-2 ** 50, min(2 ** 50 - 1, %s))\n" % AREA),
    ("an area that stops one above -2^50", DETERMINANT, "    return max(1 - 2 ** 50, %s)\n" % AREA),
    ("products of 50 bits", DETERMINANT, "    return ((b[0] - a[0]) * (c[1] - a[1]) + 2 ** 49) % 2 ** 50 - 2 ** 49"
     " - ((b[1] - a[1]) * (c[0] - a[0]) + 2 ** 49) % 2 ** 50 + 2 ** 49\n"),
    ("the last bits of the area left out", DETERMINANT, "    area = %s\n    return area - area %% 2 ** 11\n" % AREA),
    ("1 and -1 taken for 0", DETERMINANT, "    area = %s\n    return area if abs(area) > 1 else 0\n" % AREA),
    ("the last two points exchanged", DETERMINANT, "    b, c = c, b\n" + DETERMINANT),
    ("the sum of the products", DETERMINANT, DETERMINANT.replace(") - (b[1]", ") + (b[1]")),
    ("the last point out of range named", TESTED, NAMED % ("reversed([*%s])" % POINTS, OUT, "i")),
    ("the farthest point named", TESTED, NAMED % ("sorted(%s, key=lambda e: -max(map(abs, e[1])))" % POINTS, OUT, "i")),
    ("every x tested before any y", TESTED,
     NAMED % (POINTS, "abs(p[0]) > LIMIT", "i") + NAMED % (POINTS, "abs(p[1]) > LIMIT", "i")),
    ("every y tested before any x", TESTED,
     NAMED % (POINTS, "abs(p[1]) > LIMIT", "i") + NAMED % (POINTS, "abs(p[0]) > LIMIT", "i")),
    ("points above the range named before those below", TESTED,
     NAMED % (POINTS, "max(p) > LIMIT", "i") + NAMED % (POINTS, "min(p) < -LIMIT", "i")),
    ("points below the range named before those above", TESTED,
     NAMED % (POINTS, "min(p) < -LIMIT", "i") + NAMED % (POINTS, "max(p) > LIMIT", "i")),
    ("points out in both coordinates named first", TESTED,
     NAMED % (POINTS, "min(map(abs, p)) > LIMIT", "i") + NAMED % (POINTS, OUT, "i")),
    ("the three points' places from 1", TESTED, NAMED % (POINTS, OUT, "i + 1")),
    ("the three points' places from the last", TESTED, NAMED % (POINTS, OUT, "2 - i")),
    ("the three points' places by coordinates", TESTED, NAMED % (POINTS, OUT, "2 * i + (abs(p[0]) <= LIMIT)")),
    ("no place in a side query's refusal", TESTED, NAMED % (POINTS, OUT, "0")),
    ("how many are out of range for the place", TESTED,
     NAMED % (POINTS, OUT, "sum(max(map(abs, q)) > LIMIT for q in (a, b, c)) - 1")),
    ("16777217 in range", TESTED, NAMED % (POINTS, "max(p) > LIMIT + 1 or min(p) < -LIMIT", "i")),
    ("-16777217 in range", TESTED, NAMED % (POINTS, "max(p) > LIMIT or min(p) < -LIMIT - 1", "i")),
    ("16777216 out of range", TESTED, NAMED % (POINTS, "max(p) >= LIMIT or min(p) < -LIMIT", "i")),
    ("-16777216 out of range", TESTED, NAMED % (POINTS, "max(p) > LIMIT or min(p) <= -LIMIT", "i")),
    ("2147483647 in range", TESTED, NAMED % (POINTS, "any(abs(x) > LIMIT and x != 2 ** 31 - 1 for x in p)", "i")),
    ("-2147483648 in range", TESTED, NAMED % (POINTS, "any(abs(x) > LIMIT and x != -2 ** 31 for x in p)", "i")),
    ("points above the range accepted", TESTED, NAMED % (POINTS, "min(p) < -LIMIT", "i")),
    ("points below the range accepted", TESTED, NAMED % (POINTS, "max(p) > LIMIT", "i")),
    ("x out of range accepted", TESTED, NAMED % (POINTS, "abs(p[1]) > LIMIT", "i")),
    ("y out of range accepted", TESTED, NAMED % (POINTS, "abs(p[0]) > LIMIT", "i")),
    ("one coordinate out of range accepted", TESTED, NAMED % (POINTS, "min(map(abs, p)) > LIMIT", "i")),
    ("both coordinates out of range accepted", TESTED,
     NAMED % (POINTS, "(abs(p[0]) > LIMIT) != (abs(p[1]) > LIMIT)", "i")),
    ("the first point not tested", TESTED, NAMED % ("[(1, b), (2, c)]", OUT, "i")),
    ("the second point not tested", TESTED, NAMED % ("[(0, a), (2, c)]", OUT, "i")),
    ("the third point not tested", TESTED, NAMED % ("[(0, a), (1, b)]", OUT, "i")),
    ("the range about the first point", TESTED,
     NAMED % (POINTS, "max(abs(p[0] - a[0]), abs(p[1] - a[1])) > 2 * LIMIT", "i")),
    ("refused where the area passes 2^50 alone", TESTED,
     NAMED % (POINTS, OUT + " and abs(orient2d(a, b, c)) > 2 ** 50", "i")),
    ("an area of 0 never refused", TESTED, NAMED % (POINTS, OUT + " and orient2d(a, b, c)", "i")),
    ("points out of range moved into it", TESTED,
     "        a, b, c = [tuple(max(-LIMIT, min(LIMIT, x)) for x in p) for p in (a, b, c)]\n"),
    ("an area of any points", TESTED, "        pass\n"),
    ("an area beside the refusal", REFUSED_SIDE, "        return (r.number, r.place, orient2d(a, b, c))\n"),
    ("a side query refused 10", REFUSED_SIDE, "        return (10, r.place, 0)\n"),
    ("number 0 with the place of a refusal", REFUSED_SIDE, "        return (0, r.place, 0)\n"),
    ("a side query's number and place exchanged", REFUSED_SIDE, "        return (r.place, r.number, 0)\n"),
    ("a place beside the area", ACCEPTED_SIDE, ACCEPTED_SIDE.replace("(0, 0,", "(0, 2,")),
    ("areas without a sign in the total", SUM, SUM.replace("orient2d(*face_corners(mesh, f))",
                                                         "abs(orient2d(*face_corners(mesh, f)))"),
     "(every triangle turns left)"),
    ("the total of the boundary", HALVES_OF_AREA, "two_halves(boundary_area(mesh))", "(the same number)"),
    ("the total's sign turned", HALVES_OF_AREA, "two_halves(-inner_area(mesh))"),
    ("the total not doubled", HALVES_OF_AREA, "two_halves(inner_area(mesh) // 2)"),
    ("the first face left out of the total", SUM, SUM.replace("range(1,", "range(2,")),
    ("the last face left out of the total", SUM, SUM.replace("mesh.faces)", "mesh.faces - 1)")),
    ("the outer face in the total", SUM, SUM.replace("range(1, mesh.faces)", "range(mesh.faces)")),
    ("the first face alone", SUM, SUM.replace("range(1, mesh.faces)", "range(1, 2)")),
    ("the largest face alone", SUM, SUM.replace("sum(", "max(")),
    ("the first face for every one", SUM, SUM.replace("face_corners(mesh, f)", "face_corners(mesh, 1)")),
    ("faces at the boundary alone", SUM, SUM.replace("mesh.faces))", "mesh.faces) if %s)" % AT_BOUNDARY)),
    ("faces away from the boundary alone", SUM, SUM.replace("mesh.faces))", "mesh.faces) if not %s)" % AT_BOUNDARY)),
    ("32 bits of the total", HALVES_OF_AREA, "two_halves(inner_area(mesh) % 2 ** 32)"),
    ("a total that stops at 2^50", HALVES_OF_AREA, "two_halves(min(2 ** 50, inner_area(mesh)))"),
    ("the total as a double", HALVES_OF_AREA, "two_halves(int(float(inner_area(mesh))))"),
    ("the total's halves exchanged", HALVES_OF_AREA, HALVES_OF_AREA + "[::-1]"),
    ("the total in both halves", HALVES_OF_AREA, "(inner_area(mesh), inner_area(mesh))"),
    ("the total's high half left out", HALVES_OF_AREA, "(0, inner_area(mesh) % (1 << 64))",
     "(no mesh of a list passes 64 bits)"),
    ("six volumes for the total", HALVES_OF_AREA, "two_halves(six_volumes(mesh, -1))"),
    ("the total by the heights", HALVES_OF_AREA, "two_halves(six_volumes(mesh, 0) // 3)"),
    ("no place in the total's refusal", REFUSED_AREA, "        return (number, 0, 0, 0)\n"),
    ("the total of a face that turns right", REFUSED_AREA,
     "        return (number, place) + (two_halves(inner_area(mesh)) if number == 5 else (0, 0))\n"),
    ("no 10 in a total", CHECKED_AREA,
     "    number, place = check(Mesh(*mesh.rows()[:4], *mesh.counts(), [0] * len(mesh.heights)))\n"),
    ("the heights row not asked for a total", CHECKED_AREA,
     "    number, place = check(Mesh(*mesh.rows()[:4], *mesh.counts()))\n"),
    ("a total of any mesh", CHECKED_AREA, "    number, place = 0, 0\n"),
    ("a total of a mesh with bad rules", CHECKED_AREA + "    if number:\n",
     CHECKED_AREA + "    if number not in (0, 4):\n"),
    ("a total of a mesh that turns right", CHECKED_AREA + "    if number:\n",
     CHECKED_AREA + "    if number not in (0, 5):\n"),
]
ASK_COUNTED = "    n = mesh.vertices + 1\n"
ASK_COUNT = "        refuse_count(n)\n"
ASK_MESH_ROWS, ASK_RING_ROWS = "        refuse_mesh_rows(mesh, n)\n", "        refuse_ring_rows(lent, n)\n"
ASK_COORDINATES, ASK_HEIGHTS = "        refuse_coordinates(mesh, [point])\n", "        refuse_heights(mesh, [z])\n"
ASK_RULES = RULES + "        refuse_centre(mesh, centre)\n        refuse_ring(mesh, centre)\n"
AT_END = "        refuse_end(mesh)\n"
ASK_REFUSED = "    except Refusal as r:\n        return (r.number, r.place, NO_QUOTE)\n"
ASK_CLEARED = ASK_REFUSED + "    lent.clear_ring()\n"
ASK_GIVEN = "    return (0, 0, quote_of(mesh, point, z, centre))\n"
QUOTED = "    return (mesh.changes, *point, z, *asked(mesh, point, centre))\n"
NO_FACES = "    if fate != 1:\n        return (fate, 0)\n"
FACES_ASKED = "    return (fate, len(chain_of(mesh, edge, point, pseudo_angle(point, centre), centre)))\n"
OTHER_COUNT = "    if changes != mesh.changes:\n"
OTHER_POINT = "    if (x, y, height) != (*point, z):\n"
OTHER_ANSWER = "    if (fate, faces) != asked(mesh, point, centre):\n"
ENDED = "    if mesh.changes == MOST_CHANGES:\n"
STEPS_CHECKS = "        refuse_run(mesh, lent, centre, [point], 0, [z])\n"
QUOTE_CHECKED = "        refuse_quote(mesh, point, z, centre, quote)\n"
COMMIT_CHECKS = STEPS_CHECKS + QUOTE_CHECKED + AT_END
COMMITTED = COMMIT_CHECKS + "    except Refusal as r:\n"
RAISED = "    if answer[0] == 1 or number == 9:\n        mesh.changes += 1\n"
RUN_STARTS = "    mesh.changes = 0  # Change 5: \"the run starts it at 0\"\n"
RUN_REFUSED = "        refuse_run(mesh, lent, centre, points, len(points), heights)\n"
QUOTES = [  # the same of Change 5: asking, the quote, then committing
    ("N is the vertices in an ask", ASK_COUNTED, "    n = mesh.vertices\n"),
    ("N is the vertices in an ask's 1", ASK_COUNT + ASK_MESH_ROWS + ASK_RING_ROWS + ASK_COORDINATES,
     "        refuse_count(mesh.vertices)\n" + ASK_MESH_ROWS + ASK_RING_ROWS + ASK_COORDINATES),
    ("N is the vertices in an ask's 2", ASK_MESH_ROWS + ASK_RING_ROWS + ASK_COORDINATES,
     (ASK_MESH_ROWS + ASK_RING_ROWS).replace(", n)", ", mesh.vertices)") + ASK_COORDINATES),
    ("N is the vertices for an ask's mesh", ASK_MESH_ROWS + ASK_RING_ROWS + ASK_COORDINATES,
     ASK_MESH_ROWS.replace(", n)", ", mesh.vertices)") + ASK_RING_ROWS + ASK_COORDINATES),
    ("N is the vertices for an ask's ring", ASK_RING_ROWS + ASK_COORDINATES,
     ASK_RING_ROWS.replace(", n)", ", mesh.vertices)") + ASK_COORDINATES),
    ("no ring rows asked of an ask", ASK_RING_ROWS + ASK_COORDINATES, ASK_COORDINATES),
    ("the point not under 3 in an ask", ASK_COORDINATES + ASK_HEIGHTS, COORDINATES + ASK_HEIGHTS),
    ("the point's height not under 10 in an ask", ASK_COORDINATES + ASK_HEIGHTS, ASK_COORDINATES + NO_OTHERS),
    ("no 10 in an ask", ASK_COORDINATES + ASK_HEIGHTS, ASK_COORDINATES),
    ("10 before 3 in an ask", ASK_COORDINATES + ASK_HEIGHTS, ASK_HEIGHTS + ASK_COORDINATES),
    ("10 after 4 and 5 in an ask", ASK_HEIGHTS + RULES, RULES + ASK_HEIGHTS),
    ("10 after 7 in an ask", ASK_HEIGHTS + ASK_RULES, ASK_RULES + ASK_HEIGHTS),
    ("no 7 in an ask", ASK_RULES + AT_END, ASK_RULES.replace("        refuse_ring(mesh, centre)\n", "") + AT_END),
    ("no 6 in an ask", ASK_RULES + AT_END, ASK_RULES.replace("        refuse_centre(mesh, centre)\n", "") + AT_END),
    ("no 12 in an ask", AT_END + ASK_REFUSED, ASK_REFUSED),
    *(("12 before %s in an ask" % number, ASK_COORDINATES + ASK_HEIGHTS + ASK_RULES + AT_END,
       "".join(checks[:i] + [AT_END] + checks[i:]))
      for checks in [[ASK_COORDINATES, ASK_HEIGHTS, RULES, "        refuse_centre(mesh, centre)\n",
                      "        refuse_ring(mesh, centre)\n"]]
      for i, number in enumerate(("3", "10", "4 and 5", "6", "7"))),
    ("12 before 1 in an ask", ASK_COUNTED + "    try:\n", ASK_COUNTED + "    try:\n" + AT_END),
    ("12 before 2 in an ask", ASK_MESH_ROWS + ASK_RING_ROWS + ASK_COORDINATES,
     AT_END + ASK_MESH_ROWS + ASK_RING_ROWS + ASK_COORDINATES),
    ("12 for an added point alone in an ask", AT_END + ASK_REFUSED,
     "        if asked(mesh, point, centre)[0] == 1:\n    " + AT_END + ASK_REFUSED),
    ("an ask's rows left as they were", ASK_CLEARED, ASK_REFUSED),
    ("a refused ask's rows cleared", ASK_REFUSED,
     ASK_REFUSED.replace("        return", "        lent.clear_ring()\n        return")),
    ("a refused ask that quotes its point", ASK_REFUSED,
     ASK_REFUSED.replace("NO_QUOTE", "(mesh.changes, *point, z, 0, 0)")),
    ("an ask that adds its point", ASK_GIVEN,
     "    quote = quote_of(mesh, point, z, centre)\n    one_step(mesh, point, centre, 64, z)\n    return (0, 0, quote)\n"),
    ("an ask that raises the count", ASK_GIVEN,
     "    quote = quote_of(mesh, point, z, centre)\n    mesh.changes += 1\n    return (0, 0, quote)\n"),
    ("an ask that is refused 9", ASK_GIVEN,
     "    try:\n        one_step(mesh.copy(), point, centre, 8, z)\n    except PendingFull:\n"
     "        return (9, 0, NO_QUOTE)\n" + ASK_GIVEN),
    ("a quote of the count 0", QUOTED, QUOTED.replace("mesh.changes", "0")),
    ("a quote of the count after the commit", QUOTED, QUOTED.replace("mesh.changes", "mesh.changes + 1")),
    ("a quote's x and y exchanged", QUOTED, QUOTED.replace("*point", "*point[::-1]")),
    ("a quote without z", QUOTED, QUOTED.replace(" z,", " 0,")),
    ("a quote's z without its sign", QUOTED, QUOTED.replace(" z,", " abs(z),")),
    ("a quote's fate and faces exchanged", QUOTED, QUOTED.replace("centre))", "centre)[::-1])")),
    ("a face for every fate", NO_FACES, NO_FACES.replace("(fate, 0)", "(fate, 1)")),
    ("no faces quoted", FACES_ASKED, "    return (fate, 0)\n"),
    ("one face quoted", FACES_ASKED, "    return (fate, 1)\n"),
    ("the walks' faces alone quoted", FACES_ASKED, FACES_ASKED.replace("centre)))", "centre)) - 1)")),
    ("the vertex quoted for the faces", FACES_ASKED, "    return (fate, mesh.vertices)\n"),
    ("fate 4 quoted as added", NO_FACES, "    fate = 1 if fate == 4 else fate\n" + NO_FACES),
    ("fate 5 quoted as 3", NO_FACES, "    fate = 3 if fate == 5 else fate\n" + NO_FACES),
    ("fate 2 quoted as 3", NO_FACES, "    fate = 3 if fate == 2 else fate\n" + NO_FACES),
    ("the count not compared", OTHER_COUNT, "    if False:\n"),
    ("quotes of a later count accepted", OTHER_COUNT, "    if changes < mesh.changes:\n"),
    ("quotes of an earlier count accepted", OTHER_COUNT, "    if changes > mesh.changes:\n"),
    ("quotes of the count before accepted", OTHER_COUNT, "    if changes not in (mesh.changes, mesh.changes - 1):\n"),
    ("quotes of the count 0 accepted", OTHER_COUNT, "    if changes not in (mesh.changes, 0):\n"),
    ("8 bits of the count compared", OTHER_COUNT, "    if (changes - mesh.changes) % 256:\n"),
    ("16 bits of the count compared", OTHER_COUNT, "    if (changes - mesh.changes) % 65536:\n"),
    ("31 bits of the count compared", OTHER_COUNT, "    if (changes - mesh.changes) % 2 ** 31:\n"),
    ("the point not compared", OTHER_POINT, "    if False:\n"),
    ("x not compared", OTHER_POINT, "    if (y, height) != (point[1], z):\n"),
    ("y not compared", OTHER_POINT, "    if (x, height) != (point[0], z):\n"),
    ("z not compared", OTHER_POINT, "    if (x, y) != point:\n"),
    ("x and y compared in any order", OTHER_POINT, "    if (sorted((x, y)), height) != (sorted(point), z):\n"),
    ("z compared without its sign", OTHER_POINT, "    if (x, y, abs(height)) != (*point, abs(z)):\n"),
    ("x and y compared without their signs", OTHER_POINT,
     "    if (abs(x), abs(y), height) != (abs(point[0]), abs(point[1]), z):\n"),
    ("16 bits of the point compared", OTHER_POINT,
     "    if any((a - b) % 65536 for a, b in zip((x, y, height), (*point, z))):\n"),
    ("the point compared by its sum", OTHER_POINT, "    if x + y + height != sum(point) + z:\n"),
    ("z compared for an added point alone", OTHER_POINT,
     "    if (x, y) != point or fate == 1 and height != z:\n"),
    ("fate and faces not compared", OTHER_ANSWER, "    if False:\n"),
    ("the fate not compared", OTHER_ANSWER, "    if faces != asked(mesh, point, centre)[1]:\n"),
    ("the faces not compared", OTHER_ANSWER, "    if fate != asked(mesh, point, centre)[0]:\n"),
    ("the faces compared for an added point alone", OTHER_ANSWER,
     "    if fate != asked(mesh, point, centre)[0] or fate == 1 and faces != asked(mesh, point, centre)[1]:\n"),
    ("more faces than quoted refused alone", OTHER_ANSWER,
     "    if fate != asked(mesh, point, centre)[0] or faces < asked(mesh, point, centre)[1]:\n"),
    ("fewer faces than quoted refused alone", OTHER_ANSWER,
     "    if fate != asked(mesh, point, centre)[0] or faces > asked(mesh, point, centre)[1]:\n"),
    ("added or not compared alone", OTHER_ANSWER,
     "    if (fate == 1, faces) != (asked(mesh, point, centre)[0] == 1, asked(mesh, point, centre)[1]):\n"),
    ("fates 3 to 5 taken for one", OTHER_ANSWER,
     "    if (min(fate, 3), faces) != (min(asked(mesh, point, centre)[0], 3), asked(mesh, point, centre)[1]):\n"),
    ("32 bits of the fate", OTHER_ANSWER, "    if (fate % 2 ** 32, faces) != asked(mesh, point, centre):\n"),
    ("8 bits of the fate", OTHER_ANSWER, "    if (fate % 256, faces) != asked(mesh, point, centre):\n"),
    ("63 bits of the fate", OTHER_ANSWER, "    if (fate % 2 ** 63, faces) != asked(mesh, point, centre):\n"),
    ("32 bits of the faces", OTHER_ANSWER, "    if (fate, faces % 2 ** 32) != asked(mesh, point, centre):\n"),
    ("8 bits of the faces", OTHER_ANSWER, "    if (fate, faces % 256) != asked(mesh, point, centre):\n"),
    ("63 bits of the faces", OTHER_ANSWER, "    if (fate, faces % 2 ** 63) != asked(mesh, point, centre):\n"),
    ("fate and faces compared by their sum", OTHER_ANSWER, "    if fate + faces != sum(asked(mesh, point, centre)):\n"),
    ("a quote of the fate 0 accepted", OTHER_ANSWER,
     "    if (fate, faces) not in ((0, 0), asked(mesh, point, centre)):\n"),
    ("11 names the point", OTHER_ANSWER + "        raise Refusal(11)\n",
     OTHER_ANSWER + "        raise Refusal(11, mesh.vertices)\n"),
    ("the count's 11 names the count", OTHER_COUNT + "        raise Refusal(11)\n",
     OTHER_COUNT + "        raise Refusal(11, mesh.changes)\n"),
    ("12 names the count", ENDED + "        raise Refusal(12)\n", ENDED + "        raise Refusal(12, mesh.changes)\n"),
    ("the count's end one too low", ENDED, "    if mesh.changes >= MOST_CHANGES - 1:\n"),
    ("the count's end in 31 bits", ENDED, "    if mesh.changes >= 2 ** 31 - 1:\n"),
    ("no 11", COMMITTED, COMMITTED.replace(QUOTE_CHECKED, "")),
    ("no 12 in a commit", COMMITTED, COMMITTED.replace(AT_END, "")),
    ("12 before 11", QUOTE_CHECKED + AT_END, AT_END + QUOTE_CHECKED),
    ("12 before a step's checks", COMMIT_CHECKS, AT_END + COMMIT_CHECKS),
    ("11 before a step's checks", COMMIT_CHECKS, "        if quote != (mesh.changes, *point, z, *quote[4:]):\n"
     "            raise Refusal(11)\n" + COMMIT_CHECKS),
    *(("11 before %d" % number, COMMITTED, COMMITTED + "        if r.number == %d and quote[:4] != (mesh.changes, *point, z):\n"
       "            return (11, 0, (0, 0, 0, 0))\n" % number) for number in (1, 2, 3, 10, 4, 5, 6, 7)),
    *(("12 before %d in a commit" % number, COMMITTED, COMMITTED + "        if r.number == %d and mesh.changes == MOST_CHANGES:\n"
       "            return (12, 0, (0, 0, 0, 0))\n" % number) for number in (1, 2, 3, 10, 4, 5, 6, 7, 11)),
    ("the count compared before a step's checks", COMMIT_CHECKS, "        if quote[0] != mesh.changes:\n"
     "            raise Refusal(11)\n" + COMMIT_CHECKS),
    ("12 for an added point alone in a commit", COMMITTED,
     COMMITTED.replace(AT_END, "        if quote[4] == 1:\n    " + AT_END)),
    ("12 for a point that is not added alone", COMMITTED,
     COMMITTED.replace(AT_END, "        if quote[4] != 1:\n    " + AT_END)),
    ("12 where the count cannot rise, after the step", COMMITTED + "        return (r.number, r.place, (0, 0, 0, 0))\n"
     "    number, place, answer = step(mesh, lent, centre, point, z)\n",
     COMMITTED.replace(AT_END, "") + "        return (r.number, r.place, (0, 0, 0, 0))\n"
     "    number, place, answer = step(mesh, lent, centre, point, z)\n    if mesh.changes == MOST_CHANGES:\n"
     "        return (12, 0, (0, 0, 0, 0))\n"),
    ("a refused commit's ring cleared", COMMITTED, COMMITTED + "        lent.clear_ring()\n"),
    ("a refused commit's pending cleared", COMMITTED, COMMITTED + "        lent.clear_pending()\n"),
    ("a refused commit raises the count", COMMITTED,
     COMMITTED + "        mesh.changes = min(MOST_CHANGES, mesh.changes + 1)\n"),
    ("a commit refused 11 raises the count", COMMITTED,
     COMMITTED + "        mesh.changes += r.number == 11 and mesh.changes < MOST_CHANGES\n"),
    ("a commit refused 11 takes the quote's count", COMMITTED,
     COMMITTED + "        mesh.changes = quote[0] if r.number == 11 else mesh.changes\n"),
    ("a commit refused 11 places its point", COMMITTED,
     COMMITTED + "        if r.number == 11:\n            step(mesh, lent, centre, point, z)\n"),
    ("a commit refused 12 places its point", COMMITTED,
     COMMITTED + "        if r.number == 12:\n            step(mesh, lent, centre, point, z)\n"),
    ("a commit refused 12 starts the count again", COMMITTED,
     COMMITTED + "        mesh.changes = 0 if r.number == 12 else mesh.changes\n"),
    ("the count stays", RAISED, ""),
    ("the count stays after 9", RAISED, RAISED.replace(" or number == 9", "")),
    ("the count rises after 9 alone", RAISED, RAISED.replace("answer[0] == 1 or ", "")),
    ("the count rises with every commit", RAISED, "    mesh.changes += 1\n"),
    *(("the count rises with fate %d" % fate, RAISED, RAISED.replace("answer[0] == 1", "answer[0] in (1, %d)" % fate))
      for fate in (2, 3, 4, 5)),
    ("the count rises by two", RAISED, RAISED.replace("+= 1", "= min(MOST_CHANGES, mesh.changes + 2)")),
    ("the count rises by the faces", RAISED, RAISED.replace("+= 1", "+= mesh.faces and max(1, answer[2])")),
    ("the count rises in 31 bits", RAISED, RAISED.replace("+= 1", "= (mesh.changes + 1) % 2 ** 31")),
    ("the count rises in 16 bits", RAISED, RAISED.replace("+= 1", "= (mesh.changes + 1) % 2 ** 16")),
    ("the count stops one early", RAISED, RAISED.replace("+= 1", "= min(MOST_CHANGES - 1, mesh.changes + 1)")),
    ("the count starts again at its end", RAISED, RAISED.replace("+= 1", "= (mesh.changes + 1) % MOST_CHANGES")),
    ("the height 0 for a committed point", "    number, place, answer = step(mesh, lent, centre, point, z)\n",
     "    number, place, answer = step(mesh, lent, centre, point)\n"),
    ("the quote's point placed", "    number, place, answer = step(mesh, lent, centre, point, z)\n",
     "    number, place, answer = step(mesh, lent, centre, quote[1:3], quote[3])\n", "(the same point)"),
]
COUNTED = [  # and of the count in the calls of 01
    ("a step raises the count", "    lent.clear_ring()\n    lent.clear_pending()\n    return (number, 0, answer)\n",
     "    mesh.changes += answer[0] == 1\n    lent.clear_ring()\n    lent.clear_pending()\n"
     "    return (number, 0, answer)\n"),
    ("a finish starts the count", "    lent.clear_pending()\n    return answer\n\n\ndef put_answer",
     "    mesh.changes = 0\n    lent.clear_pending()\n    return answer\n\n\ndef put_answer"),
    ("a run keeps the count", RUN_STARTS, ""),
    ("a run starts the count at 1", RUN_STARTS, "    mesh.changes = 1\n"),
    ("a refused run starts the count", RUN_REFUSED, "        mesh.changes = 0\n" + RUN_REFUSED),
    ("a run refused 9 raises the count", RUN_FULL, RUN_FULL + "        mesh.changes += 1\n"),
    ("a run raises the count", RUN_STARTS, "    mesh.changes = min(MOST_CHANGES, mesh.changes + 1)\n"),
    ("a run counts its points", RUN_STARTS, "    mesh.changes = len(points)\n"),
    ("a run refused 12", RUN_STARTS, "    if mesh.changes == MOST_CHANGES:\n        return (12, 0, 0, 0, 0)\n"
     + RUN_STARTS),
]
TWO_HALVES = "    put_half(mesh, 0, 1, 1, 0, first)\n    put_half(mesh, 1, 0, 0, 0, second)\n"
TWO_OUTS = "    mesh.outs[first], mesh.outs[second] = 0, 1\n"
EXTENDED = ("    put_half(mesh, new_edge, out_edge, new_edge_rev, face, vertex)\n"
            "    put_half(mesh, new_edge_rev, new_edge, in_edge, face, end)\n")
ENDED_LINE = "    if edge_next == twin:  # the line ends at `to`\n"
SPLIT_OUTS = "    mesh.outs[to] = new_edge_rev\n"
SPLIT_HALVES = ("    put_half(mesh, new_edge, edge_next, edge, face, vertex)\n"
                "    put_half(mesh, new_edge_rev, twin, twin_prev, face, to)\n")
NEW_OUT = "    mesh.outs[vertex] = new_edge\n    return vertex\n\n\n"
EXTEND_OUT = NEW_OUT + "def split_edge_when"
SPLIT_OUT = NEW_OUT + "# ---"
OFF_LINE = "    if query != 0:\n        return OFF, 0 if query > 0 else 1\n"
IN_ORDER = "    vertices = sorted(range(mesh.vertices), key=mesh.at)\n"
ON_LINE_VERTEX = "    if index < mesh.vertices and mesh.at(vertices[index]) == point:\n"
AT_LINE_END = "        return BEYOND, vertices[min(index, mesh.vertices - 1)]\n"
NEIGHBOURS = "    return SPLIT, next(e for e in turn_about(mesh, after) if mesh.to(e) == before)\n"
LINE_HEIGHT = "        mesh.heights[found] = z\n"
LINE_MET = "        return (9, found, 0, 0)\n"
LINE_ANSWER = "    return (1, vertex, mesh.faces - faces_before, flips)\n"
FIRST_LINKS = "    mesh.outs[vertex] = mesh.stored[0] = 0\n"
FIRST_FACE = "    mesh.faces = 1\n"
SECOND_MET = "        mesh.heights[0] = z\n        return (9, 0, 0, 0)\n"
GROWN_FATE = "    return (9 if fate == ON_VERTEX else 1, vertex, faces, flips)\n"
INSIDE = "    return all(left(corners[i - 1], corners[i], target) for i in range(3))\n"
LAST_THREE = "range(mesh.vertices - 3, mesh.vertices)]"
TARGET = "    target = tuple(THIRD * sum(c) for c in zip(*last))\n"
NOT_HELD = "    if not any(holds(mesh, f, target) for f in range(1, mesh.faces)):\n        return None\n"
NO_TRIANGLE = "    if mesh.faces < 2:\n        return None\n    last"
STARTED = "            refuse_centre(mesh, centre)\n            refuse_ring(mesh, centre)\n"
BARE_COUNT = "    if count > MOST_VERTICES:\n        raise Refusal(1)\n"
BARE_MESH, BARE_RING = "    refuse_mesh_rows(mesh, count)\n", "    refuse_ring_rows(lent, count)\n"
BARE_PENDING = "    refuse_pending_row(lent)\n    refuse_point_row(points)\n    refuse_height_row(points, zs)\n"
BARE_POINTS, BARE_ZS = "    refuse_positions(points)\n", "    refuse_heights(mesh, zs[:count])\n"
BARE_ANSWERS = "    refuse_answer_row(lent, count)\n"
BARE_REFUSED = "        return (r.number, r.place, 0, 0, 0, 0, 0, 0, 0, 0)\n"
BARE_STARTS = "    mesh.changes, line = 0, 0  # Change 6: \"starts the change count at 0\"\n    clear_answers(lent, points)\n"
GROWTH = "        while count < len(points) and centre is None:\n"
GROWS = "grow(mesh, points[count], heights[count], len(lent.pending))"
COUNTED_START = "            count, centre = count + 1, start_of_sweep(mesh)\n"
GROWING_FULL = "    except PendingFull:\n        return True, count, None\n"
BARE_FULL = "        number, place, *totals = (9, count, 0, 0, 0)\n"
LINE_TOTALS = "        number, place, *totals = (0, 0, 0, 0, 0)\n        line = 1\n"
REST = "        number, place, *totals = swept(mesh, lent, centre, points, heights, count)\n"
BARE_CLEARED = ("    lent.clear_ring()\n    lent.clear_pending()\n"
                "    return (number, place, *mesh.counts(), mesh.changes, line, *totals)\n")
BARE_ANSWER = "    return (number, place, *mesh.counts(), mesh.changes, line, *totals)\n"
GROWING = [  # the same of Change 6: the operations on a line, the growing seed, the start, then the call
    ("the two vertices exchanged", TWO_HALVES, TWO_HALVES.replace("first", "x").replace("second", "first").replace(
        "x)", "second)")),
    ("no out edge of the second vertex", TWO_OUTS, "    mesh.outs[first] = 0\n"),
    ("the same out edge for both", TWO_OUTS, "    mesh.outs[first] = mesh.outs[second] = 0\n"),
    ("two vertices, another stored edge", TWO_OUTS + "    mesh.stored[0] = 0\n", TWO_OUTS + "    mesh.stored[0] = 1\n"),
    ("a line extended from the end outwards", EXTENDED, EXTENDED.replace(
        "new_edge, out_edge, new_edge_rev", "new_edge_rev, out_edge, new_edge").replace(
        "new_edge_rev, new_edge, in_edge", "new_edge, new_edge_rev, in_edge")),
    ("an extended line's prev kept", "    mesh.set(out_edge, PREV, new_edge)\n", ""),
    ("an extended line's next kept", "    mesh.set(in_edge, NEXT, new_edge_rev)\n", ""),
    ("an extended line's new out edge", EXTEND_OUT, EXTEND_OUT.replace("= new_edge\n", "= new_edge_rev\n")),
    ("the old end's out edge led to the new vertex", EXTEND_OUT,
     "    mesh.outs[end] = new_edge_rev\n" + EXTEND_OUT),
    ("an extended line's stored edge", EXTEND_OUT, "    mesh.stored[0] = new_edge\n" + EXTEND_OUT),
    ("a split line's out edge forgotten", SPLIT_OUTS, ""),
    ("a split line's origin kept", "    mesh.set(twin, ORIGIN, vertex)\n" + SPLIT_OUTS, SPLIT_OUTS),
    ("a split line never at its end", ENDED_LINE, "    if False:\n"),
    ("a split line always at its end", ENDED_LINE, "    if True:\n"),
    ("a split line's new out edge", SPLIT_OUT, SPLIT_OUT.replace("= new_edge\n", "= twin\n")),
    ("a split line's new halves exchanged", SPLIT_HALVES, "    new_edge, new_edge_rev = new_edge_rev, new_edge\n" + SPLIT_HALVES),
    ("a split line's neighbours kept", "        mesh.set(twin_prev, NEXT, new_edge_rev)\n", ""),
    ("a split line's next neighbour kept", "        mesh.set(edge_next, PREV, new_edge)\n", ""),
    ("off the line by half-edge 0 alone", OFF_LINE, "    if query != 0:\n        return OFF, 0\n"),
    ("off the line, the other half-edge", OFF_LINE, OFF_LINE.replace("0 if query > 0 else 1", "1 if query > 0 else 0")),
    ("off the line on the left alone", OFF_LINE, OFF_LINE.replace("query != 0", "query > 0")),
    ("a line by y, then x", IN_ORDER + "    index = sum(mesh.at(v) < point for v in vertices)\n",
     "    vertices = sorted(range(mesh.vertices), key=lambda v: mesh.at(v)[::-1])\n"
     "    index = sum(mesh.at(v)[::-1] < point[::-1] for v in vertices)\n"),
    ("a line in the order of its vertices' numbers", IN_ORDER, "    vertices = list(range(mesh.vertices))\n"),
    ("a line by x alone", "    index = sum(mesh.at(v) < point for v in vertices)\n",
     "    index = sum(mesh.at(v)[0] < point[0] for v in vertices)\n"),
    ("a line's vertex not met", ON_LINE_VERTEX, "    if False:\n"),
    ("the other end extended", AT_LINE_END, "        return BEYOND, vertices[0 if index else -1]\n"),
    ("the last end extended always", AT_LINE_END, "        return BEYOND, vertices[-1]\n"),
    ("the edge named from before to after", NEIGHBOURS,
     "    return SPLIT, next(e for e in turn_about(mesh, before) if mesh.to(e) == after)\n"),
    ("the out edge of the vertex after split", NEIGHBOURS, "    return SPLIT, mesh.outs[after]\n"),
    ("a line's vertex keeps its height", LINE_HEIGHT, ""),
    ("a line's height given to vertex 0", LINE_HEIGHT, "        mesh.heights[0] = z\n" + "        pass\n"),
    ("fate 2 on a line's vertex", LINE_MET, "        return (2, 0, 0, 0)\n"),
    ("a line's vertex not named", LINE_MET, "        return (9, 0, 0, 0)\n"),
    ("a line's vertex named by its place", LINE_MET,
     "        return (9, sorted(range(mesh.vertices), key=mesh.at).index(found), 0, 0)\n"),
    ("the first faces not counted", LINE_ANSWER, "    return (1, vertex, 0, flips)\n"),
    ("one face for the first point off a line", LINE_ANSWER, "    return (1, vertex, min(1, mesh.faces - faces_before), flips)\n"),
    ("fate 8 off a line", LINE_ANSWER, "    return (8 if place == OFF else 1, vertex, mesh.faces - faces_before, flips)\n"),
    ("fate 7 on a line", LINE_ANSWER, "    return (7 if place == SPLIT else 1, vertex, mesh.faces - faces_before, flips)\n"),
    ("no links of the first vertex", FIRST_LINKS, "    pass\n"),
    ("no out edge of the first vertex", FIRST_LINKS, "    mesh.stored[0] = 0\n"),
    ("no stored edge beside the first vertex", FIRST_LINKS, "    mesh.outs[vertex] = 0\n"),
    ("no face beside the first vertex", FIRST_FACE, "    mesh.faces = 0\n"),
    ("a second stored edge beside the first vertex", FIRST_FACE, FIRST_FACE + "    mesh.stored[1] = 0\n"),
    ("the first face counted", "    mesh.faces = 1\n    return (1, vertex, 0, 0)\n", "    mesh.faces = 1\n    return (1, vertex, 1, 0)\n"),
    ("the first vertex keeps its height", SECOND_MET, "        return (9, 0, 0, 0)\n"),
    ("two vertices at one position", "    if mesh.at(0) == point:\n", "    if False:\n"),
    ("fate 2 on the first vertex", SECOND_MET, SECOND_MET.replace("(9,", "(2,")),
    ("one coordinate compared with the first vertex", "    if mesh.at(0) == point:\n", "    if mesh.at(0)[0] == point[0]:\n"),
    ("the fates of Change 2 while the seed grows", GROWN_FATE, "    return (fate, vertex, faces, flips)\n"),
    ("fate 1 on a vertex of the growing seed", GROWN_FATE, "    return (1, vertex, faces, flips)\n"),
    ("fate 2 on a vertex of the growing seed", GROWN_FATE, GROWN_FATE.replace("9 if", "2 if")),
    ("no faces while the seed grows", GROWN_FATE, GROWN_FATE.replace("faces, flips", "0, flips")),
    ("no flips while the seed grows", GROWN_FATE, GROWN_FATE.replace("faces, flips", "faces, 0")),
    ("a line until a triangle has four vertices", "    if mesh.faces == 1:\n        return insert_when",
     "    if mesh.vertices < 4 or mesh.faces == 1:\n        return insert_when"),
    ("the centre on an edge too", INSIDE, INSIDE.replace("left(corners[i - 1], corners[i], target)",
                                                        "orient2d(corners[i - 1], corners[i], target) >= 0")),
    ("two sides of a triangle looked at", INSIDE, INSIDE.replace("range(3)", "range(2)")),
    ("the centre not looked for", NOT_HELD, ""),
    ("the centre in the first triangle alone", NOT_HELD, NOT_HELD.replace("range(1, mesh.faces)", "range(1, 2)")),
    ("the centre in the last triangle alone", NOT_HELD,
     NOT_HELD.replace("range(1, mesh.faces)", "range(mesh.faces - 1, mesh.faces)")),
    ("the first three vertices", LAST_THREE, "range(3)]"),
    ("the last vertex and the first two", LAST_THREE, "(0, 1, mesh.vertices - 1)]"),
    ("the three before the last vertex", LAST_THREE, "range(max(0, mesh.vertices - 4), max(3, mesh.vertices - 1))]"),
    ("an exact third, rounded down", TARGET, "    target = tuple(PARTS * sum(c) // 3 for c in zip(*last))\n"),
    ("one part less in a third", TARGET, TARGET.replace("THIRD", "(THIRD - 1)")),
    ("one part more in a third", TARGET, TARGET.replace("THIRD", "(THIRD + 1)")),
    ("the middle of two vertices", TARGET, "    target = tuple(PARTS * (c[1] + c[2]) // 2 for c in zip(*last))\n"),
    ("the centre rounded to whole numbers", TARGET, TARGET + "    target = tuple((c + PARTS // 2) // PARTS * PARTS for c in target)\n"),
    ("the mean of all vertices", TARGET,
     "    target = tuple(PARTS * sum(mesh.at(v)[i] for v in range(mesh.vertices)) // mesh.vertices for i in (0, 1))\n"),
    ("a centre from another triangle", "    return tuple(float(c) / PARTS for c in target)\n",
     "    return tuple(sum(c) / 3.0 for c in zip(*face_corners(mesh, 1)))\n"),
    ("the centre's coordinates exchanged, once found", "    return tuple(float(c) / PARTS for c in target)\n",
     "    return tuple(float(c) / PARTS for c in target)[::-1]\n"),
    ("the centre from a line", NO_TRIANGLE, "    if mesh.vertices < 3:\n        return None\n    last",
     "(no triangle holds it)"),
    ("no ring asked for the start", STARTED, "            pass\n", "(no list is known that tells it)"),
    ("the sweep from four vertices on", NO_TRIANGLE, "    if mesh.vertices < 4 or mesh.faces < 2:\n        return None\n    last"),
    ("fewer than 3 points refused", BARE_COUNT, BARE_COUNT.replace("count > MOST", "count < 3 or count > MOST")),
    ("no points refused", BARE_COUNT, BARE_COUNT.replace("count > MOST", "count < 1 or count > MOST")),
    ("rows for three points at least", "    count = len(points)\n", "    count = max(3, len(points))\n"),
    ("rows for one point more", "    count = len(points)\n", "    count = len(points) + 1\n"),
    ("mesh rows not asked", BARE_MESH, ""),
    ("ring rows not asked of bare points", BARE_RING, ""),
    ("pending not asked of bare points", BARE_PENDING, BARE_PENDING.replace("    refuse_pending_row(lent)\n", "")),
    ("a number alone not refused", BARE_PENDING, BARE_PENDING.replace("    refuse_point_row(points)\n", "")),
    ("the points' heights row not asked of bare points", BARE_PENDING,
     BARE_PENDING.replace("    refuse_height_row(points, zs)\n", "")),
    ("answers not asked of bare points", BARE_ANSWERS, ""),
    ("no 3 of bare points", BARE_POINTS, ""),
    ("no 10 of bare points", BARE_ZS, ""),
    ("3 before 2 of bare points", BARE_MESH, BARE_POINTS + BARE_MESH),
    ("3 before the ring rows", BARE_RING, BARE_POINTS + BARE_RING),
    ("3 before the answers row", BARE_ANSWERS + BARE_POINTS, BARE_POINTS + BARE_ANSWERS),
    ("10 before 2 of bare points", BARE_MESH, BARE_ZS + BARE_MESH),
    ("10 before the answers row", BARE_ANSWERS + BARE_POINTS + BARE_ZS, BARE_ZS + BARE_ANSWERS + BARE_POINTS),
    ("10 before 3 of bare points", BARE_POINTS + BARE_ZS, BARE_ZS + BARE_POINTS),
    ("every height of the row under 10", BARE_ZS, BARE_ZS.replace("[:count]", "")),
    ("the last point's height not under 10", BARE_ZS, BARE_ZS.replace("[:count]", "[:count - 1]")),
    ("the old heights under 10", BARE_ZS, "    refuse_heights(mesh, mesh.heights[:count] + zs[:count])\n"),
    ("places of bare points from 1", BARE_POINTS, "    try:\n        refuse_positions(points)\n    except Refusal as r:\n"
     "        raise Refusal(3, r.place + 1)\n"),
    ("a refused call counts the points", BARE_REFUSED, "        return (r.number, r.place, len(points), 0, 0, 0, 0, 0, 0, 0)\n"),
    ("a refused call marks a line", BARE_REFUSED, "        return (r.number, r.place, 0, 0, 0, 0, 1, 0, 0, 0)\n"),
    ("a refused call's answers cleared", BARE_REFUSED, "        clear_answers(lent, points)\n" + BARE_REFUSED),
    ("a refused call's ring cleared", BARE_REFUSED, "        lent.clear_ring()\n" + BARE_REFUSED),
    ("the change count kept", BARE_STARTS, "    line = 0\n    clear_answers(lent, points)\n"),
    ("the change count starts at 1", BARE_STARTS, BARE_STARTS.replace("line = 0, 0", "line = 1, 0")),
    ("answers of bare points not cleared", BARE_STARTS, BARE_STARTS.replace("    clear_answers(lent, points)\n", "")),
    ("the whole answers row cleared", BARE_STARTS, BARE_STARTS + "    lent.answers[:] = [0] * len(lent.answers)\n"),
    ("the mesh's rows cleared first", BARE_STARTS, BARE_STARTS +
     "    for row in mesh.rows():\n        row[:] = [0] * len(row)\n"),
    ("the points sorted", BARE_STARTS, BARE_STARTS + "    points = sorted(points)\n"),
    ("the points from the last", BARE_STARTS, BARE_STARTS + "    points = points[::-1]\n"),
    ("the sweep never starts", GROWTH, "        while count < len(points):\n"),
    ("the seed takes three points at most", GROWTH, "        while count < min(3, len(points)) and centre is None:\n"),
    ("the seed takes twelve points at most", GROWTH,
     "        while count < len(points) and centre is None and (count < 12 or mesh.faces < 2):\n"),
    ("eight pending entries while the seed grows", GROWS, GROWS.replace("len(lent.pending)", "8")),
    ("9 one entry early while the seed grows", GROWS, GROWS.replace("len(lent.pending)", "len(lent.pending) - 1")),
    ("no 9 while the seed grows", GROWS, GROWS.replace("len(lent.pending)", "1 << 30")),
    ("the height 0 while the seed grows", GROWS, GROWS.replace("heights[count]", "0")),
    ("the next point's height while the seed grows", GROWS, GROWS.replace("heights[count]", "heights[count - 1]")),
    ("the last point of the seed swept again", COUNTED_START, COUNTED_START.replace(
        "            count, centre = count + 1, start_of_sweep(mesh)\n",
        "            centre = start_of_sweep(mesh)\n            count += centre is None\n")),
    ("the start only with a point left", COUNTED_START, COUNTED_START +
     "            centre = centre if count < len(points) else None\n", "(the finish alone is left)"),
    ("the start not tried after fate 9", COUNTED_START, "            count += 1\n"
     "            centre = start_of_sweep(mesh) if lent.answers[WORDS * count - WORDS] == 1 else None\n", "(nothing has changed)"),
    ("the refused point of the seed taken back", GROWING_FULL, "    except PendingFull:\n        mesh.vertices -= 1\n"
     "        return True, count, None\n"),
    ("the refused point of the seed loses its height", GROWING_FULL,
     "    except PendingFull:\n        mesh.heights[mesh.vertices - 1] = 0\n        return True, count, None\n"),
    ("the refused point of the seed has an answer", GROWING_FULL, "    except PendingFull:\n"
     "        put_answer(lent.answers, count, (1, mesh.vertices - 1, 0, 0))\n        return True, count, None\n"),
    ("the seed's answers lost after its 9", GROWING_FULL, "    except PendingFull:\n        clear_answers(lent, points)\n"
     "        return True, count, None\n"),
    ("9 while the seed grows names no place", BARE_FULL, BARE_FULL.replace("count", "0")),
    ("9 while the seed grows names the vertex", BARE_FULL, BARE_FULL.replace("count", "mesh.vertices - 1")),
    ("9 while the seed grows marks a line", BARE_FULL, BARE_FULL + "        line = 1\n"),
    ("a line not marked", LINE_TOTALS, LINE_TOTALS.replace("line = 1", "line = 0")),
    ("no mark for no points", LINE_TOTALS, LINE_TOTALS.replace("line = 1", "line = int(mesh.vertices > 0)")),
    ("no mark for one point", LINE_TOTALS, LINE_TOTALS.replace("line = 1", "line = int(mesh.vertices != 1)")),
    ("no mark for two points", LINE_TOTALS, LINE_TOTALS.replace("line = 1", "line = int(mesh.vertices != 2)")),
    ("a line counts its edges as faces", LINE_TOTALS, LINE_TOTALS.replace("(0, 0, 0, 0, 0)", "(0, 0, mesh.edges, 0, 0)")),
    ("no counts of a line", LINE_TOTALS, LINE_TOTALS + "        mesh.vertices = mesh.edges = mesh.faces = 0\n"),
    ("one face where there are no points", LINE_TOTALS, LINE_TOTALS + "        mesh.faces = 1\n"),
    ("a mesh that is not swept marked as a line", REST, REST + "        line = int(centre is None)\n"),
    ("places of the sweep from its start", REST, REST + "        place -= count if number else 0\n"),
    ("9 in convexity names the points that are swept", REST, REST +
     "        place -= count if number and place == len(points) else 0\n"),
    ("the seed's answers lost in the sweep's 9", REST, REST +
     "        if number:\n            lent.answers[:WORDS * count] = [0] * (WORDS * count)\n"),
    ("the sweep without its finish", REST, "        number, place, *totals = (0, 0, 0, 0, 0)\n"
     "        for i in range(count, len(points)):\n"
     "            put_answer(lent.answers, i, one_step(mesh, points[i], centre, 1 << 30, heights[i]))\n"),
    ("every point put in as the seed's are", REST, "        number, place, *totals = (0, 0, 0, 0, 0)\n"
     "        for i in range(count, len(points)):\n"
     "            put_answer(lent.answers, i, grow(mesh, points[i], heights[i], 1 << 30))\n"),
    ("no finish where the list ends", REST, "        number, place, *totals = (0, 0, 0, 0, 0)\n"
     "        if count < len(points):\n    " + REST, "(it adds no face and makes no flip)"),
    ("the ring not cleared", BARE_CLEARED, BARE_CLEARED.replace("    lent.clear_ring()\n", "")),
    ("pending not cleared", BARE_CLEARED, BARE_CLEARED.replace("    lent.clear_pending()\n", "")),
    ("rows not cleared for a line", BARE_CLEARED, "    if line:\n    " + BARE_ANSWER + BARE_CLEARED),
    ("rows not cleared where there are no points", BARE_CLEARED, "    if not points:\n    " + BARE_ANSWER + BARE_CLEARED),
    ("rows not cleared where the sweep does not start", BARE_CLEARED, "    if centre is None:\n    " + BARE_ANSWER + BARE_CLEARED),
    ("rows not cleared after the seed's 9", BARE_CLEARED, "    if full:\n    " + BARE_ANSWER + BARE_CLEARED),
    ("a mark in place of the change count", BARE_ANSWER, BARE_ANSWER.replace("mesh.changes, line,", "line, mesh.changes,")),
    ("no counts after 9", BARE_ANSWER, "    if number:\n        return (number, place, 0, 0, 0, 0, 0, 0, 0, 0)\n" + BARE_ANSWER),
    ("the inner faces counted alone", BARE_ANSWER,
     BARE_ANSWER.replace("*mesh.counts()", "mesh.vertices, mesh.edges, max(0, mesh.faces - 1)")),
]
LISTING = [  # the same of the listing program's part
    ("8 pending entries lent", "LISTING_PENDING = 400, 4096", "LISTING_PENDING = 400, 8"),
    ("100 pending entries lent", "LISTING_PENDING = 400, 4096", "LISTING_PENDING = 400, 100"),
    ("the centre's coordinates exchanged", "(float(centre[0]), float(centre[1]))",
     "(float(centre[1]), float(centre[0]))"),
    ("the points' coordinates exchanged", "[tuple(p) for p in read[2:]]", "[tuple(p[::-1]) for p in read[2:]]"),
    ("the seed's corners in another order", "[(s[0], s[1]), (s[2], s[3]), (s[4], s[5])]",
     "[(s[2], s[3]), (s[4], s[5]), (s[0], s[1])]"),
    ("index from one", "% ((i,) + answer_at", "% ((i + 1,) + answer_at"),
    ("fate and vertex exchanged", "return (fate, vertex, faces, flips)", "return (vertex, fate, faces, flips)"),
    ("vertex and faces exchanged", "return (fate, vertex, faces, flips)", "return (fate, faces, vertex, flips)"),
    ("faces and flips exchanged", "return (fate, vertex, faces, flips)", "return (fate, vertex, flips, faces)"),
    ("the flips lost", "return (fate, vertex, faces, flips)", "return (fate, vertex, faces, 0)"),
    ("edges and inner faces exchanged", "mesh.edges, mesh.faces - 1,\n", "mesh.faces - 1, mesh.edges,\n"),
    ("vertices and edges exchanged", "(mesh.vertices, mesh.edges, mesh.faces - 1",
     "(mesh.edges, mesh.vertices, mesh.faces - 1"),
    ("the area not doubled", "boundary_area(mesh), faces,", "boundary_area(mesh) // 2, faces,"),
    ("the finish's faces and convexity flips exchanged", "faces, convex, closing))", "convex, faces, closing))"),
    ("convexity and closing flips exchanged", "faces, convex, closing))", "faces, closing, convex))"),
    ("convexity and closing flips in one", "faces, convex, closing))", "faces, convex + closing, convex))"),
    ("`r place number`", "% (number, place)\n    out", "% (place, number)\n    out"),
    ("`r number` of a refusal with place 0", "% (number, place)\n    out", "% (number, 0)\n    out"),
    ("`r line 0`", 'return b"r 0 %d\\n" % (i + 1)', 'return b"r %d 0\\n" % (i + 1)'),
    ("`r line 0` of a line that is missing", 'return b"r 0 %d\\n" % (len(read) + 1)',
     'return b"r %d 0\\n" % (len(read) + 1)'),
    ("lines from 0", 'return b"r 0 %d\\n" % (i + 1)', 'return b"r 0 %d\\n" % i'),
    ("a plus sign read", 'digits = field[1:] if field[:1] == b"-" else field',
     'digits = field[1:] if field[:1] in (b"-", b"+") else field'),
    ("32 bits not kept", "if not -2 ** 31 <= value < 2 ** 31:", "if not -2 ** 31 <= value <= 2 ** 31:"),
    ("398 points read", "i - 2 >= LISTING_MOST - 3", "i - 2 > LISTING_MOST - 3"),
    ("blanks run together", 'fields = line.split(b" ")', "fields = line.split()"),
    ("the outer face counted", "mesh.faces - 1,\n", "mesh.faces,\n"),
]


def changed(text, old, new):
    """sweep.py with one place changed."""
    assert text.count(old) == 1, (text.count(old), old)
    module = types.ModuleType("changed")
    exec(compile(text.replace(old, new), "changed", "exec"), module.__dict__)
    return module


def source():
    with open(os.path.join(HERE, "sweep.py")) as f:
        return f.read()


def listed(*changes):
    """The part of `legalize_edges_after_removal` that fills its pending list, and the same changed in several places."""
    text = source()
    start = text.index("    flips = 0\n    while pending:\n        u = pending.pop()\n")
    part = text[start:text.index("            if len(pushed) > capacity:\n", start)]
    other = part
    for old, new in changes:
        assert other.count(old) == 1, old
        other = other.replace(old, new)
    return part, other


FOUND, WORDS = "if h // 2 not in pushed:", "(mesh.edges + 31) // 32"
STARTS, POPS = "    flips = 0\n", "        u = pending.pop()\n"
LONG_LISTS = [  # a pending list of 16 entries and more, where its edges stand in a set as well
    ("an edge that was popped is found",
     *listed((STARTS, "    flips, gone = 0, set()\n"),
             (POPS, POPS + "        gone = gone | {u} if len(pending) >= 16 else set()\n"),
             (FOUND, "if h // 2 not in pushed and (len(pushed) < 16 or h // 2 not in gone):"))),
    ("an edge that was popped is found when the list is long again",
     *listed((STARTS, "    flips, gone = 0, set()\n"),
             (POPS, POPS + "        gone |= {u} if len(pending) >= 16 else set()\n"),
             (FOUND, "if h // 2 not in pushed and h // 2 not in gone:"))),
    ("an edge of the call before is found",
     *listed((STARTS, '    flips, before, gone = 0, getattr(mesh, "gone", set()), set()\n    mesh.gone = gone\n'),
             (POPS, POPS + "        gone |= {u} if len(pending) >= 16 else set()\n"),
             (FOUND, "if h // 2 not in pushed and (len(pushed) < 16 or h // 2 not in before):"))),
    ("an edge pushed long ago is not found", FOUND, "if h // 2 not in pushed[-16:]:"),
    ("an edge past the last four is not found", FOUND,
     "if h // 2 not in (pushed if len(pushed) < 16 else pushed[:len(pushed) // 4 * 4]):"),
    ("edges 32 apart are one", FOUND,
     "if h // 2 not in pushed and (len(pushed) < 16 or all(o % 32 != h // 2 % 32 for o in pushed)):"),
    ("edges of the last word are not found", FOUND,
     "if h // 2 not in pushed or len(pushed) >= 16 and h // 64 == (mesh.edges - 1) // 32:"),
    ("edges of the first word are not found", FOUND, "if h // 2 not in pushed or len(pushed) >= 16 and h < 64:"),
    ("a word's last bit is not found", FOUND,
     "if h // 2 not in pushed or len(pushed) >= 16 and h // 2 % 32 == 31:"),
    ("a word's first bit is not found", FOUND,
     "if h // 2 not in pushed or len(pushed) >= 16 and h // 2 % 32 == 0:"),
    ("nothing is found once the set is in the way", FOUND,
     "if h // 2 not in pushed or len(pushed) >= 16 and len(pushed) + %s > capacity:" % WORDS),
    ("all is found once the set is in the way", FOUND,
     "if h // 2 not in pushed and (len(pushed) < 16 or len(pushed) + %s <= capacity):" % WORDS),
    ("9 where the set is in the way", "len(pushed) > capacity",
     "len(pushed) > capacity - (len(pushed) >= 16) * (%s)" % WORDS),
]


def changed_as(name):
    """sweep.py changed as the lists above name it."""
    changes = MUTANTS + HEIGHTS + SKIPPING + AREAS + QUOTES + COUNTED + GROWING + LONG_LISTS + LISTING
    old, new = next(m[1:3] for m in changes if m[0] == name)
    return changed(source(), old, new)


def mutants(only):
    text, silent = source(), 0
    # Samples and listings have no heights, only runs and listings insert, and only samples and volumes have areas. The
    # lists of asks and commits, and that of bare points, have their own changes.
    high = [n for n in NAMES if n not in ("samples", "listing", "ask", "commit", "bulk_load")]
    for part, changes, names in (("base", MUTANTS, high + ["samples", "listing"]), ("heights", HEIGHTS, high),
                                 ("skipped", SKIPPING, ("run", "listing")),
                                 ("areas", AREAS, ("samples", "volume")),
                                 ("quotes", QUOTES, ("ask", "commit")),
                                 ("quotes", COUNTED, ("step", "finish", "run")),
                                 ("bare", GROWING, ("bulk_load",)),
                                 ("lines", LONG_LISTS, ("finish", "step", "run"))):
        for name, old, new, *implied in changes if part in only else []:
            module = changed(text, old, new)
            noticed = [n for n in names if failures(module, n, first_only=True)[1]]
            silent += not noticed and not implied
            print("%-60s %s" % (name, " ".join(noticed + implied) or "NOTICED BY NONE"), flush=True)
    for name, old, new in LISTING if "listing" in only else []:
        noticed = failures(changed(text, old, new), "listing")[1]
        silent += noticed < FEWEST
        print("%-50s listing, %d cases%s" % (name, noticed, "" if noticed >= FEWEST else ": TOO FEW"))
    return silent


if __name__ == "__main__":
    import sweep
    signal.signal(signal.SIGALRM, too_long)
    wrong = 0
    for name in NAMES:
        total, bad = failures(sweep, name)
        wrong += bad
        print("%-9s %5d cases, %d answered otherwise" % (name, total, bad))
    if len(sys.argv) > 1:
        wrong += mutants(sys.argv[2:] or ("base", "heights", "skipped", "areas", "quotes", "bare", "lines", "listing"))
    sys.exit(1 if wrong else 0)
