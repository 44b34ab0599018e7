"""Cases for the calls `ask` and `commit` of Change 5, with everything that the call must answer and leave.

    python3 quote_cases.py ask > lists/ask.txt
    python3 quote_cases.py commit > lists/commit.txt

The answers come from sweep.py. A quote is held against a step that has pending entries in plenty, an accepted
commit against a step on the same rows. The makers below give both calls: name, case, quote, number, where the
quote is None for an ask.
"""

import copy
import random
import sys

import check_cases
import heights
import lists
import meshes
import run_cases
import selfcheck
import sweep
from run_cases import Case, as_given
from selfcheck import same_mesh

END = sweep.MOST_CHANGES
COUNTS = (0, 1, 5, 65536, 2147483648, END - 1)
WORD, LONG = 1 << 32, (1 << 64) - 1
ONE = (1.0, 1.0)


def height_of(case):
    return case.zs[0] if case.zs else 0


def at_count(case, changes):
    """The same case at another change count."""
    out = copy.copy(case)
    out.changes, out.lengths = changes, dict(case.lengths)
    return out


def lending(case, pending):
    """The same case with so many pending entries."""
    out = at_count(case, case.changes)
    out.lengths["pending"] = pending
    return out


def fresh(case):
    """The quote that asking gives, also at the end of the count, where it gives none."""
    return sweep.quote_of(case.start(), case.points[0], height_of(case), case.centre)


def likely(case):
    """A quote with nothing wrong as far as count and point go, for a mesh that is refused."""
    return (case.changes, *case.points[0], height_of(case), 1, 1)


def with_part(quote, part, value):
    return quote[:part] + (value,) + quote[part + 1:]


def stepped(case, pending):
    """A step on the same mesh: what it answers, and the mesh and rows that it leaves."""
    mesh, lent = case.start(), case.lent()
    lent.pending = [7] * pending
    return sweep.step(mesh, lent, case.centre, case.points[0], height_of(case)), mesh, lent


def point_lines(case):
    return [lists.line("v", (1,) + case.points[0])] + ([lists.line("y", case.zs)] if case.zs else [])


def add_ask(out, name, case):
    mesh, lent = case.start(), case.lent()
    lent.pending = []
    number, place, quote = sweep.ask(mesh, lent, case.centre, case.points[0], height_of(case))
    assert same_mesh(mesh, case.mesh) and mesh.changes == case.changes
    assert set(lent.nodes + lent.freed + lent.buckets) <= ({7} if number else {0})
    if number == 0:
        told = stepped(case, 4096)[0]
        assert told[0] == 0 and quote == (case.changes, *case.points[0], height_of(case), told[2][0], told[2][2])
    out.remark(name)
    out.add(*case.lines(pending=False), *point_lines(case), lists.line("G", quote),
            lists.line("r", (number, place)))
    return number, place


def add_commit(out, name, case, quote):
    mesh, lent = case.start(), case.lent()
    number, place, answer = sweep.commit(mesh, lent, case.centre, case.points[0], quote, height_of(case))
    out.remark(name)
    out.add(*case.lines(), *point_lines(case), lists.line("g", quote))
    rows = lent.nodes + lent.freed + lent.buckets + lent.pending
    if number in (0, 9):
        told, left, _ = stepped(case, len(lent.pending))
        assert told == (number, place, answer) and same_mesh(mesh, left) and not any(rows)
        assert mesh.changes - case.changes == mesh.vertices - case.mesh.vertices
        selfcheck.untouched(mesh.rows(), case.mesh.rows(), mesh.counts())
        out.add(*lists.mesh_lines(mesh, case.tags.upper()))
    else:
        assert same_mesh(mesh, case.mesh) and mesh.changes == case.changes and set(rows) <= {7}
    out.add(lists.line("r", (number, place) + answer + (mesh.changes,)))
    return number, place


def both(name, case, number=0):
    """Asking, and committing what it gives; the number is the commit's."""
    yield name + ": ask", case, None, 0
    yield name + ": commit", case, fresh(case), number


# ---------------------------------------------------------------------------------------------------
# Refusals that a step has too


def refused(name, case, told):
    """Both calls; asking lends no pending row."""
    if case.lengths["pending"] >= sweep.LEAST_PENDING:
        yield name + ": ask", case, None, told
    yield name + ": commit", case, likely(case), told
    if case.changes == END:
        yield name + ": commit, a stale quote", case, with_part(likely(case), 0, 3), told


def refusals():
    for name, case, *told in run_cases.refusals([(9, 9)]):
        for changes in (9, END):
            yield from refused(name, at_count(case, changes), tuple(told))
    for i, (name, case, *told) in enumerate(run_cases.high_refusals([(9, 9)])):
        if told[0]:
            yield from refused(name, at_count(case, (5, END)[i % 2]), tuple(told))
        else:
            yield from both(name, at_count(case, COUNTS[i % 6]))
    for i, (name, case, number) in enumerate(run_cases.at_the_limit()):
        if number == 0:
            yield from both(name, at_count(case, COUNTS[i % 6]))
        elif i % 4 == 0:
            yield from refused(name, at_count(case, END), (number, case.mesh.vertices))
    for count in (1, 2, 3):
        case = Case(run_cases.one_angle(count), (0.0, 0.0), [(90, 60)], changes=count)
        name = "vertices at one angle: %d" % count
        yield from refused(name, case, (7, 0)) if count > 1 else both(name, case)


def row_lengths():
    """The point is counted: rows for the mesh's own vertices are too short."""
    for i, (name, case, number) in enumerate(run_cases.sized_rows()):
        case = at_count(case, COUNTS[i % 6])
        yield from refused(name, case, (number, 0)) if number else both(name, case)
    for vertices in (4, 16, 17):
        mesh = meshes.rim(run_cases.round_about(vertices - 1, 500, (0, 0)))
        whole = Case(mesh, (0.5, 0.25), [(900, 700)], changes=4)
        yield from both("rows for one vertex more", whole)
        few = at_count(whole, 4)
        few.lengths.update(nodes=vertices + 1, freed=vertices + 1, buckets=max(16, vertices))
        yield from refused("ring rows for the mesh's own vertices", few, (2, 0))
        for row in ("nodes", "freed") + (("buckets",) if vertices >= 16 else ()):
            short = at_count(whole, 4)
            short.lengths[row] = few.lengths[row]
            yield from refused("%s for the mesh's own vertices" % row, short, (2, 0))
        own = Case(mesh, (0.5, 0.25), [(900, 700)], room=vertices, changes=4)
        yield from refused("mesh rows for the mesh's own vertices", own, (2, 0))
        own.lengths.update(few.lengths)
        yield from refused("all rows for the mesh's own vertices", own, (2, 0))
    for pending in (0, 1, 7):
        case = Case(check_cases.square(), ONE, [(9, 9)], changes=4)
        yield "%d pending entries: commit" % pending, lending(case, pending), fresh(case), 2
    long = Case(check_cases.square(), ONE, [(9, 9)], spare=9, high=True, zs=[-5], changes=4)
    yield from both("spare entries in every row", long)


# ---------------------------------------------------------------------------------------------------
# Fates and the count


def shapes():
    """Name, case: one point of each fate, then added ones that cover more than one edge."""
    seen = set()
    for name, case, fate in run_cases.each_fate():
        if case.zs == [-77] and "e" in case.tags and fate not in seen:
            seen.add(fate)
            yield "fate %d" % fate, case
    t = heights.put(check_cases.triangle(), more=1)
    yield "two edges covered", as_given(t, ONE, [(9, -1)], [40])
    bowl = run_cases.bowl(4, 1)
    bowl = Case(bowl, (28.5, 0.25), [run_cases.turned((0, 80), 1)], pending=64, zs=[-6], high=True)
    assert fresh(bowl)[4:] == (1, 8)
    yield "eight edges covered", bowl


def fates():
    for i, (name, case, _) in enumerate(run_cases.each_fate()):
        yield from both(name, at_count(case, COUNTS[i % 6]))
    for name, case in shapes():
        for changes in (0, END - 2, END - 1):
            yield from both("%s, the count %d" % (name, changes), at_count(case, changes))
        last = at_count(case, END)
        yield "%s at the end of the count: ask" % name, last, None, 12
        yield "%s at the end of the count: commit" % name, last, fresh(last), 12
        for other in sorted(altered(fresh(last)))[::9]:
            yield "%s at the end of the count, a stale quote: commit" % name, last, other, 11
        yield ("%s at the end of the count, a quote of the count before: commit" % name, last,
               with_part(fresh(last), 0, END - 1), 11)


def altered(quote):
    """Quotes that differ from this one in one part, or in two that belong together."""
    changes, x, y, z, fate, faces = quote
    values = ((0, changes - 1, changes + 1, changes + 256, changes + 65536, changes ^ (1 << 31), END),
              (x - 1, x + 1, -x, x + 65536, y, -2147483648),
              (y - 1, y + 1, -y, y - 65536, x, 2147483647),
              (z - 1, z + 1, -z, 0, z + 65536, 2147483647, -2147483648),
              (0, 1, 2, 3, 4, 5, 6, 9, fate + 256, fate + WORD, fate + (1 << 63), LONG),
              (0, 1, faces + 1, faces - 1, faces + 256, faces + WORD, faces + (1 << 63), LONG))
    found = {with_part(quote, part, value) for part, row in enumerate(values) for value in row}
    found |= {quote[:4] + pair for pair in ((0, 0), (1, faces + 1), (3, 0), (2, 0), (fate + WORD, faces + WORD))}
    found |= {(changes, y, x, z, fate, faces), (changes, x, z, y, fate, faces), (0, 0, 0, 0, 0, 0),
              (END, -2147483648, -2147483648, -2147483648, LONG, LONG)}
    return {q for q in found - {quote} if 0 <= q[0] <= END and min(q[4:]) >= 0}


def stale():
    """Every kind of stale quote of an added point and of a skipped one, some of the other points."""
    for i, (name, case) in enumerate(shapes()):
        case = at_count(case, 70000 + i)
        quotes = sorted(altered(fresh(case)))
        for quote in quotes if name in ("two edges covered", "fate 3") else quotes[i % 4::4]:
            yield name + ", a stale quote: commit", case, quote, 11
    low = Case(check_cases.square(), ONE, [(9, 9)], changes=0)
    yield "the count 0, a quote of 1: commit", low, with_part(fresh(low), 0, 1), 11
    yield "the count 0, a quote of the end: commit", low, with_part(fresh(low), 0, END), 11
    zero = Case(run_cases.tri((-2, -2), (3, -1), (-1, 3)), (0.5, 0.5), [(0, 0)], changes=0)
    assert fresh(zero) == (0, 0, 0, 0, 3, 0)
    yield "all but the fate 0: commit", zero, fresh(zero), 0
    yield "all of the quote 0: commit", zero, (0, 0, 0, 0, 0, 0), 11


def filling():
    """Where a step is refused 9 the point is quoted as added, and the commit raises the count."""
    for i, (name, case, _) in enumerate(run_cases.filling()):
        case = at_count(case, 6)
        if i % 2:
            case = as_given(heights.put(case.mesh, more=1), case.centre, case.points, [i - heights.LIMIT],
                            changes=COUNTS[i % 5])
        yield from both(name, case, 9)
        enough = lending(case, run_cases.least_pending(case))
        yield name + ", with as many as it takes: commit", enough, fresh(case), 0
        yield (name + ", with one less: commit", lending(case, max(8, enough.lengths["pending"] - 1)),
               fresh(case), 9)
        if i < 4:
            yield name + ", a stale quote: commit", case, with_part(fresh(case), i, fresh(case)[i] + 1), 11
            yield name + ", 7 entries: commit", lending(case, 7), fresh(case), 2
        last = at_count(case, END - 1)
        yield from both(name + ", the count %d" % (END - 1), last, 9)
        last = at_count(case, END)
        yield name + " at the end of the count: ask", last, None, 12
        yield name + " at the end of the count: commit", last, fresh(last), 12


def walks():
    for i, (name, case, faces) in enumerate(run_cases.long_walks()):
        if i % 5 == 0:
            case = at_count(case, i)
            assert fresh(case)[5] == faces
            yield from both(name, case)
            yield name + ", one face less quoted: commit", case, with_part(fresh(case), 5, faces - 1), 11
    for i, (name, case) in enumerate(run_cases.about_an_edge()):
        case = at_count(case, i)
        yield from list(both(name, case))[:1 + (i % 3 == 0)]


# ---------------------------------------------------------------------------------------------------
# Something between asking and committing


def lent_by(mesh):
    return sweep.lent_for(mesh.vertices + 1, 64, 1)


def placed(mesh, centre, point, z=0):
    """A commit of what asking gives."""
    number, _, quote = sweep.ask(mesh, lent_by(mesh), centre, point, z)
    return number or sweep.commit(mesh, lent_by(mesh), centre, point, quote, z)[0]


def between(kind, mesh, centre, q):
    """What comes between, on rows that are long enough; its refusal number."""
    if kind == "a step":
        return sweep.step(mesh, lent_by(mesh), centre, q, -3)[0]
    if kind == "a commit":
        return placed(mesh, centre, q, -3)
    if kind == "a finish":
        return sweep.finish(mesh, lent_by(mesh))[0]
    return sweep.run(mesh, lent_by(mesh), centre, [q], [-3])[0]


def differing(a, b):
    """The parts in which two quotes of one point differ."""
    parts = [name for name, i in (("count", 0), ("fate", 4), ("faces", 5)) if a[i] != b[i]]
    return " and ".join(parts) or "nothing"


def as_standing(mesh, centre, p, z):
    return Case(mesh, centre, [p], pending=64, high=True, zs=[z], changes=mesh.changes)


BETWEEN = {("a step", "nothing"): 4, ("a step", "fate"): 1, ("a step", "faces"): 4, ("a step", "fate and faces"): 4,
           ("a commit", "nothing"): 4, ("a commit", "count"): 5, ("a commit", "count and faces"): 2,
           ("a commit", "count and fate and faces"): 2, ("a finish", "nothing"): 3, ("a finish", "faces"): 2,
           ("a finish", "fate and faces"): 2, ("a run", "nothing"): 2, ("a run", "count"): 3, ("a run", "faces"): 2}


def stories(rng):
    """A quote that is asked, something that comes between, the commit of that quote, and of another that is asked
    then. A step, a finish and a point that is not added leave the count: there a quote with the same fate and faces
    is accepted."""
    wanted = dict(BETWEEN)
    while any(wanted.values()):
        spread, kind = rng.choice([4, 6, 30, 300]), rng.choice(sorted({k for k, _ in BETWEEN}))
        mesh = meshes.with_room(selfcheck.random_seed(rng, spread), 16)
        centre = selfcheck.random_centre(rng, mesh, spread)
        mesh.heights[:mesh.vertices] = heights.random_heights(rng, mesh.vertices)
        mesh.changes = rng.choice([0, 0, 1, 8, END - 1])
        p, q = selfcheck.random_points(rng, centre, 2 * spread, 2)
        z = rng.choice([0, 12, -500])
        given = as_standing(mesh, centre, p, z)
        if sweep.ask(mesh, lent_by(mesh), centre, p, z)[0] or between(kind, mesh, centre, q):
            continue
        now = as_standing(mesh, centre, p, z)
        if sweep.ask(mesh, lent_by(mesh), centre, p, z)[0]:
            continue
        parts = differing(fresh(given), fresh(now))
        if not wanted.get((kind, parts)):
            continue
        wanted[kind, parts] -= 1
        name = "after %s, %s differs: " % (kind, parts)
        yield name + "ask before it", given, None, 0
        yield name + "commit", now, fresh(given), 0 if parts == "nothing" else 11
        yield name + "ask", now, None, 0
        if parts != "nothing":
            yield name + "commit what is asked then", now, fresh(now), 0


def after_nine():
    """A commit that is refused 9 raises the count, so that an earlier quote is stale; and so is its own."""
    fan, centre = meshes.with_room(meshes.flat_fan(8), 12), (70.0, 3.0)
    fan.changes = 3
    far = Case(fan, centre, [(300, 9)], changes=3)
    quote, own = fresh(far), sweep.quote_of(fan, (1, -1), 0, centre)
    assert sweep.commit(fan, sweep.lent_for(11, 8), centre, (1, -1), own)[0] == 9 and fan.changes == 4
    far, again = (Case(fan, centre, [p], pending=64, changes=4) for p in ((300, 9), (1, -1)))
    assert quote[1:] == fresh(far)[1:] and fresh(again)[4:] == (2, 0)
    yield "after a commit that was refused 9, a quote from before it: commit", far, quote, 11
    yield from both("after a commit that was refused 9", far)
    yield "after a commit that was refused 9, its own quote: commit", again, own, 11
    yield from both("the same point after a commit that was refused 9", again)


def at_random(rng):
    wanted = {1: 24, 2: 5, 3: 8, 4: 3, 5: 3}
    while any(wanted.values()):
        spread = rng.choice([2, 3, 6, 30, 1000, sweep.LIMIT])
        mesh = selfcheck.random_seed(rng, spread) if rng.random() < 0.7 else meshes.grown(rng, 3, spread)
        centre = selfcheck.random_centre(rng, mesh, spread)
        point = selfcheck.random_points(rng, centre, min(2 * spread, sweep.LIMIT), 1)
        mesh = heights.put(mesh, heights.random_heights(rng, mesh.vertices), 1 + rng.randrange(2))
        case = as_given(mesh, centre, point, heights.random_heights(rng, 1), pending=rng.choice([8, 64]),
                        changes=rng.choice([0, rng.randrange(END), rng.randrange(99)]))
        number, _, quote = sweep.ask(case.start(), case.lent(), centre, point[0], case.zs[0])
        if number == 0 and wanted[quote[4]]:
            wanted[quote[4]] -= 1
            yield from both("random, fate %d" % quote[4], case, stepped(case, case.lengths["pending"])[0][0])


def calls():
    rng = random.Random(96)
    for maker in (refusals, row_lengths, fates, stale, filling, walks, after_nine):
        yield from maker()
    yield from stories(rng)
    yield from at_random(rng)


def made(call):
    """The list of one call."""
    out = lists.List("quote_cases.py " + call)
    for name, case, quote, told in calls():
        told = told if isinstance(told, tuple) else (told, 0)
        if call == "ask" and quote is None:
            assert add_ask(out, name, case) == told, name
        if call == "commit" and quote is not None:
            assert add_commit(out, name, case, quote) == told, name
    return out


if __name__ == "__main__":
    made(sys.argv[1]).print()
