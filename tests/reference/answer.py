"""The reference as the side that is compared with the Rust oracle: inputs on stdin, runs and lists of bare points,
answers on stdout, in the oracle's text format (oracle/FORMAT.md).

    python3 answer.py < inputs.txt > answers.txt
"""

import struct
import sys

import meshes
import sweep
from samples import bits

PLENTY = 1 << 30  # pending entries: refusal 9 is never given


def of_bits(b):
    return struct.unpack("<d", struct.pack("<Q", b))[0]


def pairs(numbers):
    return list(zip(numbers[0::2], numbers[1::2]))


def inputs(stream):
    """The lines `i m p o h f c q` of each case, `i q` where its points are bare."""
    case = {}
    for line in stream:
        if line.startswith("#"):
            continue
        tag, *numbers = line.split()
        case[tag] = [int(n) for n in numbers]
        if tag == "q":
            yield case
            case = {}


def mesh_of(case):
    v, e, f = case["m"]
    return sweep.Mesh(case["p"], case["o"], case["h"], case["f"], v, e, f)


def line(tag, numbers):
    return " ".join([tag] + [str(n) for n in numbers])


def mesh_lines(mesh):
    v, e, f = mesh.counts()
    return [line("m", (v, e, f)), line("p", mesh.positions[:2 * v]), line("o", mesh.outs[:v]),
            line("h", mesh.halves[:8 * e]), line("f", mesh.stored[:f])]


def inserted(mesh, points, answers):
    """Change 2 from the first pass on: `b` and the answers of the run, then the mesh after the insertions; `b` alone
    where a later pass would add a face first, `l` alone where the search does not end (the Rust panics)."""
    later = mesh.copy()
    if sweep.convexity(later, PLENTY)[0]:
        return ["b"]
    for i, p in enumerate(points):
        if answers[4 * i] in sweep.SKIPPED:
            try:
                sweep.walk_to_target(mesh, sweep.walk_to_nearest_neighbor(mesh, 0, p), p)
            except sweep.TooManyTurns:
                return ["l"]
            answers[4 * i:4 * i + 4] = sweep.insert_skipped(mesh, p, 0, PLENTY)
    return [line("b", answers)] + mesh_lines(mesh)


def swept(mesh, centre, points, answers):
    """The steps of the points that have no answer yet, the first pass, and what comes after it."""
    for p in points[len(answers) // sweep.WORDS:]:
        answers += sweep.one_step(mesh, p, centre, PLENTY)
    out = [line("a", answers)] + mesh_lines(mesh)
    faces = mesh.faces
    flips = sweep.fix_convexity(mesh, PLENTY)
    out += [line("g", (mesh.faces - faces, flips))] + mesh_lines(mesh)
    return out + inserted(mesh, points, answers)


def bare_answer(case):
    """Change 6: the points that the seed takes, and the centre; then as a run, or nothing more where the list ends."""
    points = pairs(case["q"])
    n = len(points)
    mesh = meshes.with_room(sweep.Mesh([], [], [], [], 0, 0, 0), n)
    lent = sweep.lent_for(n, 8, n)
    try:
        sweep.refuse_bulk_load(mesh, lent, points, [0] * n)
    except sweep.Refusal as r:
        return [line("r", (r.number, r.place))]
    answers, centre = [], None
    while len(answers) < sweep.WORDS * n and centre is None:
        answers += sweep.grow(mesh, points[len(answers) // sweep.WORDS], 0, PLENTY)
        centre = sweep.start_of_sweep(mesh)
    taken = len(answers) // sweep.WORDS
    out = [line("s", [] if centre is None else [taken, *map(bits, centre)])]
    if taken == n:
        return out + [line("a", answers)] + mesh_lines(mesh)
    return out + swept(mesh, centre, points, answers)


def answer(case):
    if "m" not in case:
        return bare_answer(case)
    points = pairs(case["q"])
    centre = tuple(of_bits(b) for b in case["c"])
    given = mesh_of(case)
    n = given.vertices + len(points)
    mesh = meshes.with_room(given, max(n, given.vertices))
    try:
        sweep.refuse_run(mesh, sweep.lent_for(n, 8, len(points)), centre, points, len(points))
    except sweep.Refusal as r:
        return [line("r", (r.number, r.place))]
    return swept(mesh, centre, points, [])


if __name__ == "__main__":
    for case in inputs(sys.stdin):
        print("\n".join([line("i", case["i"])] + answer(case) + ["e"]))
