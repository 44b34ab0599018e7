"""Our own steps, first pass and run, and our own loading of bare points, beside the Rust on generated inputs, link by
link, through the program `replay`.

    python3 oracle/replay.py COUNT SEED [MOST_POINTS]      at the repository's root
    python3 oracle/replay.py bare COUNT SEED [MOST_POINTS]
    python3 oracle/replay.py load COUNT SEED [MOST_POINTS]

`oracle generate` makes the inputs and `oracle answer` has the Rust answer them; those inside the domain go to
crates/replay/out/replay, as many at a time as it has room for: all of them, as the oracle writes them, as its list answers.txt,
and those whose insertions are inside the domain too as its list run.txt. A run must give the Rust's answers, report the
faces and flips of the Rust's pass, and leave what the closing pass makes of the Rust's mesh after the insertions; that
pass is the one of tests/reference. Needs `cargo build --release` in oracle/, and the program: `rt run` in crates/replay
proves and builds it, and then runs it where its lists are not, so that it ends with an error. An input that takes more
vertices than replay's rows have is counted apart.

With `bare`, lists of bare points go to the program as its list bulk_load.txt, as far as they are inside the domain: it
must give the Rust's answers in list order, report the faces and flips of the Rust's pass, and leave what the closing pass
makes of the Rust's mesh. With `load`, the lists are in the order in which `bulk_load` takes its points, and the mesh is
the one that this function itself makes.
"""

import os
import shutil
import subprocess
import sys
import tempfile

sys.path.insert(0, os.path.join(os.path.dirname(os.path.abspath(__file__)), "../tests/reference"))

import answer as reference
import lists
import meshes
import sweep

ORACLE = os.environ.get("ORACLE", "oracle/target/release/oracle")
PROGRAM = os.path.abspath(os.environ.get("REPLAY", "crates/replay/out/replay"))
DATA = "crates/replay/data"
TEXT, VERTICES, PENDING = 500000, 250, 6144


def output(*command, text=None, cwd=None):
    return subprocess.run(command, input=text, capture_output=True, text=True, check=True, cwd=cwd).stdout


def cases(text, last):
    case = []
    for line in text.splitlines():
        if line.startswith("#"):
            continue
        case.append(line)
        if line[0] == last:
            yield case
            case = []


def numbers(line):
    return [int(word) for word in line.split()[1:]]


def mesh_of(lines):
    return reference.mesh_of({line[0]: numbers(line) for line in lines})


def insertions(answer):
    """How the Rust's insertions ended: `made`, or by the line that says why they are outside the domain."""
    if answer[-2][0] == "f" and answer[-7][0] == "b":
        return "made"
    return {"b": "passes", "l": "search"}[answer[-2]]


def run_of(given, answer):
    """A case of run.txt: the rows that are lent, then what the run must leave. Answers the closing flips too."""
    points = numbers(given[-1])
    count = len(points) // 2
    seed = mesh_of(given[1:6])
    n = seed.vertices + count
    left = meshes.with_room(mesh_of(answer[-6:-1]), n)
    faces, flips = numbers(next(line for line in answer if line[0] == "g"))
    closing = sweep.closing_pass(left)
    row = lists.line
    return closing, lists.mesh_lines(meshes.with_room(seed, n)) + [
        row("n", (n + 1, n + 1, max(16, n))), row("q", (PENDING, 7)), row("x", numbers(given[-2])),
        row("w", (4 * count, 7)), row("v", [count] + points)
    ] + lists.mesh_lines(left, "MPOHF") + [
        lists.row_line("W", numbers(answer[-7])), row("r", (0, 0, faces, flips, closing))]


def last_mesh(answer):
    """The mesh at the end of the Rust's answer to bare points, None where it is outside the domain."""
    if answer[-2][0] != "f" or any(line[0] == "x" for line in answer):
        return None
    return mesh_of(answer[-6:-1])


def bare_of(given, answer, mesh):
    """A case of bulk_load.txt: the rows that are lent, without a mesh, then what the call must leave. Answers the
    closing flips and the points that the seed takes too."""
    points = numbers(given[-1])
    count = len(points) // 2
    told = {line[0]: numbers(line) for line in answer}
    left, lent = lists.with_past(mesh, count), lists.with_past(sweep.Mesh([], [], [], [], 0, 0, 0), count)
    line = int(mesh.faces < 2)
    closing = 0 if line else sweep.closing_pass(left)
    taken = told["s"][0] if told["s"] else count
    row = lists.line
    return closing, taken, lists.mesh_lines(lent) + [
        row("n", (count + 1, count + 1, max(16, count))), row("q", (PENDING, 7)), row("w", (4 * count, 7)),
        row("v", [count] + points)
    ] + lists.mesh_lines(left, "MPOHF") + [
        lists.row_line("W", told.get("b", told["a"])),
        row("r", (0, 0, *mesh.counts(), 0, line, *told.get("g", (0, 0)), closing))]


class Batch:
    """Cases for one list of the program, and how many of them agreed and differed."""

    def __init__(self, name, closed):
        self.name, self.closed = name, closed
        self.lines, self.size = [], 0
        self.agree = self.differ = 0

    def has_room(self, lines):
        return not self.lines or self.size + sum(map(len, lines)) + len(lines) <= TEXT

    def add(self, lines):
        self.lines += lines
        self.size += sum(map(len, lines)) + len(lines)

    def write(self, folder):
        closing = ["z %d" % len(self.lines)] if self.closed else []
        with open(os.path.join(folder, self.name + ".txt"), "w") as f:
            f.write("".join(line + "\n" for line in self.lines + closing))

    def count(self, printed):
        words = next((line.split() for line in printed if line.startswith(self.name + " agree")), None)
        if words is None:
            sys.exit(f"{PROGRAM} has no list {self.name}")
        self.agree += int(words[2])
        self.differ += int(words[4])
        self.lines, self.size = [], 0


def replayed(folder, batches):
    for batch in batches:
        batch.write(folder)
    printed = output(PROGRAM, cwd=folder).splitlines()
    for batch in batches:
        batch.count(printed)


def emptied(folder):
    """The program's other lists without a case, so that they take no time."""
    for name in os.listdir(DATA):
        with open(os.path.join(folder, name), "w") as f:
            f.write("" if name == "answers.txt" else "z 0\n")


def bare(kind, *arguments):
    inputs = output(ORACLE, kind, "generate", *arguments)
    answers = output(ORACLE, "bare", "answer", text=inputs)
    loads = Batch("bulk_load", True)
    outside = large = points = settled = lines = grown = 0
    loaded = cases(output(ORACLE, "load", "answer", text=inputs), "e") if kind == "load" else None
    with tempfile.TemporaryDirectory() as folder:
        emptied(folder)
        for given, answer in zip(cases(inputs, "q"), cases(answers, "e"), strict=True):
            of_load = next(loaded) if loaded else None
            mesh, n = last_mesh(answer), len(numbers(given[-1])) // 2
            if mesh is None:
                outside += 1
                continue
            if n > VERTICES:
                large += 1
                continue
            closing, taken, entry = bare_of(given, answer, mesh_of(of_load[1:6]) if of_load else mesh)
            points, settled, lines, grown = points + n, settled + (closing == 0), lines + (mesh.faces < 2), grown + taken
            if not loads.has_room(entry):
                replayed(folder, (loads,))
            loads.add(entry)
        if loads.lines:
            replayed(folder, (loads,))
    print(f"bare points: agree {loads.agree} differ {loads.differ} points {points}, {grown} of them in growing seeds; "
          f"lines {lines}; with no closing flip {settled}; outside {outside} too large {large}")
    return loads.differ != 0


def main():
    if sys.argv[1] in ("bare", "load"):
        return bare(*sys.argv[1:])
    inputs = output(ORACLE, "generate", *sys.argv[1:])
    answers = output(ORACLE, "answer", text=inputs)
    steps, runs = Batch("answers", False), Batch("run", True)
    counts = {"made": 0, "passes": 0, "search": 0}
    fates = {6: 0, 7: 0, 8: 0, 9: 0}
    outside = large = points = settled = 0
    with tempfile.TemporaryDirectory() as folder:
        for name in os.listdir(DATA):
            shutil.copy(os.path.join(DATA, name), folder)
        for given, answer in zip(cases(inputs, "q"), cases(answers, "e"), strict=True):
            if any(line[0] == "x" for line in answer):
                outside += 1
                continue
            n = len(numbers(given[-1])) // 2
            if int(given[1].split()[1]) + n > VERTICES:
                large += 1
                continue
            points += n
            entry, run, kind = given + answer[1:], [], insertions(answer)
            counts[kind] += 1
            if kind == "made":
                closing, run = run_of(given, answer)
                settled += closing == 0
                for fate in numbers(answer[-7])[::4]:
                    if fate in fates:
                        fates[fate] += 1
            if not (steps.has_room(entry) and runs.has_room(run)):
                replayed(folder, (steps, runs))
            steps.add(entry)
            runs.add(run)
        if steps.lines:
            replayed(folder, (steps, runs))
    print(f"steps and passes: agree {steps.agree} differ {steps.differ} points {points} outside {outside} too large {large}")
    print(f"runs: agree {runs.agree} differ {runs.differ}; with no closing flip {settled}; inserted "
          + ", ".join(f"{count} of fate {fate}" for fate, count in fates.items()))
    print(f"insertions outside the domain: a later pass adds a face {counts['passes']}, the search panics {counts['search']}")
    return steps.differ + runs.differ != 0


if __name__ == "__main__":
    sys.exit(main())
