"""Adversarial inputs in the oracle's format, and the comparison of two files of answers.

    python3 inputs.py make COUNT SEED > inputs.txt
    oracle answer < inputs.txt > rust.txt
    python3 answer.py < inputs.txt > reference.txt
    python3 inputs.py compare inputs.txt rust.txt reference.txt

The seeds are renumbered at random, unsettled, overlapping, and the centres mostly near or outside the
seed, where the oracle's own generator seldom goes.
"""

import random
import sys

import answer
import meshes
import selfcheck
import sweep
from samples import bits


def make(count, seed):
    rng, made = random.Random(seed), 0
    while made < count:
        mesh, centre, points = selfcheck.adversarial(rng)
        try:
            sweep.refuse_run(mesh, sweep.lent_for(mesh.vertices, 8), centre, [], 0)
        except sweep.Refusal:
            if rng.random() < 0.98:
                continue
        yield made, mesh, centre, points
        made += 1


def input_lines(number, mesh, centre, points):
    return ([answer.line("i", [number])] + answer.mesh_lines(mesh)
            + [answer.line("c", map(bits, centre)), answer.line("q", [c for p in points for c in p])])


def answers(path):
    """The lines of each answer, by the number of its case."""
    found, lines = {}, []
    for text in open(path):
        text = text.rstrip("\n")
        if text.startswith("#"):
            continue
        lines.append(text)
        if text == "e":
            found[int(lines[0].split()[1])] = lines[1:-1]
            lines = []
    return found


def outside(rust, reference):
    """What is claimed of a case outside the domain: 4 and 5 at that point and equal answers before it, or
    the same refusal.  Answers a word for the tally, or None if the two disagree."""
    reason, index = map(int, rust[-1].split()[1:])
    if reason == 6:
        return "refused" if reference[0].split()[:2] == ["r", str(index)] else None
    before = rust[0].split()[1:]
    given = reference[0].split()[1:]
    fate = given[4 * index] if 4 * index < len(given) else None
    if given[:len(before)] != before:
        return None
    if reason == 3:
        return "fate 5" if fate == "5" else None
    if reason in (1, 2, 4):
        return "fate 4 (%d)" % reason if fate == "4" else None
    return "reason %d" % reason


def compare(inputs, rust, reference):
    rust, reference = answers(rust), answers(reference)
    tally, worst = {}, []
    assert rust.keys() == reference.keys()
    for n, lines in rust.items():
        if lines[-1].startswith("x "):
            word = outside(lines, reference[n])
        else:
            word = "agree" if lines == reference[n] else None
        tally[word or "DISAGREE"] = tally.get(word or "DISAGREE", 0) + 1
        if word is None:
            worst.append(n)
    print(tally)
    if worst:
        cases = {case["i"][0]: case for case in answer.inputs(open(inputs))}
        n = min(worst, key=lambda n: (len(cases[n]["p"]) + len(cases[n]["q"]), n))
        print("the smallest disagreement:", cases[n], rust[n], reference[n], sep="\n")


if __name__ == "__main__":
    if sys.argv[1] == "make":
        for case in make(int(sys.argv[2]), int(sys.argv[3])):
            print("\n".join(input_lines(*case)))
    else:
        compare(*sys.argv[2:5])
