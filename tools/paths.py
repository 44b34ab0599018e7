#!/usr/bin/env python3
# Served the older kit: today's proofs name a step's facts, and count no `.before`.
"""Paths into what a proof of a function knows at each need, from an Lts.antt: a transplanted one, or one of `rt goals`.

    paths.py LTS [NEED..]            for each need, how many `.before` lead from its `c` to each place, with the place's fields
    paths.py --renumber LTS PROOF    puts the right number of `.before` into each path `c .before .. .FIELD` of a proof file, by FIELD
    paths.py --scaffold F TIE        a Proof.antt with an answer to write for each need of F, over a transplanted Tie.antt"""
import re
import sys


def read(path):
    with open(path) as f:
        return f.read()


def places(text):
    """By record: the record before it, and its fields."""
    found, name = {}, None
    for line in text.split('\n'):
        record = re.match(r'^ +pub record (\S+) : Type 0 where', line)
        field = re.match(r'^ +pub (\S+) : ?(\S*)', line)
        if record:
            name = record.group(1)
            found[name] = [None, []]
        elif field and name:
            if field.group(1) == 'before':
                found[name][0] = field.group(2)
            else:
                found[name][1].append(field.group(1))
        elif line.strip() and re.match(r'^ {0,8}\S', line):
            name = None
    return found


def needs(text):
    """By need: its places, the nearest first, each with its fields."""
    found = places(text)
    for m in re.finditer(r'Need-(\S+) =\s*\(c : (\S+)\)', text):
        name, record, path = m.group(1), m.group(2), []
        while record in found:
            path.append((record, found[record][1], found.get(record + '·own', [None, []])[1]))
            record = found[record][0]
        yield name, path


def scaffold(f, text):
    crate = re.search(r'use Rattle·(\w+)·proofs', text).group(1)
    spec = text[text.index('pub spec :'):]
    names = re.findall(r'\(answer\S* : Need-(\S+?)(?: Inv\S*| μ\S*)*\)', spec)
    loops = re.findall(r'^abbrev pub InvT-(\S+)', text, flags=re.M)
    invariants = ''.join(' Inv-%s μ-%s' % (l, l) for l in loops)
    name = f.split('.')[-1].replace('_', '-')
    module = 'Rattle·%s·proofs.proofs.%s' % (crate, f)
    print('use borrow.Author.Needs.{needs}\nuse %s.Statement.{statement}\nuse %s.Proof.Tie as tie\nmod Lts\nmod Tie\n' % (module, module))
    for l in loops:
        print('abbrev Inv-%s : tie.InvT-%s\nInv-%s = ?\n\nabbrev μ-%s : tie.MeasureT-%s\nμ-%s = ?\n' % ((l,) * 6))
    for n in names:
        print('%s : tie.Need-%s%s\n%s c%s = search needs\n' % (n, n, invariants, n, ' κs' if re.search(r'requires(-\d+)?$', n) else ''))
    print('pub %s-spec : {M : Type 1} → statement M\n%s-spec = tie.close (tie.spec%s %s)' % (name, name, invariants, ' '.join(names)))


def renumber(text, proof):
    """Each path of a proof file by the field that it leads to."""
    far = {n: {f: k for k, (_, fields, _) in reversed(list(enumerate(path))) for f in fields} for n, path in needs(text)}
    need, lines = None, []
    for line in read(proof).split('\n'):
        begins = re.match(r'(\S+) c\b', line)
        need = begins.group(1) if begins else None if re.match(r'\S+ :', line) else need
        if need in far:
            line = re.sub(r'\bc(?: \.before)+ \.([a-z][\w·κ-]*)', lambda m: 'c' + ' .before' * far[need][m.group(1)] + ' .' + m.group(1), line)
        lines.append(line)
    with open(proof, 'w') as f:
        f.write('\n'.join(lines))


def main(words):
    if words[0] == '--scaffold':
        scaffold(words[1], read(words[2]))
    elif words[0] == '--renumber':
        renumber(read(words[1]), words[2])
    else:
        for name, path in needs(read(words[0])):
            if len(words) == 1 or name in words[1:] or 'Need-' + name in words[1:]:
                print('%s : %s' % (name, path[0][0] if path else ''))
                for k, (_, fields, own) in enumerate(path):
                    print('   %2d  .%s {%s}' % (k, ' .'.join(fields), ' '.join(own)))


main(sys.argv[1:])
