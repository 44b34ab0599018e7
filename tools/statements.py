#!/usr/bin/env python3
"""Which statements differ between two checkouts: contracts (in src/: a function's signature with its clauses, and the ghost items of an impl or a
trait, by which its methods promise), types (structs and enums there, with their derives) and definitions (`record`, `data`, `abbrev` and
`unfoldable` with their equations, in specs/). Laws and proofs are not compared.

    python3 tools/statements.py OLD [NEW]      NEW is this checkout where it is left out

It says what is gone, new and changed; a statement that moved to another crate, word for word, is named once. A statement that is in neither of
the lists is the same byte for byte."""
import glob
import os
import re
import sys

# a function without clauses has its brace at the end of a line, one with clauses on a line of its own; a trait's ends with a semicolon
FUNCTION = re.compile(r'^( *)((?:pub )?(?:extern "C" )?fn (\w+).*?)(?: \{$|^\1\{|;$)', re.S | re.M)
BLOCK = re.compile(r'^(?:pub )?((?:impl|trait)\b[^{]*?) \{\n(.*?)^\}', re.S | re.M)
GHOST = re.compile(r'^    ghost (\w+).*?;$', re.S | re.M)
TYPE = re.compile(r'^(?:#\[[^\n]*\]\n)*(?:pub )?(?:struct|enum) (\w+)(?:<[^{(\n]*>)?(?: \{.*?^\}|\(.*?\);$)', re.S | re.M)
DEFINED = re.compile(r'(?:unfoldable |abbrev )?(?:pub )?(?:record |data )?(\S+)')
DEFINES = re.compile(r'(?:unfoldable|abbrev|record|data|pub record|pub data)\b')


def files(root, folder, suffix):
    for path in sorted(glob.glob('%s/crates/*/%s/**/*%s' % (root, folder, suffix), recursive=True)):
        with open(path, encoding='utf-8') as file:
            yield os.path.relpath(path, root + '/crates').split(os.sep)[0], file.read()


def contracts(root):
    """Text by (crate, function), an impl's functions of one name told by their order; and by (crate, impl or trait, ghost item)."""
    found = {}
    for crate, text in files(root, 'src', '.rt'):
        for match in FUNCTION.finditer(text):
            found.setdefault((crate, match.group(3)), []).append(match.group(2))
        for head, body in BLOCK.findall(text):
            for item in GHOST.finditer(body):
                found.setdefault((crate, head, item.group(1)), []).append(item.group(0))
    return {key: '\n'.join(texts) for key, texts in found.items()}


def types(root):
    """Text by (crate, name)."""
    return {(crate, match.group(1)): match.group(0) for crate, text in files(root, 'src', '.rt') for match in TYPE.finditer(text)}


def definitions(root):
    """Text by (crate, name), the equations with it."""
    found = {}
    for crate, text in files(root, 'specs', '.antt'):
        name = None
        for part in re.split(r'\n(?=\S)', text):
            if DEFINES.match(part):
                name = DEFINED.match(part).group(1)
                found.setdefault((crate, name), []).append(part)
            elif name and part.startswith(name + ' '):
                found[crate, name].append(part)
            elif not part.startswith('unfolding '):
                name = None
    return {key: '\n'.join(part.rstrip() for part in parts) for key, parts in found.items()}


def compare(what, old, new):
    gone = [key for key in sorted(old) if key not in new]
    come = [key for key in sorted(new) if key not in old]
    moved = [(a, b) for a in gone for b in come if a[1:] == b[1:] and old[a] == new[b]]
    gone = [key for key in gone if key not in [a for a, _ in moved]]
    come = [key for key in come if key not in [b for _, b in moved]]
    changed = [key for key in sorted(old) if key in new and old[key] != new[key]]
    same = sum(key in new and old[key] == new[key] for key in old)
    print('%s: %d before, %d after, %d the same' % (what, len(old), len(new), same))
    for word, keys in ('gone', gone), ('new', come), ('changed', changed):
        for key in keys:
            print('  %s %s' % (word, '::'.join(key)))
    for a, b in moved:
        print('  moved %s to %s' % ('::'.join(a), b[0]))


def main():
    old = sys.argv[1]
    new = sys.argv[2] if len(sys.argv) > 2 else '.'
    compare('contracts', contracts(old), contracts(new))
    compare('types', types(old), types(new))
    compare('definitions', definitions(old), definitions(new))


if __name__ == '__main__':
    main()
