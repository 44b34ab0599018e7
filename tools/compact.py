# Served the older kit, for transplant.py.
"""Shorter text for what the borrow checker prints: one line for each declaration, and a name for each type that stands in it more than once."""
import collections
import re

DECL = re.compile(r'^\s*(--|abbrev |pub |module |use |mod |unfolding |[^\s(){}]+ =(\s|$)|[^\s(){}]+ :(\s|$))')
TYPE = re.compile(r"\((Syntax'*)\.(tyStruct|tyRef|tyArray|tyEnum|tyInt|tyFloat)\b")
CLOSED = re.compile(r"^(?:[A-Z][\w']*\.[^\s()]+|\d+|\.written|\.mir)$")


def one_line(s):
    out, depth = [], 0
    for line in s.split('\n'):
        t = line.strip()
        if not t:
            if depth == 0 and out and out[-1] != '':
                out.append('')
            continue
        if depth == 0 and DECL.match(line):
            out.append(line.rstrip())
        elif out and out[-1] != '':
            out[-1] += ' ' + t
        else:
            out.append(line.rstrip())
        depth += sum(t.count(c) for c in '({') - sum(t.count(c) for c in ')}')
    # blank lines between one-line declarations go
    return '\n'.join(l for l in out if l != '') + '\n'


def types_in(s):
    """The types of the program's syntax that stand in parentheses and hold no variable, with their numbers."""
    found = collections.Counter()
    for m in TYPE.finditer(s):
        depth, i = 0, m.start()
        while s[i] not in '\n{,;':
            depth += {'(': 1, ')': -1}.get(s[i], 0)
            i += 1
            if depth == 0:
                t = s[m.start():i]
                if all(CLOSED.match(w) for w in re.findall(r'[^\s()]+', t)):
                    found[t] += 1
                break
    return found


def named_types(s):
    at = [m for m in re.finditer(r'^use .*\n', s, flags=re.M)][-1].end()
    top, body, defs, names = s[:at], s[at:], '', {}
    found = types_in(body)
    chosen = sorted((t for t in found if (found[t] - 1) * len(t) > 200), key=lambda t: (len(t), t))
    for k, t in enumerate(chosen):
        d = t
        for u in sorted(names, key=len, reverse=True):
            d = d.replace(u, names[u])
        names[t] = 'ty·%d' % k
        defs += 'abbrev ty·%d : %s.Ty\nty·%d = %s\n' % (k, TYPE.match(t).group(1), k, d[1:-1])
    for t in reversed(chosen):
        body = body.replace(t, names[t])
    return top + defs + body


def compact(s):
    return named_types(one_line(s))
