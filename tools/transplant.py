#!/usr/bin/env python3
# Served the older kit, whose borrow checker did not cover a lent row of structs: today there is no made text, and nothing runs this.
"""The part of a proof that follows the code, for functions over a lent row of structs, which the borrow checker does not cover.

    python3 tools/transplant.py [CRATE..]              remakes the made text of every crate that has any, or of those named
    python3 tools/transplant.py --check [CRATE..]      writes nothing there: says which files are not what it makes, and ends with 1 where there are any

The borrow checker declines `&[Node]` and `&mut [Node]`. It covers `&mut [[u8; 24]]`, and 24 is Node's size. So, for each crate:
  1. target/twin gets a twin of the crate: each [Node] behind a reference is [[u8; 24]], the clauses are gone, and functions that do not
     call with the row have stubs for bodies. The crates below it that have such functions stand there too, every body of theirs a stub;
     all other crates are the repository's own.
  2. `rt goals` writes what the borrow checker makes of the twin.
  3. Node is put in again, and these files are written:
        proofs/Sig/{Kinds,Reads}_F.antt          the signature of a function with the row, and the reading of its contract
        proofs/Sig/{Kinds,Reads}_CRATE_F.antt    a copy, for a function of another crate that is called here
        proofs/F/Proof/{Lts,Tie}.antt            what is to be proved of a function that is not proved by hand
A proof file then has `mod Lts`, `mod Tie` and goes on over proofs.F.Proof.Tie as any other over proofs.F.Tie.
Nothing here is trusted: the files are part of the proof, and the prover compares their code with the function's own.
Access to a node goes through the functions of HAND alone, which are proved by hand; `nodes.len()` and parts of a row are fine.
A function that owns a row gets it by value from a function of its own (`-> [Node; n]`), which is covered."""
import os
import re
import shutil
import subprocess
import sys

sys.dont_write_bytecode = True
sys.path.insert(0, os.path.dirname(os.path.abspath(__file__)))
from compact import compact

OWNER, STRUCT, SIZE = 'ring_rows', 'Node', 24
HAND = {('ring_rows', '', f) for f in ('load', 'store', 'set_edge', 'set_left', 'set_right', 'store_at')}
ROOT = os.getcwd()
TWIN = ROOT + '/target/twin'
MADE = ROOT + '/target/made'
ROW_REF = re.compile(r'&(?:mut )?\[%s\]' % STRUCT)


# ---- the sources

def skip(src, i):
    """The index behind the balanced brace at i."""
    depth = 0
    while True:
        if src.startswith('//', i):
            i = src.index('\n', i)
        elif src.startswith("b'", i):
            i = src.index("'", i + (3 if src[i + 2] != '\\' else 4)) + 1
        elif src.startswith('b"', i):
            i += 2
            while src[i] != '"':
                i += 2 if src[i] == '\\' else 1
            i += 1
        else:
            depth += {'{': 1, '}': -1}.get(src[i], 0)
            i += 1
            if depth == 0:
                return i


class Function:
    def __init__(self, crate, module, name, head, clauses, body):
        self.crate, self.module, self.name, self.head, self.clauses, self.body = crate, module, name, head, clauses, body
        self.key = (crate, module, name)
        self.row = bool(ROW_REF.search(head))
        result = re.search(r'->\s*(.*)$', head.strip(), flags=re.S)
        self.result = result.group(1).strip() if result else ''
        self.parts = [p for p in (module, name) if p]

    def calls(self):
        for path in re.findall(r'\b(\w+(?:::\w+)*)\(', self.body):
            p = path.split('::')
            if len(p) == 1:
                yield (self.crate, self.module, p[0])
            elif len(p) == 2:
                yield (p[0], '', p[1])
                yield (self.crate, p[0], p[1])
            elif len(p) == 3:
                yield tuple(p)


def functions(crate, module, src):
    """The functions of a source file, and the text between them."""
    found, rest, at = [], [], 0
    for m in re.finditer(r'^( *)((?:pub )?(?:extern "C" )?fn (\w+)(?:<[^>]*>)?)\(', src, flags=re.M):
        if m.start() < at:
            continue
        i, depth = m.end(), 1
        while depth:
            depth += {'(': 1, ')': -1}.get(src[i], 0)
            i += 1
        clause = re.compile(r'\s*(?:requires|ensures)\b[^{]*')
        arrow = re.compile(r'\s*->\s*(?:\[[^\]]*\](?:; [\w:]+\])?|[\w:]+)').match(src, i)
        i = arrow.end() if arrow else i
        head, begin = src[m.start():i], i
        while clause.match(src, i):
            i = skip(src, clause.match(src, i).end())
        clauses = src[begin:i]
        end = skip(src, src.index('{', i))
        found.append(Function(crate, module, m.group(3), head, clauses, src[src.index("{", i):end]))
        rest.append(src[at:m.start()])
        at = end
    return found, rest + [src[at:]]


def read(path):
    with open(path) as f:
        return f.read()


def write(path, text):
    os.makedirs(os.path.dirname(path), exist_ok=True)
    with open(path, 'w') as f:
        f.write(text)


class Crate:
    def __init__(self, name, deps):
        self.name, self.line, self.deps = name, deps, deps.split()
        self.folder = 'crates/' + name
        self.files = {f: read('%s/src/%s' % (self.folder, f)) for f in sorted(os.listdir(self.folder + '/src')) if f.endswith('.rt')}
        self.parsed = {f: functions(name, '' if f in ('lib.rt', 'main.rt') else f[:-3], s) for f, s in self.files.items()}
        self.functions = [g for fs, _ in self.parsed.values() for g in fs]


crates = {}
for line in read('crates.txt').split('\n'):
    line = line.split('#')[0].strip()
    if line:
        name, deps = line.split(':')
        crates[name.strip()] = Crate(name.strip(), deps)
every = {f.key: f for c in crates.values() for f in c.functions}
rows = {f.key for f in every.values() if f.row}
owned = {f.key for f in every.values() if re.search(r'\[%s; [\w:]+\]' % STRUCT, f.head)}
made = {f.key for f in every.values() if f.key not in HAND and f.key not in owned and (f.row or any(g in rows for g in f.calls()))}
affected = [n for n in crates if any(k[0] == n for k in rows | made)]
twinned = []
for n in crates:
    if n in affected or any(d in twinned for d in crates[n].deps):
        twinned.append(n)
types = {}
for n, c in crates.items():
    for file, src in c.files.items():
        for m in re.finditer(r'^(?:pub )?struct (\w+) \{(.*?)^\}', src, flags=re.M | re.S):
            types[n, m.group(1)] = (file, re.findall(r'^ +(?:pub )?(\w+): (.*?),$', m.group(2), flags=re.M), None)
        for m in re.finditer(r'^(?:pub )?enum (\w+) \{(.*?)^\}', src, flags=re.M | re.S):
            types[n, m.group(1)] = (file, None, re.search(r'^ +(\w+)(?:\((.*?)\))?,', m.group(2), flags=re.M).groups())


# ---- the twins

def zero(t, crate, file):
    """A value of a type, for a stub in a file of a crate; a KeyError where none can be written there."""
    array = re.match(r'\[(.*); ([\w:]+)\]$', t)
    if array:
        count = array.group(2)
        if re.match('[A-Z]', count) and not re.search(r'(::|const )%s\b' % count, crate.files[file]):
            raise KeyError(count)
        return '[%s; %s]' % (zero(array.group(1), crate, file), count)
    if t in ('f32', 'f64'):
        return '0.0'
    if t == 'bool':
        return 'false'
    if re.match(r'[ui](\d+|size)$', t):
        return '0'
    owner, name = crate.name, t.split('::')[-1]
    used = re.search(r'^use (\w+)::(?:\w+::)*%s;' % name, crate.files[file], flags=re.M)
    if used and used.group(1) in crates:
        owner = used.group(1)
    if (owner, name) not in types:
        owner = next(c for c, n in types if n == name and c in crate.deps)
    where, fields, variant = types[owner, name]
    if owner == crate.name and where != file:
        raise KeyError(name)
    path = name if owner == crate.name or used else '%s::%s' % (owner, name)
    if fields is not None:
        return '%s { %s }' % (path, ', '.join('%s: %s' % (n, zero(u, crate, file)) for n, u in fields))
    return '%s::%s%s' % (path, variant[0], '(%s)' % ', '.join(zero(u, crate, file) for u in variant[1].split(', ')) if variant[1] else '')


def stub(g, crate, file):
    """A body that says nothing, or the function's own where none can be written."""
    try:
        return '{\n    %s\n}' % zero(plain(g.result), crate, file) if g.result else '{\n}'
    except (KeyError, StopIteration):
        return g.body


def plain(src):
    src = re.sub(r'(&(?:mut )?)\[%s\]' % STRUCT, r'\1[[u8; %d]]' % SIZE, src)
    return re.sub(r'\[%s; ([\w:]+)\]' % STRUCT, r'[[u8; %d]; \1]' % SIZE, src)


def twin(crate, stubs):
    """The crate's sources with no clause and no struct behind a reference, and with a stub for each function, or for each that is not made."""
    for f, (found, rest) in crate.parsed.items():
        text = rest[0]
        for g, after in zip(found, rest[1:]):
            body = stub(g, crate, f) if stubs or g.key not in made else g.body
            text += plain(g.head) + '\n' + plain(body) + after
        text = re.sub(r'^ghost use.*?;\n', '', text, flags=re.M | re.S)
        write('%s/crates/%s/src/%s' % (TWIN, crate.name, f), text)


def rt(*words):
    done = subprocess.run(['rt'] + list(words), cwd=TWIN, capture_output=True, text=True, env=dict(os.environ, RT_JOBS='1'))
    write(TWIN + '/target/log/%s' % '_'.join(words), done.stdout + done.stderr)
    return done.returncode


def below(names):
    found = []
    for n in names:
        for m in below([d for d in crates[n].deps if d in crates]) + [n]:
            if m not in found:
                found.append(m)
    return found


def below_another(n, names):
    return any(n in crates[m].deps for m in names)


def prepare(wanted):
    """The twin's repository. What was proved there before and has not changed since is not proved again."""
    listed = below(wanted)
    own = [n for n in listed if n not in twinned]
    if own and subprocess.run(['rt', 'check'] + own, stdout=subprocess.DEVNULL, stderr=subprocess.DEVNULL, env=dict(os.environ, RT_JOBS='1')).returncode:
        sys.exit('a crate below is not proved: rt check ' + ' '.join(own))
    shutil.rmtree(TWIN + '/crates', ignore_errors=True)
    os.makedirs(TWIN + '/crates')
    for d in ('rlib', 'stamp', 'log'):
        os.makedirs('%s/target/%s' % (TWIN, d), exist_ok=True)
    write(TWIN + '/crates.txt', ''.join('%s:%s\n' % (n, crates[n].line) for n in listed))
    for n in listed:
        if n in twinned:
            twin(crates[n], below_another(n, listed))
            continue
        os.symlink('%s/crates/%s' % (ROOT, n), '%s/crates/%s' % (TWIN, n))
        shutil.copy('%s/target/stamp/%s' % (ROOT, n), TWIN + '/target/stamp/')
        if not os.path.lexists('%s/target/rlib/%s.rlib' % (TWIN, n)):
            os.symlink('%s/target/rlib/%s.rlib' % (ROOT, n), '%s/target/rlib/%s.rlib' % (TWIN, n))


# ---- what the borrow checker makes, with the struct in it

def ws(p):
    return p.replace(' ', r'\s+')


W8 = r"\(Referent'*\.rtF \(Referent'*\.fInt Syntax'*\.w8\)\)"
ROW = r"(?:Array'*\.)?Array %s %d" % (W8, SIZE)
TY = r"Syntax'*\.tyArray \(Syntax'*\.tyInt Syntax'*\.w8\) %d" % SIZE
EARR = r"\((Array'*)\.eArr \(Array'*\.eInt Syntax'*\.w8\) %d\)" % SIZE
ELAWS = r"\((Array'*)\.eArr-laws \(Array'*\.eInt Syntax'*\.w8\) \(Array'*\.eInt-laws Syntax'*\.w8\) %d\)" % SIZE
CARR = r"\((Copies'*)\.cArr %s \(Copies'*\.cRf \(Referent'*\.fInt Syntax'*\.w8\)\) %d\)" % (W8, SIZE)


def module(key, crate):
    """The module of a function's statement, seen from a crate."""
    path = '.'.join(p for p in key[1:] if p)
    return 'Rattle·%s·proofs.proofs.%s' % (key[0], path) if key[0] == crate else 'Rattle·%s.proofs.%s' % (key[0], path)


def sig_name(key, crate):
    return '_'.join(p for p in ((key[0] if key[0] != crate else ''), key[1], key[2]) if p)


def put(s, crate):
    s = re.sub(r'^ *-- antt refused.*\n', '', s, flags=re.M)
    # an array of the struct: its type behind a reference, by value, its kind, and that it is Copy
    s = re.sub(ws(r"(Syntax'*\.tyRef \S+ \S+) \(Syntax'*\.tyArray \(" + TY + r"\) (\d+)\)"), r"\1 (ELEMMEM.pointee (ELEMARR.Array ELEM.the-row \2 .written))", s)
    s = re.sub(ws(r"(Syntax'*)\.tyArray \(" + TY + r"\) (\d+)"), r"\1.tyArray (ELEMMEM.lone (ELEM.the-row .mir)) \2", s)
    s = re.sub(ws(EARR), r'(\1.eStruct ELEM.the-type ELEMLAWS.the-laws ELEMLAWS.the-copy)', s)
    s = re.sub(ws(ELAWS), r'(\1.eStruct-laws ELEM.the-type ELEMLAWS.the-laws ELEMLAWS.the-copy ELEMLAWS.the-plain)', s)
    s = re.sub(ws(CARR), r'(\1.cStruct ELEM.the-type ELEMLAWS.the-laws ELEMLAWS.the-copy)', s)
    # the struct itself: as a row's type, where a place goes through the pointer, and behind a reference
    s = re.sub(ws(r"\(" + ROW + r"\)"), 'ELEM.the-row', s)
    s = re.sub(ws(ROW), 'ELEM.the-row', s)
    s = re.sub(ws(r"(Syntax'*\.deref) \(" + TY + r"\)"), r'\1 (ELEMMEM.lone (ELEM.the-row .mir))', s)
    s = re.sub(ws(TY), 'ELEMMEM.pointee (ELEM.the-row .written)', s)
    for key in rows:
        for k in ('Kinds', 'Reads'):
            s = re.sub(r'^use %s\.%s(?: as (\S+))?$' % (re.escape(module(key, crate)), k),
                lambda x: 'use Rattle·%s·proofs.proofs.Sig.%s_%s as %s' % (crate, k, sig_name(key, crate), x.group(1) or k), s, flags=re.M)
    for key in made:
        if key[0] == crate:
            for k in ('Lts', 'Tie'):
                s = re.sub(r'^use (%s)\.%s\b' % (re.escape(module(key, crate)), k), r'use \1.Proof.%s' % k, s, flags=re.M)
    elem = 'Rattle·%s·proofs.proofs.%s' % (OWNER, STRUCT) if crate == OWNER else 'Rattle·%s.proofs.%s' % (OWNER, STRUCT)
    extra = ''
    for name, mod in (('ELEMMEM', 'denote.Memory'), ('ELEMARR', 'denote.Array'), ('ELEMLAWS', elem + '.Laws'), ('ELEM', elem)):
        if re.search(r'\b%s\.' % name, s):
            q = re.search(r'^use %s(?: as (\S+))?$' % re.escape(mod), s, flags=re.M)
            if q:
                s = re.sub(r'\b%s\.' % name, (q.group(1) or mod.split('.')[-1]) + '.', s)
            else:
                extra += 'use %s as %s\n' % (mod, name)
    first = '-- Made by tools/transplant.py from what the borrow checker makes of the twin of this crate.\n'
    return first + compact(extra + s.split('\n', 1)[1])


def foreign(s, key):
    """A module of a function's own crate, as another crate sees it."""
    return re.sub(r'^use Rattle·%s·proofs\.proofs\.' % key[0], 'use Rattle·%s.proofs.' % key[0], s, flags=re.M)


def generated(key, k):
    return '%s/target/goals/%s/Rattle·%s·proofs/proofs/%s/%s.antt' % (TWIN, key[0], key[0], '/'.join(p for p in key[1:] if p), k)


def made_text(crate, goals):
    """A crate's made text by path; `goals` has the twin's Kinds and Reads of every function with the row, by function."""
    c = crates[crate]
    folder = c.folder + '/proofs'
    cited = [k for k in rows if k[0] == crate or any(k in f.calls() for f in c.functions)]
    cited.sort(key=lambda k: sig_name(k, crate))
    texts = {}
    for key in cited:
        for k in ('Kinds', 'Reads'):
            texts['%s/Sig/%s_%s.antt' % (folder, k, sig_name(key, crate))] = put(goals[key][k] if key[0] == crate else foreign(goals[key][k], key), crate)
    if cited:
        first = '-- Made by tools/transplant.py: signatures with the row of nodes, and the readings of their contracts.\n'
        texts[folder + '/Sig.antt'] = first + ''.join('pub mod %s_%s\n' % (k, sig_name(key, crate)) for key in cited for k in ('Kinds', 'Reads'))
    for key in sorted(k for k in made if k[0] == crate):
        for k in ('Lts', 'Tie'):
            texts['%s/%s/Proof/%s.antt' % (folder, '/'.join(p for p in key[1:] if p), k)] = put(read(generated(key, k)), crate)
    return in_layout(texts)


def in_layout(texts):
    """The same texts as the formatter lays them out, in a folder of their own."""
    shutil.rmtree(MADE, ignore_errors=True)
    for path, text in texts.items():
        write('%s/%s' % (MADE, path), text)
    write(MADE + '/crates.txt', '')
    done = subprocess.run(['rt', 'fmt'], cwd=MADE, capture_output=True, text=True)
    if done.returncode:
        sys.exit('rt fmt, in target/made: ' + done.stdout + done.stderr)
    return {path: read('%s/%s' % (MADE, path)) for path in texts}


def landed(crate):
    """The paths of the made text that a crate has."""
    for folder, _, files in os.walk(crates[crate].folder + '/proofs'):
        for f in files:
            path = '%s/%s' % (folder, f)
            if read(path).startswith('-- Made by tools/transplant.py'):
                yield path


def make(crate, goals):
    """Writes a crate's made text; what it had and no longer needs goes."""
    texts = made_text(crate, goals)
    for path in list(landed(crate)):
        if path not in texts:
            os.remove(path)
    for path, text in texts.items():
        write(path, text)
    size = sum(len(t.encode()) for t in texts.values())
    print('%s: %d functions, %d KB' % (crate, len([k for k in made if k[0] == crate]), size // 1024), flush=True)


def differing(crate, goals):
    """The paths at which a crate's made text is not what is made now, or is missing, or is no longer made."""
    texts, has = made_text(crate, goals), set(landed(crate))
    wrong = sorted(p for p in has | set(texts) if p not in has or p not in texts or read(p) != texts[p])
    print('%s: %s' % (crate, 'as made' if not wrong else 'not as made: ' + ' '.join(wrong)), flush=True)
    return wrong


def main():
    words = [w for w in sys.argv[1:] if w != '--check']
    check, wrong = '--check' in sys.argv[1:], []
    wanted = [n for n in affected if not words or n in words]
    prepare(wanted)
    goals = {}
    for n in [m for m in below(wanted) if m in twinned]:
        c = crates[n]
        stub_goals = n not in wanted
        twin(c, stub_goals)
        folder = '%s/crates/%s' % (TWIN, n)
        if not stub_goals:
            # no time is spent on the needs: each has a file with a hole
            for f in (g for g in c.functions if g.key in made):
                spec = f.name.replace('_', '-')
                mod = 'Rattle·%s·proofs.proofs.%s.Statement' % (n, '.'.join(f.parts))
                write('%s/proofs/%s/Proof.antt' % (folder, '/'.join(f.parts)),
                    'use %s.{statement}\n\npub %s-spec : {M : Type 1} → statement M\n%s-spec 𝓤 H 𝓜 𝓖 𝓡 = ?\n' % (mod, spec, spec))
        rt('goals', n)
        shutil.rmtree(folder + '/proofs', ignore_errors=True)
        for key in rows:
            if key[0] == n:
                goals[key] = {k: read(generated(key, k)) for k in ('Kinds', 'Reads')}
        if not stub_goals and check:
            wrong += differing(n, goals)
        elif not stub_goals:
            make(n, goals)
        if below_another(n, below(wanted)):
            twin(c, True)
            if rt('check', n):
                sys.exit('the twin of %s is not proved: target/twin/target/log/%s.out' % (n, n))
    sys.exit(1 if wrong else 0)


main()
