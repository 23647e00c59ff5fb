#!/usr/bin/env python3
"""Counts the places of docs/DESIGN-PASS.md in crates/*/src.

    python3 tools/design_count.py              of the files as they stand
    python3 tools/design_count.py COMMIT       of a commit
    python3 tools/design_count.py --list ..    every place by file and line

It reads text, and knows no types: what it finds is a candidate, and what docs/DESIGN-PASS.md says of one is by a reader."""
import collections, os, re, subprocess, sys

ROOT = os.path.dirname(os.path.dirname(os.path.abspath(__file__)))
TABLES = re.compile(r'(crc_sliced/src/(ieee|castagnoli)|crc_short/src/tables|md5_hash/src/tables)\.rt$')


def files(commit):
    def git(*a):
        return subprocess.run(['git', '-C', ROOT, *a], capture_output=True, text=True, check=True).stdout
    if commit:
        names = git('ls-tree', '-r', '--name-only', commit, 'crates').split('\n')
        names = [n for n in names if re.match(r'crates/\w+/src/.*\.rt$', n) and not TABLES.search(n)]
        return {n: git('show', f'{commit}:{n}') for n in names}
    out = {}
    for folder, _, names in os.walk(os.path.join(ROOT, 'crates')):
        for n in names:
            p = os.path.relpath(os.path.join(folder, n), ROOT)
            if re.match(r'crates/\w+/src/.*\.rt$', p) and not TABLES.search(p):
                out[p] = open(os.path.join(ROOT, p)).read()
    return out


def code(text):
    """The text without comments and ghost lines, lines kept."""
    return '\n'.join('' if re.match(r'\s*(//|ghost )', l) else re.sub(r'//.*', '', l) for l in text.split('\n'))


def closing(s, i):
    depth = 0
    for k in range(i, len(s)):
        depth += {'{': 1, '}': -1}.get(s[k], 0)
        if depth == 0:
            return k
    return len(s)


class Function:
    def __init__(self, path, text, m):
        self.path, self.name = path, m[1]
        self.line = text.count('\n', 0, m.start()) + 1
        depth, i = 0, m.end() - 1
        while i < len(text):
            depth += {'(': 1, ')': -1}.get(text[i], 0)
            if depth == 0:
                break
            i += 1
        self.params = text[m.end():i]
        rest = text[i + 1:]
        body = re.search(r'\n\s*\{|\{(?=\s*\n)|\{\}', re.sub(r'(requires|ensures)[^{\n]*\{.*?\}(?=\s*\n)', lambda x: ' ' * len(x[0]), rest, flags=re.S))
        self.head = rest[:body.start()] if body else rest[:200]
        start = i + 1 + body.start() + body[0].index('{') if body else i + 1
        self.body = text[start + 1:closing(text, start)]
        self.result = (re.match(r'\s*->\s*([^\n{]+)', self.head) or [None, ''])[1].strip()
        self.clauses = re.findall(r'(?:requires|ensures)(?:\s+\w+)?\s*\{(.*?)\}(?=\s*\n)', self.head + '\n', flags=re.S)
        self.place = f'{path}:{self.line} fn {self.name}'


def functions(sources):
    out = []
    for p, text in sources.items():
        c = code(text)
        out += [Function(p, c, m) for m in re.finditer(r'\bfn (\w+)(?:<[^(]*>)?\(', c)]
    return out


def normal(f):
    s = re.sub(r'\b[iu](8|16|32|64|size)\b', 'T', f.params + '|' + f.result + '|' + f.body)
    s = re.sub(r'\b0x[0-9a-f_]+\b|\b\d[\d_]*\b', 'N', s)
    s = re.sub(r'\b%s\b' % f.name, 'F', s)
    s = re.sub(r'\b[A-Z][A-Z0-9_]+\b', 'C', s)
    s = re.sub(r'\b([a-z_]+?)_?(\d+c?|in|out|front|back|number|encipher|decipher)\b', r'\1', s)
    return re.sub(r'\s+', '', s)


def params(f):
    return [re.sub(r'\s+', ' ', p.strip()) for p in re.split(r',(?![^\[<(]*[\]>)])', f.params) if ':' in p]


def point1(src, fns):
    for p, t in src.items():
        for m in re.finditer(r'enum (\w+) \{(.*?)\n\}', code(t), re.S):
            if re.search(r'^\s*(Refused\(u8\)|Absent|Far),', m[2], re.M):
                yield f'{p}:{code(t).count(chr(10), 0, m.start()) + 1} enum {m[1]}: of the shape of Option or Result'
        for m in re.finditer(r'^pub const \w+: u8 = \d+;', code(t), re.M):
            if p.startswith('crates/refusal/'):
                yield f'{p}:{t.count(chr(10), 0, m.start()) + 1} {m[0]}: a number for a refusal'
        for i, l in enumerate(t.split('\n')):
            if re.match(r'\s*//.*\b(64|0) where (there|it|neither|none)', l) or re.match(r"\s*// .*refusal's number, or 0", l):
                yield f'{p}:{i + 1} a number that stands for none'
    for f in fns:
        if re.search(r'\b(refusal|no): u8', f.params):
            yield f.place + ': takes a refusal as a number'
        if f.result == 'u8' and 'refusal' in f.name:
            yield f.place + ': answers a refusal as a number'
        if len(re.findall(r'if (?:kind|value|tag) == \w+', f.body)) > 2:
            yield f.place + ': a chain of ifs over numbers for kinds'
    for p, t in src.items():
        for m in re.finditer(r'pub (\w+): bool,\s*(?:\n\s*//[^\n]*)*\n', t):
            w = m[1].removeprefix('has').rstrip('s')
            if re.search(r'pub %s\w*: [iu]\d+,' % re.escape(w), t):
                yield f'{p}:{t.count(chr(10), 0, m.start()) + 1} {m[1]}: a flag with a value beside it'


def point2(src, fns):
    groups = collections.defaultdict(list)
    for f in fns:
        if f.body.strip() and f.name not in ('main', 'fmt'):
            groups[normal(f)].append(f)
    for g in groups.values():
        if len(g) > 1:
            for f in g:
                yield f.place + ': a twin of ' + ', '.join(x.path.split('/')[1] + '::' + x.name for x in g if x is not f)


def point3(src, fns):
    for p, t in src.items():
        c = code(t)
        for m in re.finditer(r'^\s*(while\b[^\n]*|loop \{)', c, re.M):
            b = c[m.start():closing(c, c.index('{', m.start()))]
            kind = 'counts by hand' if re.search(r'\b\w+ [+-]= \w+;', b) else 'another loop'
            yield f'{p}:{c.count(chr(10), 0, m.start(1)) + 1} {m[1].strip()}: {kind}'


def point4(src, fns):
    for f in fns:
        b = re.sub(r'\s+', ' ', f.body.strip())
        if re.fullmatch(r'\w+ as \w+', b):
            yield f.place + ': a conversion'
        elif re.fullmatch(r'\w+(\.0)? == \w+(\.0)?', b):
            yield f.place + ': an equality'
        elif re.fullmatch(r'match \w+ \{( ?[\w:]+(\([^)]*\))?( \{[^}]*\})? => (true|false|\d+),?)+ \}', b):
            yield f.place + ': a question or a number by hand over an enum'
        elif re.search(r'\bprint_?\w*$|^put_(decimal|signed|byte)$', f.name):
            yield f.place + ': printing'


def point5(src, fns):
    groups = collections.defaultdict(set)
    for f in fns:
        ps = [re.sub(r'&mut ', '&', p) for p in params(f)]
        for i in range(len(ps)):
            for j in range(i + 3, len(ps) + 1):
                groups[tuple(ps[i:j])].add(f.place)
    big = {g: s for g, s in groups.items() if len(s) > 2}
    for g, s in sorted(big.items()):
        if not any(set(g) < set(h) and s <= big[h] for h in big):
            yield '(' + ', '.join(g) + ') together in ' + str(len(s)) + ' functions: ' + ', '.join(sorted(x.split()[-1] for x in s))
    clauses = collections.defaultdict(list)
    for f in fns:
        for c in f.clauses:
            if 'result' not in c and '.new' not in c:
                clauses[f.path.split('/')[1], re.sub(r'\s+', ' ', c).strip()].append(f.name)
    for (crate, c), names in sorted(clauses.items()):
        if len(names) > 2:
            yield f'{crate}: {{ {c} }} is required of {len(names)} functions: ' + ', '.join(names)


def point6(src, fns):
    for f in fns:
        ps = params(f)
        for a, b in zip(ps, ps[1:]):
            if re.search(r': &(mut )?\[', a) and re.match(r'(n|len|count|size|have|end): usize', b):
                yield f.place + f': ({a}, {b}), a buffer with a length beside it'
    for p, t in src.items():
        for m in re.finditer(r'pub at: usize,\s*(?:\n\s*//[^\n]*)*\s*pub len: usize|\bat: usize, len: usize|at: usize,\n\s*len: usize', code(t)):
            yield f'{p}:{code(t).count(chr(10), 0, m.start()) + 1} a place and a length'
        if p == 'crates/inflight/src/lib.rt':
            yield p + ' parallel arrays: masks, numbers, places, order, times'


def point7(src, fns):
    for f in fns:
        b = f.body.strip()
        m = re.fullmatch(r'(?:let [^;]*;\s*)*match [\w\[\]]+ \{(.*)\}', b, re.S)
        callees = re.findall(r'=> (?:\{\s*)?([\w:]+)\(', m[1]) if m else []
        called = [c for c in callees if re.search(r'(^|::)[a-z]\w*$', c)]
        if len(called) > 2 and len(called) == len(re.findall(r'=>', m[1])):
            yield f.place + ': a switch that only calls'
        if re.search(r': fn\(|\bstep: (u8|u32|usize)', f.params):
            yield f.place + ': a function or a step as a number'


def proofs(commit):
    """Answers to goals, their files, and the lines of proofs/."""
    def git(*a):
        return subprocess.run(['git', '-C', ROOT, *a], capture_output=True, text=True, check=True).stdout
    if commit:
        names = [n for n in git('ls-tree', '-r', '--name-only', commit, 'crates').split('\n') if re.search(r'/proofs/.*\.antt$', n)]
        texts = {n: git('show', f'{commit}:{n}') for n in names}
    else:
        names = [os.path.relpath(os.path.join(d, n), ROOT) for d, _, ns in os.walk(os.path.join(ROOT, 'crates')) for n in ns]
        texts = {n: open(os.path.join(ROOT, n)).read() for n in names if re.match(r'crates/\w+/proofs/.*\.antt$', n)}
    answers = [n for n in texts if n.endswith('/Answers.antt')]
    count = sum(len(re.findall(r'^pub \S+ : goal\.', texts[n], re.M)) for n in answers)
    return f'point 8: {count} answers in {len(answers)} files; {sum(t.count(chr(10)) for t in texts.values())} lines of proofs'


def main():
    args = [a for a in sys.argv[1:] if a != '--list']
    src = files(args[0] if args else None)
    fns = functions(src)
    for n, point in enumerate((point1, point2, point3, point4, point5, point6, point7), 1):
        found = list(point(src, fns))
        print(f'point {n}: {len(found)}')
        if '--list' in sys.argv:
            print(''.join('    ' + x + '\n' for x in found), end='')
    print(proofs(args[0] if args else None))


main()
