#!/usr/bin/env python3
"""Counts, in crates/*/src, the places that docs/DESIGN-PASS.md speaks of, by their form alone:

    python3 tools/places.py            the counts
    python3 tools/places.py N          the places of point N, a line each

1  enums of the shape of Option or Result (two or three variants, one of which is empty or a refusal); numbers that stand for
   a kind or for "none"
2  functions whose text is the same but for names and numbers, in groups
3  `while` and `loop`
4  functions whose body is one cast; comparisons of bytes or words written as a loop or as a chain of tests
5  facts that stand in the `requires` of three or more functions; pairs of parameters that three or more functions take
6  a lent buffer with a length or a place beside it, as parameters
7  a match whose arms call four or more functions
8  answers that only name a tactic and a set of laws
"""
import collections, glob, os, re, sys

def sources():
    for p in sorted(glob.glob('crates/*/src/**/*.rt', recursive=True)):
        yield p, re.sub(r'//[^\n]*', '', open(p).read())

def functions():
    # path, name, parameters, requires clauses, body
    head = re.compile(r'^(?: {4})?(?:pub(?:\([a-z]+\))? )?(?:extern "C" )?fn (\w+)(<[^\n(]*>)?\(', re.M)
    for p, s in sources():
        for m in head.finditer(s):
            i, depth = m.end(), 1
            while depth:
                depth += {'(': 1, ')': -1}.get(s[i], 0)
                i += 1
            params = s[m.end():i - 1]
            rest = s[i:]
            indent = '    ' if m.group(0).startswith('    ') else ''
            b = re.search(r'^' + indent + r'\{$|\{$', rest, re.M)
            e = re.search(r'^' + indent + r'\}', rest, re.M)
            if not b or not e or e.start() < b.start():
                continue
            clauses, body = rest[:b.start()], rest[b.end():e.start()]
            req = re.findall(r'requires(?: \w+)? \{(.*?)\}(?=\s*(?:requires|ensures|$))', clauses, re.S)
            yield p, m.group(1), params, req, body

def split_params(params):
    out, depth, cur = [], 0, ''
    for ch in params:
        depth += {'(': 1, '<': 1, '[': 1, ')': -1, '>': -1, ']': -1}.get(ch, 0)
        if ch == ',' and depth == 0:
            out.append(cur); cur = ''
        else:
            cur += ch
    out.append(cur)
    return [re.sub(r"'\w+ ", '', re.sub(r'\s+', ' ', x)).strip() for x in out if x.strip()]

def conjuncts(req):
    out, depth, cur = [], 0, ''
    for ch in req:
        depth += {'(': 1, ')': -1}.get(ch, 0)
        if ch == '×' and depth == 0:
            out.append(cur); cur = ''
        else:
            cur += ch
    out.append(cur)
    res = []
    for c in out:
        c = re.sub(r'\s+', ' ', c).strip()
        while c.startswith('(') and c.endswith(')') and c.count('(') == c.count(')') and c.index(')') == len(c) - 1:
            c = c[1:-1].strip()
        res.append(c.replace('.old', '.now').strip('() '))
    return [c for c in res if c]

def point1():
    for p, s in sources():
        for m in re.finditer(r'^(?:pub )?enum (\w+)(?:<[^>]*>)? \{\n(.*?)^\}', s, re.M | re.S):
            vs = re.findall(r'^    (\w+)( ?\(([^)]*)\)| \{(.*?)\n    \}| \{[^}]*\})?,', m.group(2), re.M | re.S)
            empty = [v for v in vs if not v[1]]
            refuses = [v for v in vs if 'Refusal' in v[1]]
            full = [v for v in vs if v[1]]
            if (len(vs) == 2 and full and (empty or refuses)) or (refuses and len(vs) > 2) or (len(vs) == 3 and len(empty) >= 1 and full and any(v[0] in ('Nothing', 'Unknown') for v in vs)) or (len(vs) == 2 and len(full) == 2) or (len(vs) == 3 and {v[0] for v in vs} == {'Less', 'Same', 'Greater'}):
                yield f'{p}: enum {m.group(1)}'
        raw = open(p).read()
        for m in re.finditer(r'^\s*(?:pub )?(code|keys|owed|given|known|composite|enumer|message|group): (?:usize|u32|bool),', s, re.M):
            yield f'{p}: field {m.group(1)} is a number or a flag'
        for m in re.finditer(r'^(?:pub )?const (TYPE|MEMBER|REF|COMPOSITE|ENUM|VALUE|MESSAGE|GROUP|FIELD|UNTOLD): u32', s, re.M):
            yield f'{p}: number {m.group(1)}'

def shape(params, body):
    t = re.findall(r"b?'(?:\\.|[^'\\])'|b?\"(?:\\.|[^\"\\])*\"|\w+|[^\s\w]", re.sub(r',(\s*[)\]}])', r'\1', params + ' | ' + body))
    keys = {'let', 'mut', 'if', 'else', 'while', 'loop', 'for', 'in', 'match', 'return', 'true', 'false', 'as', 'break'}
    return ' '.join(x if x in keys or not re.match(r"\w|b?['\"]", x) else 'x' for x in t)

def point2():
    groups = collections.defaultdict(list)
    for p, n, params, req, body in functions():
        sh = shape(params, body)
        if len(sh.split()) >= 30:
            groups[sh].append(f'{p}: {n}')
    for g in groups.values():
        if len(g) > 1:
            yield from (x + f'   ({len(g)} alike)' for x in g)

def point3():
    for p, s in sources():
        for i, l in enumerate(s.split('\n'), 1):
            if re.match(r'\s+(while |loop \{)', l):
                yield f'{p}:{i}:{l.strip()}'

def point4():
    for p, n, params, req, body in functions():
        if re.fullmatch(r'\s*\w+ as u\w+\s*', body):
            yield f'{p}: {n} is one cast'
        elif re.search(r'\b(equal|compared|compared_from|less|starts_with)$', n) and 'while' in body:
            yield f'{p}: {n} compares by hand'
        elif body.count('if equal(') >= 2 or body.count('if texts::equal(') >= 2:
            yield f'{p}: {n} is a chain of comparisons'
        elif re.search(r'match r \{', body):
            yield f'{p}: {n} tells a refusal\'s figures'

def point5():
    facts, pairs = collections.defaultdict(set), collections.defaultdict(set)
    for p, n, params, req, body in functions():
        for r in req:
            for c in conjuncts(r):
                facts[c].add(f'{p}: {n}')
        ps = [x for x in split_params(params) if ':' in x]
        for i in range(len(ps)):
            for j in range(i + 1, len(ps)):
                pairs[(ps[i], ps[j])].add(f'{p}: {n}')
    for c, fs in sorted(facts.items(), key=lambda x: -len(x[1])):
        if len(fs) >= 3 and len(c) > 12:
            yield f'fact in {len(fs)}: {c}'
    for c, fs in sorted(pairs.items(), key=lambda x: -len(x[1])):
        if len(fs) >= 3:
            yield f'parameters in {len(fs)}: {c[0]}, {c[1]}'

def point6():
    for p, n, params, req, body in functions():
        ps = split_params(params)
        for a, b in zip(ps, ps[1:]):
            if re.search(r'\[u(8|16|32)\]$', a) and re.match(r'(at|n|from|to): usize$', b):
                yield f'{p}: {n}({a}, {b})'

def point7():
    for p, n, params, req, body in functions():
        for m in re.finditer(r'match \w+ \{(.*)', body, re.S):
            calls = re.findall(r'=> \{?\s*([a-z_:]+)\(', m.group(1))
            if len(set(calls)) >= 4:
                yield f'{p}: {n} picks among {len(set(calls))} functions'
                break

def point8():
    for p in sorted(glob.glob('crates/*/proofs/**/Answers.antt', recursive=True)):
        for m in re.finditer(r'^(\S+)(?: \w+)* = search \w+$', open(p).read(), re.M):
            yield f'{p}: {m.group(1)}'

points = [point1, point2, point3, point4, point5, point6, point7, point8]
if len(sys.argv) > 1:
    for l in points[int(sys.argv[1]) - 1]():
        print(l)
else:
    for i, f in enumerate(points, 1):
        print(i, sum(1 for _ in f()))
