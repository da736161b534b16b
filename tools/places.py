#!/usr/bin/env python3
"""Counts the places in crates/*/src that docs/DESIGN-PASS.md speaks of: tools/places.py [POINT] [-v]. With -v it prints each place.

1  enums of the shape of Option or Result, a flag or number that says whether the value beside it counts, numbers for refusals and kinds
2  functions and types whose text is another's with other numbers, widths and names of types
3  loops over an index or a count that is moved by hand
4  comparisons, conversions and printing that are written out
5  parameters that travel together through three functions or more
6  a length or a place beside a buffer, sentinels for "nowhere", tables searched by hand
7  enums and numbers that say which step or reader to run
8  proof files and answers
"""
import collections, glob, re, sys

files = {f: open(f).read() for f in sorted(glob.glob('crates/*/src/**/*.rt', recursive=True))}
code = {f: re.sub(r'//[^\n]*', '', s) for f, s in files.items()}


def each(pattern, texts=None):
    for f, s in (texts or code).items():
        for m in re.finditer(pattern, s, re.M):
            yield f'{f}:{s.count(chr(10), 0, m.start()) + 1}: {m.group(0).strip().splitlines()[0][:110]}'


def items(kind):
    for f, s in code.items():
        for m in re.finditer(rf'^(?:pub(?:\([a-z]+\))? )?{kind} (\w+)[^{{;\n]*\{{(.*?)\n\}}', s, re.M | re.S):
            yield f, m.group(1), m.group(2)


def variants(body):
    depth, parts, now = 0, [], ''
    for c in body:
        depth += c in '({' and 1 or c in ')}' and -1 or 0
        if c == ',' and depth == 0:
            parts.append(now.strip())
            now = ''
        else:
            now += c
    return [p for p in parts + [now.strip()] if p]


def one_of_two(parts):
    held = [p for p in parts if '(' in p or '{' in p]
    return len(parts) == 2 and len(held) == 1


def functions():
    pattern = r'^ *(?:pub(?:\([a-z]+\))? )?(?:extern "C" )?fn (\w+)[^(\n]*\((.*?)\)(?: -> ([^\n{]+))?\n(.*?)^ *\}\n'
    for f, s in code.items():
        for m in re.finditer(pattern, s, re.M | re.S):
            yield f, m.group(1), m.group(2), m.group(3) or '', m.group(0)


def point1():
    for f, name, body in items('enum'):
        parts = variants(body)
        if one_of_two(parts) or any(re.fullmatch(r'\w+\(\w*(::)?\w*Refusal\)', p) for p in parts) and len(parts) > 1:
            yield f'{f}: enum {name}'
    yield from each(r'^ *(pub )?(has_\w+|given|sent|refused|whole|long|go|pending|in_wait|stalled|well): bool')
    yield from each(r'^ *(pub )?refusal: u(8|32|64)\b')
    yield from each(r'fn (number|kind|kind_by_number|\w+_number|\w+_kind|\w+_word)\(')


def point2():
    shapes = collections.defaultdict(list)
    for f, name, _, _, text in functions():
        body = re.sub(r'^ *(requires|ensures).*$', '', text, flags=re.M)
        body = re.sub(r'\b[ui](8|16|32|64|size)\b|\b\d+\b|\b[A-Z]\w*\b', '_', body)
        body = re.sub(r'\b\w*(8|16|32|64)\w*\b|"[^"]*"|b\'.\'', '_', body).replace(name, '_')
        if body.count('\n') > 5:
            shapes[re.sub(r'\s+', ' ', body)].append(f'{f}: fn {name}')
    for group in shapes.values():
        if len(group) > 1:
            yield from group
    bodies = collections.defaultdict(list)
    for kind in ('struct', 'enum'):
        for f, name, body in items(kind):
            bodies[re.sub(r'\b[ui](8|16|32|64|size)\b', '_', re.sub(r'\s+', ' ', body))].append(f'{f}: {kind} {name}')
    for group in bodies.values():
        if len(group) > 1:
            yield from group


def point3():
    yield from each(r'^ *while [^\n]*\{')


def point4():
    yield from each(r'fn (is_below|is_before|is_zero|is_none|is_kind|eq|same|equal\w*|matches|\w*smaller|\w*larger|least|most)\(')
    yield from each(r'fn (from_(u64|nanos)|as_(u64|nanos)|byte_at|wide)\(')
    yield from each(r'fn (display|place|place_\w+|put_\w+|write_line|digit\w*)\(')


def point5():
    groups = collections.Counter()
    where = collections.defaultdict(list)
    for f, name, params, _, _ in functions():
        names = [re.sub(r'\s+', ' ', p.strip()) for p in re.split(r',(?![^<(\[]*[>)\]])', params) if ':' in p]
        names = [re.sub(r'&mut |&', '', n) for n in names if not n.startswith('self')]
        for a, b in zip(names, names[1:]):
            groups[a, b] += 1
            where[a, b].append(f'{f}: fn {name}')
    for key, n in groups.items():
        if n > 2:
            yield f'{key[0]}, {key[1]}: {n} functions, first {where[key][0]}'


def point6():
    yield from each(r'^ *(pub )?\w+_len: usize')
    yield from each(r'\bNOWHERE\b')
    yield from each(r'\[u(8|32|64); \d+\]')


def point7():
    for f, name, body in items('enum'):
        parts = variants(body)
        if name in ('Item', 'Which', 'Shown', 'Step') and all('(' not in p and '{' not in p for p in parts):
            yield f'{f}: enum {name}'
    yield from each(r'fn \w+\([^)]*\b(which|kind|mode|item): (u8|u32|u64|usize|Item)')


def point8():
    for f in sorted(glob.glob('crates/*/proofs/**/*.antt', recursive=True)):
        s = open(f).read()
        for m in re.finditer(r'^pub (\S+) : goal\.', s, re.M):
            yield f'{f}: {m.group(1)}'


points = [point1, point2, point3, point4, point5, point6, point7, point8]
wanted = [a for a in sys.argv[1:] if a.isdigit()]
for i, point in enumerate(points, 1):
    if not wanted or str(i) in wanted:
        found = list(point())
        print(f'{i}: {len(found)}')
        if '-v' in sys.argv:
            print(*('   ' + p for p in found), sep='\n')
