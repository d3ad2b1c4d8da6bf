#!/usr/bin/env python3
"""Counts in crates/*/src what docs/DESIGN-PASS.md counts; `-l POINT` lists the places of a point.

tools/places.py            a line for each count
tools/places.py -l 3       the places of point 3
"""
import glob
import re
import sys


def functions(path):
    """(name, line, signature, body) of each function of a file, without comments."""
    lines = [re.sub(r'//.*', '', l) for l in open(path).read().split('\n')]
    at = 0
    while at < len(lines):
        head = re.match(r'( *)(?:pub(?:\(crate\))? )?(?:extern "C" )?fn (\w+)', lines[at])
        if not head:
            at += 1
            continue
        indent, start = head[1], at
        while not re.search(r'\{\s*$', lines[at]) or re.match(r' +(requires|ensures)', lines[at]):
            at += 1
            if at == len(lines) or re.match(indent + r'\}?$', lines[at]) and lines[at].strip() == '}':
                break
        end = at
        while end < len(lines) and lines[end] != indent + '}':
            end += 1
        signature = ' '.join(' '.join(lines[start:at + 1]).split())
        signature = re.split(r' (?:requires|ensures)\*? ', signature)[0]
        yield head[2], start + 1, signature, '\n'.join(lines[at + 1:end])
        at = end + 1


FILES = sorted(glob.glob('crates/*/src/**/*.rt', recursive=True))
FUNCTIONS = [(f,) + g for f in FILES for g in functions(f)]


def grep(pattern):
    return [f'{f}:{i}: {l.strip()}' for f in FILES for i, l in enumerate(open(f).read().split('\n'), 1)
            if re.search(pattern, l) and not l.strip().startswith('//')]


def enums():
    """Own enums of the shape of Option or Result: at most three variants, of which one is empty or a number alone."""
    found = []
    for f in FILES:
        for m in re.finditer(r'enum (\w+)(?:<[^>]*>)? \{\n(.*?)\n\}', open(f).read(), re.S):
            variants = [v for v in re.findall(r'^    (\w+(?:\([^)]*\))?),$', m[2], re.M)]
            if 2 <= len(variants) <= 3 and any('(' in v for v in variants) and any(
                    '(' not in v or v.endswith('(u32)') for v in variants):
                found.append(f'{f}: enum {m[1]}: {", ".join(variants)}')
    return found


def numbers():
    """Functions that answer a refusal or a kind as a number."""
    return [f'{f}:{i}: {n}' for f, n, i, s, b in FUNCTIONS
            if re.search(r'-> u32', s) and re.search(r'refusal|number|kind|digit\b|unless|tell_|^of_', n)]


def flags():
    """A flag with a value beside it: a bool among a struct's fields or a function's parameters beside the value."""
    return grep(r'^ +(pub )?(faces|linked|seen): (bool|u32|\[u32)|\((.*, )?seen: bool')


def whiles(by_index):
    """Loops by `while`: those that count an index by hand, or the others."""
    found = []
    for f, n, i, s, b in FUNCTIONS:
        for m in re.finditer(r'(while .*?) \{\n', b):
            steps = [re.search(r'\b%s (\+|-)= 1;' % w, b) for w in re.findall(r'[a-z_]\w*', m[1])]
            if any(steps) == by_index:
                found.append(f'{f}:{i}: {n}: {m[1]}')
    return found


def twins():
    """Functions whose bodies differ only in types, sizes, constants and names of items."""
    seen = {}
    for f, n, i, s, b in FUNCTIONS:
        flat = re.sub(r'\b(u8|u32|u64|usize|f32|bool)\b', 'T', ' '.join(b.split()))
        flat = re.sub(r'b?"[^"]*"', 'S', flat)
        flat = re.sub(r'\b\d[\w.]*\b', 'N', flat)
        flat = re.sub(r'\b[A-Z]\w+\b', 'C', flat)
        flat = re.sub(r'\b[a-z_]\w*(?=\()', 'f', flat)
        flat = re.sub(r'\.[a-z_]\w*', '.x', flat)
        if len(flat) > 100:
            seen.setdefault((flat, len(re.findall(': ', s))), []).append(f'{f}:{i}: {n}')
    return [' = '.join(v) for v in seen.values() if len(v) > 1]


def travelling():
    """Functions with five or more parameters that stand, so named and typed and in this order, in three functions or more."""
    groups = {}
    for f, n, i, s, b in FUNCTIONS:
        p = re.findall(r'(\w+: (?:&mut |&)?(?:\'\w+ )?[\w\[\]:]+)', s)
        for k in range(len(p) - 4):
            groups.setdefault(tuple(p[k:k + 5]), set()).add((f, i, n))
    hit = set()
    for g in groups.values():
        if len(g) >= 3:
            hit |= g
    return [f'{f}:{i}: {n}' for f, i, n in sorted(hit)]


def many(least):
    """Functions with so many parameters or more, methods without their self."""
    return [f'{f}:{i}: {n}' for f, n, i, s, b in FUNCTIONS
            if len(re.findall(r'\w+: ', s.split('->')[0])) >= least]


def buffers():
    """Structs of arrays with a count beside them."""
    found = []
    for f in FILES:
        for m in re.finditer(r'struct (\w+)[^{;]*\{\n(.*?)\n\}', open(f).read(), re.S):
            if re.search(r'\[\w+; \d+\]', m[2]) and re.search(r'(count|length|prims|surfels|n): (usize|u32)', m[2]):
                found.append(f'{f}: struct {m[1]}')
    return found


COUNTS = [
    (1, 'own enums of the shape of Option or Result', enums),
    (1, 'refusals, kinds and digits answered as numbers', numbers),
    (1, 'flags with a value beside them', flags),
    (2, 'groups of functions alike but for types, sizes, constants and names', twins),
    (3, 'loops that count an index by hand', lambda: whiles(True)),
    (3, 'other loops by while', lambda: whiles(False)),
    (4, 'equality, order, copying, conversion or printing by hand', lambda: grep(
        r'fn (wide|short|vec|lesser|copy|same|equal|of_bits|bits_of|hex|decimal|word|glyph|digit|shape_of)\b')),
    (5, 'functions with five parameters or more that travel together', travelling),
    (5, 'functions with ten parameters or more', lambda: many(10)),
    (6, 'structs of arrays with a count beside them', buffers),
    (7, 'steps chosen by a name, one test each', lambda: grep(r'\bnamed\(|== b"')),
    (8, 'files of answers and of invariants', lambda: glob.glob('crates/*/proofs/**/Answers.antt', recursive=True)
        + glob.glob('crates/*/proofs/**/Invariants.antt', recursive=True)),
    (0, 'places kept, each with its line', lambda: [g for f in FILES for i, l in enumerate(open(f).read().split('\n'), 1)
                                                   if '// Kept: ' in l for g in [f'{f}:{i}: {l.strip()}']]),
]

if len(sys.argv) > 2 and sys.argv[1] == '-l':
    for point, name, find in COUNTS:
        if str(point) == sys.argv[2]:
            print(f'# {name}')
            print('\n'.join(find()))
else:
    for point, name, find in COUNTS:
        print(f'{point}  {len(find()):4}  {name}')
