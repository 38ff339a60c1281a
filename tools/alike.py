#!/usr/bin/env python3
"""Pairs of functions in crates/*/src whose bodies are alike: their words, with names and literals taken out, are the same to nine tenths or more.
Usage: tools/alike.py [COMMIT]; without a commit, of the files as they stand."""
import difflib, glob, re, subprocess, sys

def sources():
    if len(sys.argv) > 1:
        names = subprocess.run(['git', 'ls-tree', '-r', '--name-only', sys.argv[1], 'crates'], capture_output=True, text=True, check=True).stdout.split()
        for name in names:
            if '/src/' in name and name.endswith('.rt'):
                yield name, subprocess.run(['git', 'show', f'{sys.argv[1]}:{name}'], capture_output=True, text=True, check=True).stdout
    else:
        for name in sorted(glob.glob('crates/*/src/**/*.rt', recursive=True)):
            yield name, open(name).read()

def bodies(text):
    lines = text.split('\n')
    for i, line in enumerate(lines):
        m = re.match(r'(\s*)(pub )?(extern "C" )?fn (\w+)', line)
        if not m:
            continue
        indent, j = m[1], i
        while j < len(lines) and lines[j] != indent + '{' and not (lines[j].rstrip().endswith('{') and not re.match(r'\s*(requires|ensures)', lines[j])):
            j += 1
        k = j
        while k < len(lines) and lines[k] != indent + '}':
            k += 1
        yield m[4], '\n'.join(lines[j:k])

KEEP = set('if else match let mut return for in while loop break continue Some None Ok Err true false self as'.split())

def words(body):
    out = []
    for w in re.findall(r'[A-Za-z_]\w*|b?"[^"]*"|b?\'[^\']*\'|\d\w*|[^\s\w]', body):
        out.append(w if w in KEEP or not re.match(r'[A-Za-z_\d"\']', w) else 'x')
    return out

functions = [(name, f, words(body)) for name, text in sources() for f, body in bodies(text)]
functions = [f for f in functions if len(f[2]) >= 25]
pairs = 0
for i, (a, f, u) in enumerate(functions):
    for b, g, v in functions[i + 1:]:
        if min(len(u), len(v)) * 10 >= max(len(u), len(v)) * 8:
            m = difflib.SequenceMatcher(None, u, v, False)
            if m.real_quick_ratio() >= .9 and m.quick_ratio() >= .9 and m.ratio() >= .9:
                pairs += 1
                print(f'{a} {f}\t{b} {g}')
print(pairs, 'pairs')
