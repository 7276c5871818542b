#!/usr/bin/env python3
"""Respells the repository's own definitions, fields and lemmas in snake case: decayBits and bits-more become
decay_bits and bits_more. Types and modules stay, and so do the names of functions in src/, strings and comments.
Run once at the top of the repository, after the toolchain's port script.
"""
import collections, pathlib, re

# lemmas that would take the name of a definition
LEMMAS = ['dry-day', 'dry-unit', 'four-calls', 'nine-lines', 'no-third-day', 'over-area', 'stopped-run',
          'table-means', 'wet-day', 'wet-unit', 'whole_run']
DECLARED = re.compile(r'^\s*(?:(?:abbrev|unfoldable|pub|data|record)\s+)*([^\s:(){}]+)\s*(?:[({].*)?:(?!=)\s*(.*)$')
WORD = re.compile(r"[^\s(){}\[\];,.:]+")

def snake(name):
    if name in LEMMAS:
        return name.replace('-', '_') + '_lem'
    word = re.sub(r'(?<=[a-z0-9])([A-Z])', lambda m: '_' + m.group(1).lower(), name)
    return word if word.startswith('length-') else word.replace('-', '_')

def own_names(files):
    names = set()
    for path in files:
        if path.suffix != '.antt':
            continue
        for line in path.read_text().splitlines():
            m = DECLARED.match(line)
            if m and not m.group(1).startswith('--') and not m.group(2).startswith('goal.') and not re.match(r'^\s*let ', line):
                if re.match(r'[a-z]', m.group(1)) and re.search(r'-|[a-z][A-Z]', m.group(1)) or m.group(1) in LEMMAS[:-1]:
                    names.add(m.group(1))
    return names

def respelled(text, names, comment):
    out = []
    for line in text.split('\n'):
        m = re.search(comment, line)
        code, rest = (line[:m.start()], line[m.start():]) if m else (line, '')
        parts = re.split(r'("(?:[^"\\]|\\.)*")', code)
        parts[::2] = [WORD.sub(lambda w: snake(w.group()) if w.group() in names else w.group(), p) for p in parts[::2]]
        out.append(''.join(parts) + rest)
    return '\n'.join(out)

def main():
    files = [p for p in sorted(pathlib.Path('crates').rglob('*')) if p.suffix in ('.antt', '.rt') and 'out' not in p.parts]
    names = own_names(files)
    if 'wholeRun' in names:
        names.add('whole_run')
    together = collections.defaultdict(list)
    for n in names:
        together[snake(n)].append(n)
    for new, old in sorted(together.items()):
        if len(old) > 1:
            print('fall together:', new, old)
    changed = 0
    for path in files:
        text = path.read_text()
        new = respelled(text, names, r'(^|\s)--(\s|$)' if path.suffix == '.antt' else r'//')
        if new != text:
            path.write_text(new)
            changed += 1
    print(f'{len(names)} names, {changed} files')

main()
