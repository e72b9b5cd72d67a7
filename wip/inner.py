#!/usr/bin/env python3
"""Moves the definitions that only inner contracts cite (docs/READING.md names them) to crates/C/specs/Inner/X.antt, and renames every mention.

wip/inner.py TOP [CRATE..]. Left: to run it while no other change of crates/ is open, to have .ci/reading take what stands in specs/Inner for inner in
place of the paragraph in READING, and to check all crates. A folder below specs/ needs the file specs/Inner.antt with its `pub mod` lines: tried on
`kinds`, which is proved so.
"""
import re, subprocess, sys, pathlib
top = pathlib.Path(sys.argv[1])
only = sys.argv[2:]
reading = (top / 'docs/READING.md').read_text()
m = re.search(r'Definitions that only inner contracts cite need no belief.*?: (.*)\.\n', reading)
items = re.findall(r'`([a-z_]+)/specs(?:/([A-Za-z]+))?`', m.group(1))
todo = []
for crate, name in items:
    files = [name] if name else [p.stem for p in (top / 'crates' / crate / 'specs').glob('*.antt') if p.stem != 'Lib']
    for f in files:
        if not only or crate in only:
            todo.append((crate, f))
print(todo)
sub = {}
for crate, f in todo:
    d = top / 'crates' / crate / 'specs'
    (d / 'Inner').mkdir(exist_ok=True)
    subprocess.check_call(['git', '-C', str(top), 'mv', str(d / f'{f}.antt'), str(d / 'Inner' / f'{f}.antt')])
    sub[(crate, f)] = True
crates = {}
for crate, f in todo:
    crates.setdefault(crate, []).append(f)
for crate, fs in crates.items():
    lib = top / 'crates' / crate / 'specs/Lib.antt'
    lines = lib.read_text().splitlines()
    inner = [l for l in lines if any(re.fullmatch(r'(pub )?mod ' + f, l) for f in fs)]
    outer = [l for l in lines if l not in inner]
    # keep order: Inner after the others that it may use; antt orders by use
    lib.write_text('\n'.join(outer + ['pub mod Inner']) + '\n')
    (top / 'crates' / crate / 'specs/Inner.antt').write_text('\n'.join(inner) + '\n')
pats = []
for crate, f in todo:
    pats.append((re.compile(r'(Rattle·' + crate + r'(?:·specs\.specs|\.specs|·proofs\.specs)\.)' + f + r'\b'), r'\1Inner.' + f))
    pats.append((re.compile(r'\b' + crate + r'/specs/' + f + r'\b'), crate + '/specs/Inner/' + f))
for p in list((top / 'crates').rglob('*')) + list((top / 'docs').glob('*.md')) + list((top / '.ci').rglob('*')) + list((top/'oracle').rglob('*.md')):
    if not p.is_file() or '/target/' in str(p):
        continue
    try:
        t = p.read_text()
    except UnicodeDecodeError:
        continue
    n = t
    for a, b in pats:
        n = a.sub(b, n)
    if p.suffix == '.edit':
        crate = p.relative_to(top / 'crates').parts[0] if str(p).startswith(str(top / 'crates')) else None
        for f in crates.get(crate, []):
            n = n.replace(f'file: specs/{f}.antt', f'file: specs/Inner/{f}.antt')
    if n != t:
        p.write_text(n)
