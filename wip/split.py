#!/usr/bin/env python3
"""Parts the lemmas of lines/specs/Lists, complexifier/specs/Does and rerun/specs/Ends from their definitions, into proofs/Joining, Doing and Ending,
and renames every `use`. wip/split.py TOP. Left: to run it while no other change of crates/ is open, and to check `lines` and all above it.
"""
import re, sys, pathlib, subprocess
top = pathlib.Path(sys.argv[1])
PLAN = [
    ('lines', 'Lists', {'pushAll', 'Lists'}, 'Joining', '-- Records listed after others.'),
    ('complexifier', 'Does', {'state', 'recorded', 'Does'}, 'Doing', '-- How what methods do joins, and what makes it.'),
    ('rerun', 'Ends', {'Ends', 'asOutput', 'tabled'}, 'Ending', '-- How what methods with constants do joins, and what makes it.'),
]

def blocks(text):
    """Top-level blocks with their comments: a block begins at column 0 after a blank line."""
    lines = text.splitlines()
    out, cur = [], []
    for k, line in enumerate(lines):
        if cur and not cur[-1].strip() and line and not line[0].isspace():
            out.append(cur); cur = []
        cur.append(line)
    out.append(cur)
    return ['\n'.join(b).rstrip() for b in out]

def prune(use, body):
    m = re.match(r'(use \S+?)\.\{(.*)\}$', use)
    if not m:
        return use
    keep = []
    for n in [x.strip() for x in m[2].split(',')]:
        word = n.split(' as ')[-1]
        core = word.strip('_')
        if re.search(r'(?<![\w·.\-])' + re.escape(core) + r'(?![\w\-])', body) if re.match(r'\w', core) else core in body:
            keep.append(n)
    return f"{m[1]}.{{{', '.join(keep)}}}" if keep else None

moved = {}
for crate, name, defs, lawname, head in PLAN:
    path = top / 'crates' / crate / 'specs' / f'{name}.antt'
    bs = blocks(path.read_text())
    header = bs[0].splitlines()
    comment = [l for l in header if l.startswith('--')]
    uses = [l for l in header if l.startswith('use ')]
    D, L = [], []
    lemma_names = set()
    for b in bs[1:]:
        body = [l for l in b.splitlines() if not l.startswith('--')]
        decl = [l for l in body if re.match(r'(abbrev |unfoldable )?pub ', l)]
        names = []
        for l in body:
            m = re.match(r'\s*(?:abbrev |unfoldable )?pub (?:record |data )?(\S+)', l)
            if m and not (l.startswith('  ') and b.splitlines()[len(comment)-len(comment)].startswith('pub record')):
                names.append(m[1])
        top_names = [re.match(r'(?:abbrev |unfoldable )?pub (?:record |data )?(\S+)', l)[1] for l in body if re.match(r'(?:abbrev |unfoldable )?pub ', l)]
        if any(n in defs for n in top_names):
            D.append(b)
        else:
            L.append(b)
            for l in body:
                m = re.match(r'\s*(?:abbrev |unfoldable )?pub (?:record |data )?(\S+)', l)
                if m: lemma_names.add(m[1])
    own_spec = f'Rattle·{crate}·specs.specs.{name}'
    dbody = '\n\n'.join(D); lbody = '\n\n'.join(L)
    duses = [u for u in (prune(u, dbody) for u in uses) if u]
    # within proofs: own specs are Rattle·crate·specs.specs.X too
    luses = [u for u in (prune(u, lbody) for u in uses) if u]
    dn = sorted(n for n in defs if re.search(r'(?<![\w\-])' + n + r'(?![\w\-])', lbody))
    luses.append(f"use {own_spec}.{{{', '.join(dn)}}}")
    path.write_text('\n'.join(comment + duses) + '\n\n' + dbody + '\n')
    law = top / 'crates' / crate / 'proofs' / f'{lawname}.antt'
    law.write_text('\n'.join([head] + luses) + '\n\n' + lbody + '\n')
    lib = top / 'crates' / crate / 'proofs/Lib.antt'
    old = lib.read_text() if lib.exists() else ''
    lib.write_text(f'pub mod {lawname}\n' + old)
    moved[(crate, name)] = (lemma_names, lawname)
    print(crate, name, sorted(lemma_names))

for p in (top / 'crates').rglob('*.antt'):
    if '/target/' in str(p):
        continue
    t = p.read_text(); out = []
    for line in t.splitlines():
        m = re.match(r'use Rattle·(\w+)(·specs\.specs|\.specs)\.(\w+)\.\{(.*)\}$', line)
        if m and (m[1], m[3]) in moved and p.name != f'{moved[(m[1], m[3])][1]}.antt':
            lem, lawname = moved[(m[1], m[3])]
            names = [x.strip() for x in m[4].split(',')]
            a = [n for n in names if n not in lem]; b = [n for n in names if n in lem]
            if a: out.append(f"use Rattle·{m[1]}{m[2]}.{m[3]}.{{{', '.join(a)}}}")
            if b:
                own = m[2] == '·specs.specs'
                out.append(f"use Rattle·{m[1]}{'·proofs.proofs' if own else '.proofs'}.{lawname}.{{{', '.join(b)}}}")
        else:
            out.append(line)
    n = '\n'.join(out) + ('\n' if t.endswith('\n') else '')
    if n != t: p.write_text(n)
# the law files name lemmas of lower crates' law files
for crate, name, defs, lawname, head in PLAN:
    law = top / 'crates' / crate / 'proofs' / f'{lawname}.antt'
    t = law.read_text(); out = []
    for line in t.splitlines():
        m = re.match(r'use Rattle·(\w+)\.specs\.(\w+)\.\{(.*)\}$', line)
        if m and (m[1], m[2]) in moved:
            lem, lw = moved[(m[1], m[2])]
            names = [x.strip() for x in m[3].split(',')]
            a = [n for n in names if n not in lem]; b = [n for n in names if n in lem]
            if a: out.append(f"use Rattle·{m[1]}.specs.{m[2]}.{{{', '.join(a)}}}")
            if b: out.append(f"use Rattle·{m[1]}.proofs.{lw}.{{{', '.join(b)}}}")
        else: out.append(line)
    law.write_text('\n'.join(out) + '\n')
