#!/usr/bin/env python3
# tools/changed.py OLD NEW CONTRACTS.json: the end of docs/DESIGN-PASS.md. OLD and NEW are folders, CONTRACTS.json is what `contracts.py OLD NEW --json` of the kit
# lists; public functions and definitions alone, the public functions that became another, and the theorems in proofs/ that README or docs/ name.
import glob
import json
import re
import sys

old, new, listed = sys.argv[1:4]
d = json.load(open(listed))

# crate: old name, new name; a type's method as Type::name
BECAME = [
    ('distances', 'kept_distance', 'Kept::slot_distance'), ('slots', 'target_at', 'Rows::target_at'), ('slots', 'live_at', 'Rows::live_at'),
    ('slots', 'holds', 'Rows::holds'), ('slots', 'touch_row', 'Rows::touch'), ('slots', 'write', 'RowsMut::write'), ('slots', 'copy_u32', 'copy'), ('slots', 'copy_u8', 'copy'),
    ('slots', 'lay_u32', 'lay'), ('slots', 'lay_u8', 'lay'), ('numbers', 'slots_of', 'Labels::slots_of'), ('numbers', 'any_live', 'Labels::any_live'),
    ('row', 'write_pruned', 'Pruner::write_pruned'), ('index', 'index_refusal', 'check_index'), ('updating', 'delete_ids', 'delete_batch'), ('updating', 'by_numbers', 'by_slots'),
    ('updating', 'translate', 'by_slots'), ('words', 'put_inserted', 'put_changed'), ('words', 'put_found', 'put'),
]
# crate, name before, name now
THEOREMS = [
    ('index', 'create_meets', 'create_meets'), ('exported', 'delete_tells', 'delete_tells'), ('exported', 'standing_tells', 'standing_tells'),
    ('exported', 'guarded_words', 'words_guarded'), ('prune', 'pruned_given', 'pruned_given'), ('admission', 'landmarks_view', 'landmarks_view'),
]


def sources(root, crate):
    return sorted(glob.glob(f'{root}/crates/{crate}/src/*.rt'))


def public(root, place):
    crate, path, name = place.split()[:3]
    files = [f'{root}/crates/{crate}/{path}'] + sources(root, crate)
    for file in files:
        try:
            text = open(file).read()
        except OSError:
            continue
        if re.search(r'\bpub fn %s\b' % re.escape(name), text) is None:
            continue
        # in a private module, what its crate hands on; a method goes with its type
        module = file.split('/src/')[1][:-len('.rt')]
        if module in ('lib', 'main'):
            return True
        top = open(f'{root}/crates/{crate}/src/lib.rt').read()
        if re.search(r'\bpub mod %s;' % re.escape(module), top):
            return True
        handed = re.findall(r'\bpub use %s::(?:\{([^}]*)\}|(\w+))' % re.escape(module), top)
        names = {n.strip() for many, one in handed for n in (many or one).split(',')}
        types = set(re.findall(r'\bpub struct (\w+)', text))
        return name in names or (bool(types & names) and re.search(r'^ +pub fn %s\b' % re.escape(name), text, re.M) is not None)
    return False


def flat(x):
    return re.sub(r'\s+', ' ', ' '.join(x) if isinstance(x, list) else str(x)).strip()


def clauses(rows):
    return ' '.join(flat(f'{name + ": " if name else ""}{text}') for name, text in rows) or '–'


def head(root, crate, name):
    """A public function's text up to its body; of a type's method, that of the file which has the type."""
    kind, _, name = name.rpartition('::')
    for file in sources(root, crate):
        text = open(file).read()
        if kind and not re.search(r'\bimpl\b[^{]*\b%s\b' % kind, text):
            continue
        found = re.search(r'^ *pub fn %s\b(?:.|\n)*?^ *\{$' % re.escape(name), text, re.M)
        if found:
            return flat(found.group(0)[:-1].removesuffix('{'))
    raise SystemExit(f'no function {crate} {kind} {name}')


def statements(root, name):
    """Each theorem of that name in proofs/: crate and text."""
    found = {}
    for file in sorted(glob.glob(f'{root}/crates/*/proofs/**/*.antt', recursive=True)):
        if '/out/' not in file:
            for one in re.finditer(r'^( *)(?:pub )?%s : .*(?:\n\1 {4,}.*)*' % re.escape(name), open(file).read(), re.M):
                found.setdefault(file.split('/crates/')[1].split('/')[0], set()).add(flat(one.group(0)))
    return found


def both(title, was, now):
    return [f'- `{title}`', f'  - `{was}`', f'  - `{now}`']


out = ['## What changed, old and new side by side', '',
       'Public functions and definitions, as `contracts.py` of the kit (`port/contracts.py OLD NEW --json`) and tools/changed.py list them; functions in a private module that its crate',
       'does not hand on left out. A first line is the commit above, a second the present text.', '', '### Public functions', '']
signatures = {s[0]: s[1:] for s in d['signatures changed']}
contracts = {c[0]: c[1:] for c in d['contracts changed']}
for place in sorted(set(signatures) | set(contracts)):
    if not public(new, place):
        continue
    out.append(f'- `{place}`')
    if place in signatures:
        out += [f'  - `{signatures[place][0]}`', f'  - `{signatures[place][1]}`']
    if place in contracts:
        ro, eo, rn, en = contracts[place]
        if ro != rn:
            out += [f'  - requires `{clauses(ro)}`', f'  - requires `{clauses(rn)}`']
        if eo != en:
            out += [f'  - ensures `{clauses(eo)}`', f'  - ensures `{clauses(en)}`']
out += ['', '### Public functions that became another', '']
for crate, was, now in BECAME:
    out += both(f'{crate} {was}', head(old, crate, was), head(new, crate, now))
out += ['', '### Definitions, constants', '']
for title in ('definitions', 'ghost items and constants'):
    for change in d[title]['changed']:
        *name, was, now = change
        out += both(' '.join(name), flat(was), flat(now))
out += ['', '### Theorems in proofs/ that README or docs/ name', '']
for crate, name, name_now in THEOREMS:
    was, now = statements(old, name).get(crate, set()), statements(new, name_now).get(crate, set())
    if not was or not now:
        raise SystemExit(f'no theorem {crate} {name}')
    if was != now:
        out += both(f'{crate} {name}', ' '.join(sorted(was - now)), ' '.join(sorted(now - was)))
print('\n'.join(out))
