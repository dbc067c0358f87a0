#!/usr/bin/env python3
# tools/places.py [--list] [POINT..]: counts, and with --list shows, the places of docs/DESIGN-PASS.md's points in crates/*/src.
import glob
import re
import sys

SOURCES = sorted(glob.glob('crates/*/src/*.rt'))


def functions(text):
    """Each function of a file: its name, its parameters, its clauses, its body."""
    for head in re.finditer(r'^ *(?:pub )?(?:unsafe )?(?:extern "C" )?fn (\w+)(?:<[^(]*>)?\(', text, re.M):
        at, depth = head.end(), 1
        while depth:
            depth += {'(': 1, ')': -1}.get(text[at], 0)
            at += 1
        parameters = [p.strip() for p in re.split(r',(?![^<(\[]*[>)\]])', text[head.end():at - 1]) if p.strip()]
        clauses = []
        while True:
            brace = text.find('{', at)
            if brace < 0:
                break
            word = text[at:brace]
            depth, end = 1, brace + 1
            while depth:
                depth += {'{': 1, '}': -1}.get(text[end], 0)
                end += 1
            at = end
            if not re.search(r'(requires|ensures)\*?[ \w]*$', word.rstrip()):
                yield head.group(1), parameters, clauses, text[brace:end]
                break
            clauses.append((word.strip().split()[-1] if word.split() else '', 'requires' in word, text[brace:end]))


def grep(pattern):
    found = []
    for path in SOURCES:
        for number, line in enumerate(open(path), 1):
            if not line.lstrip().startswith('//') and re.search(pattern, line):
                found.append(f'{path}:{number}: {line.strip()}')
    return found


def each():
    for path in SOURCES:
        for name, parameters, clauses, body in functions(open(path).read()):
            yield path, name, parameters, clauses, body


def twins():
    """Functions whose text is the same once types, numbers and names of functions are left out."""
    groups = {}
    for path, name, parameters, clauses, body in each():
        text = re.sub(r'//[^\n]*', '', ' '.join(parameters) + body)
        text = re.sub(r'\b\d[\d_.]*\w*', '0', re.sub(r'\b(u8|u16|u32|u64|usize|f32)\b', 'T', text))
        words = re.findall(r'\w+|[^\w\s]', text)
        if len(words) < 15:
            continue
        known = {}
        shape = tuple(known.setdefault(w, len(known)) if re.match(r'[a-z_]\w*$', w) and w not in
                      ('while', 'if', 'else', 'return', 'let', 'mut', 'for', 'in', 'true', 'false', 'len', 'match', 'as') else w for w in words)
        groups.setdefault(shape, []).append(f'{path}: {name}')
    return [' = '.join(g) for g in groups.values() if len(g) > 1]


def facts():
    """Definitions that the `requires` of three or more functions name, apart from operators and single reads."""
    named = {}
    for path, name, parameters, clauses, body in each():
        for word in {w for _, is_requires, clause in clauses if is_requires for w in re.findall(r'\b[A-Z][A-Za-z]+\b', clause)}:
            named.setdefault(word, []).append(f'{path}: {name}')
    return [f'{word}: {len(users)} functions' for word, users in sorted(named.items()) if len(users) >= 3]


def beside():
    """Parameters that are a length or a place beside a slice."""
    found = []
    for path, name, parameters, clauses, body in each():
        names = [p.split(':')[0].strip() for p in parameters]
        slices = [p for p in parameters if '[' in p]
        if slices and any(n in ('n', 'm', 'count', 'kept', 'pooled', 'live', 'len', 'a') for n in names):
            found.append(f'{path}: {name}({", ".join(names)})')
    return found


POINTS = {
    '1a own enums': lambda: grep(r'^(pub )?enum '),
    '1b numbers of refusals': lambda: [f'{p}: {n}' for p, n, _, c, b in each() if re.search(r'refusal', n) or re.search(r'Refused\(', b)],
    '1c a number for none': lambda: grep(r'return BLANK;|^\s*BLANK$|== BLANK|!= BLANK'),
    '1d flags with a value beside': lambda: grep(r'^\s*(pub )?\w+: bool,'),
    '2 twins': twins,
    '3 loops that count by hand': lambda: grep(r"^\s*('\w+: )?while "),
    '4 conversions and comparisons by hand': lambda: [f'{p}: {n}' for p, n, _, c, b in each() if n in (
        'wide', 'narrow', 'number', 'least', 'lesser', 'larger', 'smaller', 'at_least_one', 'plus', 'fewer', 'before', 'version_after', 'outside', 'block_end', 'block_start',
        'part_end', 'chunk_end', 'id_at_or', 'number_at', 'node_version', 'misfit', 'kept', 'contains')],
    '4 uses of wide and narrow': lambda: grep(r'\b(wide|narrow)\('),
    '4 wrapping functions': lambda: grep(r'std::num::\w+_u\d+\('),
    '5a functions with seven or more parameters': lambda: [f'{p}: {n} {len(q)}' for p, n, q, c, b in each() if len(q) >= 7],
    '5b facts in three or more contracts': facts,
    '6a a length or a place beside a slice': beside,
    '6b lists searched by hand': lambda: grep(r'let mid = '),
    '7 switches': lambda: [f'{p}: {n}' for p, n, q, c, b in each() if any(re.search(r': bool$', x) for x in q)],
}

if __name__ == '__main__':
    arguments = sys.argv[1:]
    for title, find in POINTS.items():
        if any(a[0] != '-' for a in arguments) and title.split()[0] not in arguments:
            continue
        found = find()
        print(f'{title}: {len(found)}')
        if '--list' in arguments:
            print(''.join(f'  {f}\n' for f in found), end='')
