#!/usr/bin/env python3
"""Counts, in the source files below crates/, the places where the code has a form older than the language: one line for
each of the eight points of docs/DESIGN-PASS.md. `places.py [-l] [FOLDER]`: -l prints each place, FOLDER is a checkout
(the one that this file is in, where none is given)."""
import collections, glob, os, re, sys

names = [a for a in sys.argv[1:] if a != '-l']
root = names[0] if names else os.path.join(os.path.dirname(__file__), '..')
sources = {p[len(root) + 1:]: open(p).read() for p in sorted(glob.glob(root + '/crates/*/src/**/*.rt', recursive=True))}
places = collections.defaultdict(list)

# A body that converts, takes a field, makes a struct of its arguments or chooses the lesser; a line that copies, fills
# or compares; slices that many functions have; words that tell the shape of a body.
CONVERSION = (r'\(?\w+(\.\w+)?\)? as (u8|u16|u32|u64|usize)|\w+\.\w+|\w+ \{ [\w, ]+ \}'
              r'|if \w+ < \w+ \{ \w+ \} else \{ \w+ \}')
COPY = (r'^\s*(\w+)\[(\w+)\] = (?:\w+\[\2\]|[A-Z][A-Z_]*|0|\w+);$'
        r'|^\s*if (\w+)\[(\w+)\] != \w+\[\4\] \{$')
ALONE = ('file', 'places', 'lefts', 'rights', 'prefixes', 'area', 'text', 'out', 'work', 'bytes')
WORDS = ('if', 'while', 'for', 'return', 'match', 'let', 'mut')


def note(point, path, text, at, what):
    places[point].append(f"{path}:{text.count(chr(10), 0, at) + 1}: {what}")


def functions(text):
    """(offset, name, parameters, answer and clauses, body) of each function."""
    for m in re.finditer(r'\bfn (\w+)(?:<[^(]*>)?\(', text):
        depth, i = 1, m.end()
        while depth and i < len(text):
            depth += {'(': 1, ')': -1}.get(text[i], 0)
            i += 1
        end = re.compile(r'^\s*\}$', re.M)
        brace = re.search(r'^(\s*)\{\s*$|\{$', text[i:], re.M)
        if not brace:
            continue
        indent = re.match(r'\s*', text[text.rfind('\n', 0, m.start()) + 1:]).group()
        stop = re.compile(r'^' + indent + r'\}$', re.M).search(text, i)
        body = text[i + brace.end():stop.start() if stop else i]
        yield m.start(), m[1], text[m.end():i - 1], text[i:i + brace.start()], body


shapes = collections.defaultdict(list)
required = collections.defaultdict(list)
together = collections.defaultdict(list)
for path, text in sources.items():
    for m in re.finditer(r'^ *(?:pub(?:\(crate\))? )?enum (\w+) \{\n(.*?)^ *\}', text, re.M | re.S):
        cases = [c for c in re.findall(r'^ +(\w+)[^/\n]*,$', m[2], re.M)]
        values = [c for c in re.findall(r'^ +(\w+)\(', m[2], re.M)]
        if len(cases) < 4 and values or re.search(r'Refused\(|Failed\(|Wrong', m[2]) and values:
            note(1, path, text, m.start(), f"enum {m[1]}: {', '.join(cases)}")
    for m in re.finditer(r'== NONE|!= NONE', text):
        line = text[text.rfind('\n', 0, m.start()) + 1:m.end()].strip()
        note(1, path, text, m.start(), 'a number that says none: ' + line)
    for at, name, parameters, clauses, body in functions(text):
        kinds = [re.sub(r"'\w+ ?", '', p) for p in re.findall(r'\w+: ([^,]+)', parameters)]
        for m in re.finditer(r'(\w+): bool', parameters):
            note(7, path, text, at, f"fn {name}: the flag {m[1]}")
        if re.search(r'^\s*match \w+ \{\n(\s*\w+::\w+ => [^\n]*\([^\n]*\n)+', body, re.M) and 'Result' not in clauses:
            if len(re.findall(r'^\s*\w+::\w+ => (?:\{ )?\w+(?:::\w+)*\($', body, re.M)) > 1:
                note(7, path, text, at, f"fn {name}: a match that chooses a step")
        for m in re.finditer(r'^( *)while ([^\n]*) \{\n(.*?)^\1\}', body, re.M | re.S):
            step = re.search(r'^\s*(\w+) [+-]= 1;', m[3], re.M)
            if step and re.search(r'\b' + step[1] + r'\b', m[2]):
                note(3, path, text, at, f"fn {name}: while {m[2]}")
        for m in re.finditer(r'^( *)loop \{\n(.*?)^\1\}', body, re.M | re.S):
            if re.search(r'^\s*(\w+) [+-]= 1;', m[2], re.M):
                note(3, path, text, at, f"fn {name}: loop with a count")
        lines = [l.strip() for l in body.strip().split('\n')]
        if len(lines) == 1 and re.fullmatch(CONVERSION, lines[0]):
            note(4, path, text, at, f"fn {name}: {lines[0]}")
        for m in re.finditer(COPY, body, re.M):
            if re.search(r'^\s*' + (m[2] or m[4]) + r' [+-]= 1;', body, re.M) and len(lines) < 12:
                note(4, path, text, at, f"fn {name}: {m[0].strip()}")
        if name in ('to_le_bytes', 'wrapping_mul_u64', 'side_numbered', 'same_bytes'):
            note(4, path, text, at, f"fn {name}: a conversion, comparison or operation of std")
        tables = re.findall(r'\b(file|places|lefts|rights|prefixes|area): &\[', parameters)
        if len(tables) > 2 or 'file' in tables and 'places' in tables:
            note(5, path, text, at, f"fn {name}: {', '.join(tables)}")
        for m in re.finditer(r'requires \w* ?\{(.*?)\}\n', clauses + '\n', re.S):
            required[' '.join(m[1].split())].append((path, at, name))
        group = tuple(p for p in re.findall(r'(\w+): &(?:mut )?\[', parameters) if p not in ALONE)
        if len(group) > 2:
            together[group].append((path, at, name))
        for m in re.finditer(r'\bfront(?:_numbers)?\(&?\w+, \w+\)', body):
            note(6, path, text, at, f"fn {name}: {m[0]}")
        if len(lines) > 2:
            shape = re.sub(r'"[^"]*"|\b\w+\b', lambda w: w[0] if w[0] in WORDS else '_', ' '.join(lines))
            shapes[shape, len(kinds)].append((path, at, name))
    for m in re.finditer(r'^ *(?:pub )?struct (\w+)[^\n]*\{\n(.*?)^\}', text, re.M | re.S):
        if re.search(r'\blen: usize', m[2]) and re.search(r': (?:&\w* ?)?\[', m[2]):
            note(6, path, text, m.start(), f"struct {m[1]}: a buffer with a length")
for shape, found in shapes.items():
    if len(found) > 1:
        for path, at, name in found:
            others = ', '.join(f[2] for f in found if f[2] != name or f[0] != path)
            note(2, path, sources[path], at, f"fn {name}: the shape of {others}")
for clause, found in required.items():
    if len(found) > 2:
        for path, at, name in found:
            note(5, path, sources[path], at, f"fn {name}: requires {clause}")
for group, found in together.items():
    if len(found) > 2:
        for path, at, name in found:
            note(5, path, sources[path], at, f"fn {name}: {', '.join(group)} together")
for path in sorted(glob.glob(root + '/crates/*/proofs/**/Answers.antt', recursive=True)):
    places[8].append(f"{path[len(root) + 1:]}: {open(path).read().count(chr(10))} lines")

TITLES = {
    1: 'own enums of the shape of Option or Result, numbers that say none', 2: 'functions of one shape',
    3: 'loops that count an index by hand', 4: 'equality, order, copying, conversion by hand',
    5: 'tables or slices that travel together, a requires in three or more functions',
    6: 'buffers with a length beside them', 7: 'flags and matches that choose a step', 8: 'files of answers',
}
for point, title in TITLES.items():
    print(f"{point}  {len(places[point]):4}  {title}")
    if '-l' in sys.argv:
        print(''.join(f"        {p}\n" for p in places[point]), end='')
