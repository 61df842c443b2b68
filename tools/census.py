#!/usr/bin/env python3
"""The must-fail edits by public call, and which edit shows each wrong program that document 01 names. An edit may say in
its first lines what it is an edit of ('call: NAME', or several with commas) and, where it is one of document 01's, which
('shows: WORDS'). Says what is missing: a public call with fewer than two edits of its program, a wrong program that no
edit of a program shows."""
import glob, sys

CALLS = [
    'from_dictionary', 'is_valid_token_pair', 'num_tokens', 'token_len', 'token_bytes', 'decode_tokens',
    'encode_via_bitfield', 'encode_via_backtracking', 'encode_via_table', 'encode_minimal', 'encode_greedy', 'count',
    'count_till_limit', 'push', 'extend', 'truncate', 'token_count', 'prepare', 'interval count', 'BitField::new',
    'BitField::is_set', 'BitField::clear', 'BitField::successor', 'BitField::predecessor',
]
WRONG = [
    'condition 3, push that does its first byte truly and copies that record afterwards',
    'condition 3, a count made up as text length',
    'condition 3, "over" before any step',
    'condition 3, 12 before the slice is full',
    'condition 3, one fixed code list for all texts',
    'condition 3, an output left untouched beside a plausible count',
    'condition 3, build that refuses every file',
    'trap, a tie won by the right join',
    'trap, a greedy result called shortest',
    'trap, a dead mark kept from another text',
]


def field(text, name):
    lines = (line.removeprefix('# ') for line in text.split('\n'))
    return next((line[len(name) + 2:] for line in lines if line.startswith(name + ': ')), '')


edits = []  # name, call, what it shows, whether it edits a program
for file in sorted(glob.glob('crates/*/must-fail/*.edit')):
    text = open(file).read()
    _, crate, _, label = file.split('/')
    edits.append((f'{crate}/{label[:-5]}', field(text, 'call').split(', '), field(text, 'shows'), 'file: src/' in text))

missing = []


def table(head, rows):
    """a row for each name; what it belongs to stands in the first of its rows"""
    print(f'| {head} | edits |\n|---|---|')
    for what, names in rows:
        for k, name in enumerate(names or ['']):
            print(f'| {"" if k else what} | {name} |')
    print()


rows = []
for call in CALLS:
    of_call = [(name, program) for name, calls, _, program in edits if call in calls]
    if sum(program for _, program in of_call) < 2:
        missing.append(f'{call} has fewer than two edits of its program')
    rows.append((call, [name for name, _ in of_call]))
table('public call', rows)

others = sorted({c for _, calls, _, _ in edits for c in calls if c and c not in CALLS})
table('definition or function beside them', [(o, [name for name, calls, _, _ in edits if o in calls]) for o in others])

for kind, head in (('condition 3', "wrong program of document 01's condition 3"), ('trap', 'trap of document 01')):
    rows = []
    for wrong in (w for w in WRONG if w.startswith(kind)):
        shown = [name for name, _, shows, program in edits if program and shows.startswith(wrong)]
        if not shown:
            missing.append(f'no edit of a program shows: {wrong}')
        rows.append((wrong[len(kind) + 2:], shown))
    table(head, rows)

print('| crate | edits | of them with a call above |\n|---|---|---|')
for crate in [*sorted({name.split('/')[0] for name, _, _, _ in edits}), '']:
    here = [all(calls) for name, calls, _, _ in edits if name.startswith(f'{crate}/') or not crate]
    print(f'| {crate or "all"} | {len(here)} | {sum(here)} |')
for line in missing:
    print(f'MISSING: {line}')
sys.exit(1 if missing else 0)
