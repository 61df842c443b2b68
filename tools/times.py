#!/usr/bin/env python3
"""Seconds by crate of the last run of tools/prove.sh (`make demo`, `make lib`, `make edits`), the longest first, and their
sum. Where a check begins with what an earlier one kept, they are those of what was left to do. `rt ci` prints no times."""

rows = [line.split() for line in open('target/prove.times')]
for crate, seconds in sorted(rows, key=lambda row: -int(row[1])):
    print(f'{crate:20} {seconds:>6}')
print(f'{f"all {len(rows)}":20} {sum(int(seconds) for _, seconds in rows):6}')
