"""Trains a season's sheet: byte pair merges over a corpus (Sennrich et al. 2016), one row for each merge.

The corpus is a text file with one message a line; nothing is joined across lines. Rows 0 to 255 are the bytes 0 to 255 in order. Each
further row joins the two rows that stand side by side most often in the corpus, among equals those with the lowest left, then the lowest
right bytes. So each row stands below the rows that it is joined from. A row has a space only in front, or between whole words of the
corpus: rows are pieces of words, words, and phrases of whole words, never the end of one word with the beginning of the next.

The sheet goes to standard output, a row a line: the bytes, a tab, a note with the row's uses in the corpus as the finished sheet cuts it.
Bytes below 32 and above 126 are written as \\xNN, tab, line break and backslash as \\t, \\n and \\\\, the space alone as \\x20.
"""

import sys
from collections import Counter

LONGEST = 64
USAGE = """usage: python3 tools/train.py CORPUS ROWS > SHEET
  CORPUS  a text file, one message a line
  ROWS    how many rows the sheet has, 256 to 4096, the 256 single bytes among them
example: python3 tools/train.py season/corpus.txt 1400 > season/sheet.tsv"""


def whole_words(lines):
    """The words of the corpus, with and without the marks after them."""
    words = {word for line in lines for word in line.split(b" ")}
    return (words | {word.rstrip(b".,:;?") for word in words}) - {b""}


def may_join(row, words):
    """Whether these bytes may be a row: not too long, with a space only in front or between whole words."""
    return len(row) <= LONGEST and (b" " not in row[1:] or all(word in words for word in row.removeprefix(b" ").split(b" ")))


def join(line, left, right):
    """The line with each left beside a right joined, from the left."""
    out, at = [], 0
    while at < len(line):
        if line[at] == left and line[at + 1:at + 2] == [right]:
            out.append(left + right)
            at += 2
        else:
            out.append(line[at])
            at += 1
    return out


def train(lines, size):
    """The rows in merge order, and the corpus cut into them."""
    words = whole_words(lines)
    rows = [bytes([byte]) for byte in range(256)]
    known = set(rows)
    cut = [[bytes([byte]) for byte in line] for line in lines]
    while len(rows) < size:
        pairs = Counter(pair for line in cut for pair in zip(line, line[1:]))
        often = sorted((pair for pair in pairs if pairs[pair] > 1), key=lambda pair: (-pairs[pair], pair))
        pair = next((p for p in often if p[0] + p[1] not in known and may_join(p[0] + p[1], words)), None)
        if pair is None:
            sys.exit(f"train: no two rows stand side by side twice any more; the corpus is enough for {len(rows)} rows, not for {size}")
        row = pair[0] + pair[1]
        rows.append(row)
        known.add(row)
        cut = [join(line, *pair) if row in b"".join(line) else line for line in cut]
    return rows, cut


def escaped(row):
    """A row as the sheet writes it."""
    if row == b" ":
        return "\\x20"
    short = {9: "\\t", 10: "\\n", 92: "\\\\"}
    return "".join(short.get(byte) or (chr(byte) if 32 <= byte <= 126 else f"\\x{byte:02X}") for byte in row)


def sheet(lines, size):
    """The sheet's lines."""
    rows, cut = train(lines, size)
    uses = Counter(row for line in cut for row in line)
    return [f"{escaped(row)}\t{'single byte' if len(row) == 1 else 'phrase'}, uses {uses[row]}\n" for row in rows]


def main(arguments):
    if len(arguments) != 2 or not arguments[1].isdecimal() or not 256 <= int(arguments[1]) <= 4096:
        sys.exit(USAGE)
    try:
        with open(arguments[0], "rb") as file:
            lines = file.read().splitlines()
    except OSError as error:
        sys.exit(f"train: cannot read the corpus {arguments[0]}: {error.strerror}")
    sys.stdout.write("".join(sheet(lines, int(arguments[1]))))


if __name__ == "__main__":
    main(sys.argv[1:])
