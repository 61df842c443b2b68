"""Document 01 in Python, and the requests of document 02 that have landed (1), written from their text alone: a second
source for the expected output of the sample programs.

Slow and plain on purpose. Nothing here is taken from the Rattle code or from the Rust.
"""

NONE = 4294967295
MOD = 2 ** 64


# ---- the file form

def record(row):
    return bytes([0xC7, 0x51, len(row)]) + row


def write_file(rows):
    return b"".join(record(row) for row in rows)


def check_file(file):
    """Causes 2, 3 and 4: (cause, place), or (0, n) with the rows and their places."""
    if len(file) > 65536:
        return (2, 65536), [], []
    rows, places, at = [], [], 0
    while at < len(file):
        size = file[at + 2] if at + 2 < len(file) else 0
        whole = file[at:at + 2] == b"\xc7\x51" and 1 <= size <= 64 and at + 3 + size <= len(file)
        if not whole:
            return (2, at), [], []
        rows.append(file[at + 3:at + 3 + size])
        places.append(at)
        at += 3 + size
    if not 256 <= len(rows) <= 4096:
        return (3, len(rows)), [], []
    for byte in range(256):
        if bytes([byte]) not in rows:
            return (4, byte), [], []
    return (0, len(rows)), rows, places


# ---- building

def row_hash(row, factor):
    value = 0xCBF29CE484222325
    for octet in len(row).to_bytes(8, "little") + row:
        value = (value ^ octet) * 0x100000001B3 % MOD
    return value * factor % MOD >> 32


def first_again(things):
    """The lowest number of a thing that also stands before it, None where there is none."""
    seen = set()
    for i, thing in enumerate(things):
        if thing in seen:
            return i
        seen.add(thing)
    return None


class Dictionary:
    def __init__(self, rows):
        self.rows = rows
        self.number = {}
        for c, row in enumerate(rows):
            self.number.setdefault(row, c)
        self.parts = []

    def prefix(self, c):
        row = self.rows[c]
        for size in range(len(row) - 1, 0, -1):
            if row[:size] in self.number:
                return self.number[row[:size]]
        return NONE

    def seam(self, limit):
        return {parts: w for w, parts in enumerate(self.parts[:limit]) if len(self.rows[w]) > 1}

    def passes(self, u, v, limit=None):
        """The pair check over the rows below the limit."""
        listed = self.seam(len(self.rows) if limit is None else limit)
        last, low_is_left = None, None
        first = True
        while True:
            w = listed.get((u, v))
            if w is not None:
                if first:
                    return False
                # a lower row, or the same row further left
                if w < last or (w == last and low_is_left):
                    return False
            first = False
            left_long, right_long = len(self.rows[u]) > 1, len(self.rows[v]) > 1
            if not left_long and not right_long:
                return True
            # undo the part with the higher number, the right one if both are the same row; a single byte cannot be undone
            undo_right = right_long and (not left_long or v >= u)
            if undo_right:
                last, low_is_left, v = v, True, self.parts[v][0]
            else:
                last, low_is_left, u = u, False, self.parts[u][1]

    def find_parts(self, w):
        row = self.rows[w]
        if len(row) == 1:
            return (w, w)
        for size in range(len(row) - 1, 0, -1):
            u, v = self.number.get(row[:size]), self.number.get(row[size:])
            if u is None or v is None or u >= w or v >= w:
                continue
            if self.passes(u, v, w):
                return (u, v)
        return None


def build(file, factor, sizes=(4096, 4096, 4096, 4096, 16384)):
    """(cause, place) and the dictionary, None if refused."""
    if factor == 0:
        return (1, 0), None
    answer, rows, places = check_file(file)
    if answer[0]:
        return answer, None
    n = len(rows)
    if min(sizes[:4]) < n or sizes[4] < 16384:
        return (7, 0), None
    equal = first_again(rows)
    if equal is not None:
        return (5, equal), None
    # no two rows are equal: rows with one hash have different bytes
    clash = first_again(row_hash(row, factor) for row in rows)
    if clash is not None:
        return (13, clash), None
    d = Dictionary(rows)
    for w in range(n):
        parts = d.find_parts(w)
        if parts is None:
            return (6, w), None
        d.parts.append(parts)
    d.places = places
    return (0, n), d


# ---- sending and counting

def merge(d, text):
    codes = [d.number[bytes([b])] for b in text]
    while True:
        best = None
        for i in range(len(codes) - 1):
            w = d.number.get(d.rows[codes[i]] + d.rows[codes[i + 1]])
            if w is not None and (best is None or w < best[0]):
                best = (w, i)
        if best is None:
            return codes
        w, i = best
        codes[i:i + 2] = [w]


def rows_at(d, text, at):
    """All rows that begin there, longest first."""
    return [d.number[text[at:at + size]] for size in range(min(64, len(text) - at), 0, -1) if text[at:at + size] in d.number]


def greedy(d, text):
    codes, at = [], 0
    while at < len(text):
        codes.append(rows_at(d, text, at)[0])
        at += len(d.rows[codes[-1]])
    return codes


def shortest(d, text):
    """Fewest codes; among those the longest first row, then the longest second, and so on."""
    best = [None] * len(text) + [[]]
    for at in range(len(text) - 1, -1, -1):
        for c in rows_at(d, text, at):
            rest = best[at + len(d.rows[c])]
            if best[at] is None or len(rest) + 1 < len(best[at]):
                best[at] = [c] + rest
    return best[0]


def steps(d, text):
    """Backtracking by document 01's steps: the code list after each step."""
    stack, place, dead = [], 0, set()
    to_try = rows_at(d, text, 0)
    while place < len(text):
        fit = None
        for c in to_try:
            end = place + len(d.rows[c])
            if end not in dead and (not stack or d.passes(stack[-1], c)):
                fit = c
                break
        if fit is not None:
            stack.append(fit)
            place += len(d.rows[fit])
            to_try = rows_at(d, text, place)
        else:
            dead.add(place)
            last = stack.pop()
            place -= len(d.rows[last])
            to_try = rows_at(d, text, place)
            to_try = to_try[to_try.index(last):]
        yield list(stack)


def backtrack(d, text):
    codes = []
    for codes in steps(d, text):
        pass
    return codes


def limited(count, limit):
    """Document 02, ticket 2: "over" is given if the final count exceeds the limit, and in no other case."""
    return NONE if count > limit else count


def decode(d, codes):
    return b"".join(d.rows[c] for c in codes)


# ---- typing and intervals

def in_order(side, typed):
    """The text of bytes in the order of typing."""
    return typed if side == "append" else typed[::-1]


def records(d, side, typed):
    """The record of each byte typed: byte, last code (prepending: first code) and number of codes of the bytes up to it."""
    codes = [merge(d, in_order(side, typed[:i + 1])) for i in range(len(typed))]
    return [(b, c[-1 if side == "append" else 0], len(c)) for b, c in zip(typed, codes)]


class Book:
    """Document 01's typing book over a slice of so many records: each call gives (cause, place or answer)."""
    def __init__(self, d, side, size):
        self.d, self.side, self.size, self.typed = d, side, size, b""

    def extend(self, more):
        if len(more) > 4096:
            return 9, 0
        if len(self.typed) + len(more) > min(self.size, 4096):
            return 12, len(self.typed)
        self.typed += more
        return 0, len(self.typed)

    def push(self, byte):
        return self.extend(bytes([byte]))

    def truncate(self, keep):
        self.typed = self.typed[:keep]
        return 0, len(self.typed)

    def token_count(self):
        return 0, len(merge(self.d, in_order(self.side, self.typed)))


def interval_tables(d, text):
    """Last code, tree number, tree end and depth of each prefix."""
    m = len(text)
    codes = [merge(d, text[:i]) for i in range(m + 1)]
    parent = [None] + [i - len(d.rows[codes[i][-1]]) for i in range(1, m + 1)]
    children = [[i for i in range(1, m + 1) if parent[i] == p] for p in range(m + 1)]
    number, end = [0] * (m + 1), [0] * (m + 1)
    def visit(p, at):
        number[p] = at
        at += 1
        for c in children[p]:
            at = visit(c, at)
        end[p] = at
        return at
    visit(0, 0)
    return [c[-1] for c in codes[1:]], number, end, [len(c) for c in codes]


def interval_count(d, text, start, end):
    """(cause, count) of a piece, the byte at the end not included."""
    if start > end or end > len(text):
        return 11, 0
    return 0, len(merge(d, text[start:end]))


# ---- document 01's sample files

B = [bytes([b]) for b in range(256)]
E = B + [b"bc", b"ab", b"cd"]
F = B + [b"aa"]
G = [b"ab"] + B + [b"bc", b"bcd"]


def check_samples():
    e, f = build(write_file(E), 1)[1], build(write_file(F), 1)[1]
    assert merge(e, b"abcd") == [97, 256, 100]                      # P1
    assert shortest(e, b"abcd") == [257, 258]                       # P2
    assert greedy(e, b"abcd") == [257, 258]                         # P3
    assert [count for _, _, count in records(e, "append", b"abcd")] == [1, 1, 2, 3]     # P4
    assert [count for _, _, count in records(e, "prepend", b"dcba")] == [1, 1, 2, 3]    # P5
    assert interval_count(e, b"abcd", 1, 4) == (0, 2)               # P6
    assert interval_count(e, b"abcd", 2, 2) == (0, 0)               # P7
    assert merge(f, b"aaa") == [256, 97]                            # P8
    assert not f.passes(97, 256) and f.passes(256, 97)              # P9, P10
    assert build(write_file(G), 1)[0] == (6, 0)
    # document 02, ticket 1
    again = write_file(B + [b"ab", b"ab"])
    assert [build(again, factor)[0] for factor in (1, 2)] == [(5, 257)] * 2
    clash = B + [b"cu", b"ru", b"lo", b"curu", b"curulo", b"da", b"ba", b"dacu", b"dacuba"]
    assert [build(write_file(clash), factor)[0] for factor in (1, 2)] == [(13, 264), (0, 265)]
    assert build(write_file(clash + [b"cu"]), 1)[0] == (5, 265)


if __name__ == "__main__":
    check_samples()
    print("the samples of document 01 hold in the model")
