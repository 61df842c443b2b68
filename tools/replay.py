"""What the program `samples` has to print for a list of commands, by the model of document 01.

    python3 tools/replay.py < crates/samples/stdin > crates/samples/stdout
"""
import functools
import re
import sys
from model import (NONE, build, check_file, decode, greedy, limited, merge, record, shortest)

NAMES = ["places", "lefts", "rights", "prefixes", "area", "output", "work", "bytes"]
CLEARS = (5, 6, 13)  # the refusals of build after which the tables and the area are none
FIRST = {name: 4200 for name in NAMES} | {"area": 16400, "bytes": 66000}


# a text is sent and counted many times
merged = functools.lru_cache(maxsize=1)(merge)


def unescape(text):
    return re.sub(rb"\\x([0-9a-f]{2})|\\.", lambda m: bytes([int(m[1], 16)]) if m[1] else b"\\", text)


class Replay:
    def __init__(self):
        self.file, self.text, self.codes, self.d = b"", b"", [], None
        self.lent = dict(FIRST)
        self.tables = {name: {} for name in NAMES[:4]}

    def rows_in_form(self):
        """n, or None where the tables are out of form."""
        (cause, n), rows, places = check_file(self.file)
        if cause or min(self.lent[t] for t in NAMES[:4]) < n or self.lent["area"] < 16384:
            return None
        size = [len(row) for row in rows]
        get = lambda t, i: self.tables[t].get(i, 7000000 + i)
        for i in range(n):
            l, r, p = get("lefts", i), get("rights", i), get("prefixes", i)
            twice = (l, r) == (i, i) and size[i] == 1
            lower = l < i and r < i and size[l] + size[r] == size[i]
            shorter = p == NONE or (p < n and size[p] < size[i])
            if get("places", i) != places[i] or not (twice or lower) or not shorter:
                return None
        return n

    # the calls, each as (number, place, what is written)

    def build(self, factor):
        (cause, place), d = build(self.file, factor, tuple(self.lent[name] for name in NAMES[:5]))
        state = "filled" if not cause else "none" if cause in CLEARS else "unchanged"
        states = [state] * 5
        n = check_file(self.file)[0][1]
        if not cause:
            self.d = d
            self.tables = {"places": dict(enumerate(d.places)), "lefts": dict(enumerate(p[0] for p in d.parts)),
                           "rights": dict(enumerate(p[1] for p in d.parts)), "prefixes": dict(enumerate(d.prefix(c) for c in range(n)))}
            states[3] = "none" if set(self.tables["prefixes"].values()) == {NONE} else "filled"
        else:
            self.tables = {name: {i: NONE for i in range(n)} if cause in CLEARS else {} for name in NAMES[:4]}
        return " ".join([f"build {cause} {place}"] + states)

    def encoder(self, name):
        need = len(self.text)
        if need > 4096:
            return 9, 0, []
        if self.lent["work"] < need or (name != "count" and self.lent["output"] < need):
            return 7, 0, []
        if self.rows_in_form() is None:
            return 8, 0, []
        codes = {"minimal": shortest, "greedy": greedy}.get(name, merged)(self.d, self.text)
        return 0, len(codes), codes

    def decode(self, codes):
        n = self.rows_in_form()
        if len(codes) > 4096:
            return 9, 0, b""
        if n is None:
            return 8, 0, b""
        for i, code in enumerate(codes):
            if code >= n:
                return 10, i, b""
        spelled = decode(self.d, codes)
        if self.lent["bytes"] < len(spelled):
            return 7, 0, b""
        return 0, len(spelled), spelled

    def pair(self, u, v):
        n = self.rows_in_form()
        if n is None:
            return 8, 0
        for i, code in enumerate((u, v)):
            if code >= n:
                return 10, i
        return 0, int(self.d.passes(u, v))

    def obey(self, line):
        command, _, rest = line.partition(b" ")
        command = command.decode()
        words = rest.split(b" ")
        rest_as_before = b"; the rest as before"
        if command == "empty":
            self.file = b""
        elif command == "letters":
            self.file += b"".join(record(bytes([b])) for b in range(int(rest)))
        elif command == "pairs":
            self.file += b"".join(record(bytes([k // 256, k % 256])) for k in range(int(rest)))
        elif command == "row":
            self.file += record(unescape(rest))
        elif command == "again":
            self.file += record(unescape(rest.partition(b" ")[2])) * int(words[0])
        elif command == "raw":
            self.file += unescape(rest)
        elif command == "lend":
            self.lent = dict(FIRST) if rest == b"all" else self.lent | {words[0].decode(): int(words[1])}
        elif command == "set":
            self.tables[words[0].decode()][int(words[1])] = int(words[2])
        elif command == "text":
            self.text = unescape(rest)[:4200]
        elif command == "repeat":
            self.text = (unescape(rest.partition(b" ")[2]) * int(words[0]))[:4200]
        elif command == "codes":
            self.codes = [int(w) for w in words if w][:4200]
        elif command == "same":
            self.codes = ([int(words[1])] * int(words[0]))[:4200]
        elif command == "build":
            return self.build(int(rest)).encode()
        elif command == "entries":
            i = int(rest)
            return b"entries %d" % i + b"".join(b" %d" % self.tables[t].get(i, 7000000 + i) for t in NAMES[:4])
        elif command == "rows":
            n = self.rows_in_form()
            return b"rows 8 0" if n is None else b"rows 0 %d" % n
        elif command == "length":
            cause, place, spelled = self.decode([int(rest)]) if self.rows_in_form() is not None else (8, 0, b"")
            return b"length %d %d" % (cause, place)
        elif command == "pair":
            return b"pair %d %d" % self.pair(int(words[0]), int(words[1]))
        elif command in ("bitfield", "backtracking", "table", "minimal", "greedy"):
            cause, place, codes = self.encoder(command)
            return b"%s %d %d:" % (command.encode(), cause, place) + b"".join(b" %d" % c for c in codes) + rest_as_before
        elif command == "count":
            return b"count %d %d" % self.encoder("count")[:2] + rest_as_before
        elif command == "limit":
            cause, place, _ = self.encoder("count")
            value = place if cause else limited(place, int(rest))
            return b"limit %d %d" % (cause, value) + rest_as_before
        elif command in ("decode", "bytes"):
            cause, place, spelled = self.decode(self.codes if command == "decode" else [int(rest)])
            return b"%s %d %d: " % (command.encode(), cause, place) + spelled + rest_as_before
        return None


def main():
    replay = Replay()
    for line in sys.stdin.buffer.read().split(b"\n"):
        said = replay.obey(line)
        if said is not None:
            sys.stdout.buffer.write(said + b"\n")


if __name__ == "__main__":
    main()
