#!/usr/bin/env python3
"""refusals.py : what typing_samples must print of the refusals, from document 01's causes and their order alone. The
cases are those of typing_refusals.rt and interval_refusals.rt in crates/typing_samples/src; the lines are the end of
that crate's stdout:

    python3 tools/refusals.py | diff - <(tail -n 36 crates/typing_samples/stdout)
"""
ORDER = [9, 7, 8, 10, 11, 12]       # "All others"
NO_RECORD, NO_BUFFER, WORK = 9999, 5, 4


def answer(applies, value, length=0):
    """(cause, place) of the first cause that applies, or (0, the answer); the place of 12 is the current length."""
    causes = [c for c in ORDER if applies.get(c)]
    return (causes[0], length if causes[0] == 12 else 0) if causes else (0, value)


def typing(records, length, wrong, area, typed):
    """A case of the typing calls over a text of zeros; ones are typed, so that each byte is a code."""
    room = min(records, 4096)
    head = length > room
    form = head or wrong < length or area < 16384
    now, said = length, []
    def call(name, applies, value):
        number, place = answer(applies, value, now)
        said.append(f"{name} {number} {place}")
        return value if number == 0 else now
    def left():
        return f", length {now}, {'as before' if now == length else 'CHANGED'}"
    now = call("extend", {9: typed > 4096, 8: form, 12: now + typed > room}, now + typed)
    call("truncate", {8: head}, now)                        # is told to keep more than there is
    call("token_count", {8: form}, now)
    first = ", ".join(said) + left()
    now = call("push", {8: form, 12: now + 1 > room}, now + 1)
    print(f"records {records} {length} {wrong} {area} {typed}: {first}; {said[3]}{left()}")


def interval(size, short, area, end):
    """Preparation, and the count of the piece from 3. A short buffer has one number less than four bytes need; where
    preparation is refused the count finds the pattern in the interval tables, which is out of form."""
    prepared = answer({9: size > 4096, 7: short < NO_BUFFER, 8: area < 16384}, size)
    done = prepared[0] == 0
    counted = answer({9: size > 4096, 7: short == WORK, 8: area < 16384 or not done, 11: end < 3}, end - 3)
    print("bytes %d %d %d %d: prepare %d %d, count %d %d, %s"
          % (size, short, area, end, *prepared, *counted, "CHANGED" if done else "as before"))


for side in "append", "prepend":
    print(f"{side}: records, length, record out of form, search area, bytes")
    typing(3, 1, NO_RECORD, 16384, 1)           # nothing to refuse
    typing(3, 2, NO_RECORD, 16384, 2)           # 12: room for one of two bytes
    typing(3, 3, NO_RECORD, 16384, 1)           # 12: the slice is full
    typing(3, 4, NO_RECORD, 16384, 1)           # 8: a head beyond the slice; before 12
    typing(3, 2, 1, 16384, 1)                   # 8: a record
    typing(3, 3, 1, 16384, 1)                   # 8 before 12
    typing(3, 1, NO_RECORD, 16383, 1)           # 8: the tables
    typing(3, 1, NO_RECORD, 16384, 4097)        # 9, before 12
    typing(3, 1, NO_RECORD, 16383, 4097)        # 9 before 8
    typing(4100, 4096, NO_RECORD, 16384, 1)     # 12: 4,096 bytes
    typing(4100, 4097, NO_RECORD, 16384, 1)     # 8: a head beyond 4,096
print("intervals: bytes, short buffer, search area, end")
interval(4, NO_BUFFER, 16384, 4)                # nothing to refuse
interval(4097, NO_BUFFER, 16384, 4)             # 9
for buffer in range(5):
    interval(4, buffer, 16384, 4)               # 7
interval(4, NO_BUFFER, 16383, 4)                # 8
interval(4, NO_BUFFER, 16383, 2)                # 8, before 11
interval(4, WORK, 16383, 2)                     # 7 before 8
interval(4097, WORK, 16383, 2)                  # 9 before 7 and 8
