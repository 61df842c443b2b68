"""What type.c has to print, by the model of document 01:  python3 harness/c/type.py > harness/c/type.expected"""
import os
import sys

sys.path.insert(0, os.path.join(os.path.dirname(__file__), "../../tools"))
from model import B, Book, build, interval_count, interval_tables, records, write_file


def say(what, answer):
    print(f"{what}: cause {answer[0]}, {answer[1]}")


def shown(book):
    print("".join(f" {chr(byte)} {code} {count};" for byte, code, count in records(book.d, book.side, book.typed)))


answer, d = build(write_file(B + [b"ra", b"in", b"rain"]), 1)
say("build", answer)
book = Book(d, "append", 12)
for byte in b"rai":
    say("append push", book.push(byte))
say("append extend", book.extend(b"n again"))
say("append token count", book.token_count())
shown(book)
say("append extend", book.extend(b"ing"))
say("append truncate", book.truncate(5))
say("append token count", book.token_count())
say("append push, a record changed", (8, 0))
book = Book(d, "prepend", 12)
say("prepend extend", book.extend(b"nia"))
say("prepend push", book.push(ord("r")))
say("prepend token count", book.token_count())
shown(book)
say("prepend truncate", book.truncate(9))
say("prepend truncate, a head beyond the slice", (8, 0))
book = Book(d, "prepend", 12)
say("extend on side 2", book.extend(b"nia"))
say("push on side 2", book.push(ord("r")))
say("token count on side 2", book.token_count())
say("truncate", book.truncate(3))
text = b"rain again rain"
say("prepare", (0, len(text)))
for name, table in zip(["last codes", "numbers", "ends", "depths"], interval_tables(d, text)):
    print(f"{name}:", *table)
for start, end in [(2, 13), (4, 4), (5, 4), (5, 16)]:
    say(f"count of {start} to {end}", interval_count(d, text, start, end))
