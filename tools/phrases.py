"""The program `phrases` in Python over the model of document 01: the second source of what crates/phrases_cases must print.

usage: python3 tools/phrases.py DATA < crates/phrases_cases/stdin > crates/phrases_cases/stdout

DATA is a folder with a copy of crates/phrases_cases/data; files are written there. The words of the messages are written here a second time; the
numbers come from tools/model.py.
"""

import errno
import os
import re
import sys

import model
import page

OUT = []


def say(text):
    OUT.append(text if isinstance(text, bytes) else text.encode())


def many(n, name):
    return f"{n} {name}" + ("" if n == 1 else "s")


def escaped(byte):
    special = {9: "\\t", 10: "\\n", 92: "\\\\"}
    if byte in special:
        return special[byte]
    return chr(byte) if 32 <= byte < 127 else f"\\x{byte:02x}"


def quoted(text):
    return "'" + "".join(escaped(b) for b in text) + "'"


def bursts(count):
    return -(-count // 40)


def left(count):
    return bursts(count) * 40 - count


def in_bursts(count):
    return f"{many(count, 'code')}, {many(bursts(count), 'burst')}, {left(count)} left in the last"


def fields(count):
    return f" codes={count} bursts={bursts(count)} left={left(count)}"


def joined(codes):
    return " ".join(str(c) for c in codes)


class Stop(Exception):
    """The command ends: why was said."""


def stop(text):
    say(text)
    raise Stop


def argument(name, value, reason):
    stop(f"error: {name} {quoted(value)}: {reason}\nresult: error argument={name}\n")


REASONS = {
    errno.ENOENT: "there is no such file or folder",
    errno.EACCES: "this user may not use it",
    errno.EPERM: "this user may not use it",
    errno.EISDIR: "it is a folder",
    errno.ENOTDIR: "a part of the name is no folder",
    errno.EINVAL: "it is no name of a file",
    errno.ENAMETOOLONG: "the name is too long",
    errno.EBADF: "it is not open",
}


def read(name, value):
    try:
        with open(value, "rb") as file:
            return file.read()
    except OSError as error:
        argument(name, value, REASONS[error.errno])


def write(name, value, data):
    """Whole or not at all: a folder is not replaced."""
    if value == b"":
        argument(name, value, REASONS[errno.EINVAL])
    if value.startswith(b"/dev/"):
        return
    try:
        temporary = value + b".tmp"
        with open(temporary, "wb") as file:
            file.write(data)
        try:
            os.rename(temporary, value)
        except OSError:
            os.unlink(temporary)
            raise
    except OSError as error:
        argument(name, value, REASONS[error.errno])


# ---- refusals

def cause_line(cause, place, words):
    return f"refused (cause {cause}, place {place}): {words}"


def cause_fields(cause, place):
    return f"refused cause={cause} place={place}"


def cause_result(cause, place):
    return f"result: {cause_fields(cause, place)}\n"


def rows_before(file):
    rows, at = [], 0
    while file[at:at + 2] == b"\xc7\x51" and at + 2 < len(file) and 1 <= file[at + 2] <= 64 and at + 3 + file[at + 2] <= len(file):
        rows.append(file[at + 3:at + 3 + file[at + 2]])
        at += 3 + file[at + 2]
    return rows


def bad_record(file, at):
    rest = file[at:]
    if rest[0] != 0xC7 or (len(rest) > 1 and rest[1] != 0x51):
        return "the mark is missing"
    if len(rest) > 2 and not 1 <= rest[2] <= 64:
        return f"the length byte is {rest[2]} and not 1 to 64"
    return "the file ends inside a record"


def row(rows, c):
    return f"row {c} {quoted(rows[c])}"


def refusal(cause, place, file, factor):
    rows = rows_before(file)
    if cause == 1:
        return "the factor is 0; take another one, as 1"
    if cause == 2 and len(file) > 65536:
        return "the file has more than 65536 bytes; take rows out of the sheet and make the file again"
    if cause == 2:
        return f"at offset {place}, after {many(len(rows), 'row')}, {bad_record(file, place)}; make the file again from its sheet (phrases sheet)"
    if cause == 3 and place < 256:
        return f"the file has {many(place, 'row')} and needs at least 256, one for each byte; add the missing ones"
    if cause == 3:
        return f"the file has {many(place, 'row')} and may have 4096; take out {place - 4096}"
    if cause == 4:
        return f"byte {place} has no row of its own; add the row '{escaped(place)}' to the sheet"
    if cause == 5:
        return f"{row(rows, place)} stands in row {rows.index(rows[place])} already; take one of the two out"
    if cause == 13:
        hashes = [model.row_hash(r, factor) for r in rows]
        other = row(rows, hashes.index(hashes[place]))
        return (f"{row(rows, place)} has the hash of {other} under factor {factor}; "
                "both words may stay, take another factor")
    for byte in rows[place]:
        letter = bytes([byte])
        if rows.index(letter) > place:
            return f"{row(rows, place)} has no parts: its letter {quoted(letter)} first stands at row {rows.index(letter)}; move the word below its letters"
    return f"{row(rows, place)} has no parts: no two rows above it that pass the pair check join to it; put its parts above it"


def find_factor(file):
    return next((f for f in range(1, 65) if model.build(file, f)[0][0] != 13), 0)


def build(name, file, factor):
    (cause, place), d = model.build(file, factor)
    if cause:
        say(cause_line(cause, place, refusal(cause, place, file, factor)) + "\n")
        if cause != 13:
            stop(cause_result(cause, place))
        other = find_factor(file)
        say(f"under factor {other} no two rows clash: phrases check {quoted(name)} {other}\n" if other
            else "none of the factors 1 to 64 helps: take one of the two words out, or try a larger factor\n")
        stop(f"result: {cause_fields(cause, place)} factor={other or 'none'}\n")
    return d


def load(name):
    file = read("FILE", name)
    return build(name, file, find_factor(file) or 1)


# ---- commands

def unescape(text):
    """The bytes, or None for a wrong escape."""
    if re.search(rb"\\(?!x[0-9a-fA-F]{2}|t|n|\\)", re.sub(rb"\\\\", b"", text)):
        return None
    named = {b"t": b"\t", b"n": b"\n", b"\\": b"\\"}
    return re.sub(rb"\\(x[0-9a-fA-F]{2}|t|n|\\)", lambda m: named.get(m[1]) or bytes([int(m[1][1:], 16)]), text)


def sheet(name, out):
    if name == out:
        argument("OUT", out, "it is the sheet itself; give another name")
    text, rows = read("SHEET", name), []
    if len(text) > 262144:
        argument("SHEET", name, "it has more than 262144 bytes")
    lines = text.split(b"\n")
    for number, line in enumerate(lines[:-1] if lines[-1] == b"" else lines, 1):
        phrase = unescape((line[:-1] if line.endswith(b"\r") else line).split(b"\t")[0])
        if phrase is None:
            argument("SHEET", name, f"line {number}: a wrong escape; write \\xNN, \\t, \\n or \\\\")
        if phrase == b"":
            argument("SHEET", name, f"line {number}: no phrase; take the line out")
        if len(phrase) > 64:
            argument("SHEET", name, f"line {number}: the phrase has over 64 bytes; shorten it")
        rows.append(phrase)
        if len(model.write_file(rows)) > 65536:
            argument("SHEET", name, f"line {number}: the file would have over 65536 bytes; take rows out")
    file = model.write_file(rows)
    write("OUT", out, file)
    say(f"{quoted(out)}: {many(len(rows), 'row')}, {many(len(file), 'byte')}\n")
    (cause, place), _ = model.build(file, 1)
    if cause:
        say("warning: phrases check would refuse it:\n" + cause_line(cause, place, refusal(cause, place, file, 1)) + "\n")
    answer = cause_fields(cause, place) if cause else "accepted"
    say(f"result: written rows={len(rows)} bytes={len(file)} check={answer}\n")


def check(name, factor=b"1"):
    if not re.fullmatch(rb"[0-9]+", factor) or int(factor) >= 2 ** 64:
        argument("FACTOR", factor, "it is no number of 64 bits")
    d = build(name, read("FILE", name), int(factor))
    n, most = len(d.rows), max(len(r) for r in d.rows)
    say(f"accepted: {many(n, 'row')}, the longest of {many(most, 'byte')}, {many(4096 - n, 'number')} free up to 4096\n")
    say(f"result: accepted rows={n} longest={most} free={4096 - n}\n")


def given(name):
    return read("TEXT", b"input" if name == b"-" else name) if name != b"-" or os.path.exists(b"input") else argument("TEXT", name, REASONS[errno.EBADF])


def text_of(name):
    text = given(name)
    if len(text) > 4096:
        size = "over 65536 bytes" if len(text) > 65536 else many(len(text), "byte")
        say(cause_line(9, 0, f"TEXT {quoted(name)} has {size} and may have 4096; cut it into shorter texts") + "\n")
        stop(cause_result(9, 0))
    return text


def encode(file, text):
    d = load(file)
    codes = model.merge(d, text_of(text))
    say(f"{joined(codes)}\nresult: encoded{fields(len(codes))}\n")


def shortest(file, text):
    d = load(file)
    codes = model.shortest(d, text_of(text))
    say(f"{joined(codes)}\nresult: shortest{fields(len(codes))}\n")


def count(file, text):
    d = load(file)
    n = len(model.merge(d, text_of(text)))
    say(f"{in_bursts(n)}\nresult: counted{fields(n)}\n")


def fits(file, text, given_bursts):
    d = load(file)
    data = text_of(text)
    if not re.fullmatch(rb"[0-9]+", given_bursts) or int(given_bursts) > 103:
        argument("BURSTS", given_bursts, "give a number from 0 to 103; 103 bursts hold every text")
    limit = 40 * int(given_bursts)
    n = model.limited(len(model.merge(d, data)), limit)
    if n == model.NONE:
        say(f"over: more than {many(limit, 'code')}\nresult: over limit={limit}\n")
    else:
        say(f"fits: {many(n, 'code')}, {limit - n} left\nresult: fits codes={n} left={limit - n}\n")


def decode(file, name):
    d, codes = load(file), []
    text = given(name)
    if len(text) > 65536:
        argument("TEXT", name, "it has more than 65536 bytes")
    for word in re.split(rb"[ ,\t\n\v\f\r]+", text.strip(b" ,\t\n\v\f\r")):
        if word in (b"", b"result:") or len(codes) == 4097:
            break
        if not re.fullmatch(rb"[0-9]+", word) or int(word) >= 2 ** 64:
            argument("TEXT", name, f"{quoted(word)} is no number; give codes, as encode prints them")
        codes.append(min(int(word), model.NONE))
    if len(codes) > 4096:
        say(cause_line(9, 0, "there are more than 4096 codes; cut the list") + "\n")
        stop(cause_result(9, 0))
    for i, code in enumerate(codes):
        if code >= len(d.rows):
            say(cause_line(10, i, f"code {code} is no row: the file has {many(len(d.rows), 'row')}, numbered from 0") + "\n")
            stop(cause_result(10, i))
    data = model.decode(d, codes)
    say(data)
    say(f"\nresult: decoded codes={len(codes)} bytes={len(data)}\n")


def type_text(file, each):
    d, text, refused, lines, is_open = load(file), b"", 0, 0, False
    def shown():
        full = f"; FULL: {many(refused, 'byte')} not taken, a text has at most 4096" if refused else ""
        return f"{many(len(text), 'byte')}, {in_bursts(len(model.merge(d, text)))}{full}\n"
    for byte in given(b"-") if os.path.exists(b"input") else b"":
        is_open = True
        if byte in (8, 127):
            text = text[:-1]
        elif len(text) == 4096:
            refused += 1
        else:
            text += bytes([byte])
        if each:
            say(f"'{escaped(byte)}': {shown()}")
        elif byte == 10:
            lines, is_open = lines + 1, False
            say(f"line {lines}: {shown()}")
    if is_open and not each:
        say(f"line {lines + 1}: {shown()}")
    codes = model.merge(d, text)
    say(f"sent: {joined(codes)}\nsender and counter agree: {in_bursts(len(codes))}\n")
    say(f"result: typed bytes={len(text)}{fields(len(codes))} agree=yes\n")


def why(file, one, two):
    d, rows = load(file), []
    for word in (one, two):
        if not re.fullmatch(rb"[0-9]+", word) or int(word) >= 2 ** 64:
            argument("ROW", word, "it is no number")
    for i, word in enumerate((one, two)):
        if int(word) >= len(d.rows):
            say(cause_line(10, i, f"there is no such row: the file has {many(len(d.rows), 'row')}, numbered from 0") + "\n")
            stop(cause_result(10, i))
        rows.append(int(word))
    for c in rows:
        parts = "a single byte" if len(d.rows[c]) == 1 else f"{row(d.rows, d.parts[c][0])} and {row(d.rows, d.parts[c][1])}"
        say(f"{row(d.rows, c)} is {parts}\n")
    if d.passes(*rows):
        say("they may stand beside each other\n")
    else:
        both = model.decode(d, rows)
        say(f"they may not stand beside each other: {quoted(both)} is sent as {joined(model.merge(d, both))}\n")
    say(f"result: {'passes' if d.passes(*rows) else 'fails'} left={rows[0]} right={rows[1]}\n")


def show(file, name, out):
    d = load(file)
    text = text_of(name)
    write("OUT", out, page.page(d, text))
    n = len(model.merge(d, text))
    say(f"{quoted(out)}: {in_bursts(n)}\nresult: shown{fields(n)}\n")


def usage():
    """The page of usage is taken from its source: it has no numbers to get wrong."""
    source = open(os.path.join(os.path.dirname(__file__), "../crates/phrase_tool/src/usage.rt"), encoding="utf-8").read()
    text = re.search(r'PAGE: &str = "(.*?)";', source, re.S)[1]
    say(re.sub(r"\\\n\s*", "", text).encode().decode("unicode_escape"))


COMMANDS = {
    b"sheet": (sheet, "SHEET OUT", 2, 2),
    b"check": (check, "FILE [FACTOR]", 1, 2),
    b"encode": (encode, "FILE TEXT", 2, 2),
    b"count": (count, "FILE TEXT", 2, 2),
    b"shortest": (shortest, "FILE TEXT", 2, 2),
    b"decode": (decode, "FILE TEXT", 2, 2),
    b"type": (type_text, "FILE", 1, 1),
    b"why": (why, "FILE ROW ROW", 3, 3),
    b"show": (show, "FILE TEXT OUT", 3, 3),
    b"fits": (fits, "FILE TEXT BURSTS", 3, 3),
}


def run(words, each):
    if not words or words[0] == b"help":
        return usage()
    if words[0] not in COMMANDS:
        stop(f"error: {quoted(words[0])} is no command; see phrases help\nresult: error argument=command\n")
    command, takes, least, most = COMMANDS[words[0]]
    if not least <= len(words) - 1 <= most:
        stop(f"error: {words[0].decode()} takes {takes}; arguments given: {len(words) - 1}; see phrases help\nresult: error argument=count\n")
    command(*words[1:], **({"each": each} if command is type_text else {}))


def main():
    os.chdir(sys.argv[1])
    each = False
    for line in sys.stdin.buffer.read().split(b"\n"):
        if line in (b"each byte", b"each line"):
            each = line == b"each byte"
        elif line.startswith(b"write "):
            name, times, text = line[6:].split(b" ", 2)
            with open(name, "wb") as file:
                file.write(unescape(text) * int(times))
        elif line.startswith(b"print "):
            with open(line[6:], "rb") as file:
                say(file.read())
        elif line == b"phrases" or line.startswith(b"phrases "):
            say(b"> " + line + b"\n")
            try:
                run([b"" if w == b"''" else unescape(w) for w in line[8:].split(b" ")] if line != b"phrases" else [], each)
            except Stop:
                pass
    sys.stdout.buffer.write(b"".join(OUT))


if __name__ == "__main__":
    main()
