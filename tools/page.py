"""The page of `phrases show`, written from page/PAGE.md over the model of document 01: the second source that the program's page is compared with.

usage: python3 tools/page.py FILE.phr TEXT > OUT.html
"""

import sys

import model

USAGE = """usage: python3 tools/page.py FILE.phr TEXT > OUT.html
  FILE.phr  a phrase file that the build accepts with factor 1
  TEXT      a file with the message, at most 4096 bytes
example: python3 tools/page.py season/sheet.phr season/messages/short.txt > short.html"""

BURST = 40
COLOURS = 12
LONGEST_TEXT = 4096

HEAD = rb"""<!DOCTYPE html>
<html lang="en">
<head>
<meta charset="utf-8">
<meta name="viewport" content="width=device-width, initial-scale=1">
<title>A message in codes</title>
<style>
body { margin: 0 auto; max-width: 60rem; padding: 1rem; background: #fff; color: #111; font: 1rem/1.3 sans-serif; }
h1 { margin: 0 0 .5rem; font-size: 1.5rem; }
h2 { margin: 0 0 .5rem; font-size: 1.1rem; break-after: avoid; }
ul { display: flex; flex-wrap: wrap; gap: .5rem; margin: 1rem 0; padding: 0; list-style: none; }
li { flex: 1 1 7rem; padding: .4rem .7rem; border: 1px solid #888; border-radius: .3rem; font-size: .85rem; }
b { display: block; font-size: 1.5rem; }
section { margin: 1rem 0; padding: .7rem; border: 2px solid #444; border-radius: .3rem; }
section p { margin: 0; }
span { display: inline-block; max-width: 100%; min-width: 1.7rem; box-sizing: border-box; margin: 0 0 .3rem; padding: .15rem .2rem; border: 1px solid #777; border-radius: .2rem; font-family: monospace; text-align: center; vertical-align: top; white-space: break-spaces; overflow-wrap: anywhere; }
small { display: block; font: .7rem/1.2 sans-serif; color: #333; }
i { font-size: .8em; color: #8a0000; }
u { position: relative; text-decoration: none; }
u::after { content: "\B7"; position: absolute; left: 0; right: 0; text-align: center; color: #666; }
@media screen {
.c0 { background: #ffd2d2; }
.c1 { background: #ffe0bd; }
.c2 { background: #fff2a8; }
.c3 { background: #e3f4ae; }
.c4 { background: #c9f0c9; }
.c5 { background: #bff0e0; }
.c6 { background: #c4ecf9; }
.c7 { background: #cbdcff; }
.c8 { background: #d9d2ff; }
.c9 { background: #edcfff; }
.c10 { background: #ffcdec; }
.c11 { background: #e2e2e2; }
}
@media print {
body { max-width: none; padding: 0 1px; font-size: 10pt; color: #000; }
span { border-color: #000; border-radius: 0; }
section { border: 0; border-top: 2px solid #000; border-radius: 0; padding: .5rem 0 0; break-inside: avoid; }
small, i { color: #000; }
}
</style>
</head>
<body>
<h1>A message in codes</h1>
<p>Each box is one code: a row of the phrase file, and below it the row's number. A burst carries 40 codes. <u>&nbsp;</u> is a space, <i>&crarr;</i> a line break, <i>\xNN</i> a byte that is no character by itself.</p>
<ul>
"""

END = b"""</body>
</html>
"""


def character(row, at):
    """How many bytes the character at this place of the row has; 0 if it is shown byte by byte."""
    for size in range(1, 5):
        try:
            number = ord(row[at:at + size].decode("utf-8"))
        except (UnicodeDecodeError, TypeError):
            continue
        control = number < 32 or 127 <= number < 160
        no_character = 0xFDD0 <= number <= 0xFDEF or number % 65536 >= 65534
        return 0 if control or no_character else size
    return 0


def shown(row):
    """The row's bytes as the page shows them."""
    out, at = b"", 0
    while at < len(row):
        size = character(row, at)
        piece = row[at:at + max(size, 1)]
        if piece == b"\n":
            out += b"<i>&crarr;</i>"
        elif size == 0:
            out += b"<i>\\x%02X</i>" % piece[0]
        else:
            out += {b"&": b"&amp;", b"<": b"&lt;", b">": b"&gt;", b" ": b"<u> </u>"}.get(piece, piece)
        at += len(piece)
    return out


def code_box(row, number):
    """One code."""
    title = row.hex(" ").upper().encode()
    end = b"<br>" if b"\n" in row else b""
    return b'<span class="c%d" title="%s">%s<small>%d</small></span>%s\n' % (number % COLOURS, title, shown(row), number, end)


def burst_box(d, number, codes):
    """One burst: its heading and its codes."""
    word = b"code" if len(codes) == 1 else b"codes"
    rest = b"full" if len(codes) == BURST else b"%d left" % (BURST - len(codes))
    boxes = b"".join(code_box(d.rows[c], c) for c in codes)
    return b"<section>\n<h2>Burst %d: %d %s, %s</h2>\n<p>\n%s</p>\n</section>\n" % (number, len(codes), word, rest, boxes)


def page(d, text):
    codes = model.merge(d, text)
    bursts = [codes[at:at + BURST] for at in range(0, len(codes), BURST)]
    left = BURST * len(bursts) - len(codes)
    totals = [(b"Bytes", len(text)), (b"Codes", len(codes)), (b"Bursts", len(bursts)), (b"Left in the last burst", left)]
    return b"".join([
        HEAD,
        b"".join(b"<li>%s <b>%d</b></li>\n" % total for total in totals),
        b"</ul>\n",
        b"".join(burst_box(d, number + 1, burst) for number, burst in enumerate(bursts)),
        END])


def read(path):
    try:
        with open(path, "rb") as file:
            return file.read()
    except OSError as error:
        sys.exit(f"page: cannot read {path}: {error.strerror}")


def main(arguments):
    if len(arguments) != 2:
        sys.exit(USAGE)
    file, text = read(arguments[0]), read(arguments[1])
    answer, d = model.build(file, 1)
    if answer[0]:
        sys.exit(f"page: {arguments[0]} is refused with cause {answer[0]}, place {answer[1]}")
    if len(text) > LONGEST_TEXT:
        sys.exit(f"page: {arguments[1]} has {len(text)} bytes, more than {LONGEST_TEXT} (cause 9)")
    sys.stdout.buffer.write(page(d, text))


if __name__ == "__main__":
    main(sys.argv[1:])
