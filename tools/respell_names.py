#!/usr/bin/env python3
"""Brings the repository's own definitions and lemmas to today's spelling.

usage: python3 tools/respell_names.py [--list]     at the top of the repository, once, after the kit's own scripts

Words, fields and constructors are in snake case (`wordBit` becomes `word_bit`), types keep their capitals. In the name of
a lemma a dash stays where it joins two names,
each of them declared here or in the library (`length-append`), or where it follows a capital (`E-accepted`); else it
becomes `_` (`lowest-is` becomes `lowest_is`). Functions of src/, exported names, strings, inputs and outputs stay.
--list prints the old and the new names and writes nothing. Names that fall together in a file stop the script, but for
those that only stand in a path there: --anyway goes on.
"""
import os
import re
import sys

TOKEN = re.compile(r"[^\s(){}\[\].,;\"@|`λ⌜⌝]+")
DECLARED = re.compile(r"^\s*(?:pub |abbrev |unfoldable |private )*([^\s(){}:,.\"]+(?: [^\s(){}:,.\"]+)*)\s*:\s")
HEADED = re.compile(r"^\s*(?:pub |abbrev |unfoldable )*(?:data|record)\s+(?:pub )?(\S+)")
# Lemmas whose name falls together with a word that they speak of.
LEMMAS = """any_out codes-in-form codes-with count_at first_byte has_parts head-out interval-count is-record last_code left-of
listed_in other-lines parent-of parts-in-form parts-of row-hash short-tree table-codes tree-in-form""".split()
LIBRARY = set("length take drop append set get_or map none some nil cons suc zero true false and or not lt le ge min max "
              "replicate reverse add sub mul div mod pow prefix".split())
RESERVED = {"module", "where", "let", "in", "use", "mod", "data", "record", "elim", "abbrev", "pub", "open", "as"}

# Fields whose name falls together with a word that they speak of.
FIELDS = {"in-form": "is_in_form", "last-codes": "last_codes_are", "all-rows": "all_rows_are"}


def files(root):
    for folder, dirs, names in os.walk(os.path.join(root, "crates")):
        dirs[:] = sorted(d for d in dirs if d != "out")
        for name in sorted(names):
            if name.endswith((".antt", ".rt", ".edit")):
                yield os.path.join(folder, name)


def declared(root):
    """The names that files of specs/ and lemma files of proofs/ declare, and those of them that are no lemmas."""
    found = set()
    words = set()
    for path in files(root):
        parts = os.path.relpath(path, root).split(os.sep)
        if not path.endswith(".antt") or (parts[2] == "proofs" and len(parts) > 4):
            continue
        inside = -1
        with open(path, encoding="utf-8") as f:
            for line in f:
                text = line.lstrip()
                if not text.strip():
                    continue
                depth = len(line) - len(text)
                if depth <= inside:
                    inside = -1
                if text.startswith(("--", "use ", "pub use ", "let ", "in ", "λ", "(", "|", "pub mod", "mod ")):
                    continue
                head = HEADED.match(line)
                if head:
                    found.add(head.group(1))
                    inside = depth
                    continue
                decl = DECLARED.match(line)
                if decl:
                    here = [w for w in decl.group(1).split() if w not in RESERVED]
                    found.update(here)
                    if inside >= 0 or parts[2] == "specs":
                        words.update(here)
    return found, words


def snake(part):
    return re.sub(r"(?<=[A-Za-z0-9'₀-₉])([A-Z])", lambda m: "_" + m.group(1).lower(), part)


def respelled(name, known, word):
    if not re.search(r"[A-Za-z]", name):
        return name
    parts = name.split("-")
    if "" in parts:
        return name
    new = [p if re.match(r"[A-Z]", p) else snake(p) for p in parts]
    text = new[0]
    joins = not word and len(parts) == 2 and parts[0] in known and parts[1] in known
    for i in range(1, len(parts)):
        capital = re.match(r"[A-Z]", parts[i - 1]) or re.match(r"[A-Z]", parts[i])
        text += ("-" if joins or capital else "_") + new[i]
    return text


def pieces(text, comment):
    """The text in pieces, each with whether it is code: not a comment, and not a string or a character."""
    rule = re.compile(r"%s[^\n]*|\"(?:\\.|[^\"\\])*\"|b?'(?:\\.|[^'\\\n])'" % comment) if comment == "//" else re.compile(r"--(?=[\s-]|$)[^\n]*", re.M)
    at = 0
    for m in rule.finditer(text):
        yield text[at:m.start()], True
        yield m.group(0), False
        at = m.end()
    yield text[at:], True


def turned(text, names, comment):
    def one(m):
        return names.get(m.group(0), m.group(0))

    def in_comment(m):
        old = m.group(0)
        return names.get(old, old) if "-" not in old else old

    out = []
    for piece, code in pieces(text, comment):
        if code:
            out.append(TOKEN.sub(one, piece))
        elif piece.startswith(comment):
            ticked = re.sub(r"`[^`\n]*`", lambda m: TOKEN.sub(one, m.group(0)), piece)
            out.append(TOKEN.sub(in_comment, ticked))
        else:
            out.append(piece)
    return "".join(out)


def main(argv):
    root = "."
    own, words = declared(root)
    known = own | LIBRARY
    names = {n: respelled(n, known, n in words) for n in own}
    names.update({n: n.replace("-", "_") + "_lem" for n in LEMMAS if n in own})
    names.update({n: new for n, new in FIELDS.items() if n in own})
    names = {a: b for a, b in names.items() if a != b}
    if argv == ["--list"]:
        for a in sorted(names):
            print(a, names[a])
        return 0
    clashes = []
    targets = {}
    for a, b in names.items():
        targets.setdefault(b, []).append(a)
    for b, olds in sorted(targets.items()):
        if b in own and b not in names:
            olds = olds + [b]
        if len(olds) > 1:
            clashes.append((b, sorted(olds)))
    texts = {}
    near = []
    for path in files(root):
        with open(path, encoding="utf-8") as f:
            text = f.read()
        texts[path] = text
        if not path.endswith(".antt"):
            continue
        tokens = set()
        for piece, code in pieces(text, "--"):
            if code:
                tokens.update(TOKEN.findall(piece))
        for a in tokens & names.keys():
            if names[a] in tokens and names[a] not in names:
                near.append((path, a, names[a]))
        for b, olds in clashes:
            if sum(n in tokens for n in olds) > 1:
                near.append((path, " ".join(olds), b))
    for b, olds in clashes:
        print("together, in different files:", b, "from", *olds)
    for path, a, b in near:
        print("beside:", path, a, b)
    if near and "--anyway" not in argv:
        return 1
    for path, text in texts.items():
        if path.endswith(".edit"):
            new = turned(text, names, "--") if "\nfile: specs/" in "\n" + text or "\nfile: proofs/" in "\n" + text else turned(text, names, "//")
        else:
            new = turned(text, names, "//" if path.endswith(".rt") else "--")
        if new != text:
            with open(path, "w", encoding="utf-8") as f:
                f.write(new)
    return 0


if __name__ == "__main__":
    raise SystemExit(main(sys.argv[1:]))
