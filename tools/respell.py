#!/usr/bin/env python3
"""Brings this repository's own definitions and lemmas to the spelling of today's Rattle.

Run once at the top, right after the toolchain's port.py. Words in lower camel case become snake case (frontAt: front_at), in
specs/, proofs/, the clauses and comments of src/, the must-fail edits and the pages. Texts between quotes stay, and so do the
functions, types, fields and constants of src/, which are in snake case or begin with a capital. A lemma that would fall
together with a definition gets _lem.
"""
import glob
import re

NAME = re.compile(r"[^\s(){}\[\];,.«»:=λ→\"`]+")
# a comment, whose quotes are no text's, or a text
PIECE = {
    ".antt": re.compile(r'--[^\n]*|"(?:\\.|[^"\\])*"', re.S),
    ".rt": re.compile(r"//[^\n]*|b?'(?:\\.|[^'\\\n])'|b?\"(?:\\.|[^\"\\])*\"", re.S),
}
CAMEL = re.compile(r"[a-z][a-z0-9]*[A-Z]")
# a lemma's name now, and the one that keeps it apart from a definition, in a crate or where the lemma is stated and cited
APART = {
    "crates/show_lines/": {"by_part": "by_part_lem"},
    "crates/frames/": {"agrees_at": "agrees_at_lem"},
    "crates/alike/": {"agree_of": "agree_of_lem"},
    "crates/profiles/proofs/TableLaws.antt": {"row_of": "row_of_lem"},
    "crates/profiles/proofs/built_in/": {"row_of": "row_of_lem"},
}


def snake(name):
    if name.startswith("getD-"):
        name = "get_or" + name[4:]
    parts = []
    for part in name.split("-"):
        if CAMEL.match(part):
            part = re.sub(r"([a-z0-9])([A-Z])", r"\1_\2", part).lower()
        parts.append(part)
    return "-".join(parts)


def outside_texts(text, kind, change):
    out, at = [], 0
    for piece in PIECE[kind].finditer(text):
        is_comment = piece.group().startswith(("--", "//"))
        out += [change(text[at:piece.start()]), change(piece.group()) if is_comment else piece.group()]
        at = piece.end()
    return "".join(out) + change(text[at:])


def declared():
    """Every name in lower camel case that a file of specs/ or proofs/ has outside its texts and comments."""
    names = set()
    for path in glob.glob("crates/*/specs/**/*.antt", recursive=True) + glob.glob("crates/*/proofs/**/*.antt", recursive=True):
        text = PIECE[".antt"].sub(" ", open(path).read())
        names.update(name for name in NAME.findall(text) if snake(name) != name)
    return names


def main():
    names = {name: snake(name) for name in declared()}
    for path in sorted(glob.glob("crates/*/**/*", recursive=True)):
        if not path.endswith((".antt", ".rt", ".edit")):
            continue
        apart = {old: new for place, names_there in APART.items() if path.startswith(place) for old, new in names_there.items()}
        text = open(path).read()

        def change(piece):
            return NAME.sub(lambda m: apart.get(m.group(), names.get(m.group(), m.group())), piece)

        kind = path[path.rindex("."):]
        turned = change(text) if kind == ".edit" else outside_texts(text, kind, change)
        if turned != text:
            open(path, "w").write(turned)


main()
