#!/usr/bin/env python3
"""Brings this repository's own definitions and lemmas to the spelling of today's Rattle.

usage: python3 tools/respell.py            at the top of the repository, once, after port.py
       python3 tools/respell.py --clashes  lists the names that would fall together in one file, and writes nothing

A name of specs/ or proofs/ that begins with a small letter and has a capital inside is written in snake case (tokenOf: token_of), a middle dot
becomes a dash (lineEnd·nil: line_end-nil). Facts and types, which begin with a capital, stay. Turned are whole words: in .antt files all text but
texts in quotes, in .rt files clauses, ghost items and comments, in .edit files all text. Functions of src/, exported names, strings and data stay.
Where a lemma is spelled already as a definition will be, the lemma gets _lem (CLASHES).
"""

import collections
import os
import re
import sys

ROOT = "crates"
WORD = re.compile(r"[A-Za-z][A-Za-z0-9_'₀-₉]*(?:[-·][A-Za-z0-9_'₀-₉]+)*")
DEFINED = re.compile(
    r"^\s*(?:(?:unfoldable|abbrev|mutual) )*(?:pub )?(?:record |data |ruleset )?([^\s(){}.;,@\"«»:]+)(?: [^:]*)? : "
)
CLAUSE = re.compile(r"\b(?:requires|ensures|ghost)\b")

# a lemma that is spelled already as a definition will be, in these files: it gets _lem
CLASHES = {
    "none_found": ["describing/proofs/Texts.antt"],
    "by_name": ["describing/proofs/Texts.antt"],
    "same_place": ["markup/proofs/Known.antt"],
    "root_line": ["written_form/proofs/Tail.antt"],
    "with_part": ["claims/proofs/Accepted.antt"],
    "in_order": ["claims/proofs/Ranges.antt"],
    "is_one": ["claims/proofs/Cdls.antt"],
    "id_right": ["claims/proofs/Attributes.antt"],
    "before_root": ["around_root/proofs/Turns.antt"],
    "out_name": ["reads_back/proofs/Ranges.antt"],
    "only_end": ["markup/proofs/Tags.antt", "markup/proofs/only_end/Proof.antt"],
    "part_in": [
        "describing/proofs/Laws.antt",
        "cdl_node/proofs/Inner.antt",
        "node_parts/proofs/Held.antt",
        "around_root/proofs/Turns.antt",
        "tags/proofs/part/Proof.antt",
        "tags/proofs/AttributeLaws.antt",
        "tags/proofs/Ends.antt",
        "tags/proofs/Words.antt",
        "info/proofs/Contents.antt",
        "file_text/proofs/Content.antt",
    ],
}


def snake(name):
    name = re.sub(r"(?<=[a-z0-9])([A-Z])", lambda m: "_" + m[1].lower(), name)
    return name.replace("·", "-")


def files(ends):
    for folder, dirs, names in os.walk(ROOT):
        made = os.path.dirname(folder) == ROOT  # what rt makes lies in crates/NAME/out
        dirs[:] = sorted(d for d in dirs if not (made and d == "out"))
        for name in sorted(names):
            if name.endswith(ends):
                yield os.path.join(folder, name)


def read(path):
    with open(path, encoding="utf-8") as f:
        return f.read()


def table():
    found = set()
    for path in files(".antt"):
        for line in read(path).splitlines():
            m = DEFINED.match(line)
            if m and not line.lstrip().startswith("--"):
                for part in [m[1]]:
                    if part[0].islower() and (re.search(r"[a-z0-9][A-Z]", part) or "·" in part):
                        found.add(part)
    # a lemma's name may begin with a definition's: each part is turned as the definition is
    parts = {p for n in found for p in re.split("[-·]", n) if re.search(r"[a-z0-9][A-Z]", p)}
    parts -= {"getD"}
    return found, parts


def turner(found, parts):
    def one(m):
        word = m[0]
        if word in found:
            return "-".join(snake(p) if p != "getD" else p for p in re.split("[-·]", word))
        pieces = re.split("([-·])", word)
        if any(p in parts for p in pieces):
            return "".join(snake(p) if p in parts else p for p in pieces)
        return word

    return one


def turn_antt(text, one):
    out = []
    for piece in re.split(r'("(?:[^"\\\n]|\\.)*")', text):
        out.append(piece if piece.startswith('"') else WORD.sub(one, piece))
    return "".join(out)


def turn_rt(text, one):
    """Clauses, ghost items and comments turn; code, strings and attributes stay."""
    lines, depth, ghost = [], 0, False
    for line in text.split("\n"):
        bare = line.strip()
        if bare.startswith("//"):
            lines.append(WORD.sub(one, line))
            continue
        if depth == 0 and not ghost and bare.startswith("ghost use"):
            ghost = True
        if ghost:
            lines.append(WORD.sub(one, line))
            if ";" in line:
                ghost = False
            continue
        if depth == 0 and re.match(r"(requires|ensures|ghost)\b", bare):
            depth = line.count("{") - line.count("}")
            lines.append(WORD.sub(one, line))
            continue
        if depth > 0:
            depth += line.count("{") - line.count("}")
            lines.append(WORD.sub(one, line))
            continue
        code, mark, comment = line.partition("//")
        lines.append(code + mark + (WORD.sub(one, comment) if mark else ""))
    return "\n".join(lines)


def clashes(found, parts):
    one = turner(found, parts)
    for path in files((".antt", ".rt")):
        text = read(path)
        words = {m[0] for m in WORD.finditer(text)}
        both = sorted(w for w in words if one(re.match(".*", w)) != w and one(re.match(".*", w)) in words)
        if both:
            print(path[len(ROOT) + 1 :], " ".join(both))


def main():
    found, parts = table()
    if "--clashes" in sys.argv:
        return clashes(found, parts)
    lemmas = collections.defaultdict(list)
    for name, paths in CLASHES.items():
        for path in paths:
            lemmas[os.path.join(ROOT, path)].append(name)
    one = turner(found, parts)
    defined = {m[1] for p in files(".antt") for m in map(DEFINED.match, read(p).splitlines()) if m}

    def in_edit(m):
        """In an edit also what port.py turned elsewhere."""
        word = one(m)
        return snake(word) if re.search(r"[a-z0-9][A-Z]", word) and snake(word) in defined else word

    for path in list(files((".antt", ".rt", ".edit"))):
        old = text = read(path)
        for name in lemmas.get(path, []):
            text = re.sub(rf"(?<![\w.'-]){name}(?![\w'-])", name + "_lem", text)
        if path.endswith(".rt"):
            text = turn_rt(text, one)
        else:
            text = turn_antt(text, in_edit if path.endswith(".edit") else one)
        if text != old:
            with open(path, "w", encoding="utf-8") as f:
                f.write(text)


main()
