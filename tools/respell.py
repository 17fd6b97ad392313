#!/usr/bin/env python3
"""Writes the repository's own words in snake case: definitions, fields, constructors and lemmas, wherever they are named.

usage: tools/respell.py [--check] [FOLDER]

    legalArena, sumTo-more, thereIn  ->  legal_arena, sum_to-more, there_in

A word is a part of a name between dashes that begins with a small letter and has a capital; a name from a fact or a type,
as All-append, keeps its capital. It goes over the .rt files of src/, the .antt files of specs/ and proofs/ and the edits of
must-fail/ below FOLDER/crates; strings stay, and so do functions of src/, which have no such names. It names the new names
that something else has already: a function of src/ may share its definition's, and the others are told apart by KNOWN, LEMMAS
and LOCAL. A second run changes nothing.
"""
import glob
import re
import sys

WORD = r"[^\s(){}.;,@\"«»\[\]\\]+"
TOKEN = re.compile(r"//[^\n]*|--[^\n]*|\"(?:[^\"\\]|\\.)*\"|«[^»]*»|" + WORD, re.S)
TEXT = re.compile(WORD)
HUMP = re.compile(r"(?<=[a-z0-9])(?=[A-Z])|(?<=[A-Z])(?=[A-Z][a-z])")
WHOLE = re.compile(r"[a-z][A-Za-z0-9]*[₀-₉']*$")

# A definition that would have the name of a crate.
KNOWN = {"tableBytes": "bytes_of_table"}
# Parts that std respelled to something else.
PARTS = {"getD": "get_or"}

# Lemmas that had a dash where the definition had a capital: each gets `_lem` before the definition gets its name.
LEMMAS = set("down_to first_bit head_at link_near look_at name_in one_more one_name part_in stored_bytes taken_as too_long".split())
LOCAL = {"sequences/proofs/Withins.antt": {"is_open"}}
BARE = re.compile(r"(?<![.\w'-])" + WORD)


def respelled(name):
    if name in KNOWN:
        return KNOWN[name]
    parts = re.split(r"(-)", name)
    return "".join(PARTS[it] if it in PARTS else HUMP.sub("_", it).lower() if WHOLE.match(it) and re.search("[A-Z]", it) else it for it in parts)


def turn(text, comments=True):
    def one(m):
        it = m[0]
        if it[0] in '"«':
            return it
        if it.startswith(("//", "--")):
            return TEXT.sub(lambda w: respelled(w[0]) if known(w[0]) else w[0], it) if comments else it
        return respelled(it)

    return TOKEN.sub(one, text)


names = set()


def known(word):
    return word in names


def main(argv):
    check = "--check" in argv
    rest = [it for it in argv if it != "--check"]
    top = rest[0] if rest else "."
    files = []
    for part, end in (("src", "rt"), ("specs", "antt"), ("proofs", "antt")):
        files += glob.glob(f"{top}/crates/*/{part}/**/*.{end}", recursive=True)
    edits = glob.glob(f"{top}/crates/*/must-fail/*.edit")
    texts = {f: open(f, encoding="utf-8").read() for f in sorted(files)}
    read = dict(texts)
    if any(respelled(it) != it for t in texts.values() for it in TEXT.findall(t) if it.startswith("legalArena")):
        for f in texts:
            if f.endswith(".antt"):
                taken = LEMMAS.union(*(it for end, it in LOCAL.items() if f.endswith(end)))
                texts[f] = BARE.sub(lambda m: m[0] + "_lem" if m[0] in taken else m[0], texts[f])
    for t in texts.values():
        for m in TOKEN.finditer(t):
            if not m[0].startswith(("//", "--", '"', "«")):
                names.add(m[0])
    moved = {it: respelled(it) for it in names if respelled(it) != it}
    new = {}
    bad = []
    for old, it in sorted(moved.items()):
        if it in names:
            bad.append(f"{old} -> {it}, which stands already")
        if it in new:
            bad.append(f"{old} and {new[it]} -> {it}")
        new[it] = old
    for it in bad:
        print("shared:", it)
    print(f"{len(moved)} names, {len(bad)} shared")
    if check:
        return 0
    for f, t in texts.items():
        u = turn(t)
        if u != read[f]:
            open(f, "w", encoding="utf-8").write(u)
    for f in edits:
        t = open(f, encoding="utf-8").read()
        u = "".join(line if line.startswith("file:") else turn(line) for line in t.splitlines(keepends=True))
        if u != t:
            open(f, "w", encoding="utf-8").write(u)
    return 0


if __name__ == "__main__":
    sys.exit(main(sys.argv[1:]))
