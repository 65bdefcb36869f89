#!/usr/bin/env python3
"""Spells the names of this repository's own definitions and lemmas as today's Rattle does (PORTING.md, part 3): words in snake case.

usage: tools/respell.py [FOLDER]

It is run once, in the folder (the top of a checkout) that the kit's port.py has just turned. The names are those that specs/ and the lemma files of proofs/
declare. Types, modules and facts keep their capitals. A dash stays where it joins two names, as in `length-be`, and between words it is `_`.
It stops where two names of a file would fall together. The kit's snake.py rewrites the words; functions of src/, strings and must-fail edits stay.
"""
import glob
import os
import re
import subprocess
import sys
import tempfile

SNAKE = "/opt/rattle/port/notes/2026-11-18-names-are-in-snake-case/snake.py"
NAME = r"[^\s(){}.;,@\"«»:]+"
DECLARED = re.compile(rf"(?m)^ *(?:(?:pub|abbrev|unfoldable|record|data) )*({NAME})(?: \{{[^{{}}\n]*\}}| \([^()\n]*\)| \[[^\n]*\])* :(?= |$)")
QUIET = re.compile(r'"(?:[^"\\\n]|\\.)*"|--[^\n]*')
# Constructors and fields of specs/ that would have a definition's name, and the names that they get.
APART = {"or-else": "or_else_lem", "none-holds": "no_case_holds", "spare-bit": "spare_bit_flipped"}
# Variables that a proof or an import binds.
LOCALS = "ownType fromPlmn fromImei fromHost senderOf".split()
# Fields that may have a name which stands elsewhere: a field is named behind a dot or in a record.
FIELDS = {"in-mme", "in-sgsn", "flags-there", "imei-digits", "goesOn"}
# What a dash may join beside a definition: the words by which the libraries' lemmas name functions and operators.
JOINED = set(
    "length append take drop get_or add mul sub div mod pow suc zero cons nil snoc replicate map cond and or not true false eq lt le set reverse".split()
)


def read(path):
    with open(path, encoding="utf-8") as text:
        return text.read()


def code_of(text):
    return QUIET.sub(" ", text)


def snake(word):
    """A word in snake case: a capital inside it begins a word."""
    return re.sub(r"(?<=[a-z0-9₀-₉'])[A-Z]", lambda m: "_" + m[0].lower(), word)


def spelled(name, names):
    if name[:1].isupper():
        head, dash, rest = name.partition("-")
        return head + dash + spelled(rest, names) if rest else name
    parts = [snake(it) for it in name.split("-")]
    out = parts[0]
    for before, part in zip(parts, parts[1:]):
        joins = before in names and part in names
        out += ("-" if joins else "_") + part
    return out


def main():
    top = sys.argv[1] if len(sys.argv) > 1 else "."
    files = sorted(glob.glob(os.path.join(top, "crates/*/*/**/*.antt"), recursive=True))
    files = [it for it in files if "/must-fail/" not in it]
    laws = [it for it in files if not it.endswith("/Proof.antt")]
    specs = {n for it in laws if "/specs/" in it for n in DECLARED.findall(code_of(read(it)))}
    proofs = {n for it in laws if "/proofs/" in it for n in DECLARED.findall(code_of(read(it)))}
    names = JOINED | {snake(n).replace("-", "_") for n in specs}
    table = {n: APART.get(n, snake(n).replace("-", "_")) for n in specs if not n[:1].isupper()}
    of_camel = {snake(n) for n in specs | proofs if snake(n) != n and "-" not in n}
    for n in proofs - specs:
        new = spelled(n, names)
        table[n] = APART.get(n) or (new + "_lem" if snake(n) == n and new in of_camel else new)
    # An operator is cited by its parts.
    table.update({n.strip("◌"): new.strip("◌") for n, new in list(table.items()) if n[0] == "◌" == n[-1] and "◌" not in n[1:-1]})
    table.update({n: snake(n) for n in LOCALS})
    table = {old: new for old, new in table.items() if old != new}
    meets = []
    for it in laws:
        words = set(re.findall(r"[^\s(){}.;,@\"«»]+", re.sub(rf"\.{NAME}", " ", code_of(read(it)))))
        for old in words & table.keys() - FIELDS:
            rivals = [w for w in words if w != old and w not in FIELDS and table.get(w, w) == table[old]]
            meets += [f"{it}: {old} would meet {rivals[0]}"] if rivals else []
    if meets:
        sys.exit("\n".join(meets))
    with tempfile.NamedTemporaryFile("w", suffix=".tsv", encoding="utf-8", delete=False) as rows:
        rows.writelines(f"{old}\t{new}\n" for old, new in sorted(table.items()))
    subprocess.run([sys.executable, SNAKE, "--table", rows.name, "--prose", "file", os.path.join(top, "crates")], check=True)
    os.remove(rows.name)


main()
