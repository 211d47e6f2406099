#!/usr/bin/env python3
"""Brings the repository's own names in specs/ to snake case, after port.py has run.

usage: tools/port-names.py [FOLDER]

A name that a file of crates/*/specs declares with a small first letter (a definition, a lemma, a
constructor, a field) is spelled anew in all .rt and .antt files: encryptUnder becomes encrypt_under,
and length-values length_values. Types keep their capital. Functions of src/, strings, inputs and
outputs keep their names, since only what specs/ declares is looked for, outside strings.

Some names would fall together with another one: a lemma that would get the name of what it is about
ends in _lem, and the tables of the rules would be hidden by the parameters that are compared with
them, so they begin with all_.
"""

import collections
import glob
import os
import re
import sys

NAME = r"[^\s(){}\[\].;:,@\"«»`]+"
DECLARED = re.compile(
    r"(?m)^[ \t]*(?:(?:pattern|unfoldable|abbrev|pub) )*([^\s(){}.;,@\"«»]+)(?: \{[^{}\n]*\})* :"
)
STRING = re.compile(r"\"(?:[^\"\\\n]|\\.)*\"")
OWN_WAY = {
    "four-at": "four_at_lem",
    "undo-rounds": "undo_rounds_lem",
    "decrypt-step": "decrypt_step_lem",
    "encrypt-step": "encrypt_step_lem",
    "two-rounds": "two_rounds_lem",
    "sheet-holds": "sheet_holds_lem",
    "double-byte": "double_byte_lem",
    "last-check": "last_check_lem",
    "line-count": "line_count_lem",
    "entry-at": "entry_at_lem",
    "wordTables": "all_word_tables",
    "byteTables": "all_byte_tables",
}


def snake(name):
    words = re.sub(r"(?<=[a-z0-9])[A-Z]", lambda m: "_" + m[0].lower(), name)
    return words.replace("-", "_")


def read(path):
    with open(path, encoding="utf-8") as f:
        return f.read()


def declared(root):
    names = set()
    for path in glob.glob(os.path.join(root, "crates/*/specs/*.antt")):
        for m in DECLARED.finditer(read(path)):
            if m[1][0].islower() and "◌" not in m[1]:
                names.add(m[1])
    return names


def renaming(root):
    names = declared(root)
    new = {n: OWN_WAY.get(n, snake(n)) for n in names}
    meet = collections.defaultdict(set)
    for n, s in new.items():
        meet[s].add(n)
    for s, ns in sorted(meet.items()):
        if len(ns) > 1:
            print("look:", s, "from", ", ".join(sorted(ns)))
    return {n: s for n, s in new.items() if n != s}


def turn(text, new):
    return re.sub(NAME, lambda m: new.get(m[0], m[0]), text)


def turn_rust(text, new):
    out, at = [], 0
    for m in STRING.finditer(text):
        out += [turn(text[at : m.start()], new), m[0]]
        at = m.end()
    return "".join(out + [turn(text[at:], new)])


def main(argv):
    root = argv[0] if argv else "."
    new = renaming(root)
    n = 0
    for folder, dirs, files in os.walk(os.path.join(root, "crates")):
        dirs[:] = sorted(d for d in dirs if d != "out")
        for name in sorted(files):
            if not name.endswith((".rt", ".antt")):
                continue
            path = os.path.join(folder, name)
            text = read(path)
            to = turn_rust(text, new) if name.endswith(".rt") else turn(text, new)
            if to != text:
                n += 1
                with open(path, "w", encoding="utf-8") as f:
                    f.write(to)
    print(f"{len(new)} names, {n} files")
    return 0


if __name__ == "__main__":
    raise SystemExit(main(sys.argv[1:]))
