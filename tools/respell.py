#!/usr/bin/env python3
"""Brings the repository's own words to the spelling of today's Rattle, after port.py has turned the language's.

usage: python3 tools/respell.py            at the top of the repository, once

Definitions, lemmas, fields and variables are in snake case, and what is a type is in camel case. A lemma that would have the name of its
definition ends in `_lem`. Names of src/, texts in quotes and names of files stay. Edits are turned with the files that they change.
"""

import os
import re
import sys

# a word in lower camel case; parts of a name that a dash joins are words of their own
WORD = re.compile(r"(?<![A-Za-z0-9_'])[a-z][A-Za-z0-9_']*")
QUOTED = re.compile(r'"(?:\\.|[^"\\\n])*"')

# lemmas that would fall together with a definition, in the files that speak of them
LEMMAS = {
    "kinds/proofs/FitData.antt": ["fit_length"],
    "kinds/proofs/Laws.antt": ["fit_length"],
    "kinds/proofs/fits/Proof.antt": ["fit_length"],
    "forms/proofs/Walking.antt": ["has_more"],
    "kept_line/proofs/Standing.antt": ["own_read"],
    "demands/proofs/Labels.antt": ["in_order"],
    "witnesses/proofs/Witnesses.antt": ["in_order"],
    "values/proofs/Sound.antt": ["field_at"],
}

# definitions that are types, in the files that speak of them
TYPES = {
    "keeps_sound/proofs/Limits.antt": {"ranged": "CommandRanged", "itemRanged": "ItemRanged"},
    "keeps_sound/proofs/SetsClock.antt": {"ranged": "CommandRanged"},
    "keeps_sound/proofs/Numbers.antt": {"itemRanged": "ItemRanged"},
    "demands/proofs/Slants.antt": {"itemRanged": "ItemRanged"},
    "demands/proofs/TypeOne.antt": {"itemRanged": "ItemRanged"},
    "commands/specs/Running.antt": {"short": "IsShort", "shortStored": "IsStoredShort"},
    "commands/proofs/Kept.antt": {"short": "IsShort"},
    "commands/src/lines.rt": {"short": "IsShort"},
    "commands/src/records.rt": {"short": "IsShort"},
}


def snake(word):
    word = re.sub(r"^getD$", "get_or", word)
    word = re.sub(r"([a-z0-9])([A-Z])", r"\1_\2", word)
    word = re.sub(r"([A-Z])([A-Z][a-z])", r"\1_\2", word)
    return word.lower()


def is_camel(word):
    return re.search(r"[a-z0-9][A-Z]", word) is not None


def outside_quotes(text, turn):
    out, at = [], 0
    for quoted in QUOTED.finditer(text):
        out += [turn(text[at:quoted.start()]), quoted.group(0)]
        at = quoted.end()
    return "".join(out + [turn(text[at:])])


def whole(names):
    """A turn of whole names, where neither a dash nor a dot of a path makes them part of another."""
    def turn(text):
        for old, new in names.items():
            text = re.sub(r"(?<![A-Za-z0-9_'.-])" + old + r"(?![A-Za-z0-9_'-])", new, text)
        return text
    return turn


def types_of_clauses(path, names, text):
    """In src/ a type's name stands only in clauses and in the imports of clauses."""
    def line(l):
        return whole(names)(l) if re.match(r"\s*(ghost use|requires|ensures)\b", l) else l
    return "".join(line(l) for l in text.splitlines(keepends=True))


def respelled(path, text):
    if path in LEMMAS:
        names = {n: n + "_lem" for n in LEMMAS[path]}
        text = outside_quotes(text, whole(names))
    if path in TYPES:
        text = types_of_clauses(path, TYPES[path], text) if path.endswith(".rt") else outside_quotes(text, whole(TYPES[path]))
    turn = lambda t: WORD.sub(lambda m: snake(m.group(0)) if is_camel(m.group(0)) else m.group(0), t)
    return outside_quotes(text, turn)


def captured(path, text):
    """Functions whose parameter has the name of a word that their own clauses cite: the parameter would hide the word."""
    for f in re.finditer(r"fn (\w+)[^(]*\(([^)]*)\)([^{]*(?:(?:requires|ensures)[^{]*\{[^\n]*\}\s*)*)", text):
        words = set(re.findall(r"[A-Za-z_][A-Za-z0-9_']*", f.group(3)))
        imports = set(re.findall(r"[A-Za-z_][A-Za-z0-9_']*", " ".join(re.findall(r"ghost use[^;]*;", text))))
        for p in re.findall(r"(\w+):", f.group(2)):
            if p in words and p in imports:
                print(f"look: {path}: fn {f.group(1)}: the parameter `{p}` hides a word of its clauses")


def main():
    inside = os.path.join(os.getcwd(), "crates")
    if not os.path.isdir(inside):
        print("run it at the top of the repository", file=sys.stderr)
        return 2
    changed = 0
    for folder, dirs, files in os.walk(inside):
        dirs[:] = sorted(d for d in dirs if d != "out")
        for name in sorted(files):
            if not name.endswith((".rt", ".antt", ".edit")):
                continue
            full = os.path.join(folder, name)
            path = os.path.relpath(full, inside)
            with open(full, encoding="utf-8") as f:
                text = f.read()
            new = respelled(path, text)
            if name.endswith(".rt"):
                captured(path, new)
            if new != text:
                changed += 1
                with open(full, "w", encoding="utf-8") as f:
                    f.write(new)
    print(f"respell: {changed} files changed")
    return 0


if __name__ == "__main__":
    raise SystemExit(main())
