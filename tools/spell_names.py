#!/usr/bin/env python3
"""Brings the names of this repository's definitions and lemmas to the library's spelling, once.

usage: tools/spell_names.py            at the top of the repository, after the toolchain's own script
       tools/spell_names.py --list     prints old and new names and changes nothing

Types are in upper camel case, everything else in snake case. A dash stays where it joins the names of two definitions,
as in length-be. The names of functions in src/, and those that the checker makes for goals, stay as they are.
"""

import glob
import os
import re
import sys

WORD = r"[^\s(){}\[\],.;:«»]+"
GENERATED = ("Answers.antt", "Invariants.antt", "Choices.antt", "Proof.antt")
# names of the library that a dash joins to one of ours
LIBRARY = {"length", "take", "drop", "append", "map", "set"}
BY_HAND = {
    "getD-here": "get_or_here",
    "eqZ": "int_same",
    "token-used": "token_used_lem",
    "one_line": "one_line_lem",
    "reply-length": "reply_length_lem",
    "value-length": "value_length_lem",
    "copies-change-nothing": "copies_change_nothing",
    "begin-length": "begin_length",
    "drop-length": "drop_length",
    "event-length": "event_length",
    "reference-length": "reference_length",
    "state-length": "state_length",
}


def ghost_files():
    return sorted(glob.glob("crates/*/specs/**/*.antt", recursive=True) + glob.glob("crates/*/proofs/**/*.antt", recursive=True))


def defined():
    """What the files define: name -> is it a definition that computes (and not a lemma)."""
    names = {}
    made = set()
    for path in ghost_files():
        with open(path, encoding="utf-8") as f:
            text = f.read()
        if os.path.basename(path) in GENERATED:
            made |= set(re.findall(r"\b(?:goal|given|need|given)\.(" + WORD + ")", text))
        for line in text.splitlines():
            if line.startswith(("--", "use ")):
                continue
            m = re.match(r"^(\s*)((?:pub |abbrev |unfoldable |record |data )*)(" + WORD + r") (?:[({].*[)}] )*: ", line)
            if m:
                plain = not m.group(1) and bool(m.group(2).replace("pub ", ""))
                names[m.group(3)] = names.get(m.group(3), False) or plain
    return names, made


def snake(name):
    name = re.sub(r"(?<=[a-z0-9])(?=[A-Z])", "_", name)
    name = re.sub(r"(?<=[a-z])(?=[0-9]{2,})", "_", name)
    return name[0].lower() + name[1:].lower()


def camel(name):
    return "".join(p[0].upper() + p[1:] for p in re.split("[-_]", name))


def spelled(name, definitions):
    if name in BY_HAND:
        return BY_HAND[name]
    if name[0].isupper():
        return camel(name)
    parts = name.split("-")
    out = snake(parts[0])
    for before, part in zip(parts, parts[1:]):
        joined = before in definitions and part in definitions
        out += ("-" if joined else "_") + snake(part)
    return out


def main():
    names, made = defined()
    definitions = {n for n, plain in names.items() if plain} | LIBRARY
    turned = {}
    for n in sorted(names):
        odd = "-" in n if n[0].isupper() else re.search("[A-Z]", n) or "-" in n
        if n in made or not n[0].isalpha() or not (odd or n in BY_HAND):
            continue
        new = spelled(n, definitions)
        if new != n:
            turned[n] = new
    into = {}
    for n, new in turned.items():
        into.setdefault(new, []).append(n)
    for new, olds in sorted(into.items()):
        if len(olds) > 1 or new in names:
            print(f"falls together: {' '.join(olds)} -> {new}" + (" (taken)" if new in names else ""), file=sys.stderr)
    if "--list" in sys.argv:
        for n, new in sorted(turned.items()):
            print(n, new)
        return
    word = re.compile(r"(?<![^\s(){}\[\],.;:«»])(" + "|".join(re.escape(n) for n in sorted(turned, key=len, reverse=True)) + r")(?![^\s(){}\[\],.;:«»])")
    for path in ghost_files() + sorted(glob.glob("crates/*/src/**/*.rt", recursive=True)):
        with open(path, encoding="utf-8") as f:
            text = f.read()
        new = word.sub(lambda m: turned[m.group(1)], text)
        if new != text:
            with open(path, "w", encoding="utf-8") as f:
                f.write(new)


main()
