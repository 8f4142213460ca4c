#!/usr/bin/env python3
"""Spells the repository's own definitions as today's Rattle does: words in snake case, fields of records too.

usage: python3 tools/spell_names.py      at the top, once, right after the kit's port.py

It rewrites specs/, proofs/ and the ghost text of src/ in crates/. Types, modules and functions of src/ keep their names,
and so does a dash that joins two names in a lemma's name, as in first_by-set. It stops, and writes nothing, where a new
spelling already stands in a crate's specs/ or proofs/, since two names would then fall together.
"""

import pathlib
import re
import sys

WORDS = {
    "firstBy": "first_by",
    "sameSlot": "same_slot",
    "samePage": "same_page",
    "putBlock": "put_block",
    "putSlot": "put_slot",
    "putPage": "put_page",
    "freshSlot": "fresh_slot",
    "freshSlots": "fresh_slots",
    "freshPage": "fresh_page",
    "lifeLeft": "life_left",
    "inFlight": "in_flight",
    "atSide": "at_side",
    "shownAs": "shown_as",
    "callLeft": "call_left",
    "callRight": "call_right",
    "newL": "new_l",
    "newR": "new_r",
}

FIELDS = [
    "few-blocks",
    "whole-block",
    "whole-image",
    "flying-below",
    "open-below",
    "open-grounded",
    "idle-open",
    "one-home",
    "one-image",
]


def rules():
    """Each old name as a pattern, with its new spelling."""
    found = [(re.compile(rf"(?<![\w']){old}(?![\w'])"), new) for old, new in WORDS.items()]
    for old in FIELDS:
        found.append((re.compile(rf"(?<![\w'-]){old}(?![\w'-])"), old.replace("-", "_")))
    return found


def clashes(text, own):
    """The new spellings that a file of specs/ or proofs/ already has."""
    return [new for old, new in own if old.search(text) is None and re.search(rf"(?<![\w'-]){new}(?![\w'-])", text)]


def main():
    own = rules()
    files = [p for p in sorted(pathlib.Path("crates").rglob("*")) if p.suffix in (".rt", ".antt") and "out" not in p.parts]
    before = {p: p.read_text(encoding="utf-8") for p in files}
    bad = [f"{p}: {new}" for p, t in before.items() if p.suffix == ".antt" for new in clashes(t, own)]
    if bad:
        print("names that would fall together:", *bad, sep="\n", file=sys.stderr)
        raise SystemExit(1)
    for p, text in before.items():
        after = text
        for old, new in own:
            after = old.sub(new, after)
        if after != text:
            p.write_text(after, encoding="utf-8")


if __name__ == "__main__":
    main()
