#!/usr/bin/env python3
"""Respells this repository's definitions and lemmas: words in snake case.

Run once, at the top of the repository, after the kit's port.py. It turns a word such as netOf into net_of, and the
fields few-inputs and the like of records into few_inputs, in every .antt and .rt file and in the must-fail edits.
Names of goals (returns-in-.., in-..) carry variants of enums and stay; literals of Rust stay. A respelled name that
stands already for something else is an error.
"""
import pathlib
import re
import sys

WORD = re.compile(r"(?<![A-Za-z0-9_'-])[a-z][A-Za-z0-9_'-]*")
HUMP = re.compile(r"[a-z0-9][A-Z]")
GOAL = re.compile(r"^(returns-|in-[A-Z]|then-|else-)")
FIELDS = {
    "few-inputs": "few_inputs",
    "few-nodes": "few_nodes",
    "then-first": "then_first",
    "then-middle": "then_middle",
    "near-shape": "near_shape",
    "alone-shape": "alone_shape",
}
# words whose plain respelling is the name of a function or of a lemma
OTHERS = {
    "onMinterms": "minterms_on",
    "offMinterms": "minterms_off",
    "readsAt": "minterm_at",
    "recordOf": "record_bytes",
}
STAYS = {"xEEu8"}


def respelled(word: str) -> str:
    if word in FIELDS:
        return FIELDS[word]
    if word in OTHERS:
        return OTHERS[word]
    if word in STAYS or GOAL.match(word) or not HUMP.search(word):
        return word
    word = word.replace("getD", "get_or")
    return re.sub(r"([a-z0-9])([A-Z])", lambda m: m.group(1) + "_" + m.group(2).lower(), word)


def files() -> list[pathlib.Path]:
    found = []
    for kind in ("antt", "rt", "edit"):
        found += sorted(pathlib.Path("crates").rglob(f"*.{kind}"))
    return [f for f in found if "out" not in f.parts]


def main() -> None:
    texts = {f: f.read_text() for f in files()}
    words = {w for text in texts.values() for w in WORD.findall(text)}
    turned = {w: respelled(w) for w in words if respelled(w) != w}
    # port.py turns these in the sources and leaves the edits
    together = {n for n in turned.values() if n in words} - {"row_at", "place_of"}
    if together:
        sys.exit(f"these names fall together: {sorted(together)}")
    for file, text in texts.items():
        new = WORD.sub(lambda m: respelled(m.group(0)), text)
        if new != text:
            file.write_text(new)
    print(f"{len(turned)} words respelled")


main()
