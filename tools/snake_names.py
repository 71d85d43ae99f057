#!/usr/bin/env python3
"""Spells the definitions and lemmas of this repository's specs/ and proofs/ in snake case, and its facts in camel case.

usage: python3 tools/snake_names.py [--check]      at the top of the repository, once, after the toolchain's own script

A name is turned where the repository declares it: `max-text` to `max_text`, `dueAfter` to `due_after`, the fact `Looks-back` to
`LooksBack`. Names that the toolchain makes, as `loop-i-preserved`, and names of its library stay. It prints each pair on a line,
and stops where two names would fall together. With --check it only prints.
"""

import os
import re
import sys

TOKEN = r"[^\s(){}.;,@\"«»]+"
HEAD = re.compile(
    r"\s*(?:module _ )?((?:(?:pub|abbrev|unfoldable|data|record|rule|ruleset)\s+)*)((?:" + TOKEN + r"\s+)*?" + TOKEN + r")((?:\s*[({].*[)}])*)\s*:\s(.*)"
)
# A name behind one of these is a step or a goal that the toolchain names, and not one of ours.
MADE = re.compile(r"(?:^|[^\w'-])(?:c|l|w|goal)(?:\.[^\s(){};,]+)?\.$")


# A lemma that would have the name of the definition that it is about.
LEMMAS = {
    "bit-and": "bit_and_lem",
    "bit-or": "bit_or_lem",
    "call-of": "call_of_lem",
    "depth-after": "depth_after_lem",
    "due-after": "due_after_lem",
    "goes_on": "goes_on_lem",
    "in-turn": "in_turn_lem",
    "is-begin": "is_begin_lem",
    "on-two": "on_two_lem",
    "on_one": "on_one_lem",
    "opened_after": "opened_after_lem",
    "own-plain": "own_plain_lem",
    "own-routine": "own_routine_lem",
    "plain-after": "plain_after_lem",
    "plain_cells": "plain_cells_lem",
    "routine-after": "routine_after_lem",
    "routine-cells": "routine_cells_lem",
    "stack-after": "stack_after_lem",
    "want-word": "want_word_lem",
}
# A field of a record in a crate where no file names the definition of the same spelling.
APART = {"in_order"}


def files(*endings):
    for folder, _, names in os.walk("crates"):
        if "/out" in folder:
            continue
        for name in sorted(names):
            if name.endswith(endings):
                yield os.path.join(folder, name)


def declared():
    found = set()
    for path in files(".antt"):
        with open(path, encoding="utf-8") as f:
            for line in f:
                if line.strip().startswith(("--", "use ", "pub use", "let ", "open ")):
                    continue
                m = HEAD.match(line)
                if m and not m[4].startswith("goal."):
                    found.update(m[2].split())
    return found


def aliases():
    """The names that an import gives to one of ours, where they have a dash."""
    found = set()
    for path in files(".antt", ".rt"):
        with open(path, encoding="utf-8") as f:
            for line in f:
                if re.match(r"\s*(?:pub |ghost )?use Rattle\.(?!std\b)", line):
                    found.update(it for it in re.findall(rf" as ({TOKEN})", line) if re.search(r"\w-\w", it))
    return found


def spelled(name):
    if name[0].isupper():
        parts = name.split("-")
        return "".join(part[0].upper() + part[1:] for part in parts)
    words = re.sub(r"(?<=[a-z0-9])[A-Z]", lambda m: "_" + m[0].lower(), name)
    return words.replace("-", "_").replace("′", "'")


def main():
    ours = declared() | aliases()
    table = {name: spelled(name) for name in ours if re.search(r"\w-\w|′", name) or (name[0].islower() and re.search(r"[a-z0-9][A-Z]", name))}
    table = {old: new for old, new in table.items() if old != new}
    table.update({old: new for old, new in LEMMAS.items() if old in ours})
    turned = {}
    for old, new in table.items():
        turned.setdefault(new, []).append(old)
    clashes = [names for new, names in turned.items() if len(names) > 1 or new in ours - set(table) - APART]
    for old, new in sorted(table.items()):
        print(old, new)
    if clashes:
        raise SystemExit(f"these would fall together: {clashes}")
    word = re.compile(rf"(?<![^\s(){{}}.;,@\"«»])({TOKEN})(?![^\s(){{}}.;,@\"«»])")
    for path in files(".antt", ".rt", ".edit"):
        with open(path, encoding="utf-8") as f:
            text = f.read()
        answers = path.endswith(("Answers.antt", "Invariants.antt", "Choices.antt", "Proof.antt"))
        out, at = [], 0
        for m in word.finditer(text):
            new = table.get(m[1])
            if new is None or path.endswith(".rt") and "-" not in m[1] and m[1] not in table:
                continue
            if answers and text[m.start() - 1] == "." and MADE.search(text[max(0, m.start() - 200) : m.start()]):
                print("left:", path, text[max(0, m.start() - 60) : m.end()].split("\n")[-1])
                continue
            out.append(text[at : m.start()] + new)
            at = m.end()
        if out and "--check" not in sys.argv:
            with open(path, "w", encoding="utf-8") as f:
                f.write("".join(out) + text[at:])


main()
