#!/usr/bin/env python3
"""Gives this repository's own definitions, fields and lemmas the spelling that its Rattle writes: words in snake case, types in camel case.

usage: python3 tools/respell.py [--list]        at the top of the repository, once, right after port.py

A name is ours if a line of a file in specs/ or proofs/ declares it. Names that Rattle makes (goals, steps) and names of its library stay.
`--list` only prints what would be renamed, and the names that would fall together.
"""

import glob
import re
import sys

WORD = re.compile(r"[A-Za-z_][\w'-]*")
DECLARED = re.compile(r"^\s*(?:(?:pub|abbrev|unfoldable)\s+)*(?:(?:record|data)\s+)?([A-Za-z_][\w'-]*)\s+(?::\s|[({].*:\s)")
LIBRARY = re.compile(r"^(?:ghost )?use (?:Rattle\.std|mathlib|native|borrow|denote|Prim|lib)\b.*?\{(.*)\}")
MADE = re.compile(r"^(?:loop|if|then|else|match|returns|invariant-(?:loop|of)|decreases)-|^in-[A-Z]|-(?:requires|init|preserved|smaller)$")

# where the plain rule would give one name to two things
APART = {
    "all-agree": "all_agree_lem",
    "has-member": "has_member_lem",
    "has_room": "has_room_lem",
    "in-slot": "in_slot_lem",
    "is-black": "is_black_lem",
    "is-empty": "is_empty_lem",
    "is-grey": "is_grey_lem",
    "is-idle": "is_idle_lem",
    "newest-first": "newest_first_lem",
    "newest-of": "newest_of_lem",
    "older-of": "older_of_lem",
    "oldest-first": "oldest_first_lem",
    "same-status": "same_status_lem",
    "with-task": "with_task_lem",
    "with-work": "with_work_lem",
    "word-put": "word_put_lem",
    "worked-examples": "worked_examples_lem",
}


def files():
    return sorted(glob.glob("crates/*/specs/**/*.antt", recursive=True) + glob.glob("crates/*/proofs/**/*.antt", recursive=True))


def sources():
    return sorted(glob.glob("crates/*/src/**/*.rt", recursive=True))


def text(path):
    with open(path, encoding="utf-8") as f:
        return f.read()


def ours():
    """The names that lines of our files declare, and those that come from the library."""
    declared, library = {}, set()
    for path in files() + sources():
        goals = path.endswith(("/Answers.antt", "/Invariants.antt"))
        for line in text(path).splitlines():
            m = LIBRARY.match(line)
            if m:
                library |= set(WORD.findall(m[1]))
            if not path.endswith(".antt") or line.lstrip().startswith(("--", "use ")):
                continue
            m = DECLARED.match(line)
            if m and not (goals and re.search(r":\s+goal\.", line)):
                declared.setdefault(m[1], path)
    return declared, library


def respelled(name):
    if name in APART:
        return APART[name]
    parts = name.split("-")
    if name[0].isupper():
        return "".join(p[0].upper() + p[1:] for p in parts if p)
    return re.sub(r"(?<=[a-z0-9])([A-Z])", lambda m: "_" + m[1].lower(), "_".join(parts))


def renamings():
    declared, library = ours()
    return {n: respelled(n) for n in declared if respelled(n) != n and n not in library and not MADE.search(n)}


def main(argv):
    names = renamings()
    if argv == ["--list"]:
        words = {}
        for path in files() + sources():
            for w in WORD.findall(text(path)):
                words.setdefault(w, path)
        after = {}
        for n, to in sorted(names.items()):
            print(n, to)
            after.setdefault(to, []).append(n)
        for to, olds in sorted(after.items()):
            if len(olds) > 1 or to in words:
                print("falls together:", to, olds, words.get(to, ""))
        return
    turn = lambda m: names.get(m[0], m[0])
    for path in files() + sources() + sorted(glob.glob("crates/*/must-fail/*.edit")):
        old = text(path)
        dash = "--" if path.endswith(".antt") else "//"
        new = "".join(WORD.sub(turn, code) + mark + comment for code, mark, comment in (l.partition(dash) for l in old.splitlines(keepends=True)))
        if new != old:
            with open(path, "w", encoding="utf-8") as f:
                f.write(new)


main(sys.argv[1:])
