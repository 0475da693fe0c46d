#!/usr/bin/env python3
"""Brings the repository's own definitions and lemmas to snake case: stepLines and step-lines become step_lines.

usage: tools/respell.py            at the top of the repository, once, right after the kit's port.py

It renames what specs/ and proofs/ of a crate define (types and modules keep their names) in every .antt file, in the clauses and
comments of every .rt file, in each must-fail edit and, between backticks, in README.md and docs/. Where a lemma would get the name of
a definition, it ends in _lem. Names of src/ stay as they are.
"""

import collections
import glob
import os
import re
import sys

# Words that begin a line of antt and are no names.
WORDS = {"where", "let", "in", "as", "use", "elim"}
# Names of the libraries that an own lemma must not get.
TAKEN = {"are_bytes", "bit_and", "bit_or"}
# Own names that stand for a library's too, in other files.
STAYS = {"or-true"}
# Where two of one name would meet in one file, or where a field would hide a definition.
CHOSEN = {
    "in-sheet": "stands_in_sheet",
    "end-load": "end_load",
    "one-task": "one_task",
    "cost-left": "cost_is_left",
    "by-test": "by_test",
    "all_in": "all_in_lem",
    "load_below": "load_below_lem",
    "with_in": "with_in_lem",
}
# A name of antt, without the dots of a path.
NAME = re.compile(r"[A-Za-z_][\w'₀-₉′·ᴰ]*(?:-[\w'₀-₉′·ᴰ*]+)*")
CAMEL = re.compile(r"[a-z][\w']*[a-z0-9'][A-Z][\w']*")


def snake(name):
    if not name[0].islower():
        return name
    s = re.sub(r"([a-z0-9])([A-Z])", lambda m: m[1] + "_" + m[2].lower(), name).replace("-", "_")
    return re.sub(r"_([A-Z])(?=_|$)", lambda m: "_" + m[1].lower(), s)


def read(path):
    with open(path, encoding="utf-8", newline="") as f:
        return f.read()


def files(*patterns):
    return sorted(p for it in patterns for p in glob.glob(it, recursive=True) if "/out/" not in p)


def defined():
    """Returns the own names and the files that define them: functions' proofs are left out, since their names come from the code."""
    names = collections.defaultdict(set)
    for p in files("crates/*/specs/**/*.antt", "crates/*/proofs/**/*.antt"):
        if os.path.basename(p) in ("Proof.antt", "Answers.antt", "Invariants.antt"):
            continue
        for line in read(p).split("\n"):
            m = re.match(r"\s*(?:where\s+)?(?:(?:pub|abbrev|unfoldable|record|data)\s+)*([^\s(){};,]+)\s*:\s", line)
            if m and m[1] not in WORDS:
                names[m[1]].add(p)
    return names


def renamed(names):
    by_new = collections.defaultdict(set)
    for it in names:
        by_new[snake(it)].add(it)
    to = {}
    for new, olds in by_new.items():
        for old in olds:
            if old in STAYS:
                continue
            other = {it for it in olds if it != old and it not in CHOSEN}
            if old in CHOSEN:
                to[old] = CHOSEN[old]
            elif "-" in old and (other or new in TAKEN):
                to[old] = new + "_lem"
            elif old != new:
                to[old] = new
    return to


def in_code(text, to):
    return NAME.sub(lambda m: to.get(m[0], m[0]), text)


def in_words(text, to):
    """Comments and pages: names in camel case anywhere, the others between backticks."""
    text = CAMEL.sub(lambda m: to.get(m[0], m[0]), text)
    return re.sub(r"`[^`\n]+`", lambda m: in_code(m[0], to), text)


def antt(text, to):
    lines = []
    for line in text.split("\n"):
        code, dashes, words = re.match(r"((?:(?!--(?:\s|$)).)*)((?:--(?=\s|$))?)(.*)$", line).groups()
        lines.append(in_code(code, to) + dashes + in_words(words, to))
    return "\n".join(lines)


def clauses(text, to):
    """A .rt file: names in camel case anywhere, since none is a name of the code, and all names in a clause or a ghost use."""
    lines = []
    for line in text.split("\n"):
        ghost = re.match(r"\s*(ghost use|requires|ensures|ghost)\b", line)
        lines.append(in_code(line, to) if ghost else in_words(line, to))
    return "\n".join(lines)


def edit(text, to):
    spec = re.search(r"^file: (specs|proofs)/", text, re.M)
    lines = []
    for line in text.split("\n"):
        changes = re.match(r"(old|new): ", line)
        if changes and (spec or re.match(r"(old|new):\s*(ghost use|requires|ensures|ghost)\b", line)):
            lines.append(in_code(line, to))
        elif changes:
            lines.append(line)
        else:
            lines.append(in_words(line, to))
    return "\n".join(lines)


def main():
    if sys.argv[1:]:
        sys.stderr.write(__doc__)
        sys.exit(2)
    to = renamed(defined())
    turned = [
        (antt, files("crates/*/specs/**/*.antt", "crates/*/proofs/**/*.antt")),
        (clauses, files("crates/*/src/**/*.rt")),
        (edit, files("crates/*/must-fail/*.edit")),
        (in_words, files("README.md", "docs/**/*.md")),
    ]
    changed = 0
    for turn, paths in turned:
        for p in paths:
            old = read(p)
            new = turn(old, to)
            if new != old:
                changed += 1
                with open(p, "w", encoding="utf-8", newline="") as f:
                    f.write(new)
    print(f"respell: {len(to)} names, {changed} files")
    for old in sorted(to):
        if to[old] != snake(old):
            print(f"respell: {old} -> {to[old]}")


main()
