#!/usr/bin/env python3
"""Brings this repository's own definitions and lemmas to snake case: python3 tools/rename.py, once, at the top, after the kit's port.py.

A word of specs/ or of a lemma file that has a capital inside or a dash gets underscores: `partitionOf` is `partition_of`, `step-unchanged`
is `step_unchanged`. Types, records, constructors and modules keep their capitals, and what Rattle makes (a loop, a goal) keeps its dashes.
A lemma that would have its function's name gets `_lem`. The must-fail edits and the pages follow, with the names that port.py turned.
"""
import collections
import glob
import re

# A letter of a name: so that only a whole name is turned.
LETTER = r"[\w'′\-◌⟨⟩≔]"
# Names that port.py puts into snake case, since a library has the same spelling. The edits and the pages have the old ones.
BY_PORT = """after-any afterOf all-none and-i and-l and-r any-false any-next any-none at-both at-entry at-first at-least at-most at-same
at-second atHome both-first by-code by-first by-number byteOf cell-in cell-out cellAt comes-back comes-home copied-next copied-none copy-spec
count-next count-none count-past count-same count-spec counted-is counted-spec decide-asks digits-more each-word end-with enter-spec
entries-next entries-none entry-kept entryOf eqb-refl fill-spec first-on first-slot found-at get-spec goes-on has-room has-some iff-bool
implies-true in-order in-row in-table inner-last is-digit is-same isAt isByte isRefused keeps-then kindAt lay-at lends-out lineOf listOf
listed-in look-spec main-spec more-within move-in never-stuck no-word none-of not-within numberAt numberOf of-agree of-test one-cell one-entry
one-later one-more one-of one-state open-spec or-right outcome-fits peek-spec placeOf put-spec read-answer read-back read-found read-spec
read-taken room-bound row-cut row-done row-inside row-next run-spec same-text same-view set-view setAt setRow share-in sharedAt slotOf
start-spec step-kept step-small step-spec step-waits store-out sum-lt take-spec text-same upTo viewOf write-spec""".split()


def read(path):
    with open(path, encoding="utf-8") as f:
        return f.read()


def theory():
    return sorted(glob.glob("crates/*/specs/*.antt") + glob.glob("crates/*/proofs/*.antt"))


def declared():
    """What stands before a colon at the head of a line: definitions, lemmas, fields and constructors."""
    found = collections.defaultdict(set)
    for path in theory():
        for line in read(path).splitlines():
            m = re.match(r" *(?:(?:abbrev|unfoldable|pub) )*([a-z]\S*)(?: +[^\s:]+)* : ", line)
            if m:
                found[m.group(1)].add(path)
    return found


def snake(name):
    return re.sub(r"(?<=[a-z0-9])([A-Z])", lambda m: "_" + m.group(1).lower(), name.replace("-", "_"))


def turned(table):
    pattern = re.compile(r"(?<!%s)(%s)(?!%s)" % (LETTER, "|".join(map(re.escape, sorted(table, key=len, reverse=True))), LETTER))
    return lambda text: pattern.sub(lambda m: table[m.group(1)], text)


def rewrite(paths, turn):
    for path in paths:
        old = read(path)
        new = turn(old)
        if new != old:
            with open(path, "w", encoding="utf-8") as f:
                f.write(new)


def main():
    found = declared()
    shared = collections.defaultdict(set)
    for name in found:
        shared[snake(name)].add(name)
    table = {}
    for name in found:
        new = snake(name)
        others = shared[new] - {name}
        if new != name:
            table[name] = new + "_lem" if "-" in name and any("-" not in o for o in others) else new
    table["numbersOf"] = "numbers_of"
    # A theorem of book's `read_answer`, which port.py had in snake case before its function was; `is_same` likewise. Each stands in its
    # own crate's files and in those above that import it by its module's name.
    for crate, old in (("snapshots", "read_answer"), ("tally", "is_same")):
        turn = turned({old: old + "_lem"})
        module = {"read_answer": "ReadAnswer", "is_same": "Agrees"}[old]
        for path in theory():
            text = read(path)
            if f"Rattle.{crate}.specs.{module}.{{" in text or path == f"crates/{crate}/specs/{module}.antt":
                rewrite([path], turn)
    code = glob.glob("crates/**/*.antt", recursive=True) + glob.glob("crates/*/src/**/*.rt", recursive=True)
    rewrite(code, turned(table))
    by_port = {n: snake(n) for n in BY_PORT} | {"read-answer": "read_answer_lem"}
    rewrite(glob.glob("crates/*/must-fail/*.edit"), turned(by_port | table))
    pages = ["README.md"] + [p for p in glob.glob("docs/**/*.md", recursive=True) if "PORT" not in p] + glob.glob("c/*") + glob.glob("crates/room/check.sh")
    in_marks = turned(by_port | table)
    rewrite([p for p in pages if p.endswith(".md")], lambda t: re.sub(r"`[^`\n]*`", lambda m: in_marks(m.group(0)), t))


main()
