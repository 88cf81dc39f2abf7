#!/usr/bin/env python3
"""Brings the repository's own definitions, lemmas and fields to snake case, as today's Rattle spells them: lengthOf and of-text become length_of and of_text.
To be run once, at the top of a checkout, after /opt/rattle/port/port.py. Functions of src/, exported C names, strings, inputs and outputs keep their names.
docs/PORT.md says more."""

import os
import re
import sys

# A line that defines a name: at the left a definition or lemma, indented a field or a constructor.
DEFINES = re.compile(r"^ *(?:(?:abbrev|opaque|unfoldable|pub|instance)\s+)*(?:(?:record|data)\s+)?([^\s:(){},.=|;]+)(?:\s+[({][^=]*?)?\s*:(?:\s|$)")
WORD = re.compile(r"(?<![\w'-])[a-z][\w']*(?:-[\w']+)*(?![\w'-])")

# Names that would fall together with another of the repository: a lemma with the definition that it is about, a field with a definition that its type names.
APART = {
    "after_line": "after_line_lem",
    "at-most": "at_most_lem",
    "corner-a": "corner_a_fits",
    "corner-b": "corner_b_fits",
    "cursor-of": "cursor_of_lem",
    "edition-ok": "edition_good",
    "end-A": "end_A",
    "end-B": "end_B",
    "exit-from": "exit_from_lem",
    "first-line": "in_first_line",
    "frame-of": "frame_of_lem",
    "from-line": "from_line_lem",
    "index-fault": "index_fault_lem",
    "is-empty": "is_empty_lem",
    "is-town": "is_town_lem",
    "is-used": "leg_used",
    "least-arrival": "least_arrival_lem",
    "leg-a": "leg_a_below",
    "leg-b": "leg_b_below",
    "legs-free": "legs_free_lem",
    "level-from": "level_from_lem",
    "line-end": "line_end_lem",
    "line-text": "line_text_lem",
    "node-a": "node_a_below",
    "node-b": "node_b_below",
    "one_way": "one_way_slow",
    "pair-at": "pair_at_lem",
    "runs_of": "runs_of_lem",
    "turns-back": "turns_back_lem",
}


# Today's library has a lemma of this name.
KEPT = {"or-false"}


def snake(name):
    if name in APART or name in KEPT:
        return APART.get(name, name)
    return re.sub(r"(?<=[a-z0-9'])([A-Z])", r"_\1", name.replace("-", "_")).lower()


def files(*ends):
    for folder, dirs, names in os.walk("crates"):
        dirs[:] = sorted(d for d in dirs if d not in ("out", "target"))
        yield from (os.path.join(folder, n) for n in sorted(names) if n.endswith(ends))


def given(path):
    """The names that a file of definitions or lemmas gives."""
    for line in open(path, encoding="utf-8"):
        m = DEFINES.match(re.sub(r"--.*", "", line.rstrip("\n")))
        if m and WORD.fullmatch(m[1]):
            yield m[1]


COMMENTS = {".antt": "--", ".rt": "//", ".edit": "# "}


def turned(line, path, new):
    """A line with the new names, but for strings, and in comments for what may be words: small letters, with or without hyphens."""
    ending = os.path.splitext(path)[1]
    code, mark, comment = line.partition(COMMENTS[ending])

    def in_code(m):
        name = m[0]
        # a name that is in snake case before may be a function's: in Rattle's code, and behind a point
        like_a_function = re.fullmatch(r"[a-z0-9_]+", name) and (ending != ".antt" or code[: m.start()].endswith("."))
        return name if like_a_function else new.get(name, name)

    def in_comment(m):
        return new.get(m[0], m[0]) if m[0] != m[0].lower() else m[0]

    return re.sub(f'"[^"]*"|{WORD.pattern}', in_code, code) + mark + WORD.sub(in_comment, comment)


def main():
    # a Proof.antt names goals alone, and those are Rattle's names
    names = {n for path in files(".antt") if not path.endswith("/Proof.antt") for n in given(path)}
    olds = {}
    for name in sorted(names):
        olds.setdefault(snake(name), []).append(name)
    together = [f"{' '.join(was)} -> {name}" for name, was in olds.items() if len(was) > 1]
    if together:
        print("names would fall together:", *together, sep="\n  ")
        return 1
    new = {n: snake(n) for n in names if snake(n) != n}
    for path in files(".antt", ".rt", ".edit"):
        with open(path, encoding="utf-8") as file:
            old = file.readlines()
        lines = [turned(line, path, new) for line in old]
        if lines != old:
            with open(path, "w", encoding="utf-8") as file:
                file.writelines(lines)
    print(f"{len(new)} names turned")
    return 0


if __name__ == "__main__":
    sys.exit(main())
