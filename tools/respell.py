#!/usr/bin/env python3
"""Brings the definitions and lemmas of this repository to the spelling of today's Rattle, once, after the kit's port.py: words in snake
case, a function into Type in camel case. Names of Rust functions, exported names, strings, inputs and outputs stay.

usage: python3 tools/respell.py        at the top of the repository

It goes by text: every word that begins with a small letter and has a capital behind a small letter or a digit (`perTrack`, `onNext-all`)
gets its snake case form, in crates/*/specs, proofs, src and must-fail, in README.md and docs/. None of the kit's words has that form.
Fields and constructors with a dash get an underscore, by a list; a few names more are turned by a list.
"""

import glob
import re

# A word of a definition; a dash joins names in a lemma's.
WORD = re.compile(r"(?<![A-Za-z0-9_'./-])(?<!«)([a-z][A-Za-z0-9_]*'*(?:-[A-Za-z0-9_]+'*)*)(?![A-Za-z0-9_])")
AFTER_DOT = re.compile(r"(?<=\.)([a-z][A-Za-z0-9_]*'*(?:-[A-Za-z0-9_]+'*)*)(?![A-Za-z0-9_])")
CAPITAL = re.compile(r"(?<=[a-z0-9'])([A-Z])")

# Names that the rule does not turn: FILE (a suffix of its path, or '' for every file), old, new.
NAMED = [
    # a function into Type is a type
    ("crates/fixtures/", "answersAlone", "AnswersAlone"),
    ("crates/fixtures/", "facts", "Facts"),
    # the lemma on the definition of that name
    ("crates/met/specs/Mends.antt", "all_closed", "all_closed_lem"),
    # one word in the old library's spelling
    ("", "getD", "get_or"),
]

# Fields and constructors, in snake case. (`most-tracks` and `most-sectors` keep their dash: the constants of those names bound them.)
FIELDS = """
each-once in-record in-sector in-slot of-nothing of-record of-link end-small of-front of-head of-slot of-sector format-stated format-refused
repair-stated repair-refused spares-first spares-all name-length date-length track-low track-high sector-low sector-high image-small table-small
no-twins not-place in-it same-file flex-preset flex-extension flex-call flex-census flex-error-text flex-format flex-repair
""".split()
FIELD = re.compile(r"(?<![A-Za-z0-9_'-])(?:" + "|".join(FIELDS) + r")(?![A-Za-z0-9_'-])")

FILES = ["crates/*/specs/**/*.antt", "crates/*/proofs/**/*.antt", "crates/*/src/**/*.rt", "crates/*/must-fail/*.edit", "README.md", "docs/**/*.md"]


def snake(match):
    word = match.group(1)
    if not CAPITAL.search(word):
        return word
    return CAPITAL.sub(lambda m: "_" + m.group(1).lower(), word)


def named(path, text):
    lines = text.split("\n")
    for place, old, new in NAMED:
        if not path.startswith(place):
            continue
        word = re.compile(r"(?<![A-Za-z0-9_'])" + re.escape(old) + r"(?![A-Za-z0-9_'])")
        lines = [line if line.lstrip().startswith("--") else word.sub(new, line) for line in lines]
    return "\n".join(lines)


def turned(path, text):
    text = named(path, text)
    text = WORD.sub(snake, text)
    text = AFTER_DOT.sub(snake, text)
    return FIELD.sub(lambda m: m.group(0).replace("-", "_"), text)


def main():
    for pattern in FILES:
        for path in sorted(glob.glob(pattern, recursive=True)):
            if "/out/" in path or path == "docs/PORT.md":
                continue
            with open(path, encoding="utf-8") as f:
                text = f.read()
            new = turned(path, text)
            if new != text:
                with open(path, "w", encoding="utf-8") as f:
                    f.write(new)


if __name__ == "__main__":
    main()
