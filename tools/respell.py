#!/usr/bin/env python3
"""Brings the repository's own definitions and lemmas to Rattle's spelling: words in snake case.

Run at the top, right behind the toolchain's own port.py. It turns names in specs, proofs, clauses
and pages alone: functions of src/, strings, inputs and outputs keep theirs.
"""
import glob
import re

# Names that would fall together with another name, or with a tactic.
APART = {
    "firstOf": "first_in",  # first_of is a tactic
    "first_of": "first_in",
    "standIn": "stand_in_font",  # stand_in is a field of a pair
    "labelFont": "font_of_label",  # label_font and table_font are crates
    "tableFont": "font_of_tables",
}

WORD = re.compile(r"(?<![\w'·-])([a-z][A-Za-z0-9]*(?:[A-Z][A-Za-z0-9]*)?(?:[-_'][A-Za-z0-9_'-]*)?|first_of)(?![\w'])")
HUMP = re.compile(r"(?<=[a-z0-9])([A-Z])")
STRING = re.compile(r'"(?:[^"\\]|\\.)*"', re.S)


def snake(match):
    word = match.group(1)
    if word in APART:
        return APART[word]
    # A dash before a capital joins a type or a variant to a name: it stays.
    return HUMP.sub(lambda hump: "_" + hump.group(1).lower(), word)


def respell(text):
    # The one fact that was spelled with a dash.
    text = re.sub(r"(?<![\w'-])One-reading(?![\w'-])", "OneReading", text)
    return WORD.sub(snake, text)


def outside_strings(text):
    parts, at = [], 0
    for string in STRING.finditer(text):
        parts += [respell(text[at:string.start()]), string.group()]
        at = string.end()
    return "".join(parts + [respell(text[at:])])


def pages(text):
    """Between backticks only."""
    return re.sub(r"`[^`\n]*`", lambda code: respell(code.group()), text)


def turn(pattern, change):
    for path in sorted(glob.glob(pattern, recursive=True)):
        if "/out/" in path:
            continue
        with open(path, encoding="utf-8") as file:
            old = file.read()
        new = change(old)
        if path.endswith("label_font/proofs/Reading.antt"):
            new = reading(old)
        if new != old:
            with open(path, "w", encoding="utf-8") as file:
                file.write(new)


def reading(text):
    """A lemma there has the name of the library's word that it is about."""
    if "digit_value as digitValue" not in text:
        return respell(text)
    text = text.replace("digit_value as digitValue", "digitValue")
    text = re.sub(r"(?<![\w'-])digit_value(?![\w'-])", "value_of_digit", text)
    return respell(text)


if __name__ == "__main__":
    turn("crates/**/*.antt", respell)
    turn("crates/**/*.rt", outside_strings)
    for page in ("README.md", "docs/*.md"):
        turn(page, pages)
