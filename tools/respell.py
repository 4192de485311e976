#!/usr/bin/env python3
"""Respells the names of definitions and lemmas, once: camel case becomes snake case, and a dash that joins words an underscore.

Usage: python3 tools/respell.py [FOLDER]     (the top of a checkout; this folder, if none is given)

Functions of src/, strings, inputs and outputs keep their names: none of them is in camel case.
The lists of names at the head of a file of specs/ are laid out anew, since their columns move.
"""

import os
import re
import sys

# Lemmas, fields and constructors whose names are words joined by dashes. A dash stays where it joins the names of two
# definitions, as in run-append.
PHRASES = """
accepted-by after-exchanged after-part after-replaced all-examined allowed-counted alphabet-below at-end at-fault
at-full at-good at-halves at-one-place at-opening at-start at-ten at-the-end before-key below-same both-are both-before
both-counted by-character by-gap by-remainder cancel-add cancel-add-left cancel-mul cause-of char-right characters-slip
closed-counts closed-verdict count-below count-in-key count-injective count-more count-read count-symbol counted-allowed
counted-both counted-fit counted-only counts-by cut-here digit-below digit-count digit-counts digits-agree digits-tell
every-lawful exact-in exact-step exactly-by examples-valid exchanged-differ fault-of filled-by first-allowed first-full
front-step front-value gap-right gap-wrong good-12 good-by good-cut good-filled good-strip in-front in-key1 in-key2
inverse-less-one keeps-by keeps-numbered kept-verdict key-accepted key-at key-cases key-characters key-count key-filled
key-for key-good key-leads key-length key-only key-place key-symbols key-to key-within keyed-at last-back last-by-key
last-full last-here last-same law-of-slips less-injective letter-slips line-is lost-gap moved-whole never-unfit next-is
no-fault no-misfit no-slips none-opening none-stray none-valid none-wrong not-stripped number-symbols of-equal
one-sequence one-tells only-by opening-none or-one other-run other-wrong passing-accepted passing-same passing-unfit
reading-front reading-moved refused-by refused-not replaced-differ rest-counted run-from-after run-running running-after
running-value same-agree same-character same-digit same-mul same-off same-value sequence-tells shifts-good shifts-within
size-positive slip-differs slip-last slip-rest slip-text slip-width slip-within some-keys some-none sound-of split-all
split-ends split-goes-on split-more square-positive start-wrong step-below step-in-key step-injective step-replaced
step-stands step-tells steps-exchanged steps-paired stray-all stray-more stray-none strip-ok strip-refused strip-refuses
symbol-character symbol-count symbol-is symbols-allowed symbols-characters symbols-length symbols-number take-least
takes-wide ten-sequence ten-tells text-filled told-of-reading two-left two-parts two-stepped uncounted-front
uncounted-parts uncounted-place valid-by valid-none valid-text with-length word-format wrong-end wrong-step wrote-two
""".split()

# Lemmas that would have a definition's name.
LEMMAS = """
base-value count-of in-key is-value key-from key-number key-part lets-pass or-full or-none
""".split()

WORD = re.compile(r"(?<![A-Za-z0-9_'\u00b7\\])[a-z][a-z0-9]*(?:[A-Z][A-Za-z0-9]*)+(?![A-Za-z0-9_'])")
HEAD = re.compile(r"^--   (\S.*?)(?: {2,})(\S.*)$")
MORE = re.compile(r"^--  {4,}(\S.*)$")
DASHED = re.compile(r"(?<![A-Za-z0-9_'-])(" + "|".join(sorted(map(re.escape, PHRASES), key=len, reverse=True)) + r")(?![A-Za-z0-9_'-])")
NAMED = re.compile(r"(?<![A-Za-z0-9_'.-])(" + "|".join(map(re.escape, LEMMAS)) + r")(?![A-Za-z0-9_'-])")


def in_snake_case(text):
    return WORD.sub(lambda m: re.sub(r"(?<=[a-z0-9])([A-Z])", lambda c: "_" + c.group(1).lower(), m.group(0)), text)


def without_dashes(text):
    # a variable that would have the name of the definition wordOf
    text = re.sub(r"\bword_of\b", "word_is", text)
    text = DASHED.sub(lambda m: m.group(0).replace("-", "_"), text)
    return NAMED.sub(lambda m: m.group(0).replace("-", "_") + "_lem", text)


def laid_out(text):
    lines = text.split("\n")
    end = 0
    while end < len(lines) and lines[end].startswith("--"):
        end += 1
    rows = [(i, HEAD.match(lines[i])) for i in range(end) if HEAD.match(lines[i])]
    if not rows:
        return text
    width = max(len(m.group(1)) for _, m in rows) + 2
    for i in range(rows[0][0], end):
        m = HEAD.match(lines[i])
        if m:
            lines[i] = "--   " + m.group(1).ljust(width) + m.group(2)
        elif MORE.match(lines[i]):
            lines[i] = "--   " + " " * width + MORE.match(lines[i]).group(1)
    return "\n".join(lines)


def files_of(top):
    for where in ("crates", "docs", "README.md"):
        where = os.path.join(top, where)
        if os.path.isfile(where):
            yield where
        for folder, _, files in os.walk(where):
            if "/out" not in folder:
                yield from (os.path.join(folder, f) for f in sorted(files) if f.endswith((".rt", ".antt", ".edit", ".md")))


def main():
    for path in files_of(sys.argv[1] if len(sys.argv) > 1 else "."):
        with open(path, encoding="utf-8") as f:
            old = f.read()
        new = in_snake_case(without_dashes(old) if path.endswith(".antt") else old)
        if path.endswith(".antt") and "/specs/" in path:
            new = laid_out(new)
        if new != old:
            with open(path, "w", encoding="utf-8") as f:
                f.write(new)


main()
