#!/usr/bin/env python3
"""Respells this repository's own definitions and lemmas, once, after port.py: words in snake case, and a dash only between two names.

usage: python3 tools/respell.py     at the top of the repository, or in another checkout of it by that checkout's path as the argument
"""

import glob
import os
import re
import sys

# A lemma whose name joined a plain word by a dash.
PLAIN = """
above-lt accepts-all admitted-empty admitted-set call-command call-give call-read call-take cells-few cells-found cells-inside
cells-put cells-zeroed command-keeps command-moves counted-at counted-set digits-pass drawn-is element-found entries-more
err-is err-ok even-lt first-waits fresh-admitted fresh-high fresh-low give-count give-moves give-read holds-from holds-none
idle-accepts idle-with joined-none joined-one keeps-words moved-is narrow-zero no-bit num-bit num-byte num-lt number-passes
numbers-all numbers-none odd-sum one-closable one-moves overlay-is packed-bit-inside packed-bits packed-few packed-guards
packed-read packed-value-inside packed-values packed-zeroed parity-lt pass-digits passes-number places-found places-inside
places-put places-set protect-bits put-above put-below put-bits put-read refusal-stays refusal-stays-by take-keeps take-moves
texts-more value-bits where-kept
""".split()

OTHER = {
    "getD-same": "get_or_same",
    "getD-set-either": "get_or-set_either",
    "length-places": "length-places_of",
    # Functions of src/ have the plain respelling of these as their names.
    "hasRoom": "room_is_left",
    "isInput": "command_is_input",
    "operationNumber": "number_of_operation",
    "soundAt": "is_sound_at",
    "zeroRegisters": "blank_registers",
    "withCells": "cells_with",
    "withProtect": "place_with_protect",
    "withValue": "place_with_value",
}

# Definitions to which port.py gives the name of a function beside them; code calls the function, and only clauses name the definition.
BESIDE = {"bit_at": "bit_of", "put_bit": "number_with_bit"}

DEFINED = re.compile(r"^\s*(?:abbrev |unfoldable )?(?:pub )?([a-z][A-Za-z0-9]*[A-Z][A-Za-z0-9]*) :(?=\s)", re.M)

CLAUSE = re.compile(r"^(?:ghost use .*|\s*ensures .*)$", re.M)


def snake(name):
    return re.sub(r"(?<=[a-z0-9])(?=[A-Z])", "_", name).lower()


def main():
    top = sys.argv[1] if len(sys.argv) > 1 else "."
    crates = os.path.join(top, "crates")
    terms = sorted(glob.glob(crates + "/*/specs/**/*.antt", recursive=True) + glob.glob(crates + "/*/proofs/**/*.antt", recursive=True))
    code = sorted(glob.glob(crates + "/*/src/**/*.rt", recursive=True))
    to = {n: n.replace("-", "_") for n in PLAIN} | OTHER
    texts = {p: open(p, encoding="utf-8").read() for p in terms + code}
    for p in terms:
        if "/specs/" in p or os.path.basename(p) not in ("Answers.antt", "Invariants.antt"):
            for name in DEFINED.findall(texts[p]):
                to.setdefault(name, snake(name))
    taken = set(re.findall(r"[A-Za-z_][\w'-]*", " ".join(texts.values())))
    for old, new in sorted(to.items()):
        if new in taken:
            print(f"falls together: {old} and {new}")
    word = re.compile(r"(?<![\w'-])(" + "|".join(sorted(map(re.escape, to), key=len, reverse=True)) + r")(?![\w'-])")
    beside = re.compile(r"(?<![\w'.-])(" + "|".join(BESIDE) + r")(?![\w'-])")
    for p, text in texts.items():
        if p.endswith(".rt"):
            # A dash in code is a difference; only names in camel case are respelled there, and they stand in clauses alone.
            new = word.sub(lambda m: m[1] if "-" in m[1] else to[m[1]], text)
            new = CLAUSE.sub(lambda m: beside.sub(lambda n: BESIDE[n[1]], m[0]), new)
        else:
            new = beside.sub(lambda n: BESIDE[n[1]], word.sub(lambda m: to[m[1]], text))
        if new != text:
            with open(p, "w", encoding="utf-8") as f:
                f.write(new)
    print(f"{len(to)} names")


main()
