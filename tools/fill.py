#!/usr/bin/env python3
# fill.py [-g] CRATE FN FILE..: the FILEs have lines `use ..` and blocks `NEED[unfolded names]: term` (a term goes on over indented lines).
# Fills the holes `NEED .. = ?` of the function's skeleton. A need `xyz*` stands for all that begin so.
# `@thing` in a term is the path to the nearest place of that name in the need's `c`: `@loop .inv`, `@if1 .taken`, `@args .n`, `@pre`.
# `@arm` is the fact of the nearest match's arm: `@arm .given .1` says which variant it is, fields bound or not.
# With -g the generated files are made anew first (rt dev CRATE --generated).
import glob
import sys

sys.dont_write_bytecode = True  # nothing is left behind in tools/

import places

crate, fn, *files = [a for a in sys.argv[1:] if a != "-g"]
records, needs = places.read(places.generated(crate, "-g" in sys.argv), crate, fn)
uses, blocks = places.answers(files, r"^([^\s\[:]+)(?:\[(.*?)\])?: (.*)$")


def answer(need):
    key = max((k for k in blocks if k[0] == need or k[0].endswith("*") and need.startswith(k[0][:-1])), key=lambda k: len(k[0]), default=None)
    if key:
        unfolded, term = blocks[key]
        return unfolded, places.expand(term, places.nearest(records, needs, need), need)


places.fill(glob.glob(f"crates/{crate}/proofs/**/{fn}/Proof.antt", recursive=True)[0], uses, answer)
