#!/usr/bin/env python3
# fillcycle.py [-g] CRATE CYCLE FILE: as fill.py, for functions that call each other and are proved in one file (the folder CYCLE, `+a+b+c`).
# Blocks are `FN/NEED[unfolded names]: term`; a need without a block gets `search needs`. Measures: `FN/μ: term`.
import glob
import sys

sys.dont_write_bytecode = True  # nothing is left behind in tools/

import places

crate, cycle, *files = [a for a in sys.argv[1:] if a != "-g"]
folder = places.generated(crate, "-g" in sys.argv)
functions = cycle.strip("+").split("+")
read = {fn: places.read(folder, crate, fn) for fn in functions}
uses, blocks = places.answers(files, r"^([^\s\[:/]+)/([^\s\[:]+)(?:\[(.*?)\])?: (.*)$")


def answer(name):
    if name.startswith("μ-"):
        return blocks.get((name[2:].replace("-", "_"), "μ"))
    fn = max((f for f in functions if name.startswith(f.replace("_", "-") + "-")), key=len)
    need = name[len(fn) + 1 :]
    unfolded, term = blocks.get((fn, need), (None, "search needs"))
    return unfolded, places.expand(term, places.nearest(*read[fn], need), name)


places.fill(glob.glob(f"crates/{crate}/proofs/**/{glob.escape(cycle)}/Proof.antt", recursive=True)[0], uses, answer)
