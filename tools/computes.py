#!/usr/bin/env python3
# computes.py: writes crates/machine/specs/Computes.antt, the one name that unfolds the machine, its queue and its rows (run in the
# repository's root after every new `unfoldable` name in these files).
import re

FILES = [
    ("asyncio", "Rattle.asyncio.specs", ["Kinds", "Parts"]),
    ("rows", "Rattle.rows.specs", ["Tables", "Canonical"]),
    ("queue", "Rattle.queue.specs", ["Queue"]),
    ("machine", "Rattle.machine.specs", ["Tests", "Store", "Scheduler", "Delivery", "Commit", "Events", "Sound", "Machine"]),
]
names = []
for crate, path, files in FILES:
    for f in files:
        found = re.findall(r"^\s*unfoldable pub (\S+) :", open(f"crates/{crate}/specs/{f}.antt").read(), re.M)
        names.append((path, f, [n for n in found if n != "Distinct"]))
out = "-- Whoever unfolds `computes` unfolds the whole machine. (Written by tools/computes.py.)\n"
for p, f, ns in names:
    out += f"use {p}.{f}.{{{', '.join(ns)}}}\n"
out += "\nunfoldable pub computes : Unit {0}\nunfolding " + " ".join(n for _, _, ns in names for n in ns) + "\ncomputes = tt\n"
open("crates/machine/specs/Computes.antt", "w").write(out)
