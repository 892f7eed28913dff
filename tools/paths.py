#!/usr/bin/env python3
# paths.py [-n] CRATE FUNCTION [NEED..]: for each need, the places on the way to it, each with the number of `.before` that lead there.
# Runs `rt dev CRATE --generated DIR` unless -n is given.
import sys

sys.dont_write_bytecode = True  # nothing is left behind in tools/

import places

crate, fn, *wanted = [a for a in sys.argv[1:] if a != "-n"]
records, needs = places.read(places.generated(crate, "-n" not in sys.argv), crate, fn)
for need, at in needs.items():
    if wanted and need not in wanted:
        continue
    print(f"{need}: c : {at}")
    for k, (name, path, fields) in enumerate(places.way(records, needs, need)):
        own = [f for f, _ in records.get(name + "·own", [])]
        for f in fields:
            print(f"   {path if k < 4 else f'c (.before x{k})'} .{f}" + (f"  {{{', '.join(own)}}}" if own else ""))
