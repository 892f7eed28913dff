#!/usr/bin/env python3
"""The places on the way to the ends of a made function, with the number of `.before` (what tools/paths.py is for functions that the kit covers).

    chain.py CRATE FUNCTION     # reads crates/CRATE/proofs/FUNCTION/Proof/Lts.antt, which tools/mirror.py makes
"""
import os
import re
import sys

ROOT = os.path.dirname(os.path.dirname(os.path.abspath(__file__)))


def ways(text):
    """Each record of the file that has a way before it: the one before, and its own places."""
    out = {}
    for m in re.finditer(r"pub record ([\w-]+)\b.*?where(.*?)(?=\n\s*\n)", text, re.S):
        fields = dict(re.findall(r"pub ([\w-]+) : ([\w-]+)", m.group(2)))
        if "before" in fields:
            out[m.group(1)] = (fields.pop("before"), list(fields))
    return out


def main(crate, function):
    with open(f"{ROOT}/crates/{crate}/proofs/{function}/Proof/Lts.antt") as f:
        before = ways(f.read())
    for end in sorted(set(before) - {b for b, _ in before.values()}):
        print(end)
        here, n = end, 0
        while here in before:
            here, places = before[here]
            if not places or not re.match(r"(shared-)?slice-known", places[0]):
                print(f"   c (.before x{n}) .{' .'.join(places)}")
            n += 1
        print(f"   c (.before x{n}) .args")


main(*sys.argv[1:])
