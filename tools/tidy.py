#!/usr/bin/env python3
# tidy.py FILE..: takes out of finished proof files what the check printed only for the work on them: comments with places of the
# source, and `use .. as` lines whose name no answer uses.
import re, sys

for path in sys.argv[1:]:
    lines = [l for l in open(path).read().split("\n") if not re.match(r"-- src/\S+:\d+:\d+$", l)]
    keep = []
    for l in lines:
        m = re.match(r"use \S+ as (\S+)$", l)
        if m and not any(re.search(r"(?<![\w-])" + re.escape(m.group(1)) + r"\.", x) for x in lines if x is not l):
            continue
        keep.append(l)
    open(path, "w").write("\n".join(keep))
