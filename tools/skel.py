#!/usr/bin/env python3
# skel.py CRATE: runs `rt dev CRATE` and writes each proof skeleton that the check prints to its file, where that file is not there.
import os, re, subprocess, sys

out = subprocess.run(["rt", "dev", sys.argv[1]], stdout=subprocess.PIPE, stderr=subprocess.STDOUT, env=dict(os.environ, RT_CUT="0")).stdout.decode()
open("/tmp/skel.out", "w").write(out)
lines = out.split("\n")
i = 0
while i < len(lines):
    m = re.match(r"help: write (\S+) with these lines", lines[i])
    i += 1
    if not m:
        continue
    body = []
    while i < len(lines) and lines[i].startswith("    "):
        body.append(lines[i][4:])
        i += 1
    if os.path.exists(m.group(1)):
        print("exists", m.group(1))
        continue
    os.makedirs(os.path.dirname(m.group(1)), exist_ok=True)
    open(m.group(1), "w").write("\n".join(body) + "\n")
    print("wrote", os.path.relpath(m.group(1)), sum(l.endswith("= ?") for l in body), "open")
for l in lines:
    if re.match(r"^(fn|struct|enum) ", l) and not l.endswith(": proved") or ": error:" in l:
        print(l[:240])
print(lines[-2])
