#!/usr/bin/env python3
"""repath.py: after a change of code that moves the places of a proof (a call more, a call less), puts the paths of its answers right.

    repath.py save CRATE           before the change: keeps the generated files of the crate
    repath.py CRATE [FUNCTION ..]  after it: rewrites `c .before .. .PLACE` in the answers, PLACE being the same one of that name
    repath.py CRATE --rename OLD=NEW ..   the same, where a place has another name now (a callee or a local renamed)

A place is known by its name and by which of that name it is, counted from the need back. A path whose place is gone stays as it is and is
told; a need that is new has a hole, as `rt dev` prints it.
"""
import glob
import os
import re
import subprocess
import sys
import tempfile

sys.dont_write_bytecode = True  # nothing is left behind in tools/

import places


def folder(crate, which):
    return os.path.join(tempfile.gettempdir(), f"rattle-{which}-{os.path.basename(os.path.dirname(os.getcwd()))}-{crate}")


def generate(crate, which):
    subprocess.run(["rt", "dev", crate, "--generated", folder(crate, which)], stdout=subprocess.DEVNULL, stderr=subprocess.DEVNULL)


def ways(records, needs, need):
    """For each number of `.before`, the fields there; and for (field, how manyeth) the path."""
    at, found, seen = [], {}, {}
    for _, path, fields in places.way(records, needs, need):
        at.append(fields)
        for f in fields:
            seen[f] = seen.get(f, 0) + 1
            found[f, seen[f]] = path
    return at, found


def manyeth(at, k, field):
    return sum(field in fields for fields in at[: k + 1])


def repath(path, crate, fn, renames):
    old, new = places.read(folder(crate, "old"), crate, fn), places.read(folder(crate, "new"), crate, fn)
    text, out, need = open(path).read(), [], None
    for line in text.split("\n"):
        if m := re.match(r"^([^\s:]+) .*?= ", line):
            need = m.group(1)
        if need in old[1] and need in new[1]:
            was, _ = ways(*old, need)
            _, now = ways(*new, need)

            def moved(m):
                k, field = m.group(1).count(".before"), m.group(2)
                if k >= len(was) or field not in was[k]:
                    print(f"{fn} {need}: no place {field} at {k}")
                    return m.group(0)
                n, name = manyeth(was, k, field), renames.get(field, field)
                if (name, n) not in now:
                    print(f"{fn} {need}: {field} ({n}) is gone")
                    return m.group(0)
                return f"{now[name, n]} .{name}"

            line = re.sub(r"(?<![\w.-])c((?: \.before)*) \.([\w·-]+)", moved, line)
        out.append(line)
    if "\n".join(out) != text:
        open(path, "w").write("\n".join(out))
        print(f"{fn}: put right")


def main():
    if sys.argv[1] == "save":
        generate(sys.argv[2], "old")
        return
    crate, *words = sys.argv[1:]
    renames = dict(w.split("=") for w in words if "=" in w)
    wanted = [w for w in words if "=" not in w and w != "--rename"]
    generate(crate, "new")
    for path in sorted(glob.glob(f"crates/{crate}/proofs/**/Proof.antt", recursive=True)):
        fn = os.path.basename(os.path.dirname(path))
        if "+" in fn or wanted and fn not in wanted:
            continue
        try:
            repath(path, crate, fn, renames)
        except IndexError:
            print(f"{fn}: no generated file")


main()
