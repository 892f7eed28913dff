"""places.py: the places on the way to each need of a function, read off the file Lts that `rt dev CRATE --generated DIR` writes."""
import glob
import os
import re
import subprocess
import tempfile


def generated(crate, anew):
    """The folder of the generated files, made anew or as they are."""
    folder = os.path.join(tempfile.gettempdir(), "rattle-gen-" + crate)
    if anew:
        subprocess.run(["rt", "dev", crate, "--generated", folder], stdout=subprocess.DEVNULL, stderr=subprocess.DEVNULL)
    return folder


def read(folder, crate, fn):
    """The records of a function's places, each with its fields, and the record that each need speaks of."""
    base = f"{folder}/Rattle·{crate}·proofs/proofs/**"
    path = (glob.glob(f"{base}/{fn}/Lts.antt", recursive=True) + glob.glob(f"{base}/Lts-{fn}.antt", recursive=True))[0]
    lines = open(path).read().split("\n")
    records, needs, current = {}, {}, None
    for i, line in enumerate(lines):
        if m := re.match(r"\s+pub record (\S+) : Type 0 where", line):
            current = m.group(1)
            records.setdefault(current, [])
        elif current and (m := re.match(r"\s+pub (\S+) : (.*)", line)):
            records[current].append((m.group(1), m.group(2)))
        elif m := re.match(r"\s+Need-(\S+) =(.*)", line):
            current = None
            if n := re.search(r"\(c : ([^\s)]+)\)", line + " ".join(lines[i : i + 3])):
                needs[m.group(1)] = n.group(1)
        elif re.match(r"\s{0,6}\S", line) and not line.strip().startswith("pub"):
            current = None
    return records, needs


def way(records, needs, need):
    """The records from a need back to the start, each with the path that leads there."""
    at, path = needs.get(need), "c"
    while at in records:
        fields = dict(records[at])
        yield at, path, [f for f in fields if f != "before"]
        if "before" not in fields:
            return
        at, path = fields["before"].split()[0], path + " .before"


def nearest(records, needs, need):
    """The path to the nearest place of each name; `arm` is the fact of the nearest match's arm."""
    out, last = {}, None
    for _, path, fields in way(records, needs, need):
        if "match" in fields and last and "arm" not in out:
            out["arm"] = last
        if fields:
            last = f"{path} .{fields[0]}"
        for f in fields:
            out.setdefault(f, f"{path} .{f}")
    return out


def answers(files, pattern):
    """The `use` lines and the blocks of answer files; a block starts with a line that fits the pattern (its last two groups are the
    unfolded names and the term) and goes on over indented lines."""
    uses, blocks, current = [], {}, None
    for file in files:
        for line in open(file):
            line = line.rstrip("\n")
            if line.startswith("use "):
                uses.append(line)
                current = None
            elif line.startswith("--"):
                current = None
            elif not line.startswith(" ") and (m := re.match(pattern, line)):
                *current, unfolded, term = m.groups()
                current = tuple(current)
                blocks[current] = [unfolded, term]
            elif current and line.strip():
                blocks[current][1] += "\n" + line
    return uses, blocks


def fill(path, uses, answer):
    """Writes the file with the `use` lines and, for each hole `NEED .. = ?`, what `answer(NEED)` gives: unfolded names and a term, or None."""
    text = open(path).read()
    have, out = set(text.split("\n")), []
    for line in [u for u in uses if u not in have] + text.split("\n"):
        if m := re.match(r"^(\S+)( .*?)? = \?$", line):
            if found := answer(m.group(1)):
                if found[0]:
                    out.append("unfolding " + found[0])
                line = f"{m.group(1)}{m.group(2) or ''} = {found[1]}"
        out.append(line)
    open(path, "w").write("\n".join(out))


def expand(term, places, need):
    """`@thing` in a term is the path to the nearest place of that name."""

    def path(m):
        if m.group(1) not in places:
            print("no place", m.group(1), "in", need, list(places))
            return m.group(0)
        return places[m.group(1)]

    return re.sub(r"@([A-Za-z0-9-]+)", path, term)
