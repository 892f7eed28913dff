#!/usr/bin/env python3
"""Tries must-fail edits of a crate whose dependencies are proved already, and prints the first errors of each.

    tryedits.py CRATE [EDIT ..]

`rt must-fail` has the verdict; here the reason can be read: it should be a fact, not the proof's shape.
"""
import pathlib
import re
import shutil
import subprocess
import sys
import tempfile

ROOT = pathlib.Path(__file__).resolve().parent.parent
KIT = pathlib.Path("/opt/rattle")
OWN = KIT / "on/x86_64"


def depends_on(crate):
    for line in (ROOT / "crates.txt").read_text().splitlines():
        name, colon, rest = line.partition("#")[0].partition(":")
        if colon and name.strip() == crate:
            return rest.split()
    sys.exit(f"crates.txt has no {crate}")


def root_of(folder):
    """A library's lib.rt, or a program's main.rt."""
    return next(p for p in (folder / "src/lib.rt", folder / "src/main.rt") if p.exists())


def check(crate, folder):
    words = ["rattle", "check", "--crate-name", crate, str(root_of(folder)), "--extern", f"std={OWN}/rlib/std.rlib"]
    for d in depends_on(crate):
        own = ROOT / "target/rlib" / f"{d}.rlib"
        words += ["--extern", f"{d}={own if own.exists() else OWN / 'rlib' / (d + '.rlib')}"]
    words += ["-L", f"dependency={ROOT}/target/rlib", "-L", f"dependency={OWN}/rlib"]
    words += ["--antt-project", str(KIT / "logic/antt-project.json"), "--logic-built", str(OWN / "logic-built")]
    return subprocess.run(words, capture_output=True, text=True)


def apply(edit, folder):
    name = old = None
    for line in edit.read_text().splitlines():
        if line.startswith("file: "):
            name = line[6:]
        elif line.startswith("old: "):
            old = line[5:]
        elif line.startswith("new:"):
            path = folder / name
            text = path.read_text()
            if text.count(old) != 1:
                return f"its old text is there {text.count(old)} times"
            path.write_text(text.replace(old, line[4:].removeprefix(" ")))
    return None


def main(crate, names):
    source = ROOT / "crates" / crate
    edits = [source / "must-fail" / f"{n}.edit" for n in names] or sorted((source / "must-fail").glob("*.edit"))
    for edit in edits:
        with tempfile.TemporaryDirectory() as room:
            folder = pathlib.Path(room) / crate
            shutil.copytree(source, folder)
            bad = apply(edit, folder)
            print(f"== {crate}/{edit.stem}: {bad or ''}")
            if bad:
                continue
            run = check(crate, folder)
            errors = [line for line in (run.stdout + run.stderr).splitlines() if re.search(r": error", line)]
            print("NOT REFUSED" if run.returncode == 0 else "", *[e.replace(str(folder), "")[:400] for e in errors[:2]], sep="\n  ")
            sys.stdout.flush()


if __name__ == "__main__":
    main(sys.argv[1], sys.argv[2:])
