#!/usr/bin/env python3
"""architecture.py [--check]: the table of crates in docs/ARCHITECTURE.md, made from crates.txt and from the first sentence of each crate.

The rooms are the comment lines of crates.txt; what a crate is, is the first sentence of the comment that its src/lib.rt (or main.rt)
begins with. Without --check the table between the two marks of the page is written anew. With it nothing is written: the exit status is
1 if the page is not up to date, if a crate has no such sentence, or if a row would be longer than 140 characters.
"""
import pathlib
import re
import sys

ROOT = pathlib.Path(__file__).resolve().parent.parent
PAGE = ROOT / "docs" / "ARCHITECTURE.md"
BEGIN, END = "<!-- crates: made by tools/architecture.py -->", "<!-- crates: end -->"
WIDTH = 140


def sentence(crate):
    """The first sentence of the comment at the head of the crate's root file; "" where there is none."""
    for root in ("lib.rt", "main.rt"):
        path = ROOT / "crates" / crate / "src" / root
        if path.is_file():
            words = []
            for line in path.read_text(encoding="utf-8").splitlines():
                if not line.startswith("//"):
                    break
                words.append(line[2:].strip())
            text = " ".join(words)
            # a full stop with a space or nothing behind it ends the sentence; those of `asyncio.rs` and `..` do not
            found = re.match(r"(.*?[^.\s])\.(?=\s|$)", text)
            return found.group(1) if found else text
    return ""


def row(crate):
    text = sentence(crate).replace("|", "\\|")
    line = f"| `{crate}` | {text} |"
    if len(line) <= WIDTH:
        return line, None if text else f"{crate}: its root file has no first sentence"
    room = WIDTH - len(f"| `{crate}` |  .. |")
    cut = text[:room].rsplit(" ", 1)[0]
    return f"| `{crate}` | {cut} .. |", f"{crate}: its first sentence is {len(line) - WIDTH} characters too long for a row"


def table():
    lines, faults, named = [], [], []
    head = None
    for line in (ROOT / "crates.txt").read_text(encoding="utf-8").splitlines():
        if line.startswith("#"):
            head = line[1:].strip()
        elif re.match(r"[a-z0-9_]+( staticlib)?:", line):
            crate = re.split("[ :]", line)[0]
            if head:
                lines += ["", f"**{head}**", "", "| crate | what it is |", "|---|---|"]
                head = None
            made, fault = row(crate)
            lines.append(made)
            named.append(crate)
            if fault:
                faults.append(fault)
    folders = sorted(p.name for p in (ROOT / "crates").iterdir() if p.is_dir())
    if folders != sorted(named):
        faults.append("crates.txt and the folders of crates/ differ: " + " ".join(sorted(set(folders) ^ set(named))))
    return lines[1:], faults


def main():
    check = "--check" in sys.argv[1:]
    page = PAGE.read_text(encoding="utf-8")
    if page.count(BEGIN) != 1 or page.count(END) != 1:
        sys.exit(f"{PAGE}: the marks are not there once each")
    before, rest = page.split(BEGIN)
    after = rest.split(END)[1]
    lines, faults = table()
    made = before + BEGIN + "\n\n" + "\n".join(lines) + "\n\n" + END + after
    for fault in faults:
        print("architecture:", fault, file=sys.stderr)
    if check:
        if made != page:
            print("architecture: docs/ARCHITECTURE.md is not up to date: run python3 tools/architecture.py", file=sys.stderr)
        sys.exit(1 if faults or made != page else 0)
    PAGE.write_text(made, encoding="utf-8")


main()
