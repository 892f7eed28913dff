"""respell.py [FOLDER]: run once, behind port.py, at the top of the repository. Spells the repository's own definitions and lemmas as this Rattle does:
definitions, fields and constructors in snake case; in a lemma's name a dash joins two names and an underscore adds a plain word. Names of src/, names that
Rattle makes and names of its library stay. Contracts, specs/, proofs/ and the pages of docs/ follow. --edits: the files of must-fail/ too (by token).
It prints what it renamed to FOLDER/target/respelled.txt, and stops where two names would fall together.
"""
import collections
import pathlib
import re
import sys

CHAR = r"[^\s(){}\[\],;.:λ«»\"`|]"
NAME = CHAR + "+"
TOP = re.compile(r"^(?P<marks>(?:(?:pub|abbrev|unfoldable|final)\s+)*)(?P<name>" + NAME + r")(?:\s*\{[^}]*\})?\s*:(?:\s|$)")
DEEP = re.compile(r"^\s+(?P<marks>(?:(?:pub|abbrev|unfoldable)\s+)+)(?P<name>" + NAME + r")(?:\s*\{[^}]*\})?\s*:(?:\s|$)")  # in a module or a mutual block
BLOCK = re.compile(r"^(?:pub\s+)?(?:data|record)\s+(" + NAME + ")")
INNER = re.compile(r"^\s+(?:pub )?(" + NAME + r")\s*:")
TOKEN = re.compile(r"(?<![\w'′\-])[A-Za-z_][\w'′]*(?:-[\w'′]+)+(?![\w'′\-])")
WORD = re.compile(r"[\w'′]+(?:-[\w'′]+)*")
IMPORT = re.compile(r"^\s*(?:ghost )?use (?!Rattle\.(?!std|core|libc|io)\w+\.)[\w.]+\.\{([^}]*)\}", re.M)


def files(root, *kinds):
    for path in sorted((root / "crates").rglob("*")):
        if path.suffix in kinds and "out" not in path.parts:
            yield path


def declared(root):
    """The names that specs/ and the lemma files of proofs/ declare: definitions and lemmas."""
    definitions, lemmas = set(), set()
    for path in files(root, ".antt"):
        if "proofs" in path.parts and path.name in ("Proof.antt", "Answers.antt", "Invariants.antt"):
            continue
        block = False
        for line in path.read_text().split("\n"):
            if found := BLOCK.match(line):
                block = True
                definitions.add(found.group(1))
            elif not block and (found := DEEP.match(line)):
                (definitions if {"abbrev", "unfoldable"} & set(found.group("marks").split()) else lemmas).add(found.group("name"))
            elif line and not line[0].isspace():
                block = False
                if found := TOP.match(line):
                    marks = found.group("marks").split()
                    (definitions if {"abbrev", "unfoldable"} & set(marks) else lemmas).add(found.group("name"))
            elif block and (found := INNER.match(line)):
                definitions.add(found.group(1))
    return definitions, lemmas - definitions


def library_names(root):
    taken = set()
    for path in files(root, ".antt", ".rt"):
        for found in IMPORT.finditer(path.read_text()):
            taken |= {name.split(" as ")[0].strip() for name in found.group(1).split(",")}
    return taken


def lemma_name(name, known):
    """The longest known names of its words, joined by dashes; plain words are added by underscores."""
    words, parts, at = name.split("-"), [], 0
    while at < len(words):
        for end in range(len(words), at, -1):
            part = "_".join(words[at:end])
            if part in known:
                parts.append((part, True))
                at = end
                break
        else:
            parts.append((words[at], False))
            at += 1
    out = parts[0][0]
    for (_, before), (part, here) in zip(parts, parts[1:]):
        out += ("-" if before and here else "_") + part
    return out


def renamings(root):
    definitions, lemmas = declared(root)
    library = library_names(root)
    known = {name.replace("-", "_") for name in definitions} | {name for name in library if name.islower() and "-" not in name}
    table = {}
    for name in sorted(definitions | lemmas):
        if "-" not in name or name in library or name.startswith("-") or not re.fullmatch(TOKEN, name):
            continue
        new = name.replace("-", "_") if name in definitions else lemma_name(name, known)
        if new != name:
            table[name] = new
    return table


def fallen_together(root, table):
    """New names that two old ones share, or that already stand somewhere."""
    standing = collections.defaultdict(set)
    for path in files(root, ".antt"):
        for found in WORD.finditer(path.read_text()):
            standing[found.group()].add(path)
    by_new = collections.defaultdict(list)
    for old, new in table.items():
        by_new[new].append(old)
    return {new: (olds, standing.get(new, set())) for new, olds in by_new.items() if len(olds) > 1 or new in standing}


def clauses(text):
    """The stretches of a .rt file that are antt or comments: the imports, the clauses, the ghost items, what stands behind //."""
    out, at = [], 0
    for found in re.finditer(r"//[^\n]*|^ghost use [^;]*;|\b(?:requires|ensures)\*?(?: \w+)? \{|^\s*(?:pub )?ghost \w+[^{;]*\{", text, re.M):
        if found.start() < at:
            continue
        end = found.end()
        if found.group().endswith("{"):
            depth = 1
            while depth:
                depth += {"{": 1, "}": -1}.get(text[end], 0)
                end += 1
        out.append((found.start(), end))
        at = end
    return out


def main():
    root = pathlib.Path(next((a for a in sys.argv[1:] if not a.startswith("-")), ".")).resolve()
    table = renamings(root)
    together = fallen_together(root, table)
    for new, (olds, paths) in sorted(together.items()):
        print(new, "<-", *olds, "| stands in", *sorted({str(p.relative_to(root / "crates")) for p in paths})[:4])
    if "--look" in sys.argv:
        print(len(table), "names;", len(together), "fall together")
        return
    turn = lambda text: TOKEN.sub(lambda found: table.get(found.group(), found.group()), text)
    for path in files(root, ".antt", *([".edit"] if "--edits" in sys.argv else [])):
        text = path.read_text()
        if (new := turn(text)) != text:
            path.write_text(new)
    for path in files(root, ".rt"):
        text, out, at = path.read_text(), "", 0
        for start, end in clauses(text):
            out += text[at:start] + turn(text[start:end])
            at = end
        out += text[at:]
        if out != text:
            path.write_text(out)
    for path in [root / "README.md", *sorted((root / "docs").rglob("*.md"))]:  # the old lists of docs/changes too: a name there is today's
        text = path.read_text()
        if (new := re.sub(r"`[^`\n]+`", lambda found: turn(found.group()), text)) != text:
            path.write_text(new)
    target = root / "target"
    target.mkdir(exist_ok=True)
    (target / "respelled.txt").write_text("".join(f"{old} {new}\n" for old, new in sorted(table.items())))
    print(len(table), "names")


main()
