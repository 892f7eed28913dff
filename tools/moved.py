#!/usr/bin/env python3
"""moved.py BASE [TO]: what a landing moved and what stayed, by name, for its note in docs/changes/.

The crates of the revision BASE are held against those of TO (without it: against the files as they stand). Compared, comments and layout apart:

    promises      signature, `requires` and `ensures` of each function
    code          each function's body
    types         each struct, enum and constant of the sources, and what a crate hands on (`pub use`)
    definitions   in specs/: each record, data, `abbrev` and `unfoldable`
    laws          in specs/: every other declaration, its statement and, of those whose statement stayed, its proof
    proofs        each function's file in proofs/
    edits         each must-fail edit
    imports       of each name that a file of src/ or specs/ imports, the module that it comes from

A promise may keep its words while a definition that it names moves: that is told under the definitions; or while a name comes from another
module: under the imports. Not compared: attributes, fixities, and what programs read and print.
"""
import collections
import itertools
import pathlib
import re
import subprocess
import sys
import textwrap

ROOT = pathlib.Path(__file__).resolve().parent.parent
SORTS = ("promises", "code", "types", "definitions", "laws", "proofs of laws", "proofs", "edits", "imports")
DEFINES = {"record", "data", "enum", "abbrev", "unfoldable"}
NO_NAMES = {"use", "mod", "unfolding", "where", "infix", "infixl", "infixr"}


def git(*words):
    run = subprocess.run(["git", *words], capture_output=True, text=True, cwd=ROOT)
    if run.returncode:
        sys.exit(f"moved: git {' '.join(words)}: {run.stderr.strip()}")
    return run.stdout


def indent(line):
    return len(line) - len(line.lstrip())


def flat(lines):
    """The words of some lines, without their layout."""
    return " ".join(" ".join(lines).split())


def without_comments(text, mark):
    return [line for line in text.split("\n") if line.strip() and not line.lstrip().startswith(mark)]


def declarations(text):
    """Of a file of antt: whether it defines, name, statement and body of each declaration. In a module its parameters are of the statement."""
    lines, modules, found, opened, at = without_comments(text, "--"), [], [], "", 0
    while at < len(lines):
        depth, words = indent(lines[at]), lines[at].split()
        modules = [m for m in modules if m[0] < depth]
        marks = list(itertools.takewhile(lambda word: word in DEFINES | {"pub", "module"}, words))
        until = at + 1
        if "module" in marks:
            while not lines[until - 1].endswith(" where"):
                until += 1
            modules.append((depth, flat(lines[at:until])))
        else:
            while until < len(lines) and (indent(lines[until]) > depth or lines[until].lstrip()[0] in ")}]"):
                until += 1
            name, block = words[len(marks)], flat(lines[at:until])
            if words[0] == "unfolding":
                opened = block
            elif name in NO_NAMES:
                pass
            elif marks or (name != (found[-1][1] if found else "") and " : " in block.partition(" = ")[0]):
                found.append([bool(DEFINES & set(marks)), name, " ".join(m[1] for m in modules) + " " + block, ""])
            else:
                found[-1][3] += f"{opened} {block} "
                opened = ""
        at = until
    return found


def functions(text):
    """Of a source file: sort, name, promise and body of each function and type."""
    lines, found, owner, at = without_comments(text, "//"), [], "", 0
    while at < len(lines):
        line, depth = lines[at], indent(lines[at])
        if depth == 0:
            owner = m.group(1) + "::" if (m := re.match(r"impl(?:<.*?>)? (\w+)", line)) else ""
        if m := re.match(r"pub use (.*);$", line):
            found.append(("types", m.group(1), line, ""))
        elif m := re.match(r'\s*(?:pub(?:\(crate\))? )?(?:extern "C" )?(fn|struct|enum|const) (\w+)', line):
            begins = at
            while not (lines[begins].endswith(("{", "}")) and indent(lines[begins]) == depth or lines[begins].endswith(";")):
                begins += 1
            if lines[begins].endswith("}"):
                sys.exit(f"moved: a function that ends on its first line is not read: {lines[begins].strip()}")
            ends = begins
            while not (lines[ends] == " " * depth + "}" or ends == begins and lines[begins].endswith(";")):
                ends += 1
            if m.group(1) == "fn":
                found.append(("functions", owner + m.group(2), flat(lines[at : begins + 1]), flat(lines[begins + 1 : ends + 1])))
            else:
                found.append(("types", owner + m.group(2), flat(lines[at : ends + 1]), ""))
            at = ends
        at += 1
    return found


def imports(text):
    """Of each name that a file imports, the module."""
    for module, names, name in re.findall(r"^(?:ghost )?use ([^\s{;]+?)(?:\.\{([^}]*)\}|(?: as |::)(\w[\w-]*))?;?$", text, re.M):
        for one in (names or name or module).split(","):
            yield one.strip(), module


def things(files, text_of):
    """Everything that is compared: by its sort, the text of each name. A name is its place and, behind the last `::` or `/`, its own."""
    all_ = collections.defaultdict(dict)
    for path in files:
        _, crate, room, *rest = pathlib.PurePosixPath(path).parts + ("",) * 2
        rest = [part for part in rest if part]
        stem = [crate, *rest[:-1], rest[-1].partition(".")[0]] if rest else [crate]
        if room in ("src", "specs") and path.endswith((".rt", ".antt")):
            for name, module in imports(text_of(path)):
                all_["imports"]["/".join((*stem, name))] = module
        if room == "src" and path.endswith(".rt"):
            module = "::".join(part for part in stem if part not in ("lib", "main"))
            for sort, name, says, body in functions(text_of(path)):
                all_["promises" if sort == "functions" else "types"][f"{module}::{name}"] = says
                if sort == "functions":
                    all_["code"][f"{module}::{name}"] = body
        elif room == "specs" and path.endswith(".antt"):
            for defines, name, says, body in declarations(text_of(path)):
                key = "/".join((*stem, name))
                if key in all_["definitions"] or key in all_["laws"]:
                    sys.exit(f"moved: {path}: {name} is declared twice")
                all_["definitions" if defines else "laws"][key] = says + (body if defines else "")
                if not defines:
                    all_["proofs of laws"][key] = body
        elif room == "proofs" and path.endswith(".antt"):
            all_["proofs"]["::".join(part for part in stem if part != "Proof")] = flat(without_comments(text_of(path), "--"))
        elif room == "must-fail":
            all_["edits"]["/".join(stem)] = flat(without_comments(text_of(path), "--"))
    return all_


def told(label, names):
    """A line of names, those of one place together; nothing where there are none."""
    places = collections.defaultdict(list)
    for name in sorted(names):
        place, mark, own = re.match(r"(.*?)(::|/)?([^:/]*)$", name).groups()
        places[place + (mark or "")].append(own)
    texts = [f"`{place}`{{{', '.join(own)}}}" if len(own) > 1 else f"`{place}{own[0]}`" for place, own in places.items()]
    said = f"- {label}: {', '.join(texts)}"
    return [textwrap.fill(said, 138, subsequent_indent="  ", break_long_words=False, break_on_hyphens=False)] if texts else []


def crate_of(name):
    return re.split("/|::", name)[0]


def tell(sort, old, new, left_out=()):
    """The paragraph of a sort."""
    both = old.keys() & new.keys()
    moved = {name for name in both if old[name] != new[name]} - set(left_out)
    came, went = new.keys() - old.keys(), old.keys() - new.keys()
    counts = f"{len(both) - len(moved)} stayed, {len(moved)} moved, {len(came)} new, {len(went)} gone"
    if sort == "proofs of laws":
        counts, came, went = f"of those that stayed {len(moved)} have another proof", set(), set()
    if sort == "imports":
        counts, came, went = f"{len(both) - len(moved)} names come from the same module in both, {len(moved)} from another", set(), set()
    touched = {crate_of(name) for name in moved | came | went}
    stayed = {name for name in both - moved if crate_of(name) in touched}
    lines = told("moved", moved) + told("new", came) + told("gone", went) + told("stayed beside them", stayed)
    print("\n".join([f"\n**{sort.capitalize()}**: {counts}.", *([""] if lines else []), *lines]))
    return moved | came | went


def main(base, to=None):
    before = things(git("ls-tree", "-r", "--name-only", base, "crates").split(), lambda p: git("show", f"{base}:{p}"))
    if to:
        after = things(git("ls-tree", "-r", "--name-only", to, "crates").split(), lambda p: git("show", f"{to}:{p}"))
    else:
        files = git("ls-files", "--cached", "--others", "--exclude-standard", "crates").split()
        after = things([p for p in files if (ROOT / p).exists()], lambda p: (ROOT / p).read_text())
    other = set()
    for sort in SORTS:
        other |= tell(sort, before[sort], after[sort], other if sort == "proofs of laws" else ())
    crates, touched = ({crate_of(name) for name in names} for names in (itertools.chain(*after.values()), other))
    where = ", ".join(f"`{crate}`" for crate in sorted(touched)) or "no crate"
    print("\n" + textwrap.fill(f"All of this is in {where}; in the other {len(crates - touched)} crates everything stayed.", 138))


if __name__ == "__main__":
    if len(sys.argv) not in (2, 3) or sys.argv[1].startswith("-"):
        sys.exit(__doc__)
    main(*sys.argv[1:])
