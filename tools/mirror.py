#!/usr/bin/env python3
"""Makes the part of a proof that follows the code, for functions over a lent slice of task records, `&[TaskRecord]` and `&mut [TaskRecord]`.

    python3 tools/mirror.py && rt fmt           # makes all of them anew, with the walks of tools/entries.py; the crates below must be proved
    python3 tools/mirror.py records_session     # those of one crate

The rules of the kit's borrow checker (logic/Borrow) hold for slices of any element type; only its driver declines a reference to a declared struct. So the
crate is copied below target/mirror with each `[TaskRecord]` made a slice of `[u8; 251]`, which the driver takes; what `rt dev --generated` writes of the
copy (`Kinds`, `Reads`, `Lts`, `Tie`) is read, the struct is put back for the element, and the files are written below the crate's own proofs/:

    proofs/Made.antt, proofs/Made/*    the struct's type, and each function's `Kinds` and `Reads` (public: callers cite them)
    proofs/F/Proof/{Lts,Tie}.antt      the part of F's proof that follows the code; the author's part is proofs/F/Proof.antt

Nothing here is trusted: antt checks what is written against the real function's code and contract, as it checks any proof. Run it again after any change
of a signature or a body of the functions in TABLE, of the number of clauses of a contract, or of the kit; not after a change of what a clause says. Where
a function has no proofs/F/Proof.antt, one is written to start from, with `search needs` at each need; none is ever overwritten.
"""
import os
import re
import shutil
import subprocess
import sys

sys.dont_write_bytecode = True  # nothing is left behind in tools/

import entries

ROOT = os.path.dirname(os.path.dirname(os.path.abspath(__file__)))
STRUCT, HOME, SIZE = "TaskRecord", "records_tasks", "48"  # the struct, the crate that declares it, how many bytes it takes (`rt mir`)
MARK = "[u8; 251]"  # what stands for it in the copy: a type that no crate has

# crate: functions that are made; functions that reach into an element and are proved by a walk, and that the made ones call; functions over the slice of the
# crate below that they call. (Other functions over the slice are left out of the copy: tools/entries.py writes their proofs)
TABLE = {
    "records_tasks": dict(made=["load", "save"], walked=["task_at", "put_task"], below=[]),
    "records_session": dict(made=["dispatch", "begin", "show", "eager"], walked=[], below=["load", "save"]),
}


def spelled(text):
    return r"\s+".join(re.escape(w) for w in text.split(" "))


BYTES = spelled("(Referent.rtF (Referent.fInt Syntax.w8))")
ROW = re.compile(r"Array'*\d*\.Array\s+" + BYTES + r"\s+251")
DEREF = re.compile(spelled("Syntax.deref (Syntax.tyArray (Syntax.tyInt Syntax.w8) 251)"))
TYPE = re.compile(spelled("(Syntax.tyArray (Syntax.tyInt Syntax.w8) 251)"))
COPY = re.compile(r"(Copies'*\d*)\.cArr\s+" + BYTES + r"\s+\(Copies'*\d*\.cRf\s+\(Referent\.fInt\s+Syntax\.w8\)\)\s+251")
KIND = re.compile(r"(Array'*\d*)\.eArr\s+\(Array'*\d*\.eInt\s+Syntax\.w8\)\s+251")
LAWS = re.compile(r"(Array'*\d*)\.eArr-laws\s+\(Array'*\d*\.eInt\s+Syntax\.w8\)\s+\(Array'*\d*\.eInt-laws\s+Syntax\.w8\)\s+251")


def read(path):
    with open(path) as f:
        return f.read()


def write(path, text):
    os.makedirs(os.path.dirname(path), exist_ok=True)
    if not os.path.exists(path) or read(path) != text:
        with open(path, "w") as f:
            f.write(text)


def one_line(text):
    return re.sub(r"\s+", " ", text)


def closing(text, i):
    """Behind the bracket that closes the one at i."""
    opens, shuts, depth = text[i], {"{": "}", "(": ")"}[text[i]], 0
    while True:
        depth += (text[i] == opens) - (text[i] == shuts)
        i += 1
        if depth == 0:
            return i


# ---- the copy


def without_comments(text):
    return "\n".join(line for line in text.split("\n") if not line.lstrip().startswith("//"))


def plain_clauses(text):
    """Each clause says 0 < 1: an Lts does not read the contract, and a Reads only counts its clauses."""
    out, i = [], 0
    for m in re.finditer(r"\b(requires|ensures)\b([^{\n]*)\{", text):
        if m.start() < i:
            continue
        out += [text[i : m.start()], m.group(1) + m.group(2) + ("{ ⌜ 0 < 1 ⌝ }" if m.group(1) == "requires" else "{ λ _. ⌜ 0 < 1 ⌝ }")]
        i = closing(text, m.end() - 1)
    return "".join(out) + text[i:]


def functions(text):
    """The functions of a file: name, where its text begins and where its body begins and ends."""
    for m in re.finditer(r"(?m)^(?:pub )?fn (\w+)", text):
        i = re.compile(r"\n\{").search(text, m.end()).end() - 1
        yield m.group(1), m.start(), i, closing(text, i)


def with_mark(text):
    text = re.sub(r"(?m)^use " + HOME + "::" + STRUCT + ";\n", "", text)
    return re.sub(r"&(\s*mut)?\s*\[" + STRUCT + r"\]", lambda m: "&" + (m.group(1) or "") + " " + MARK.join("[]"), text)


def copied(crate):
    """The crate's source in the copy: a walked function has no body, and one over the slice that is not made is left out."""
    row = TABLE[crate]
    text = plain_clauses(re.sub(r"(?m)^\s*ghost use [^;]*;\n", "", without_comments(read(f"{ROOT}/crates/{crate}/src/lib.rt"))))
    for name, start, body, end in reversed(list(functions(text))):
        if name in row["walked"]:
            text = text[:body] + "{\n    loop {}\n}" + text[end:]
        elif name not in row["made"] and f"[{STRUCT}]" in text[start:body]:
            text = text[:start] + text[end:]
    return "ghost use Prim.Native.Nat.{_<_};\n" + with_mark(text)


def stand_in(below):
    """The crate below in the copy: the functions over the slice alone, with bodies that are proved by themselves."""
    text = plain_clauses(without_comments(read(f"{ROOT}/crates/{HOME}/src/lib.rt")))
    uses = "".join(m.group(0) for m in re.finditer(r"(?m)^use asyncio::[A-Z_]+;\n", text))
    parts = []
    for name, start, body, end in functions(text):
        if name in below:
            array = re.search(r"-> \[u64; (\w+)\]", text[start:body])
            parts.append(text[start:body] + ("{\n    [0u64; " + array.group(1) + "]\n}\n" if array else "{}\n"))
    return "ghost use Prim.Native.Nat.{_<_};\n" + uses + with_mark("\n".join(parts))


def generated(crate):
    """Makes the copy, and runs the kit on it."""
    row, work = TABLE[crate], f"{ROOT}/target/mirror/{crate}"
    shutil.rmtree(work, ignore_errors=True)
    lines = {s.split(":")[0].strip(): s.split("#")[0].strip() for s in read(f"{ROOT}/crates.txt").split("\n") if ":" in s.split("#")[0]}
    own = [crate] + ([HOME] if row["below"] else [])
    need, todo = [], [crate]
    while todo:
        c = todo.pop()
        if c in lines and c not in need:
            need.append(c)
            todo += lines[c].split(":")[1].split()
    os.makedirs(f"{work}/crates")
    for d in ("rlib", "stamp"):  # what is proved already of the crates below serves the copy too
        os.makedirs(f"{work}/target/{d}")
        for name in os.listdir(f"{ROOT}/target/{d}"):
            if name.removesuffix(".rlib") not in own:
                os.symlink(f"{ROOT}/target/{d}/{name}", f"{work}/target/{d}/{name}")
    for c in need:
        if c not in own:
            os.symlink(f"{ROOT}/crates/{c}", f"{work}/crates/{c}")
    if row["below"]:
        lines[HOME] = f"{HOME}: asyncio"
        write(f"{work}/crates/{HOME}/src/lib.rt", stand_in(row["below"]))
    write(f"{work}/crates.txt", "".join(lines[c] + "\n" for c in need))
    text = copied(crate)
    write(f"{work}/crates/{crate}/src/lib.rt", text)
    for name, *_ in functions(text):  # a Tie is made once each callee has a Proof: one with a hole serves
        k = name.replace("_", "-")
        proof = f"use Rattle·{crate}·proofs.proofs.{name}.Statement.{{statement}}\n\npub {k}-spec : {{M : Type 1}} → statement M\n{k}-spec 𝓤 H 𝓜 𝓖 𝓡 = ?\n"
        write(f"{work}/crates/{crate}/proofs/{name}/Proof.antt", proof)
    r = subprocess.run(["rt", "dev", crate, "--generated", f"{work}/gen"], cwd=work, capture_output=True, text=True)
    write(f"{work}/log", r.stdout + r.stderr)
    gen = f"{work}/gen/Rattle·{crate}·proofs/proofs"
    lost = [f for f in row["made"] if not os.path.exists(f"{gen}/{f}/Tie.antt")]
    if lost:
        sys.exit(f"no Tie for {lost}: see {work}/log")
    return gen


# ---- the struct is put back


def behind(text, i):
    """Whether the type at i, in its parentheses, is what a `tyRef` refers to, or the element of an array that is."""
    t = text[max(0, i - 200) : i].rstrip()
    if re.search(r"Syntax\.tyRef\s+(Syntax\.erased|\(Syntax\.named\s+\d+\))\s+Syntax\.(mut|imm)$", t):
        return True
    return bool(re.search(r"\(Syntax\.tyArray$", t)) and behind(text, text.rindex("(", 0, i))


def put_back(crate, text):
    row, proofs = TABLE[crate], f"Rattle·{crate}·proofs.proofs"
    text = ROW.sub("E·row", text).replace("(E·row)", "E·row")
    text = DEREF.sub("Syntax.deref E·by-value", text)
    text = COPY.sub(r"\1.cStruct E·type E·laws E·copy", text)
    text = LAWS.sub(r"\1.eStruct-laws E·type E·laws E·copy E·plain", text)
    text = KIND.sub(r"\1.eStruct E·type E·laws E·copy", text)
    text = TYPE.sub(lambda m: "E·named" if behind(text, m.start()) else "E·by-value", text)
    text = re.sub(r"(Syntax\.w64|bySize|at-mul\s+o)(\s+)251\b", r"\g<1>\g<2>" + SIZE, text)
    for m in re.finditer(r"\b251\b", text):
        print("not put back: " + one_line(text[max(0, m.start() - 160) : m.end() + 60]), file=sys.stderr)
    for f in row["walked"] + row["made"]:
        text = re.sub(re.escape(f"{proofs}.{f}.") + r"(Kinds|Reads)\b", rf"{proofs}.Made.{f}.\1", text)
        text = re.sub(re.escape(f"{proofs}.{f}.") + r"(Lts|Tie)\b", rf"{proofs}.{f}.Proof.\1", text)
    for f in row["below"]:
        text = re.sub(re.escape(f"Rattle·{HOME}.proofs.{f}.") + r"(Kinds|Reads)\b", rf"Rattle·{HOME}.proofs.Made.{f}.\1", text)
    return text


# ---- shorter text


def named_types(text, types):
    """A struct's or an enum's MIR type, spelled out with the codes of its name, is replaced by the name that `Element` gives it."""
    out, i = [], 0
    for m in re.finditer(r"\(Syntax\.ty(?:Enum|Struct) \(((?:List\._∷_ \d+ \(?)+List\.\[\]\)*)", text):
        if m.start() < i:
            continue
        name = "".join(chr(int(n)) for n in re.findall(r"List\._∷_ (\d+)", m.group(1)))
        if "::" not in name:
            continue
        short = name.split("::")[-1]
        out += [text[i : m.start()], "E·" + (short if short != STRUCT else "by-value")]
        if short != STRUCT:
            types[short] = name
        i = closing(text, m.start())
    return "".join(out) + text[i:]


# what is spelled out again and again, and the name that `Element` gives it
SPELLED = [
    ("(Syntax.tyInt Syntax.w64)", "E·word"),
    ("(Referent.rtF (Referent.fInt Syntax.w64))", "E·number"),
    ("(Syntax.tyRef Syntax.erased Syntax.imm E·word)", "E·imm-word"),
    ("(Syntax.tyRef Syntax.erased Syntax.mut E·word)", "E·mut-word"),
    ("(Syntax.tyRef Syntax.erased Syntax.imm E·named)", "E·imm-row"),
    ("(Syntax.tyRef Syntax.erased Syntax.mut E·named)", "E·mut-row"),
]
SLICE = re.compile(re.escape("(Syntax.tyStruct (List._∷_ 38 (List._∷_ 91 (List._∷_ 93 List.[]))) (Syntax.tcons ") + r"(\S+|\([^()]*(?:\([^()]*\)[^()]*)*\))" + re.escape(" (Syntax.tcons E·word Syntax.tnil)))"))


def tree(text):
    """Words and bracketed parts: a part is a list that begins with its bracket."""
    parts = [["("]]
    for token in re.findall(r"[(){};,]|[^\s(){};,]+", text):
        if token in "({":
            parts.append([token])
        elif token in ")}":
            done = parts.pop()
            parts[-1].append(done)
        else:
            parts[-1].append(token)
    return parts[0]


def with_infix(part):
    """A list is written x ∷ y ∷ [] in place of List._∷_ x (List._∷_ y List.[])."""
    items, out, i = [with_infix(x) if isinstance(x, list) else {"List.[]": "[]", "List.List": "List", "List._++_": "_++_"}.get(x, x) for x in part], [], 0

    def argument(i):
        return items[i : i + 2] if items[i] == "record" else items[i : i + 1]

    while i < len(items):
        if items[i] == "List._∷_" and i + 2 < len(items):
            first = argument(i + 1)
            rest = argument(i + 1 + len(first))
            i += 1 + len(first) + len(rest)
            if isinstance(rest[0], list) and rest[0][0] == "(" and "∷" in rest[0]:
                rest = rest[0][1:]
            out += first + ["∷"] + rest
        else:
            out.append("_∷_" if items[i] == "List._∷_" else items[i])
            i += 1
    return out


def is_apart(part):
    """A tuple or what stands in braces: the formatter opens it over many lines where it has a line end."""
    return part[0] == "{" or "," in part


def words_of(part, apart=False):
    """The words of a part; what stands in a tuple or in braces is one word."""
    out = []
    for x in part[1:]:
        if not isinstance(x, list):
            if x in ";,":
                out[-1] += x
            else:
                out.append(x)
            continue
        inner = words_of(x, apart or is_apart(x))
        shut = {"(": ")", "{": "}"}[x[0]]
        if x[0] == "{" and out and out[-1] == "record":
            inner = ["record", "{"] + inner + ["}"]
            out.pop()
        else:
            inner[0] = x[0] + inner[0]
            inner[-1] += shut
        out += [" ".join(inner)] if apart or is_apart(x) else inner
    return out


def indent(line):
    return len(line) - len(line.lstrip())


def wrapped(pad, words, width):
    """Lines of at most so many characters, where there is a place to end one."""
    lines, line = [], pad
    for w in words:
        if line.strip() and len(line) + 1 + len(w) > width:
            lines.append(line)
            line = pad + "    "
        line += ("" if not line.strip() else " ") + w
    return lines + [line]


def shorter(text, types, width=236):
    """The same declarations, with fewer line ends and the names of `Element`."""
    out, lines, i = [], text.split("\n"), 0
    while i < len(lines):
        first = lines[i]
        i += 1
        if not first.strip():
            out.append("")
            continue
        if first.lstrip().startswith("--"):
            continue
        line = first.strip()
        while not line.endswith(" where") and i < len(lines) and lines[i].strip() and (indent(lines[i]) > indent(first) or re.match(r"[)\]}]", lines[i].strip())):
            line += " " + lines[i].strip()
            i += 1
        if line.startswith("use "):
            out.append(line)
            continue
        line = re.sub(r"([;,])\s+([)}])", r"\2", re.sub(r"([({])\s+", r"\1", re.sub(r"\s+([)}])", r"\1", line)))
        # a clause that states a fact is read by `r-last`, and no clause by `r-top`: the kit has `search` here, which finds them
        if re.match(r"(requires|ensures)-\S*·read = ", line):
            line = line.replace("(λ w. search Read.reads)", "(λ w. Read.r-last _)")
        if re.match(r"(pre|post)-read = ", line):
            line = line.replace("(λ w. search Read.reads)", "(λ w. Read.r-top)")
        line = named_types(line, types)
        for spelled_out, name in SPELLED:
            line = line.replace(spelled_out, name)
        line = SLICE.sub(r"(E·slice \1)", line)
        out += wrapped(" " * indent(first), words_of(with_infix(tree(line))), width)
    return re.sub(r"\n\n\n+", "\n\n", "\n".join(out)).strip() + "\n"


HEAD = "-- Made by tools/mirror.py, and not trusted: antt checks it as it checks any proof. "


def is_used(use, text):
    name = use.split(" as ")[1] if " as " in use else use.split(".")[-1]
    return "{" in use or re.search(r"(?<![\w'.])" + re.escape(name.strip()) + r"(?![\w'])", text)


def made_file(crate, path, what, text, types):
    text = shorter(put_back(crate, text), types)
    uses = [line for line in text.split("\n") if line.startswith("use ")]
    rest = "\n".join(line for line in text.split("\n") if not line.startswith("use ")).strip("\n")
    uses = [u for u in uses if u != "use mathlib.Core.List"] + ["use mathlib.Core.List.{" + ", ".join(k for k, w in (("List", r"\bList\b"), ("[]", r"\[\]"), ("_∷_", "∷"), ("_++_", r"_\+\+_")) if re.search(w, rest)) + "}"]
    if "E·" in rest:
        uses.append(f"use Rattle·{crate}·proofs.proofs.Made.Element as El")
    rest = rest.replace("E·", "El.")
    write(path, HEAD + what + "\n" + "\n".join(u for u in uses if is_used(u, rest)) + "\n\n" + rest + "\n")


def element(crate, types):
    own = f"Rattle·{crate}·proofs.proofs"
    home = own if crate == HOME else f"Rattle·{HOME}.proofs"
    where = {}
    for short, name in types.items():
        c, *path = name.split("::")
        where[short] = (own if c == crate else f"Rattle·{c}.proofs") + "." + ".".join(path) + ".Laws"
    return (
        HEAD
        + f"""The records of a slice: their type and its laws, and its MIR type as it stands behind a reference (`named`) and by value. Then the MIR types of other structs and enums.
use denote.RattleType.{{RattleType}}
use denote.Memory.{{pointee}}
use denote.Struct.Declared.{{Declared, fields}}
use denote.Struct.Laws.{{Laws, Copyables}}
use denote.Struct.Struct.{{Plains}}
use borrow.Table.Referent.{{rtF, fInt}}
use mathlib.Core.List.{{[], _∷_}}
use mir.Syntax.{{Ty, erased, imm, mut, tcons, tnil, tyInt, tyRef, tyStruct, w64}}
use {home}.{STRUCT} as S
use {home}.{STRUCT}.Laws as S′
"""
        + "".join(f"use {w} as {k}′\n" for k, w in sorted(where.items()))
        + """
abbrev pub row : RattleType
row = S.the-row

abbrev pub named : Ty
named = pointee (S.the-row .written)

abbrev pub by-value : Ty
by-value = S′.mir

abbrev pub type : Declared
type = S.the-type

abbrev pub laws : Laws S.the-type
laws = S′.the-laws

abbrev pub copy : Copyables (S.the-type .parts)
copy = S′.the-copy

abbrev pub plain : Plains (fields S.the-type)
plain = S′.the-plain

abbrev pub word : Ty
word = tyInt w64

abbrev pub number : RattleType
number = rtF (fInt w64)

abbrev pub imm-word : Ty
imm-word = tyRef erased imm word

abbrev pub mut-word : Ty
mut-word = tyRef erased mut word

abbrev pub imm-row : Ty
imm-row = tyRef erased imm named

abbrev pub mut-row : Ty
mut-row = tyRef erased mut named

-- a reference to a slice: a pointer, and how many
abbrev pub slice : Ty → Ty
slice pointer = tyStruct (38 ∷ 91 ∷ 93 ∷ []) (tcons pointer (tcons word tnil))
"""
        + "".join(f"\nabbrev pub {k} : Ty\n{k} = {k}′.mir\n" for k in sorted(where))
    )


# ---- an author's file to start from


def starter(crate, f, out):
    tie, lts = (one_line(read(f"{out}/{f}/Proof/{k}.antt")) for k in ("Tie", "Lts"))
    names, parts, loops = [], [], {}
    for n, ty in re.findall(r"\(([^\s()]+) : ([^()]*)\)", re.search(r"pub spec : (.*?) → Lts\.Closed", tie).group(1)):
        w = ty.split()
        if n == "answer":
            k = w[0][len("Need-") :]
            parts.append((f"{k} : tie.{w[0]} " + " ".join(loops[x] for x in w[1:])).rstrip() + f"\n{k} c{' κs' if k.endswith('-requires') else ''} = search needs\n")
        else:
            k = ("Inv-" if w[0].startswith("InvT-") else "μ-") + w[0].split("T-", 1)[1]
            t = re.search(r"abbrev pub " + re.escape(w[0]) + r" : [^=]*= (.*?)(?: abbrev| module)", lts)
            loops[n] = k
            parts.append("-- " + (t.group(1) if t else "") + f"\nabbrev {k} : tie.{w[0]}\n{k} = ?\n")
        names.append(k)
    own, k = f"Rattle·{crate}·proofs.proofs.{f}", f.replace("_", "-")
    head = f"-- The part that follows the code is `Proof/Lts.antt` (tools/mirror.py).\nmod Lts\nmod Tie\nuse borrow.Author.Needs.{{needs}}\nuse {own}.Statement.{{statement}}\nuse {own}.Proof.Tie as tie\n\n"
    return head + "\n".join(parts) + f"\npub {k}-spec : {{M : Type 1}} → statement M\n{k}-spec = tie.close (tie.spec " + " ".join(names) + ")\n"


def make(crate):
    row, gen, out, types = TABLE[crate], generated(crate), f"{ROOT}/crates/{crate}/proofs", {}
    shutil.rmtree(f"{out}/Made", ignore_errors=True)
    for f in row["walked"] + row["made"]:
        for k in ("Kinds", "Reads"):
            made_file(crate, f"{out}/Made/{f}/{k}.antt", f"`{crate}::{f}`: its {k}.", read(f"{gen}/{f}/{k}.antt"), types)
        write(f"{out}/Made/{f}.antt", HEAD + f"`{crate}::{f}`, as its callers cite it.\npub mod Kinds\npub mod Reads\n")
    for f in row["made"]:
        for k in ("Lts", "Tie"):
            made_file(crate, f"{out}/{f}/Proof/{k}.antt", f"`{crate}::{f}`: the part of its proof that follows the code, its {k}.", read(f"{gen}/{f}/{k}.antt"), types)
    write(f"{out}/Made.antt", HEAD + "Functions over a slice of records, as their callers cite them.\npub mod Element\n" + "".join(f"pub mod {f}\n" for f in row["walked"] + row["made"]))
    write(f"{out}/Made/Element.antt", element(crate, types))
    for f in row["made"]:
        if not os.path.exists(f"{out}/{f}/Proof.antt"):
            write(f"{out}/{f}/Proof.antt", starter(crate, f, out))
    if crate == entries.CRATE:
        entries.write()
    print(f"{crate}: made " + ", ".join(row["walked"] + row["made"]))


for name in sys.argv[1:] or TABLE:
    make(name)
