#!/usr/bin/env python3
"""Writes what crosses to other languages, from one table: the functions (crates/boundary/src/lib.rt), their exports
(crates/boundary_c/src/lib.rt), the C header, the Rust declarations and the Python binding. `--check` writes nothing and says which file differs; the
gate runs it.

    boundary.py            writes those of the five files that differ
    boundary.py --check    compares

The table has a row for each event and each read: its name, its parameters, the event as the code and as the contract has it, and what a host wants to
know. Each event is exported twice: with the check of refusal 2, and with the suffix _unchecked without it.
"""
import argparse
import os
import re
import sys
import textwrap

ROOT = os.path.dirname(os.path.dirname(os.path.abspath(__file__)))
# the version of the boundary and of the layout (docs/LAYOUT.md): one more where an older host or a session saved by it would be read wrongly
VERSION = 1
MADE = "Made by tools/boundary.py from its table: change it there."

# the memory of a session, as it is lent: name, element, length (0: one number behind a pointer)
MEMORY = [("tasks", "u64", 4104), ("objects", "u64", 2056), ("places", "u64", 2048), ("calls", "u64", 256), ("ids", "u16", 513), ("len", "usize", 0)]

PLAIN = "Value::Plain(number)"
LIST = "Value::List(HeapId::new(gather))"
GIVES_PLAIN = "(Value.Plain number)"
GIVES_LIST = "(Value.List (heap_id gather))"
STARTED = "3 the session has ended, 4 no task runs"

# name, parameters, the code's event, the contract's event, what it does and answers, its refusals from 3 on
EVENTS = [
    ("coroutine", [("function", "u32")], "Event::Coroutine(function)", "(machine.Event.coroutine function)",
     "The running task makes a coroutine of a function. Made: its object.", STARTED + ", 7 a 257th object"),
    ("call", [], "Event::Call", "machine.Event.call",
     "The running task calls the host. Call: the call's number.", STARTED + ", 8 all numbers are handed out"),
    ("pending", [("call", "u32")], "Event::Pending {\n        call,\n        stored: None,\n    }", "(machine.Event.pending call None)",
     "The external future of a call, without a stored result. Made: its object.", STARTED + ", 5 the number was not handed out, 6 it is pending already, 7"),
    ("pending_plain", [("call", "u32"), ("number", "u64")], "Event::Pending {\n        call,\n        stored: Some(%s),\n    }" % PLAIN,
     "(machine.Event.pending call (Some %s))" % GIVES_PLAIN,
     "The external future of a call, with a stored plain value, which replaces the host's. Made: its object.", STARTED + ", 5, 6, 7"),
    ("pending_list", [("call", "u32"), ("gather", "u16")], "Event::Pending {\n        call,\n        stored: Some(%s),\n    }" % LIST,
     "(machine.Event.pending call (Some %s))" % GIVES_LIST,
     "The external future of a call, with the list of a gather stored. Made: its object.", STARTED + ", 5 also: the gather is not completed, 6, 7"),
    ("settled_plain", [("number", "u64")], "Event::Settled(%s)" % PLAIN, "(machine.Event.settled %s)" % GIVES_PLAIN,
     "An external future that has a plain value already; it is handed a call number too. Made: its object.", STARTED + ", 7, 8"),
    ("settled_list", [("gather", "u16")], "Event::Settled(%s)" % LIST, "(machine.Event.settled %s)" % GIVES_LIST,
     "An external future that has the list of a gather already. Made: its object.", STARTED + ", 5 the gather is not completed, 7, 8"),
    ("gather", [("items", "&[u16]")], "Event::Gather", "(machine.Event.gather items.now)",
     "A gather of objects, by their numbers, however many. Made: its object.", STARTED + ", 5 an object is not made, 7 (also over 32 items, over 512 places)"),
    ("await", [("object", "u16")], "Event::Await(object)", "(machine.Event.await object)",
     "The running task awaits an object. Runs or waits, and the commit steps.", STARTED + ", 5 the object is not made"),
    ("complete_plain", [("number", "u64")], "Event::Complete(%s)" % PLAIN, "(machine.Event.complete %s)" % GIVES_PLAIN,
     "The running task returns a plain value. Runs or waits; of main: finished.", STARTED),
    ("complete_list", [("gather", "u16")], "Event::Complete(%s)" % LIST, "(machine.Event.complete %s)" % GIVES_LIST,
     "The running task returns the list of a gather. Runs or waits; of main: finished.", STARTED + ", 5 the gather is not completed"),
    ("fail", [("number", "u32")], "Event::Fail(number)", "(machine.Event.fail number)",
     "The running task raises the error script n. Runs or waits; of main: finished.", STARTED),
    ("results", [("results", "&[u8]")], "Event::Results", "(machine.Event.results (results_in results.now))",
     "The host answers calls: 14 bytes each (call 4, kind 1, tag 1, value 8), a rest of 1 to 13 bytes is not read. Tasks woken go to the queue's back, lowest first. Done.",
     "3 the session has ended, 5 a list of a gather not completed, 10 over 64 results or one that is none; then nothing is applied"),
    ("resume", [], "Event::Resume", "machine.Event.resume",
     "The host hands control back. Runs; waits, where nothing is ready; stalled, where no call is pending either.", "3 the session has ended, 4 a task runs"),
    ("cancel", [("task", "u16")], "Event::Cancel(task)", "(machine.Event.cancel task)",
     "The operator cancels a task, and the tasks below the gather that it waits for. Done, with the number of removed tasks that stood in the ready queue.",
     "3 the session has ended, 4 a task runs, 5 the task is not live, 9 it is main"),
]

# name, parameters, the contract, what it answers, its refusals from 3 on
READS = [
    ("eager", [], "BoundaryRead tasks.now objects.now places.now ids.now len machine.Event.eager result",
     "May the host answer a call at once: is no task ready and no call pending? Eager: 1 yes, 0 no.", "none"),
    ("show", [("object", "u16")], "BoundaryRead tasks.now objects.now places.now ids.now len (machine.Event.show object) result",
     "What an object is and has. Shows: sort, state, and what document 01 lists; of an awaited or completed gather how many places it has.", "5 the object is not made"),
    ("place", [("object", "u16"), ("place", "u16")], "BoundaryPlace tasks.now objects.now places.now ids.now len object place result",
     "A place of an awaited or completed gather, from 0. Shows: 0 where it is open; 1 and the value's tag and number.",
     "5 the object is not made, or shows no such place"),
]


def reference(kind, element, length):
    return f"{kind}{element}" if length == 0 else f"{kind}[{element}; {length}]"


def written(names):
    """the memory that an event changes"""
    return [(n, reference("&mut ", e, k)) for n, e, k in MEMORY if n in names]


def read_only():
    """the memory that a read looks at: no list of calls, the count by value"""
    return [(n, reference("&", e, k) if k else e) for n, e, k in MEMORY if n != "calls"]


LENT = written(["tasks", "objects", "places", "calls", "ids", "len"])
BEGUN = written(["tasks", "objects", "places", "ids", "len"])
CHECKED = "Refused also with 2, where the store is not sound."
UNCHECKED = "The caller owes a sound store: nothing is checked."


def functions():
    """name, parameters, result, comment lines: every exported function, in order"""
    out = [("version", [], "u64", ["The version of this boundary and of the layout: a host compares it with the one that it was built for."]),
           ("begin", BEGUN, "", ["A fresh session, whatever the memory held: main runs, and nothing else exists."]),
           ("is_sound", read_only(), "bool", ["Is the memory a sound store? For memory that comes from outside, as a snapshot does."])]
    for suffix, of in (("", CHECKED), ("_unchecked", UNCHECKED)):
        for name, params, _, _, what, refusals in EVENTS:
            out.append((name + suffix, LENT + params, "Numbers", [what, f"Refused with {refusals}. {of}"]))
        for name, params, _, what, refusals in READS:
            out.append((name + suffix, read_only() + params, "Numbers", [what, of if refusals == "none" else f"Refused with {refusals}. {of}"]))
    return out


# ---- Rattle

RATTLE_HEAD = """// %s. A session's memory is lent as plain arrays, and the
// answer comes back by value, as document 01's numbers; the calls of a wait stand in the list. Functions that end in _unchecked check no store: their
// caller owes a sound one, as memory is that began with `sozgarru_begin` and that only these functions wrote. %s
#![tactic(auto)]

ghost use Rattle.std.specs.Prelude.{◌≡◌, None, Some};
ghost use Rattle.asyncio.specs.Numbers.{heap_id};
ghost use Rattle.asyncio.specs.declared.Value.{Value};
ghost use Rattle.machine.specs.Machine as machine;
ghost use Rattle.exec_futures.specs.Results.{results_in};
ghost use Rattle.boundary_lent.specs.Boundary.{BoundaryStep, BoundaryRead, BoundaryPlace, BoundaryBegin, SoundLent, SoundRead, is_sound_lent};

%s
"""
LIBRARY_HEAD = RATTLE_HEAD % (
    "The library for other languages: one function for each event and each read, twice", MADE,
    "use asyncio::{HeapId, OBJECTS, Objects, Places, TASKS, Tasks, Value};\nuse boundary_numbers::Numbers;\nuse step_event::Event;")
EXPORTS_HEAD = RATTLE_HEAD % ("What the archive exports: the functions of `boundary` under their names in C", MADE, "use asyncio::{OBJECTS, Objects, Places, TASKS, Tasks};\nuse boundary_numbers::Numbers;")
# the names that asyncio has for the arrays of the memory
ARRAYS = {"[u64; 4104]": "Tasks", "[u64; 2056]": "Objects", "[u64; 2048]": "Places", "[u64; 256]": "[u64; OBJECTS]", "[u16; 513]": "[u16; TASKS]"}
# what each form of the memory is called in a `requires`, and in the `ensures` of a read
OLD = "tasks.old objects.old places.old ids.old len.old"
NOW = "tasks.now objects.now places.now ids.now len"


def rattle_function(name, params, result, comment, requires, ensures, body, exported):
    of_c = 'extern "C" ' if exported else ""
    lines = [f"// {c}" for c in comment] + ["#[unsafe(no_mangle)]"] * exported + [f"pub {of_c}fn sozgarru_{name}("]
    if exported:
        body = f"    boundary::sozgarru_{name}({', '.join(n for n, _ in params)})" + ("" if result else ";")
    for array, name_of in ARRAYS.items():
        params = [(n, t.replace(array, name_of)) for n, t in params]
    lines += [f"    {n}: {t}," for n, t in params] + [f") -> {result}" if result else ")"]
    lines += [f"    requires {{ {requires} }}"] if requires else []
    return "\n".join(lines + [f"    ensures {{ {ensures} }}", "{", body, "}", ""])


def rattle(exported=False):
    says = {}
    for name, params, code, spec, *_ in EVENTS:
        names = [n for n, _ in params]
        rest = ", ".join(["items" if "items" in names else "&[]", "results" if "results" in names else "&[]"])
        for suffix, callee, asks in (("", "dispatch", ""), ("_unchecked", "step", f"SoundLent {OLD}")):
            body = f"    boundary_lent::{callee}(tasks, objects, places, calls, ids, len, {code}, {rest})"
            says[name + suffix] = (asks, f"BoundaryStep tasks objects places calls ids len {spec} result", body)
    for name, params, spec, *_ in READS:
        args = ", ".join(["tasks", "objects", "places", "ids", "len"] + [n for n, _ in params])
        says[name] = ("", spec, f"    boundary_lent::{name}({args})")
        says[name + "_unchecked"] = (f"SoundRead {NOW}", spec, f"    boundary_lent::{name}_unchecked({args})")
    says["version"] = ("", f"result ≡ {VERSION}", f"    {VERSION}")
    says["begin"] = ("", "BoundaryBegin tasks objects places ids len", "    boundary_lent::begin(tasks, objects, places, ids, len);")
    says["is_sound"] = ("", f"result ≡ is_sound_lent {NOW}", "    boundary_lent::is_sound(tasks, objects, places, ids, len)")
    head = EXPORTS_HEAD if exported else LIBRARY_HEAD
    return head + "\n" + "\n".join(rattle_function(n, p, r, c, *says[n], exported) for n, p, r, c in functions())


def exports():
    return rattle(exported=True)


# ---- C

C_ELEMENT = {"u64": "uint64_t", "u32": "uint32_t", "u16": "uint16_t", "u8": "uint8_t", "usize": "size_t"}
C_HEAD = f"""/* The library for C: the functions that libsozgarru.a has. {MADE}
 *
 * A session's memory is the host's; its pieces lie apart from each other, and from what an event is given besides. The lengths of its
 * arrays are the caller's to keep: C does not check them, and no function can. Where there are no items or no results, NULL with 0 may be
 * passed. sozgarru_begin fills the memory; every event gets it as the last one left it.
 *
 * An answer is a sozgarru_numbers: the number of the refusal (0: accepted), the answer's word (1 made, 2 call, 3 runs, 4 waits, 5 done,
 * 6 stalled, 7 finished, 8 eager, 9 refused, 10 shows), how many values it has, and the values in the order of document 01's line; values
 * behind them are 0. The done of a cancel has one value, its count; that of results has none. The calls of a wait stand at the front of
 * `calls`. A refused event changes nothing. Stack: docs/HOST.md. Nothing here allocates, prints or keeps a state of its own.
 */
#ifndef SOZGARRU_H
#define SOZGARRU_H
#include <stdbool.h>
#include <stddef.h>
#include <stdint.h>
#ifdef __cplusplus
extern "C" {{
#endif

#define SOZGARRU_VERSION {VERSION}

typedef struct {{
    uint64_t refusal;
    uint64_t word;
    uint64_t count;
    uint64_t values[6];
}} sozgarru_numbers;

/* The memory of a session. */
typedef struct {{
"""
C_MIDDLE = """} sozgarru_memory;

/* The memory of m, as an event takes it, as sozgarru_begin takes it, and as a read takes it. */
#define SOZGARRU_LENT(m) (m)->tasks, (m)->objects, (m)->places, (m)->calls, (m)->ids, &(m)->len
#define SOZGARRU_BEGUN(m) (m)->tasks, (m)->objects, (m)->places, (m)->ids, &(m)->len
#define SOZGARRU_READ(m) (m)->tasks, (m)->objects, (m)->places, (m)->ids, (m)->len

"""
C_FOOT = """
#ifdef __cplusplus
}
#endif
#endif
"""


def c_parameter(name, kind):
    """one parameter of Rattle as C's; a slice is a pointer and a count"""
    if kind.startswith("&["):
        inner = kind[2:-1]
        if ";" not in inner:
            return f"const {C_ELEMENT[inner]} *{name}, size_t {name}_count"
        element, length = inner.split("; ")
        return f"const {C_ELEMENT[element]} {name}[{length}]"
    if kind.startswith("&mut ["):
        element, length = kind[6:-1].split("; ")
        return f"{C_ELEMENT[element]} {name}[{length}]"
    if kind.startswith("&mut "):
        return f"{C_ELEMENT[kind[5:]]} *{name}"
    return f"{C_ELEMENT[kind]} {name}"


def c_function(gives, name, params):
    """a declaration: the memory in one line, what an event takes besides in the next"""
    memory = {n for n, _, _ in MEMORY}
    lent = ", ".join(c_parameter(n, t) for n, t in params if n in memory)
    own = ", ".join(c_parameter(n, t) for n, t in params if n not in memory)
    takes = ",\n    ".join(part for part in (lent, own) if part)
    return f"{gives} sozgarru_{name}({chr(10) + '    ' if params else ''}{takes or 'void'});\n"


def c_comment(lines):
    """one comment in lines of at most 140 characters"""
    return "/* " + "\n * ".join(textwrap.wrap(" ".join(lines), 134)) + " */\n"


def header():
    fields = "".join(f"    {C_ELEMENT[e]} {n}{f'[{k}]' if k else ''};\n" for n, e, k in MEMORY)
    out = []
    for name, params, result, comment in functions():
        gives = {"Numbers": "sozgarru_numbers", "u64": "uint64_t", "bool": "bool", "": "void"}[result]
        out.append(c_comment(comment) + c_function(gives, name, params))
    return C_HEAD + fields + C_MIDDLE + "\n".join(out) + C_FOOT


# ---- Rust

RUST_HEAD = f"""//! The functions of the archive, as Rust declares them. {MADE}
#![allow(dead_code)]

/// The version of the boundary and of the layout that these declarations are of.
pub(crate) const VERSION: u64 = {VERSION};

/// An answer as document 01's numbers: the refusal (0: accepted), the word, how many values, and the values; those behind them are 0.
#[repr(C)]
#[derive(Clone, Copy, Debug, PartialEq, Eq)]
pub(crate) struct Numbers {{
    pub(crate) refusal: u64,
    pub(crate) word: u64,
    pub(crate) count: u64,
    pub(crate) values: [u64; 6],
}}

/// The memory of a session (docs/LAYOUT.md), with the list of calls that a wait writes.
pub(crate) struct Memory {{
"""


def rust_parameters(params):
    """each a line; a slice is a pointer and a count"""
    for name, kind in params:
        if kind.startswith("&[") and ";" not in kind:
            yield f"{name}: *const {kind[2:-1]}"
            yield f"{name}_count: usize"
        else:
            yield f"{name}: {kind}"


def declarations():
    fields = "".join(f"    pub(crate) {n}: {f'[{e}; {k}]' if k else e},\n" for n, e, k in MEMORY)
    out = []
    for name, params, result, comment in functions():
        takes = "".join(f"        {p},\n" for p in rust_parameters(params))
        gives = f" -> {result}" if result else ""
        doc = "\n".join(f"    /// {line}" for line in textwrap.wrap(" ".join(comment), 112))
        out.append(f"{doc}\n    pub(crate) fn sozgarru_{name}({chr(10) + takes + '    ' if takes else ''}){gives};\n")
    return RUST_HEAD + fields + '}\n\nunsafe extern "C" {\n' + "\n".join(out) + "}\n"


# ---- Python

PYTHON_ELEMENT = {"u64": "c_uint64", "u32": "c_uint32", "u16": "c_uint16", "u8": "c_uint8", "usize": "c_size_t", "bool": "c_bool"}
PYTHON_HEAD = f'''"""The functions of the library, as ctypes declares them. {MADE}"""
from ctypes import POINTER, Structure, c_bool, c_size_t, c_uint8, c_uint16, c_uint32, c_uint64

VERSION = {VERSION}


class Numbers(Structure):
    """An answer as document 01's numbers: the refusal (0: accepted), the word, how many values, and the values; those behind them are 0."""

    _fields_ = [("refusal", c_uint64), ("word", c_uint64), ("count", c_uint64), ("values", c_uint64 * 6)]


class Memory(Structure):
    """The memory of a session (docs/LAYOUT.md), with the list of calls that a wait writes."""

    _fields_ = [
'''


PYTHON_LENT = "    ]\n\n\n# the memory, as an event takes it, as sozgarru_begin takes it, and as a read takes it\n"
PYTHON_FUNCTIONS = "\n# what each function gives and takes\nFUNCTIONS = {\n"


def python_parameters(params):
    """a slice is a pointer and a count"""
    for _, kind in params:
        plain = kind.removeprefix("&").removeprefix("mut ").strip("[]").split(";")[0]
        if kind.startswith("&"):
            yield f"POINTER({PYTHON_ELEMENT[plain]})"
            if kind.startswith("&[") and ";" not in kind:
                yield "c_size_t"
        else:
            yield PYTHON_ELEMENT[plain]


def python_takes(lent, params):
    """the name of the memory at the front, and the parameters behind it"""
    for name, front in lent:
        if params[:len(front)] == front:
            own = ", ".join(python_parameters(params[len(front):]))
            return f"{name} + [{own}]" if own else name
    return f"[{', '.join(python_parameters(params))}]"


def binding():
    fields = "".join(f'        ("{n}", {PYTHON_ELEMENT[e]}{f" * {k}" if k else ""}),\n' for n, e, k in MEMORY)
    lent = [("LENT", LENT), ("BEGUN", BEGUN), ("READ", read_only())]
    memory = "".join(f"{name} = [{', '.join(python_parameters(params))}]\n" for name, params in lent)
    rows = []
    for name, params, result, _ in functions():
        gives = {"Numbers": "Numbers", "": "None"}.get(result) or PYTHON_ELEMENT[result]
        rows.append(f'    "sozgarru_{name}": ({gives}, {python_takes(lent, params)}),\n')
    return PYTHON_HEAD + fields + PYTHON_LENT + memory + PYTHON_FUNCTIONS + "".join(rows) + "}\n"


FILES = [("crates/boundary/src/lib.rt", rattle), ("crates/boundary_c/src/lib.rt", exports), ("host/c/sozgarru.h", header), ("host/rust/src/declarations.rs", declarations), ("host/python/sozgarru_declarations.py", binding)]


def tokens(text):
    """without white space and the commas that the formatter sets at a line's end: `rt fmt` lays a Rattle file out anew; a comment is a whole line"""
    found = [token.rstrip() for token in re.findall(r"//.*|[(){}\[\],;]|[^\s(){}\[\],;]+", text)]
    return [token for token, behind in zip(found, found[1:] + [""]) if token != "," or behind not in (")", "}")]


def is_made(path, text):
    """Does the file hold this text?"""
    if not os.path.exists(path):
        return False
    have = open(path).read()
    return tokens(have) == tokens(text) if path.endswith(".rt") else have == text


def main():
    parser = argparse.ArgumentParser(description=__doc__, formatter_class=argparse.RawDescriptionHelpFormatter, allow_abbrev=False)
    parser.add_argument("--check", action="store_true", help="write nothing, say which file differs")
    check = parser.parse_args().check
    made = [(path, os.path.join(ROOT, path), make()) for path, make in FILES]
    differ = [(path, full, text) for path, full, text in made if not is_made(full, text)]
    for path, full, text in differ:
        if check:
            print(f"{path} is not what tools/boundary.py makes")
        else:
            os.makedirs(os.path.dirname(full), exist_ok=True)
            open(full, "w").write(text)
    return check and len(differ) > 0


if __name__ == "__main__":
    sys.exit(main())
