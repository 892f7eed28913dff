#!/usr/bin/env python3
"""contracts.py BASE [-v]: holds the contracts of today's functions against those of a revision, one by one, by what they say.

Functions are matched by crate, module and name through the tables of rename.py and MOVED. A `requires` or `ensures` is read as a term, its
abbreviations (the forms) are opened in its own revision, and the two terms are compared (terms.py). Told are: functions that are gone or new,
those with a `requires` now and none before, those that lost an `ensures`, and each contract that says something else, with the two terms from
where they differ (-v: whole). What is told is for a reader to judge. Lengths of contract lines are summed up at the end.
"""
import pathlib
import re
import statistics
import subprocess
import sys

sys.dont_write_bytecode = True  # nothing is left behind in tools/

import terms

ROOT = pathlib.Path(__file__).resolve().parent.parent
TABLES = {}
exec((ROOT / "tools/rename.py").read_text().rpartition("\nmain()")[0], TABLES)

# functions that went to another crate or module, or got another name, since 0b03690
MOVED = {
    ("awaiting", "lib", "await_object"): ("session_run", "lib", "await_object"),
    ("step_read", "lib", "show_sound"): ("step_read", "lib", "show"),
    ("step_read", "lib", "eager_sound"): ("step_read", "lib", "eager"),
    ("step_checks", "lent", "tell"): ("step_checks", "lent", "write_calls"),
    ("exec_poll", "awaited", "as_awaited"): ("scheduler", "awaited", "as_awaited"),
    ("exec_poll", "item", "is_open"): ("scheduler", "places", "is_open"),
    ("exec_poll", "item", "is_open_here"): ("scheduler", "places", "is_open_here"),
}
for crate, names, now in (
    ("externals", "call pending settled", "session_make"),
    ("host", "results resume", "session_host"),
    ("makers", "coroutine gather", "session_make"),
    ("script", "complete fail", "session_run"),
):
    MOVED |= {(crate, "lib", name): (now, "lib", name) for name in names.split()}
MOVED |= {("step_event", "waiting", name): ("step_event", "host", name) for name in "results resume is_ended".split()}
for names, now in (("coroutine call pending settled gather", "session_make"), ("await_object complete fail", "session_run"), ("results resume cancel", "session_host")):
    MOVED |= {("session_events", "lib", name): (now, "lib", name) for name in names.split()}
MOVED[("session_events", "lib", "plain")] = ("session_dispatch", "lib", "dispatch_plain")
# modules that became a crate, or went to one (DECISIONS 101), and the spec files that went with them
CUT = {
    ("step_checks", "make"): ("step_make", "lib"),
    ("step_event", "running"): ("step_run", "lib"),
    ("step_event", "host"): ("step_host", "lib"),
    ("exec_events", "awaits"): ("exec_await", "lib"),
    ("exec_events", "ends"): ("exec_ends", "lib"),
    ("sound_rows", "words"): ("sound_words", "lib"),
    ("sound_rows", "groups"): ("sound_words", "groups"),
} | {("scheduler", module): ("scheduler_states", module) for module in ("states", "places", "awaited")}
SPECS = {
    "exec_events": {"exec_await": "Awaits AwaitLaws", "exec_ends": "Ends EndLaws"},
    "sound_rows": {"sound_words": "Words PartLaws Loops"},
    "scheduler": {"scheduler_states": "States Awaited AwaitedLaws OpenPlaces OpenPlaceLaws"},
}
# a field that got another name
FIELDS = {"waiting": "open-places"}


def git(*words):
    return subprocess.run(["git", *words], capture_output=True, text=True, cwd=ROOT).stdout


def contracts(text):
    """Each function's name, with its `requires` and `ensures`, and how long their lines are."""
    found, name, lines = {}, None, iter(text.split("\n"))
    for line in lines:
        if m := re.match(r'\s*(?:pub(?:\(crate\))? )?(?:extern "C" )?fn (\w+)', line):
            name = m.group(1)
            found[name] = {"requires": "", "ensures": "", "public": line.strip().startswith(("pub fn", "pub extern")), "lengths": [], "parameters": []}
            signature = line
            while not re.search(r"\)( ->.*| \{)?$", signature):
                signature += " " + next(lines).strip()
            found[name]["parameters"] = re.findall(r"(\w+): ", signature.partition(name + "(")[2])
        elif m := re.match(r"\s*(requires|ensures) \{(.*)", line):
            said, lengths = m.group(2), [len(line.strip())]
            while not said.rstrip().endswith("⌝ }"):
                line = next(lines)
                said += " " + line.strip()
                lengths.append(len(line.strip()))
            found[name][m.group(1)] = said.rstrip().removesuffix("}").strip()
            found[name]["lengths"] += lengths
    return found


def renamed(path, text):
    """A file of BASE in today's names."""
    crate = path.split("/")[1]
    text = TABLES["inside"](TABLES["renamed"](text, pathlib.Path(path).suffix), crate)
    return TABLES["renamed_names"](text, TABLES["CRATES"].get(crate, crate), pathlib.Path(path))


def place(path):
    """Crate, module of a source file, in today's names."""
    _, crate, _, *rest = path.split("/")
    module = rest[-1].removesuffix(".rt")
    return TABLES["CRATES"].get(crate, crate), TABLES["MODULES"].get((crate, module), module)


def all_of(files, read):
    """Every contract, with where its names stand, and all abbreviations."""
    said, abbrevs = {}, {}
    for path in files:
        if re.match(r"crates/[^/]+/src/.*\.rt$", path):
            crate, module = place(path)
            text = read(path)
            for name, contract in contracts(text).items():
                key = crate, module, TABLES["CODE"].get(name, name)
                crate_now, module_now, name_now = MOVED.get(key, key)
                said[*CUT.get((crate_now, module_now), (crate_now, module_now)), name_now] = contract | {"where": terms.imported(text)}
        elif m := re.match(r"crates/([^/]+)/specs/(.*)\.antt$", path):
            crate = TABLES["CRATES"].get(m.group(1), m.group(1))
            abbrevs |= terms.abbreviations(read(path), f"{crate}/{m.group(2).replace('/', '.')}")
    return said, abbrevs


def meaning(contract, kind, abbrevs, names):
    term = terms.Reader(contract[kind]).term()
    term = terms.put(terms.placed(term, contract["where"]), {old: ("var", new) for old, new in names.items()})
    text = terms.show(terms.opened(term, abbrevs))
    for old, parts in SPECS.items():
        for new, files in parts.items():
            text = re.sub(rf"\b{old}/({'|'.join(files.split())})/", rf"{new}/\1/", text)
    return re.sub(r"(?<= \.)([\w-]+)|(?<=[{ ])([\w-]+)(?= = )", lambda m: FIELDS.get(m.group(0), m.group(0)), text)


def today(before, after):
    """Today's names of the parameters, where as many are there as before."""
    old, new = before["parameters"], after["parameters"]
    return {x: y.replace("_", "-") for x, y in zip(old, new)} if len(old) == len(new) else {}


def differing(before, after, whole):
    """The two texts from a little before the place where they differ."""
    if whole:
        return before, after
    at = next((i for i, (x, y) in enumerate(zip(before, after)) if x != y), min(len(before), len(after)))
    return tuple(text[max(0, at - 40) : at + 120] for text in (before, after))


def main():
    base, whole = sys.argv[1], "-v" in sys.argv
    before, abbrevs_before = all_of(git("ls-tree", "-r", "--name-only", base, "crates").split(), lambda p: renamed(p, git("show", f"{base}:{p}")))
    after, abbrevs_after = all_of(git("ls-files", "crates").split(), lambda p: (ROOT / p).read_text())
    names = lambda keys: ", ".join("::".join(k) for k in sorted(keys)) or "none"
    print("gone:", names(before.keys() - after.keys()))
    print("new:", names(after.keys() - before.keys()))
    both = before.keys() & after.keys()
    print("a requires now and none before:", names(k for k in both if after[k]["requires"] and not before[k]["requires"]))
    print("no requires now and one before:", names(k for k in both if before[k]["requires"] and not after[k]["requires"]))
    print("an ensures lost:", names(k for k in both if before[k]["ensures"] and not after[k]["ensures"]))
    print("public without an ensures:", names(k for k in after if after[k]["public"] and not after[k]["ensures"]))
    same = 0
    for key in sorted(both):
        for kind in ("requires", "ensures"):
            if before[key][kind] and after[key][kind]:
                was = meaning(before[key], kind, abbrevs_before, today(before[key], after[key]))
                is_now = meaning(after[key], kind, abbrevs_after, {})
                same += was == is_now
                if was != is_now:
                    old, new = differing(was, is_now, whole)
                    print(f"{'::'.join(key)} {kind}:\n    was {old}\n    now {new}")
    print(f"{len(both)} functions in both; {same} requires and ensures say the same")
    for when, found in (("before", before), ("now", after)):
        lines = [n for c in found.values() for n in c["lengths"]]
        print(f"{when}: {len(lines)} contract lines, median {statistics.median(lines)}, longest {max(lines)}, above 160: {sum(n > 160 for n in lines)}")


main()
