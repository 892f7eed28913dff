"""rename.py FOLDER [--moves]: brings Rattle sources that were written in the names of commit 0b03690 into today's names.

FOLDER holds .rt, .antt, .edit and .md files in any layout (a repository, or a copy of a prototype). The tables say which crates, modules
and spec files were renamed, and which names inside them. With --moves FOLDER is a repository: crates, modules and spec files are moved by git.
"""
import pathlib
import re
import subprocess
import sys

# crates, old name to new
CRATES = {
    "cases": "machine_cases", "laws": "machine_laws", "theorems": "machine_theorems",
    "cancelling": "scheduler_cancel",
    "polling": "exec_poll", "commit": "exec_commit", "filling": "exec_fill", "delivery": "exec_deliver", "futures": "exec_futures",
    "switching": "exec_switch", "events": "exec_events",
    "soundrows": "sound_rows", "soundtasks": "sound_tasks",
    "checks": "step_checks", "stepping": "step_event", "readings": "step_read",
    "beginning": "session_begin", "session": "session_dispatch", "reads": "session_reads",
    "driver": "drive_record", "answering": "drive_answer", "reader": "drive_reader", "lines": "drive_lines", "showing": "drive_shows",
    "texts": "drive_text", "driverlaws": "drive_laws",
    "badstores": "test_stores", "printing": "test_print",
    # merged into another crate: its names are found there
    "steps": "step_event", "readerlaws": "drive_laws",
}

# modules, by the crate's old name
MODULES = {
    ("scheduler", "ends"): "cleanup",
    ("checks", "making"): "make",
    ("checks", "tests"): "refusals",
    ("lines", "words"): "pending",
    ("polling", "items"): "item",
    ("soundtasks", "drivers"): "one_task",
}

# the four folders of the theorems
FOLDERS = {
    "Soundness": "Memory Stores PutObject PutTask SpawnTask Fill FillLaws Deliver Cycle Exits Results CommitInv CommitItems CommitLoop CommitSteps Await"
    " AwaitGather Preserved Sessions NeverUnsound ReadyTasks",
    "Panics": "Panics PanickingCommit PanickingCommitLaws PanickingDelivery PanickingDeliveryLaws PanickingEvents PanickingEventsLaws PanickingMachine"
    " PanickingMachineLaws NoPanicLaws NoPanicPlaces NoPanicWoken",
    "Gather": "Asyncio AsyncioCases AsyncioLaws Awaiting AwaitingLaws Begun BegunLaws Received ReceivedCommit ReceivedEvents ReceivedLaws ReceivedSessions"
    " Alike AlikeCommit AlikeEvents AlikeItems AlikeLaws AlikeSessions Meanwhile MeanwhileLaws SessionGathers GatherLaws PremiseLaws OrphanLaws Still",
    "Bounds": "Bounds BoundLaws FuelLaws TurnLaws LoopLaws ChainLaws CancelTurns AwaitSteps SwitchPending Bits",
}
# a folder's root file has the folder's name, so that no file in it may have it
FILES = {"Panics": "Panic", "Bounds": "Counts"}
FOLDER_OF = {name: folder for folder, names in FOLDERS.items() for name in names.split()}


def crate(name):
    return CRATES.get(name, name)


def spec_path(found):
    """Rattle·CRATE(·PART)?.specs.FILE"""
    name, part, rest = found.group(1), found.group(2) or "", found.group(3)
    if name == "theorems":
        rest = re.sub(r"^\.specs\.(\w+)", lambda m: f".specs.{FOLDER_OF[m.group(1)]}.{FILES.get(m.group(1), m.group(1))}" if m.group(1) in FOLDER_OF else m.group(0), rest)
    for (owner, old), new in MODULES.items():
        if name in (owner, crate(owner)):
            rest = re.sub(rf"^(\.specs\.declared|\.proofs)\.{old}\.", rf"\1.{new}.", rest)
    return f"Rattle·{crate(name)}{part}{rest}"


def renamed(text, ending):
    text = re.sub(r"Rattle·([a-z_0-9]+)(·[a-z]+)?((?:\.\w+)*(?:\.(?=\{))?)", spec_path, text)
    for (owner, old), new in MODULES.items():
        text = re.sub(rf"(?<![\w:.·])({owner}|{crate(owner)})::{old}\b", rf"\g<1>::{new}", text)
    names = "|".join(sorted(CRATES, key=len, reverse=True))
    text = re.sub(rf"(?<![\w:.·-])({names})::", lambda m: CRATES[m.group(1)] + "::", text)
    text = re.sub(rf"\bcrates/({names})(?![\w-])", lambda m: "crates/" + CRATES[m.group(1)], text)
    # a callee, in a proof by hand
    text = re.sub(rf"\bcalls-({names})·", lambda m: f"calls-{CRATES[m.group(1)].replace('_', '-')}·", text)
    if ending == ".md":
        text = re.sub(rf"`({names})`", lambda m: f"`{CRATES[m.group(1)]}`", text)
    return text


def inside(text, owner):
    """Names inside a crate: its own modules, which need no crate's name."""
    for (name, old), new in MODULES.items():
        if name == owner:
            text = re.sub(rf"(?<![\w:])(pub mod |mod |crate::|super::){old}\b", rf"\g<1>{new}", text)
            text = re.sub(rf"(?<![\w:.·-]){old}::", f"{new}::", text)
            text = re.sub(rf"\bsrc/{old}\.rt", f"src/{new}.rt", text)
    return text


# ---- names inside the files

# types and words that were renamed wherever they stand in these crates (a name behind a dot is a constructor or a field, and stays)
THEOREMS = {"machine_theorems", "drive_laws", "drive", "demand3"}
TYPES = {
    "Whole": "SoundStore", "Alike": "PlacesAgree", "AllAlike": "AllPlacesAgree", "Came": "SettledTo", "Own": "EndsTask", "Ended": "EndsOrReuse",
    "EndedIn": "EndsIn", "Still": "CommitsNone", "Quiet": "OnlyChanges", "Flight": "Detached", "InFlight": "Delivering", "Landed": "DeliveryEnds",
    "Fine": "WalkInvariant", "Paid": "WalkKept", "Level": "CommitProgress", "Levels": "CommitsProgress", "EndLevel": "EndProgress",
    "FrameLevel": "FrameProgress", "NestLevel": "NestProgress", "StopLevel": "StopProgress",
}
# parts of hyphenated names, in the same crates
PARTS = {
    "whole": "sound-store", "alike": "agree", "quiet": "only-changes", "flight": "detached", "rises": "delivering", "lands": "delivery-ends",
    "paid": "walk-kept", "mid": "during", "orphan": "unawaited", "still": "commits-none",
}
KEPT = {"still-live", "still-waiting", "still-waits", "still-of", "was-still", "came-x"}
# everywhere
WORDS = {"Happening": "LogEntry", "Pays": "CountsKept", "mid-gathers": "after-gathers", "error-came": "error-settled-to", "list-came": "list-settled-to"}
# bare words, in code and not in comments
BARE = {"note": "add-log", "driver": "task-of", "drivers": "tasks-of", "drives": "is-task-of", "quiet": "keeps-list"}
# in Rattle code
CODE = {
    "driver": "task_of", "drives": "is_task_of", "drivers": "table", "find_drivers": "find_tasks", "note_driver": "put_task_of",
    "live_driver": "live_task_of", "one_driver": "one_task",
}
# the words of the driver (document 01's program) stay
PROGRAM = {"drive", "drive_answer", "drive_record", "drive_reader", "drive_lines", "drive_shows", "drive_laws", "drive_text", "test_stores"}
LISTS = {"step_checks", "awaiting", "externals", "host", "makers", "script"}
SPECS = {
    ("scheduler_cancel", "DriverLaws"): "TaskOfLaws", ("sound_tasks", "DriverLaws"): "OneTaskLaws", ("sound", "Whole"): "Clauses",
    ("step_checks", "QuietLaws"): "KeptListLaws",
    ("machine_theorems", "Alike"): "PlacesAgree", ("machine_theorems", "AlikeCommit"): "PlacesAgreeCommit",
    ("machine_theorems", "AlikeEvents"): "PlacesAgreeEvents", ("machine_theorems", "AlikeItems"): "PlacesAgreeItems",
    ("machine_theorems", "AlikeLaws"): "PlacesAgreeLaws", ("machine_theorems", "AlikeSessions"): "PlacesAgreeSessions",
    ("machine_theorems", "Still"): "CommitsNone", ("machine_theorems", "OrphanLaws"): "UnawaitedLaws",
}
IDENT = r"[^\s(){};,.\[\]@⌜⌝\"`:&*]+"


def name(token, owner, ending, mid):
    if token in KEPT:
        return token
    if token in WORDS:
        return WORDS[token]
    if token == "Mid" and mid:
        return mid
    pieces = token.split("-")
    if owner in THEOREMS:
        if token in TYPES:
            return TYPES[token]
        if len(pieces) > 1 and not token.startswith("Rattle"):
            pieces = [PARTS.get(p, p) for p in pieces]
    if owner in ("machine_laws", "scheduler_cancel", "machine_theorems") and len(pieces) > 1:
        pieces = ["counts-kept" if p == "pays" else p for p in pieces]
    if owner not in PROGRAM and len(pieces) > 1:
        if "-".join(pieces) in ("mul-drivers", "slice-write-drivers", "Need-mul-drivers", "Need-slice-write-drivers"):
            return "-".join(pieces).replace("drivers", "table")
        text = "-".join(pieces)
        for old, new in (("find-drivers", "find-tasks"), ("note-driver", "put-task-of"), ("one-driver", "one-task"), ("sole-driver", "sole-task")):
            text = re.sub(rf"(?<![\w]){old}(?![\w])", new, text)
        pieces = [{"driver": "task-of", "drivers": "tasks-of", "drives": "is-task-of"}.get(p, p) for p in text.split("-")]
    if len(pieces) > 1 and owner not in PROGRAM:
        pieces = ["add-log" if p == "note" else p for p in pieces]
    return "-".join(pieces)


def renamed_names(text, owner, path):
    ending = "rt" if path.suffix in (".rt", ".edit") else "proofs" if "proofs" in path.parts else "antt"
    mid = None
    if owner in THEOREMS:
        if re.search(r"Stores\.\{[^}]*\bMid\b", text) or path.stem == "Stores":
            mid = "SoundDuring"
        if re.search(r"Asyncio\.\{[^}]*\bMid\b", text) or path.stem == "Asyncio":
            assert mid is None, path
            mid = "GatherAfter"
    out = []
    for line in text.split("\n"):
        comment = re.match(r"\s*(--|//)", line)
        if owner not in PROGRAM or owner in THEOREMS:

            def one(m):
                token, before = m.group(0), line[m.start() - 1 : m.start()]
                if before == "." and (token in TYPES or token in ("Mid",)):
                    return token
                if not comment and owner not in PROGRAM:
                    if ending == "rt" and token in CODE and not re.match(r"\s*(requires|ensures|ghost)", line):
                        return CODE[token]
                    if owner == "scheduler_cancel" and ending in ("rt", "proofs") and token in ("drivers", "drivers₀"):
                        return token.replace("drivers", "table")
                    if token in BARE and (ending != "rt" or re.match(r"\s*(requires|ensures|ghost)", line)):
                        if token == "quiet" and owner not in LISTS:
                            return token
                        return BARE[token]
                return name(token, owner, ending, mid)

            line = re.sub(IDENT, one, line)
        else:
            line = re.sub(IDENT, lambda m: WORDS.get(m.group(0), m.group(0)), line)
        out.append(line)
    text = "\n".join(out)
    # the folder of a function's proof has the function's name
    folders = {new.replace("_", "-"): new for new in CODE.values()} | CODE
    text = re.sub(r"(·proofs\.proofs(?:\.\w+)*)\.([\w-]+)(?=\.(?:Statement|Tie|Code|Lts)\b)", lambda m: f"{m.group(1)}.{folders.get(m.group(2), m.group(2))}", text)
    for (crate_name, old), new in SPECS.items():
        if owner == crate_name:
            text = re.sub(rf"^(pub mod ){old}$", rf"\g<1>{new}", text, flags=re.M)
        text = re.sub(rf"(Rattle·{crate_name}(?:·specs)?\.specs(?:\.[A-Z]\w+)?\.){old}\b", rf"\g<1>{new}", text)
    return text


def git_mv(old, new):
    if old.exists():
        new.parent.mkdir(parents=True, exist_ok=True)
        subprocess.run(["git", "mv", str(old), str(new)], check=True)


def move(root):
    crates = root / "crates"
    for (owner, old), new in MODULES.items():
        for folder in (crates / owner, crates / crate(owner)):
            git_mv(folder / "src" / f"{old}.rt", folder / "src" / f"{new}.rt")
            git_mv(folder / "proofs" / old, folder / "proofs" / new)
    specs = crates / "theorems" / "specs"
    for name, folder in FOLDER_OF.items():
        git_mv(specs / f"{name}.antt", specs / folder / f"{FILES.get(name, name)}.antt")
    # session goes before its name is free; no new name is an old one
    for old, new in CRATES.items():
        git_mv(crates / old, crates / new)
    for (owner, old), new in SPECS.items():
        for path in list((crates / owner / "specs").rglob(f"{old}.antt")):
            git_mv(path, path.parent / f"{new}.antt")
    for path in list(crates.rglob("proofs/**/*driver*")):
        git_mv(path, path.parent / re.sub("find_drivers|note_driver|live_driver|one_driver|driver", lambda m: CODE[m.group(0)], path.name))
    for path in list(crates.rglob("proofs/**/drives")):
        git_mv(path, path.parent / "is_task_of")
    listed = root / "crates.txt"
    lines = []
    for line in listed.read_text().splitlines():
        if not line.startswith("#"):
            line = re.sub(r"[a-z_0-9]+", lambda m: crate(m.group(0)), line)
        lines.append(line)
    listed.write_text("\n".join(lines) + "\n")


def main():
    root = pathlib.Path(sys.argv[1])
    owners = {new: old for old, new in CRATES.items()}
    if "--moves" in sys.argv:
        move(root)
    for path in sorted(root.rglob("*")):
        if path.suffix not in (".rt", ".antt", ".edit", ".md") or ".git" in path.parts or "target" in path.parts or not path.is_file():
            continue
        before = path.read_text()
        after = renamed(before, path.suffix)
        parts = path.parts
        if "crates" in parts:
            owner = parts[parts.index("crates") + 1]
            after = inside(after, owners.get(owner, owner))
            after = renamed_names(after, crate(owner), path)
        else:
            # a prototype's crate stands in no folder `crates`: it is what holds specs/, src/ or proofs/
            inner = [k for k, part in enumerate(parts) if part in ("specs", "src", "proofs") and k > 0]
            after = renamed_names(after, crate(parts[inner[0] - 1]) if inner else "", path)
        if after != before:
            path.write_text(after)


main()
