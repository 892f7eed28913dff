#!/usr/bin/env python3
"""compare_rust.py: the machine (crates/machine/specs) against the published Rust, on random sessions.

    python3 tools/compare_rust.py [--seed S] [--sessions N] [--events E] [--oracle DIR] [--work DIR] [--jobs J] [--self-test]

1. Builds the oracle (the published Rust behind document 01's records) in the work folder.
2. Makes N random sessions, all one event further at a time: the oracle is asked what the last event did, and that steers the next one. A batch that
   wakes its tasks out of order (document 02, No. 7) is rearranged, or cut, until it wakes them in order.
3. Takes the Rust's lines, a cancel's with its count (compare_figures.with_counts), turns each into an `Answer`, and writes modules with the theorem
   `map (answers fresh) (events-0 ∷ ..) ≡ told-0 ∷ ..`, by `refl`; `rt check` then computes the machine on every session. Some sessions
   share a theorem, since antt forgets what it has computed at the end of a declaration; where one fails, its sessions are tried alone.

An event is a line of text as in the oracle's asm.py. The exit status is 0 only if every session is equal. With --self-test one answer is
changed, and the status is 0 only if just that one is found."""
import argparse
import functools
import importlib.util
import os
import pathlib
import random
import re
import shutil
import subprocess
import sys
import tempfile
import time

sys.dont_write_bytecode = True  # nothing is left behind in tools/

from compare_figures import MAIN, figures, in_order, with_counts
from compare_sessions import Session, fixed_sessions
from compare_terms import module_text

ROOT = pathlib.Path(__file__).resolve().parent.parent
TOGETHER = 26  # sessions share a theorem up to this cost (about a million steps each): antt's limit for a theorem is 50 million
THEOREMS = 4  # of a crate

# ---- the oracle


class Oracle:
    def __init__(self, source, room):
        """Builds it in the folder; it takes in ../docs/src of the place where it stands."""
        home = room / "rust" / "oracle"
        if not home.exists():
            shutil.copytree(source, home, ignore=shutil.ignore_patterns("target"))
            (home.parent / "docs").symlink_to(source.parent / "docs")
            subprocess.run(["chmod", "-R", "u+w", home], check=True)
        subprocess.run(["cargo", "build", "--release", "--offline", "--quiet"], cwd=home, check=True)
        self.program = home / "target/release/oracle"
        spec = importlib.util.spec_from_file_location("asm", home / "asm.py")
        asm = importlib.util.module_from_spec(spec)
        spec.loader.exec_module(asm)
        self.record = functools.cache(asm.record)

    def run(self, sessions, *options):
        """The lines of each list of events, without their numbers, and all that was written to standard error."""
        inputs = [b"".join(map(self.record, events)) for events in sessions]
        data = b"".join(len(i).to_bytes(4, "little") + i for i in inputs)
        done = subprocess.run([self.program, "--batch", *options], input=data, capture_output=True, check=True)
        outputs = done.stdout.decode().split("--\n")[:-1]
        lines = [[line.split(" ", 1)[1] for line in text.splitlines()] for text in outputs]
        assert [len(x) for x in lines] == [len(x) for x in sessions], "a line for each event"
        return lines, done.stderr.decode().splitlines()


def grow(oracle, sessions):
    """Every session one event further, until all are long enough. Shows of every object stand behind the events, only to steer."""
    while open_ones := [s for s in sessions if not s.over()]:
        for s in open_ones:
            s.choose()
        put_in_order(oracle, open_ones)
        for s, said in zip(open_ones, oracle.run([s.events + s.probes() for s in open_ones])[0]):
            s.learn(said)


def put_in_order(oracle, sessions):
    """The batches just chosen, until each wakes its tasks in ascending order, as the machine does and the published Rust does not (document 02, No. 7)."""
    tries = 0
    while sessions := [s for s in sessions if s.events[-1].startswith("results ") and ";" in s.events[-1]]:
        dumped = iter(oracle.run([s.events for s in sessions], "--dump")[1])
        dumps = [[MAIN, *(next(dumped) for _ in s.events)] for s in sessions]
        sessions = [s for s, its_own in zip(sessions, dumps) if not in_order(*its_own[-2:])]
        for s in sessions:
            s.rearrange(tries)
        tries += 1


# ---- the temporary repository


def machine_crates():
    """The machine's crate and those that it reaches, each with its line of crates.txt, as it stands: a stamp of `rt` depends on it."""
    lines = {line.partition(":")[0]: line for line in (ROOT / "crates.txt").read_text().splitlines() if line[:1] not in ("", "#")}
    reached, ahead = {}, ["machine"]
    while ahead:
        crate = ahead.pop()
        reached[crate] = lines[crate]
        ahead += [d for d in lines[crate].partition(":")[2].split() if d not in reached]
    return reached


def lay_out(room):
    """The machine's crates, with what this repository has proved of them (stamps tell whether it still holds)."""
    for crate in machine_crates():
        shutil.copytree(ROOT / "crates" / crate, room / "crates" / crate, dirs_exist_ok=True)
    for part in ("rlib", "stamp"):
        if (ROOT / "target" / part).exists() and not (room / "target" / part).exists():
            shutil.copytree(ROOT / "target" / part, room / "target" / part)


def write_crate(room, name, modules):
    home = room / "crates" / name
    shutil.rmtree(home, ignore_errors=True)
    (home / "src").mkdir(parents=True)
    (home / "specs").mkdir()
    (home / "src/lib.rt").write_text("// No function stands here: specs/ has the sessions.\n")
    (home / "specs/Lib.antt").write_text("".join(f"pub mod {m}\n" for m in modules))
    for m, text in modules.items():
        (home / "specs" / f"{m}.antt").write_text(text)


def check(room, crates, jobs):
    """Runs `rt check`; gives its status and what it printed."""
    below = machine_crates()
    lines = [*below.values(), *(f"{c}: {' '.join(below)}" for c in crates)]
    (room / "crates.txt").write_text("\n".join(lines) + "\n")
    done = subprocess.run(["rt", "check", *crates], cwd=room, env={**os.environ, "RT_JOBS": str(jobs)}, capture_output=True, text=True)
    return done.returncode, done.stdout + done.stderr


def cost(told):
    """The test of a store takes steps with more than the square of its objects."""
    return 1 + (sum(line.startswith("made") for line in told) / 10) ** 3


def grouped(sessions, together):
    """The numbers of the sessions, in groups of at most that cost or of one session."""
    groups, total = [], together
    for k, (_, told) in sessions.items():
        total += cost(told)
        if total > together:
            groups.append([])
            total = cost(told)
        groups[-1].append(k)
    return groups


def failing(room, jobs, sessions, together):
    """The groups whose theorem is refused."""
    groups = {f"Sessions{i:03}": group for i, group in enumerate(grouped(sessions, together))}
    crates = {}
    for i, (name, group) in enumerate(groups.items()):
        crates.setdefault(f"compare{i // THEOREMS}", {})[name] = module_text({k: sessions[k] for k in group})
    for crate, modules in crates.items():
        write_crate(room, crate, modules)
    status, said = check(room, list(crates), jobs)
    wrong = sorted(set(re.findall(r"(Sessions\d+)\.antt:\d+:\d+: error", said)))
    if status and not wrong:
        sys.exit(f"rt check failed, and not at a session:\n{said}")
    return [groups[name] for name in wrong]


def compare(room, jobs, sessions):
    """The numbers of the sessions that are not proved equal. A session is its events and the Rust's lines."""
    again = [k for group in failing(room, jobs, sessions, TOGETHER) for k in group]
    return [k for group in failing(room, jobs, {k: sessions[k] for k in again}, 0) for k in group] if again else []


def narrow(room, events, told):
    """The first event at which a session differs, and what antt says there: the least prefix that is not equal, by halving."""
    good, bad, said = 0, len(events), "error: not equal with its last event, and equal without"
    while bad - good > 1:
        middle = (good + bad) // 2
        write_crate(room, "narrow", {"Session": module_text({0: (events[:middle], told[:middle])})})
        status, text = check(room, ["narrow"], 1)
        good, bad, said = (middle, bad, said) if status == 0 else (good, middle, text)
    return bad, said


def report(room, sessions, wrong):
    """Prints each difference; gives the session and the number of the event."""
    found = []
    for k in wrong:
        events, told = sessions[k]
        n, said = narrow(room, events, told)
        what = "NOT DECIDED (antt's step limit)" if "step limit" in said else "DIFFERENT"
        print(f"{what}: session {k}, event {n}: {events[n - 1]}\n  the Rust: {told[n - 1]}\n  the events: {' | '.join(events[:n])}")
        print("\n".join("  " + line[:1500] for line in said.splitlines() if "error" in line), flush=True)
        found.append((k, n))
    return found


# ---- the program


def self_test(room, jobs, sessions, seed):
    """One changed answer has to be found, where it is, and no other."""
    rng = random.Random(seed)
    k = rng.choice(list(sessions))
    events, told = sessions[k]
    n = rng.randrange(len(events))
    changed = {**sessions, k: (events, [*told[:n], "done" if told[n] == "stalled" else "stalled", *told[n + 1:]])}
    print(f"self-test: answer {n + 1} of session {k} is changed", flush=True)
    return report(room, changed, compare(room, jobs, changed)) == [(k, n + 1)]


def arguments():
    parser = argparse.ArgumentParser(description=__doc__, formatter_class=argparse.RawDescriptionHelpFormatter)
    parser.add_argument("--seed", type=int, default=1)
    parser.add_argument("--sessions", type=int, default=240)
    parser.add_argument("--events", type=int, default=44, help="events of a session before the final shows")
    near = [p / "shared/oracle" for p in (ROOT.parent, ROOT.parent.parent)]
    parser.add_argument("--oracle", type=pathlib.Path, default=next((p for p in near if p.exists()), None))
    parser.add_argument("--work", type=pathlib.Path, help="a folder to keep and use again; else a temporary one")
    parser.add_argument("--jobs", type=int, default=1, help="crates proved at a time")
    parser.add_argument("--self-test", action="store_true")
    parser.add_argument("--only-make", action="store_true", help="make the sessions and print the figures")
    return parser.parse_args()


def make(said, room, began):
    """The sessions by their numbers: events, and the Rust's lines, from one last run with the oracle's own checks on."""
    oracle = Oracle(said.oracle.resolve(), room)
    count, events = (3, 12) if said.self_test else (said.sessions, said.events)
    grown = [Session(random.Random(f"{said.seed} {k}"), events) for k in range(count)]
    grow(oracle, grown)
    lists = [s.events + s.final() for s in grown] + ([] if said.self_test else fixed_sessions())
    told, dumped = oracle.run(lists, "--check", "--dump")
    dumped = iter(dumped)
    dumps = [[next(dumped) for _ in session] for session in told]
    sessions = dict(enumerate(zip(lists, map(with_counts, lists, told, dumps))))
    figures(sessions, dumps)
    print(f"sessions made in {time.time() - began:.0f} s", flush=True)
    return sessions


def main():
    said = arguments()
    room = said.work or pathlib.Path(tempfile.mkdtemp(prefix="compare-rust-"))
    room.mkdir(parents=True, exist_ok=True)
    began = time.time()
    sessions = make(said, room, began)
    lay_out(room)
    if said.only_make:
        good = True
    elif said.self_test:
        good = self_test(room, said.jobs, sessions, said.seed)
        print("self-test: found" if good else "self-test: NOT found, or not alone")
    else:
        wrong = report(room, sessions, compare(room, said.jobs, sessions))
        print(f"{len(sessions) - len(wrong)} sessions equal, {len(wrong)} not; {time.time() - began:.0f} s")
        good = not wrong
    if not said.work:
        shutil.rmtree(room)
    sys.exit(0 if good else 1)


if __name__ == "__main__":
    main()
