#!/usr/bin/env python3
"""`drive` beside the published Rust (built without its debug assertions), on the same records: one command, one table.

    python3 bench/bench.py [--quick] [DRIVE]      DRIVE: a drive to measure; else one is built from the sources (tools/quickbuild.sh)

Instructions are callgrind's, less those of an empty input: they do not depend on what else the machine does. Times are the best of five runs of a file of
200,000 records (20,000 of waits with 256 calls), those that make the session counted too, less that of an empty one; compare them within one run only. --quick
leaves the times out.

A session is measured whole (what a member's projection costs), or by what it goes on with (an event in a session of so many objects). `checked` is drive with
the entry `session_dispatch::dispatch` in place of `step_event::step`: what an entry costs that checks the store that is lent to it. (A gather's record is made
without it; no turn that is measured has one.)
"""
import pathlib
import random
import re
import shutil
import subprocess
import sys
import tempfile
import time

ROOT = pathlib.Path(__file__).resolve().parent.parent
sys.path.insert(0, str(ROOT / "tools"))
sys.dont_write_bytecode = True
import records

RECORDS = 200_000
SIZES = (16, 64, 128, 256)


# ---- sessions, as texts of records

def stored(name):
    """The records of a stored session: bench/small.txt is a gather of five with replies out of turn, bench/full.txt 14 gathers of 32 places and 112 tasks."""
    return [encoded for encoded, _ in records.records((ROOT / f"bench/{name}.txt").read_text())]


def waits(order):
    """256 pending calls, made in this order, one of them awaited: every resume waits for all of them."""
    texts = ["call"] * 256 + [f"pending {c}" for c in order] + ["await 0"]
    return texts, ["resume"]


def cancels():
    """Nine tasks of a gather, each at the head of 14 tasks that wait for one another; then the nine are cancelled."""
    texts = [f"coroutine {i}" for i in range(9)] + ["gather " + " ".join(str(i) for i in range(9)), "await 9"]
    made = 10
    for _ in range(13):
        for _ in range(9):
            texts += ["coroutine 7", f"gather {made}", f"await {made + 1}"]
            made += 2
    for i in range(9):
        texts += ["call", f"pending {i}", f"await {made + i}"]
    return texts, [f"cancel {t}" for t in range(1, 10)]


def session(objects):
    """Half of the objects externals, most of them settled, a quarter coroutines, a quarter gathers of up to eight places."""
    half, quarter = objects // 2, objects // 4
    texts = []
    for i in range(half):
        texts += ["call", f"pending {i}"]
    texts += [f"results {i} return plain {i}" for i in range(half - 2)]
    texts += [f"coroutine {i}" for i in range(quarter)]
    for g in range(quarter):
        texts.append("gather " + " ".join(str((g * 8 + i) % (half - 2)) for i in range(8)))
    texts += [f"await {half + quarter + g}" for g in range(quarter)]
    return texts


def running(objects):
    half, quarter = objects // 2, objects // 4
    turn = [f"await {half - 3}", f"show {half + quarter}", "eager", f"await {objects - 1}", "results 65000 return plain 1", "show 0"]
    return session(objects), turn


def waiting(objects):
    return session(objects) + [f"await {objects // 2 - 1}"], ["resume", "results 65000 return plain 1", "show 0", "eager"]


# ---- measuring

def data_of(texts):
    return b"".join(text if isinstance(text, bytes) else records.record(text) for text in texts)


def output(command, data, lines):
    out = subprocess.run(command, input=data, capture_output=True, check=True).stdout
    assert out.count(b"\n") == lines, "a line for each record"
    return out


def instructions(command, data):
    with tempfile.TemporaryDirectory() as room:
        tool = ["valgrind", "--tool=callgrind", f"--callgrind-out-file={room}/out"]
        said = subprocess.run(tool + command, input=data, capture_output=True, check=True).stderr
        return int(re.search(rb"Collected : (\d+)", said).group(1))


def seconds(command, data):
    best = None
    for _ in range(5):
        began = time.perf_counter()
        subprocess.run(command, input=data, capture_output=True, check=True)
        took = time.perf_counter() - began
        best = took if best is None or took < best else best
    return best


def checked_drive(room):
    """drive with the check of refusal 2 at each event, built from a copy of the sources."""
    copy = pathlib.Path(room) / "checked"
    shutil.copytree(ROOT, copy, ignore=shutil.ignore_patterns("target", ".git"), symlinks=True)
    source = copy / "crates/drive_answer/src/answered.rt"
    text = source.read_text()
    assert text.count("step_event::step(") == 1, "the one call of step"
    source.write_text(text.replace("step_event::step(", "session_dispatch::dispatch("))
    listed = copy / "crates.txt"
    listed.write_text(re.sub(r"^drive_answer: ", "drive_answer: sound session_dispatch ", listed.read_text(), flags=re.M))
    out = f"{room}/drive-checked"
    subprocess.run(["bash", str(copy / "tools/quickbuild.sh"), "drive", out], check=True, stdout=subprocess.DEVNULL)
    return out


class Table:
    def __init__(self, commands):
        self.commands = commands
        self.none = {name: instructions(command, b"") for name, command in commands.items()}
        self.idle = {name: seconds(command, b"") for name, command in commands.items()}

    def row(self, name, figures, unit):
        ours, theirs = figures
        print(f"| {name} | {ours:,.0f} | {theirs:,.0f} | {ours / theirs:.2f} | {unit} |", flush=True)

    def same(self, data, lines, names):
        assert len({output(self.commands[n], data, lines) for n in names}) == 1, "the lines are the same"

    def whole(self, name, texts, names=("drive", "rust")):
        data = data_of(texts)
        self.same(data, len(texts), names)
        self.row(name, [instructions(self.commands[n], data) - self.none[n] for n in names], "instructions")

    def each(self, name, made, turn, names=("drive", "rust"), turns=100):
        """An event of the turns: the session with so many of them, less the one with half."""
        texts = [made + turn * (turns // 2), made + turn * turns] if turns > 1 else [made, made + turn]
        self.same(data_of(texts[1]), len(texts[1]), names)
        few, many = ([instructions(self.commands[n], data_of(t)) for n in names] for t in texts)
        events = len(texts[1]) - len(texts[0])
        self.row(name, [(b - a) / events for a, b in zip(few, many)], "instructions an event")

    def timed(self, name, made, turn, names=("drive", "rust"), records=RECORDS):
        data = data_of(made + turn * ((records - len(made)) // len(turn)))
        count = len(made) + len(turn) * ((records - len(made)) // len(turn))
        self.row(name, [(seconds(self.commands[n], data) - self.idle[n]) / count * 1e9 for n in names], "ns an event")


def main(words):
    quick = "--quick" in words
    words = [w for w in words if w != "--quick"]
    with tempfile.TemporaryDirectory() as room:
        drive = words[0] if words else f"{room}/drive"
        if not words:
            subprocess.run(["bash", str(ROOT / "tools/quickbuild.sh"), "drive", drive], check=True, stdout=subprocess.DEVNULL)
        subprocess.run(["cargo", "build", "--offline", "--quiet", "--profile", "bench-rust"], cwd=ROOT / "harness", check=True)
        rust = [str(ROOT / "harness/target/bench-rust/harness"), "lines"]
        table = Table({"drive": [drive], "rust": rust, "checked": [checked_drive(room)]})
        print("| session | `drive` | the Rust | ratio | unit |\n|---|---|---|---|---|")
        for name in ("small", "full"):
            table.whole(f"{name}, {len(stored(name))} records", stored(name))
        shuffled = list(range(256))
        random.Random(1).shuffle(shuffled)
        orders = (("ascending", range(256)), ("descending", range(255, -1, -1)), ("shuffled", shuffled))
        for name, order in orders:
            table.each(f"a wait with 256 calls, made {name}", *waits(order))
        table.each("a cancel through 14 levels", *cancels(), turns=1)
        for name, make in (("running", running), ("waiting", waiting)):
            for objects in SIZES:
                table.each(f"{name}, {objects} objects, {objects // 4 * 8} places", *make(objects))
        for objects in SIZES:
            table.each(f"with the check, {objects} objects", *running(objects), names=("checked", "rust"))
        if quick:
            return
        for name, order in orders:
            table.timed(f"a wait with 256 calls, made {name}", *waits(order), records=RECORDS // 10)
        for name, make in (("running", running), ("waiting", waiting)):
            for objects in SIZES:
                table.timed(f"{name}, {objects} objects", *make(objects))
        for objects in SIZES:
            table.timed(f"with the check, {objects} objects", *running(objects), names=("checked", "rust"))


if __name__ == "__main__":
    main(sys.argv[1:])
