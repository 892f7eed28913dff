#!/usr/bin/env python3
"""The Rust crate beside the published Rust, each event at 16 and at 256 objects, with and without the check of the store: one command.

    python3 bench/host.py [--quick]      --quick leaves out the times of long files

Of an event: ns from the typed event to the typed answer in one process (host/rust/examples/measure.rs, the least of 3,000 short batches; the store is not in
the processor's nearest cache then), and callgrind's instructions from the record to the line, of the crate's `records` and of the harness: both read the same
bytes and write the same lines. Instructions do not depend on what else the machine does. An event that can be told several times in a row is; its cost is a
part of theirs.
"""
import pathlib
import subprocess
import sys
import tempfile

sys.dont_write_bytecode = True
sys.path.insert(0, str(pathlib.Path(__file__).resolve().parent))
import bench

ROOT = bench.ROOT
TIMES = 8
# a member's projection as examples/projection.rs runs it: three tasks, a call each, answered last call first
PROJECTION = (["coroutine 1", "coroutine 2", "coroutine 3", "gather 0 1 2", "await 3"]
              + [text for i in range(3) for text in ("call", f"pending {i}", f"await {i + 4}")]
              + [text for i in (2, 1, 0) for text in (f"results {i} return plain {i}", "resume", f"complete plain {i}")]
              + ["show 3", "complete plain 9"])


def rows(objects):
    """(name, records before, records measured): each event in a session that has so many objects, or comes to have them."""
    half, quarter = objects // 2, objects // 4
    full = bench.session(objects)
    waiting = full + [f"await {half - 1}"]
    # so many objects less: then what is made brings them
    made = objects - TIMES
    few, calls = bench.session(made), made // 2
    coroutines = range(made // 2, made // 2 + made // 4)[:TIMES - 1]
    tasks = len(coroutines)
    spawned = few + [f"gather {' '.join(map(str, coroutines))}", f"await {made}"]
    blocked = [text for i in range(tasks) for text in ("call", f"pending {calls + i}", f"await {made + 1 + i}")]
    yield "coroutine", few, ["coroutine 7"] * TIMES
    yield "call", few, ["call"] * TIMES
    yield "pending", few + ["call"] * TIMES, [f"pending {calls + i}" for i in range(TIMES)]
    yield "settled", few, ["settled plain 5"] * TIMES
    yield "gather of two", few, ["gather 0 1"] * TIMES
    yield "await of a settled external", full, [f"await {half - 3}"] * TIMES
    yield "await of a completed gather", full, [f"await {objects - 1}"] * TIMES
    yield "await of a coroutine, inline", full, [f"await {half + i}" for i in range(min(quarter, TIMES))]
    yield "await of a gather of four, its commit", few + [f"gather {calls - 2} {calls - 1} 0 1"], [f"await {made}"]
    yield "complete, the next task starts", spawned, ["complete plain 5"] * (tasks - 1)
    yield "complete, main goes on", spawned + ["complete plain 5"] * (tasks - 1), ["complete plain 5"]
    yield "fail, main gets the error", spawned, ["fail 3"]
    yield "results, one call", full, [f"results {c} return plain 5" for c in (half - 2, half - 1)]
    yield "results, an unknown call", full, ["results 65000 return plain 1"] * TIMES
    yield "resume, the wait again", waiting, ["resume"] * TIMES
    yield "resume, main goes on", waiting + [f"results {half - 1} return plain 5"], ["resume"]
    yield "cancel of a blocked task", spawned + blocked, [f"cancel {t}" for t in range(1, tasks + 1)]
    yield "show of a gather of 8", full, [f"show {half + quarter}"] * TIMES
    yield "eager", full, ["eager"] * TIMES


class Programs:
    """The programs that are compared, built into a folder outside of the tree."""

    def __init__(self, room):
        self.room = pathlib.Path(room)
        build = ["cargo", "build", "--offline", "--quiet", "--target-dir", f"{room}/target"]
        subprocess.run(build + ["--release", "--examples"], cwd=ROOT / "host/rust", check=True)
        subprocess.run(build + ["--profile", "bench-rust"], cwd=ROOT / "harness", check=True)
        examples = f"{room}/target/release/examples"
        self.measure = f"{examples}/measure"
        self.commands = {"crate": [f"{examples}/records"], "checked": [f"{examples}/records", "--checked"],
                         "rust": [f"{room}/target/bench-rust/harness", "lines"]}

    def same(self, texts):
        data = bench.data_of(texts)
        outputs = {bench.output(command, data, len(texts)) for command in self.commands.values()}
        assert len(outputs) == 1, "the lines are the same"
        assert b"refused" not in outputs.pop(), "nothing is refused"

    def instructions(self, texts):
        data = bench.data_of(texts)
        return {name: bench.instructions(command, data) for name, command in self.commands.items()}

    def nanoseconds(self, before, measured):
        """without the check and with it"""
        files = [self.room / "setup.bin", self.room / "events.bin"]
        for file, texts in zip(files, (before, measured)):
            file.write_bytes(bench.data_of(texts))
        out = subprocess.run([self.measure, *map(str, files)], capture_output=True, check=True).stdout
        return map(int, out.split())

    def event(self, before, measured):
        """ns, and instructions, of one event"""
        self.same(before + measured)
        nothing, all_of_it = self.instructions(before), self.instructions(before + measured)
        crate, checked, rust = ((all_of_it[n] - nothing[n]) / len(measured) for n in ("crate", "checked", "rust"))
        return list(self.nanoseconds(before, measured)), [f"{crate:,.0f}", f"{checked:,.0f}", f"{rust:,.0f}", f"{crate / rust:.2f}"]

    def whole(self, name, texts):
        self.same(texts)
        nothing, all_of_it = self.instructions([]), self.instructions(texts)
        crate, checked, rust = (all_of_it[n] - nothing[n] for n in ("crate", "checked", "rust"))
        print(f"| {name} | {crate:,} | {checked:,} | {rust:,} | {crate / rust:.2f} | {checked / rust:.2f} |", flush=True)

    def timed(self, name, before, turn):
        texts = before + turn * ((bench.RECORDS - len(before)) // len(turn))
        data = bench.data_of(texts)
        times = {n: (bench.seconds(c, data) - bench.seconds(c, b"")) / len(texts) * 1e9 for n, c in self.commands.items()}
        crate, checked, rust = (times[n] for n in ("crate", "checked", "rust"))
        print(f"| {name} | {crate:,.0f} | {checked:,.0f} | {rust:,.0f} | {crate / rust:.2f} | {checked / rust:.2f} |", flush=True)


def main(words):
    with tempfile.TemporaryDirectory() as room:
        programs = Programs(room)
        found = {}
        for objects in (16, 256):
            for name, before, measured in rows(objects):
                found.setdefault(name, []).append(programs.event(before, measured))
        print("| ns, event to answer | 16 objects | checked | 256 objects | checked |\n|---|---|---|---|---|")
        for name, figures in found.items():
            print(f"| {name} | " + " | ".join(f"{time:,}" for times, _ in figures for time in times) + " |")
        sizes = " | ".join(f"{objects} objects | checked | the Rust | ratio" for objects in (16, 256))
        print(f"\n| instructions, record to line | {sizes} |\n|---|---|---|---|---|---|---|---|---|")
        for name, figures in found.items():
            print(f"| {name} | " + " | ".join(count for _, counts in figures for count in counts) + " |", flush=True)
        print("\n| session, instructions | the crate | checked | the Rust | ratio | checked |\n|---|---|---|---|---|---|")
        programs.whole(f"a member's projection, {len(PROJECTION)} records", PROJECTION)
        for name in ("small", "full"):
            programs.whole(f"{name}, {len(bench.stored(name))} records", bench.stored(name))
        print("\n| session, in one process | ns |\n|---|---|")
        for line in subprocess.run([programs.measure], capture_output=True, check=True, text=True).stdout.splitlines():
            name, time = line.split("|")
            print(f"| {name} | {int(time):,} |", flush=True)
        if "--quick" in words:
            return
        print("\n| ns an event, records to lines | the crate | checked | the Rust | ratio | checked |\n|---|---|---|---|---|---|")
        for name, make in (("running", bench.running), ("waiting", bench.waiting)):
            for objects in (16, 256):
                programs.timed(f"{name}, {objects} objects", *make(objects))


if __name__ == "__main__":
    main(sys.argv[1:])
