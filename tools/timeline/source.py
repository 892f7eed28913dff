"""Records, their lines and the objects' states: from the event file and from `drive`.

The states are drive's own: behind every record that can change an object a `show` of each object is put in, in a copy of the file. Reads
change nothing, so the other lines stay what they were.
"""
import dataclasses
import itertools
import pathlib
import shutil
import subprocess
import sys
import tempfile

TOOLS = pathlib.Path(__file__).resolve().parent.parent
sys.path.insert(0, str(TOOLS))
import records as texts  # noqa: E402

CHANGING = ("await", "complete", "fail", "results", "resume", "cancel")
IDLE = ("call", "resume", "show", "eager")
FOLD = 10


@dataclasses.dataclass
class Record:
    """One record of the file: its text, its bytes, the answer that the file names (or None) and the file's comment. Bytes that are no record are the
    last one: the text has those that say so, `data` all the rest of the file, and `unread` counts what the text does not have."""

    text: str
    data: bytes
    stored: str = None
    note: str = ""
    unread: int = 0


@dataclasses.dataclass
class Column:
    """What is drawn at one place of the x axis: one record, or a long run of equal records that change no object."""

    first: int
    last: int
    text: str
    line: str
    note: str = ""
    stored: str = None
    end: str = None
    event: str = ""
    unread: int = 0

    @property
    def numbers(self):
        return str(self.first) if self.first == self.last else f"{self.first}–{self.last}"

    @property
    def refused(self):
        """The refusal's number, or None."""
        return int(self.line.split()[1]) if self.line and self.line.startswith("refused ") else None


def read(path):
    """The records of a file, as text or as bytes. Bytes begin with the mark; what does not, and cannot be text either, is bytes with a damaged start."""
    data = pathlib.Path(path).read_bytes()
    if data.startswith(texts.MARK):
        return read_bytes(data)
    try:
        text = data.decode()
    except UnicodeDecodeError:
        text = None
    if text is None or "\0" in text:
        print(f"timeline: {path} does not begin with the mark C3 59 and is no text in UTF-8; it is read as bytes", file=sys.stderr)
        return read_bytes(data)
    return read_text(text, path)


def read_text(text, path):
    """The records of a text. `raw` can hold many records or a part of one, so they are found in the bytes of all lines together, as drive finds them."""
    for _ in texts.records(text, path):
        pass  # it stops with the line's number where a line is no record
    parts = [(encoded, answer, line.partition("#")[2].strip()) for line in text.splitlines() for encoded, answer in texts.records(line, path)]
    found = read_bytes(b"".join(encoded for encoded, _, _ in parts))
    attach(found, parts)
    return found


def attach(found, parts):
    """Gives each record the comment of the line that it begins in and, if that line ends in it, the line's answer. A part is (bytes, answer, comment)."""
    ends = list(itertools.accumulate(len(encoded) for encoded, _, _ in parts))
    at, here = 0, 0
    for record in found:
        while ends[here] <= at:
            here += 1
        at += len(record.data)
        _, answer, record.note = parts[here]
        record.stored = answer if ends[here] <= at else None


def read_bytes(data):
    """The records of a file in the record form. What is no record takes the rest: drive stops there."""
    found, at = [], 0
    while at < len(data):
        text, behind = texts.one_text(data, at)
        record = Record(text, data[at:behind])
        if event_of(record).startswith("raw "):
            return [*found, Record(text, data[at:], unread=len(data) - behind)]
        found.append(record)
        at = behind
    return found


def build():
    """drive, built by the kit; where there is no kit, `records` of the Rust crate, which writes the same lines. In a folder that is removed at the
    end of the run."""
    room = tempfile.TemporaryDirectory()
    if shutil.which("rt"):
        program = pathlib.Path(room.name) / "drive"
        command = ["bash", str(TOOLS / "quickbuild.sh"), "drive", str(program)]
    else:
        program = pathlib.Path(room.name) / "release/examples/records"
        crate = TOOLS.parent / "host/rust/Cargo.toml"
        command = ["cargo", "build", "--release", "--offline", "--quiet", "--example", "records", f"--manifest-path={crate}", f"--target-dir={room.name}"]
    try:
        subprocess.run(command, check=True, stdout=subprocess.DEVNULL)
    except (OSError, subprocess.CalledProcessError):
        sys.exit("timeline: neither drive (by the kit) nor host/rust (by cargo) compiles here; --drive names a program that is there")
    return program, room


def ask(program, parts):
    """drive's lines for these bytes, without their numbers."""
    run = subprocess.run([str(program)], input=b"".join(parts), capture_output=True, check=True)
    return [line.partition(" ")[2] for line in run.stdout.decode().splitlines()]


def event_of(record):
    """The record's text as an event: a pending whose unread bytes are not zero is raw as text, and is a pending all the same."""
    data = record.data
    if record.text.startswith("raw ") and len(data) == 17 and data[:3] == texts.MARK + b"\x03" and data[7] == 0:
        return f"pending {int.from_bytes(data[3:7], 'little')}"
    return record.text


def idle(record, line):
    """Does the record change no object, whatever stood before it?"""
    word = record.text.split()[0]
    return line.startswith("refused ") or word in IDLE and not line.startswith("runs ")


def columns(found, lines):
    """One column a record; a run of FOLD or more equal records that change no object is one column."""
    made, at = [], 0
    while at < len(found):
        here, end = found[at], at + 1
        line = lines[at] if at < len(lines) else None
        if line is not None and idle(here, line):
            while end < min(len(found), len(lines)) and found[end].text == here.text and same(line, lines[end]):
                end += 1
        end = end if end - at >= FOLD else at + 1
        last = lines[end - 1] if end - 1 < len(lines) else None
        made.append(Column(at + 1, end, here.text, line, here.note, found[end - 1].stored, last, event_of(here), here.unread))
        at = end
    return made


def same(one, two):
    """Are two lines of equal records equal, but for the number of a call?"""
    return one == two or one.startswith("call ") and two.startswith("call ")


def states(program, found, drawn):
    """For each column, the objects whose state it changed, as drive shows them: a list of {object: state}."""
    shows, asked, made = [texts.record(f"show {number}") for number in range(256)], [], 0
    with tempfile.TemporaryFile() as copy:
        for column in drawn:
            copy.writelines(record.data for record in found[column.first - 1:column.last])
            shown = range(0)
            if column.line and column.line.startswith("made "):
                shown, made = range(made, made + 1), made + 1
            elif column.line and column.refused is None and column.event.split()[0] in CHANGING:
                shown = range(made)
            copy.writelines(shows[shown.start:shown.stop])
            asked.append((column.last - column.first + 1, shown))
        copy.seek(0)
        with subprocess.Popen([str(program)], stdin=copy, stdout=subprocess.PIPE) as run:
            changed = list(changes(run.stdout, asked))
            run.stdout.read()
    if run.returncode:
        sys.exit(f"timeline: drive ended with {run.returncode}")
    return changed


def changes(lines, asked):
    """The shows' lines, column by column: which objects have another state than before. A line is `NUMBER shows STATE`."""
    known = {}
    for size, shown in asked:
        for _ in range(size):
            next(lines, None)
        new = {}
        for number in shown:
            state = next(lines).split(b" ", 2)[2]
            if known.get(number) != state:
                known[number] = state
                new[number] = state.decode().strip()
        yield new
