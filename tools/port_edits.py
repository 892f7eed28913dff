"""port_edits.py make LANDED ROOM | read ROOM: brings the must-fail edits of LANDED to today's spelling. `make` lays out folders ROOM/0, ROOM/1, ..: copies of
LANDED in which edits are applied, no two to one line of a file; in each folder port.py and respell.py are then run (ROOM/base has no edit). `read` compares each
with ROOM/base and writes the lines that differ as the edit's new text into this repository's must-fail/. It prints the edits that it could not read.
"""
import difflib
import json
import pathlib
import subprocess
import sys


def parse(path):
    """An edit's lines: (file, old, new), and its comment."""
    parts, comment, file, old = [], [], None, None
    for line in path.read_text().split("\n"):
        if line.startswith("file: "):
            file = line[6:]
        elif line.startswith("old: "):
            old = line[5:]
        elif line.startswith("new:"):
            parts.append((file, old, line[5:]))
        elif line and file is None:
            comment.append(line)
    return parts, comment


def make(landed, room):
    room.mkdir(parents=True)
    shown = {}

    def text_of(file):
        if file not in shown:
            shown[file] = subprocess.run(["git", "show", f"{landed}:{file}"], capture_output=True, text=True, check=True).stdout
        return shown[file]

    rounds = []  # each: {crates/NAME/FILE: [(first line, last line, new lines, edit)]}
    for path in subprocess.run(["git", "ls-tree", "-r", "--name-only", landed], capture_output=True, text=True, check=True).stdout.split("\n"):
        if not path.endswith(".edit"):
            continue
        crate = path.split("/")[1]
        tmp = room / "edit"
        tmp.write_text(text_of(path))
        texts = {}
        for file, old, new in parse(tmp)[0]:
            name = f"crates/{crate}/{file}"
            text = texts.get(name) or text_of(name)
            assert text.count(old) == 1, (path, old)
            texts[name] = text.replace(old, new)
        wants = {}
        for name, text in texts.items():
            a, b = text_of(name).split("\n"), text.split("\n")
            wants[name] = [(i1, i2, b[j1:j2], path) for i1, i2, j1, j2 in hunks(a, b)]
        for r in rounds:
            if all(i2 + 1 < k1 or k2 + 1 < i1 for name, hs in wants.items() for i1, i2, *_ in hs for k1, k2, *_ in r.get(name, [])):
                break
        else:
            r = {}
            rounds.append(r)
        for name, hs in wants.items():
            r.setdefault(name, []).extend(hs)
    (room / "rounds.json").write_text(json.dumps(rounds))
    for at, r in [("base", {})] + list(enumerate(rounds)):
        to = room / str(at)
        subprocess.run(["git", "clone", "-q", ".", str(to)], check=True)
        subprocess.run(["git", "checkout", "-q", landed], cwd=to, check=True)
        for name, edits in r.items():
            lines = text_of(name).split("\n")
            for i1, i2, new, _ in sorted(edits, reverse=True):
                lines[i1:i2] = new
            (to / name).write_text("\n".join(lines))
        subprocess.run(["git", "-c", "user.name=x", "-c", "user.email=x", "commit", "-qam", "edits"], cwd=to)
    print(len(rounds), "rounds")


def hunks(a, b):
    return [(i1, i2, j1, j2) for tag, i1, i2, j1, j2 in difflib.SequenceMatcher(None, a, b, autojunk=False).get_opcodes() if tag != "equal"]


def read(room):
    rounds = json.loads((room / "rounds.json").read_text())
    found, odd = {}, []
    for at, r in enumerate(rounds):
        for name, edits in r.items():
            a, b = (room / "base" / name), (room / str(at) / name)
            if not a.exists() or not b.exists():
                odd += [(e[3], "file moved " + name) for e in edits]
                continue
            a, b = a.read_text().split("\n"), b.read_text().split("\n")
            hs = hunks(a, b)
            edits = sorted(edits, key=lambda e: e[0])
            if len(hs) != len(edits):
                odd += [(e[3], f"{len(hs)} hunks for {len(edits)} edits in {name}") for e in edits]
                continue
            for (i1, i2, j1, j2), e in zip(hs, edits):
                found.setdefault(e[3], []).append((name.split("/", 2)[2], a[i1:i2], b[j1:j2]))
    odd_paths = {p for p, _ in odd}
    for path, parts in sorted(found.items()):
        if path in odd_paths:
            continue
        edit = pathlib.Path(path)
        out, file = parse(edit)[1], None
        for name, old, new in parts:
            if len(old) != len(new):
                odd.append((path, f"{len(old)} lines to {len(new)}: {old} {new}"))
                out = None
                break
            if name != file:
                out.append("file: " + name)
                file = name
            for o, n in zip(old, new):
                if o != n:
                    out += ["old: " + o, "new: " + n]
        if out:
            edit.write_text("\n".join(out) + "\n")
    for o in sorted(odd):
        print(*o)


if sys.argv[1] == "make":
    make(sys.argv[2], pathlib.Path(sys.argv[3]))
else:
    read(pathlib.Path(sys.argv[2]))
