#!/usr/bin/env python3
"""The text form of document 01's records, and back.

    records.py bytes FILE.txt > FILE.bin     the records of a text
    records.py text FILE.bin [LINES]         the text of records; with LINES, what drive wrote, each answer stands behind "=>"
    records.py replay DRIVE FILE.txt ..      runs each text through DRIVE and compares the answers that it names

One record a line; "#" starts a comment; what stands behind "=>" is the answer, and is no part of the record:

    coroutine F | call | pending C | pending C stored VALUE | settled VALUE | gather O ..
    await O | complete VALUE | fail N | resume | cancel T | show O | eager
    results C RESULT; C RESULT; ..    RESULT: return VALUE | error N | future | not-found | module-file | kind K tag T bits B
    raw HEX ..                        bytes as they stand
    repeat N RECORD                   the same record N times; the answer is the last one's

VALUE: plain N | list G.
"""
import pathlib
import subprocess
import sys

MARK = b"\xc3\x59"
KINDS = ["coroutine", "call", "pending", "settled", "gather", "await", "complete", "fail", "results", "resume", "cancel", "show", "eager"]
RESULTS = ["return", "error", "future", "not-found", "module-file"]
TAGS = ["plain", "list"]


def little(number, size):
    return int(number).to_bytes(size, "little")


def value(words):
    tag, number = words
    return little(TAGS.index(tag), 1) + little(number, 8)


def result(text):
    call, kind, *rest = text.split()
    if kind == "kind":
        kind, _, tag, _, bits = rest
        return little(call, 4) + little(kind, 1) + little(tag, 1) + little(bits, 8)
    body = value(rest) if kind == "return" else little(0, 1) + little(rest[0] if rest else 0, 8)
    return little(call, 4) + little(RESULTS.index(kind), 1) + body


def record(text):
    """One line of text as bytes."""
    word, _, rest = text.partition(" ")
    words = rest.split()
    if word == "raw":
        return bytes.fromhex(rest)
    head = MARK + little(KINDS.index(word) + 1, 1)
    if word in ("coroutine", "fail"):
        return head + little(words[0], 4)
    if word in ("call", "resume", "eager"):
        return head
    if word == "pending":
        stored = value(words[2:]) if len(words) > 1 else bytes(9)
        return head + little(words[0], 4) + little(len(words) > 1, 1) + stored
    if word in ("settled", "complete"):
        return head + value(words)
    if word == "gather":
        return head + little(len(words), 1) + b"".join(little(w, 2) for w in words)
    if word in ("await", "cancel", "show"):
        return head + little(words[0], 2)
    entries = [result(entry) for entry in rest.split(";") if entry.strip()]
    return head + little(len(entries), 1) + b"".join(entries)


def repeated(event):
    """How often a line's record stands there, and the record's text."""
    if not event.startswith("repeat "):
        return 1, event
    _, times, event = (event.split(None, 2) + [""])[:3]
    if not times.isdecimal() or int(times) == 0:
        raise ValueError(f"repeat needs a number from 1 on, not {times!r}")
    return int(times), event


def records(text, name="the text"):
    """(bytes, answer or None) for each record of a text."""
    for number, line in enumerate(text.splitlines(), 1):
        line = line.partition("#")[0].strip()
        if not line:
            continue
        event, _, answer = (part.strip() for part in line.partition("=>"))
        try:
            times, event = repeated(event)
            encoded = record(event)
        except (ValueError, IndexError, OverflowError) as error:
            sys.exit(f"{name}, line {number}: {line!r} is no record ({error})")
        for _ in range(times - 1):
            yield encoded, None
        yield encoded, answer or None


def one_text(data, at):
    """The text of the record at a place, and the place behind it. What is no record is raw."""
    start = at

    def take(size):
        nonlocal at
        if at + size > len(data):
            raise EOFError
        at += size
        return data[at - size:at]

    def number(size):
        return int.from_bytes(take(size), "little")

    def a_value():
        tag, bits = number(1), number(8)
        return f"{TAGS[tag]} {bits}"

    def a_result():
        call, kind, tag, bits = number(4), number(1), number(1), number(8)
        if kind == 0 and tag <= 1:
            return f"{call} return {TAGS[tag]} {bits}"
        if kind == 1 and tag == 0:
            return f"{call} error {bits}"
        if kind in (2, 3, 4) and tag == bits == 0:
            return f"{call} {RESULTS[kind]}"
        return f"{call} kind {kind} tag {tag} bits {bits}"

    try:
        if take(2) != MARK:
            raise ValueError
        kind = number(1)
        if not 1 <= kind <= len(KINDS):
            raise ValueError
        word = KINDS[kind - 1]
        if word in ("coroutine", "fail"):
            return f"{word} {number(4)}", at
        if word in ("call", "resume", "eager"):
            return word, at
        if word == "pending":
            call, flag = number(4), number(1)
            if flag > 1:
                raise ValueError
            if flag == 0 and take(9) == bytes(9):
                return f"pending {call}", at
            if flag == 0:
                raise ValueError
            return f"pending {call} stored {a_value()}", at
        if word in ("settled", "complete"):
            return f"{word} {a_value()}", at
        if word == "gather":
            return " ".join(["gather"] + [str(number(2)) for _ in range(number(1))]), at
        if word in ("await", "cancel", "show"):
            return f"{word} {number(2)}", at
        entries = "; ".join(a_result() for _ in range(number(1)))
        return f"results {entries}".rstrip(), at
    except EOFError:
        at = len(data)
    except (ValueError, IndexError):
        pass
    return f"raw {data[start:at].hex(' ')}", at


def text_of(data, lines):
    """Text of records, with the answers behind it."""
    at, out = 0, []
    while at < len(data):
        line, at = one_text(data, at)
        if len(out) < len(lines):
            line = f"{line:<40} => {lines[len(out)].partition(' ')[2]}"
        out.append(line)
    return "".join(line + "\n" for line in out)


def replay(program, path):
    """What of a text's answers the program does not give."""
    told = list(records(pathlib.Path(path).read_text(), path))
    run = subprocess.run([program], input=b"".join(r for r, _ in told), capture_output=True)
    lines = run.stdout.decode().splitlines()
    faults = [f"it ended with {run.returncode}: {run.stderr.decode().strip()}"] if run.returncode or run.stderr else []
    wanted = len(told)
    for number, (_, answer) in enumerate(told, 1):
        got = lines[number - 1] if number <= len(lines) else "no line"
        if answer is not None and got != f"{number} {answer}":
            faults.append(f"record {number}: {answer!r} is wanted, it wrote {got!r}")
        if answer == "refused 11":
            wanted = number
            break
    if len(lines) != wanted:
        faults.append(f"{len(lines)} lines for {wanted} records")
    return faults, wanted


def main(words):
    if words[:1] == ["bytes"] and len(words) == 2:
        text = pathlib.Path(words[1]).read_text()
        sys.stdout.buffer.write(b"".join(r for r, _ in records(text, words[1])))
    elif words[:1] == ["text"] and len(words) in (2, 3):
        lines = pathlib.Path(words[2]).read_text().splitlines() if len(words) == 3 else []
        sys.stdout.write(text_of(pathlib.Path(words[1]).read_bytes(), lines))
    elif words[:1] == ["replay"] and len(words) > 2:
        bad, total = 0, 0
        for path in words[2:]:
            faults, count = replay(words[1], path)
            bad += bool(faults)
            total += count
            for fault in faults:
                print(f"{path}: {fault}")
        print(f"{len(words) - 2} texts, {total} records: {len(words) - 2 - bad} as they say")
        return bad > 0
    else:
        sys.exit(__doc__)
    return False


if __name__ == "__main__":
    sys.exit(main(sys.argv[1:]))
