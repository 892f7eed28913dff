"""Stored event files through the Python side: replay.py FOLDER takes the pairs that host/pairs.py makes, and says which line differs."""
import pathlib
import struct
import sys

import sozgarru


def value(data, at):
    """A tag and 8 bytes. No gather has a number above 65,535: one that is named so is refused as 65,535 is."""
    tag, number = struct.unpack_from("<BQ", data, at)
    if tag > 1:
        raise ValueError("a tag above 1")
    return sozgarru.List(min(number, 65_535)) if tag else number


def stored(data, at):
    flag = data[at]
    if flag > 1:
        raise ValueError("a flag above 1")
    return value(data, at + 1) if flag else None


def record(session, data, at):
    """The record at a place as a call of the session, and its length. ValueError: it is no record."""
    number = lambda size: int.from_bytes(data[at + 3:at + 3 + size], "little")
    if data[at:at + 2] != b"\xc3\x59" or len(data) < at + 3:
        raise ValueError("no mark")
    kind = data[at + 2]
    count = data[at + 3] if kind in (5, 9) and len(data) > at + 3 else 0
    sizes = {1: 7, 2: 3, 3: 17, 4: 12, 5: 4 + 2 * count, 6: 5, 7: 12, 8: 7, 9: 4 + 14 * count, 10: 3, 11: 5, 12: 5, 13: 3}
    if kind not in sizes or len(data) < at + sizes[kind]:
        raise ValueError("no such kind, or short")
    body = data[at + 4:at + sizes[kind]]
    calls = {
        1: lambda: f"made {session.coroutine(number(4))}",
        2: lambda: f"call {session.call()}",
        3: lambda: f"made {session.pending(number(4), stored(data, at + 7))}",
        4: lambda: f"made {session.settled(value(data, at + 3))}",
        5: lambda: f"made {session.gather(*struct.unpack(f'<{count}H', body))}",
        6: lambda: session.await_object(number(2)),
        7: lambda: session.complete(value(data, at + 3)),
        8: lambda: session.fail(number(4)),
        9: lambda: session.result_bytes(body) or "done",
        10: session.resume,
        11: lambda: f"done {session.cancel(number(2))}",
        12: lambda: session.show(number(2)),
        13: lambda: f"eager {'yes' if session.eager() else 'no'}",
    }
    return calls[kind], sizes[kind]


def lines(data):
    """Document 01's lines of a file of records, without their numbers."""
    session, at = sozgarru.Session(), 0
    while at < len(data):
        try:
            event, size = record(session, data, at)
            line = str(event())
        except sozgarru.Refused as refused:
            line = f"refused {refused.number}"
        except ValueError:
            yield "refused 11"
            return
        yield line
        at += size


def main(folder):
    files, count = 0, 0
    for path in sorted(pathlib.Path(folder).glob("*.bin")):
        wanted = path.with_suffix(".txt").read_text().splitlines()
        got = list(lines(path.read_bytes()))
        if len(got) != len(wanted):
            sys.exit(f"{path.name}: {len(got)} lines for {len(wanted)} records")
        for number, (line, answer) in enumerate(zip(got, wanted), 1):
            if answer not in ("?", line):
                sys.exit(f"{path.name}, record {number}: {answer!r} is wanted, it gave {line!r}")
        files, count = files + 1, count + len(got)
    print(f"{files} files, {count} records: as they say")


if __name__ == "__main__":
    main(*sys.argv[1:])
