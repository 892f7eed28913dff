#!/usr/bin/env python3
"""Writes stored event files as the crate's tests read them: pairs.py FOLDER FILE.txt .. makes NAME.bin, the records, and NAME.txt, the line that
each must get, without its number; ? where the file names none. (host/rust/tests/common; a folder's name stands before the name of a file of cases/rust.)"""
import pathlib
import sys

sys.dont_write_bytecode = True
sys.path.insert(0, str(pathlib.Path(__file__).resolve().parent.parent / "tools"))
import records


def lines(told):
    """the answers, to the first refusal 11, behind which nothing is read"""
    for _, answer in told:
        yield answer or "?"
        if answer == "refused 11":
            return


def main(folder, *paths):
    for path in map(pathlib.Path, paths):
        told = list(records.records(path.read_text(), path))
        name = f"rust-{path.stem}" if path.parent.name == "rust" else path.stem
        pair = pathlib.Path(folder) / name
        pair.with_suffix(".bin").write_bytes(b"".join(record for record, _ in told))
        pair.with_suffix(".txt").write_text("".join(line + "\n" for line in lines(told)))


if __name__ == "__main__":
    main(*sys.argv[1:])
