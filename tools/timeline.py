#!/usr/bin/env python3
"""One self-contained page of a session: tasks, calls and gathers over its records, refusals, and what is missing at its end.

    timeline.py FILE [-o OUT.html] [--drive PATH] [--last N]

FILE is an event file: the text form of tools/records.py, or records as bytes (they begin with the mark C3 59). The lines and the objects'
states come from drive; where the file names another answer, the page says so. Without -o the page is FILE's name with .html, in the
present folder. docs/TIMELINE.md tells how to read it. Exit 1: a line of the text is no record. Exit 2: FILE, drive or OUT.html cannot be used.
"""
import argparse
import pathlib
import subprocess
import sys

from timeline import model, page, source

LARGE = """Large files: drive is asked for every object's state behind every record that can change one, at most 256 shows each (measured: a page
of 10,000 such records with 256 objects in 2.5 s and 72 MB). Ten or more equal records that change nothing are one column. Only the last N
columns are drawn and listed; those before them are one row of the table, and what they did is known. On paper there is no drawing of more
than 250 columns, only the table."""


def make(path, program, last):
    """The page of a file, as text."""
    found = source.read(path)
    lines = source.ask(program, [record.data for record in found])
    columns = source.columns(found, lines)
    known = model.Model(columns, source.states(program, found, columns))
    return page.page(known, pathlib.Path(path).name, last)


def main(arguments):
    parser = argparse.ArgumentParser(description=__doc__, epilog=LARGE, formatter_class=argparse.RawDescriptionHelpFormatter)
    parser.add_argument("file")
    parser.add_argument("-o", "--out", help="where the page goes")
    parser.add_argument("--drive", help="the program drive; without it one is built, by the kit or, where that is not there, by cargo (host/rust)")
    parser.add_argument("--last", type=int, default=2000, metavar="N", help="draw the last N columns (2000)")
    given = parser.parse_args(arguments)
    try:
        print(write(given))
    except OSError as error:
        parser.exit(2, f"timeline: {error.filename}: {error.strerror}\n")
    except subprocess.CalledProcessError as error:
        parser.exit(2, f"timeline: {error.cmd[0]} ended with {error.returncode}\n")


def named(program):
    """A program by its path or, if no file is there, by its name in PATH."""
    path = pathlib.Path(program)
    return path.resolve() if path.exists() else program


def write(given):
    """Makes the page that the arguments ask for; where it is. FILE is opened first: a drive is not built for one that is missing."""
    open(given.file, "rb").close()
    program, room = (named(given.drive), None) if given.drive else source.build()
    out = pathlib.Path(given.out or pathlib.Path(given.file).with_suffix(".html").name)
    out.write_text(make(given.file, program, max(1, given.last)), encoding="utf-8")
    return out


if __name__ == "__main__":
    sys.exit(main(sys.argv[1:]))
