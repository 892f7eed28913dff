"""respell_pages.py: run once behind respell.py: the names and paths in README.md and docs/ that port.py and the port's moves changed. A name in backticks
that today's crates do not have, and that is one of theirs but for dashes and underscores, is written as theirs; so are paths of the laws that moved to proofs/."""
import collections
import pathlib
import re

ROOT = pathlib.Path(__file__).resolve().parent.parent
WORD = re.compile(r"(?<![\w'-])[A-Za-z][\w']*(?:-[\w']+)+(?![\w'-])")
MOVED = {
    "queue": "QueueLaws RemovalLaws OrderLaws",
    "machine": "CancelCountsTest CasesHold DemandThreeCases DemandThreeTest DemandTwoCases HonestTest SoundCases",
    "machine_widths": "CallCount Carried LastNumber ReadingLaws RowsInUse Sessions WidthCases WidthLaws",
    "boundary_laws": "HostIsSession SoundMemoryKept", "boundary_lent": "BoundaryLaws", "boundary_numbers": "NumbersLaws",
    "records_laws": "LaidRows RecordsAreSession UnusedRows", "records_session": "RecordsLaws",
    "records_tasks": "TaskRecordLaws TaskRowsLaws UnfitLaws", "records_words": "OnWordsLaws",
}


def main():
    names = collections.defaultdict(set)
    for path in ROOT.glob("crates/*/**/*"):
        if path.suffix in (".antt", ".rt") and "out" not in path.parts:
            for found in re.finditer(r"[A-Za-z][\w']*(?:-[\w']+)*", path.read_text()):
                names[found.group().replace("_", "-")].add(found.group())

    def today(found):
        name = found.group()
        ways = names.get(name, set())
        return next(iter(ways)) if name not in ways and len(ways) == 1 else name

    for path in [ROOT / "README.md", *sorted((ROOT / "docs").rglob("*.md"))]:
        if path.name.startswith("PORT"):
            continue
        text = re.sub(r"`[^`\n]+`", lambda span: WORD.sub(today, span.group()), path.read_text())
        for crate, files in MOVED.items():
            for file in files.split():
                text = re.sub(rf"\b{crate}/specs/{file}\b", f"{crate}/proofs/{file}", text)
        if text != path.read_text():
            path.write_text(text)


main()
