"""The page: heading, what is missing, legend, drawing, details, table."""
import html
import pathlib

from . import chart, words

HERE = pathlib.Path(__file__).resolve().parent
LEGEND = [
    ("running", None, "runs"), ("ready", None, "ready: spawned or woken"), ("waiting", None, "waits: blocked, pending, awaited"),
    ("idle", None, "a gather not awaited yet"), ("open", None, "an open place"), ("filled", None, "a place with its value"),
    (None, "start", "a task starts"), (None, "inline", "goes on inside a coroutine"), (None, "completed", "completed"),
    (None, "failed", "failed, or died at its first run"), (None, "cancelled", "cancelled"), (None, "removed", "removed at the session's end"),
    (None, "made", "a call becomes pending"), (None, "reply", "its reply"), (None, "late-reply", "a late reply (a resume came before it)"),
    (None, "error", "a reply that is an error"), (None, "twice", "a reply to an answered call: ignored"),
    (None, "unknown", "a reply to no pending call: ignored"), (None, "future", "“still to come”: nothing changes"), (None, "missing", "no reply yet"),
    (None, "filled", "a place gets its value"), (None, "refused", "a refused record, its number"),
]
KEPT_BANDS = 5
BAND = 50


def esc(text):
    return html.escape(str(text))


def column_words(known, at):
    """What the record of a column means, in sentences."""
    column = known.columns[at]
    if column.line is None:
        return [words.line_words(None)]
    said = words.capital(words.event_words(column.event, known.actors[at], known.name)) + ". " + words.line_words(column.line) + words.unread(column)
    if column.last > column.first:
        said = f"The same record {column.last - column.first + 1:,} times; the last answer is “{column.end}”. " + said
    return [said] + [words.capital(text) + "." for text in known.said[at]]


def differs(column):
    """The file names another answer than drive gives."""
    return column.stored is not None and column.end is not None and column.stored != column.end


def columns_over(known, first):
    """The part of the drawing that has focus and answers the pointer: an option for each record."""
    def options(canvas):
        out = []
        for at in range(canvas.first, canvas.last + 1):
            column = known.columns[at]
            name = f"record {column.numbers}: {column.text}; line: {column.line or 'none'}"
            out.append(f'<g id="c{column.first}" class="col" role="option" tabindex="{0 if at == first else -1}" aria-selected="false" '
                       f'aria-label="{esc(name)}" data-row="r{column.first}">'
                       f'<title>{esc(column.numbers)} {esc(column.text)} ⇒ {esc(column.line or "no line")}</title>'
                       f'<rect x="{round((at - canvas.first) * canvas.width, 1)}" y="0" width="{canvas.width}" height="{canvas.y + 8}"/></g>')
        return f'<g role="listbox" aria-label="Records, in order; arrow keys move" aria-orientation="horizontal">{"".join(out)}</g>'
    return ('role="group" aria-labelledby="chart-title"', options)


def missing_box(known, skipped):
    """The box on top; it links to records that are drawn."""
    head, text, calls = words.ending(known)
    kind = "cut" if known.running is not None else "hung"
    if known.finish:
        kind = "hung" if known.finish[1].startswith("error") else "cut" if words.stopped(known) else "well"
    items = []
    for number, note, asked, steps in calls:
        more = [f"and {len(steps) - 12} more steps up to main"] if len(steps) > 12 else []
        chain = "".join(f"<li>{esc(step)}</li>" for step in steps[:12] + more)
        of = f" <q>{esc(note)}</q>" if note else ""
        there = f'<a href="#c{asked}">record {asked}</a>' if asked >= known.columns[skipped].first else f"record {asked}"
        items.append(f'<li class="call" data-call="{number}"><strong>call {number}</strong>{of}, asked for at {there}<ol>{chain}</ol></li>')
    listed = f'<ul class="calls">{"".join(items)}</ul>' if items else ""
    return (f'<section class="missing {kind}" aria-labelledby="missing-title"><h2 id="missing-title">What is missing</h2>'
            f'<p class="what">{esc(head)}</p><p>{esc(text)}</p>{listed}</section>')


def notes(known, skipped):
    """What the reader has to know of this page: records not drawn, answers that differ, doubts."""
    found = []
    if skipped:
        found.append(f"Records 1 to {known.columns[skipped - 1].last} are not drawn (--last draws more); what they did is known all the same.")
    wrong = [column.numbers for column in known.columns if differs(column)]
    if wrong:
        found.append(f"The file names other answers than drive gives, at {words.amount(len(wrong), 'record')}: {words.series(wrong[:20])}. The page shows drive's.")
    for at, text in known.doubts[:5]:
        found.append(f"From record {known.columns[at].first} on the lanes of tasks may be wrong: {text}.")
    silent = known.handed - len([call for call in known.calls.values() if call.object is not None and call.number < known.handed])
    if silent:
        found.append(f"{words.capital(words.amount(silent, 'call number'))} handed out and never made pending: no lane, unless a reply names it.")
    return "".join(f'<p class="note">{esc(text)}</p>' for text in found)


def table(known, skipped):
    """All records and lines, the accessible alternative of the drawing."""
    rows, noted = [], any(column.note for column in known.columns[skipped:])
    if skipped:
        last = known.columns[skipped - 1].last
        refused = len([1 for at, _ in known.refusals if at < skipped])
        rows.append(f'<tr data-first="1" data-last="{last}"><th scope="row">1–{last}</th>'
                    f'<td colspan="{3 + noted}">not drawn; {words.amount(refused, "refusal")} among them</td></tr>')
    for at in range(skipped, len(known.columns)):
        column = known.columns[at]
        said = column_words(known, at)
        more = "".join(f"<li>{esc(text)}</li>" for text in said[1:])
        refused = ' class="is-refused"' if column.refused is not None else ""
        badge = f'<b class="badge">refused {column.refused}</b>' if column.refused is not None else f"<code>{esc(column.line or '')}</code>"
        wrong = f'<br>the file says: <code>{esc(column.stored)}</code>' if differs(column) else ""
        rows.append(f'<tr id="r{column.first}" data-first="{column.first}" data-last="{column.last}"{refused}>'
                    f'<th scope="row"><a href="#c{column.first}">{column.numbers}</a></th>'
                    f'<td><code>{esc(column.text)}</code></td><td>{badge}{wrong}</td>'
                    f'<td><p>{esc(said[0])}</p>{f"<ul>{more}</ul>" if more else ""}</td>{f"<td>{esc(column.note)}</td>" if noted else ""}</tr>')
    return ('<table><caption>Every record, its line and what it means</caption><thead><tr><th scope="col">no.</th><th scope="col">record</th>'
            '<th scope="col">line</th><th scope="col">in plain words</th>' + ('<th scope="col">the file’s note</th>' if noted else "") + '</tr></thead>'
            f'<tbody>{"".join(rows)}</tbody></table>')


def print_bands(known, parts, skipped):
    """The drawing cut into bands for paper: only rows that have something there."""
    total, out = len(known.columns), []
    if total - skipped > BAND * KEPT_BANDS:
        return '<p class="print">The drawing is too long for paper; the table has every record.</p>'
    for first in range(skipped, total, BAND):
        last = min(first + BAND, total) - 1
        for name, rows in parts:
            here = [row for row in rows if row.within(first, last)]
            if here:
                labels, drawing = chart.draw(known.columns, [(name, here)], first, last, 15)
                out.append(f'<div class="chart print" aria-hidden="true"><div class="labels">{labels}</div><div class="box">{drawing}</div></div>')
    return "".join(out)


def legend():
    shown = "".join(f"<li>{chart.sample(kind, shape)}<span>{esc(text)}</span></li>" for kind, shape, text in LEGEND)
    return f'<details class="legend" open><summary>Legend</summary><ul>{shown}</ul></details>'


def summary(known):
    """The line below the heading."""
    shown = [words.amount(known.columns[-1].last if known.columns else 0, "record"), words.amount(len(known.tasks), "task"),
             words.amount(len([1 for kind, _ in known.objects.values() if kind == "call"]), "external call"),
             words.amount(len(known.gathers), "gather"), words.amount(len(known.refusals), "refusal")]
    return " · ".join(shown)


def drawing(known, parts, skipped):
    """The drawing for the screen, and the panel of the record that is looked at."""
    count = len(known.columns) - skipped
    width = max(16, min(34, 890 // max(count, 1)))
    labels, svg = chart.draw(known.columns, parts, skipped, len(known.columns) - 1, width, columns_over(known, skipped))
    return (f'<div class="chart screen"><div class="labels" aria-hidden="true">{labels}</div><div class="box" id="box">{svg}</div></div>'
            '<section class="panel" id="panel" aria-live="polite" aria-label="The record that is looked at">'
            '<p class="hint">Point at a record, or press Tab and '
            'then the arrow keys (Home, End and Page keys too), to read it here.</p></section>')


def page(known, name, last):
    """The whole page as text."""
    skipped = max(0, len(known.columns) - last)
    parts = chart.sections(known)
    drawn = drawing(known, parts, skipped) + print_bands(known, parts, skipped) if known.columns else "<p>There is no record in this file.</p>"
    body = (f'<header><h1>{esc(name)}</h1><p class="sum">{summary(known)}</p></header><main>{missing_box(known, skipped)}{notes(known, skipped)}'
            f'<section class="time" aria-labelledby="chart-title"><h2 id="chart-title">Timeline</h2>{legend()}{drawn}</section>'
            f'<section aria-labelledby="table-title"><h2 id="table-title">Records and lines</h2>'
            f'<div class="wide" tabindex="0" role="region" aria-label="Table of records">{table(known, skipped)}</div></section></main>'
            f'<footer>Made by tools/timeline.py from the event file and drive’s lines.</footer>')
    style, script = (HERE / "page.css").read_text(), (HERE / "page.js").read_text()
    return (f'<!doctype html>\n<html lang="en"><head><meta charset="utf-8"><meta name="viewport" content="width=device-width, initial-scale=1">'
            f"<title>Timeline of {esc(name)}</title><style>\n{style}</style></head>\n<body>{chart.symbols()}{body}<script>\n{script}</script></body></html>\n")
