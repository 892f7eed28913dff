"""The drawing: rows of bars and marks over columns, as SVG. A record is a point at its column's middle; states lie between two of them."""
import dataclasses
import html

from . import model, words

SYMBOLS = {
    "start": '<path class="ink" d="M-4-6 6 0-4 6z"/>',
    "inline": '<path class="halo" d="M-4-5v5h8M1-3l3 3-3 3"/><path class="line" d="M-4-5v5h8M1-3l3 3-3 3"/>',
    "completed": '<circle class="ink" r="5.5"/>',
    "failed": '<circle class="back" r="6.5"/><path class="line bad" d="M-4-4 4 4M4-4-4 4"/>',
    "died": '<circle class="back" r="6.5"/><path class="line bad" d="M-4-4 4 4M4-4-4 4"/>',
    "cancelled": '<circle class="back line" r="5.5"/><path class="line" d="M-4 4 4-4"/>',
    "removed": '<path class="line" d="M0-6V6"/>',
    "made": '<circle class="back line" r="4"/>',
    "reply": '<path class="ink" d="M0-7 7 0 0 7-7 0z"/>',
    "late-reply": '<path class="ink" d="M0-7 7 0 0 7-7 0z"/><path class="line" d="M-10-9v18"/>',
    "error": '<path class="back line" d="M0-7 7 0 0 7-7 0z"/><path class="line bad" d="M-2.5-2.5l5 5m0-5l-5 5"/>',
    "late-error": '<path class="back line" d="M0-7 7 0 0 7-7 0z"/><path class="line bad" d="M-2.5-2.5l5 5m0-5l-5 5"/><path class="line" d="M-10-9v18"/>',
    "twice": '<path class="back line" d="M0-7 7 0 0 7-7 0z"/><path class="line" d="M-3-1.8h6M-3 1.8h6"/>',
    "unknown": '<path class="back line" d="M0-7 7 0 0 7-7 0z"/><path class="line round" d="M-1.9-1.5a1.9 1.9 0 1 1 2.6 1.8q-.7.3-.7 1.1M0 3.5v.1"/>',
    "future": '<circle class="back" r="6"/><circle class="ink" cx="-4" r="1.5"/><circle class="ink" r="1.5"/><circle class="ink" cx="4" r="1.5"/>',
    "filled": '<path class="ink" d="M-4-4h8v8h-8z"/>',
    "refused": '<path class="refused" d="M-3.5-8.5h7l5 5v7l-5 5h-7l-5-5v-7z"/>',
    "missing": '<path class="line bad" d="M-5-6h10L-5 6h10z"/>',
}
SPOKEN = ("completed", "failed", "died", "cancelled", "reply", "late-reply", "error", "late-error", "twice", "unknown", "filled")
END = 118


@dataclasses.dataclass
class Row:
    """One row: its label, bars (from, to or None, kind, text) and marks (column, shape, text). A head starts a section."""

    label: str
    height: int = 24
    bars: list = dataclasses.field(default_factory=list)
    marks: list = dataclasses.field(default_factory=list)
    kind: str = ""
    note: str = ""
    ends: str = ""

    def within(self, first, last):
        """Has the row something to show between two columns?"""
        bars = any(start <= last and (end is None or end >= first) for start, end, _, _ in self.bars)
        return bars or any(first <= at <= last for at, _, _ in self.marks)


# ---- the rows

def bars(lane, shown):
    """A lane's states as bars; `shown` gives the kind of bar of each state that has one."""
    ends = [start for start, _, _ in lane.states[1:]] + [None]
    return [(start, end, shown[state], text) for (start, state, text), end in zip(lane.states, ends) if state in shown and start != end]


def session_rows(known):
    moments = Row("session", bars=bars(known.moments, {"running": "running", "waiting": "waiting", "ended": "ended"}))
    refused = [(at, "refused", str(number)) for at, number in known.refusals]
    return [moments] + ([Row("refused", marks=refused, kind="refusals")] if refused else [])


def task_rows(known):
    shown = {"running": "running", "blocked": "waiting", "ready": "ready"}
    for task in known.tasks.values():
        made = [(start, end, kind, f"on {text}" if kind == "waiting" else text) for start, end, kind, text in bars(task, shown)]
        note = known.notes.get(task.coroutine, "") if task.coroutine is not None else ""
        of = f" · coroutine {task.coroutine}" if task.coroutine is not None else ""
        yield Row(words.task_name(task.number) + ("" if note else of), 26, made, told(task.marks), note=note)


def told(marks):
    """Marks with the words that stand beside them."""
    fixed = {"died": "died: coroutine-reuse", "cancelled": "cancelled", "twice": "ignored: answered before", "unknown": "ignored"}
    return [(at, shape, fixed.get(shape, ("late: " if shape.startswith("late") else "") + words.value(text))) for at, shape, text in marks]


def call_rows(known):
    shown = {"handed": "thin", "pending": "waiting"}
    for call in sorted(known.calls.values(), key=lambda call: call.number):
        if call.object is None and not call.marks:
            continue
        label = f"call {call.number}" + (" (never made)" if call.number >= known.handed else "")
        row = Row(label, 24, bars(call, shown), told(call.marks), note=known.notes.get(call.object, ""))
        if call.state == "pending":
            row.ends = "no reply at the end" if known.finish else "no reply yet"
        yield row


def gather_rows(known):
    shown = {"pending": "idle", "awaited": "waiting"}
    for number, lane in known.gathers.items():
        marks = [(at, shape, words.value(text)) for at, shape, text in lane.marks if shape in ("completed", "failed")]
        marks = [(at, shape, text or "completed") for at, shape, text in marks]
        yield Row(f"gather {number}", 24, bars(lane, shown), marks, note=known.notes.get(number, ""), kind="gather")
        for place, item in enumerate(known.objects[number][1]):
            yield place_row(known, lane, place, item)


def place_row(known, lane, place, item):
    """One place of a gather: open from the commit on, then filled; nothing is told of it once the gather has failed."""
    filled = next(((at, text) for at, shape, text in lane.marks if shape == f"place {place}"), None)
    opened = next((at for at, state, _ in lane.states if state == "awaited"), None)
    failed = next((at for at, state, _ in lane.states if state == "failed"), None)
    row = Row(f"place {place} · {known.name(item).partition(' (')[0]}", 19, kind="place", note=known.notes.get(item, ""))
    if opened is not None and (filled is None or filled[0] > opened):
        row.bars.append((opened, filled[0] if filled else failed, "open", ""))
    if filled:
        row.bars.append((filled[0], failed, "filled", ""))
        row.marks.append((filled[0], "filled", words.value(filled[1])))
    return row


def sections(known):
    """All rows, in their sections."""
    found = [("Session", session_rows(known)), ("Tasks", list(task_rows(known))), ("External calls", list(call_rows(known))),
             ("Gathers, places", list(gather_rows(known)))]
    return [(name, rows) for name, rows in found if rows]


# ---- the drawing

class Canvas:
    """SVG text for columns `first` to `last`, each `width` wide."""

    def __init__(self, columns, first, last, width):
        self.columns, self.first, self.last, self.width = columns, first, last, width
        self.out = []
        self.edge = (last - first + 1) * width
        self.y = 0

    def x(self, column):
        return round((column - self.first + 0.5) * self.width, 1)

    def text(self, x, y, text, kind=""):
        self.out.append(f'<text class="{kind}" x="{x}" y="{y}">{html.escape(text)}</text>')

    def head(self):
        """A section's head: the records' numbers, where there is room for them."""
        step, free = 1 if self.width >= 21 else 5, -99
        for at in range(self.first, self.last + 1):
            number = self.columns[at].first
            half = len(str(number)) * 3.3
            if (step == 1 or number % step == 0 or at == self.first) and self.x(at) - half > free:
                free = self.x(at) + half + 4
                self.out.append(f'<text class="tick" x="{self.x(at)}" y="{self.y + 24}" text-anchor="middle">{number}</text>')
        self.y += 32

    def row(self, row):
        """One row's bars, then its marks."""
        middle = self.y + row.height / 2
        for start, end, kind, text in row.bars:
            if start <= self.last and (end is None or end > self.first):
                self.bar(start, end, kind, text, middle, 9 if row.kind == "place" else 14)
        marks = [mark for mark in row.marks if self.first <= mark[0] <= self.last]
        for mark, after in zip(marks, marks[1:] + [None]):
            self.mark(mark, after, middle, row)
        if row.ends and row.within(self.last, self.last):
            self.out.append(f'<use href="#m-missing" x="{self.edge + 12}" y="{middle}"/>')
            self.text(self.edge + 22, middle + 4, row.ends, "strong")
        self.y += row.height

    def bar(self, start, end, kind, text, middle, height):
        left = self.x(start) if start >= self.first else 0
        right = self.x(end) if end is not None and end <= self.last else self.edge
        if kind == "thin":
            self.out.append(f'<path class="thin" d="M{left} {middle}H{right}"/>')
            return
        self.out.append(f'<rect class="bar {kind}" x="{left}" y="{middle - height / 2}" width="{round(right - left, 1)}" height="{height}" rx="2"/>')
        if text and len(text) * 6.3 + 16 <= right - left:
            self.text(left + 9, middle + 4, text, "on-" + kind)

    def mark(self, mark, after, middle, row):
        """A mark, with its words where there is room before the next one."""
        at, shape, text = mark
        x = self.x(at)
        self.out.append(f'<use href="#m-{shape}" x="{x}" y="{middle}"/>')
        if shape == "refused":
            self.out.append(f'<text class="number" x="{x}" y="{middle + 3.8}" text-anchor="middle">{text}</text>')
            return
        later = [self.x(start) for start, _, kind, _ in row.bars if start > at and kind != "filled"] + ([self.x(after[0])] if after else [])
        room = min(later, default=self.edge + END - 10) - x - 18
        short = text if len(text) * 6.3 <= room else text.split(":")[0]
        if shape in SPOKEN and short and len(short) * 6.3 <= room:
            self.text(x + 11, middle + 4, short, "on-filled" if shape == "filled" else "beside")

    def grid(self, top):
        """Lines at the records, and a band behind each refused one."""
        lines = "".join(f"M{self.x(at)} {top}V{self.y}" for at in range(self.first, self.last + 1))
        bands = "".join(f'<rect class="band" x="{self.x(at) - self.width / 2}" y="{top}" width="{self.width}" height="{self.y - top}"/>'
                        for at in range(self.first, self.last + 1) if self.columns[at].refused is not None)
        return f'<path class="grid" d="{lines}"/>{bands}'


def draw(columns, parts, first, last, width, over=""):
    """The labels (HTML) and the drawing (SVG) of some sections; `over` gives the SVG's attributes and what lies on top of it."""
    canvas, labels = Canvas(columns, first, last, width), []
    lines = []
    for name, rows in parts:
        labels.append(f'<div class="head">{html.escape(name)}</div>')
        canvas.head()
        for row in rows:
            full = f"{row.label}: {row.note}" if row.note else row.label
            note = f' <span class="of">{html.escape(row.note)}</span>' if row.note else ""
            ends = f' <b class="none">{row.ends}</b>' if row.ends else ""
            labels.append(f'<div class="label {row.kind}" style="height:{row.height}px" title="{html.escape(full)}">'
                          f'{html.escape(row.label)}{ends}{note}</div>')
            lines.append(f"M0 {canvas.y}H{canvas.edge}")
            canvas.row(row)
    height, wide = canvas.y + 8, canvas.edge + END
    drawing = f'<g aria-hidden="true">{canvas.grid(20)}<path class="rule" d="{"".join(lines)}"/>{"".join(canvas.out)}</g>'
    attributes, focus = (over[0], over[1](canvas)) if over else ("", "")
    return "".join(labels), f'<svg width="{wide}" height="{height}" viewBox="0 0 {wide} {height}" {attributes}>{drawing}{focus}</svg>'


def symbols():
    """The patterns and symbols that all drawings use."""
    hatch = '<pattern id="p-{0}" width="{1}" height="{1}" patternUnits="userSpaceOnUse"{2}><rect class="p-back {0}" width="{1}" height="{1}"/>{3}</pattern>'
    turned = ' patternTransform="rotate(45)"'
    patterns = [hatch.format("waiting", 6, turned, '<path class="p-line" d="M0 0V6"/>'), hatch.format("open", 4, turned, '<path class="p-line" d="M0 0V4"/>'),
                hatch.format("ready", 5, "", '<circle class="p-dot" cx="2.5" cy="2.5" r="1"/>'),
                hatch.format("refused", 5, turned, '<path class="p-line" d="M0 0V5M0 0H5"/>')]
    marks = [f'<g id="m-{name}">{shape}</g>' for name, shape in SYMBOLS.items()]
    return f'<svg class="defs" width="0" height="0" aria-hidden="true" focusable="false"><defs>{"".join(patterns + marks)}</defs></svg>'


def sample(kind, shape=None):
    """A small picture for the legend: a bar, or a mark."""
    if shape:
        number = '<text class="number" x="17" y="13.8" text-anchor="middle">5</text>' if shape == "refused" else ""
        body = f'<use href="#m-{shape}" x="17" y="10"/>{number}'
    else:
        body = f'<rect class="bar {kind}" x="1" y="3" width="32" height="14" rx="2"/>'
    return f'<svg width="34" height="20" aria-hidden="true">{body}</svg>'
