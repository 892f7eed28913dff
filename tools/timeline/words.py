"""Plain words: what a record says, what its line means, and what is missing at the end."""
from . import model
from .model import plain as value

REFUSALS = {
    1: "a slice has a wrong length",
    2: "the store is not sound",
    3: "the session has ended",
    4: "the record does not belong to this moment",
    5: "an object that is not made, a task that is not live, a call number not handed out, or a list of a gather that is not completed",
    6: "the call is pending already",
    7: "a 257th object, over 32 items, or over 512 item places in all",
    8: "all call numbers, 0 to 4,294,967,294, are handed out",
    9: "main cannot be cancelled",
    10: "over 64 results, a result kind above 4, a tag above 1, or an error number of 2^32 or more; none of the batch is applied",
    11: "what stands there is no record; drive stops here",
}


def amount(number, word):
    """`1 call`, `2 calls`."""
    return f"{number:,} {word}{'' if number == 1 else 's'}"


def series(items):
    """`1`, `1 and 2`, `1, 2 and 3`."""
    items = [str(item) for item in items]
    return " and ".join([", ".join(items[:-1]), items[-1]] if len(items) > 1 else items)


def task_name(number):
    return "main" if int(number) == 0 else f"task {number}"


def capital(text):
    return text[:1].upper() + text[1:]


def result(call, kind, what):
    """One reply of a batch."""
    said = {"return": "returns " + value(" ".join(what)), "error": "fails with host error " + (what[0] if what else "0"),
            "future": "is still to come", "not-found": "fails with not-found", "module-file": "fails with module-file"}
    return f"call {call} {said[kind]}"


def event_words(event, who, name):
    """What a record says. `who` is the task that runs, `name` gives an object's name."""
    word, *rest = event.split()
    if word == "results":
        try:
            return "The host brings " + ("no reply" if not rest else "; ".join(result(*reply) for reply in model.replies(event)))
        except (IndexError, KeyError):
            return "The host brings replies that are not well formed"
    if word == "pending":
        stored = f"; {value(' '.join(rest[2:]))} is stored and will stand in the reply's place" if len(rest) > 1 else ""
        return f"{who} makes call {rest[0]} something to wait for{stored}"
    if word == "gather":
        return f"{who} gathers " + (series(name(int(item)) for item in rest) if rest else "nothing")
    said = {"coroutine": "{0} makes a coroutine of function {1}", "call": "{0} asks for a call number", "settled": "{0} makes a call that has its value at once, {2}",
            "await": "{0} awaits {3}", "complete": "{0} ends with {2}", "fail": "{0} fails with script error {1}", "resume": "The host asks to go on",
            "cancel": "The host cancels {4}", "show": "The host looks at {3}", "eager": "The host asks whether a call could be answered at once",
            "raw": "Bytes that are no record"}[word]
    first = rest[0] if rest else ""
    number = int(first) if first.isdigit() and word != "raw" else 0
    return said.format(who, first, value(" ".join(rest)), name(number), task_name(number))


def line_words(line):
    """What a line means."""
    if line is None:
        return "No line: drive had stopped before."
    words = line.split()
    steps = ""
    if "steps" in words:
        count = int(words[-1])
        words = words[:-2]
        steps = f" The gather was opened in {amount(count, 'commit step')}." if count else ""
    return control_words(words) + steps


def shown(state):
    """An object's state as drive shows it, in words."""
    sort, word, *rest = state.split()
    said = {"coroutine": f"coroutine of function {rest[0] if rest else ''}: {word}", "external": f"call: {word} {value(' '.join(rest))}".strip()}
    if sort in said:
        return said[sort]
    held = series(value(place) for place in model.places(state))
    return f"gather: {word}" + (f" with {' '.join(rest)}" if word == "failed" else f"; its places: {held}" if held else "")


def control_words(words):
    """The answer without its steps."""
    word, rest = words[0], words[1:]
    if word == "runs":
        how = {"start": "{0} starts: function {2}, for coroutine {1}.", "value": "{0} goes on with {3}.", "raised": "{0} goes on with the error {4}.",
               "inline": "{0} goes on inside coroutine {1}."}[rest[1]]
        pair = (rest[2:] + ["", ""])[:2]
        return capital(how.format(task_name(rest[0]), *pair, value(" ".join(rest[2:])), " ".join(rest[2:])))
    if word == "waits":
        if rest[0] == "0":
            return "Nothing is ready and no call is pending: nothing can go on."
        return f"Nothing is ready: the session waits for {'call' if rest[0] == '1' else 'calls'} {series(rest[1:])}."
    if word == "refused":
        return f"Refused with {rest[0]}: {REFUSALS[int(rest[0])]}. Nothing has changed."
    if word == "finished":
        return f"Main has ended, and the session with it: {'error ' if rest[0] == 'error' else ''}{value(' '.join(rest[rest[0] == 'error':]))}."
    if word == "done" and rest:
        return f"Done: {'none' if rest[0] == '0' else rest[0]} of the removed tasks {'was' if rest[0] in ('0', '1') else 'were'} ready."
    if word == "shows":
        return f"It is a {shown(' '.join(rest))}."
    return {"made": "It is object {}.", "call": "It is call {}.", "stalled": "Nothing is ready and no call is pending: the session is stalled.",
            "done": "Done.", "eager": "The answer is {}."}[word].format(" ".join(rest))


# ---- what is missing

def ending(known):
    """How the file ends: a heading, a sentence, and for each missing call its steps upwards."""
    head, text, calls = session_ending(known)
    stop = stopped(known)
    if not stop:
        return head, text, calls
    if known.finish:
        return head, f"{text} Behind that {stop}", calls
    return "The rest of the file", f"{stop} Missing up to there: {head[:1].lower() + head[1:]}. {text}", calls


def stopped(known):
    """Where drive stopped, if it did: at bytes that are no record."""
    column = next((known.columns[at] for at, number in known.refusals if number == 11), None)
    return column and f"drive stopped at record {column.first}: it is no record (refusal 11).{unread(column)}"


def unread(column):
    """How much of the file stands behind bytes that are no record."""
    return f" Not read: {amount(column.unread, 'byte')} behind it." if column.unread else ""


def session_ending(known):
    """How the session stands behind its last record, told as `ending` tells it."""
    if known.finish:
        at, what = known.finish
        bad = what.startswith("error ")
        return f"Nothing: the session finished with {'the ' if bad else ''}{value(what)}", finished(known, at, what), []
    if known.running is not None:
        text = f"The records end while {task_name(known.running)} runs: the next thing that the script does is missing, not a reply."
        return "The script's next step", text, missing_calls(known, pending(known))
    return waiting(known)


def finished(known, at, what):
    """The sentence of a finished session."""
    left = pending(known)
    text = f"Main ended at record {known.columns[at].first}."
    if what.startswith("list "):
        text += f" {capital(what)} is {series(value(place) for place in model.places(known.now[int(what[5:])])) or 'empty'}."
    return text + (f" {capital(amount(len(left), 'call'))} had no reply by then: {series(left)}." if left else " No call was left without a reply.")


def pending(known):
    return sorted(call.number for call in known.calls.values() if call.state == "pending")


def waiting(known):
    """A session that ends in a wait."""
    at, named = known.last_wait
    ready = [task.number for task in known.tasks.values() if task.state == "ready"]
    left = [number for number in named if known.calls[number].state == "pending"]
    number = known.columns[at].first
    if ready:
        text = f"{capital(series(task_name(task) for task in ready))} can go on as soon as the host resumes."
        return "A resume", text + (f" No reply yet: {series(left)}." if left else ""), missing_calls(known, left)
    if not left:
        text = f"By record {number} nothing is ready and no call is pending: no reply can wake a task. " + " ".join(stuck(known))
        return "Nothing that could come: the session is stuck", text, []
    head = f"{'The reply to call' if len(left) == 1 else 'The replies to calls'} {series(left)}"
    return head, f"The session waits since record {since(known, at)}; the last wait (record {number}) names {amount(len(named), 'call')}.", missing_calls(known, left)


def since(known, at):
    """The record from which on nothing ran any more."""
    moment = [start for start, state, _ in known.moments.states if state == "waiting"]
    runs = [start for start, state, _ in known.moments.states if state != "waiting"]
    return known.columns[min([start for start in moment if start > max(runs, default=-1)], default=at)].first


def stuck(known):
    """Of each blocked task, what it waits for and why that cannot come."""
    for task in known.tasks.values():
        if task.state == "blocked":
            yield f"{capital(task_name(task.number))} is blocked on {known.name(task.blocked_on)}."
            for item in known.open_items(task.blocked_on, known.now) if task.blocked_on in known.gathers else []:
                child = known.coroutine_task.get(item)
                if child and child.ending == "cancelled":
                    yield f"Its {known.name(item)} cannot come: task {child.number} was cancelled."


def missing_calls(known, calls):
    """For each call: its number, its note, the record that asked, and its steps upwards as sentences."""
    return [(number, known.notes.get(known.calls[number].object, ""), known.columns[known.calls[number].asked].first, chain(known, number))
            for number in calls]


def chain(known, number):
    """Who waits for a call, and who waits for that, up to main."""
    steps = []
    for waited, step in known.upwards(known.calls[number].object, known.now):
        if step[0] == "task":
            task = known.tasks[step[1]]
            steps.append(f"{task_title(known, task)} is blocked on {known.name(waited)}")
        else:
            steps.append(f"place {step[2]} of gather {step[1]}{note(known, step[1])} is open for {known.name(waited)}")
    return steps or ["nobody waits for it"]


def note(known, number):
    return f" ({known.notes[number]})" if known.notes.get(number) else ""


def task_title(known, task):
    """`task 2 (state pension)`, by the comment of its coroutine."""
    return task_name(task.number) + (note(known, task.coroutine) if task.coroutine is not None else "")
