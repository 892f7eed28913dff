"""compare_terms.py: antt's terms for the events and for the Rust's lines, and the modules of compare_rust.py."""


def list_term(terms):
    return "(" + " ∷ ".join([*terms, "[]"]) + ")"


def value_term(words):
    return {"plain": "(Value.Plain {})", "list": "(Value.List (heap-id {}))"}[words[0]].format(words[1])


def error_term(words):
    """`coroutine-reuse` is Error.CoroutineReuse, `host 3` is Error.Host 3."""
    name = "Error." + "".join(part.capitalize() for part in words[0].split("-"))
    return f"({' '.join([name, *words[1:]])})"


def result_term(text):
    call, _, kind, _, tag, _, bits = text.split()
    return f"record {{ call = {call}; kind = {kind}; tag = {tag}; number = {bits} }}"


def event_term(text):
    word, *rest = text.split()
    if word == "pending":
        stored = f"(OptionValue.Some {value_term(rest[2:])})" if len(rest) > 1 else "OptionValue.None"
        return f"Event.pending {rest[0]} {stored}"
    if word in ("settled", "complete"):
        return f"Event.{word} {value_term(rest)}"
    if word == "gather":
        return f"Event.gather {list_term(rest)}"
    if word == "results":
        return f"Event.results {list_term(result_term(r) for r in text[8:].split(';') if r.strip())}"
    return " ".join(["Event." + word, *rest])


def control_term(words):
    match words:
        case ["runs", task, "value", *value]:
            return f"(runs {task} (value {value_term(value)}))"
        case ["runs", task, "raised", *error]:
            return f"(runs {task} (raises {error_term(error)}))"
        case ["runs", task, "start" | "inline", *_]:
            return f"(runs {task} ({' '.join(words[2:])}))"
        case ["waits", count, *calls] if int(count) == len(calls):
            return f"(waits {list_term(calls)})"
    raise ValueError(words)


def place_terms(words):
    terms = []
    while words:
        size = 1 if words[0] == "open" else 2
        terms.append("none" if size == 1 else f"some {value_term(words[:2])}")
        words = words[size:]
    return terms


def shown_term(words):
    match words:
        case ["coroutine", state, function]:
            return f"(Shown.a-coroutine CoroutineState.{state.capitalize()} {function})"
        case ["external" | "gather" as sort, "pending"]:
            return f"Shown.a{'n' * (sort == 'external')}-{sort}-pending"
        case ["external", "resolved", *value]:
            return f"(Shown.an-external-resolved {value_term(value)})"
        case ["external" | "gather" as sort, "failed", *error]:
            return f"(Shown.a{'n' * (sort == 'external')}-{sort}-failed {error_term(error)})"
        case ["gather", "awaited" | "completed" as state, count, *places] if int(count) == len(place_terms(places)):
            return f"(Shown.a-gather-{state} {list_term(place_terms(places))})"
    raise ValueError(words)


def answer_term(line):
    match line.split():
        case ["made" | "refused", _]:
            return f"Answer.{line}"
        case ["call", number]:
            return f"Answer.called {number}"
        case ["done"] | ["stalled"]:
            return f"Answer.{line}"
        case ["done", count]:
            return f"Answer.cancelled {count}"
        case ["finished", "error", *error]:
            return f"Answer.finished-error {error_term(error)}"
        case ["finished", *value]:
            return f"Answer.finished {value_term(value)}"
        case ["eager", "yes" | "no" as said]:
            return f"Answer.is-eager {'true' if said == 'yes' else 'false'}"
        case ["shows", *shown]:
            return f"Answer.shows {shown_term(shown)}"
        case [*control, "steps", steps]:
            return f"Answer.awaited {control_term(control)} {steps}"
        case control:
            return f"Answer.control {control_term(control)}"


HEAD = """use mathlib.Core.Path.{_≡_, refl}
use mathlib.Core.Bool.{true, false}
use mathlib.Core.List.{List, [], _∷_, map}
use mathlib.Core.Option.{none, some}
use Rattle·asyncio.specs.declared.Value.{Value}
use Rattle·asyncio.specs.declared.Error.{Error}
use Rattle·asyncio.specs.declared.OptionValue.{OptionValue}
use Rattle·asyncio.specs.declared.CoroutineState.{CoroutineState}
use Rattle·asyncio.specs.Numbers.{heap-id}
use Rattle·machine.specs.Store.{fresh}
use Rattle·machine.specs.Events.{Result, runs, waits, start, value, raises, inline}
use Rattle·machine.specs.Machine.{Event, Answer, Shown, answers}
use Rattle·machine.specs.Computes.{computes}
"""


def column(terms):
    return " ∷\n    ".join([*terms, "[]"])


def session_text(k, events, told):
    """Session k: what happened, and what the Rust said."""
    return f"""
unfoldable pub events-{k} : List Event
events-{k} =
    {column(map(event_term, events))}

unfoldable pub told-{k} : List Answer
told-{k} =
    {column(map(answer_term, told))}
"""


def module_text(group):
    """Sessions by their numbers, and the theorem that the machine says on them what the Rust said."""
    names = [f"events-{k} told-{k}" for k in group]
    return f"""{HEAD}{''.join(session_text(k, *session) for k, session in group.items())}
pub equal : map (answers fresh)
    ({column(f"events-{k}" for k in group)}) ≡
    {column(f"told-{k}" for k in group)}
unfolding computes {' '.join(names)}
equal = refl
"""
