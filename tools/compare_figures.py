"""compare_figures.py: what the sessions of compare_rust.py met. What no answer says is read off the Rust's scheduler, which the oracle prints
after each event."""
import collections
import re


MAIN = "TaskId(0): Task { state: Ready } ready_queue: []"  # before the first event


def live_tasks(dump):
    return {int(t): state for t, state in re.findall(r"TaskId\((\d+)\): Task \{.*?state: (Ready|Blocked)", dump)}


def queue(dump):
    return [int(t) for t in re.findall(r"TaskId\((\d+)\)", re.search(r"ready_queue: \[(.*?)\]", dump)[1])]


def queued(dump):
    return len(queue(dump))


def in_order(before, after):
    """Whether the tasks that stand behind the former queue ascend. Document 02, No. 7 puts them so; the published Rust leaves them as the batch woke them."""
    woken = queue(after)[queued(before):]
    return woken == sorted(woken)


def with_counts(events, told, dumps):
    """The lines, those of accepted cancels with their count (document 02, No. 8), which the oracle does not write: the length of the Rust's ready
    queue before the cancel less that after it."""
    counts = [queued(before) - queued(after) for before, after in zip([MAIN, *dumps], dumps)]
    return [f"done {n}" if event.startswith("cancel") and line == "done" else line for event, line, n in zip(events, told, counts)]


def depths(events, told):
    """How deep each object is: a gather is one deeper than its deepest item."""
    depth = []
    for event, line in zip(events, told):
        if line.startswith("made"):
            word, *items = event.split()
            depth.append(1 + max((depth[int(o)] for o in items), default=0) if word == "gather" else 0)
    return depth


def met(events, told, dumps):
    count = collections.Counter()
    depth = depths(events, told)
    runner = 0
    for event, line, before, after in zip(events, told, [MAIN, *dumps], dumps):
        if not line.startswith(("refused", "shows", "eager")):
            count.update(met_at(event.split(), line, depth, live_tasks(before), live_tasks(after), runner))
            if event.startswith("results"):
                assert in_order(before, after), "a batch that wakes out of order is not compared"
                count["batches that woke 2 or more tasks"] += queued(after) - queued(before) > 1
        runner = int(line.split()[1]) if line.startswith("runs") else runner
    return count


def met_at(words, line, depth, before, after, runner):
    word, *rest = words
    gone = set(before) - set(after)
    if word == "await" and not line.endswith("steps 0"):
        yield "awaits with a commit"
        yield f"awaits with a commit, {min(depth[int(rest[0])], 5)} deep" + " or more" * (depth[int(rest[0])] > 4)
    if word == "gather":
        yield from ["gathers empty"] * (not rest) + ["gathers naming an item twice"] * (len(set(rest)) < len(rest))
    if word == "cancel":
        yield f"cancels with the answer {line}"
        yield f"cancels of a {before[int(rest[0])].lower()} task"
        yield f"cancels that removed {min(len(gone), 4)}" + " or more" * (len(gone) > 3)
    elif not line.startswith("finished"):
        failed = len(gone - {runner} if word in ("complete", "fail") else gone)
        yield from ["first runs that failed"] * failed + ["events with 2 or more failed first runs"] * (failed > 1)
    if "stored" in words:
        yield "pending with a stored result"
    if "list" in words or ("tag", "1") in zip(words, words[1:]):
        yield "list values passed on"


def count_kinds(sessions):
    """Each kind of event, accepted or refused by a number."""
    kinds = collections.Counter()
    for events, told in sessions.values():
        kinds.update((e.split()[0], line if line.startswith("refused") else "accepted") for e, line in zip(events, told))
    for word in sorted({w for w, _ in kinds}):
        print(f"  {word}: " + ", ".join(f"{how} {n}" for (w, how), n in sorted(kinds.items()) if w == word))
    return sum(n for (_, how), n in kinds.items() if how != "accepted")


def count_answers(sessions):
    """Each form of the answers that give control, numbers left out; a wait for no call is `waits 0`."""
    said = [line for _, told in sessions.values() for line in told if line.startswith(("runs", "waits", "stalled", "finished"))]
    forms = collections.Counter(re.sub(r"(waits) [1-9].*|(?<!waits)( \d+)+", r"\1", line.partition(" steps")[0]) for line in said)
    print("answers: " + ", ".join(f"{form} {n}" for form, n in sorted(forms.items())))
    print(f"most commit steps: {max(int(line.split()[-1]) for line in said if ' steps ' in line)}")


def figures(sessions, dumps):
    """What the sessions met."""
    lengths = [len(events) for events, _ in sessions.values()]
    print(f"sessions {len(sessions)}, events {sum(lengths)}, longest session {max(lengths)}")
    print(f"refused: {count_kinds(sessions)}")
    seen = collections.Counter()
    for (events, told), its_own in zip(sessions.values(), dumps):
        seen += met(events, told, its_own)
    print("met: " + ", ".join(f"{what} {n}" for what, n in sorted(seen.items())))
    print(f"deepest gather: {max(d for events, told in sessions.values() for d in depths(events, told))}")
    count_answers(sessions)
