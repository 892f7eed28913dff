"""What is known of tasks, calls and gathers after every record.

Objects' states are drive's (source.states). Of tasks the lines tell who runs; what else is said of them follows from document 01: a first
await of a gather spawns a task for each new coroutine among its items, numbers rise from 1; a task that awaits and does not go on is
blocked on that object, until the object is settled; cancel removes the task and the live tasks of the open items that it waits for; a
spawned task whose coroutine is no longer new dies when its turn comes. Where a line says otherwise, `doubts` says so.
"""
import collections

FINAL = ("completed", "resolved", "failed")
KINDS = ["return", "error", "future", "not-found", "module-file"]


def state_word(state):
    """`awaited` of `gather awaited 2 open open`."""
    return state.split()[1]


def settled(state):
    return state_word(state) in FINAL


def values(words):
    """The values in a list of words: `open`, `plain N`, `list G`."""
    found, at = [], 0
    while at < len(words):
        size = 1 if words[at] == "open" else 2
        found.append(" ".join(words[at:at + size]))
        at += size
    return found


def plain(value):
    """`plain 5` as `5`; `list 3` as it is."""
    return value[6:] if value.startswith("plain ") else value


def places(state):
    """The places of a gather's state, or [] where it shows none."""
    words = state.split()
    return values(words[3:]) if words[:2] in (["gather", "awaited"], ["gather", "completed"]) else []


def replies(event):
    """(call, kind, the rest) of each result in a results record."""
    for entry in event.partition(" ")[2].split(";"):
        words = entry.split()
        if len(words) > 1 and words[1] == "kind":
            yield int(words[0]), KINDS[int(words[2])], words[6:]
        elif words:
            yield int(words[0]), words[1], words[2:]


class Lane:
    """Something with a row of its own: its states, each from a column on, and its marks, each at a column."""

    def __init__(self, number):
        self.number = number
        self.states = []
        self.marks = []

    def turn(self, column, state, text=""):
        if not self.states or self.states[-1][1:] != (state, text):
            self.states.append((column, state, text))

    def mark(self, column, shape, text=""):
        self.marks.append((column, shape, text))

    @property
    def state(self):
        return self.states[-1][1] if self.states else None


class Task(Lane):
    """A task: `ready`, `running`, `blocked` or `over`."""

    def __init__(self, number, coroutine=None):
        super().__init__(number)
        self.coroutine = coroutine
        self.started = number == 0
        self.blocked_on = None
        self.waited = None
        self.since = 0
        self.ending = ""

    @property
    def live(self):
        return self.state != "over"


class Call(Lane):
    """A call number: `handed`, `pending`, `answered`."""

    def __init__(self, number):
        super().__init__(number)
        self.object = None
        self.asked = None
        self.waits = 0
        self.answered = None


class Model:
    """The whole session, record by record."""

    def __init__(self, columns, changed):
        self.columns, self.changed = columns, changed
        self.objects, self.notes, self.now, self.before = {}, {}, {}, {}
        self.tasks, self.calls, self.gathers = {0: Task(0)}, {}, {}
        self.coroutine_task = {}
        self.moments = Lane(None)
        self.said = collections.defaultdict(list)
        self.actors = []
        self.refusals, self.doubts = [], []
        self.taken, self.handed, self.running = set(), 0, 0
        self.last_wait, self.finish = None, None
        self.tasks[0].turn(0, "running")
        self.moments.turn(0, "running", "main")
        for at, column in enumerate(columns):
            self.record(at, column)

    # ---- one record

    def record(self, at, column):
        """One column: the event, what it did to objects, then who goes on."""
        self.actors.append(self.who())
        if column.line is None:
            return
        if column.refused is not None:
            self.refusals.append((at, column.refused))
            if column.refused == 11:
                self.moments.turn(at, "ended", "stopped")
            return
        self.before = dict(self.now)
        self.now.update(self.changed[at])
        word, *rest = column.event.split()
        if column.line.startswith("made "):
            self.make(at, column, word, rest)
        else:
            step = getattr(self, "on_" + word, None)
            if step:
                step(at, column, rest)
        self.tell_objects(at)
        self.control(at, column, word)

    def name(self, number):
        """An object by what it is: `coroutine 0`, `call 3 (object 5)`, `gather 2`."""
        kind, what = self.objects.get(number, ("object", None))
        return f"call {what} (object {number})" if kind == "call" else f"{kind} {number}"

    def who(self):
        return "nobody" if self.running is None else "main" if self.running == 0 else f"task {self.running}"

    # ---- making

    def make(self, at, column, word, rest):
        """An object was made."""
        number = int(column.line.split()[1])
        self.notes[number] = column.note
        if word == "coroutine":
            self.objects[number] = ("coroutine", int(rest[0]))
        elif word == "gather":
            self.objects[number] = ("gather", [int(item) for item in rest])
            self.gathers[number] = Lane(number)
        else:
            if word == "settled":
                call, self.handed = self.call(self.handed), self.handed + 1
                call.turn(at, "answered")
                call.mark(at, "reply", column.event.partition(" ")[2])
                call.answered = at
            else:
                call = self.call(int(rest[0]))
                call.turn(at, "pending")
                call.mark(at, "made")
                call.answered, call.waits = None, 0
            call.object, call.asked = number, at
            self.objects[number] = ("call", call.number)

    def call(self, number):
        return self.calls.setdefault(number, Call(number))

    def on_call(self, at, column, rest):
        first, last = int(column.line.split()[1]), int(column.end.split()[1])
        if first != self.handed:
            self.doubts.append((at, f"call {first} was handed out, {self.handed} was expected"))
        self.handed = last + 1
        if first == last:
            self.call(first).turn(at, "handed")

    # ---- the script's events

    def on_await(self, at, column, rest):
        """The running task awaits: it goes on, or it is blocked; a gather's first await spawns."""
        task, number = self.tasks[self.running], int(rest[0])
        if self.before.get(number) == "gather pending":
            self.commit(at, number, dict(self.before))
        if column.line.split()[:2] == ["runs", str(task.number)]:
            return
        self.taken.add(number)
        task.blocked_on = task.waited = number
        task.turn(at, "blocked", self.name(number))
        self.say(at, f"{self.who()} is blocked on {self.name(number)}")

    def commit(self, at, gather, seen):
        """The tasks that a gather's first await spawns (document 01, "Commit"); False where an item ends it with an error."""
        opened = set()
        for item in self.objects[gather][1]:
            kind, state = self.objects[item][0], state_word(seen[item])
            if item in opened or state in ("resolved", "completed") and kind != "coroutine":
                continue
            if kind == "coroutine":
                good = state == "new" and not self.task_of(item)
                if good:
                    self.spawn(at, item)
            elif kind == "call":
                good = state == "pending" and item not in self.taken
                self.taken.add(item)
            else:
                good = state == "pending" and self.commit(at, item, seen)
            if not good:
                return False
            if kind != "gather" or state_word(seen[item]) != "completed":
                opened.add(item)
        seen[gather] = "gather awaited" if opened else "gather completed"
        return True

    def task_of(self, coroutine):
        """The live task of a coroutine, or None."""
        task = self.coroutine_task.get(coroutine)
        return task if task and task.live else None

    def spawn(self, at, coroutine):
        task = Task(len(self.tasks), coroutine)
        self.tasks[task.number] = self.coroutine_task[coroutine] = task
        task.since = at
        task.turn(at, "ready", "spawned")
        self.say(at, f"task {task.number} is spawned for coroutine {coroutine}")

    def on_complete(self, at, column, rest):
        self.end(at, self.tasks[self.running], "completed", " ".join(rest))

    def on_fail(self, at, column, rest):
        self.end(at, self.tasks[self.running], "failed", f"script {rest[0]}")

    def end(self, at, task, how, what=""):
        """A task is over: completed, failed, died, cancelled or removed."""
        ready = "; it was ready" if task.state == "ready" else ""
        task.turn(at, "over", how)
        task.mark(at, how, what)
        task.ending = how
        task.blocked_on = None
        said = {"died": "dies at its first run: its coroutine was begun elsewhere (coroutine-reuse)", "cancelled": f"is cancelled{ready}",
                "removed": "is removed: the session has ended"}
        if how in said:
            self.say(at, f"task {task.number} {said[how]}")

    # ---- the host's events

    def on_results(self, at, column, rest):
        """Each reply: taken if its call is pending, else ignored."""
        for number, kind, what in replies(column.event):
            call = self.call(number)
            if number >= self.handed:
                self.ignored(at, call, "unknown", f"no call {number} was made")
            elif call.state != "pending" and call.answered is not None:
                self.ignored(at, call, "twice", f"call {number} was answered at record {self.columns[call.answered].first}")
            elif call.state != "pending":
                self.ignored(at, call, "unknown", f"call {number} is not pending")
            elif kind == "future":
                call.mark(at, "future")
                self.say(at, f"call {number} is still to come: nothing changes")
            else:
                self.answer(at, call)

    def ignored(self, at, call, shape, why):
        call.mark(at, shape, "ignored")
        self.say(at, f"the reply is ignored: {why}")

    def answer(self, at, call):
        """A reply that is taken; late if a resume found nothing ready while the call was missing."""
        _, word, *what = self.now[call.object].split()
        late = f", late: {'a resume' if call.waits == 1 else f'{call.waits} resumes'} found nothing ready before it"
        call.turn(at, "answered")
        call.mark(at, ("late-" if call.waits else "") + ("error" if word == "failed" else "reply"), " ".join(what))
        call.answered = at
        self.say(at, f"call {call.number} is answered with {plain(' '.join(what))}{late if call.waits else ''}")
        if not self.waiters(call.object, self.before):
            self.say(at, f"nobody waits for call {call.number} now")

    def on_resume(self, at, column, rest):
        if column.line.startswith("waits "):
            for number in column.line.split()[2:]:
                self.call(int(number)).waits += column.last - column.first + 1

    def on_cancel(self, at, column, rest):
        """The task goes, and the live tasks of the open items that it waits for, through gathers. The line counts the ready ones among them."""
        ready, left, walked = 0, [self.tasks.get(int(rest[0]))], set()
        while left:
            task = left.pop()
            if task is None or not task.live:
                continue
            left_gathers = [task.blocked_on]
            ready += task.state == "ready"
            self.end(at, task, "cancelled")
            while left_gathers:
                gather = left_gathers.pop()
                if gather in walked or not self.now.get(gather, "").startswith("gather awaited"):
                    continue
                walked.add(gather)
                for item in self.open_items(gather, self.now):
                    left.append(self.task_of(item))
                    left_gathers.append(item)
        if column.line != f"done {ready}":
            self.doubts.append((at, f"the line is {column.line}, done {ready} was expected"))

    # ---- what objects did

    def open_items(self, gather, states):
        """The items of a gather's open places."""
        return [item for item, value in zip(self.objects[gather][1], places(states[gather])) if value == "open"]

    def tell_objects(self, at):
        """What drive's shows say of gathers; a blocked task whose object is settled is ready."""
        for number, state in sorted(self.changed[at].items()):
            if number in self.gathers:
                self.tell_gather(at, number, state)
        for task in self.tasks.values():
            if task.state == "blocked" and settled(self.now[task.blocked_on]):
                task.since, task.blocked_on = at, None
                task.turn(at, "ready", "woken")
                self.say(at, f"{'main' if task.number == 0 else f'task {task.number}'} is woken")

    def tell_gather(self, at, number, state):
        """A gather's new state, and the places that were filled."""
        lane, word = self.gathers[number], state_word(state)
        old, new = places(self.before.get(number, "gather pending")), places(state)
        lane.turn(at, word, " ".join(state.split()[2:]) if word == "failed" else "")
        if word in ("completed", "failed"):
            lane.mark(at, word, lane.states[-1][2])
        filled = [place for place, value in enumerate(new) if value != "open" and (not old or old[place] == "open")]
        for place in filled:
            lane.mark(at, f"place {place}", new[place])
            self.say(at, f"place {place} of gather {number} is filled with {plain(new[place])}")
        if state_word(self.before.get(number, state)) != word:
            self.say(at, f"gather {number} is {state.partition(' ')[2] if word == 'failed' else word}")

    def waiters(self, number, states):
        """Who waits for an object: ("task", T) where a task is blocked on it, ("place", gather, place) where a place is open for it."""
        found = [("task", task.number) for task in self.tasks.values() if task.blocked_on == number]
        for gather in self.gathers:
            if states.get(gather, "").startswith("gather awaited"):
                named = zip(self.objects[gather][1], places(states[gather]))
                found += [("place", gather, place) for place, (item, value) in enumerate(named) if item == number and value == "open"]
        return found

    def upwards(self, number, states):
        """All that waits for an object, through places, gathers and tasks: the steps in order."""
        found, left, seen = [], [number], set()
        while left:
            here = left.pop(0)
            if here in seen:
                continue
            seen.add(here)
            for step in self.waiters(here, states):
                found.append((here, step))
                above = step[1] if step[0] == "place" else self.tasks[step[1]].coroutine
                left += [] if above is None else [above]
        return found

    # ---- who goes on

    def control(self, at, column, word):
        """The answer's control: who runs now, or that the session waits or has ended."""
        words = column.line.split()
        if words[0] == "runs":
            self.run(at, int(words[1]), words[2:], word)
        elif words[0] == "waits":
            steps = words.index("steps") if "steps" in words else len(words)
            self.last_wait = (at, [int(number) for number in words[2:steps]])
            self.deaths(at, None)
            self.moments.turn(at, "waiting", "waits for 1 call" if words[1] == "1" else f"waits for {words[1]} calls")
            self.running = None
            if any(task.state == "ready" for task in self.tasks.values()):
                self.doubts.append((at, "a wait although a task is ready"))
        elif words[0] == "stalled":
            self.last_wait = (at, [])
            self.moments.turn(at, "waiting", "stalled")
        elif words[0] == "finished":
            self.finish = (at, " ".join(words[1:]))
            self.moments.turn(at, "ended", "ended")
            for task in self.tasks.values():
                if task.live:
                    self.end(at, task, "removed")

    def run(self, at, number, how, word):
        """Task `number` goes on; who stood before it in the queue and did not run has died."""
        task = self.tasks.get(number)
        if task is None or not task.live or task.started == (how[0] == "start") or how[0] == "start" and task.coroutine != int(how[1]):
            self.doubts.append((at, f"task {number} is not expected to go on here"))
            task = self.tasks.setdefault(number, Task(number))
        if number != self.running:
            self.deaths(at, task, how)
        self.running, task.started, task.blocked_on = number, True, None
        task.turn(at, "running")
        self.moments.turn(at, "running", "main" if number == 0 else f"task {number}")
        if how[0] in ("start", "inline"):
            task.mark(at, how[0], f"coroutine {how[1]}")

    def deaths(self, at, runs, how=()):
        """Spawned tasks whose coroutine is no longer new die when their turn comes: ahead of the task that runs, if it stood in the queue; up
        to the one whose death woke it, if it was woken by this record; all of them before a wait."""
        woken = runs is not None and runs.since == at and how[0] != "start"
        if woken and how[:2] != ["raised", "coroutine-reuse"]:
            return
        for task in sorted(self.tasks.values(), key=lambda task: task.number):
            if task.state != "ready" or task.started or state_word(self.before.get(task.coroutine, "coroutine new")) == "new":
                continue
            if runs is not None and not woken and (runs.since, runs.number) < (task.since, task.number):
                return
            self.end(at, task, "died")
            if woken and runs.waited in self.gathers_above(task.coroutine):
                return

    def gathers_above(self, number):
        """The gathers that waited for an object before this record, through open places of gathers."""
        found, left = set(), [number]
        while left:
            for step in self.waiters(left.pop(), self.before):
                if step[0] == "place" and step[1] not in found:
                    found.add(step[1])
                    left.append(step[1])
        return found

    def say(self, at, text):
        self.said[at].append(text)
