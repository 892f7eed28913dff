"""compare_sessions.py: the random sessions of compare_rust.py.

A session grows by one event at a time. `choose` adds an event; `learn` is told the Rust's lines to it and to shows of every object: from
these the next event is chosen. Nothing here decides what an answer has to be."""
BAD_SHARE = 0.13  # events that are meant to be refused
BIG = 2**64 - 1


class Session:
    def __init__(self, rng, length):
        self.rng, self.length, self.left = rng, length, length
        self.ends_from = length * rng.choice([0.3, 0.5, 0.7, 2])  # main may end from here on
        self.likes_cancel = rng.choice([0.5, 2, 5])
        self.likes_error = rng.choice([0.1, 0.3, 0.6])
        self.events, self.plan, self.planned, self.gives = [], None, False, None
        self.plans, self.most = rng.choice([MIXED, FAMILIES]), rng.choice([5, 7, 7, 9, 9, 11, 14])  # no plan starts with so many objects
        self.shown, self.handed, self.call_of, self.named = [], 0, {}, set()
        # the moment, who runs, the spawned tasks that have started and not ended, and whether one may be ready
        self.moment, self.runner, self.tasks, self.ready = "running", 0, set(), False

    # ---- what is known

    def probes(self):
        return [f"show {o}" for o in range(len(self.shown) + 1)]

    def final(self):
        return [f"show {o}" for o in range(len(self.shown))]

    def over(self):
        return self.left <= 0

    def objects(self, *states):
        return [o for o, text in enumerate(self.shown) if text.startswith(states)]

    def pending_calls(self):
        return sorted(self.call_of[o] for o in self.objects("external pending"))

    def learn(self, lines):
        """The Rust's line to the last event, and the shows behind it."""
        (word, *rest), answer = self.events[-1].split(), lines[len(self.events) - 1].split()
        asked = self.pending_calls()
        self.shown = [line[6:] for line in lines[len(self.events):] if line.startswith("shows ")]
        if answer[0] != "refused":
            self.learn_numbers(word, rest, answer)
            self.ready |= word == "results" and asked != self.pending_calls()
            self.learn_control(word, rest, answer)
        if self.planned:
            self.gives = int(answer[1]) if answer[0] in ("made", "call") else None
        stuck = self.moment == "ended" or self.moment == "waiting" and not self.ready and not self.pending_calls()
        self.left = min(self.left, self.rng.randint(3, 7)) - 1 if stuck else self.length - len(self.events)

    def learn_numbers(self, word, rest, answer):
        self.handed += word in ("call", "settled")
        if word in ("gather", "await"):
            self.named.update(map(int, rest))
        if word == "pending":
            self.call_of[int(answer[1])] = int(rest[0])

    def learn_control(self, word, rest, answer):
        if word in ("complete", "fail"):
            self.tasks.discard(self.runner)
        if word == "cancel":
            self.tasks.discard(int(rest[0]))
        if answer[0] == "runs":
            self.moment, self.runner = "running", int(answer[1])
            if answer[2] == "start":
                self.tasks.add(self.runner)
        elif answer[0] in ("waits", "stalled", "finished"):
            self.moment, self.ready = "ended" if answer[0] == "finished" else "waiting", False

    # ---- the next event

    def choose(self):
        self.planned = False
        if self.rng.random() < BAD_SHARE or self.moment == "ended" and self.rng.random() < 0.6:
            event = self.bad()
        elif self.rng.random() < 0.12 or self.moment == "ended":
            event = self.read()
        else:
            event = self.when_running() if self.moment == "running" else self.when_waiting()
        self.events.append(event)

    def weighted(self, **weights):
        return self.rng.choices(list(weights), list(weights.values()))[0]

    def read(self):
        return self.rng.choice([f"show {self.rng.randrange(len(self.shown))}", "eager"]) if self.shown else "eager"

    def when_running(self):
        if self.plan and len(self.shown) < self.most + 4:
            event = self.go_on()
            if event:
                return event
        main, makes = self.runner == 0, len(self.shown) < self.most
        if main and self.rng.random() < (0.5 if len(self.events) >= self.ends_from else 0 if makes else 0.2):
            return self.rng.choice([f"complete {self.value()}", f"fail {self.number()}"])
        what = self.weighted(plan=4 if makes else 0, awaits=2, ends=0 if main else 4, results=0.8)
        if what == "awaits" and self.shown or what == "results" and not self.handed and not makes:
            return f"await {self.awaitable()}"
        if what == "ends":
            return f"fail {self.number()}" if self.rng.random() < self.likes_error / 2 else f"complete {self.value()}"
        if what == "results" and self.handed:
            return self.results()
        self.plan, self.gives = self.rng.choice(self.plans if self.shown else self.plans[:1])(self), None
        return self.go_on()

    def go_on(self):
        """The next event of the plan, which is told the number that its last event made; none at its end."""
        try:
            event = self.plan.send(self.gives)
            self.planned = True
            return event
        except StopIteration:
            self.plan = None
            return None

    def when_waiting(self):
        self.plan = None
        weights = dict(results=3 if self.pending_calls() else 0.2, resume=3 if self.ready else 0.3, cancel=self.likes_cancel if self.tasks else 0)
        what = self.weighted(**weights)
        if what == "cancel":
            return f"cancel {min(self.rng.choices(sorted(self.tasks), k=2))}"  # the lower, the more below it
        return self.results() if what == "results" else "resume"

    def awaitable(self):
        """Any object; more often one that is still to be awaited, a queued task's new coroutine too."""
        fresh = self.objects("coroutine new", "gather pending", "external pending")
        return self.rng.choice(fresh if fresh and self.rng.random() < 0.6 else range(len(self.shown)))

    def number(self):
        return self.rng.choice([0, 7, self.rng.randrange(100), 2**32 - 1])

    def value(self):
        lists = self.objects("gather completed")
        if lists and self.rng.random() < 0.3:
            return f"list {self.rng.choice(lists)}"
        return f"plain {self.rng.choice([self.rng.randrange(1000), BIG, 2**32])}"

    def entry(self, call):
        """One result of a batch: a return, a host error, or no value at all."""
        kind = self.rng.choices([0, 1, 2, 3, 4], [1, self.likes_error, 0.1, self.likes_error / 4, self.likes_error / 4])[0]
        tag, bits = self.value().split() if kind == 0 else ("plain", self.number())
        return f"{call} kind {kind} tag {int(tag == 'list')} bits {bits}"

    def results(self):
        """Some pending calls in any order, and at times one that is not pending, unknown, or named twice."""
        calls = self.pending_calls()
        calls = self.rng.sample(calls, min(len(calls), self.rng.choice([0, 1, 2, 2, 3, 4])))
        if self.rng.random() < 0.25:
            calls.append(self.rng.choice([self.rng.randrange(self.handed + 1), 65536, *calls]))
        return "results " + "; ".join(self.entry(c) for c in calls)

    def rearrange(self, tries):
        """The batch just chosen, which wakes its tasks out of order: the other way round, and if that is not enough without its last result."""
        entries = self.events[-1].removeprefix("results ").split("; ")
        self.events[-1] = "results " + "; ".join(entries[:-1] if tries else entries[::-1])

    # ---- events to be refused

    def bad(self):
        unmade = self.rng.choice([len(self.shown), len(self.shown) + 3, 65535])
        task = self.rng.choice([*range(max(self.tasks, default=0) + 3), 512, 65535])
        unlisted = self.rng.choice([unmade, 2**32, BIG, *(o for o in range(len(self.shown)) if not self.shown[o].startswith("gather completed"))])
        anywhere = [f"show {unmade}", self.bad_results(unlisted)]
        if self.moment == "running":
            return self.rng.choice([*anywhere, "resume", f"cancel {task}", *self.bad_running(unmade, unlisted)])
        dead = sorted(set(range(1, max(self.tasks, default=0) + 2)) - self.tasks)
        waiting = ["cancel 0", f"cancel {self.rng.choice(dead)}", f"cancel {self.rng.choice(dead)}"]
        ended = ["resume", f"cancel {task}", self.results(), f"fail {self.number()}"]
        making = ["coroutine 1", "call", "pending 0", f"settled {self.value()}", "gather", "await 0", f"complete {self.value()}", "fail 3"]
        return self.rng.choice([*anywhere, *(waiting if self.moment == "waiting" else ended), self.rng.choice(making), self.rng.choice(making)])

    def bad_running(self, unmade, unlisted):
        some = self.rng.choice(range(len(self.shown))) if self.shown else unmade
        twice = self.rng.choice(self.pending_calls() or [self.handed])
        return [f"await {unmade}", f"gather {some} {unmade} {some}", f"pending {self.handed + self.rng.choice([0, 1, 65536])}",
                f"pending {twice}", f"pending {twice} stored {self.value()}", f"pending 0 stored list {unlisted}",
                f"settled list {unlisted}", f"complete list {unlisted}"]

    def bad_results(self, unlisted):
        """One entry that is refused, between entries that would be done."""
        calls = self.pending_calls() or [0]
        wrong = self.rng.choice([f"kind 0 tag 1 bits {unlisted}", "kind 5 tag 0 bits 0", "kind 0 tag 2 bits 4", "kind 3 tag 7 bits 0",
                                 f"kind 1 tag 0 bits {2**32}", f"kind 255 tag 1 bits {unlisted}", f"kind 1 tag 1 bits {BIG}"])
        entries = [self.entry(self.rng.choice(calls)) for _ in range(self.rng.randint(0, 2))] + [f"{self.rng.choice([*calls, 99999])} {wrong}"]
        if self.rng.random() < 0.2:
            entries.append(f"{calls[0]} kind 0 tag 1 bits {unlisted}")
        self.rng.shuffle(entries)
        return "results " + "; ".join(entries)


# ---- plans: several events of a running task. Each `yield` gives an event and gets the number that it made; a plan is dropped at a wait.


def pending(s):
    """A call made pending; now and then one that was answered before."""
    answered = sorted(set(range(s.handed)) - set(s.pending_calls()))
    call = s.rng.choice(answered) if answered and s.rng.random() < 0.25 else (yield "call")
    return (yield f"pending {call}" + (f" stored {s.value()}" if s.rng.random() < 0.2 else ""))


def failed_external(s):
    """An external that the host has failed already."""
    o = yield from pending(s)
    yield f"results {s.call_of.get(o, 0)} kind {s.rng.choice([1, 3, 4])} tag 0 bits {s.rng.randrange(50)}"
    return o


def leaf(s):
    what = s.weighted(coroutine=5, pending=3, settled=1, empty=0.7, old=1.5 if s.shown else 0)
    if what == "pending":
        return (yield from pending(s))
    if what == "old":
        return s.rng.randrange(len(s.shown))
    return (yield {"coroutine": f"coroutine {s.number()}", "settled": f"settled {s.value()}", "empty": "gather"}[what])


def tree(s, depth):
    """A gather of leaves and of smaller trees, at times with an item named twice."""
    items = []
    for i in range(s.rng.choice([1, 2, 2, 3])):
        deeper = depth > 1 and (i == 0 or s.rng.random() < 0.25)
        items.append((yield from tree(s, depth - 1)) if deeper else (yield from leaf(s)))
    if s.rng.random() < 0.35:
        items.append(s.rng.choice(items))
    s.rng.shuffle(items)
    return (yield " ".join(["gather", *map(str, items)]))


def await_tree(s):
    yield f"await {(yield from tree(s, s.rng.choice([1, 1, 2, 2, 3, 4])))}"


def family(s, depth=3):
    """A gather of coroutines whose tasks block on a call, on a gather of their own, or end."""
    size = s.rng.choice([1, 1, 2, 2, 3])
    items = []
    for _ in range(size):
        items.append((yield f"coroutine {s.number()}"))
    if s.rng.random() < 0.3:
        items.append((yield f"gather {s.rng.choice(items)} {(yield from leaf(s))}"))
        items = items[-s.rng.randint(1, size):]
    yield f"await {(yield ' '.join(['gather', *map(str, items)]))}"
    for _ in range(size):
        what = s.weighted(block=5, family=6 if depth > 1 else 0, complete=0.7, fail=s.likes_error / 3)
        if what in ("block", "family"):
            yield from block(s) if what == "block" else family(s, depth - 1)
        elif s.runner:
            yield f"complete {s.value()}" if what == "complete" else f"fail {s.number()}"


def block(s):
    """On an external that nothing names yet, or on a new one."""
    free = [o for o in s.objects("external pending") if o not in s.named]
    yield f"await {s.rng.choice(free) if free else (yield from pending(s))}"


def calls(s):
    """Externals for later."""
    for _ in range(s.rng.randint(2, 3)):
        yield from pending(s)


def failed_starts(s):
    """A commit that fails leaves tasks queued; their coroutines are awaited inline, and then the runner lets them have their first run."""
    items = []
    for _ in range(s.rng.randint(1, 3)):
        items.append((yield f"coroutine {s.number()}"))
    if s.rng.random() < 0.7:
        items.append((yield from failed_external(s)))
    yield f"await {(yield ' '.join(['gather', *map(str, items)]))}"
    for o in items[:s.rng.randint(1, 3)]:
        yield f"await {o}"
    yield from block(s)


def inline_queued(s):
    """The runner takes new coroutines inline, whoever has them queued, and blocks."""
    for o in s.objects("coroutine new")[:s.rng.randint(1, 3)]:
        yield f"await {o}"
    yield from block(s)


def shared(s):
    """A coroutine in two gathers, perhaps one in the other, awaited one after the other."""
    c = yield f"coroutine {s.number()}"
    other = yield from leaf(s)
    first = yield f"gather {c} {other}"
    second = yield f"gather {s.rng.choice([c, first, f'{other} {c}', f'{c} {first}', f'{first} {c}'])}"
    pair = [first, second]
    s.rng.shuffle(pair)
    yield f"await {pair[0]}"
    yield f"await {pair[1]}"


MIXED = [await_tree, await_tree, await_tree, family, family, block, failed_starts, failed_starts, inline_queued, shared, shared]
FAMILIES = [family, family, family, block, block, block, calls, inline_queued, await_tree]

# ---- fixed sessions: the limits that are cheap to meet, and a cancel that takes two tasks out of the queue


def fixed_sessions():
    one = "0 kind 0 tag 0 bits 5"
    return [
        ["coroutine 1", "gather" + " 0" * 33, "gather" + " 0" * 32, "await 1", "complete plain 3", "show 1"],
        ["call", "pending 0", "await 0", "results " + "; ".join([one] * 65), "results " + "; ".join([one] * 64), "resume"],
        # task 1 waits for 3, 4 and 5; by two batches the queue is 5 2 3 when it is cancelled: done 2
        [f"coroutine {f}" for f in range(1, 6)] + ["gather 2 3 4", "gather 0 1"] + ["call"] * 4 + [f"pending {c}" for c in range(4)]
        + [f"await {o}" for o in (6, 5, 7, 8, 9, 10)] + ["results 3 kind 0 tag 0 bits 3", "results 0 kind 0 tag 0 bits 0; 1 kind 0 tag 0 bits 1"]
        + ["cancel 1", "cancel 1", "cancel 3", "resume", "show 5", "show 6"],
    ]
