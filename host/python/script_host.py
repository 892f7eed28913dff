"""A small script host, shared by the examples. A member's script is ordinary async Python; the session says which of its functions runs.

    async def projection(desk):
        salary, rate = await desk.gather(desk.ask("salary"), desk.ask("accrual rate"))
        return salary * rate // 10_000

    desk = Desk()
    end = run(desk, projection(desk), replies)      # Finished(value=..)

`replies(desk)` gives the answers that have come while the session waits, pairs of a call and its value or error; none where no more will
come. A task returns a number of 64 bits or what a gather gave:

>>> async def nothing():
...     pass
>>> async def script(desk):
...     return await desk.gather(nothing())
>>> desk = Desk()
>>> run(desk, script(desk), lambda _: [])
Traceback (most recent call last):
    ...
ValueError: task 1, nothing, returned None: that is no number of 64 bits, nor what a gather gave
"""
import sozgarru


class ScriptError(Exception):
    """An error of the script's own: `raise ScriptError(17)` ends the task with script 17."""

    def __init__(self, number):
        super().__init__(f"script {number}")
        self.number = number


class AwaitError(ScriptError):
    """What was awaited has failed."""

    def __init__(self, error):
        super().__init__(error.number)
        self.error = error


class Places(tuple):
    """The values of a completed gather, each in its place; `gather` is its object."""


class Awaitable:
    """An object of the session that a script may await or gather."""

    def __init__(self, number):
        self.number = number

    def __await__(self):
        return (yield self.number)


class Desk:
    """Where a script works: its session, the coroutines that it made, and the requests that are on their way to the bureau's services."""

    def __init__(self):
        self.session = sozgarru.Session()
        self.asked = {}  # call: what it was asked for
        self.made = {}  # coroutine's object: the Python coroutine

    def ask(self, what):
        """Asks a service: the future of its answer."""
        call = self.session.call()
        self.asked[call] = what
        return Awaitable(self.session.pending(call))

    def coroutine(self, code):
        """A Python coroutine as an object of the session."""
        number = self.session.coroutine(0)
        self.made[number] = code
        return Awaitable(number)

    def gather(self, *items):
        """The values of all items by place; a Python coroutine among them becomes a task of its own."""
        objects = [item if isinstance(item, Awaitable) else self.coroutine(item) for item in items]
        return Awaitable(self.session.gather(*(o.number for o in objects)))

    def value(self, value):
        """A value of the session as the script gets it."""
        if not isinstance(value, sozgarru.List):
            return value
        places = Places(self.value(place) for place in self.session.show(value.gather).places)
        places.gather = value.gather
        return places


def _returned(task, code, value):
    """What a task's coroutine returned, as a value of the session."""
    if isinstance(value, Places):
        return sozgarru.List(value.gather)
    if isinstance(value, sozgarru.List) or isinstance(value, int) and 0 <= value < 1 << 64:
        return value
    raise ValueError(f"task {task}, {code.__qualname__}, returned {value!r}: that is no number of 64 bits, nor what a gather gave") from None


def _turn(desk, task, frames, send):
    """Runs a task's innermost coroutine to its next await or to the task's end: what the session answers."""
    while True:
        try:
            return desk.session.await_object(send(frames[-1]))
        except StopIteration as end:
            code, value = frames.pop(), end.value
            if not frames:
                return desk.session.complete(_returned(task, code, value))
            # a coroutine that ran inline: its end is no event, its value goes to the code that awaits it
            send = lambda frame: frame.send(value)
        except ScriptError as error:
            frames.pop()
            raised = error
            if not frames:
                return desk.session.fail(raised.number)
            send = lambda frame: frame.throw(raised)


def _goes_on(desk, frames, how):
    """How a task's innermost coroutine is to be run."""
    if isinstance(how, (sozgarru.Start, sozgarru.Inline)):
        frames.append(desk.made[how.coroutine])
        return lambda frame: frame.send(None)
    if isinstance(how, sozgarru.Goes):
        return lambda frame: frame.send(desk.value(how.value))
    return lambda frame: frame.throw(AwaitError(how.error))


def run(desk, main, replies):
    """Runs a script until main ends (Finished), until no reply comes (Waits), or until nothing is left to wait for (Stalled)."""
    tasks = {sozgarru.MAIN: [main]}
    answer = _turn(desk, sozgarru.MAIN, tasks[sozgarru.MAIN], lambda frame: frame.send(None))
    while True:
        if isinstance(answer, sozgarru.Runs):
            frames = tasks.setdefault(answer.task, [])
            answer = _turn(desk, answer.task, frames, _goes_on(desk, frames, answer.how))
        elif isinstance(answer, sozgarru.Waits):
            results = replies(desk)
            if not results:
                return answer
            desk.session.results(results)
            answer = desk.session.resume()
        else:
            return answer


# ---- the trade's numbers

def money(cents):
    """Money is counted in cents."""
    return f"{cents // 100:,}.{cents % 100:02}"


def rate(basis_points):
    """Rates are counted in basis points, hundredths of a percent."""
    return f"{basis_points // 100}.{basis_points % 100:02} %"


def factor(thousandths):
    """Annuity factors are counted in thousandths."""
    return f"{thousandths // 1000}.{thousandths % 1000:03}"


def pension(salary, basis_points):
    """The pension that a year of service earns: the accrual rate of the salary."""
    return salary * basis_points // 10_000


def capital(pension, thousandths):
    """What that pension is worth at retirement: as many times its amount as the annuity factor says."""
    return pension * thousandths // 1000
