"""A proved scheduler for pension scripts: tasks, external calls, gather. The Python side of libsozgarru.a, by ctypes.

>>> s = Session()
>>> s.coroutine(7), s.call(), s.pending(0), s.gather(0, 1, 0)
(0, 0, 1, 2)
>>> print(s.await_object(2))
runs 1 start 0 7 steps 1
>>> print(s.complete(40))
waits 1 0
>>> s.result(0, 5)
>>> print(s.resume())
runs 0 value list 2
>>> print(s.show(2))
shows gather completed 3 plain 40 plain 5 plain 40
>>> s.show(2).places
(40, 5, 40)
>>> print(s.complete(9))
finished plain 9
>>> s.call()
Traceback (most recent call last):
    ...
sozgarru.Refused: refused 3: session ended

A cancel says how many of the removed tasks stood in the ready queue; here a reply has woken task 1:

>>> s = Session()
>>> s.coroutine(7), s.gather(0), s.call(), s.pending(0)
(0, 1, 0, 2)
>>> print(s.await_object(1), s.await_object(2), sep="; ")
runs 1 start 0 7 steps 1; waits 1 0 steps 0
>>> s.result(0, 5)
>>> s.cancel(1)
1

A session is restored from its bytes where these are whole and a sound store, and not otherwise:

>>> t = Session()
>>> t.coroutine(7)
0
>>> print(Session.restore(t.snapshot()).complete(9))
finished plain 9
>>> damaged = bytearray(t.snapshot())
>>> damaged[100] ^= 1
>>> Session.restore(damaged)
Traceback (most recent call last):
    ...
ValueError: a damaged snapshot: its checksum is of other bytes

A copy is a second session that stands where the first does:

>>> import copy
>>> u = copy.copy(t)
>>> t.coroutine(7), t.coroutine(7), u.coroutine(7)
(1, 2, 1)

The shared library is built once from the archive with gcc, into the user's cache folder. SOZGARRU_SO names one that is built already,
SOZGARRU_LIB_DIR the folder of another archive than the shipped one. x86-64 Linux only. Stack: docs/HOST.md.
"""
import ctypes
import hashlib
import os
import pathlib
import platform
import shutil
import struct
import subprocess
import tempfile
import zlib
from dataclasses import dataclass
from typing import Optional, Tuple, Union

import sozgarru_declarations
from sozgarru_declarations import Memory, Numbers

MARK = b"SOZGARRU"
MAIN = 0
# document 01's table
MEANINGS = {
    1: "a store slice of wrong length, or under 256 words for the call list",
    2: "store not sound",
    3: "session ended",
    4: "wrong moment",
    5: "object not made, task not live, call number not handed out, or list value of a gather not completed",
    6: "call number pending already",
    7: "a 257th object, over 32 items, or over 512 item places in all",
    8: "numbers 0 to 4,294,967,294 all handed out",
    9: "cancel of main",
    10: "over 64 results, a kind above 4, a value tag above 1, or an error number of 2^32 or more; nothing applied",
}
ERRORS = ["host", "script", "coroutine-reuse", "future-reuse", "gather-reuse", "not-found", "module-file"]
COROUTINE_STATES = ["new", "running", "completed"]
EXTERNAL_STATES = ["pending", "resolved", "failed"]
GATHER_STATES = ["pending", "awaited", "completed", "failed"]


# ---- the shared library

def _build(archive, library):
    """A shared library of the archive. It is put in its place whole: two programs may build it at once."""
    gcc = shutil.which("gcc")
    if gcc is None:
        raise RuntimeError(f"sozgarru: gcc is needed once, to make a shared library of {archive}; SOZGARRU_SO may name one that is there")
    library.parent.mkdir(parents=True, exist_ok=True)
    with tempfile.TemporaryDirectory(dir=library.parent) as room:
        made = pathlib.Path(room) / "made.so"
        words = [gcc, "-shared", "-o", str(made), "-Wl,--whole-archive", str(archive), "-Wl,--no-whole-archive"]
        run = subprocess.run(words, capture_output=True, text=True)
        if run.returncode:
            raise RuntimeError(f"sozgarru: {' '.join(words)} failed:\n{run.stderr}")
        os.replace(made, library)


def _library():
    """The path of the shared library, built where it is not there."""
    given = os.environ.get("SOZGARRU_SO")
    if given:
        return given
    if (platform.system(), platform.machine()) != ("Linux", "x86_64"):
        raise RuntimeError(f"sozgarru: the archive is for x86-64 Linux, and this is {platform.machine()} {platform.system()}")
    shipped = pathlib.Path(__file__).resolve().parent.parent / "rust" / "native"
    archive = pathlib.Path(os.environ.get("SOZGARRU_LIB_DIR") or shipped) / "libsozgarru.a"
    if not archive.is_file():
        raise RuntimeError(f"sozgarru: there is no {archive}; SOZGARRU_LIB_DIR names the folder that has it")
    digest = hashlib.sha256(archive.read_bytes()).hexdigest()
    cache = pathlib.Path(os.environ.get("XDG_CACHE_HOME") or pathlib.Path.home() / ".cache") / "sozgarru"
    library = cache / f"libsozgarru-{digest[:16]}.so"
    try:
        if not library.is_file():
            _build(archive, library)
    except OSError as error:
        other = "XDG_CACHE_HOME names another folder for it, SOZGARRU_SO one that is built already"
        raise RuntimeError(f"sozgarru: the shared library cannot be made in {cache}: {error}; {other}") from error
    return str(library)


def _load():
    # a call keeps Python's lock: it takes less than a microsecond, and no two threads change one session at once
    library = ctypes.PyDLL(_library())
    for name, (gives, takes) in sozgarru_declarations.FUNCTIONS.items():
        function = getattr(library, name)
        function.restype, function.argtypes = gives, takes
    if library.sozgarru_version() != sozgarru_declarations.VERSION:
        raise RuntimeError("sozgarru: the library has another version of the layout than sozgarru_declarations.py")
    return library


_lib = _load()


# ---- values and answers; str() of an answer is document 01's line without its number

class Refused(Exception):
    """The event was refused, by a row of document 01's table; nothing has changed."""

    def __init__(self, number):
        super().__init__(f"refused {number}: {MEANINGS[number]}")
        self.number = number


@dataclass(frozen=True)
class List:
    """The value that means the results of a completed gather. (A plain value is an int of 64 bits.)"""

    gather: int

    def __str__(self):
        return f"list {self.gather}"


Value = Union[int, List]


def value_text(value):
    return str(value) if isinstance(value, List) else f"plain {value}"


@dataclass(frozen=True)
class Error:
    """host and script have a number; coroutine-reuse, future-reuse, gather-reuse, not-found and module-file have 0."""

    name: str
    number: int = 0

    def __str__(self):
        return f"{self.name} {self.number}" if self.name in ("host", "script") else self.name


# a reply that says that the answer is still to come
FUTURE = Error("future")


@dataclass(frozen=True)
class Start:
    coroutine: int
    function: int

    def __str__(self):
        return f"start {self.coroutine} {self.function}"


@dataclass(frozen=True)
class Goes:
    """What the task awaited has this value."""

    value: Value

    def __str__(self):
        return f"value {value_text(self.value)}"


@dataclass(frozen=True)
class Raised:
    error: Error

    def __str__(self):
        return f"raised {self.error}"


@dataclass(frozen=True)
class Inline:
    """The task goes on in this coroutine, which runs inside it; its end is no event."""

    coroutine: int

    def __str__(self):
        return f"inline {self.coroutine}"


def _with_steps(text, steps):
    return text if steps is None else f"{text} steps {steps}"


@dataclass(frozen=True)
class Runs:
    task: int
    how: Union[Start, Goes, Raised, Inline]
    steps: Optional[int] = None

    def __str__(self):
        return _with_steps(f"runs {self.task} {self.how}", self.steps)


@dataclass(frozen=True)
class Waits:
    """Nothing is ready; these calls are pending, ascending."""

    calls: Tuple[int, ...]
    steps: Optional[int] = None

    def __str__(self):
        return _with_steps(" ".join(map(str, ["waits", len(self.calls), *self.calls])), self.steps)


@dataclass(frozen=True)
class Stalled:
    """Nothing is ready and no call is pending."""

    def __str__(self):
        return "stalled"


@dataclass(frozen=True)
class Finished:
    """Main has ended, with a value or with an error."""

    value: Optional[Value] = None
    error: Optional[Error] = None

    def __str__(self):
        return f"finished error {self.error}" if self.error else f"finished {value_text(self.value)}"


@dataclass(frozen=True)
class Coroutine:
    state: str
    function: int

    def __str__(self):
        return f"shows coroutine {self.state} {self.function}"


@dataclass(frozen=True)
class External:
    state: str
    value: Optional[Value] = None
    error: Optional[Error] = None

    def __str__(self):
        has = {"pending": "", "resolved": f" {value_text(self.value)}", "failed": f" {self.error}"}
        return f"shows external {self.state}{has[self.state]}"


@dataclass(frozen=True)
class Gather:
    """The places of an awaited gather (None where one is open) or of a completed one, in the order of its items."""

    state: str
    places: Tuple[Optional[Value], ...] = ()
    error: Optional[Error] = None

    def __str__(self):
        text = f"shows gather {self.state}"
        if self.state == "failed":
            return f"{text} {self.error}"
        if self.state == "pending":
            return text
        places = ["open" if place is None else value_text(place) for place in self.places]
        return " ".join([text, str(len(places)), *places])


# ---- numbers to answers

def _value(tag, number):
    return List(number) if tag else number


def _error(tag, number):
    return Error(ERRORS[tag], number)


def _how(kind, *values):
    """How a task goes on, and the values behind it."""
    if kind == 0:
        return Start(*values[:2]), values[2:]
    if kind == 1:
        return Goes(_value(*values[:2])), values[2:]
    if kind == 2:
        return Raised(_error(*values[:2])), values[2:]
    return Inline(values[0]), values[1:]


def _end(failed, *values):
    return Finished(error=_error(*values)) if failed else Finished(_value(*values))


def _answer(numbers, calls):
    if numbers.refusal:
        raise Refused(numbers.refusal)
    values = numbers.values[:numbers.count]
    if numbers.word in (1, 2):
        return values[0]
    if numbers.word == 3:
        how, steps = _how(*values[1:])
        return Runs(values[0], how, *steps)
    if numbers.word == 4:
        return Waits(tuple(calls[:values[0]]), *values[1:])
    if numbers.word == 5:
        return values[0] if values else None  # a cancel has its count
    if numbers.word == 6:
        return Stalled()
    if numbers.word == 7:
        return _end(*values)
    return bool(values[0])


def _fits(number, bits):
    """ctypes would cut a number that is too long."""
    if not isinstance(number, int) or not 0 <= number < 1 << bits:
        raise ValueError(f"{number!r} is no number of {bits} bits")
    return number


def _bytes(data):
    """Any bytes; of a number Python would make so many zeros."""
    if isinstance(data, int):
        raise TypeError(f"{data!r} is no bytes")
    return bytes(data)


def _value_arguments(value):
    """The ending of the function's name, and the number that it takes."""
    return ("_list", _fits(value.gather, 16)) if isinstance(value, List) else ("_plain", _fits(value, 64))


def _result_bytes(call, outcome):
    """14 bytes: call 4, kind 1, tag 1, value 8."""
    kinds = {"host": 1, "future": 2, "not-found": 3, "module-file": 4}
    if not isinstance(outcome, Error):
        tag, number = (1, outcome.gather) if isinstance(outcome, List) else (0, outcome)
        return struct.pack("<IBBQ", _fits(call, 32), 0, tag, _fits(number, 64))
    if outcome.name not in kinds:
        raise ValueError(f"a host does not answer with {outcome}")
    return struct.pack("<IBBQ", _fits(call, 32), kinds[outcome.name], 0, _fits(outcome.number, 32))


class Session:
    """One projection of one member. Each method is an event or a read; Refused is raised where it is refused, and nothing has changed."""

    def __init__(self):
        self._set(Memory())
        _lib.sozgarru_begin(*self._begun)

    def _set(self, memory):
        count = ctypes.c_size_t.from_buffer(memory, Memory.len.offset)
        store = (memory.tasks, memory.objects, memory.places)
        self._memory = memory
        self._lent = (*store, memory.calls, memory.ids, ctypes.byref(count))
        self._begun = (*store, memory.ids, ctypes.byref(count))

    def _event(self, name, *arguments):
        # the memory is this session's own, so it is sound and not checked
        function = getattr(_lib, f"sozgarru_{name}_unchecked")
        return _answer(function(*self._lent, *arguments), self._memory.calls)

    def _read(self, name, *arguments):
        m = self._memory
        numbers = getattr(_lib, f"sozgarru_{name}_unchecked")(m.tasks, m.objects, m.places, m.ids, m.len, *arguments)
        if numbers.refusal:
            raise Refused(numbers.refusal)
        return numbers.values[:numbers.count]

    def coroutine(self, function):
        """The running task makes a coroutine of a function: its object."""
        return self._event("coroutine", _fits(function, 32))

    def call(self):
        """The running task calls the host: the number by which the host will answer."""
        return self._event("call")

    def pending(self, call, stored=None):
        """The external future of a call: its object. A stored value replaces the host's."""
        if stored is None:
            return self._event("pending", _fits(call, 32))
        ending, number = _value_arguments(stored)
        return self._event("pending" + ending, _fits(call, 32), number)

    def settled(self, value):
        """An external future that has its value already: its object."""
        ending, number = _value_arguments(value)
        return self._event("settled" + ending, number)

    def gather(self, *objects):
        """A gather of objects: its object."""
        items = (ctypes.c_uint16 * len(objects))(*(_fits(o, 16) for o in objects))
        return self._event("gather", items, len(objects))

    def await_object(self, number):
        """The running task awaits an object: Runs or Waits, with the steps of the commit."""
        return self._event("await", _fits(number, 16))

    def complete(self, value):
        """The running task returns: Runs or Waits; of main Finished."""
        ending, number = _value_arguments(value)
        return self._event("complete" + ending, number)

    def fail(self, number):
        """The running task raises the error script n: Runs or Waits; of main Finished."""
        return self._event("fail", _fits(number, 32))

    def results(self, replies):
        """The host answers calls: pairs of a call and its value, Error("host", n), Error("not-found"), Error("module-file") or FUTURE. The tasks that they
        wake go on lowest first, behind those that were ready before."""
        return self.result_bytes(b"".join(_result_bytes(call, outcome) for call, outcome in replies))

    def result_bytes(self, data):
        """The same from document 01's bytes, 14 for each result; a rest of 1 to 13 bytes is not read."""
        data = _bytes(data)
        return self._event("results", (ctypes.c_uint8 * len(data)).from_buffer_copy(data), len(data))

    def result(self, call, outcome):
        """The host answers one call."""
        return self.results([(call, outcome)])

    def resume(self):
        """The host hands control back: Runs, Waits or Stalled."""
        return self._event("resume")

    def cancel(self, task):
        """The operator cancels a task while the host waits, and with it the tasks below the gather that it waits for: how many of the
        removed tasks stood in the ready queue. Refused with 3 after the end, 4 while a task runs, 5 where the task is not live, 9 of main.
        The ready tasks that stay keep their order; what the removed ones awaited stays awaited, and their calls stay pending.
        """
        return self._event("cancel", _fits(task, 16))

    def eager(self):
        """May a call be answered at once: is no task ready and no call pending?"""
        return bool(self._read("eager")[0])

    def show(self, number):
        """What an object is and has: Coroutine, External or Gather."""
        sort, state, *rest = self._read("show", _fits(number, 16))
        if sort == 0:
            return Coroutine(COROUTINE_STATES[state], *rest)
        if sort == 1:
            return self._external(EXTERNAL_STATES[state], rest)
        return self._gather(number, GATHER_STATES[state], rest)

    def _external(self, state, rest):
        if state == "resolved":
            return External(state, _value(*rest))
        return External(state, error=_error(*rest) if rest else None)

    def _gather(self, number, state, rest):
        if state in ("awaited", "completed"):
            return Gather(state, tuple(self._place(number, i) for i in range(rest[0])))
        return Gather(state, error=_error(*rest) if rest else None)

    def _place(self, number, place):
        filled, *value = self._read("place", number, place)
        return _value(*value) if filled else None

    def snapshot(self):
        """The session as bytes, the same as the Rust crate's."""
        m = self._memory
        data = MARK + struct.pack("<Q", sozgarru_declarations.VERSION)
        data += bytes(m.tasks) + bytes(m.objects) + bytes(m.places) + bytes(m.ids) + struct.pack("<Q", m.len)
        return data + struct.pack("<I", zlib.crc32(data))

    @classmethod
    def restore(cls, data):
        """The session of a snapshot. ValueError where the bytes are none, damaged, or no sound store: then it is not run."""
        data = _bytes(data)
        session = cls()
        m = session._memory
        data = _snapshot_contents(data, len(session.snapshot()))
        at = 0
        for part in (m.tasks, m.objects, m.places, m.ids):
            size = ctypes.sizeof(part)
            ctypes.memmove(part, data[at:at + size], size)
            at += size
        m.len = struct.unpack("<Q", data[at:])[0]
        if not _lib.sozgarru_is_sound(m.tasks, m.objects, m.places, m.ids, m.len):
            raise ValueError("no snapshot of a session: the store in it is not sound")
        return session

    def __copy__(self):
        return self.restore(self.snapshot())

    def __deepcopy__(self, _):
        return self.__copy__()


def _snapshot_contents(data, length):
    """What stands between a snapshot's head and its checksum."""
    if len(data) != length:
        raise ValueError("no snapshot: it has not its length")
    if not data.startswith(MARK):
        raise ValueError("no snapshot: it has not its mark")
    if struct.unpack_from("<Q", data, 8)[0] != sozgarru_declarations.VERSION:
        raise ValueError("a snapshot of another version of the layout")
    if struct.unpack("<I", data[-4:])[0] != zlib.crc32(data[:-4]):
        raise ValueError("a damaged snapshot: its checksum is of other bytes")
    return data[16:-4]


def main():
    import doctest

    import sozgarru  # so that names print as a caller sees them

    failed, tried = doctest.testmod(sozgarru)
    print(f"{tried} examples, {failed} failed")
    return failed > 0


if __name__ == "__main__":
    raise SystemExit(main())
