"""The functions of the library, as ctypes declares them. Made by tools/boundary.py from its table: change it there."""
from ctypes import POINTER, Structure, c_bool, c_size_t, c_uint8, c_uint16, c_uint32, c_uint64

VERSION = 1


class Numbers(Structure):
    """An answer as document 01's numbers: the refusal (0: accepted), the word, how many values, and the values; those behind them are 0."""

    _fields_ = [("refusal", c_uint64), ("word", c_uint64), ("count", c_uint64), ("values", c_uint64 * 6)]


class Memory(Structure):
    """The memory of a session (docs/LAYOUT.md), with the list of calls that a wait writes."""

    _fields_ = [
        ("tasks", c_uint64 * 4104),
        ("objects", c_uint64 * 2056),
        ("places", c_uint64 * 2048),
        ("calls", c_uint64 * 256),
        ("ids", c_uint16 * 513),
        ("len", c_size_t),
    ]


# the memory, as an event takes it, as sozgarru_begin takes it, and as a read takes it
LENT = [POINTER(c_uint64), POINTER(c_uint64), POINTER(c_uint64), POINTER(c_uint64), POINTER(c_uint16), POINTER(c_size_t)]
BEGUN = [POINTER(c_uint64), POINTER(c_uint64), POINTER(c_uint64), POINTER(c_uint16), POINTER(c_size_t)]
READ = [POINTER(c_uint64), POINTER(c_uint64), POINTER(c_uint64), POINTER(c_uint16), c_size_t]

# what each function gives and takes
FUNCTIONS = {
    "sozgarru_version": (c_uint64, []),
    "sozgarru_begin": (None, BEGUN),
    "sozgarru_is_sound": (c_bool, READ),
    "sozgarru_coroutine": (Numbers, LENT + [c_uint32]),
    "sozgarru_call": (Numbers, LENT),
    "sozgarru_pending": (Numbers, LENT + [c_uint32]),
    "sozgarru_pending_plain": (Numbers, LENT + [c_uint32, c_uint64]),
    "sozgarru_pending_list": (Numbers, LENT + [c_uint32, c_uint16]),
    "sozgarru_settled_plain": (Numbers, LENT + [c_uint64]),
    "sozgarru_settled_list": (Numbers, LENT + [c_uint16]),
    "sozgarru_gather": (Numbers, LENT + [POINTER(c_uint16), c_size_t]),
    "sozgarru_await": (Numbers, LENT + [c_uint16]),
    "sozgarru_complete_plain": (Numbers, LENT + [c_uint64]),
    "sozgarru_complete_list": (Numbers, LENT + [c_uint16]),
    "sozgarru_fail": (Numbers, LENT + [c_uint32]),
    "sozgarru_results": (Numbers, LENT + [POINTER(c_uint8), c_size_t]),
    "sozgarru_resume": (Numbers, LENT),
    "sozgarru_cancel": (Numbers, LENT + [c_uint16]),
    "sozgarru_eager": (Numbers, READ),
    "sozgarru_show": (Numbers, READ + [c_uint16]),
    "sozgarru_place": (Numbers, READ + [c_uint16, c_uint16]),
    "sozgarru_coroutine_unchecked": (Numbers, LENT + [c_uint32]),
    "sozgarru_call_unchecked": (Numbers, LENT),
    "sozgarru_pending_unchecked": (Numbers, LENT + [c_uint32]),
    "sozgarru_pending_plain_unchecked": (Numbers, LENT + [c_uint32, c_uint64]),
    "sozgarru_pending_list_unchecked": (Numbers, LENT + [c_uint32, c_uint16]),
    "sozgarru_settled_plain_unchecked": (Numbers, LENT + [c_uint64]),
    "sozgarru_settled_list_unchecked": (Numbers, LENT + [c_uint16]),
    "sozgarru_gather_unchecked": (Numbers, LENT + [POINTER(c_uint16), c_size_t]),
    "sozgarru_await_unchecked": (Numbers, LENT + [c_uint16]),
    "sozgarru_complete_plain_unchecked": (Numbers, LENT + [c_uint64]),
    "sozgarru_complete_list_unchecked": (Numbers, LENT + [c_uint16]),
    "sozgarru_fail_unchecked": (Numbers, LENT + [c_uint32]),
    "sozgarru_results_unchecked": (Numbers, LENT + [POINTER(c_uint8), c_size_t]),
    "sozgarru_resume_unchecked": (Numbers, LENT),
    "sozgarru_cancel_unchecked": (Numbers, LENT + [c_uint16]),
    "sozgarru_eager_unchecked": (Numbers, READ),
    "sozgarru_show_unchecked": (Numbers, READ + [c_uint16]),
    "sozgarru_place_unchecked": (Numbers, READ + [c_uint16, c_uint16]),
}
