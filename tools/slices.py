#!/usr/bin/env python3
"""slices.py COMMAND [WORD..]: runs COMMAND, and all that it starts, in time slices of 100 ms in place of Linux's 3. Four provers on two cores then lose less of
what their caches hold at each switch: a tenth of their time (docs/DECISIONS.md). Where Linux does not take the request (before 6.12), it just runs."""
import ctypes
import os
import struct
import sys

SLICE_NS = 100_000_000
SCHED_SETATTR = {"x86_64": 314, "aarch64": 274}


def ask_for_slices():
    number = SCHED_SETATTR.get(os.uname().machine)
    if number is None:
        return
    # struct sched_attr: size, policy (0: the usual one), flags, nice, priority, runtime (here the slice), deadline, period
    attributes = struct.pack("<IIQiIQQQ", 48, 0, 0, os.nice(0), 0, SLICE_NS, 0, 0)
    ctypes.CDLL(None).syscall(number, 0, attributes, 0)


if __name__ == "__main__":
    ask_for_slices()
    os.execvp(sys.argv[1], sys.argv[1:])
