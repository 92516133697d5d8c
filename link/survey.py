#!/usr/bin/env python3
"""Prints the report of the swim log in a file.

    python3 survey.py LIBRARY FILE

LIBRARY is the shared library that docs/LINKING.md says how to make.
"""

import ctypes
import sys

# As in kulzabeny.h.
LONGEST_LOG = 7684
LONGEST_REPORT = 6690


def load(path):
    """The library's one function."""
    call = ctypes.CDLL(path).kulzabeny_survey
    call.argtypes = [ctypes.c_char_p, ctypes.c_size_t, ctypes.c_char_p, ctypes.c_size_t]
    call.restype = ctypes.c_size_t
    return call


def survey(call, log):
    """The report of a log, both as bytes."""
    out = ctypes.create_string_buffer(LONGEST_REPORT)
    length = call(log, len(log), out, len(out))
    return out.raw[:length]


def main():
    if len(sys.argv) != 3:
        sys.exit(f"usage: {sys.argv[0]} LIBRARY FILE")
    with open(sys.argv[2], "rb") as file:
        # One byte past the longest log is enough to see that a file is longer.
        log = file.read(LONGEST_LOG + 1)
    sys.stdout.buffer.write(survey(load(sys.argv[1]), log))


if __name__ == "__main__":
    main()
