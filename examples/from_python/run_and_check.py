#!/usr/bin/env python3
"""Runs the trace on standard input by a seed, checks the report, and writes it.

usage: run_and_check.py LIBRARY SEED < NAME.trace

LIBRARY is a shared library of semper; docs/embedding.md says how to link one. Ends with the status
of the run, or with that of the check if the run is done.
"""
import ctypes
import sys

DONE, TOO_SMALL = 0, 10


def answer(function, text, *more):
    """The status and the text of a call; a second one follows where the buffer was too small."""
    room = 4096
    while True:
        out, written = ctypes.create_string_buffer(room), ctypes.c_size_t()
        given = [text, ctypes.c_size_t(len(text)), *more]
        status = function(*given, out, ctypes.c_size_t(room), ctypes.byref(written))
        if status != TOO_SMALL:
            return status, out.raw[: written.value]
        room = written.value


library = ctypes.CDLL(sys.argv[1])
trace, seed = sys.stdin.buffer.read(), ctypes.c_uint64(int(sys.argv[2]))
status, report = answer(library.semper_run, trace, seed)
sys.stdout.buffer.write(report)
if status == DONE:
    status, verdict = answer(library.semper_check, report)
    print(f"the check says: {verdict.decode()}", end="", file=sys.stderr)
sys.exit(status)
