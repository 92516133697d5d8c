"""Compares what the shared library and a program that is linked to it give for many logs. `bash link/test` runs it.

    python3 check.py LIBRARY PROGRAM TUBES WORK LOGS REPORTS FILE..

LOGS holds many logs, each behind its length in 32 bits, the least byte first, and REPORTS what is printed for them, one after the
other. FILE.. are logs too. PROGRAM takes a log's path, TUBES a log on its standard input. WORK is a folder to write a log to.
It prints how many comparisons passed and how many failed.
"""

import ctypes
import os
import struct
import subprocess
import sys
import threading

from survey import LONGEST_REPORT, load, survey

THREADS = 4

tally = {"passed": 0, "failed": 0}


def check(ok, what):
    tally["passed" if ok else "failed"] += 1
    if not ok:
        print(f"failed: {what}", file=sys.stderr)


def packed(path):
    """The logs of a file that holds many."""
    with open(path, "rb") as file:
        data = file.read()
    logs = []
    at = 0
    while at < len(data):
        (length,) = struct.unpack_from("<I", data, at)
        logs.append(data[at + 4 : at + 4 + length])
        at += 4 + length
    return logs


def output(command, **how):
    return subprocess.run(command, stdout=subprocess.PIPE, check=True, **how).stdout


def keeps_to_its_room(call, log, report):
    """Whether a buffer gets the report, or stays as it was where it is too small."""
    for room in {0, 1, len(report) // 2, len(report) - 1, len(report), len(report) + 1}:
        # The buffer is longer than what the library is told of it.
        before = bytes(i * 31 % 251 for i in range(LONGEST_REPORT + 64))
        out = ctypes.create_string_buffer(before, len(before))
        fits = len(report) <= room
        if call(log, len(log), out, room) != len(report):
            return False
        if out.raw != (report + before[len(report) :] if fits else before):
            return False
    return True


def all_at_once(call, logs, reports):
    """Whether each of some threads gets every report."""
    right = [False] * THREADS

    def run(thread):
        right[thread] = all(survey(call, log) == report for log, report in zip(logs, reports))

    threads = [threading.Thread(target=run, args=(i,)) for i in range(THREADS)]
    for thread in threads:
        thread.start()
    for thread in threads:
        thread.join()
    return all(right)


def main():
    library, program, tubes, work, pack, expected, *files = sys.argv[1:]
    call = load(library)
    logs = packed(pack)
    count = len(logs)
    for name in files:
        with open(name, "rb") as file:
            logs.append(file.read())

    reports = []
    path = os.path.join(work, "one.log")
    for i, log in enumerate(logs):
        with open(path, "wb") as file:
            file.write(log)
        report = output([tubes], input=log)
        reports.append(report)
        check(output([program, path]) == report, f"the C program on log {i}")
        check(survey(call, log) == report, f"Python on log {i}")
        check(keeps_to_its_room(call, log, report), f"the room of log {i}")

    with open(expected, "rb") as file:
        check(file.read() == b"".join(reports[:count]), "the reports that are kept beside the logs")
    check(all_at_once(call, logs, reports), f"{THREADS} threads at once")
    print(tally["passed"], tally["failed"])


if __name__ == "__main__":
    main()
