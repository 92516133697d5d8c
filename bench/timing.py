"""The measurements of bench/run: timing.py TUBES REFERENCE RUNS"""

import os
import pathlib
import re
import shutil
import statistics
import subprocess
import sys
import tempfile
import time

# The empty log does next to nothing: it shows what starting and ending a program takes.
LOGS = (("largest", "bench/largest.log"), ("slow", "bench/slow.log"), ("no bytes", os.devnull))
COLUMNS = ("log", "calls", "tubes ms", "reference ms", "ratio", "tubes instr", "reference instr", "ratio")


def report(program, log):
    with open(log, "rb") as file:
        return subprocess.run([program], stdin=file, capture_output=True, check=True).stdout


def calls(text):
    """The uses of constraints that a report tells: behind `kept`, or at the end of an `empty` line."""
    fields = text.split(b"\n")[0].split()
    return {b"kept": fields[1], b"empty": fields[-1]}.get(fields[0], b"-").decode()


def milliseconds(program, log):
    """One run of the whole program by the clock."""
    actions = [(os.POSIX_SPAWN_OPEN, 0, log, os.O_RDONLY, 0), (os.POSIX_SPAWN_OPEN, 1, os.devnull, os.O_WRONLY, 0)]
    start = time.perf_counter_ns()
    pid = os.posix_spawn(program, [program], os.environ, file_actions=actions)
    _, status = os.waitpid(pid, 0)
    elapsed = time.perf_counter_ns() - start
    if status != 0:
        sys.exit(f"{program} ended with status {os.waitstatus_to_exitcode(status)} on {log}")
    return elapsed / 1e6


def times(tubes, reference, log, runs):
    """The median of many runs of each. They take turns, and turns at going first, so that a busy machine hurts both."""
    taken = {tubes: [], reference: []}
    for run in range(runs):
        for program in (tubes, reference) if run % 2 == 0 else (reference, tubes):
            taken[program].append(milliseconds(program, log))
    return statistics.median(taken[tubes]), statistics.median(taken[reference])


def instructions(program, log, folder):
    if shutil.which("valgrind") is None:
        return None
    command = ["valgrind", "--tool=callgrind", f"--callgrind-out-file={folder / 'callgrind.out'}", program]
    with open(log, "rb") as file:
        result = subprocess.run(command, stdin=file, capture_output=True)
    found = re.search(rb"Collected : (\d+)", result.stderr)
    return int(found[1]) if result.returncode == 0 and found else None


def main(tubes, reference, runs):
    tubes, reference = os.path.abspath(tubes), os.path.abspath(reference)
    if os.path.samefile(tubes, reference):
        sys.exit("the two programs are the same file")
    folder = pathlib.Path(tempfile.mkdtemp(prefix="tubes-run-"))
    table = [COLUMNS]
    try:
        for name, log in LOGS:
            text = report(reference, log)
            if report(tubes, log) != text:
                sys.exit(f"the programs print different reports of {log}: see bench/compare")
            ours, theirs = times(tubes, reference, log, runs)
            row = [name, calls(text), f"{ours:.3f}", f"{theirs:.3f}", f"{ours / theirs:.2f}"]
            ours, theirs = (instructions(program, log, folder) for program in (tubes, reference))
            row += ["-" if count is None else f"{count:,}" for count in (ours, theirs)]
            row.append("-" if ours is None or theirs is None else f"{ours / theirs:.2f}")
            table.append(row)
    finally:
        shutil.rmtree(folder)
    widths = [max(map(len, column)) for column in zip(*table)]
    for name, *numbers in table:
        print("  ".join([name.ljust(widths[0]), *map(str.rjust, numbers, widths[1:])]))
    print(f"times are medians of {runs} runs of each program")


if __name__ == "__main__":
    if len(sys.argv) != 4:
        sys.exit(__doc__)
    main(sys.argv[1], sys.argv[2], int(sys.argv[3]))
