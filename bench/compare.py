"""The loop of bench/compare: compare.py TUBES REFERENCE COUNT SEED"""

import itertools
import os
import pathlib
import re
import shutil
import signal
import struct
import subprocess
import sys
import tempfile
import time

import logs

CORPUS = pathlib.Path("crates/corpus")
KEEP = pathlib.Path("target/bench")
PATIENCE = 20  # seconds for one log
PIPE = 60_000  # what a pipe holds, so that a write does not wait for a program that does not read
REPORT = re.compile(rb"kept \d+ \w+\n(?:\d+ -?\d+ -?\d+ -?\d+ -?\d+\n)+|(?:empty|refused)(?: \d+)+\n")


class Program:
    """A program, run on a file or through a pipe. Its answer is its exit status and what it printed."""

    def __init__(self, path, folder, name):
        self.path = os.path.abspath(path)
        self.output = folder / name
        self.pid = None

    def start(self, file):
        create = os.O_WRONLY | os.O_CREAT | os.O_TRUNC
        actions = [(os.POSIX_SPAWN_OPEN, 0, file, os.O_RDONLY, 0), (os.POSIX_SPAWN_OPEN, 1, self.output, create, 0o600)]
        self.pid = os.posix_spawn(self.path, [self.path], os.environ, file_actions=actions)

    def answer(self):
        signal.alarm(PATIENCE)
        try:
            _, status = os.waitpid(self.pid, 0)
        except TimeoutError:
            os.kill(self.pid, signal.SIGKILL)
            os.waitpid(self.pid, 0)
            return "no end", b""
        finally:
            signal.alarm(0)
        return os.waitstatus_to_exitcode(status), self.output.read_bytes()

    def answer_in_pieces(self, log):
        """The same log in three writes: a program that reads only once takes the first piece for all of it."""
        with open(self.output, "wb") as out:
            process = subprocess.Popen([self.path], stdin=subprocess.PIPE, stdout=out, bufsize=0)
        try:
            for piece in (log[:1], log[1:9], log[9:]):
                process.stdin.write(piece)
                time.sleep(0.002)
        except BrokenPipeError:
            pass  # it has read all that it wants
        process.stdin.close()
        self.pid = process.pid
        process.returncode = 0  # the process is waited for here, not there
        return self.answer()


def split(data):
    """The logs of a file: each a 32-bit little-endian length and then that many bytes."""
    place = 0
    while place < len(data):
        (length,) = struct.unpack_from("<I", data, place)
        yield data[place + 4 : place + 4 + length]
        place += 4 + length


def stored():
    """The logs in the corpus, each with the report that it must give, or None where the corpus has no reports."""
    found = []
    for file in sorted(CORPUS.glob("data/*")):
        data = file.read_bytes()
        if file.suffix == ".log":
            found.append((file.name, data))
        elif file.name == "logs" or file.suffix == ".logs":
            found += ((f"{file.name} {number}", log) for number, log in enumerate(split(data)))
    expected = CORPUS / "stdout"
    if not found or not expected.exists():
        return [(name, log, None) for name, log in found]
    reports = REPORT.findall(expected.read_bytes())
    if len(reports) != len(found):
        sys.exit(f"{expected} has {len(reports)} reports for {len(found)} logs")
    return [(name, log, report) for (name, log), report in zip(found, reports)]


def alarm(*_):
    raise TimeoutError


def first_difference(left, right):
    pairs = itertools.zip_longest(left.split(b"\n"), right.split(b"\n"), fillvalue=b"(nothing)")
    for number, (a, b) in enumerate(pairs, 1):
        if a != b:
            return number, a.decode("latin-1"), b.decode("latin-1")
    return None


def main(tubes, reference, count, seed):
    signal.signal(signal.SIGALRM, alarm)
    folder = pathlib.Path(tempfile.mkdtemp(prefix="tubes-compare-"))
    programs = [Program(tubes, folder, "tubes"), Program(reference, folder, "reference")]
    file = folder / "log"
    passed = failed = 0

    def complain(name, log, text):
        nonlocal failed
        failed += 1
        if failed == 1:
            kept = KEEP / "differs.log"
            kept.write_bytes(log)
            print(f"first difference: {name}, {len(log)} bytes, saved as {kept}\n{text}")

    def check(name, log, expected=None, in_pieces=False):
        nonlocal passed
        if in_pieces:
            answers = [program.answer_in_pieces(log) for program in programs]
        else:
            file.write_bytes(log)
            for program in programs:
                program.start(file)
            answers = [program.answer() for program in programs]
        (status, report), (reference_status, reference_report) = answers
        if status != reference_status:
            complain(name, log, f"status: tubes {status}, reference {reference_status}")
        elif report != reference_report:
            line, ours, theirs = first_difference(report, reference_report)
            complain(name, log, f"line {line}\n  tubes:     {ours}\n  reference: {theirs}")
        elif expected is not None and report != expected:
            line, ours, theirs = first_difference(report, expected)
            complain(name, log, f"line {line}\n  both programs: {ours}\n  expected:      {theirs}")
        else:
            passed += 1

    try:
        for name, log, expected in stored():
            check(f"stored log {name}", log, expected)
        for name in ("largest", "slow"):
            check(f"bench/{name}.log", pathlib.Path(f"bench/{name}.log").read_bytes())
        for number, (family, log) in enumerate(logs.generate(count, seed)):
            name = f"seed {seed}, log {number} ({family})"
            check(name, log)
            if number % 40 == 0 and len(log) <= PIPE:
                check(f"{name}, in pieces", log, in_pieces=True)
    finally:
        shutil.rmtree(folder)
    print(f"{passed} passed, {failed} failed")
    return 1 if failed else 0


if __name__ == "__main__":
    if len(sys.argv) != 5:
        sys.exit(__doc__)
    sys.exit(main(sys.argv[1], sys.argv[2], int(sys.argv[3]), int(sys.argv[4])))
