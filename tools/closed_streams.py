#!/usr/bin/env python3
"""Runs the program with closed standard streams, and twice on one file, and checks what that leaves of the file.

    tools/closed_streams.py PROGRAM

With any of the three streams closed a run ends with the status that its replies say, and the next run finds what
they say: no byte of the script is read from the file, and no reply is written to it. A second run on a file that
another one has open ends with `fault device`, and leaves each byte as it was.
"""
import os
import subprocess
import sys
import tempfile

BEFORE = b"put @ s a 1\nput @ s b 2\nsync\n"
SCRIPT = b"put @ s a 3\nsync\n"
GETS = b"get @ s a\nget @ s b\n"
# Which streams are closed, the statuses that a run may end with, and what it prints, where that is seen.
CASES = [
    ("<&-", [3], b"opened 3\nfault read\n"),
    (">&-", [4], None),
    ("2>&-", [0], b"opened 3\nok 4\nok 4\nclosed 4\n"),
    ("<&- >&-", [4], None),
    ("<&- 2>&-", [3], b"opened 3\nfault read\n"),
    (">&- 2>&-", [4], None),
    ("<&- >&- 2>&-", [4], None),
]
failures = []


def check(what, is_so, seen):
    if not is_so:
        failures.append(what)
        print(f"not so: {what}: {seen}")


def run(program, path, script, closed=""):
    """The status and the output of a run."""
    command = ["sh", "-c", f'exec "$0" run "$1" {closed}', program, path]
    ended = subprocess.run(command, input=script, stdout=subprocess.PIPE, check=False)
    return ended.returncode, ended.stdout


def bytes_of(path):
    with open(path, "rb") as file:
        return file.read()


def closed_streams(program, folder, number, closed, statuses, output):
    """A run on a file that holds two pairs, and one on a new file."""
    path = os.path.join(folder, f"{number}.db")
    check("a first run", run(program, path, BEFORE)[0] == 0, path)
    before = bytes_of(path)
    status, seen = run(program, path, SCRIPT, closed)
    check(f"{closed}: the status is one of {statuses}", status in statuses, status)
    check(f"{closed}: the output", output is None or seen == output, seen)
    is_put = status == 0
    if not is_put:
        check(f"{closed}: the file is left as it was", bytes_of(path) == before, "it differs")
    found = b"opened 4\nvalue 3\nvalue 2\nclosed 4\n" if is_put else b"opened 3\nvalue 1\nvalue 2\nclosed 3\n"
    after = run(program, path, GETS)
    check(f"{closed}: what the next run finds", after == (0, found), after)
    new = os.path.join(folder, f"{number}.new.db")
    status, _ = run(program, new, SCRIPT, closed)
    check(f"{closed}, a new file: the status is one of {statuses}", status in statuses, status)
    found = b"opened 2\nvalue 3\nnone\nclosed 2\n" if status == 0 else b"opened 1\nnone\nnone\nclosed 1\n"
    after = run(program, new, GETS)
    check(f"{closed}, a new file: what the next run finds", after == (0, found), after)


def two_runs(program, folder):
    """A second run while a first one has the file open."""
    path = os.path.join(folder, "two.db")
    check("a first run", run(program, path, BEFORE)[0] == 0, path)
    with subprocess.Popen([program, "run", path], stdin=subprocess.PIPE, stdout=subprocess.PIPE) as first:
        check("the first run opens", first.stdout.readline() == b"opened 3\n", path)
        first.stdin.write(b"put @ s a 4\nsync\n")
        first.stdin.flush()
        check("the first run commits", first.stdout.readline() + first.stdout.readline() == b"ok 4\nok 4\n", path)
        before = bytes_of(path)
        second = run(program, path, SCRIPT)
        check("the second run is refused", second == (5, b"fault device\n"), second)
        check("the second run leaves the file as it was", bytes_of(path) == before, "it differs")
        first.stdin.write(b"put @ s b 5\n")
        first.stdin.close()
        check("the first run closes", first.stdout.read() == b"ok 5\nclosed 5\n", path)
    check("the first run ends well", first.returncode == 0, first.returncode)
    after = run(program, path, GETS)
    check("the next run finds what the first one committed", after == (0, b"opened 5\nvalue 4\nvalue 5\nclosed 5\n"), after)


def main():
    program = os.path.abspath(sys.argv[1])
    with tempfile.TemporaryDirectory() as folder:
        for number, (closed, statuses, output) in enumerate(CASES):
            closed_streams(program, folder, number, closed, statuses, output)
        two_runs(program, folder)
    print(f"{len(CASES)} ways to close streams and two runs on one file, {len(failures)} checks failed")
    sys.exit(1 if failures else 0)


if __name__ == "__main__":
    main()
