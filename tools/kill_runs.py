#!/usr/bin/env python3
"""Kills the program in the middle of runs over a real file, and compares what the next run finds with what was
acknowledged.

    tools/kill_runs.py PROGRAM [RUNS] [SEED]

Each run goes on from the file of the one before, until its log is nearly full. A run is fed some thousand puts,
deletions and syncs and is killed after a random time. The next opening must give a number from the last
acknowledged sync's to the last line's, and each key must have the value that the lines up to that number leave.
"""
import os
import random
import signal
import subprocess
import sys
import tempfile
import threading
import time

LINES = 6000
KEYS = 200
ROOM = 4_194_240
CHARGE = 160


class Store:
    """The commits that were sent to one file, by their numbers from 2 on."""

    def __init__(self):
        self.commits = []

    def contents(self, number):
        pairs = {}
        for key, value in self.commits[: number - 1]:
            if value is None:
                pairs.pop(key, None)
            else:
                pairs[key] = value
        return pairs


def script(store, rng):
    """Lines, each with the number that its reply has; the commits go into the store."""
    lines = []
    for _ in range(LINES):
        if rng.random() < 0.02:
            lines.append(("sync", len(store.commits) + 1))
            continue
        key = f"key-{rng.randrange(KEYS)}"
        if rng.random() < 0.2:
            store.commits.append((key, None))
            lines.append((f"del @ s {key}", len(store.commits) + 1))
        else:
            value = "v" * rng.randrange(1, 80)
            store.commits.append((key, value))
            lines.append((f"put @ s {key} {value}", len(store.commits) + 1))
    return lines


def killed_run(program, path, lines, delay):
    """The replies of a run that is killed after so many seconds."""
    with subprocess.Popen([program, "run", path], stdin=subprocess.PIPE, stdout=subprocess.PIPE) as run:
        text = "".join(line + "\n" for line, _ in lines).encode()

        def feed():
            try:
                run.stdin.write(text)
                run.stdin.flush()
                time.sleep(delay)
            except BrokenPipeError:
                pass

        feeder = threading.Thread(target=feed)
        feeder.start()
        time.sleep(delay)
        run.send_signal(signal.SIGKILL)
        replies = run.stdout.read().decode().splitlines()
        feeder.join()
        try:
            run.stdin.close()
        except BrokenPipeError:
            pass
    return replies


def opened(program, path):
    """The number at which the file opens, and its pairs."""
    gets = "".join(f"get @ s key-{key}\n" for key in range(KEYS))
    run = subprocess.run([program, "run", path], input=gets.encode(), stdout=subprocess.PIPE, check=True)
    replies = run.stdout.decode().splitlines()
    number = int(replies[0].removeprefix("opened "))
    assert replies[-1] == f"closed {number}", replies[-1]
    pairs = {}
    for key, reply in enumerate(replies[1:-1]):
        if reply != "none":
            pairs[f"key-{key}"] = reply.removeprefix("value ")
    return number, pairs


def main():
    program = os.path.abspath(sys.argv[1])
    runs = int(sys.argv[2]) if len(sys.argv) > 2 else 100
    rng = random.Random(int(sys.argv[3]) if len(sys.argv) > 3 else 1)
    unanswered = lost = kept = beyond = files = replies_read = 0
    with tempfile.TemporaryDirectory() as folder:
        store, path = None, None
        for turn in range(runs):
            if store is None or (len(store.commits) + LINES) * CHARGE > ROOM:
                files += 1
                store, path = Store(), os.path.join(folder, f"{files}.db")
            base = len(store.commits) + 1
            lines = script(store, rng)
            replies = killed_run(program, path, lines, rng.uniform(0.002, 0.06))
            # A run that has answered all its lines waits for more.
            unanswered += len(replies) - 1 < len(lines)
            replies_read += len(replies)
            safe = base
            if replies:
                assert replies[0] == f"opened {base}", replies[0]
            for (line, number), reply in zip(lines, replies[1:]):
                assert reply == f"ok {number}", (line, reply)
                if line == "sync":
                    safe = number
            if not os.path.exists(path):
                store.commits = []
                continue
            size = os.path.getsize(path)
            if base == 1 and not replies:
                # The formatting was killed: nothing had been acknowledged, and the file may be refused.
                store = None
                continue
            number, pairs = opened(program, path)
            assert safe <= number <= len(store.commits) + 1, (turn, safe, number, size)
            assert pairs == store.contents(number), (turn, number)
            kept += number - base
            beyond += number > safe
            lost += len(store.commits) + 1 - number
            store.commits = store.commits[: number - 1]
    print(f"{runs} runs over {files} files, {unanswered} killed before their last line was answered,")
    print(f"{replies_read} replies read, {kept} commits found again, {lost} sent ones not, {beyond} openings beyond the last acknowledged sync")


if __name__ == "__main__":
    main()
