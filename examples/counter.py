#!/usr/bin/env python3
"""Five processes add to one counter, by examples/hub.py.

    python3 examples/counter.py [FILE]

FILE is a new file; without it one is made in a temporary folder. Each process locks the row before it reads it, so that no
addition is lost. A sixth process ends in the middle of its work, and the hub rolls back what it has done."""
import os
import pathlib
import signal
import subprocess
import sys
import tempfile
import time

from client import Connection, Store, create

HUB = pathlib.Path(__file__).resolve().parent / "hub.py"
PROCESSES, EACH = 5, 20


def add(path):
    """What one of the processes does."""
    hub = Connection(path)
    for _ in range(EACH):
        hub.ask("lock 1 1")
        hub.put(1, 1, int(hub.get(1, 1)) + 1)
        hub.ask("commit")
    # A line in one write, as all processes write to one output.
    print(f"  {EACH} additions, waited {hub.waited} times\n", end="", flush=True)


def give_up(path):
    """What the sixth does."""
    hub = Connection(path)
    hub.put(1, 1, 1000000)
    print("  sets it to 1000000, and ends before it commits", flush=True)
    os._exit(0)


def started(file, path):
    """The hub, once one can connect to it."""
    hub = subprocess.Popen([sys.executable, str(HUB), file, path])
    while hub.poll() is None:
        try:
            Connection(path)
            return hub
        except OSError:
            time.sleep(0.01)
    raise SystemExit(f"the hub ended with status {hub.returncode}")


def shared(path):
    """Lets the processes work. Gives how they ended, and the counter then."""
    first = Connection(path)
    first.put(1, 1, 0)
    first.ask("commit")
    print(f"{PROCESSES + 1} processes:")
    words = [sys.executable, __file__, "--process", path]
    processes = [subprocess.Popen([*words, kind]) for kind in ["add"] * PROCESSES + ["give up"]]
    return [process.wait() for process in processes], first.get(1, 1)


def main(file, path):
    create(file, blocks=1, log=1024)
    hub = started(file, path)
    try:
        statuses, told = shared(path)
    finally:
        hub.send_signal(signal.SIGTERM)
        status = hub.wait()
    with Store(file) as store:
        found = store.session(1).get(1, 1)
    if any([status, *statuses]) or told != str(PROCESSES * EACH) or found != told:
        raise SystemExit(f"ended with {status} and {statuses}: the counter was {told}, the file has {found}")
    print(f"checked: the counter is {told}, in the file too, so no addition was lost")


if __name__ == "__main__":
    if sys.argv[1:2] == ["--process"]:
        {"add": add, "give up": give_up}[sys.argv[3]](sys.argv[2])
    else:
        with tempfile.TemporaryDirectory() as folder:
            main(sys.argv[1] if len(sys.argv) > 1 else f"{folder}/counter.rb", f"{folder}/hub")
