#!/usr/bin/env python3
"""Thirty clients book seats by examples/hub.py, and a report is made beside them, while the program is killed three times.

    python3 examples/tickets.py [SECONDS]

A booking is two rows of one transaction: its seat in table 1, with the booking's number, and the booking in table 2, with its
seat. So a client that lost its connection in a commit looks for the row of its own booking, which tells whether it happened. The
file is in a temporary folder. In the end it has each booking that a client was sure of, and no other one."""
import concurrent.futures
import itertools
import os
import pathlib
import random
import signal
import subprocess
import sys
import tempfile
import threading
import time

from client import Connection, Refused, Store, create

HUB = pathlib.Path(__file__).resolve().parent / "hub.py"
CLIENTS, KILLS, SEATS = 30, 3, 5000
SEATS_TABLE, BOOKINGS_TABLE = 1, 2
NUMBERS = itertools.count(1)


class Shop:
    """The hub, begun again where it ended, and what the clients know."""

    def __init__(self, file, path):
        self.file, self.path = file, path
        self.booked, self.lost, self.found, self.reports = {}, [], [], 0
        self.closed = threading.Event()
        self.hub = None

    def begin(self):
        """Starts the hub, and comes back once one can connect to it."""
        self.hub = subprocess.Popen([sys.executable, str(HUB), self.file, self.path])
        while self.hub.poll() is None:
            try:
                return Connection(self.path).close()
            except OSError:
                time.sleep(0.01)
        raise SystemExit(f"the hub ended with status {self.hub.returncode}")

    def kill(self):
        """Kills the program under the hub, which ends with it, and starts another hub."""
        for child in pathlib.Path(f"/proc/{self.hub.pid}/task/{self.hub.pid}/children").read_text().split():
            os.kill(int(child), signal.SIGKILL)
        self.hub.wait()
        self.begin()

    def end(self):
        self.hub.send_signal(signal.SIGTERM)
        return self.hub.wait()


def book(shop, number, seat):
    """Books a seat under this number. False where another client has it."""
    asked = False
    while True:
        try:
            with Connection(shop.path) as hub:
                if asked and hub.get(BOOKINGS_TABLE, number):
                    shop.found.append(number)
                    return True
                hub.ask(f"insert {SEATS_TABLE} {seat} {number}")
                hub.ask(f"insert {BOOKINGS_TABLE} {number} {seat}")
                asked = True
                hub.ask("commit")
                return True
        except Refused as why:
            if why.reply != "duplicate":
                raise
            return False
        except OSError:
            # The hub has ended, or isn't there yet.
            shop.lost += [number] if asked else []
            time.sleep(0.02)


def client(shop):
    """Books one seat after another, until the shop is closed."""
    while not shop.closed.is_set():
        number, seat = next(NUMBERS), random.randrange(SEATS)
        if book(shop, number, seat):
            shop.booked[number] = seat


def report(shop):
    """Reads both tables as of one moment, over and over: each seat has its booking, and each booking its seat."""
    while not shop.closed.is_set():
        try:
            with Connection(shop.path) as hub:
                hub.ask("set read-only")
                seats = {(int(number), seat) for seat, number in hub.rows(SEATS_TABLE, 0, SEATS)}
                bookings = {(number, int(seat)) for number, seat in hub.rows(BOOKINGS_TABLE, 0, 2**64 - 1)}
        except Refused as why:
            # What it reads was changed too often since: it begins again.
            if not why.reply.startswith("too old "):
                raise
        except OSError:
            time.sleep(0.02)
        else:
            if seats != bookings:
                raise SystemExit(f"a report has {seats ^ bookings}")
            shop.reports += 1


def serve(shop, seconds):
    """Has the clients at work for so many seconds, and kills the program between."""
    with concurrent.futures.ThreadPoolExecutor(CLIENTS + 1) as pool:
        work = [pool.submit(client, shop) for _ in range(CLIENTS)] + [pool.submit(report, shop)]
        try:
            for _ in range(KILLS):
                time.sleep(seconds / (KILLS + 1))
                shop.kill()
            time.sleep(seconds / (KILLS + 1))
        finally:
            shop.closed.set()
        for done in work:
            done.result()


def main(seconds, folder):
    file = f"{folder}/tickets.rb"
    create(file, tables=2, blocks=1024, log=4096)
    shop = Shop(file, f"{folder}/hub")
    shop.begin()
    try:
        serve(shop, seconds)
    finally:
        status = shop.end()
    with Store(file) as store:
        seats, bookings = (dict(store.session(1).rows(table, 0, 2**64 - 1)) for table in (SEATS_TABLE, BOOKINGS_TABLE))
    found = {number: int(seat) for number, seat in bookings.items()}
    if status or found != shop.booked or {int(number): seat for seat, number in seats.items()} != found:
        raise SystemExit(f"ended with {status}: the file and the clients differ in {found.items() ^ shop.booked.items()}")
    print(f"{len(found)} bookings by {CLIENTS} clients, {shop.reports} reports, {KILLS} kills")
    print(f"{len(shop.lost)} clients lost the answer to a commit: {len(shop.found)} of these had happened")
    print("checked: the file has each booking that a client was sure of, and no other one")


if __name__ == "__main__":
    with tempfile.TemporaryDirectory() as place:
        main(float(sys.argv[1]) if len(sys.argv) > 1 else 10, place)
