#!/usr/bin/env python3
"""Seven agents book seats in a theatre, two at a time, and are in each other's way.

    python3 examples/seats.py [FILE]

FILE is a new file; without it one is made in a temporary folder. Each agent is a session, and a Python generator that
gives the turn to the others at each `yield`. Three answers need care:

- `waits H`: session H has changed the row and hasn't committed. The write is made once H has committed or rolled back,
  so the agent goes on when the reply has come, and no sooner (`write`).
- `deadlock H`: session H would have to wait for this one, and this one for H. The write isn't made. Roll back, so that
  the others can go on, and do the whole transaction again.
- `cannot serialize B N`: the transaction has read the seats as they were at commit B, and commit N has changed this one
  since. Roll back and do it all again, with a new look at the seats (`book`)."""
import collections
import sys
import tempfile

from client import Refused, Store, create

ROWS, WIDE = 3, 8
SEATS = range(1, ROWS * WIDE + 1)
PAIRS = [(seat, seat + 1) for seat in SEATS if seat % WIDE]
PARTIES = ["Ada", "Bob", "Cleo", "Dan", "Eve", "Finn", "Gina", "Hal", "Ida", "Jon", "Kim", "Lea", "Max", "Nora"]
AGENTS = range(1, 8)
AGAIN = ("deadlock", "cannot serialize", "too old")


class Office:
    """What the agents have told their parties, and what came between."""

    def __init__(self):
        self.sold, self.turned_away, self.commits, self.seen = {}, [], [], collections.Counter()

    def note(self, agent, reply, then):
        """Counts an answer that needed care, and shows it."""
        self.seen[next(word for word in ("waits", *AGAIN) if reply.startswith(word))] += 1
        print(f"  agent {agent.number}: {reply:<22} {then}")


def write(office, agent, line):
    """Makes a write. As long as it waits the others have their turn: one of them must end what it waits for."""
    reply = agent.ask(line)[0]
    if reply.startswith("waits "):
        office.note(agent, reply, f"({line})")
    while reply is None or reply.startswith("waits "):
        yield
        reply = agent.wait()


def book(office, agent, party, wishes):
    """Books the first wish of which all seats are free, in one transaction, and begins that again where another one was in
    its way. Only what was committed is sold."""
    while True:
        try:
            agent.ask("set serializable")
            free = {seat for seat, owner in agent.rows(1, SEATS[0], SEATS[-1]) if owner == "free"}
            wish = next((wish for wish in wishes if free.issuperset(wish)), None)
            for seat in wish or []:
                yield from write(office, agent, f"update 1 {seat} {party}")
                yield
            committed = agent.ask("commit")[0]
            break
        except Refused as why:
            if not why.reply.startswith(AGAIN):
                raise
            office.note(agent, why.reply, "rolls back, and begins again")
            agent.ask("rollback")
            yield
    if wish is None:
        office.turned_away.append(party)
    else:
        office.sold[party] = wish
        office.commits.append(int(committed.split()[1]))


def work(office, agent, parties):
    """An agent's day. All want the front; half of the agents take the seats from the right to the left."""
    for party in parties:
        first = PARTIES.index(party) % ROWS * WIDE
        wishes = sorted(PAIRS, key=lambda pair: (pair[0] < first, pair[0]))
        yield from book(office, agent, party, [pair[::-1] for pair in wishes] if agent.number % 2 else wishes)


def day(file):
    """Sells all seats; gives what the agents have told."""
    office = Office()
    with Store(file) as store:
        first = store.session(16)
        for seat in SEATS:
            first.ask(f"insert 1 {seat} free")
        first.ask("commit")
        agents = [work(office, store.session(number), PARTIES[number - 1 :: len(AGENTS)]) for number in AGENTS]
        for _ in range(10000):
            # Each has its turn, and who is done goes home.
            agents = [agent for agent in agents if next(agent, "done") != "done"]
            if not agents:
                return office
    raise SystemExit("the agents don't come to an end")


def check(office, seats):
    """Ends with a word where the seats of the file aren't those that the agents have sold."""
    owners = {seat: party for party, wish in office.sold.items() for seat in wish}
    facts = {
        "a seat was sold twice": len(owners) == sum(map(len, office.sold.values())),
        "the file has other owners": dict(seats) == {seat: owners.get(seat, "free") for seat in SEATS},
        "a party has no answer": sorted([*office.sold, *office.turned_away]) == PARTIES,
        "the commits aren't numbered from 2 on": sorted(office.commits) == list(range(2, len(office.sold) + 2)),
        "nobody was in anybody's way": all(office.seen[word] for word in ("waits", "deadlock", "cannot serialize")),
    }
    for wrong, is_right in facts.items():
        if not is_right:
            raise SystemExit(f"{wrong}: {office.sold} {seats}")


def main(file):
    create(file, blocks=16, log=1024)
    print(f"{len(AGENTS)} agents, {len(SEATS)} seats, {len(PARTIES)} parties of two")
    office = day(file)
    # Another run shows what is there after all.
    with Store(file) as store:
        seats = store.session(1).rows(1, SEATS[0], SEATS[-1])
    check(office, seats)
    owner = dict(seats)
    for row in range(ROWS):
        print("row", row + 1, *(f"{owner[row * WIDE + seat]:>5}" for seat in range(1, WIDE + 1)))
    print(f"sold to {len(office.sold)} parties, turned away {len(office.turned_away)}: "
          + ", ".join(f"{count} times {word}" for word, count in office.seen.items()))
    print("checked: no seat was sold twice, and the file has what the agents have told")


if __name__ == "__main__":
    with tempfile.TemporaryDirectory() as folder:
        main(sys.argv[1] if len(sys.argv) > 1 else f"{folder}/seats.rb")
