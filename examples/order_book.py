#!/usr/bin/env python3
"""An order book: two traders place orders all the time, and a report beside them sees one moment.

    python3 examples/order_book.py [FILE]

FILE is a new file; without it one is made in a temporary folder. Table 1 has the orders, with the values
`side,price,placed,left`; table 2 has the trades, with the values `buy order,sell order,quantity`. Placing an order and all
trades that it makes is one transaction. So at each moment an order's trades add up to what it has placed less what is left.

A report reads a few rows at a time, and the traders don't wait for it. It shows that rule kept if it is one transaction
(`set read-only`). By two cursors of two moments it is not. A report that takes too long gets `too old`: it begins again,
and reads without a rest (`patient_report`)."""

import random
import sys
import tempfile

from client import Refused, Store, create

ORDERS, TRADES, LAST = 1, 2, 9999
REPORTER = 3


class Market:
    """Two traders in the sessions 1 and 2. For the checks it remembers the rows after each commit."""

    def __init__(self, store):
        self.store, self.dice = store, random.Random(2026)
        self.rows, self.number, self.moments = {ORDERS: {}, TRADES: {}}, 0, {}

    def place(self):
        """Some trader places an order of some kind, in a transaction of its own."""
        trader = self.store.session(self.dice.choice([1, 2]))
        side, price, left = self.dice.choice(["buy", "sell"]), self.dice.randint(95, 105), self.dice.randint(1, 20)
        number, placed = len(self.rows[ORDERS]) + 1, left
        self.write(trader, "insert", ORDERS, number, f"{side},{price},{placed},{left}")
        for other, (its_side, its_price, its_placed, its_left) in self.on_the_book(side, price):
            quantity = min(left, its_left)
            if quantity:
                left -= quantity
                self.write(trader, "update", ORDERS, other, f"{its_side},{its_price},{its_placed},{its_left - quantity}")
                both = (number, other) if side == "buy" else (other, number)
                self.write(trader, "insert", TRADES, len(self.rows[TRADES]) + 1, "%d,%d,%d" % (*both, quantity))
        if left != placed:
            self.write(trader, "update", ORDERS, number, f"{side},{price},{placed},{left}")
        self.number = int(trader.ask("commit")[0].split()[1])
        self.moments[self.number] = {table: dict(rows) for table, rows in self.rows.items()}

    def write(self, trader, word, table, key, value):
        trader.ask(f"{word} {table} {key} {value}")
        self.rows[table][key] = value

    def on_the_book(self, side, price):
        """The orders of the other side with which one of this price trades, those with the best price first."""
        orders = [(number, order_of(value)) for number, value in self.rows[ORDERS].items()]
        sign = 1 if side == "buy" else -1
        others = [(number, order) for number, order in orders if order[0] != side and sign * order[1] <= sign * price]
        return sorted(others, key=lambda entry: (sign * entry[1][1], entry[0]))


def order_of(value):
    side, *numbers = value.split(",")
    return (side, *map(int, numbers))


def scan(session, table, rows_at_once, meanwhile):
    """The rows of a table by a new cursor, some at once. In between, others do what they do meanwhile."""
    session.ask(f"open scan {table} 0 {LAST}")
    rows = {}
    while True:
        *replies, last = session.ask(f"fetch scan {rows_at_once}")
        for reply in [*replies, last]:
            if reply != "end":
                _, key, value = reply.split(" ")
                rows[int(key)] = value
        if last == "end":
            session.ask("close scan")
            return rows
        meanwhile()


def report(session, mode, rows_at_once, meanwhile):
    """Both tables, as a transaction of this mode sees them."""
    session.ask(f"set {mode}")
    try:
        return {table: scan(session, table, rows_at_once, meanwhile) for table in (ORDERS, TRADES)}
    except Refused:
        session.ask("close scan")
        raise
    finally:
        session.ask("commit")


def patient_report(market, rows_at_once, meanwhile):
    """A report of one moment that begins again, and faster, where the moment is too old; and how often it was that."""
    tries = 0
    while True:
        try:
            moment = market.number
            return report(market.store.session(REPORTER), "read-only", rows_at_once, meanwhile), moment, tries
        except Refused as why:
            if not why.reply.startswith("too old"):
                raise
            print(f"  {why.reply}: begin again, and read all at once")
            tries, rows_at_once = tries + 1, LAST


def amiss(rows):
    """The orders whose trades don't add up to what they have placed less what is left."""
    traded = dict.fromkeys(rows[ORDERS], 0)
    for value in rows[TRADES].values():
        buy, sell, quantity = map(int, value.split(","))
        for number in (buy, sell):
            traded[number] = traded.get(number, 0) + quantity
    orders = {number: order_of(value) for number, value in rows[ORDERS].items()}
    return [n for n, quantity in traded.items() if n not in orders or orders[n][2] - orders[n][3] != quantity]


def told(rows):
    left = [order_of(value)[3] for value in rows[ORDERS].values()]
    return f"{len(left)} orders, {len(rows[TRADES])} trades, {sum(left)} pieces left, {len(amiss(rows))} orders amiss"


def expect(what, is_right):
    if not is_right:
        raise SystemExit(f"this isn't so: {what}")


def day(market):
    """Three reports beside the traders. Each is compared with the rows after the commit before it."""
    for _ in range(40):
        market.place()
    began = market.number
    one_moment, moment, tries = patient_report(market, 10, market.place)
    print(f"report of commit {moment}, while {market.number - began} orders came: {told(one_moment)}")
    expect("the report shows one moment", one_moment == market.moments[moment] and not amiss(one_moment) and not tries)
    expect("others wrote meanwhile", market.number > moment)

    began = market.number
    two_moments = report(market.store.session(REPORTER), "read-committed", 10, market.place)
    print(f"two cursors, while {market.number - began} orders came: {told(two_moments)}")
    expect("two cursors show two moments", amiss(two_moments))

    print("a slow report, with ten orders after each ten rows:")
    slow, moment, tries = patient_report(market, 10, lambda: [market.place() for _ in range(10)])
    print(f"report of commit {moment}: {told(slow)}")
    expect("it was too old, and then shows one moment", tries and slow == market.moments[moment] and not amiss(slow))


def main(file):
    create(file, tables=2, blocks=64, segments=1)
    with Store(file) as store:
        market = Market(store)
        day(market)
    with Store(file) as store:
        last = {table: dict(store.session(1).rows(table, 0, LAST)) for table in (ORDERS, TRADES)}
    expect("the file has what was committed", last == market.moments[market.number])
    print(f"checked: after commit {market.number} the file has {told(last)}")


if __name__ == "__main__":
    with tempfile.TemporaryDirectory() as folder:
        main(sys.argv[1] if len(sys.argv) > 1 else f"{folder}/orders.rb")
