#!/usr/bin/env python3
"""A second implementation of the settlement rules in docs/, written apart from the proved one and in another language.

  settle.py FILE CALENDAR      prints what `settle` must print for this file and this table, with the same exit status
"""
import sys


class Refused(Exception):
    def __init__(self, layer, number, place):
        super().__init__(f"fault layer {layer} number {number} place {place}")


LENGTHS = {1: (3, 3), 2: (7, 7), 3: (4, 4), 4: (18, 18), 5: (0, 1024), 6: (0, 0)}


def records(data):
    """The records of a file with their offsets; a refusal where a question about the bytes or the order gets a no."""
    at, year, contract, remarks = 0, False, False, 0
    while True:
        left = len(data) - at
        if left < 3:
            raise Refused(1, 41, at)
        tag, size = data[at], data[at + 1] * 256 + data[at + 2]
        if tag not in LENGTHS:
            raise Refused(1, 43, at)
        low, high = LENGTHS[tag]
        if not low <= size <= high:
            raise Refused(1, 44, at)
        if left < 3 + size:
            raise Refused(1, 42, at)
        content = data[at + 3:at + 3 + size]
        allowed = {1: not year, 2: year and not contract, 3: year, 4: contract, 5: remarks < 4096, 6: contract}[tag]
        if not allowed:
            raise Refused(1, 45, at)
        year, contract, remarks = year or tag == 1, contract or tag == 3, remarks + (tag == 5)
        if tag == 6 and left > 3:
            raise Refused(1, 46, at + 3)
        yield at, tag, content
        if tag == 6:
            return
        at += 3 + size


def number(content, at, width):
    return int.from_bytes(content[at:at + width], "big")


def divide(amount, weights):
    """Each row gets amount x weights up to and with it / all weights, rounded down, less what earlier rows got."""
    shares, given, upto = [], 0, 0
    for weight in weights:
        upto += weight
        reached = amount * upto // sum(weights) if sum(weights) else 0
        shares.append(reached - given)
        given = reached
    return shares


class Flat:
    number, limit = 0, 30_000

    def __init__(self, power):
        self.cap, self.feed, self.marked = 500 * power, 0, [0] * 8

    def take(self, draw, feed, store_in, store_out, marks):
        self.feed += feed
        self.marked = [m + feed * mark for m, mark in zip(self.marked, marks)]

    def figures(self):
        base = min(self.feed, self.cap)
        return base, self.feed - base, 0

    def pair(self, place):
        return self.marked[place], self.feed


class Delimitation:
    number, limit = 1, 200_000

    def __init__(self, power):
        self.direct = self.store = self.stored = self.grid = 0
        self.marked_direct, self.marked_store = [0] * 8, [0] * 8

    feed = property(lambda self: self.direct + self.store)
    marked = property(lambda self: [d + s for d, s in zip(self.marked_direct, self.marked_store)])

    def take(self, draw, feed, store_in, store_out, marks):
        grid, store = min(store_in, draw), min(store_out, feed)
        self.stored, self.grid, self.store, self.direct = self.stored + store_in, self.grid + grid, self.store + store, self.direct + feed - store
        self.marked_direct = [m + (feed - store) * mark for m, mark in zip(self.marked_direct, marks)]
        self.marked_store = [m + store * mark for m, mark in zip(self.marked_store, marks)]

    def green(self, amount):
        return amount * (self.stored - self.grid) // self.stored if self.stored else 0

    def figures(self):
        base = self.direct + self.green(self.store)
        if self.stored == 0:
            return base, 0, self.store
        return base, self.store - self.green(self.store), 0

    def pair(self, place):
        return self.marked_direct[place] + self.green(self.marked_store[place]), self.figures()[0]


class Account:
    def __init__(self, table):
        self.table, self.year, self.option, self.plants, self.contracts, self.entered, self.draw = table, None, None, [], [], 0, 0

    def above(self, regime, quarter):
        return self.table[regime * 4392 + quarter // 8] >> quarter % 8 & 1

    def put(self, at, tag, content):
        def ask(yes, layer, question):
            if not yes:
                raise Refused(layer, question, at)
        if tag == 1:
            ask(content[2] in (0, 1), 1, 47)
            year = number(content, 0, 2)
            ask(2025 <= year <= 2099, 2, 11)
            self.year, self.kind = year, (Flat, Delimitation)[content[2]]
        if tag == 2:
            power, kind, marketing, regime = number(content, 0, 4), content[4], content[5], content[6]
            ask(len(self.plants) < 8, 2, 12)
            ask(1 <= power <= 200_000, 2, 13)
            ask(kind <= 1 and marketing <= 1 and regime <= 7, 2, 14)
            ask(sum(p for p, k, _, _ in self.plants if k == 1) + power * (kind == 1) <= 2_000, 2, 15)
            ask(sum(p for p, _, _, _ in self.plants) + power <= 200_000, 2, 16)
            self.plants.append((power, kind, marketing, regime))
        if tag == 3:
            if self.option is None:
                ask(any(m == 0 for _, _, m, _ in self.plants), 2, 18)
                ask(sum(p for p, k, _, _ in self.plants if k == 0) <= self.kind.limit, 2, 19)
                self.option = self.kind(sum(p for p, _, _, _ in self.plants))
            contract = number(content, 0, 4)
            ask(contract > 0, 3, 22)
            ask(all(contract != n for n, _ in self.contracts), 3, 23)
            ask(len(self.contracts) < 4, 3, 24)
            self.contracts.append([contract, 0])
        if tag == 4:
            quarter, amounts = number(content, 0, 2), [number(content, 2 + 4 * i, 4) for i in range(4)]
            ask(quarter == self.entered and quarter < self.quarters(), 3, 26)
            ask(max(amounts) <= 50_000, 3, 27)
            ask(len(self.table) == 35_136, 5, 28)
            marks = [self.above(self.plants[p][3], quarter) if p < len(self.plants) else 0 for p in range(8)]
            self.option.take(*amounts, marks)
            self.contracts[-1][1] += amounts[0]
            self.draw += amounts[0]
            self.entered += 1

    def quarters(self):
        return 35_136 if self.year % 4 == 0 else 35_040

    def statement(self):
        option, (base, nettable, unassigned) = self.option, self.option.figures()
        netted = min(self.draw, nettable)
        yield f"year {self.year} option {option.number} quarters {self.entered} {'final' if self.entered == self.quarters() else 'interim'}"
        yield f"draw {self.draw} netted {netted} levied {self.draw - netted}"
        yield f"feed {option.feed} base {base} nettable {nettable} unassigned {unassigned} unused {nettable - netted}"
        for place, (portion, plant) in enumerate(zip(divide(base, [p[0] for p in self.plants]), self.plants)):
            upper, lower = option.pair(place)
            valued = portion * upper // lower if plant[2] == 0 and lower else 0
            yield f"plant {place} portion {portion} marked {option.marked[place]} valued {valued} unvalued {portion - valued}"
        for (contract, draw), share in zip(self.contracts, divide(netted, [d for _, d in self.contracts])):
            yield f"contract {contract} draw {draw} netted {share} levied {draw - share}"


def main():
    data, table = (open(name, "rb").read() for name in sys.argv[1:3])
    account = Account(table)
    try:
        for at, tag, content in records(data):
            account.put(at, tag, content)
        print("\n".join(account.statement()))
    except Refused as refusal:
        print(refusal)
        sys.exit(1)


if __name__ == "__main__":
    main()
