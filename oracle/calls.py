#!/usr/bin/env python3
"""What the run of crates/balance_run must print: the same list of calls, put to the second implementation.

  calls.py CALENDAR      prints the answers, and each statement beside what the calls before it brought
"""
import sys

from settle import Account, Delimitation, Flat, Refused


class Calls(Account):
    """The account's calls by themselves, each refusal at the place that the call offers."""

    def __init__(self, table, kind):
        super().__init__(table)
        self.kind, self.fit, self.readings = kind, False, []

    def answer(self, words, call, *given):
        try:
            call(*given)
            print(f"{words}: accepted")
        except Refused as refusal:
            print(f"{words}: {refusal}")

    def ask(self, yes, layer, question, place):
        if not yes:
            raise Refused(layer, question, place)

    def set_year(self, year):
        self.ask(2025 <= year <= 2099, 2, 11, 0)
        self.year = year

    def add_plant(self, power, kind, marketing, regime):
        self.put(len(self.plants), 2, power.to_bytes(4, "big") + bytes([kind, marketing, regime]))

    def check_fitness(self):
        self.ask(self.year is not None, 2, 17, 0)
        self.ask(any(m == 0 for _, _, m, _ in self.plants), 2, 18, 0)
        self.ask(sum(p for p, k, _, _ in self.plants if k == 0) <= self.kind.limit, 2, 19, 0)

    def open(self):
        print("open")
        try:
            self.check_fitness()
            self.fit = True
        except Refused:
            self.fit = False
        self.option = self.kind(sum(p for p, _, _, _ in self.plants))

    def begin(self, number):
        self.ask(self.fit, 3, 21, number)
        self.put(number, 3, number.to_bytes(4, "big"))

    def enter(self, quarter, *amounts):
        self.ask(self.fit, 3, 21, quarter)
        self.ask(self.contracts, 3, 25, quarter)
        self.put(quarter, 4, quarter.to_bytes(2, "big") + b"".join(a.to_bytes(4, "big") for a in amounts))
        self.readings.append((quarter, amounts, len(self.contracts)))

    def give(self, closed=False):
        try:
            self.ask(self.fit, 3, 21, self.entered)
            self.ask(not closed or self.entered == self.quarters(), 3, 29, self.entered)
        except Refused as refusal:
            print(f"statement: {refusal}")
            return
        head, *lines = self.statement()
        print(head.rsplit(" ", 1)[0], "final" if closed else "interim")
        print("\n".join(lines))
        self.beside(lines)

    def beside(self, lines):
        """Sums over the list of accepted readings, against the figures that the lines show."""
        words = [line.split() for line in lines]
        shown = [{w[i]: int(w[i + 1]) for i in range(0, len(w), 2)} for w in words]
        plants, contracts = [s for s in shown if "portion" in s], [s for s in shown if "contract" in s]
        for line in plants:
            place = line["plant"]
            marked = sum(a[1] for q, a, _ in self.readings if self.above(self.plants[place][3], q))
            print(f"  fed in while plant {place} was marked {marked}: marked {line['marked']}")
        fed = sum(a[1] for _, a, _ in self.readings)
        print(f"  fed in {fed}: portions {sum(p['portion'] for p in plants)} nettable {shown[1]['nettable']} unassigned {shown[1]['unassigned']}")
        for place, line in enumerate(contracts):
            under = sum(a[0] for _, a, running in self.readings if running == place + 1)
            print(f"  drawn under contract {line['contract']} {under}: netted {line['netted']} levied {line['levied']}")
        print(f"  drawn {sum(a[0] for _, a, _ in self.readings)}: netted {sum(c['netted'] for c in contracts)}")

    def draft(self, plants):
        for year in (2024, 2028, 2100, 2026):
            self.answer(f"year {year}", self.set_year, year)
        for plant in plants:
            self.answer(f"plant {plant[0]}", self.add_plant, *plant)
        self.answer(f"fitness under option {self.kind.number}", self.check_fitness)
        self.open()


def contract(calls, number):
    calls.answer(f"contract {number}", calls.begin, number)


def quarter(calls, number, *amounts):
    calls.answer(f"quarter {number}", calls.enter, number, *amounts)


def whole_year(table, kind):
    calls, later = Calls(table, kind), Calls(table, kind)
    calls.draft([(0, 0, 0, 0), (6000, 0, 0, 1), (4000, 0, 1, 0), (800, 1, 0, 3), (1300, 1, 0, 3), (500, 0, 2, 0), (195000, 0, 0, 0), (12000, 0, 0, 7)])
    later.answer("late plant, in the next draft 5000", later.add_plant, 5000, 0, 0, 2)
    quarter(calls, 0, 100, 700, 60, 0)
    for number in (0, 7, 7):
        contract(calls, number)
    calls.give()
    for reading in ((1, 100, 700, 60, 0), (0, 100, 700, 60, 0), (0, 100, 700, 60, 0), (1, 0, 50001, 0, 0), (1, 0, 900, 40, 0)):
        quarter(calls, *reading)
    calls.give()
    contract(calls, 9)
    quarter(calls, 2, 300, 0, 0, 0)
    quarter(calls, 3, 0, 1200, 0, 70)
    for number in (11, 12, 13):
        contract(calls, number)
    calls.give()
    for number in range(4, 35040):
        calls.enter(number, number % 97, number * 7 % 1009, number % 31, number % 29)
    print("quarters 4 to 35039: 35036 accepted")
    quarter(calls, 35040, 1, 1, 0, 0)
    calls.give()
    print("close")
    calls.give(closed=True)


def no_statement(table):
    for marketing in (1, 0):
        calls = Calls(table, Flat)
        calls.draft([(1000, 0, marketing, 0)])
        contract(calls, 7)
        quarter(calls, 0, *((1, 1) if marketing else (20000, 30000)), 0, 0)
        if marketing:
            calls.give()
        print("close")
        calls.give(closed=True)


def main():
    table = open(sys.argv[1], "rb").read()
    whole_year(table, Flat)
    whole_year(table, Delimitation)
    no_statement(table)


if __name__ == "__main__":
    main()
