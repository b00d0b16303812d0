#!/usr/bin/env python3
"""What the program pieces must print: pieces.py CALENDAR"""
import sys
from samples import END, contract, plant, quarter, remark, year
from settle import Account, Refused, records

PLANTS = [plant(2_000 + place, 0, place in (2, 5), place) for place in range(8)]


def added(length):
    return remark(bytes(place % 251 for place in range(length)))


def reading(q):
    return quarter(q, q * 37 % 1_300, q * 53 % 2_500, q * 13 % 500, q * 29 % 400)


def remarked_year():
    """A whole leap year, with a remark after each record as long as there may be more."""
    rows = [year(2028, 0)] + PLANTS + [contract(11)] + [reading(q) for q in range(35_136)]
    return b"".join(row + (added(place % 7) if place < 4_096 else b"") for place, row in enumerate(rows)) + END


def shifted(shift, long):
    """Two leading remarks shift all that follows; a long remark stands between the quarters."""
    quarters = [reading(q) for q in range(1_700)]
    return (added(shift - shift // 2) + added(shift // 2) + year(2028, 0) + PLANTS[0] + contract(11) + added(17)
            + b"".join(quarters[:1_509]) + added(long) + b"".join(quarters[1_509:]) + END)


def outcome(table, file):
    account = Account(table)
    try:
        for record in records(file):
            account.put(*record)
        return "\n".join(account.statement())
    except Refused as refusal:
        return str(refusal)


def main():
    table = open(sys.argv[1], "rb").read()
    file = remarked_year()
    text = outcome(table, file)
    for size in (1, 2, 3, 20, 21, 22, 65_535, 65_536, 65_537):
        print(f"a year of {len(file)} bytes in pieces of {size}:\n{text}")
    for long, shifts in ((1_024, 1_031), (0, 43)):
        texts = [outcome(table, shifted(shift, long)) for shift in range(shifts)]
        for shift, text in enumerate(texts):
            if text != texts[0]:
                print(f"shifted by {shift}, with a remark of {long}:\n{text}")
        print(f"all of {shifts} shifted files, with a remark of {long}:\n{texts[0]}")
    for shift in range(43):
        print(f"a byte after the end, shifted by {shift}: {outcome(table, shifted(shift, 0) + bytes(1))}")


if __name__ == "__main__":
    main()
