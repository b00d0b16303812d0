#!/usr/bin/env python3
"""What the program bad_input must print: bad_input.py FILE CALENDAR"""
import sys
from settle import Account, Refused, records


def report(what, at, table, data):
    account = Account(table)
    try:
        for record in records(data):
            account.put(*record)
        print(f"{what} {at}: settled")
    except Refused as refusal:
        print(f"{what} {at}: {refusal}")


def main():
    file, table = (open(name, "rb").read() for name in sys.argv[1:3])
    for at in range(len(file)):
        report("cut at", at, table, file[:at])
        report("from", at, table, file[at:])
        report("changed at", at, table, file[:at] + b"\xff" + file[at + 1:])
    for remarks in (4_095, 4_096):
        report("remarks", remarks, table, bytes([5, 0, 0]) * remarks + file)
    report("bytes after the end", 1, table, file + b"\0")
    report("table of", 35_137, table + b"\0", file)
    report("table of", 0, b"", file)


if __name__ == "__main__":
    main()
