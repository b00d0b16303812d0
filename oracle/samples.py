#!/usr/bin/env python3
"""Writes the sample sites that the gate settles: `samples.py DIR` makes DIR/NAME.file and DIR/NAME.table for each."""
import sys


def record(tag, *fields):
    content = b"".join(value.to_bytes(width, "big") for value, width in fields)
    return bytes([tag]) + len(content).to_bytes(2, "big") + content


def year(value, option):
    return record(1, (value, 2), (option, 1))


def plant(power, kind, marketing, regime):
    return record(2, (power, 4), (kind, 1), (marketing, 1), (regime, 1))


def contract(value):
    return record(3, (value, 4))


def quarter(value, draw, feed_in, store_in=0, store_out=0):
    return record(4, (value, 2), (draw, 4), (feed_in, 4), (store_in, 4), (store_out, 4))


def remark(text):
    return bytes([5]) + len(text).to_bytes(2, "big") + text


END = record(6)


def table(above):
    """A published table from a rule on regime and quarter."""
    rows = bytearray(8 * 4392)
    for regime in range(8):
        for q in range(35_136):
            if above(regime, q):
                rows[regime * 4392 + q // 8] |= 1 << q % 8
    return bytes(rows)


def small_flat():
    """Two plants, two contracts, three quarters; the supported plant's value is zero in quarter 1, in which the site exports most."""
    file = (remark(b"a small flat site") + year(2026, 0) + plant(60, 0, 0, 0) + plant(40, 1, 1, 3) + contract(7)
            + quarter(0, 6_001, 20_000) + quarter(1, 9_000, 30_000) + contract(9) + quarter(2, 10_000, 15_000) + END)
    return file, table(lambda regime, q: {0: q != 1, 3: q == 1}.get(regime, True))


def leap_year():
    """A whole leap year of eight plants and four contracts: sun by day, draw by night, values that fall to zero at midday."""
    plants = [(9_000, 0, 0, 0), (7_500, 0, 0, 1), (600, 1, 1, 2), (4_000, 0, 1, 3), (800, 1, 0, 4), (3_333, 0, 0, 5), (1, 0, 0, 6), (2_999, 0, 1, 7)]
    file = year(2028, 0) + b"".join(plant(*p) for p in plants) + contract(11)
    for q in range(35_136):
        if q in (8_784, 17_568, 26_352):
            file += remark(b"a new contract") + contract(11 + q // 8_784)
        hour, day = q // 4 % 24, q // 96
        sun = max(0, 12 - 2 * abs(hour - 12)) * (300 + day * 7 % 240)
        file += quarter(q, 900 + q * 37 % 1_300 - min(sun, 0), min(50_000, sun), q * 13 % 500, q * 29 % 400)
    return file + END, table(lambda regime, q: not (q % 96 in range(44, 44 + 2 * regime + 2) and q // 96 % (regime + 2) == 0))


def delimitation():
    """One plant, one contract, three quarters: what the grid charged into the store is netted when it is fed in again."""
    file = (year(2026, 1) + plant(10_000, 0, 0, 0) + contract(7) + quarter(0, 100, 0, 60, 0) + quarter(1, 0, 50, 40, 0)
            + quarter(2, 0, 90, 0, 70) + END)
    return file, table(lambda regime, q: regime == 0 and q < 2)


if __name__ == "__main__":
    for make in (small_flat, leap_year, delimitation):
        for kind, content in zip(("file", "table"), make()):
            open(f"{sys.argv[1]}/{make.__name__}.{kind}", "wb").write(content)
