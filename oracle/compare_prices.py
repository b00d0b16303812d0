#!/usr/bin/env python3
"""Publishes many years with the built program and with the second implementation, and says where they differ.

  compare_prices.py PROGRAM [YEARS] [SEED]

Years are drawn at random: few and many negative prices, run lengths of all sizes, wrong numbers of prices, texts with a character changed, added or lost.
"""
import random, subprocess, sys
from prices import Refused, published, read


def spelled(draw, price):
    sign, (euros, rest) = b"-" if price < 0 else b"", divmod(abs(price), 100)
    short = b"" if rest == 0 else b".%d" % (rest // 10) if rest % 10 == 0 else b".%02d" % rest
    return sign + b"%d" % euros + draw.choice([short, b".%02d" % rest])


def year(draw):
    runs = [draw.choice([0, 1, 2, 3, 4, 8, 24, 96, 65_535, draw.randrange(65_536)]) for _ in range(8)]
    count = draw.choice([35_040] * 6 + [35_136] * 4 + [35_039, 35_137, 3, 0])
    steady, negative, prices = draw.choice([.02, .3, .5, .7, .9, .98]), False, []
    for _ in range(count):
        if draw.random() > steady:
            negative = not negative
        price = draw.choice([1, 10, 100, 2_147_483_647, draw.randrange(1, 20_000)])
        prices.append(-price if negative else draw.choice([price, price, 0]))
    lines = [b"runs " + b" ".join(b"%d" % run for run in runs)] + [spelled(draw, price) for price in prices]
    return draw.choice([b"\n", b"\r\n"]).join(lines) + draw.choice([b"", b"\n"])


def spoiled(draw, text):
    if draw.random() < .7:
        return text
    at = draw.randrange(draw.choice([len(text), min(40, len(text))]))
    return text[:at] + draw.choice([b"", bytes([draw.choice(b"0123456789.-\r\n x,")])]) + text[at + draw.randrange(2):]


def expected(text):
    try:
        return 0, published(*read(text)), b""
    except Refused as refusal:
        return 1, b"", f"publish: {refusal}\n".encode()


def main():
    program, years, seed = sys.argv[1], int((sys.argv[2:] + ["100"])[0]), int((sys.argv[3:] + ["1"])[0])
    draw, differ, refused = random.Random(seed), 0, 0
    for number in range(years):
        text = spoiled(draw, year(draw))
        run = subprocess.run([program], input=text, capture_output=True)
        status, table, message = expected(text)
        refused += status
        if (run.returncode, run.stdout, run.stderr) != (status, table, message):
            differ += 1
            print(f"year {number}: {run.stderr!r}, expected {message!r}")
    print(f"{years} years, {refused} refused, {differ} differ")


if __name__ == "__main__":
    main()
