#!/usr/bin/env python3
"""The price rule and the text of prices, written apart from the proved ones: from the rules in docs/PRICES.md.

  prices.py sample DIR       writes the sample year: DIR/prices.txt, and its published table DIR/calendar.bin
  prices.py table < TEXT     writes what `publish` must write for this text, or its message to standard error, with status 1
  prices.py bad              prints what the program bad_prices must print
"""
import re, sys
from samples import table

SAMPLE_RUNS = [24, 16, 12, 8, 4, 1, 0, 96]


class Refused(Exception):
    pass


def price(line):
    """The price of a line, in hundredths."""
    spelled = re.fullmatch(rb"(-?)([0-9]+)(?:\.([0-9]{1,2}))?", line)
    if not spelled:
        raise Refused("no price")
    sign, euros, decimals = spelled.groups()
    amount = int(euros) * 100 + int((decimals or b"").ljust(2, b"0"))
    if amount > 2**31 - 1:
        raise Refused("price beyond 21474836.47")
    return -amount if sign else amount


def run_lengths(line):
    if not re.match(rb"runs", line):
        raise Refused("not the word runs and eight numbers")
    rest, lengths = line[4:], []
    for _ in range(8):
        field = re.match(rb" ([0-9]+)", rest)
        if not field:
            raise Refused("not the word runs and eight numbers")
        if int(field[1]) > 65_535:
            raise Refused("run length above 65535")
        lengths.append(int(field[1]))
        rest = rest[field.end():]
    if rest:
        raise Refused("not the word runs and eight numbers")
    return lengths


def read(text):
    """The run lengths and the prices of a text."""
    lines = text.split(b"\n")
    if lines[-1] == b"":
        lines.pop()
    lines = [line.removesuffix(b"\r") for line in lines] or [b""]
    told = []
    for number, line in enumerate(lines, 1):
        try:
            told.append(price(line) if told else run_lengths(line))
        except Refused as refusal:
            raise Refused(f"line {number}: {refusal}")
    lengths, *prices = told
    if len(prices) not in (35_040, 35_136):
        raise Refused(f"line {len(lines)}: the prices end, and a year has 35040 or 35136")
    return lengths, prices


def published(lengths, prices):
    """Marks, run by run of negative prices, the quarters that lie in a run that is long enough; all others are above zero."""
    zero = [[False] * len(prices) for _ in range(8)]
    start = 0
    while start < len(prices):
        end = start
        while end < len(prices) and prices[end] < 0:
            end += 1
        for regime in range(8):
            if 1 <= lengths[regime] <= end - start:
                zero[regime][start:end] = [True] * (end - start)
        start = max(end, start + 1)
    return table(lambda regime, q: q < len(prices) and not zero[regime][q])


def sample():
    """A year with a run of 8 at the start, of 23, 24 and 25 and of all lengths up to 40, of 95, 96 and 97, many others, and of 4 at the end."""
    state = 1

    def draw(bound):
        nonlocal state
        state = (state * 1_103_515_245 + 12_345) % 2**31
        return state // 65_536 % bound

    def spell(hundredths):
        sign = b"-" if hundredths < 0 else b""
        euros, rest = divmod(abs(hundredths), 100)
        if rest == 0 and draw(2):
            return sign + b"%d" % euros
        if rest % 10 == 0 and draw(2):
            return sign + b"%d.%d" % (euros, rest // 10)
        return sign + b"%d.%02d" % (euros, rest)

    runs = [8, 23, 24, 25] + list(range(1, 41)) + [95, 96, 97]
    prices = []
    while len(prices) < 35_040 - 400:
        length = runs.pop(0) if runs else draw(30)
        prices += [-1 - draw(9_000) if draw(8) else -1 for _ in range(length)]
        prices += [draw(20_000) if draw(6) else 0 for _ in range(1 + draw(3) * draw(60))]
    prices += [0] * (35_040 - 4 - len(prices)) + [-1, -100, -10, -2_147_483_647]
    lines = [b"runs " + b" ".join(b"%d" % length for length in SAMPLE_RUNS)] + [spell(price) for price in prices]
    # a zero with a sign is no negative price
    lines = [b"-0.0" if line in (b"0", b"0.0") and not draw(4) else line for line in lines]
    return b"".join(line + (b"\r\n" if draw(9) == 0 else b"\n") for line in lines)[:-1]


def bad():
    """Lines and texts that are right or wrong, and what they come to."""
    def report(reading, text, name=None):
        try:
            answer = reading(text.encode())
        except Refused as refusal:
            answer = refusal
        print(f"{name or '<' + text + '>'}: {answer}")

    year = lambda text: f"{len(read(text)[1])} prices"
    for text in ("0", "-0", "5", "-5", "5.1", "5.12", "-5.12", "0.01", "-0.1", "00005.50", "21474836.47", "-21474836.47", "21474836.48", "-21474836.48", "21474837", "99999999999999999999",
                 "", "-", ".5", "-.5", "5.", "5.123", "5,1", "+5", " 5", "5 ", "--5", "5.-1", "5.1.", "5..1", "1e3", "five"):
        report(price, text)
    for text in ("runs 6 4 3 2 1 0 0 0", "runs 65535 0004 3 2 1 0 0 0", "runs 65536 4 3 2 1 0 0 0", "runs 99999999999999999999 4 3 2 1 0 0 0", "runs 65536 x",
                 "", "runs", "run 6 4 3 2 1 0 0 0", "Runs 6 4 3 2 1 0 0 0", "runs 6 4 3 2 1 0 0", "runs 6 4 3 2 1 0 0 0 0", "runs 6 4 3 2 1 0 0 0 ", "runs  6 4 3 2 1 0 0 0",
                 "runs 6 4 3 2 1 0 0 -1", "runs 6 4 3 2 1 0 0 x", "runs6 4 3 2 1 0 0 0"):
        report(run_lengths, text)
    for number, text in enumerate(("", "\n", "5\n", "runs 6 4 3 2 1 0 0 0", "runs 6 4 3 2 1 0 0 0\n", "runs 6 4 3 2 1 0 0 0\r\n5\r\n-5\r\n", "runs 6 4 3 2 1 0 0 0\n5\n\n-5\n", "runs 6 4 3 2 1 0 0 0\n5\n-5\nx", "runs 6 4 3 2 1 0 0 0\n5\r\r\n")):
        report(year, text, f"text {number}")
    for count in (35_039, 35_040, 35_041, 35_135, 35_136, 35_137):
        report(year, "runs 6 4 3 2 1 0 0 0\n" + "-5.5\n" * count, f"prices {count}")


def main():
    if sys.argv[1] == "sample":
        text = sample()
        open(f"{sys.argv[2]}/prices.txt", "wb").write(text)
        open(f"{sys.argv[2]}/calendar.bin", "wb").write(published(*read(text)))
    elif sys.argv[1] == "bad":
        bad()
    else:
        try:
            sys.stdout.buffer.write(published(*read(sys.stdin.buffer.read())))
        except Refused as refusal:
            sys.exit(f"publish: {refusal}")


if __name__ == "__main__":
    main()
