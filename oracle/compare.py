#!/usr/bin/env python3
"""Settles many sites with the built program and with the second implementation, and says where they differ.

  compare.py PROGRAM [SITES] [SEED]

Sites are drawn at random: whole files, files cut at each place, files with bytes changed, moved or added, tables of a wrong length.
"""
import os, random, subprocess, sys, tempfile
from samples import year, plant, contract, quarter, remark, END

HERE = os.path.dirname(os.path.abspath(__file__))


def site(draw):
    """A file that is mostly in order; every other one has now and then a number that some question refuses."""
    rough = draw.random() < .5
    odd = lambda share, values, usual: draw.choice(values) if rough and draw.random() < share else usual
    parts = [year(odd(.2, [2024, 2025, 2028, 2099, 2100], 2026), odd(.1, [2, 255], draw.randrange(2)))]
    for _ in range(odd(.2, [0, 8, 9], draw.randrange(1, 6))):
        parts.append(plant(odd(.3, [0, 1, 2_000, 9_999, 30_000, 30_001, 100_000, 200_000, 200_001], draw.randrange(1, 60)), odd(.2, [1, 2], draw.choice([0, 0, 1])),
                           odd(.1, [2], draw.choice([0, 0, 1])), odd(.1, [7, 8], draw.randrange(8))))
    parts.append(contract(odd(.1, [0], 7)))
    for q in range(draw.randrange(0, 40)):
        if draw.random() < .05:
            parts.append(contract(odd(.3, [0, 1, 7], 100 + q)))
        amounts = (odd(.02, [0, 1, 49_999, 50_000, 50_001, 2**32 - 1], draw.randrange(0, 4_000)) for _ in range(4))
        parts.append(quarter(odd(.02, [0, q + 1, 35_040, 35_136, 65_535], q), *amounts))
    parts.append(END)
    for _ in range(draw.randrange(0, 4)):
        parts.insert(draw.randrange(len(parts)), remark(draw.randbytes(draw.choice([0, 1, 30, 1_024]))))
    return parts


def spoiled(draw, parts):
    """The site's bytes, as they are or damaged in one of the ways that files are."""
    way = draw.randrange(16)
    if way == 0:
        draw.shuffle(parts)
    if way == 1:
        parts.insert(draw.randrange(len(parts)), draw.choice(parts))
    if way == 2:
        del parts[draw.randrange(len(parts))]
    data = b"".join(parts)
    if way == 3:
        data = data[:draw.randrange(len(data) + 1)]
    if way == 4:
        at = draw.randrange(len(data))
        data = data[:at] + bytes([draw.choice([0, 1, 2, 3, 4, 5, 6, 7, 255])]) + data[at + 1:]
    if way == 5:
        data += draw.randbytes(draw.randrange(1, 2_000))
    return data


def main():
    program, sites, seed = (sys.argv[1:] + ["1000", "1"][len(sys.argv) - 2:])[:3]
    program, sites, seed = os.path.abspath(program), int(sites), int(seed)
    draw, differ, refused = random.Random(seed), 0, 0
    with tempfile.TemporaryDirectory() as folder:
        os.chdir(folder)
        for _ in range(sites):
            data, size = spoiled(draw, site(draw)), 35_136 if draw.random() < .97 else draw.choice([0, 35_135, 35_137])
            open("file", "wb").write(data)
            open("calendar.bin", "wb").write(draw.randbytes(size))
            ours = subprocess.run([program], stdin=open("file", "rb"), capture_output=True)
            theirs = subprocess.run([sys.executable, HERE + "/settle.py", "file", "calendar.bin"], capture_output=True)
            refused += theirs.returncode
            if (ours.stdout, ours.returncode) != (theirs.stdout, theirs.returncode):
                differ += 1
                print("differ:", data.hex(), ours.stdout, ours.stderr, theirs.stdout)
    print(f"{sites} sites, {refused} of them refused, {differ} differ")
    sys.exit(differ > 0)


if __name__ == "__main__":
    main()
