#!/usr/bin/env python3
"""read.py BENCH [DIR]: the reader's time a byte on four files of one matrix: coordinate, symmetric, pattern and array.

BENCH is the built program `bench`. The files are written into DIR (/tmp/nalgebra_sparse_read) where they are missing:
symmetric matrices without zeros, of SIZE rows, with values of one digit, of one or two, and of one to eighteen. The
files of a matrix are read in turn, ROUNDS times, and the best time of each counts.
"""

import os
import random
import subprocess
import sys

SIZE = 700
ROUNDS = 24
MOST_DIGITS = (1, 2, 18)
NAMES = ("coordinate", "symmetric", "pattern", "array")


def value(most_digits):
    digits = random.randint(1, most_digits)
    return random.choice((1, -1)) * random.randint(10 ** (digits - 1), 10**digits - 1)


def write(folder, most_digits):
    random.seed(12345)
    values = {}
    for row in range(SIZE):
        for col in range(row + 1):
            values[row, col] = values[col, row] = value(most_digits)
    places = [(row, col) for col in range(SIZE) for row in range(SIZE)]
    lower = [(row, col) for row, col in places if row >= col]
    lines = {
        "coordinate": ("coordinate integer general", "%d %d %d" % (SIZE, SIZE, len(places)),
                       ["%d %d %d" % (row + 1, col + 1, values[row, col]) for row, col in places]),
        "symmetric": ("coordinate integer symmetric", "%d %d %d" % (SIZE, SIZE, len(lower)),
                      ["%d %d %d" % (row + 1, col + 1, values[row, col]) for row, col in lower]),
        "pattern": ("coordinate pattern general", "%d %d %d" % (SIZE, SIZE, len(places)),
                    ["%d %d" % (row + 1, col + 1) for row, col in places]),
        "array": ("array integer general", "%d %d" % (SIZE, SIZE), ["%d" % values[place] for place in places]),
    }
    for name, (header, size, entries) in lines.items():
        with open(os.path.join(folder, name + ".mtx"), "w") as out:
            out.write("%%%%MatrixMarket matrix %s\n%s\n" % (header, size))
            out.write("\n".join(entries) + "\n")


def nanoseconds(bench, path):
    words = subprocess.run([bench, "read", path, "5"], check=True, capture_output=True, text=True).stdout.split()
    return int(words[3])


def table(bench, folder, most_digits):
    paths = {name: os.path.join(folder, name + ".mtx") for name in NAMES}
    if not all(os.path.exists(path) for path in paths.values()):
        os.makedirs(folder, exist_ok=True)
        write(folder, most_digits)
    best = {}
    for _ in range(ROUNDS):
        for name, path in paths.items():
            best[name] = min(best.get(name, 1 << 62), nanoseconds(bench, path))
    base = best["coordinate"] / os.path.getsize(paths["coordinate"])
    for name, path in paths.items():
        size = os.path.getsize(path)
        each = best[name] / size
        cells = (most_digits, name, size, best[name] / 1e6, each, each / base)
        print("| %d | %s | %d | %.1f | %.2f | %.2f |" % cells)


def main(bench, folder="/tmp/nalgebra_sparse_read"):
    print("| Most digits | Reader | bytes | ms | ns a byte | to coordinate |")
    print("|---|---|---|---|---|---|")
    for most_digits in MOST_DIGITS:
        table(bench, os.path.join(folder, str(most_digits)), most_digits)


if __name__ == "__main__":
    if len(sys.argv) < 2:
        sys.exit(__doc__)
    main(*sys.argv[1:3])
