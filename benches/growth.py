"""growth.py [FOLDER] [TASK..]: how the cost of each task grows over three sizes, a factor of ten apart, in places plus
multiplications.

The cost of one run is counted in instructions, by valgrind, and timed. An exponent of 1 is growth by the factor by
which places plus multiplications grow. Times grow faster where an input leaves a cache, which instructions don't see;
C++ by hand, built by `run` in BENCH_DIR, is timed beside ours where it is there. The inputs are made in FOLDER
(/tmp/nalgebra_sparse_growth): a square grid with a place for each node and each pair of neighbours, row by row or
shuffled, and ten places of each row drawn at random. The factor (`fill`) is measured on patterns of its own, in places
of the input and of the factor: the grid row by row, a cycle, an arrow whose first row is full, and leaves: columns
whose first half share all rows of the second half.
"""

import math
import os
import random
import re
import subprocess
import sys
import time

TOP = os.path.dirname(os.path.dirname(os.path.abspath(__file__)))
BENCH = os.path.join(TOP, "crates/bench/out/bench")
MTX = os.path.join(TOP, "crates/mtx/out/mtx")
HAND = os.path.join(os.environ.get("BENCH_DIR", "/tmp/nalgebra_sparse_peers"), "peers/bin/hand")
KERNELS = ("coo2csr", "transpose", "spgemm")
SIZES = (1_000, 10_000, 100_000)
ARROW_SIZES = (100, 316, 1_000)
RUNS = 7


def grid(size):
    side = math.isqrt(size)
    pairs = []
    for node in range(side * side):
        x, y = node % side, node // side
        for dx, dy in ((0, -1), (-1, 0), (0, 0), (1, 0), (0, 1)):
            if 0 <= x + dx < side and 0 <= y + dy < side:
                pairs.append((node, node + dx + dy * side))
    return side * side, pairs


def shuffled_grid(size):
    size, pairs = grid(size)
    random.shuffle(pairs)
    return size, pairs


def uniform(size):
    return size, [(row, random.randrange(size)) for row in range(size) for _ in range(10)]


def cycle(size):
    pairs = [(node, node) for node in range(size)]
    pairs += [(node, (node + 1) % size) for node in range(size)]
    return size, pairs + [((node + 1) % size, node) for node in range(size)]


def arrow(size):
    pairs = [(node, node) for node in range(size)]
    return size, pairs + [(0, node) for node in range(1, size)] + [(node, 0) for node in range(1, size)]


def leaves(size):
    half = size // 2
    pairs = [(node, node) for node in range(size)]
    shared = [(leaf, row) for leaf in range(half) for row in range(half, size)]
    return size, pairs + shared + [(row, leaf) for leaf, row in shared]


def multiplications(size, pairs):
    rows, cols = [0] * size, [0] * size
    for row, col in pairs:
        rows[row] += 1
        cols[col] += 1
    return sum(a * b for a, b in zip(rows, cols))


def written(folder, name, size, pairs):
    path = os.path.join(folder, "%s%d.mtx" % (name, size))
    with open(path, "w") as text:
        text.write("%%%%MatrixMarket matrix coordinate integer general\n%d %d %d\n" % (size, size, len(pairs)))
        text.writelines("%d %d %d\n" % (row + 1, col + 1, random.randint(1, 9)) for row, col in pairs)
    return path


def kernel_line(program, task, path, runs):
    lines = subprocess.run([program, task, path, str(runs)], stdout=subprocess.PIPE, check=True, text=True).stdout.splitlines()
    return lines[0].split()


def kernel_time(program, task, path):
    return int(kernel_line(program, task, path, RUNS)[3])


def process_time(command):
    best = None
    for _ in range(RUNS):
        start = time.perf_counter_ns()
        subprocess.run(command, stdout=subprocess.DEVNULL, check=True)
        spent = time.perf_counter_ns() - start
        best = spent if best is None else min(best, spent)
    return best


def instructions(command):
    tool = ["valgrind", "--tool=cachegrind", "--cache-sim=no", "--cachegrind-out-file=/dev/null"]
    said = subprocess.run(tool + command, stdout=subprocess.DEVNULL, stderr=subprocess.PIPE, check=True, text=True).stderr
    return int(re.search(r"I +refs: +([0-9,]+)", said).group(1).replace(",", ""))


def ours(task, path):
    """The instructions and the time of one run."""
    if task == "rw":
        command = [MTX, "rows", "1", path]
        return instructions(command), process_time(command)
    runs = [instructions([BENCH, task, path, str(count)]) for count in (1, 3)]
    return (runs[1] - runs[0]) // 2, kernel_time(BENCH, task, path)


def by_hand(task, path):
    if not os.path.exists(HAND):
        return None
    return process_time([HAND, "rw", path]) if task == "rw" else kernel_time(HAND, task, path)


def exponents(values, costs):
    if None in values:
        return "-"
    steps = range(len(values) - 1)
    return ", ".join("%.2f" % (math.log(values[k + 1] / values[k]) / math.log(costs[k + 1] / costs[k])) for k in steps)


def row(task, name, inputs):
    costs = [places if task in ("coo2csr", "transpose", "rw") else both for _, places, both in inputs]
    measured = [ours(task, path) for path, _, _ in inputs]
    counts, times = [count for count, _ in measured], [spent for _, spent in measured]
    each = ", ".join("%.0f" % (count / cost) for count, cost in zip(counts, costs))
    hand = [by_hand(task, path) for path, _, _ in inputs]
    cells = [task, name, each, exponents(counts, costs)]
    cells += [", ".join("%.2f" % (spent / 1e6) for spent in times), exponents(times, costs), exponents(hand, costs)]
    return "| " + " | ".join(cells) + " |"


def products(tasks, folder):
    for name, make in (("grid", grid), ("shuffled grid", shuffled_grid), ("uniform", uniform)):
        inputs = []
        for size in SIZES:
            count, pairs = make(size)
            path = written(folder, name.replace(" ", "_"), count, pairs)
            inputs.append((path, len(pairs), len(pairs) + multiplications(count, pairs)))
        for task in tasks:
            print(row(task, name, inputs), flush=True)


def factors(folder):
    for name, make, sizes in (
        ("grid", grid, SIZES),
        ("cycle", cycle, SIZES),
        ("arrow", arrow, ARROW_SIZES),
        ("leaves", leaves, ARROW_SIZES),
    ):
        inputs = []
        for size in sizes:
            count, pairs = make(size)
            path = written(folder, name, count, pairs)
            places = int(kernel_line(BENCH, "fill", path, 1)[5])
            inputs.append((path, len(pairs), len(pairs) + places))
        print(row("fill", name, inputs), flush=True)


def main(folder, tasks):
    os.makedirs(folder, exist_ok=True)
    random.seed(1)
    heads = ["Task", "Input", "instructions for each", "exponents", "ms at three sizes", "exponents of time", "of the C++"]
    print("| " + " | ".join(heads) + " |")
    print("|---" * len(heads) + "|")
    products([task for task in KERNELS + ("rw",) if task in tasks], folder)
    if "fill" in tasks:
        factors(folder)


if __name__ == "__main__":
    main(sys.argv[1] if len(sys.argv) > 1 else "/tmp/nalgebra_sparse_growth", sys.argv[2:] or KERNELS + ("rw", "fill"))
