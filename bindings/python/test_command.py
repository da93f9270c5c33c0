"""Runs `python -m nalgebra_sparse`, and tests in fractions that what it writes solves the system. Run by
bindings/test."""
import contextlib
import io
import os
import subprocess
import sys
import tempfile
from fractions import Fraction

HERE = os.path.dirname(os.path.abspath(__file__))
sys.path.insert(0, HERE)
from nalgebra_sparse import __main__ as command  # noqa: E402

HEAD = "%%MatrixMarket matrix"
# A 3 by 3 matrix that is not symmetric, with an entry that is given twice, and two right-hand sides.
A = f"{HEAD} coordinate integer general\n3 3 6\n1 2 3\n2 1 2\n2 2 1\n3 3 4\n3 1 -1\n3 3 3\n"
PLAIN = [[0, 3, 0], [2, 1, 0], [-1, 0, 7]]
B = f"{HEAD} array integer general\n3 2\n1\n1\n5\n0\n2\n-3\n"
RIGHT = [[1, 0], [1, 2], [5, -3]]


def run(*words):
    """Runs the command in this process, and returns its status, its output and its errors."""
    with contextlib.redirect_stdout(io.StringIO()) as said, contextlib.redirect_stderr(io.StringIO()) as errors:
        try:
            status = command.main(words)
        except SystemExit as ended:
            status = ended.code
    return status, said.getvalue(), errors.getvalue()


def run_apart(*words):
    """Runs the command as a process."""
    settings = {**os.environ, "PYTHONPATH": HERE}
    call = [sys.executable, "-B", "-m", "nalgebra_sparse", *words]
    ran = subprocess.run(call, env=settings, capture_output=True, text=True, check=False)
    return ran.returncode, ran.stdout, ran.stderr


def check_solution():
    status, said, errors = run("solve", "a.mtx", "b.mtx")
    assert (status, errors) == (0, ""), errors
    x = [[Fraction(word) for word in line.split(" ")] for line in said.splitlines()]
    assert said == "1/3 1\n1/3 0\n16/21 -2/7\n" == "".join(" ".join(map(str, row)) + "\n" for row in x)
    for row, right in zip(PLAIN, RIGHT):
        assert [sum(a * x[k][j] for k, a in enumerate(row)) for j in range(2)] == right
    assert run("solve", "--prime", "101", "a.mtx", "b.mtx") == run_apart("solve", "a.mtx", "b.mtx") == (0, said, "")


def check_long_fractions():
    """Fractions are written whole, also those with more digits than Python writes unless it is told to."""
    size = 50
    entries = [*(f"{i} {i} {10**17}" for i in range(1, size + 1)), *(f"{i + 1} {i} 1" for i in range(1, size))]
    for name, lines in (
        ("long.mtx", [f"{HEAD} coordinate integer general", f"{size} {size} {len(entries)}", *entries]),
        ("ones.mtx", [f"{HEAD} array integer general", f"{size} 1", *["1"] * size]),
    ):
        with open(name, "w", encoding="ascii") as file:
            file.write("\n".join(lines) + "\n")
    if hasattr(sys, "set_int_max_str_digits"):
        sys.set_int_max_str_digits(640)
    status, said, errors = run("solve", "long.mtx", "ones.mtx")
    assert (status, errors) == (0, ""), errors
    x = [Fraction(line) for line in said.splitlines()]
    assert len(x) == size and len(said.splitlines()[-1]) > 1500
    assert all(10**17 * now + before == 1 for before, now in zip([0, *x], x))


def check_errors():
    """Each error is one line that names the file, and no traceback."""
    for words, part in [
        (("solve", "none.mtx", "b.mtx"), "none.mtx"),
        (("solve", "a.mtx", "real.mtx"), "real.mtx: "),
        (("solve", "b.mtx", "a.mtx"), "do not fit"),
        (("solve", "a.mtx", "wide.mtx"), "do not fit"),
        (("solve", "zero.mtx", "zero.mtx"), "A^T A has no factorisation"),
        (("solve", "large.mtx", "zero.mtx"), "large.mtx: the sum of the entries at row 1 and column 1 has"),
        (("solve", "--prime", "4", "a.mtx", "b.mtx"), "MODULI"),
    ]:
        status, said, errors = run(*words)
        assert (status, said) == (1, "") and errors.startswith("nalgebra_sparse: ") and errors.count("\n") == 1 and part in errors, errors
    for words in ((), ("solve",), ("solve", "a.mtx"), ("multiply", "a.mtx", "b.mtx"), ("solve", "--prime", "x", "a.mtx", "b.mtx")):
        status, said, errors = run(*words)
        assert (status, said) == (2, "") and "usage: python -m nalgebra_sparse" in errors and "Traceback" not in errors
    assert run("--version")[:2] == (0, open(os.path.join(HERE, "..", "..", "VERSION"), encoding="ascii").read())
    assert run("solve", "--help")[0] == 0
    assert run_apart("solve", "none.mtx", "b.mtx") == run("solve", "none.mtx", "b.mtx")
    with open("/dev/full", "w", encoding="ascii") as full:
        settings = {**os.environ, "PYTHONPATH": HERE}
        call = [sys.executable, "-B", "-m", "nalgebra_sparse", "solve", "a.mtx", "b.mtx"]
        ran = subprocess.run(call, env=settings, stdout=full, stderr=subprocess.PIPE, text=True, check=False)
    assert ran.returncode and ran.stderr.startswith("nalgebra_sparse: ") and "Traceback" not in ran.stderr, ran.stderr


def main():
    texts = {"a": A, "b": B, "wide": f"{HEAD} array integer general\n1 2\n1\n2\n", "real": f"{HEAD} array real general\n1 1\n1.5\n"}
    texts["zero"] = f"{HEAD} coordinate integer general\n1 1 0\n"
    texts["large"] = f"{HEAD} coordinate integer general\n1 1 2\n1 1 {2**63 - 1}\n1 1 1\n"
    with tempfile.TemporaryDirectory() as folder:
        for name, text in texts.items():
            with open(os.path.join(folder, f"{name}.mtx"), "w", encoding="ascii") as file:
                file.write(text)
        os.chdir(folder)
        check_solution()
        check_long_fractions()
        check_errors()
        os.chdir(HERE)
    print("python: the command solves a system over the fractions, and each error is one line")


main()
