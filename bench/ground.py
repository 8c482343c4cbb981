#!/usr/bin/env python3
"""Counts the instructions of works of kk, and of the same works in plain C.

  bench/ground.py [WORK ..]     these works, or all

Builds first: crates/kk_yard, which calls kk's crates, and bench/yardstick.c. Each work is run by both under callgrind, with so
many rounds and with twice as many; the difference is what that many rounds cost, without the start and the tables. A line is a
work, the instructions of one in kk and in C, and the one as a multiple of the other. Both print a sum over the results: where
two differ the line says so, and the script ends with 1. It needs `cc` and `valgrind`.
"""
import os
import re
import subprocess
import sys
import tempfile

TOP = os.path.dirname(os.path.dirname(os.path.realpath(__file__)))
CRATE = os.path.join(TOP, "crates", "kk_yard")
PROGRAM = os.path.join(CRATE, "out", "kk_yard")
# the moduli, and the field of the code (31, 24, 16)
LOWS = {8: "0x1b", 31: "9", 40: "0x39", 62: "0x20000001"}
OF_CODE = 31
# the works that are counted in each field, and their rounds
OF_FIELD = {"product": 10_000, "square": 10_000, "inverse": 200}
# a work's word, the field, what one of it is, how many rounds are counted, and how many of it a round has
WORKS = [
    *((work, m, f"{work}, m = {m}", rounds, 1) for work, rounds in OF_FIELD.items() for m in LOWS),
    ("dense", OF_CODE, "insert, 63 drawn rows of 63 bits", 100, 63),
    ("sent", OF_CODE, "insert, 24 rows of 55 bits as sent", 100, 24),
    ("recoded", OF_CODE, "insert, the same recoded", 100, 24),
    ("values", OF_CODE, "value of 16 coefficients, m = 31", 1_000, 1),
    ("interpolate", OF_CODE, "interpolation of 24 points, k = 16, m = 31", 16, 1),
    ("products", OF_CODE, "encode (31, 24, 16) by products", 16, 1),
    ("encode", OF_CODE, "encode (31, 24, 16) by tables", 1_000, 1),
    ("decode", OF_CODE, "decode (31, 24, 16), 24 rows", 16, 1),
    ("errors", OF_CODE, "decode, 4 erased and 4 injected", 16, 1),
]


def build(folder):
    """Builds kk_yard, and a yardstick for each field."""
    subprocess.run(["rt", "run", "--", "product31", "1"], cwd=CRATE, check=True, stdout=subprocess.DEVNULL, stderr=subprocess.DEVNULL)
    source = os.path.join(TOP, "bench", "yardstick.c")
    yardsticks = {}
    for m, low in LOWS.items():
        yardsticks[m] = os.path.join(folder, f"yardstick{m}")
        subprocess.run(["cc", "-O3", "-march=x86-64-v2", f"-DM={m}", f"-DLOW={low}", "-o", yardsticks[m], source], check=True)
    return yardsticks


def run(program, work, rounds):
    """The instructions of a run, and what it prints."""
    words = ["valgrind", "--tool=callgrind", "--callgrind-out-file=/dev/null", program, work, str(rounds)]
    told = subprocess.run(words, check=True, capture_output=True, text=True)
    return int(re.search(r"Collected : (\d+)", told.stderr)[1]), told.stdout


def cost(program, work, rounds):
    """The instructions of so many rounds, and the sums that were printed."""
    once, first = run(program, work, rounds)
    twice, second = run(program, work, 2 * rounds)
    return twice - once, (first, second)


def main():
    asked = sys.argv[1:]
    if not set(asked) <= {work for work, *_ in WORKS}:
        sys.exit(__doc__)
    right = True
    with tempfile.TemporaryDirectory() as folder:
        yardsticks = build(folder)
        print("| work | kk | C | to C |\n|---|---|---|---|")
        for work, m, name, rounds, times in WORKS:
            if asked and work not in asked:
                continue
            here, sums = cost(PROGRAM, f"{work}{m}" if work in OF_FIELD else work, rounds)
            there, others = cost(yardsticks[m], work, rounds)
            wrong = "" if sums == others else " wrong: another result"
            right = right and not wrong
            print(f"| {name} | {here / rounds / times:.0f} | {there / rounds / times:.0f} | {here / there:.2f} |{wrong}", flush=True)
    sys.exit(not right)


if __name__ == "__main__":
    main()
