#!/usr/bin/env python3
"""Counts the instructions of `kk pack` and `kk unpack` for a byte of the file, at (m, l, k) = (31, 24, 16), (40, 20, 10) and
(8, 8, 4).

  bench/per_byte.py [GENERATIONS]     500 unless told

Each command runs under callgrind over a file of so many generations and over one of twice as many: the
difference is what the bytes cost, without the start and the tables. What `unpack` writes is compared with the file, and every
status with 0; where one is wrong the script ends with 1. It needs `valgrind`.
"""
import os
import random
import re
import subprocess
import sys
import tempfile

sys.dont_write_bytecode = True
from capture import Ticket, capture

TOP = os.path.dirname(os.path.dirname(os.path.realpath(__file__)))
PROGRAM = os.environ.get("KK") or os.path.join(TOP, "boot", "kk")
# m, the modulus X^m + low, l and k; the first is tried with loss too
CODES = [(31, 0x9, 24, 16), (40, 0x39, 20, 10), (8, 0x1B, 8, 4)]
# what happened to a capture on its way, and how many dimensions of each codeword were erased and injected
WAYS = [
    ("`unpack`, random combinations", 0, 0),
    ("`unpack`, 4 erased", 4, 0),
    ("`unpack`, 8 erased", 8, 0),
    ("`unpack`, 2 erased and 2 injected", 2, 2),
    ("`unpack`, on the radius: 4 erased and 4 injected", 4, 4),
]


def counted(words, source, owed):
    """The instructions of a run, and what it wrote, which is compared where something is owed."""
    with tempfile.TemporaryFile() as given, tempfile.TemporaryFile() as out:
        given.write(source)
        given.seek(0)
        line = ["valgrind", "--tool=callgrind", "--callgrind-out-file=/dev/null", PROGRAM, *words]
        done = subprocess.run(line, stdin=given, stdout=out, stderr=subprocess.PIPE)
        out.seek(0)
        written = out.read()
    if done.returncode != 0 or owed not in (None, written):
        sys.exit(f"kk {words[0]}: status {done.returncode}, or another file")
    return int(re.search(rb"Collected : (\d+)", done.stderr)[1]), written


def counts(code, generations):
    """The instructions of each command over a file of so many generations, and how many bytes that has."""
    m, low, l, k = code
    file = random.Random(generations).randbytes(k * m // 8 * generations)
    text = f"kk1:00c0ffee:{m}:{low:016x}:{l}:{k}:{len(file)}"
    found = {}
    found["`pack`"], packed = counted(["pack", text], file, None)
    found["`unpack`, as packed"], _ = counted(["unpack", text], packed, file)
    for name, erased, injected in WAYS if code == CODES[0] else []:
        frames, _ = capture(Ticket(text), file, erased, injected)
        found[name], _ = counted(["unpack", text], frames, file)
    return found, len(file)


def main():
    generations = int(sys.argv[1]) if len(sys.argv) > 1 else 500
    if not os.environ.get("KK"):
        subprocess.run([os.path.join(TOP, "boot", "check")], stdout=sys.stderr, check=True)
    print("| m, l, k | command | instructions a byte |\n|---|---|---|")
    for code in CODES:
        once, bytes_once = counts(code, generations)
        twice, bytes_twice = counts(code, 2 * generations)
        for name, count in once.items():
            m, _, l, k = code
            print(f"| {m}, {l}, {k} | {name} | {(twice[name] - count) / (bytes_twice - bytes_once):.0f} |", flush=True)


if __name__ == "__main__":
    main()
