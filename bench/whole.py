#!/usr/bin/env python3
"""Measures the whole way of a file: `kk plan`, `kk pack` and `kk unpack`, of the longest file of a few codes and of a tenth of it.

  bench/whole.py [RUNS]      RUNS of each command, 5 unless told

Each line is a command over a file, with the least of the runs' times, from before the process starts until it
has ended, what that is a byte of the file, and as a multiple of the same a byte of the tenth. What comes out of `unpack` is
compared with what went into `pack`, and every status with 0; where one is wrong the script ends with 1.
"""
import os
import random
import subprocess
import sys
import tempfile
import time

TOP = os.path.dirname(os.path.dirname(os.path.realpath(__file__)))
PROGRAM = os.environ.get("KK") or os.path.join(TOP, "boot", "kk")
# m, the low part of the modulus, l and k: the code of the longest file of all, one with a radius of 8, and one of short messages
CODES = [(32, 0x8D, 31, 31), (31, 0x9, 24, 16), (8, 0x1B, 8, 4)]
MAX_GENERATIONS = 16_384


def timed(words, source, out, runs):
    """The least time of the runs of a command from the file `source` to the file `out`."""
    best = None
    for _ in range(runs):
        with open(source, "rb") as taken, open(out, "wb") as given:
            began = time.perf_counter()
            done = subprocess.run([PROGRAM, *words], stdin=taken, stdout=given, stderr=subprocess.PIPE)
            passed = time.perf_counter() - began
        if done.returncode != 0:
            sys.exit(f"kk {words[0]}: status {done.returncode}: {done.stderr[-200:]!r}")
        best = passed if best is None else min(best, passed)
    return best


def way(code, size, runs, folder):
    """The times of plan, pack and unpack of a file of this size."""
    m, low, l, k = code
    file, ticket, capture, copy = (os.path.join(folder, name) for name in ("file", "ticket", "capture", "copy"))
    with open(file, "wb") as made:
        made.write(random.Random(size).randbytes(size))
    plan = timed(["plan", "00c0ffee", str(m), f"{low:016x}", str(l), str(k)], file, ticket, runs)
    with open(ticket) as read:
        word = read.read().strip()
    pack = timed(["pack", word], file, capture, runs)
    unpack = timed(["unpack", word], capture, copy, runs)
    with open(file, "rb") as sent, open(copy, "rb") as received:
        if sent.read() != received.read():
            sys.exit(f"kk unpack {word}: another file")
    return {"plan": plan, "pack": pack, "unpack": unpack}


def main():
    runs = int(sys.argv[1]) if len(sys.argv) > 1 else 5
    if not os.environ.get("KK"):
        subprocess.run([os.path.join(TOP, "boot", "check")], stdout=sys.stderr, check=True)
    print("| m, l, k | bytes | command | seconds | MB a second | ns a byte | to the tenth |")
    print("|---|---|---|---|---|---|---|")
    for code in CODES:
        longest = MAX_GENERATIONS * code[3] * code[0] // 8
        tenth = {}
        for size in (longest // 10, longest):
            with tempfile.TemporaryDirectory() as folder:
                times = way(code, size, runs, folder)
            for command, passed in times.items():
                per_byte = passed / size * 1e9
                ratio = f"{per_byte / tenth[command]:.2f}" if command in tenth else ""
                tenth.setdefault(command, per_byte)
                print(f"| {code[0]}, {code[2]}, {code[3]} | {size} | `{command}` | {passed:.4f} | {size / passed / 1e6:.1f} | {per_byte:.0f} | {ratio} |")


if __name__ == "__main__":
    main()
