#!/usr/bin/env python3
"""Measures how fast the built program unpacks, on captures that it makes itself: generations and file bytes a second.

  bench/unpack.py [RUNS]     RUNS of each capture, 5 unless told

Each line is a code, a share of the radius and the least of the runs' times, from before the process starts
until it has ended, over a capture of so many generations that this takes a good part of a second. The last column is the time
of a generation as a multiple of that in the first line of the same code; in the second table, of the first line of all. Where a
file, a report or a status is wrong the line says so, and the script ends with 1.
"""
import os
import subprocess
import sys
import tempfile
import time

sys.dont_write_bytecode = True
from capture import Ticket, capture

TOP = os.path.dirname(os.path.dirname(os.path.realpath(__file__)))
PROGRAM = os.environ.get("KK") or os.path.join(TOP, "boot", "kk")
LOW = {8: 0x1B, 31: 0x9, 40: 0x39, 62: (1 << 29) + 1}
CODES = [(8, 8, 4), (31, 24, 16), (40, 20, 10), (62, 1, 1)]
GROWTH = [(40, l, l // 2) for l in (2, 4, 8, 16, 22)]
MOST_GENERATIONS, LONG_ENOUGH = 16_384, 0.5


def ticket_of(m, l, k, generations):
    """The ticket of the longest file of so many generations."""
    return Ticket(f"kk1:00c0ffee:{m}:{LOW[m]:016x}:{l}:{k}:{generations * k * m // 8}")


def run(ticket, frames, report, file):
    """The time of one run, or what is wrong with it."""
    with tempfile.TemporaryFile() as source, tempfile.TemporaryFile() as out, tempfile.TemporaryFile() as told:
        source.write(frames)
        source.seek(0)
        began = time.perf_counter()
        status = subprocess.run([PROGRAM, "unpack", ticket.text], stdin=source, stdout=out, stderr=told).returncode
        passed = time.perf_counter() - began
        out.seek(0)
        told.seek(0)
        if status == 0 and out.read() == file and told.read() == report.encode():
            return passed, None
        return passed, f"status {status}"


def shares(l, k):
    """Names and numbers of erased and injected dimensions: none, half of the radius l - k, and all of it."""
    found = []
    for name, loss in (("no errors", 0), ("half the radius", (l - k) // 2), ("on the radius", l - k)):
        if loss or name == "no errors":
            found.append((name, (loss + 1) // 2, loss // 2))
    return found


def measure(m, l, k, erased, injected, runs):
    """The generations, the file's bytes and the least time of the runs, or what went wrong."""
    generations = 16
    while True:
        ticket = ticket_of(m, l, k, generations)
        file = bytes(at * at % 251 for at in range(ticket.length))
        frames, report = capture(ticket, file, erased, injected, seed=l)
        passed, wrong = run(ticket, frames, report, file)
        if wrong or passed >= LONG_ENOUGH or 4 * generations > MOST_GENERATIONS:
            break
        generations *= 4
    for _ in range(0 if wrong else runs - 1):
        again, wrong = run(ticket, frames, report, file)
        passed = min(passed, again)
        if wrong:
            break
    return ticket.generations, ticket.length, passed, wrong


def table(codes, runs, one_base=False):
    """Prints a line for each code and each share of its radius, and tells whether all were right."""
    head = f"{'(m, l, k)':<14}{'errors':<17}{'erased':>7}{'injected':>9}{'generations':>12}"
    print(f"{head}{'seconds':>9}{'gen/s':>10}{'bytes/s':>11}{'times':>8}")
    right, base = True, None
    for m, l, k in codes:
        base = base if one_base else None
        for name, erased, injected in shares(l, k):
            generations, length, passed, wrong = measure(m, l, k, erased, injected, runs)
            head = f"{f'({m}, {l}, {k})':<14}{name:<17}{erased:>7}{injected:>9}"
            if wrong:
                print(head, f" wrong: {wrong}")
                right = False
            else:
                base = base or passed / generations
                rates = f"{generations / passed:>10.0f}{length / passed:>11.0f}{passed / generations / base:>8.2f}"
                print(f"{head}{generations:>12}{passed:>9.3f}{rates}", flush=True)
    return right


def main():
    runs = int(sys.argv[1]) if len(sys.argv) > 1 else 5
    if not os.environ.get("KK"):
        subprocess.run([os.path.join(TOP, "boot", "check")], stdout=sys.stderr, check=True)
    right = table(CODES, runs)
    print("\nHow the cost grows with l, at m = 40 and k = l / 2:")
    right = table(GROWTH, runs, one_base=True) and right
    sys.exit(not right)


if __name__ == "__main__":
    main()
