#!/usr/bin/env python3
"""Times inserts into the shared table against inserts of the same rows into plain row spaces.

  bench/table.py [RUNS]     RUNS of each line, 7 unless told

Builds first. Each line is so many threads that fill generations of their own. Its columns are the least of the runs' times that
a thread takes for an insert; that time as a multiple of the one into a plain row space; and as a multiple of the one in so many
processes at the same time, each with one thread and a table of its own. Where a sum of ranks is wrong the line says so, and the
script ends with 1.
"""
import os
import subprocess
import sys

TOP = os.path.dirname(os.path.dirname(os.path.realpath(__file__)))
CRATE = os.path.join(TOP, "crates", "kk_bench")
PROGRAM = os.path.join(CRATE, "out", "kk_bench")
QUARTER, ROWS = 2_048, 70
INSERTS = 4 * QUARTER * ROWS


def run(threads, processes=1):
    """The nanoseconds that a thread takes for an insert in the slowest of the processes, and the sums of the ranks."""
    words = [PROGRAM, str(threads), str(QUARTER)]
    begun = [subprocess.Popen(words, stdout=subprocess.PIPE, stderr=subprocess.PIPE) for _ in range(processes)]
    told = [it.communicate() for it in begun]
    return max(int(err) for _, err in told) * max(threads, 1) / INSERTS, {int(out) for out, _ in told}


def main():
    runs = int(sys.argv[1]) if len(sys.argv) > 1 else 7
    subprocess.run(["rt", "run", "--", "0", "1"], cwd=CRATE, check=True, stdout=subprocess.DEVNULL, stderr=subprocess.DEVNULL)
    lines = [(0, 1), (1, 1), (2, 1), (4, 1), (1, 2), (1, 4)]
    least, ranks = {}, {it: set() for it in lines}
    # one after the other in each round, so that all see the same machine
    for _ in range(runs):
        for line in lines:
            nanos, sums = run(*line)
            least[line] = min(nanos, least.get(line, nanos))
            ranks[line] |= sums
    print(f"{'threads':<10}{'ns an insert':>14}{'to plain':>10}{'to processes':>14}")
    for threads in (0, 1, 2, 4):
        nanos = least[threads, 1]
        apart = f"{nanos / least[1, threads]:>14.2f}" if threads > 1 else ""
        wrong = "" if ranks[threads, 1] == ranks[0, 1] else "  wrong: another sum of ranks"
        print(f"{threads or 'plain':<10}{nanos:>14.1f}{nanos / least[0, 1]:>10.2f}{apart}{wrong}")
    sys.exit(any(it != ranks[0, 1] or len(it) != 1 for it in ranks.values()))


if __name__ == "__main__":
    main()
