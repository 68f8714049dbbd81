#!/usr/bin/env python3
"""Runs the loops over words and their peer in turn, and compares them.

    measure_words.py PROGRAM PEER [RUNS]

The time of no round is taken off each, so that what is left is the rounds'. It
prints ratios, and ends with 1 where two sums differ.
"""

import statistics
import subprocess
import sys
import time

# An operation, and how many rounds over a million words it is run.
ROUNDS = (("add", 1000), ("multiply", 600), ("floor_div", 150))


def run(program, operation, rounds):
    """The seconds of a run, and the sum that it prints."""
    start = time.perf_counter()
    done = subprocess.run(
        [program, operation, str(rounds)], capture_output=True, text=True, check=True
    )
    return time.perf_counter() - start, done.stdout


def main():
    program, peer = sys.argv[1:3]
    runs = int(sys.argv[3]) if len(sys.argv) > 3 else 7
    for operation, rounds in ROUNDS:
        times = {(who, n): [] for who in (program, peer) for n in (0, rounds)}
        sums = {}
        for _ in range(runs):
            for who in (program, peer):
                for n in (0, rounds):
                    seconds, total = run(who, operation, n)
                    times[who, n].append(seconds)
                    sums.setdefault(n, set()).add(total)
        if any(len(totals) != 1 for totals in sums.values()):
            sys.exit(f"{operation}: the sums differ")
        of_rounds = {
            who: statistics.median(times[who, rounds]) - statistics.median(times[who, 0])
            for who in (program, peer)
        }
        print(f"{operation}: {of_rounds[program] / of_rounds[peer]:.2f} times its peer")


if __name__ == "__main__":
    main()
