#!/usr/bin/env python3
"""Runs the calls of a column of words and their peer in turn, and compares them.

    measure_chunks.py PROGRAM PEER [RUNS]

The processor time of no round is taken off each, so that what is left is the
rounds'; of several runs the best one counts. It prints ratios, and ends with 1
where two answers differ or a target is missed.
"""

import resource
import subprocess
import sys

# Rows of the columns that are compared with the peer.
ROWS = 1_000_000

# How far nulls are apart (0: none), and the most time that is wanted, in the peer's.
NULLS = ((0, 1.3), (16, 2.0))

# A call, and how many rounds over a million slots it is run.
REDUCTIONS = (("sum", 600), ("product", 600), ("min", 600), ("max", 600))

# Calls of columns of moments, and the most time that is wanted.
TEMPORAL = (("add", 200, 1.3), ("coarser", 200, 1.5), ("finer", 200, 1.5))

# The same for calls that are made on one chunk and on 100,000, of as many slots as the script `short`
# has, and the most time that is wanted on many, in that on one. It is wanted of chunks that are parts
# of one buffer, as those of a script are; what chunks in memory of their own take is told beside it.
MANY_ROWS = 4_000_000
MANY = 40
CALLS = (("sum", 200), ("reverse", 20), ("take", 5), ("views", 60), ("runs", 40))
MOST_ON_MANY = 2.0


def run(command):
    """The processor seconds of a run, and what it prints."""
    before = resource.getrusage(resource.RUSAGE_CHILDREN)
    done = subprocess.run(command, capture_output=True, text=True, check=True)
    after = resource.getrusage(resource.RUSAGE_CHILDREN)
    used = after.ru_utime + after.ru_stime - before.ru_utime - before.ru_stime
    return used, done.stdout


def ratio(first, second, runs):
    """How many times the rounds of the second command the rounds of the first one take."""
    best = {}
    answers = {}
    for _ in range(runs):
        for who, command in (("first", first), ("second", second)):
            for rounds in (0, command[-1]):
                used, answer = run([*command[:-1], str(rounds)])
                best[who, rounds] = min(used, best.get((who, rounds), used))
                answers.setdefault(rounds, set()).add(answer)
    if any(len(each) != 1 for each in answers.values()):
        sys.exit(f"{first}: the answers differ")
    rounds = first[-1]
    of_rounds = {who: best[who, rounds] - best[who, 0] for who in ("first", "second")}
    return of_rounds["first"] / of_rounds["second"]


def is_met(text, times, most):
    print(f"{text}: {times:.2f} (at most {most}): {'met' if times <= most else 'MISSED'}", flush=True)
    return times <= most


def command(program, call, null_step, rows, chunk_rows, memory, rounds):
    return [program, call, str(null_step), str(rows), str(chunk_rows), memory, rounds]


def are_like_peer(program, peer, runs):
    """Whether calls on one chunk keep their targets beside the peer."""
    met = []
    for null_step, most in NULLS:
        calls = [(call, rounds, most) for call, rounds in REDUCTIONS] + list(TEMPORAL)
        for call, rounds, most in calls:
            pair = [command(who, call, null_step, ROWS, ROWS, "shared", rounds) for who in (program, peer)]
            nulls = f"one null in {null_step}" if null_step else "no nulls"
            met.append(is_met(f"{call}, {nulls}, times its peer", ratio(*pair, runs), most))
    return met


def are_like_one(program, runs):
    """Whether calls on many chunks take little longer than on one."""
    met = []
    for call, rounds in CALLS:
        one = command(program, call, 0, MANY_ROWS, MANY_ROWS, "shared", rounds)
        parts, own = (
            command(program, call, 0, MANY_ROWS, MANY, memory, rounds) for memory in ("shared", "own")
        )
        text = f"{call}, {MANY_ROWS // MANY:,} parts of one buffer, times one chunk"
        met.append(is_met(text, ratio(parts, one, runs), MOST_ON_MANY))
        print(f"{call}, as many in memory of their own: {ratio(own, one, runs):.2f}", flush=True)
    return met


def main():
    program, peer = sys.argv[1:3]
    runs = int(sys.argv[3]) if len(sys.argv) > 3 else 7
    met = are_like_peer(program, peer, runs) + are_like_one(program, runs)
    sys.exit(0 if all(met) else 1)


if __name__ == "__main__":
    main()
