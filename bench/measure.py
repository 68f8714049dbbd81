#!/usr/bin/env python3
"""Runs the program and its peer on the same scripts, in turn, and compares them.

    measure.py PROGRAM PEER FOLDER [RUNS]

It prints ratios and sizes, and ends with 1 where an answer differs or a target
is missed.
"""

import filecmp
import os
import subprocess
import sys

# A script, and the most that the program may take of its peer's processor time and of its memory.
TARGETS = (("long", 0.7, 1.0), ("short", 0.95, 1.0), ("sum", 0.7, 1.0))
# The most that folding may take of the time of evaluating, and that of the peer's.
MOST_FOLDED = 0.1
MOST_CHAINED = 1.1
# Linux counts the resident size in units of 1024 bytes.
RESIDENT_UNIT = 1024


def run(command, script, answer):
    """The processor seconds, the system's among them, and the resident bytes of a run."""
    with open(script, "rb") as given, open(answer, "wb") as written:
        started = subprocess.Popen(command, stdin=given, stdout=written)
        _, status, used = os.wait4(started.pid, 0)
    started.returncode = os.waitstatus_to_exitcode(status)
    if started.returncode != 0:
        sys.exit(f"{command[0]} ended with status {started.returncode} on {script}")
    return used.ru_utime + used.ru_stime, used.ru_maxrss * RESIDENT_UNIT


def compare(commands, folder, name, runs):
    """For each command the least seconds and the most resident bytes on the script."""
    script = os.path.join(folder, name)
    answers = {who: f"{script}.{who}" for who in commands}
    measured = {who: [] for who in commands}
    for turn in range(runs + 1):
        for who, command in commands.items():
            used = run(command, script, answers[who])
            # The first turn only warms up.
            if turn > 0:
                measured[who].append(used)
    # Piece by piece: a child's resident size counts what this process had when it started the child.
    for who, answer in answers.items():
        if not filecmp.cmp(answer, answers["peer"], shallow=False):
            sys.exit(f"{name}: the answers differ: {answer} and {answers['peer']}")
    return {
        who: (min(seconds for seconds, _ in used), max(resident for _, resident in used))
        for who, used in measured.items()
    }


def is_like_peer(program, peer, folder, runs):
    """Whether the program keeps its targets beside the peer."""
    commands = {"program": [program, "eval"], "peer": [peer, "eval"]}
    missed = False
    for name, most_time, most_resident in TARGETS:
        used = compare(commands, folder, name, runs)
        own, of_peer = used["program"], used["peer"]
        time, resident = own[0] / of_peer[0], own[1] / of_peer[1]
        is_met = time <= most_time and resident <= most_resident
        missed |= not is_met
        print(
            f"{name}: {time:.2f} times its peer (at most {most_time}), "
            f"{resident:.2f} times its memory (at most {most_resident}; "
            f"{own[1] / 1e6:.0f} MB, the peer {of_peer[1] / 1e6:.0f}): "
            f"{'met' if is_met else 'MISSED'}"
        )
    return not missed


def is_folded(program, peer, folder, runs):
    """Whether a long chain of casts keeps its target, and is folded in a small part of its time."""
    commands = {"eval": [program, "eval"], "fold": [program, "fold"], "peer": [peer, "eval"]}
    used = compare(commands, folder, "chain", runs)
    seconds = {who: time for who, (time, _) in used.items()}
    part = seconds["fold"] / seconds["eval"]
    chained = seconds["eval"] / seconds["peer"]
    is_met = part <= MOST_FOLDED and chained <= MOST_CHAINED
    print(
        f"chain: eval {chained:.2f} times its peer (at most {MOST_CHAINED}), "
        f"fold {seconds['fold'] / seconds['peer']:.3f} times its peer; "
        f"fold {part:.3f} times eval (at most {MOST_FOLDED}): {'met' if is_met else 'MISSED'}"
    )
    return is_met


def main():
    program, peer, folder = (os.path.abspath(word) for word in sys.argv[1:4])
    runs = int(sys.argv[4]) if len(sys.argv) > 4 else 7
    are_met = [form(program, peer, folder, runs) for form in (is_like_peer, is_folded)]
    print("all answers are byte for byte those of the peer")
    sys.exit(0 if all(are_met) else 1)


if __name__ == "__main__":
    main()
