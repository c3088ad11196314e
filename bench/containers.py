#!/usr/bin/env python3
"""What a submission to a container costs, and what it costs to open a stored history.

    python3 bench/containers.py [PROGRAM]

PROGRAM is crates/bench_containers/out/bench_containers unless it is given (`rt run` in crates/bench_containers builds it). The
histories are letters typed into one document, and the disk is one in memory. It prints the least of three runs: microseconds for
one submission at the head, with a journal and without one; for one that was made 1,000 and 10,000 deltas before the head; and
milliseconds to read a store of 20,000 deltas.
"""

import subprocess
import sys

REPEATS = 3
ROWS = [
    ("at the head, with a journal", "head", 20_000, 1_000, "microseconds a submission"),
    ("at the head, without one", "plain", 20_000, 1_000, "microseconds a submission"),
    ("made 1,000 deltas before the head", "behind", 1_000, 1_000, "microseconds a submission"),
    ("made 10,000 deltas before the head", "behind", 10_000, 1_000, "microseconds a submission"),
    ("a store of 20,000 deltas is read", "open", 20_000, 1_000_000, "milliseconds"),
]


def nanoseconds(program, work, count):
    """What the program says of one time of this work on so many deltas."""
    line = subprocess.run([program, work, str(count)], check=True, capture_output=True, text=True).stdout
    words = line.split()
    assert words[0] == work + ":" and words[-1] == "nanoseconds", line
    return int(words[-2])


def main():
    program = sys.argv[1] if len(sys.argv) > 1 else "crates/bench_containers/out/bench_containers"
    for text, work, count, unit, name in ROWS:
        least = min(nanoseconds(program, work, count) for _ in range(REPEATS))
        print("%-36s %10.1f %s" % (text, least / unit, name))


main()
