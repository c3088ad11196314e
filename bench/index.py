#!/usr/bin/env python3
"""Prints what it costs an index to take a delta of one letter, and to search for a word, for documents of words of five letters.

    python3 bench/index.py [PROGRAM]

PROGRAM is crates/bench_index/out/bench_index unless it is given (`rt run` in crates/bench_index builds it). Each figure is the least
of three runs, in microseconds.
"""

import os
import subprocess
import sys

WORKS = ("take", "search", "miss")
LETTERS = (1_000, 100_000)
REPEATS = 2_000


def microseconds(program, work, letters):
    printed = subprocess.run([program, work, str(letters), str(REPEATS)], check=True, capture_output=True, text=True).stdout
    return int(printed.split()[-2]) / 1000


def main():
    root = os.path.dirname(os.path.dirname(os.path.abspath(__file__)))
    program = sys.argv[1] if len(sys.argv) > 1 else os.path.join(root, "crates", "bench_index", "out", "bench_index")
    print("| work | " + " | ".join(f"{letters:,} letters" for letters in LETTERS) + " |")
    for work in WORKS:
        figures = [min(microseconds(program, work, letters) for _ in range(3)) for letters in LETTERS]
        print(f"| {work} | " + " | ".join(f"{figure:.1f}" for figure in figures) + " |")


main()
