#!/usr/bin/env python3
"""Prints what it costs a client to type a letter in the middle of a document, and to show its screen.

    python3 bench/client.py [PROGRAM [WAVE]]

PROGRAM is crates/bench_client/out/bench_client unless it is given (`rt run` in crates/bench_client builds it), WAVE crates/wave/out/wave.
Each figure is the least of three runs, in microseconds: a letter that is typed and whose delta comes back from the server, one that is
typed while an earlier one is unanswered, and `show`; and then the processor time of a whole `wave edit` for a letter, over a `wave serve`
on this machine.
"""

import os
import resource
import socket
import subprocess
import sys

WORKS = (("answered", 1_000), ("typed", 1_000), ("show", 20))
LETTERS = (1_000, 100_000)


def microseconds(program, work, letters, repeats):
    printed = subprocess.run([program, work, str(letters), str(repeats)], check=True, capture_output=True, text=True).stdout
    return int(printed.split()[-2]) / 1000


def free_port():
    with socket.socket() as s:
        s.bind(("127.0.0.1", 0))
        return s.getsockname()[1]


def processor_time(wave, letters, typed):
    """Seconds of a client that makes a document of so many letters, and then types more, one after the other, in its middle."""
    address = f"127.0.0.1:{free_port()}"
    server = subprocess.Popen([wave, "serve", "--domain", "a.com", "--listen", address], stderr=subprocess.PIPE, text=True)
    server.stderr.readline()
    filled = [f"type b+1 0 {'x' * (letters // 2)}", "sync"] * 2
    lines = ["create a.com/w1/a.com/conv+root", "next - b+1", *filled, *[f"type b+1 {letters // 2} y"] * typed, "sync", "show"]
    before = resource.getrusage(resource.RUSAGE_CHILDREN)
    words = [wave, "edit", "--user", "alice@a.com", "--client", "1", "--connect", address]
    edit = subprocess.run(words, input="\n".join(lines) + "\n", capture_output=True, text=True)
    after = resource.getrusage(resource.RUSAGE_CHILDREN)
    assert edit.returncode == 0 and edit.stdout.count("y") >= typed and edit.stdout.count("x") == letters
    server.kill()
    server.wait()
    server.stderr.close()
    return after.ru_utime + after.ru_stime - before.ru_utime - before.ru_stime


def letter_over_link(wave, letters, typed=2_000):
    """Microseconds for each letter."""
    idle, busy = (min(processor_time(wave, letters, count) for _ in range(3)) for count in (0, typed))
    return (busy - idle) / typed * 1e6


def main():
    root = os.path.dirname(os.path.dirname(os.path.abspath(__file__)))
    program = sys.argv[1] if len(sys.argv) > 1 else os.path.join(root, "crates", "bench_client", "out", "bench_client")
    print("| work | " + " | ".join(f"{letters:,} letters" for letters in LETTERS) + " |")
    for work, repeats in WORKS:
        figures = [min(microseconds(program, work, letters, repeats) for _ in range(3)) for letters in LETTERS]
        print(f"| {work} | " + " | ".join(f"{figure:.1f}" for figure in figures) + " |")
    wave = sys.argv[2] if len(sys.argv) > 2 else os.path.join(root, "crates", "wave", "out", "wave")
    print("| over a link | " + " | ".join(f"{letter_over_link(wave, letters):.0f}" for letters in LETTERS) + " |")


main()
