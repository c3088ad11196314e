#!/usr/bin/env python3
"""What a run of the gate costs, in processor minutes by crate and part.

    python3 bench/gate.py [--table FILE] [COMMAND ..]

Runs the command, which is `bash .ci/run` where none is given, and watches the programs that it starts. When it has ended the table
is printed, in the form in which docs/PERFORMANCE.md has it; with --table it is also written to the file. What an earlier run has kept
on the machine isn't proved again: for a run from nothing move the kit's folder of kept work away first (it stands beside the kit, as
/opt/rattle-kept), or give `rt ci --anew` as the command.

Parts: `proof` is the crate's own, `tests` the crate with its tests, `base` what its must-fail edits begin with, `edits` the edits.
A program that ends is seen up to a fifth of a second before its end, so the parts are a little low; the sum is the system's own.
"""

import collections
import os
import re
import resource
import subprocess
import sys
import threading
import time

TICKS = os.sysconf("SC_CLK_TCK")
PARTS = ("proof", "tests", "base", "edits")


def words_of(number):
    with open(f"/proc/{number}/cmdline", encoding="utf-8", errors="replace") as it:
        return it.read().split("\0")


def used_by(number):
    """The parent of a process, and its processor seconds until now."""
    with open(f"/proc/{number}/stat", encoding="utf-8", errors="replace") as it:
        fields = it.read().rpartition(")")[2].split()
    return int(fields[1]), (int(fields[11]) + int(fields[12])) / TICKS


def part_of(words):
    """The crate and the part that a program of these words works for; None where it is no check of a crate."""
    if "--crate-name" not in words:
        return None
    crate = words[words.index("--crate-name") + 1]
    kept = words[words.index("--incremental") + 1] if "--incremental" in words else ""
    if re.search(r"rt-edits-[^/]*/seed$", kept):
        return crate, "base"
    if re.search(r"rt-edits-[^/]*/\d+$", kept):
        return crate, "edits"
    if "--test" in words:
        return crate, "tests"
    return crate, "proof" if words[1] == "build" or kept else "edits"


class Watch:
    """The processor seconds of a command's programs, by crate and part."""

    def __init__(self, top):
        self.top, self.seen, self.parts = top, {}, {}

    def look(self):
        parents = {}
        for name in os.listdir("/proc"):
            if name.isdigit():
                try:
                    parents[int(name)] = used_by(int(name))
                except (OSError, ValueError, IndexError):
                    pass  # it has just ended
        for number, (parent, seconds) in parents.items():
            above = parent
            while above in parents and above != self.top:
                above = parents[above][0]
            if above == self.top:
                self.note(number, seconds)

    def note(self, number, seconds):
        try:
            if number not in self.parts:
                self.parts[number] = part_of(words_of(number))
            self.seen[number] = max(seconds, self.seen.get(number, 0))
        except (OSError, ValueError, IndexError):
            pass

    def sums(self):
        found = collections.defaultdict(collections.Counter)
        for number, seconds in self.seen.items():
            if self.parts.get(number):
                crate, part = self.parts[number]
                found[crate][part] += seconds
        return found


def watched(command):
    """The command's status, its watch, and the seconds of the processors and of the clock that it took."""
    began = time.time()
    ran = subprocess.Popen(command)
    watch, ended = Watch(ran.pid), threading.Event()

    def go_on():
        while not ended.wait(0.2):
            watch.look()

    looking = threading.Thread(target=go_on)
    looking.start()
    status = ran.wait()
    ended.set()
    looking.join()
    took = resource.getrusage(resource.RUSAGE_CHILDREN)
    return status, watch, took.ru_utime + took.ru_stime, time.time() - began


def table(sums, all_seconds, clock):
    """The table's lines, dearest crate first."""
    cell = lambda seconds: f"{seconds / 60:.1f}" if seconds >= 3 else ""
    lines = ["| crate | " + " | ".join(PARTS) + " | sum |", "|---" * (len(PARTS) + 2) + "|"]
    for crate, parts in sorted(sums.items(), key=lambda it: -sum(it[1].values())):
        lines.append(f"| `{crate}` | " + " | ".join(cell(parts[it]) for it in PARTS) + f" | {sum(parts.values()) / 60:.1f} |")
    whole = collections.Counter()
    for parts in sums.values():
        whole.update(parts)
    rest = all_seconds - sum(whole.values())
    lines.append("| all crates | " + " | ".join(cell(whole[it]) for it in PARTS) + f" | {sum(whole.values()) / 60:.1f} |")
    lines.append(f"\nWith {rest / 60:.1f} minutes for compilers, runs of programs and tests and the rest, that is {all_seconds / 60:.0f} processor")
    lines.append(f"minutes, in {clock / 60:.0f} minutes by the clock on {os.cpu_count()} processors.")
    return lines


def main(words):
    to = None
    if words[:1] == ["--table"]:
        to, words = words[1], words[2:]
    status, watch, seconds, clock = watched(words or ["bash", ".ci/run"])
    lines = table(watch.sums(), seconds, clock)
    print("\n".join(lines), flush=True)
    if to:
        with open(to, "w", encoding="utf-8") as it:
            it.write("\n".join(lines) + "\n")
    return status


if __name__ == "__main__":
    sys.exit(main(sys.argv[1:]))
