#!/usr/bin/env python3
"""How long the proof of each function takes, while `rt ci` or `rt ci NAME` runs in another terminal.

    python3 bench/proof_times.py [LINES]

The prover keeps each module that it has checked as a file, in a folder of /tmp for each crate, until the crate is done. The time
between two files is what the later one took. When a crate is done its dearest functions are printed, with seconds by the clock:
what else runs on the machine makes them more. Edits, and crates that an earlier run proved, print nothing. End it with Ctrl-C.
"""

import collections
import glob
import os
import sys
import time

FOLDERS = "/tmp/rattle-logic-built-locked-*"


def crate_of(folder):
    """The crate whose check keeps its work in this folder, by the words of the process that is named in it."""
    with open(f"/proc/{folder.split('-')[-2]}/cmdline", encoding="utf-8") as it:
        words = it.read().split("\0")
    tests = " (tests)" if "--test" in words else ""
    return words[words.index("--crate-name") + 1] + tests


def times(files):
    """Seconds by function, from the moments at which its modules were checked."""
    seconds, before = collections.Counter(), None
    for moment, name in sorted((moment, name) for name, moment in files.items()):
        if before is not None:
            seconds[name.removesuffix(".oantt").rpartition(".")[0]] += moment - before
        before = moment
    return seconds


def show(crate, files, lines):
    seconds = times(files)
    print(f"{crate}: {sum(seconds.values()):.0f} seconds")
    for name, took in seconds.most_common(lines):
        print(f"    {took:7.1f}  {name}", flush=True)


def watch(lines):
    crates, found = {}, {}
    while True:
        there = set(glob.glob(FOLDERS))
        for folder in there:
            try:
                if folder not in crates:
                    crates[folder] = crate_of(folder)
                files = found.setdefault(folder, {})
                for entry in os.scandir(folder):
                    if entry.name not in files:
                        files[entry.name] = entry.stat().st_mtime
            except (OSError, ValueError, IndexError):
                pass  # the check has just ended
        for folder in [it for it in crates if it not in there]:
            show(crates.pop(folder), found.pop(folder, {}), lines)
        time.sleep(2)


if __name__ == "__main__":
    try:
        watch(int(sys.argv[1]) if len(sys.argv) > 1 else 15)
    except KeyboardInterrupt:
        pass
