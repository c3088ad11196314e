"""Prints the processor time and the peak memory of `wave load N`. First build the program: cd crates/wave && rt run -- load 0"""
import os
import subprocess
import sys
from pathlib import Path

WAVE = Path(__file__).resolve().parent.parent / "crates" / "wave" / "out" / "wave"
COUNTS = (0, 2000, 20000)


def measured(count):
    """The line, the seconds and the KiB of one run."""
    process = subprocess.Popen([WAVE, "load", str(count)], stdout=subprocess.PIPE)
    line = process.stdout.read().decode()
    _, status, usage = os.wait4(process.pid, 0)
    if os.waitstatus_to_exitcode(status) != 0:
        sys.exit(f"load {count} ended with status {os.waitstatus_to_exitcode(status)}")
    return line.strip(), usage.ru_utime + usage.ru_stime, usage.ru_maxrss


for count in COUNTS:
    line, seconds, memory = measured(count)
    print(f"{line}: {seconds:.2f} seconds, {memory} KiB")
