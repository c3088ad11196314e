#!/usr/bin/env python3
"""Prints the microseconds of processor time to read and to write a submit of one letter and ones of 100 and of 1,000 operations.

    python3 bench/messages.py [PROGRAM]

PROGRAM is crates/bench_messages/out/bench_messages unless it is given (`rt run` in that folder builds it).
"""

import subprocess
import sys

REPEATS = [(1, 20_000), (100, 1_000), (1_000, 100)]


def submit(operations):
    one = '{"document":"b+1","operation":[{"retain_item_count":%d},{"characters":"h"}],"type":"mutate"}'
    return (
        '{"client":1,"hash":"eYTheTdCZGp0Bp8vDI5vHWkA/zj+heZDeOT2uSFhOqs=","number":1,"operations":[%s],'
        '"type":"submit","version":0,"wavelet":"a.com/w1/a.com/conv+root"}'
        % ",".join(one % (number + 1) for number in range(operations))
    )


def main():
    program = sys.argv[1] if len(sys.argv) > 1 else "crates/bench_messages/out/bench_messages"
    for operations, repeats in REPEATS:
        text = submit(operations)
        for work in ["read", "write"]:
            best = None
            for _ in range(3):
                done = subprocess.run([program, work, str(repeats)], input=text, capture_output=True, text=True, check=True)
                nanoseconds = int(done.stdout.split(",")[1].split()[0])
                best = nanoseconds if best is None else min(best, nanoseconds)
            print("%s a submit of %d operations (%d bytes): %.1f microseconds" % (work, operations, len(text), best / 1000))


main()
