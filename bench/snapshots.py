#!/usr/bin/env python3
"""Prints the processor time that the program takes to answer an open by a snapshot, for wavelets of many documents of one letter.

    python3 bench/snapshots.py [PROGRAM]

PROGRAM is crates/wave/out/wave unless it is given (`rt run` in crates/wave builds it).
"""

import json
import subprocess
import sys

WAVELET = "a.com/w1/a.com/conv+root"
ZERO_HASH = "eYTheTdCZGp0Bp8vDI5vHWkA/zj+heZDeOT2uSFhOqs="
OPENS = 5


class Session:
    def __init__(self, program):
        self.pipe = subprocess.Popen([program, "pipe"], stdin=subprocess.PIPE, stdout=subprocess.PIPE, text=True)

    def say(self, message, wanted):
        self.pipe.stdin.write(json.dumps({"session": "s1", "message": message}) + "\n")
        self.pipe.stdin.flush()
        answer = json.loads(self.pipe.stdout.readline())["message"]
        if answer["type"] != wanted:
            raise SystemExit("%s was to come, and not %s" % (wanted, answer))
        return answer

    def milliseconds(self):
        with open("/proc/%d/stat" % self.pipe.pid) as file:
            fields = file.read().rsplit(")", 1)[1].split()
        return 10 * (int(fields[11]) + int(fields[12]))


def fill(session, documents):
    operations = [{"type": "add", "participant": "alice@a.com"}]
    for number in range(documents):
        operations.append({"type": "mutate", "document": "d%d" % number, "operation": [{"characters": "h"}]})
    version, digest = 0, ZERO_HASH
    for number, start in enumerate(range(0, len(operations), 1000)):
        submit = {"type": "submit", "wavelet": WAVELET, "client": 1, "number": number + 1, "version": version, "hash": digest}
        answer = session.say({**submit, "operations": operations[start : start + 1000]}, "ack")
        version, digest = answer["version"], answer["hash"]


def main():
    program = sys.argv[1] if len(sys.argv) > 1 else "crates/wave/out/wave"
    for documents in [1_000, 10_000, 50_000]:
        session = Session(program)
        session.say({"type": "hello", "user": "alice@a.com"}, "welcome")
        fill(session, documents)
        start = session.milliseconds()
        for _ in range(OPENS):
            session.say({"type": "open", "wavelet": WAVELET}, "snapshot")
            session.say({"type": "close", "wavelet": WAVELET}, "closed")
        print("%d documents: %.0f milliseconds an open" % (documents, (session.milliseconds() - start) / OPENS))
        session.pipe.stdin.close()
        session.pipe.wait()


main()
