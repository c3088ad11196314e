#!/usr/bin/env python3
"""Prints what a submission to `wave pipe` costs: python3 bench/pipe.py [PROGRAM]

PROGRAM is crates/wave/out/wave unless it is given (`rt run` in crates/wave builds it). Sessions take turns: each inserts a letter at the
front of a document of its wavelet, made on the last version that was told. Every
session has its wavelet open, so it is sent each delta of it. For 1, 4, 16 and 64 sessions on one wavelet and 64 sessions on 64, with
and without a store, a line has the microseconds of processor time for one submission. Then so many sessions on one wavelet type at
once: each submission of a round is made on the head before the round, so all but the first are late. What it costs to start the program and to open
the wavelets is measured by a run without submissions and taken off. The client waits for each answer. A line has what
the system's calls of a stored submission cost in a process that does nothing else: it reads, writes and syncs a record, writes and syncs a
byte, and answers. The last lines have what it takes for so many sessions to say hello, in a file that is read at once. Each figure is the least of
three runs. `--bars` leaves out all but the runs that have a bar.
"""

import json
import os
import subprocess
import sys
import tempfile
from pathlib import Path

WORDS = [word for word in sys.argv[1:] if word != "--bars"]
PROGRAM = WORDS[0] if WORDS else Path(__file__).resolve().parent.parent / "crates" / "wave" / "out" / "wave"
BARS = {(1, 1, False): 25, (64, 1, False): 100, (64, 64, False): 25, (1, 1, True): 80}
TOGETHER_BARS = {4: 60, 16: 100}
RUNS = [(1, 1), (4, 1), (16, 1), (64, 1), (64, 64)]
HELLOS = [10_000, 50_000]
SUBMISSIONS = 2_000
TIMES = 3


class Pipe:
    """A running program, and the head of each wavelet as it was last told."""

    def __init__(self, words):
        self.process = subprocess.Popen([PROGRAM, *words], stdin=subprocess.PIPE, stdout=subprocess.PIPE)
        self.heads = {}

    def say(self, session, message, answers=1):
        line = json.dumps({"session": session, "message": message}, separators=(",", ":"))
        self.process.stdin.write(line.encode() + b"\n")
        self.process.stdin.flush()
        for _ in range(answers):
            told = json.loads(self.process.stdout.readline())["message"]
            if told["type"] == "ack":
                self.heads[told["wavelet"]] = (told["version"], told["hash"])
            elif told["type"] not in ("welcome", "snapshot", "update"):
                sys.exit(f"unexpected: {told}")

    def submit(self, session, wavelet, client, number, operations, answers, base=None):
        version, host_hash = base or self.heads[wavelet]
        self.say(session, {"type": "submit", "wavelet": wavelet, "client": client, "number": number, "version": version, "hash": host_hash, "operations": operations}, answers)

    def end(self):
        """The seconds of processor time."""
        self.process.stdin.close()
        _, status, usage = os.wait4(self.process.pid, 0)
        if os.waitstatus_to_exitcode(status) != 0:
            sys.exit(f"the program ended with status {os.waitstatus_to_exitcode(status)}")
        return usage.ru_utime + usage.ru_stime


def zero_hash(wavelet):
    """The hash of a wavelet before its first delta, as the program tells it in a refusal."""
    pipe = Pipe(["pipe"])
    pipe.process.stdin.write(json.dumps({"session": "s", "message": {"type": "hello", "user": "u@a.com"}}).encode() + b"\n")
    add = [{"type": "add", "participant": "u@a.com"}]
    wrong = {"type": "submit", "wavelet": wavelet, "client": 1, "number": 1, "version": 0, "hash": "A" * 43 + "=", "operations": add}
    pipe.process.stdin.write(json.dumps({"session": "s", "message": wrong}).encode() + b"\n")
    pipe.process.stdin.flush()
    pipe.process.stdout.readline()
    told = json.loads(pipe.process.stdout.readline())["message"]
    pipe.end()
    return told["hash"]


def begun(sessions, wavelets, words):
    """A program with its sessions, and the names of their wavelets, which they have open."""
    pipe = Pipe(words)
    names = [f"a.com/w{number}/a.com/conv+root" for number in range(wavelets)]
    for number in range(sessions):
        pipe.say(f"s{number}", {"type": "hello", "user": f"u{number}@a.com"})
    for place, name in enumerate(names):
        pipe.heads[name] = (0, ZEROS[name])
        users = [number for number in range(sessions) if number % wavelets == place]
        add = [{"type": "add", "participant": f"u{number}@a.com"} for number in users]
        pipe.submit(f"s{users[0]}", name, 1_000_000, 1, add, 1)
        for number in users:
            pipe.say(f"s{number}", {"type": "open", "wavelet": name})
    return pipe, names


def typed(letters):
    """A letter in front of a document of so many."""
    rest = [{"retain_item_count": letters}] if letters else []
    return [{"type": "mutate", "document": "b+1", "operation": [{"characters": "x"}, *rest]}]


def measured(sessions, wavelets, submissions, words):
    """The cost of a run of so many submissions."""
    pipe, names = begun(sessions, wavelets, words)
    told = 1 + sessions // wavelets
    for number in range(submissions):
        session = number % sessions
        pipe.submit(f"s{session}", names[session % wavelets], session, number + 1, typed(number // wavelets), told)
    return pipe.end()


def measured_together(sessions, submissions):
    """The cost of a run of so many submissions, of which those of a round are made on one head."""
    pipe, (name,) = begun(sessions, 1, ["pipe"])
    for number in range(submissions):
        session = number % sessions
        if session == 0:
            base = pipe.heads[name]
        pipe.submit(f"s{session}", name, session, number + 1, typed(number - session), 1 + sessions, base)
    return pipe.end()


def calls_alone(path):
    """Makes the calls of stored submissions until the input ends."""
    file, end, record, answer = os.open(path, os.O_RDWR | os.O_CREAT), 1, bytes(85), b"x" * 497 + b"\n"
    while os.read(0, 65_536):
        os.pwrite(file, record, end)
        os.fdatasync(file)
        os.pwrite(file, b"\1", end - 1)
        os.fdatasync(file)
        os.write(1, answer)
        end += len(record)


def measured_calls(submissions):
    """The cost of the calls of so many stored submissions."""
    with tempfile.TemporaryDirectory() as folder:
        words = [sys.executable, __file__, "--calls", os.path.join(folder, "a")]
        process = subprocess.Popen(words, stdin=subprocess.PIPE, stdout=subprocess.PIPE)
        for _ in range(submissions):
            process.stdin.write(b"x" * 279 + b"\n")
            process.stdin.flush()
            process.stdout.readline()
        process.stdin.close()
        usage = os.wait4(process.pid, 0)[2]
        return usage.ru_utime + usage.ru_stime


def least(measure, *words):
    """The least of some runs."""
    return min(measure(*words) for _ in range(TIMES))


def measured_stored(sessions, wavelets, submissions):
    """The cost of such a run over a store of its own."""
    with tempfile.TemporaryDirectory() as folder:
        return measured(sessions, wavelets, submissions, ["pipe", "--store", folder])


def measured_plain(sessions, wavelets, submissions):
    """The cost of such a run without a store."""
    return measured(sessions, wavelets, submissions, ["pipe"])


def measured_hellos(sessions):
    """The cost of so many sessions that say hello."""
    with tempfile.TemporaryFile() as lines, open(os.devnull, "wb") as nowhere:
        for number in range(sessions):
            hello = {"session": f"s{number}", "message": {"type": "hello", "user": f"u{number}@a.com"}}
            lines.write(json.dumps(hello, separators=(",", ":")).encode() + b"\n")
        lines.seek(0)
        process = subprocess.Popen([PROGRAM, "pipe"], stdin=lines, stdout=nowhere)
        _, _, usage = os.wait4(process.pid, 0)
        return usage.ru_utime + usage.ru_stime


if "--calls" in sys.argv:
    calls_alone(sys.argv[-1])
    sys.exit()
ZEROS = {f"a.com/w{number}/a.com/conv+root": zero_hash(f"a.com/w{number}/a.com/conv+root") for number in range(64)}
for stored in (False, True):
    for sessions, wavelets in RUNS:
        bar = BARS.get((sessions, wavelets, stored))
        if bar is None and "--bars" in sys.argv:
            continue
        measure = measured_stored if stored else measured_plain
        cost = (least(measure, sessions, wavelets, SUBMISSIONS) - least(measure, sessions, wavelets, 0)) * 1e6 / SUBMISSIONS
        told = f", of at most {bar}" if bar else ""
        print(f"{sessions} sessions on {wavelets} wavelets{' with a store' if stored else ''}: {cost:.0f} microseconds a submission{told}", flush=True)
calls = (least(measured_calls, SUBMISSIONS) - least(measured_calls, 0)) * 1e6 / SUBMISSIONS
print(f"the system's calls of a stored submission alone: {calls:.0f} microseconds", flush=True)
for sessions, bar in TOGETHER_BARS.items():
    cost = (least(measured_together, sessions, SUBMISSIONS) - least(measured_together, sessions, 0)) * 1e6 / SUBMISSIONS
    print(f"{sessions} sessions that type at once: {cost:.0f} microseconds a submission, of at most {bar}", flush=True)
for sessions in HELLOS:
    print(f"{sessions} sessions say hello: {least(measured_hellos, sessions) * 1e6 / sessions:.0f} microseconds each", flush=True)
