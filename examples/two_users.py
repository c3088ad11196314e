#!/usr/bin/env python3
"""A session of two users over a store: python3 examples/two_users.py [PROGRAM]

PROGRAM is crates/wave/out/wave unless it is given (`rt run` in crates/wave builds it). Alice begins a wavelet and adds bob, both edit
one document, bob replies in a thread, alice makes him a reader, and he is refused. Then the program is started again on the same
folder, and what they wrote is there. Each line sent is printed after `>`, and each answer after `<`, as it comes.
"""

import json
import subprocess
import sys
import tempfile
from pathlib import Path

PROGRAM = sys.argv[1] if len(sys.argv) > 1 else Path(__file__).resolve().parent.parent / "crates" / "wave" / "out" / "wave"
WAVELET = "a.com/w1/a.com/conv+root"
ZERO = "eYTheTdCZGp0Bp8vDI5vHWkA/zj+heZDeOT2uSFhOqs="


class Pipe:
    """A running `wave pipe --store`, and the head of the wavelet as it was last told."""

    def __init__(self, folder):
        words = [PROGRAM, "pipe", "--store", folder]
        self.process = subprocess.Popen(words, stdin=subprocess.PIPE, stdout=subprocess.PIPE, text=True)
        self.head = (0, ZERO)

    def say(self, session, message, answers=1):
        """Sends a message, and reads so many lines."""
        line = json.dumps({"session": session, "message": message}, separators=(",", ":"))
        print(">", line)
        self.process.stdin.write(line + "\n")
        self.process.stdin.flush()
        for _ in range(answers):
            answer = self.process.stdout.readline()
            print("<", answer, end="")
            told = json.loads(answer)["message"]
            if told["type"] == "ack":
                self.head = (told["version"], told["hash"])

    def submit(self, session, client, number, operations, answers=1):
        version, host_hash = self.head
        message = {"type": "submit", "wavelet": WAVELET, "client": client, "number": number}
        message |= {"version": version, "hash": host_hash, "operations": operations}
        self.say(session, message, answers)

    def end(self):
        self.process.stdin.close()
        print("status", self.process.wait())


def change(document, *components):
    return {"type": "mutate", "document": document, "operation": list(components)}


def start(kind, **attributes):
    pairs = [{"key": key, "value": value} for key, value in sorted(attributes.items())]
    return {"element_start": {"type": kind, "attribute": pairs}}


END = {"element_end": True}

with tempfile.TemporaryDirectory() as folder:
    pipe = Pipe(folder)
    pipe.say("s1", {"type": "hello", "user": "alice@a.com"})
    pipe.say("s2", {"type": "hello", "user": "bob@b.com"})
    pipe.submit("s1", 1, 1, [{"type": "add", "participant": user} for user in ("alice@a.com", "bob@b.com")])
    for session in ("s1", "s2"):
        pipe.say(session, {"type": "open", "wavelet": WAVELET})
    blip = change("conversation", start("conversation"), start("blip", id="b+1"), END, END)
    pipe.submit("s1", 1, 2, [blip, change("b+1", {"characters": "hi"})], 3)
    pipe.submit("s2", 2, 1, [change("b+1", {"retain_item_count": 2}, {"characters": "!"})], 3)
    thread = [start("thread", id="t1"), start("blip", id="b+2"), END, END]
    reply = change("conversation", {"retain_item_count": 2}, *thread, {"retain_item_count": 2})
    pipe.submit("s2", 2, 2, [reply, change("b+2", {"characters": "hello"})], 3)
    pipe.submit("s1", 1, 3, [{"type": "set_role", "participant": "bob@b.com", "old": "full", "new": "read"}], 3)
    pipe.submit("s2", 2, 3, [change("b+2", {"retain_item_count": 5}, {"characters": "?"})])
    pipe.end()

    pipe = Pipe(folder)
    pipe.say("s1", {"type": "hello", "user": "bob@b.com"})
    pipe.say("s1", {"type": "open", "wavelet": WAVELET})
    pipe.end()
