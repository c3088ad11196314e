#!/usr/bin/env python3
"""A user and the robot `echo` over `wave serve --echo`: python3 examples/echo.py [PROGRAM]

PROGRAM is crates/wave/out/wave unless it is given (`rt run` in crates/wave builds it). An assertion fails where the robot doesn't answer each edit
of a document other than its own once, where it answers while it is no participant, or where a server that starts again on its folder lets it
answer twice.
"""
import socket, subprocess, sys, tempfile
from pathlib import Path
from wave_client import Session

PROGRAM = sys.argv[1] if len(sys.argv) > 1 else Path(__file__).resolve().parent.parent / "crates" / "wave" / "out" / "wave"
WAVELET, ECHO = "a.com/w1/a.com/conv+root", "echo@a.com"


def free_port():
    with socket.socket() as s:
        s.bind(("127.0.0.1", 0))
        return s.getsockname()[1]


def start(folder, port):
    words = [PROGRAM, "serve", "--domain", "a.com", "--listen", f"127.0.0.1:{port}", "--store", folder, "--echo"]
    server = subprocess.Popen(words, stderr=subprocess.PIPE, text=True)
    print("<", server.stderr.readline().strip())
    return server


def read_until(session, copy, marks):
    """Reads until the robot's document has so many marks."""
    while len(copy.text("echo")) < marks:
        session.read()
    assert copy.text("echo") == "." * marks, copy.text("echo")


def type_word(copy, word):
    copy.edit("b+1", len(copy.documents.get("b+1", [])), word)
    copy.settle()


def main():
    port = free_port()
    with tempfile.TemporaryDirectory() as folder:
        server = start(folder, port)
        alice = Session(f"127.0.0.1:{port}", "alice@a.com", client=1)
        copy = alice.begin(WAVELET, ECHO)
        for count, word in enumerate(("Hello", ", ", "robot"), 1):
            type_word(copy, word)
            read_until(alice, copy, count)
        # its document isn't answered, and neither is anything while it takes no part
        copy.edit("echo", 3, "")
        copy.settle()
        copy.submit({"type": "remove", "participant": ECHO})
        copy.settle()
        type_word(copy, "?")
        copy.submit({"type": "add", "participant": ECHO})
        copy.settle()
        type_word(copy, "!")
        read_until(alice, copy, 4)
        server.kill()
        server.wait()
        print("> kill -9")
        server = start(folder, port)
        alice.connect()
        type_word(copy, " Again.")
        read_until(alice, copy, 5)
        bob = Session(f"127.0.0.1:{port}", "bob@a.com", client=1)
        copy.submit({"type": "add", "participant": "bob@a.com"})
        copy.settle()
        his = bob.open(WAVELET)
        assert his.text("echo") == copy.text("echo") == "....." and his.text("b+1") == copy.text("b+1"), his.text("echo")
        server.kill()
        server.wait()
    print(copy.text("b+1"), copy.text("echo"), f"version {copy.version}")


if __name__ == "__main__":
    main()
