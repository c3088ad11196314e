#!/usr/bin/env python3
"""Two users edit one document at once through `wave serve`, whose process is killed in the middle and started again on its folder:
python3 examples/two_sessions.py [PROGRAM]

PROGRAM is crates/wave/out/wave unless it is given (`rt run` in crates/wave builds it). An assertion fails where an acknowledged edit is gone,
where one is there twice, or where the two see different texts.
"""
import os, random, signal, socket, subprocess, sys, tempfile, time
from pathlib import Path
from wave_client import Session

PROGRAM = sys.argv[1] if len(sys.argv) > 1 else Path(__file__).resolve().parent.parent / "crates" / "wave" / "out" / "wave"
WAVELET = "a.com/w1/a.com/conv+root"
EDITS, KILLS = 60, 3


def free_port():
    with socket.socket() as s:
        s.bind(("127.0.0.1", 0))
        return s.getsockname()[1]


def start(folder, port):
    words = [PROGRAM, "serve", "--domain", "a.com", "--listen", f"127.0.0.1:{port}", "--store", folder]
    server = subprocess.Popen(words, stderr=subprocess.PIPE, text=True)
    print("<", server.stderr.readline().strip())
    return server


def edit(copy, word, chance):
    """Types a word at a drawn place."""
    copy.edit("b+1", chance.randrange(len(copy.documents.get("b+1", [])) + 1), word)


def settle(session, copy):
    """Reads until nothing waits; connects again where the link was cut."""
    for _ in range(200):
        try:
            return copy.settle()
        except OSError:
            time.sleep(0.05)
            try:
                session.connect()
            except OSError:
                pass
    raise AssertionError("the server didn't come back")


def main():
    chance, port = random.Random(7), free_port()
    with tempfile.TemporaryDirectory() as folder:
        server = start(folder, port)
        alice, bob = (Session(f"127.0.0.1:{port}", f"{name}@a.com", client) for client, name in ((1, "alice"), (2, "bob")))
        hers = alice.begin(WAVELET, "bob@a.com")
        his = bob.open(WAVELET)
        words = []
        for step in range(EDITS):
            for session, copy, mark in ((alice, hers, "a"), (bob, his, "b")):
                words.append(f"({mark}{step})")
                try:
                    edit(copy, words[-1], chance)
                except OSError:
                    pass
            if step % (EDITS // KILLS) == EDITS // KILLS // 2:
                os.kill(server.pid, signal.SIGKILL)
                server.wait()
                print("> kill -9")
                server = start(folder, port)
            settle(alice, hers)
            settle(bob, his)
        reader = Session(f"127.0.0.1:{port}", "alice@a.com", 3)
        seen = reader.open(WAVELET)
        for session, copy in ((alice, hers), (bob, his)):
            while copy.version < seen.version:
                session.read()
            assert copy.hash == seen.hash and copy.text("b+1") == seen.text("b+1"), "two texts"
        # words are cut by words that were typed inside them, so letters are counted
        assert sorted(seen.text("b+1")) == sorted("".join(words)), "an edit is gone, or there twice"
        assert hers.acknowledged == list(range(1, EDITS + 2)) and his.acknowledged == list(range(1, EDITS + 1))
        print(f"version {seen.version}, {len(seen.text('b+1'))} letters, {KILLS} kills, both see the same")
        for session in (alice, bob, reader):
            session.close()
        server.kill()
        server.wait()


if __name__ == "__main__":
    main()
