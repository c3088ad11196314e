#!/usr/bin/env python3
"""Users of two domains write one wavelet, each at the server of their own: python3 examples/two_servers.py [PROGRAM]

PROGRAM is crates/wave/out/wave unless it is given (`rt run` in crates/wave builds it). a.com hosts the wavelet, b.com keeps a copy of it and hands its
user's submissions on. What each user is told is printed; an assertion fails where the two see different texts in the end.
"""
import subprocess, sys, time
from pathlib import Path
from two_sessions import free_port
from wave_client import Session

PROGRAM = sys.argv[1] if len(sys.argv) > 1 else Path(__file__).resolve().parent.parent / "crates" / "wave" / "out" / "wave"
WAVELET = "a.com/w1/a.com/conv+root"


def start(program, domain, ports, folder=None):
    """The server of a domain, which dials those of all others."""
    others = ",".join(f"{other}=127.0.0.1:{port}" for other, port in ports.items() if other != domain)
    words = [program, "serve", "--domain", domain, "--listen", f"127.0.0.1:{ports[domain]}", "--peer", others]
    server = subprocess.Popen(words + (["--store", folder] if folder else []), stderr=subprocess.PIPE, text=True)
    assert server.stderr.readline()
    return server


def open_copy(session, wavelet, seconds=30):
    """The wavelet, once the user's server has a copy of it in which the user takes part."""
    until = time.time() + seconds
    while time.time() < until:
        copy = session.open(wavelet)
        if copy.is_open:
            return copy
        time.sleep(0.02)
    raise AssertionError(f"{session.user} never saw {wavelet}")


class Told(Session):
    """A session that prints what it is told."""

    def read(self):
        message = super().read()
        said = {name: value for name, value in message.items() if name in ("type", "user", "number", "version", "reason", "author", "at")}
        print(f"  {self.user} <", " ".join(f"{name}={value}" for name, value in said.items()))
        return message


def main():
    ports = {"a.com": free_port(), "b.com": free_port()}
    servers = [start(PROGRAM, domain, ports) for domain in ports]
    alice, bob = Told(f"127.0.0.1:{ports['a.com']}", "alice@a.com", 1), Told(f"127.0.0.1:{ports['b.com']}", "bob@b.com", 1)
    hers = alice.begin(WAVELET, "bob@b.com")
    hers.edit("b+1", 0, "Hello")
    hers.settle()
    his = open_copy(bob, WAVELET)
    print(f"bob@b.com sees {his.text('b+1')!r} and types after it, at his own server")
    his.edit("b+1", len(his.text("b+1")), ", Alice!")
    his.settle()
    while hers.version < his.version:
        alice.read()
    assert hers.hash == his.hash and hers.text("b+1") == his.text("b+1") == "Hello, Alice!"
    print(f"both see {hers.text('b+1')!r} at version {hers.version}")
    for session in (alice, bob):
        session.close()
    for server in servers:
        server.kill()
        server.wait()


if __name__ == "__main__":
    main()
