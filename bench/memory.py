#!/usr/bin/env python3
"""Each request for memory of the program refused in turn: python3 bench/memory.py [PROGRAM] [PART ..]

PROGRAM is crates/wave/out/wave unless it is given (`rt run` in crates/wave builds it), PART one of pipe, store, load, play, inbox, edit, serve, all of
them if none is given. An assertion fails where a refusal is met by anything but the answer that is documented, where what was answered before isn't
the beginning of what a run with all its memory answers, or where the same run again, with all its memory, doesn't end as it does without the refusal.
MOST in the environment is how many refusals a part has at the most, 400 if it isn't given; where there are more requests, those refused are spread over
them. `cc` builds bench/refusing.c, which refuses.
"""
import base64, os, re, subprocess, sys, tempfile, time
from collections import Counter
from pathlib import Path

HOME = Path(__file__).resolve().parent.parent
sys.path.insert(0, str(HOME / "examples"))
from hostile import ALICE, ELEMENT, HELLO, OPEN, WAVELET, line, mutation, submission
from two_sessions import free_port
from wave_client import Copy, Session, zero_hash

MOST = int(os.environ.get("MOST", "400"))
BOB = "bob@a.com"
TALK = [
    ("s1", HELLO),
    ("s1", submission([{"type": "add", "participant": ALICE}, {"type": "add", "participant": BOB}])),
    ("s1", OPEN),
    ("s2", {"type": "hello", "user": BOB}),
    ("s2", OPEN),
    ("s1", submission([mutation({"characters": "Hello"})], number=2)),
    ("s1", {"type": "submit"}),
    ("s1", submission([mutation({"element_start": ELEMENT}, {"characters": "x"}, {"element_end": True})], number=3)),
    ("s2", {"type": "close", "wavelet": WAVELET}),
    ("s1", submission([{"type": "noop"}], number=4)),
]
LINES = b"".join(line(message, session) + b"\n" for session, message in TALK)
LOOK = b"".join(line(message) + b"\n" for message in (HELLO, OPEN))
COMMANDS = b"create W\nadd bob@a.com\nnext - b+1\ntype b+1 0 Hello\nsync\nshow\nquit\n"


class Refusing:
    """Starts programs of which one request for memory is refused."""

    def __init__(self, place):
        self.library, self.noted = f"{place}/refusing.so", f"{place}/noted"
        subprocess.run(["cc", "-O2", "-shared", "-fPIC", "-o", self.library, f"{HOME}/bench/refusing.c"], check=True)

    def outside(self, number):
        Path(self.noted).unlink(missing_ok=True)
        return os.environ | {"LD_PRELOAD": self.library, "REFUSED": str(number), "NOTED": self.noted}

    def note(self, word):
        """The number in the line of this word; None where there is none."""
        found = re.search(rf"^{word} (\d+)$", Path(self.noted).read_text() if os.path.exists(self.noted) else "", re.M)
        return found and int(found[1])

    def run(self, words, data=b"", number=0):
        ran = subprocess.run(words, input=data, capture_output=True, env=self.outside(number), timeout=60)
        assert number == 0 or self.note("refused") == number, (words, number)
        return ran.returncode, stripped(ran.stdout)

    def count(self, words, data=b""):
        """How many requests a run makes, its status and what it answers."""
        whole = self.run(words, data)
        return self.note("made"), *whole


def stripped(told):
    """What is answered, without what the clock decides."""
    return re.sub(rb'"(time|hash)":("[^"]*"|\d+),?', b"", told)


def numbers(made):
    """The requests that are refused, in turn."""
    return range(1, made + 1) if made <= MOST else sorted({1 + i * (made - 1) // (MOST - 1) for i in range(MOST)})


def told(part, made, ends):
    print(f"{part}: of {made} requests for memory {sum(ends.values())} were refused, one a run; statuses {dict(sorted(ends.items()))}", flush=True)


def is_begun(status, answered, whole):
    """With 0 all is answered, with 8 a beginning; no other status comes."""
    return answered == whole if status == 0 else status == 8 and whole.startswith(answered)


def alone(refusing, part, words, data):
    """Runs over nothing that stays: after each the same again is whole."""
    made, status, whole = refusing.count(words, data)
    assert status == 0 and whole, (part, status)
    ends = Counter()
    for number in numbers(made):
        status, answered = refusing.run(words, data, number)
        assert is_begun(status, answered, whole), (part, number, status, answered[-300:])
        ends[status] += 1
    assert refusing.run(words, data) == (0, whole)
    told(part, made, ends)


def acknowledgements(answered):
    return re.findall(rb'"number":(\d+),"type":"ack","version":(\d+)', answered)


def store(refusing, program):
    """Over a store: the same lines again are acknowledged as they would have been at once, and what stands then is the same."""
    with tempfile.TemporaryDirectory() as folder:
        made, status, whole = refusing.count([program, "pipe", "--store", folder], LINES)
        seen = refusing.run([program, "pipe", "--store", folder], LOOK)
    assert status == 0 and len(acknowledgements(whole)) == 4, (status, whole)
    ends = Counter()
    for number in numbers(made):
        with tempfile.TemporaryDirectory() as folder:
            words = [program, "pipe", "--store", folder]
            status, answered = refusing.run(words, LINES, number)
            assert is_begun(status, answered, whole), (number, status, answered[-300:])
            again = refusing.run(words, LINES)
            assert again[0] == 0 and acknowledgements(again[1]) == acknowledgements(whole), (number, again)
            assert refusing.run(words, LOOK) == seen, number
            ends[status] += 1
    told("store", made, ends)


def played(refusing, part, words, data):
    """Commands over a store, of which no file changes."""
    with tempfile.TemporaryDirectory() as folder:
        assert refusing.run([words[0], "pipe", "--store", folder], LINES)[0] == 0
        files = lambda: {file.name: file.read_bytes() for file in Path(folder).iterdir()}
        before = files()
        alone(refusing, part, [*words, "--store", folder], data)
        assert files() == before, part


def server_of(program, port, folder, *words, **more):
    lead = [program, "serve", "--domain", "a.com", "--listen", f"127.0.0.1:{port}", "--store", folder, "--echo"]
    server = subprocess.Popen([*lead, *words], stderr=subprocess.PIPE, **more)
    server.stderr.readline()
    return server


def edit(refusing, program):
    """A terminal client of a server with all its memory: what it typed stands once, or not at all, and another run goes on from there."""
    with tempfile.TemporaryDirectory() as folder:
        port = free_port()
        server = server_of(program, port, folder)
        words = lambda client: [program, "edit", "--user", ALICE, "--client", str(client), "--connect", f"127.0.0.1:{port}"]
        typed = lambda number: COMMANDS.replace(b"W", b"a.com/w%05d/a.com/conv+root" % number)
        plain = lambda answered: re.sub(rb"a\.com/w\d{5}/", b"", answered)
        made, status, whole = refusing.count(words(1), typed(0))
        assert status == 0 and b"b+1: Hello" in whole, (status, whole)
        ends = Counter()
        for number in numbers(made):
            status, answered = refusing.run(words(2 * number), typed(number), number)
            # (the system's own look-up of an address takes memory, too, and without it nobody is reached)
            assert (status, answered) == (7, b"") or is_begun(status, plain(answered), plain(whole)), (number, status, answered)
            look = b"open a.com/w%05d/a.com/conv+root\nsync\nshow\nquit\n" % number
            again, shown = refusing.run(words(2 * number + 1), look)
            assert again == 0 and shown.count(b"Hello") <= 1 and (status != 0 or b"b+1: Hello" in shown), (number, again, shown)
            ends[status] += 1
        server.kill()
        server.wait()
    told("edit", made, ends)


class Server:
    """A server on a folder. Where it ends, with 8, it is started again with all its memory."""

    def __init__(self, program, folder, *words, **more):
        self.program, self.folder, self.port, self.ends = program, folder, free_port(), 0
        self.process = server_of(program, self.port, folder, *words, **more)

    def look(self):
        if self.process.poll() is not None:
            assert self.process.returncode == 8, self.process.returncode
            self.ends += 1
            self.process = server_of(self.program, self.port, self.folder)


class Typist:
    """A user who comes back after each cut."""

    def __init__(self, server):
        self.server, self.session, self.cuts = server, None, 0
        self.do(lambda: None)
        self.copy = self.session.copies[WAVELET] = Copy(self.session, WAVELET)

    def connect(self):
        if self.session is None:
            self.session = Session(f"127.0.0.1:{self.server.port}", ALICE, 1)
        else:
            self.session.connect()
        self.session.link.socket.settimeout(5)

    def do(self, work):
        """Does the work, anew after each cut. Where there is no session yet it begins with a link."""
        is_cut = self.session is None
        for _ in range(200):
            try:
                if is_cut:
                    self.connect()
                return work()
            except OSError:
                is_cut, self.cuts = True, self.cuts + 1
                time.sleep(0.01)
                self.server.look()
        raise AssertionError("the server doesn't answer")

    def read_until(self, holds):
        while not holds():
            self.session.read()

    def begin(self):
        copy = self.copy
        copy.submit({"type": "add", "participant": ALICE}, {"type": "add", "participant": "echo@a.com"})
        self.do(lambda: self.read_until(lambda: copy.flight is None or copy.awaited is not None))
        copy.land()
        start = {"version": 0, "hash": base64.b64encode(zero_hash(WAVELET)).decode()}
        self.do(lambda: copy.is_open or self.session.say({"type": "open", "wavelet": WAVELET} | start))
        self.do(lambda: self.read_until(lambda: copy.version > 0))

    def type(self, word):
        self.do(lambda: self.copy.edit("b+1", len(self.copy.text("b+1")), word) if self.copy.flight is None else None)
        self.do(self.copy.settle)


def talk(server):
    """A user types three words, and waits for the robot's marks."""
    typist = Typist(server)
    typist.begin()
    for word in ("one ", "two ", "three"):
        typist.type(word)
    typist.do(lambda: typist.read_until(lambda: typist.copy.text("echo") == "..."))
    assert typist.copy.text("b+1") == "one two three", typist.copy.documents
    return typist


def served(refusing, program, number, *words):
    """One talk with a server of which a request is refused: whether it was met, the cuts, how often the server ended, and what stands then."""
    with tempfile.TemporaryDirectory() as folder:
        server = Server(program, folder, *words, env=refusing.outside(number))
        typist = talk(server)
        if words:
            typist.session.close()
            assert server.process.wait(60) == 0
        server.process.kill()
        server.process.wait()
        met, made = refusing.note("refused") == number, refusing.note("made")
        seen = refusing.run([program, "pipe", "--store", folder], LOOK)
    return met, made, typist.cuts, server.ends, seen


def serve(refusing, program):
    """A server goes on, or ends with 8; each word stands once, and each has its mark, once its user and its operator come back."""
    _, made, cuts, ended, wanted = served(refusing, program, 0, "--sessions", "1")
    assert (cuts, ended) == (0, 0) and wanted[0] == 0
    ends = Counter()
    for number in numbers(made):
        met, _, cuts, ended, seen = served(refusing, program, number)
        assert seen == wanted, (number, seen)
        ends["unmet" if not met else "ended with 8" if ended else "cut" if cuts else "went on"] += 1
    assert ends["unmet"] * 10 <= sum(ends.values()), ends
    print(f"serve: of {made} requests for memory {sum(ends.values())} were refused, one a run; the server: {dict(sorted(ends.items()))}", flush=True)


def main():
    names = ("pipe", "store", "load", "play", "inbox", "edit", "serve")
    parts = [it for it in sys.argv[1:] if it in names] or names
    program = next((os.path.abspath(it) for it in sys.argv[1:] if it not in names), str(HOME / "crates/wave/out/wave"))
    with tempfile.TemporaryDirectory() as place:
        refusing = Refusing(place)
        for part in parts:
            if part == "pipe":
                alone(refusing, part, [program, "pipe"], LINES)
            elif part == "store":
                store(refusing, program)
            elif part == "load":
                alone(refusing, part, [program, "load", "20"], b"")
            elif part == "play":
                played(refusing, part, [program, "play", "--wavelet", WAVELET], b"next\nshow\ngoto 3\nback\nshow\nquit\n")
            elif part == "inbox":
                played(refusing, part, [program, "inbox", "--user", ALICE], b"list\nsearch Hello\nread a.com/w1/a.com/conv+root 3\nlist\nquit\n")
            elif part == "edit":
                edit(refusing, program)
            elif part == "serve":
                serve(refusing, program)


if __name__ == "__main__":
    main()
