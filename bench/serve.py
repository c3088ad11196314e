#!/usr/bin/env python3
"""Sessions of `wave serve`: what a submission costs, what idle sessions cost, and what hostile clients and those that don't read do.

    bench/serve.py [PROGRAM] [PART ..]

PROGRAM is crates/wave/out/wave unless it is given (`rt run` in crates/wave builds it), PART one of rates, store, idle, hostile, unread, all of them
if none is given. An assertion fails where the server does anything else than it should. The clients of rates and store are processes of
bench/writers.c, which `cc` builds.
"""
import base64, hashlib, json, os, random, re, resource, signal, socket, subprocess, sys, tempfile, time
from pathlib import Path
from links import Client, processor, resident

ACK = re.compile(rb'\{"at":\d+,"client":\d+,"hash":"([^"]+)","number":(\d+),"type":"ack","version":(\d+)')
CLOSE = b"\x88\x82\0\0\0\0\x03\xe8"


class Session(Client):
    """A session. Messages come whole, and `next` gives them one by one."""

    def __init__(self, port, user):
        super().__init__(port)
        self.messages = []
        self.say({"type": "hello", "user": f"{user}@a.com"})
        assert b'"welcome"' in self.next()

    def say(self, message):
        self.send(json.dumps(message, separators=(",", ":")).encode())

    def take(self):
        """Takes in what is there, and gives the new messages, whole."""
        got = self.s.recv(1 << 20)
        if not got:
            self.closed = True
            return []
        d, new, at = self.data, [], 0
        d += got
        while len(d) - at >= 2:
            n, h = d[at + 1] & 127, 2
            if n > 125:
                h = 4 if n == 126 else 10
                if len(d) - at < h:
                    break
                n = int.from_bytes(d[at + 2 : at + h], "big")
            if len(d) - at < h + n:
                break
            if d[at] & 15 == 8:
                self.closed = True
            else:
                new.append(bytes(d[at + h : at + h + n]))
            at += h + n
        del d[:at]
        return new

    def next(self, seconds=60):
        """The next message; None where the server let go of the link."""
        self.s.settimeout(seconds)
        try:
            while not self.messages and not self.closed:
                self.messages += self.take()
        except ConnectionError:
            self.closed = True
        self.s.settimeout(None)
        return self.messages.pop(0) if self.messages else None


def name_of(wavelet):
    return f"a.com/w{wavelet}/a.com/conv+root"


class Writer(Session):
    """A session that types letters, with one submission under way."""

    def __init__(self, port, number, wavelet):
        super().__init__(port, f"u{number}")
        self.name, self.client, self.number, self.updates = name_of(wavelet), number + 1, 0, 0

    def begin(self, users):
        start = base64.b64encode(hashlib.sha256(self.name.encode()).digest()).decode()
        self.submit(0, start, [{"type": "add", "participant": f"u{user}@a.com"} for user in users])
        self.base = self.acknowledged(self.next())

    def join(self, base):
        self.first = base[0]
        self.base = base
        self.say({"type": "open", "wavelet": self.name})
        assert b'"snapshot"' in self.next()

    def submit(self, version, known, operations):
        self.number += 1
        message = {"type": "submit", "wavelet": self.name, "client": self.client, "number": self.number}
        self.say(message | {"version": version, "hash": known, "operations": operations})

    def mutate(self, operation):
        self.submit(*self.base, [{"type": "mutate", "document": "b+1", "operation": operation}])

    def type(self):
        """Types a letter at the front of a document in which each delta since the first version typed one."""
        count = self.base[0] - self.first
        self.mutate([{"characters": "x"}] + [{"retain_item_count": count}] * (count > 0))

    def acknowledged(self, message):
        found = ACK.match(message)
        assert found and int(found[2]) == self.number, message
        return int(found[3]), found[1].decode()

    def settle(self):
        """Reads until the submission under way is acknowledged, and gives the seconds."""
        begin = time.time()
        while not (message := self.next()).startswith(b'{"at"'):
            assert message.startswith(b'{"author"'), message
        self.base = self.acknowledged(message)
        return time.time() - begin


def free_port():
    with socket.socket() as s:
        s.bind(("127.0.0.1", 0))
        return s.getsockname()[1]


def start(program, *words, cores=None):
    port = free_port()
    lead = ["taskset", "-c", f"0-{cores - 1}"] if cores else []
    server = subprocess.Popen([*lead, program, "serve", "--domain", "a.com", "--listen", f"127.0.0.1:{port}", *words], stderr=subprocess.PIPE, text=True)
    told = server.stderr.readline()
    assert str(port) in told, told
    return server, port


def let_go(clients):
    """Each session is ended by its client."""
    for c in clients:
        c.s.sendall(CLOSE)
    for c in clients:
        assert c.ended()
        c.s.close()


def stop(server):
    server.send_signal(signal.SIGKILL)
    server.wait()


def built_writers(folder):
    """The program bench/writers.c, built there."""
    program = f"{folder}/writers"
    subprocess.run(["cc", "-O2", "-o", program, Path(__file__).with_name("writers.c")], check=True)
    return program


def hand_on(program, writers, each, all_updates, cores):
    """A process of bench/writers.c that goes on with these sessions, whose links stay ours. It leaves these cores to the server, if there are others."""
    fds = [w.s.fileno() for w in writers]
    lead = ["taskset", "-c", f"{cores}-{os.cpu_count() - 1}"] if cores < os.cpu_count() else []
    writer = subprocess.Popen([*lead, program, str(each), str(all_updates)], stdin=subprocess.PIPE, stdout=subprocess.PIPE, text=True, pass_fds=fds)
    for w, fd in zip(writers, fds):
        assert not w.data and not w.messages
        writer.stdin.write(f"{fd} {w.client} {w.number} {w.first} {w.base[0]} {w.base[1]} {w.name}\n")
    writer.stdin.flush()
    return writer


def rates(program, sessions, wavelets, each, cores=None, store=False):
    """Each session has its wavelet open and one submission under way. As many processes of clients as there are processors share them."""
    with tempfile.TemporaryDirectory() as folder, tempfile.TemporaryDirectory() as place:
        more = ["--store", folder] if store else []
        client = built_writers(place)
        server, port = start(program, "--sessions", str(sessions + 1), *more, cores=cores)
        maker, bases = Writer(port, 10_000, 0), {}
        writers = [Writer(port, i, i % wavelets) for i in range(sessions)]
        for wavelet in range(wavelets):
            maker.name, maker.number = name_of(wavelet), 0
            maker.begin([10_000, *range(wavelet, sessions, wavelets)])
            bases[maker.name] = maker.base
        for w in writers:
            w.join(bases[w.name])
        groups = [hand_on(client, writers[k::count], each, each * sessions // wavelets, cores or os.cpu_count()) for count in [min(os.cpu_count(), sessions)] for k in range(count)]
        before, begin = processor(server.pid), time.time()
        for group in groups:
            group.stdin.write("go\n")
            group.stdin.flush()
        for group in groups:
            assert group.stdout.readline() == "done\n"
        wall, used, total = time.time() - begin, processor(server.pid) - before, each * sessions
        memory = resident(server.pid)
        let_go([maker, *writers])
        assert server.wait(20) == 0
    kind = " with a store" if store else ""
    print(f"| {sessions} on {wavelets}{kind} | {cores or os.cpu_count()} | {used / total * 1e6:.0f} | {total / wall:.0f} | {memory:.0f} |", flush=True)


def all_rates(program):
    print("| sessions on wavelets | cores | us of processor a submission | submissions a second | MB |\n|---|---|---|---|---|")
    for cores in [n for n in (1, 2, 4) if n <= os.cpu_count()]:
        for sessions, wavelets, each in ((4, 1, 2000), (64, 64, 200), (64, 1, 60)):
            rates(program, sessions, wavelets, each, cores)


def store(program):
    for sessions, wavelets, each in ((4, 1, 500), (64, 64, 30)):
        rates(program, sessions, wavelets, each, store=True)


def idle(program, sessions=1000, seconds=10):
    server, port = start(program, "--sessions", str(sessions + 1))
    first = Writer(port, 0, 0)
    first.begin([0])
    first.join(first.base)
    base = resident(server.pid)
    others = [Session(port, "u0") for _ in range(sessions)]
    for c in others:
        c.say({"type": "open", "wavelet": name_of(0)})
        assert b'"snapshot"' in c.next()
    time.sleep(4)
    grown, before = resident(server.pid) - base, processor(server.pid)
    time.sleep(seconds)
    used = processor(server.pid) - before
    print(f"{sessions} idle sessions: {used / seconds * 100:.2f} % of a core, {grown * 1024 / sessions:.0f} KB each", flush=True)
    begin = time.time()
    first.type()
    for c in others:
        assert b'"author"' in c.next()
    print(f"  an edit is at all of them after {(time.time() - begin) * 1e3:.0f} ms", flush=True)
    let_go([first, *others])
    assert server.wait(20) == 0


def hostile_frames(chance):
    good = {"type": "submit", "wavelet": name_of(0), "client": 1, "number": 1, "version": 0, "hash": "A" * 43 + "=", "operations": [{"type": "noop"}]}
    good = json.dumps(good, separators=(",", ":")).encode()
    kinds = [b"", b"{}", b"[" * 200, b'{"type":"hello"}', b"\xff\xfe", b'{"type":"open","wavelet":"x"}', b'{"type":"have"}', good[:-1], good, good.replace(b"noop", b"mutate")]
    while True:
        frame = bytearray(chance.choice(kinds))
        for _ in range(chance.randrange(3)):
            if frame:
                frame[chance.randrange(len(frame))] = chance.randrange(256)
        yield bytes(frame), chance.choice((1, 2))


def is_text(data):
    try:
        data.decode()
        return True
    except UnicodeDecodeError:
        return False


def hostile(program, links=50, frames=2000):
    """So many frames that no client should send over each of so many links, and another session is served meanwhile. Each is answered once; but a
    text frame that is no text ends its link, and the client comes again."""
    server, port = start(program)
    chance, writer = random.Random(1), Writer(port, 0, 0)
    writer.begin([0])
    writer.join(writer.base)
    sessions = [Session(port, f"h{i}") for i in range(links)]
    source, slowest, seen, ends = hostile_frames(chance), 0.0, [], 0
    for round in range(frames):
        sent = [next(source) for _ in sessions]
        for c, (frame, kind) in zip(sessions, sent):
            c.send(frame, kind)
        writer.type()
        slowest = max(slowest, writer.settle())
        for i, (frame, kind) in enumerate(sent):
            answer = sessions[i].next()
            if kind == 1 and not is_text(frame):
                assert answer is None, (frame, answer)
                sessions[i].s.close()
                sessions[i] = Session(port, f"h{i}")
                ends += 1
            else:
                assert json.loads(answer)["type"] in ("bad", "refused", "unopened"), (frame, answer)
        if round in (frames // 4, frames - 1):
            seen.append(resident(server.pid))
    assert all(not c.messages for c in sessions)
    print(
        f"{links * frames} hostile frames over {links} links: {links * frames - ends} have one answer each, {ends} ended their link; an edit waited "
        f"{slowest * 1e3:.0f} ms at most; {seen[0]:.1f} MB after a quarter, {seen[1]:.1f} MB at the end",
        flush=True,
    )
    assert seen[1] < seen[0] + 8
    let_go([writer, *sessions])
    stop(server)


def unread(program, rounds=60, letters="y" * 900_000):
    """One session opens a wavelet and reads nothing while another edits it, until the server lets go of it."""
    server, port = start(program, "--sessions", "2")
    writer, deaf = Writer(port, 0, 0), Session(port, "u0")
    writer.begin([0])
    writer.join(writer.base)
    deaf.say({"type": "open", "wavelet": name_of(0)})
    assert b'"snapshot"' in deaf.next()
    slowest, seen = 0.0, []
    for k in range(rounds):
        writer.mutate([{"delete_characters" if k % 2 else "characters": letters}])
        slowest = max(slowest, writer.settle())
        seen.append(resident(server.pid))
    size = len(letters) / 1e6
    print(
        f"{rounds * size:.0f} MB that one session didn't read: {max(seen):.0f} MB at most, {seen[-1]:.0f} MB at the end, of which the history is {rounds * size:.0f}; "
        f"an edit waited {slowest * 1e3:.0f} ms at most",
        flush=True,
    )
    assert deaf.ended()
    let_go([writer])
    assert server.wait(20) == 0


PARTS = {"rates": all_rates, "store": store, "idle": idle, "hostile": hostile, "unread": unread}


def main():
    # a session of the server has three descriptors
    most = resource.getrlimit(resource.RLIMIT_NOFILE)[1]
    resource.setrlimit(resource.RLIMIT_NOFILE, (most, most))
    words = sys.argv[1:]
    home = Path(__file__).resolve().parent.parent
    program = words.pop(0) if words and words[0] not in PARTS else str(home / "crates/wave/out/wave")
    for part in words or PARTS:
        PARTS[part](program)


if __name__ == "__main__":
    main()
