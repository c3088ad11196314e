#!/usr/bin/env python3
"""Sessions over links: what a message and a handshake cost, what idle sessions cost, how late news come, and what peers that misbehave do.

    bench/links.py [PROGRAM]

PROGRAM is crates/bench_links/out/bench_links unless it is given (`rt run` in crates/bench_links builds it). A server of the
program sends each message that comes over one link over all of them. An assertion fails where it does anything else than it should.
"""
import base64, hashlib, os, resource, select, socket, statistics, struct, subprocess, sys, time
from pathlib import Path

GUID = b"258EAFA5-E914-47DA-95CA-C5AB0DC85B11"  # RFC 6455, section 1.3
MIB = 1 << 20


def frame(data, kind=1):
    """A frame under a mask of zeros."""
    n = len(data)
    if n < 126:
        head = bytes([0x80 | kind, 0x80 | n])
    elif n < 65536:
        head = struct.pack(">BBH", 0x80 | kind, 0x80 | 126, n)
    else:
        head = struct.pack(">BBQ", 0x80 | kind, 0x80 | 127, n)
    return head + bytes(4) + data


class Client:
    """A session. `log` has the length and the first bytes of each message that came."""

    def __init__(self, port):
        self.knock(port)
        self.greeted()

    def knock(self, port):
        self.s = socket.create_connection(("127.0.0.1", port))
        self.s.setsockopt(socket.IPPROTO_TCP, socket.TCP_NODELAY, 1)
        self.key = base64.b64encode(os.urandom(16))
        self.s.sendall(
            b"GET / HTTP/1.1\r\nHost: x\r\nUpgrade: websocket\r\nConnection: Upgrade\r\nSec-WebSocket-Key: %s\r\nSec-WebSocket-Version: 13\r\n\r\n" % self.key
        )

    def greeted(self):
        self.data = bytearray()
        while b"\r\n\r\n" not in self.data:
            got = self.s.recv(65536)
            assert got, "no answer to an opening"
            self.data += got
        head, _, rest = bytes(self.data).partition(b"\r\n\r\n")
        accept = base64.b64encode(hashlib.sha1(self.key + GUID).digest())
        assert head.startswith(b"HTTP/1.1 101 ") and accept in head, head
        self.data = bytearray(rest)
        self.log, self.closed = [], False

    def send(self, data, kind=1):
        self.s.sendall(frame(data, kind))

    def take(self):
        """Takes in what is there, and gives the new messages."""
        got = self.s.recv(1 << 20)
        if not got:
            self.closed = True
            return []
        d = self.data
        d += got
        new, at = [], 0
        while len(d) - at >= 2:
            n, h = d[at + 1] & 127, 2
            if n > 125:
                h = 4 if n == 126 else 10
                if len(d) - at < h:
                    break
                n = int.from_bytes(d[at + 2 : at + h], "big")
            if len(d) - at < h + n:
                break
            if d[at] & 15 == 8:
                self.closed = True
            else:
                new.append((n, bytes(d[at + h : at + h + min(n, 32)])))
            at += h + n
        del d[:at]
        self.log += new
        return new

    def until(self, data, seconds=20):
        """Takes in until this message has come."""
        entry = (len(data), data[:32])
        self.s.settimeout(seconds)
        while entry not in self.log[-64:]:
            self.take()
            assert not self.closed, self.log[-1:]
        self.s.settimeout(None)

    def ended(self, seconds=10):
        """Whether the server lets go of the link."""
        self.s.settimeout(seconds)
        try:
            while not self.closed:
                self.take()
        except ConnectionError:
            pass
        return True


def processor(pid):
    """Seconds of processor time of a process."""
    return time.clock_gettime((~pid << 3) | 2)


def resident(pid):
    with open(f"/proc/{pid}/status") as f:
        return int([line for line in f if line.startswith("VmRSS")][0].split()[1]) / 1024


def descriptors(pid):
    return len(os.listdir(f"/proc/{pid}/fd"))


def start(program, sessions, **more):
    """A server, once it listens."""
    with socket.socket() as s:
        s.bind(("127.0.0.1", 0))
        port = s.getsockname()[1]
    server = subprocess.Popen([program, f"127.0.0.1:{port}", str(sessions)], stdout=subprocess.PIPE, **more)
    for _ in range(500):
        with open("/proc/net/tcp") as f:
            if any(line.split()[1].endswith(f":{port:04X}") and line.split()[3] == "0A" for line in f.readlines()[1:]):
                return server, port
        time.sleep(0.01)
    raise AssertionError("the server doesn't listen")


def end(server, clients):
    for c in clients:
        c.s.sendall(b"\x88\x82\0\0\0\0\x03\xe8")
    for c in clients:
        assert c.ended()
        c.s.close()
    assert server.wait(20) == 0
    assert server.stdout.read() == b"0 refused\n"


def rounds(program, sessions, messages, size):
    """Each session has one message under way, until it sees it in the log."""
    server, port = start(program, sessions)
    clients = [Client(port) for _ in range(sessions)]
    number = {c.s: i for i, c in enumerate(clients)}
    left = [messages] * sessions
    fill = b"." * size
    waits = [b""] * sessions

    def next_of(i):
        waits[i] = (b"m %d %d %s" % (i, left[i], fill))[: max(size, 16)]
        clients[i].send(waits[i])
        waits[i] = (len(waits[i]), waits[i][:32])

    poll = select.poll()
    files = {c.s.fileno(): i for i, c in enumerate(clients)}
    for c in clients:
        poll.register(c.s, select.POLLIN)
    before, begin = processor(server.pid), time.time()
    for i in range(sessions):
        next_of(i)
    total = sessions * messages
    while any(len(c.log) < total for c in clients):
        ready = poll.poll(10000)
        assert ready, ["stuck", [len(c.log) for c in clients]]
        for fd, _ in ready:
            i = files[fd]
            if waits[i] in clients[i].take():
                left[i] -= 1
                if left[i]:
                    next_of(i)
                else:
                    waits[i] = None
    wall, used = time.time() - begin, processor(server.pid) - before
    assert all(c.log == clients[0].log for c in clients) and len(set(clients[0].log)) == total
    end(server, clients)
    print(f"| {sessions} | {size} | {used / total * 1e6:.1f} | {used / total / sessions * 1e6:.2f} | {total / wall:.0f} |", flush=True)


def handshakes(program, at_once, times):
    """So many clients at once come, are greeted, and go."""
    server, port = start(program, at_once * times)
    before, begin, greeting = processor(server.pid), time.time(), 0.0
    for _ in range(times):
        clients = []
        for _ in range(at_once):
            c = Client.__new__(Client)
            c.knock(port)
            clients.append(c)
        for c in clients:
            c.greeted()
        greeting += time.time() - begin
        for c in clients:
            c.s.close()
        begin = time.time()
    used = processor(server.pid) - before
    assert server.wait(20) == 0
    all_of = at_once * times
    print(f"{all_of} handshakes, {at_once} at once: {all_of / greeting:.0f} a second, {used / all_of * 1e6:.0f} us of processor each, with a thread", flush=True)


def late(clients, times):
    """How long it takes until news of the first session are at each of the others, in seconds, in order."""
    poll = select.poll()
    for c in clients[1:]:
        poll.register(c.s, select.POLLIN)
    by = {c.s.fileno(): c for c in clients}
    found = []
    for k in range(times):
        time.sleep(0.02)
        word = b"late %d" % k
        begin = time.time()
        clients[0].send(word)
        waiting = len(clients) - 1
        while waiting:
            ready = poll.poll(10000)
            assert ready, "stuck"
            for fd, _ in ready:
                if (len(word), word) in by[fd].take():
                    found.append(time.time() - begin)
                    waiting -= 1
        clients[0].until(word)
    return sorted(found)


def idle(program, sessions, seconds):
    server, port = start(program, sessions)
    clients = [Client(port) for _ in range(sessions)]
    time.sleep(4)
    before = processor(server.pid)
    time.sleep(seconds)
    used = processor(server.pid) - before
    print(f"{sessions} idle sessions: {used / seconds * 100:.3f} % of a core, {resident(server.pid):.1f} MB", flush=True)
    found = late(clients, 50)
    median, most = statistics.median(found), found[len(found) * 99 // 100]
    print(f"  news at the {sessions - 1} others: median {median * 1e3:.2f} ms, 99 in 100 {most * 1e3:.2f} ms, latest {found[-1] * 1e3:.2f} ms", flush=True)
    end(server, clients)


def misbehaving(program):
    server, port = start(program, 6)
    a, b = Client(port), Client(port)
    with socket.create_connection(("127.0.0.1", port)) as s:
        s.sendall(b"GET / HTTP/1.1\r\n\r\n")
        s.settimeout(5)
        s.recv(100)
    silent = socket.create_connection(("127.0.0.1", port))
    begin = time.time()
    socket.create_connection(("127.0.0.1", port)).close()
    for data, kind in ((b"text", 1), (b"binary", 2), (b"x" * MIB, 1)):
        a.send(data, kind)
        b.until(data)
    c = Client(port)  # one message that is too large
    c.until(b"x" * MIB)
    before = resident(server.pid)
    c.s.sendall(b"\x82\xff" + struct.pack(">Q", 5 * MIB) + bytes(4) + b"y" * 1000)
    assert c.ended()
    grown = resident(server.pid) - before
    assert grown < 1, grown
    d = Client(port)  # one that is gone
    d.s.close()
    e = Client(port)  # one that is reset
    e.s.setsockopt(socket.SOL_SOCKET, socket.SO_LINGER, struct.pack("ii", 1, 0))
    e.s.close()
    a.send(b"after them")
    b.until(b"after them")
    silent.settimeout(30)
    assert silent.recv(1) == b"", "a silent peer"
    print(f"a peer that says nothing was let go of after {time.time() - begin:.1f} s; one that sends too much, one gone and one reset ended alone")
    f = Client(port)
    end(server, [a, b, f])


def crowd(program):
    """Far more connections than handshakes may go on; none of them says anything."""
    server, port = start(program, 1)
    c = Client(port)
    c.send(b"first")
    c.until(b"first")
    before, used = descriptors(server.pid), processor(server.pid)
    silent = [socket.create_connection(("127.0.0.1", port)) for _ in range(600)]
    time.sleep(2)
    c.send(b"here")
    c.until(b"here")
    more = descriptors(server.pid) - before
    print(f"600 silent connections: {more} descriptors, {processor(server.pid) - used:.2f} s of processor in 2 s, {resident(server.pid):.1f} MB")
    assert more <= 256
    for s in silent:
        s.close()
    time.sleep(1)
    assert descriptors(server.pid) == before
    end(server, [c])


def unread(program):
    """One peer reads nothing while another is sent far more than may wait for it."""
    server, port = start(program, 2)
    a, deaf = Client(port), Client(port)
    slowest = 0
    for k in range(60):
        data = b"%d " % k + b"w" * 1000000
        begin = time.time()
        a.send(data)
        a.until(data)
        slowest = max(slowest, time.time() - begin)
    print(f"60 MB that one peer didn't read: {resident(server.pid):.1f} MB, of which 60 are the log; the other waited {slowest * 1e3:.0f} ms at most")
    assert deaf.ended()
    end(server, [a])


def slow(program):
    """One peer stays 12 MB behind for long: what waits for it doesn't grow."""
    server, port = start(program, 2)
    a, behind = Client(port), Client(port)
    seen = []
    for k in range(100):
        data = b"%d " % k + b"v" * MIB
        a.send(data)
        a.until(data)
        while k >= 12 and len(behind.log) < k - 12:
            behind.take()
        seen.append(resident(server.pid) - k)
    print(f"a peer that stays 12 MB behind: {seen[20]:.0f} MB beside the log after 20 MB, {seen[-1]:.0f} MB after 100")
    assert seen[-1] < seen[20] + 20
    while len(behind.log) < 100:
        behind.take()
    end(server, [a, behind])


def limited(program):
    """A user who may have one process with one thread, which is the server."""

    def limit():
        resource.setrlimit(resource.RLIMIT_NPROC, (1, 1))
        os.setgid(64999)
        os.setuid(64999)

    server, port = start(program, 2, preexec_fn=limit)
    Client(port)
    status = server.wait(10)
    told = server.stdout.read()
    print(f"no thread to be had: status {status}, {told.decode().strip()}")
    assert status == 9 and told == b"1 refused\n"


def main():
    home = Path(__file__).resolve().parent.parent
    program = sys.argv[1] if len(sys.argv) > 1 else str(home / "crates/bench_links/out/bench_links")
    misbehaving(program)
    crowd(program)
    unread(program)
    slow(program)
    if os.geteuid() == 0:
        limited(program)
    print("\n| sessions | bytes | us of processor a message | us for each session | messages a second |\n|---|---|---|---|---|")
    for sessions, small, large in [(1, 10000, 1000), (4, 5000, 250), (64, 100, 4)]:
        rounds(program, sessions, small, 16)
        rounds(program, sessions, large, 65536)
    print()
    handshakes(program, 1, 500)
    handshakes(program, 64, 20)
    idle(program, 2, 10)
    idle(program, 100, 10)


if __name__ == "__main__":
    main()
