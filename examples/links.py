#!/usr/bin/env python3
"""A client over a WebSocket: python3 examples/links.py HOST PORT MESSAGE..

It sends each message as a text and prints what comes, until it has heard as often as it has spoken. A server to try it with, which
sends what comes from one to all: crates/bench_links/out/bench_links 127.0.0.1:8080 1 (`rt run` in crates/bench_links builds it).
"""
import base64, hashlib, os, socket, struct, sys


class Link:
    def __init__(self, host, port):
        self.socket = socket.create_connection((host, port))
        self.file = self.socket.makefile("rb")
        key = base64.b64encode(os.urandom(16)).decode()
        head = f"GET / HTTP/1.1\r\nHost: {host}:{port}\r\nUpgrade: websocket\r\nConnection: Upgrade\r\nSec-WebSocket-Key: {key}\r\nSec-WebSocket-Version: 13\r\n\r\n"
        self.socket.sendall(head.encode())
        status, *fields = iter(lambda: self.file.readline().decode().strip(), "")
        accept = base64.b64encode(hashlib.sha1(f"{key}258EAFA5-E914-47DA-95CA-C5AB0DC85B11".encode()).digest()).decode()
        if " 101 " not in status or accept not in [field.partition(": ")[2] for field in fields]:
            raise ConnectionError(status)

    def send(self, data, kind=1):
        n, mask = len(data), os.urandom(4)
        head = struct.pack(">B", 0x80 | n) if n < 126 else struct.pack(">BH", 0xFE, n) if n < 65536 else struct.pack(">BQ", 0xFF, n)
        self.socket.sendall(bytes([0x80 | kind]) + head + mask + bytes(byte ^ mask[at % 4] for at, byte in enumerate(data)))

    def read(self):
        kind, n = self.file.read(2)
        n = n if n < 126 else int.from_bytes(self.file.read(2 if n == 126 else 8), "big")
        return kind & 15, self.file.read(n)


link = Link(sys.argv[1], int(sys.argv[2]))
for message in sys.argv[3:]:
    link.send(message.encode())
for _ in sys.argv[3:]:
    print(link.read()[1].decode())
link.send(struct.pack(">H", 1000), kind=8)
print("closed" if link.read()[0] == 8 else "not closed")
