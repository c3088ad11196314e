"""A client of `wave serve` in one file, with nothing but Python's own library: a link (RFC 6455), the bytes of deltas and their hashes
(docs/FORMATS.md), and a copy of one wavelet that keeps what was submitted until it is acknowledged (docs/PROTOCOL.md).

    from wave_client import Session
    session = Session("127.0.0.1:9870", "alice@a.com", client=1)
    copy = session.open("a.com/w1/a.com/conv+root")
    copy.edit("b+1", 0, "Hello")
    copy.settle()
    print(copy.text("b+1"))
"""
import base64, hashlib, json, os, socket, struct

GUID = "258EAFA5-E914-47DA-95CA-C5AB0DC85B11"  # RFC 6455, section 1.3


class Link:
    """Messages over a WebSocket."""

    def __init__(self, address, seconds=30, path="/"):
        host, _, port = address.rpartition(":")
        self.socket = socket.create_connection((host, int(port)), seconds)
        self.socket.setsockopt(socket.IPPROTO_TCP, socket.TCP_NODELAY, 1)
        self.file = self.socket.makefile("rb")
        key = base64.b64encode(os.urandom(16)).decode()
        head = f"GET {path} HTTP/1.1\r\nHost: {address}\r\nUpgrade: websocket\r\nConnection: Upgrade\r\nSec-WebSocket-Key: {key}\r\nSec-WebSocket-Version: 13\r\n\r\n"
        self.socket.sendall(head.encode())
        status, *fields = [*iter(lambda: self.file.readline().decode().strip(), "")] or [""]
        accept = base64.b64encode(hashlib.sha1((key + GUID).encode()).digest()).decode()
        if " 101 " not in status or accept not in [field.partition(": ")[2] for field in fields]:
            raise ConnectionError(status)

    def send(self, data, kind=1):
        n, mask = len(data), os.urandom(4)
        head = struct.pack(">B", 0x80 | n) if n < 126 else struct.pack(">BH", 0xFE, n) if n < 65536 else struct.pack(">BQ", 0xFF, n)
        masked = (int.from_bytes(data, "big") ^ int.from_bytes((mask * (n // 4 + 1))[:n], "big")).to_bytes(n, "big")
        self.socket.sendall(bytes([0x80 | kind]) + head + mask + masked)

    def read(self):
        """The next message; ConnectionError where the other side closed."""
        while True:
            head = self.file.read(2)
            if len(head) < 2:
                raise ConnectionError("the link was cut")
            kind, n = head[0] & 15, head[1]
            n = n if n < 126 else int.from_bytes(self.file.read(2 if n == 126 else 8), "big")
            data = self.file.read(n)
            if kind == 8:
                raise ConnectionError("the server closed the link")
            if kind == 9:
                self.send(data, 10)
            elif kind != 10:
                return data

    def close(self):
        self.send(struct.pack(">H", 1000), 8)
        self.socket.close()


# ---- deltas as bytes


def number(n, size):
    return n.to_bytes(size, "big")


def text(s):
    data = s.encode()
    return number(len(data), 4) + data


def optional(s):
    return b"\0" if s is None else b"\1" + text(s)


def many(items, spell):
    return number(len(items), 4) + b"".join(map(spell, items))


def attributes(pairs):
    return many(pairs, lambda pair: text(pair["key"]) + text(pair["value"]))


def changes(items):
    return many(items, lambda change: text(change["key"]) + optional(change["old"]) + optional(change["new"]))


def component(item):
    ((name, value),) = item.items()
    element = lambda: text(value["type"]) + attributes(value["attribute"])
    return {
        "retain_item_count": lambda: b"\1" + number(value, 8),
        "characters": lambda: b"\2" + text(value),
        "element_start": lambda: b"\3" + element(),
        "element_end": lambda: b"\4",
        "delete_characters": lambda: b"\5" + text(value),
        "delete_element_start": lambda: b"\6" + element(),
        "delete_element_end": lambda: b"\7",
        "replace_attributes": lambda: b"\x08" + attributes(value["old_attribute"]) + attributes(value["new_attribute"]),
        "update_attributes": lambda: b"\x09" + changes(value),
        "annotation_boundary": lambda: b"\x0a" + many(value["end"], text) + changes(value["change"]),
    }[name]()


def wavelet_operation(op):
    kind = op["type"]
    if kind == "noop":
        return b"\0"
    if kind == "mutate":
        return b"\3" + text(op["document"]) + many(op["operation"], component)
    if kind == "set_role":
        return b"\4" + text(op["participant"]) + bytes([op["old"] == "read", op["new"] == "read"])
    return {"add": b"\1", "remove": b"\2"}[kind] + text(op["participant"])


def delta_bytes(delta):
    ops = delta["operations"]
    form = b"\2" if any(op["type"] == "set_role" for op in ops) else b"\1"
    numbers = b"".join(number(delta[name], 8) for name in ("client", "number", "version", "time"))
    return form + text(delta["author"]) + numbers + many(ops, wavelet_operation)


def zero_hash(wavelet):
    return hashlib.sha256(wavelet.encode()).digest()


# ---- documents


def spelled(item):
    return item if isinstance(item, str) else json.dumps(item)


def applied(document, operation):
    """The document, a list of letters and elements, after an operation. Annotations are passed over."""
    out, at = [], 0
    for item in operation:
        ((name, value),) = item.items()
        if name == "retain_item_count":
            out += document[at : at + value]
            at += value
        elif name == "characters":
            out += value
        elif name == "delete_characters":
            at += len(value)
        elif name in ("element_start", "element_end"):
            out.append({name: value})
        elif name in ("delete_element_start", "delete_element_end"):
            at += 1
        elif name in ("replace_attributes", "update_attributes"):
            out.append({"element_start": {"type": document[at]["element_start"]["type"], "attribute": changed(document[at], name, value)}})
            at += 1
    assert at == len(document), "the operation doesn't fit the document"
    return out


def changed(start, name, value):
    if name == "replace_attributes":
        return value["new_attribute"]
    pairs = {pair["key"]: pair["value"] for pair in start["element_start"]["attribute"]}
    pairs |= {change["key"]: change["new"] for change in value}
    return [{"key": key, "value": pairs[key]} for key in sorted(pairs) if pairs[key] is not None]


# ---- sessions


class Copy:
    """A wavelet as the server has it at `version`, and the flight: the one submission that waits to be acknowledged and seen."""

    def __init__(self, session, wavelet):
        self.session, self.wavelet = session, wavelet
        self.version, self.hash, self.documents, self.participants = 0, zero_hash(wavelet), {}, {}
        self.flight, self.awaited, self.acknowledged, self.refused, self.is_open = None, None, [], [], False

    def is_hosted_here(self):
        return self.wavelet.split("/")[2] == self.session.user.rpartition("@")[2]

    def text(self, document):
        return "".join(item for item in self.documents.get(document, []) if isinstance(item, str))

    def submit(self, *operations):
        """Submits operations on what this copy shows. The one before must have been acknowledged."""
        assert self.flight is None
        self.session.number += 1
        self.flight = {"type": "submit", "wavelet": self.wavelet, "client": self.session.client, "number": self.session.number}
        self.flight |= {"version": self.version, "hash": base64.b64encode(self.hash).decode(), "operations": list(operations)}
        self.session.say(self.flight)

    def edit(self, document, at, letters="", erased=0):
        """Types letters at a place of a document, in the place of so many that stand there."""
        items = self.documents.get(document, [])
        gone = "".join(items[at : at + erased])
        parts = [{"retain_item_count": at}] * (at > 0) + [{"characters": letters}] * (letters != "") + [{"delete_characters": gone}] * (gone != "")
        rest = len(items) - at - erased
        parts += [{"retain_item_count": rest}] * (rest > 0)
        self.submit({"type": "mutate", "document": document, "operation": parts})

    def settle(self):
        """Reads until nothing waits."""
        while self.flight is not None:
            self.session.read()

    def take(self, message):
        kind = message["type"]
        if kind == "update":
            self.apply(message)
        elif kind == "snapshot":
            self.load(message)
        elif kind == "opened":
            self.is_open = True
        elif kind in ("closed", "unopened"):
            self.is_open = False
            # a server that keeps a copy itself may not have come so far again
            if message["reason"] == "WrongHash" or message["reason"] == "UnknownVersion" and self.is_hosted_here():
                raise LookupError("the server's history isn't the one that this copy is of")
        elif kind == "ack":
            self.note_ack(message)
        elif kind == "refused":
            self.refused.append(message)
            self.flight = None
        # what is acknowledged has landed once the copy shows it
        if self.flight is not None and self.awaited is not None and self.version >= self.awaited:
            self.land()

    def note_ack(self, message):
        """A submission that was sent again may be acknowledged again."""
        if message["number"] not in self.acknowledged:
            self.acknowledged.append(message["number"])
        if self.flight is not None and message["number"] == self.flight["number"]:
            self.awaited = message["version"]

    def land(self):
        self.flight = self.awaited = None

    def apply(self, delta):
        assert delta["version"] == self.version and base64.b64decode(delta["hash"]) == self.hash, "a delta that isn't the next"
        for op in delta["operations"]:
            if op["type"] == "mutate":
                self.documents[op["document"]] = applied(self.documents.get(op["document"], []), op["operation"])
            elif op["type"] in ("add", "set_role"):
                self.participants[op["participant"]] = op.get("new", "full")
            elif op["type"] == "remove":
                del self.participants[op["participant"]]
        self.hash = hashlib.sha256(self.hash + delta_bytes(delta)).digest()
        self.version += len(delta["operations"])

    def load(self, message):
        self.version, self.hash, self.is_open = message["version"], base64.b64decode(message["hash"]), True
        self.participants = {one["address"]: one["role"] for one in message["participants"]}
        self.documents = {one["name"]: applied([], one["operation"]) for one in message["documents"]}


class Session:
    """A user's session. `client` is a key that no other client of the user ever has."""

    def __init__(self, address, user, client, number=0):
        """`number` is the last one that was given under this key, where an earlier run of the client gave some."""
        self.address, self.user, self.client, self.number, self.copies, self.bad = address, user, client, number, {}, []
        self.connect()

    def connect(self):
        """Connects, also after a cut: opens at what each copy has, and submits again what waits."""
        self.link, self.welcome = Link(self.address), False
        self.say({"type": "hello", "user": self.user})
        while not self.welcome:
            self.read()
        for copy in self.copies.values():
            self.say({"type": "open", "wavelet": copy.wavelet, "version": copy.version, "hash": base64.b64encode(copy.hash).decode()})
            if copy.flight is not None:
                self.say(copy.flight)

    def say(self, message):
        self.link.send(json.dumps(message, ensure_ascii=False, separators=(",", ":")).encode())

    def read(self):
        """Reads one message, and takes it in."""
        message = json.loads(self.link.read())
        if message["type"] == "welcome":
            self.welcome = True
        elif message["type"] == "bad":
            self.bad.append(message["reason"])
        elif message.get("wavelet") in self.copies:
            self.copies[message["wavelet"]].take(message)
        return message

    def open(self, wavelet):
        """A copy of the wavelet: its state now, or the empty wavelet where the user has none to see."""
        copy = self.copies[wavelet] = Copy(self, wavelet)
        self.say({"type": "open", "wavelet": wavelet})
        while self.read()["type"] not in ("snapshot", "unopened", "bad"):
            pass
        return copy

    def begin(self, wavelet, *users):
        """A new wavelet with these participants, opened."""
        copy = self.copies[wavelet] = Copy(self, wavelet)
        copy.submit(*[{"type": "add", "participant": user} for user in (self.user, *users)])
        while copy.flight is not None and copy.awaited is None:
            self.read()
        copy.land()
        self.say({"type": "open", "wavelet": wavelet, "version": 0, "hash": base64.b64encode(zero_hash(wavelet)).decode()})
        while not copy.is_open or copy.version == 0:
            self.read()
        return copy

    def close(self):
        self.link.close()
