#!/usr/bin/env python3
"""Two terminal clients over one server on this machine: python3 examples/two_terminals.py [PROGRAM]

PROGRAM is crates/wave/out/wave unless it is given (`rt run` in crates/wave builds it). Alice and Bob type into one document at once, at
drawn places, and take some of their own letters back. Then the server is killed and started again on its folder, and at last `wave pipe`
answers from it. An assertion fails where the two screens aren't equal, a letter is gone or there twice, an undo takes another's letter, what
they sent isn't what `pipe` sends, or an exit status isn't as it should be.
"""
import base64, hashlib, json, random, signal, socket, string, subprocess, sys, tempfile, time
from pathlib import Path

PROGRAM = sys.argv[1] if len(sys.argv) > 1 else Path(__file__).resolve().parent.parent / "crates" / "wave" / "out" / "wave"
WAVELET = "a.com/w1/a.com/conv+root"
ROUNDS, UNDOS = 40, 7
# A line that is no command is answered at once: what is printed before its answer belongs to the lines before it.
MARK, MARKED = "?", "! unknown command\n"


def free_port():
    with socket.socket() as s:
        s.bind(("127.0.0.1", 0))
        return s.getsockname()[1]


def serve(folder, port):
    words = [PROGRAM, "serve", "--domain", "a.com", "--listen", f"127.0.0.1:{port}", "--store", folder]
    server = subprocess.Popen(words, stderr=subprocess.PIPE, text=True)
    assert server.stderr.readline() == f"wave listens at 127.0.0.1:{port}\n"
    return server


class Terminal:
    """A `wave edit`, whose lines are typed as they are given."""

    def __init__(self, port, user, client):
        words = [PROGRAM, "edit", "--user", f"{user}@a.com", "--client", str(client), "--connect", f"127.0.0.1:{port}"]
        self.edit = subprocess.Popen(words, stdin=subprocess.PIPE, stdout=subprocess.PIPE, text=True, bufsize=1)

    def type(self, *lines):
        for line in lines:
            self.edit.stdin.write(line + "\n")

    def ask(self, *lines):
        """What is printed for these lines, and for those before them that nobody asked about."""
        self.type(*lines, MARK)
        return "".join(iter(self.edit.stdout.readline, MARKED))

    def ends(self, *lines):
        """The status, at the end of the input after these lines."""
        rest, _ = self.edit.communicate("".join(line + "\n" for line in lines))
        assert rest == "", rest
        return self.edit.returncode


def screens(terminals):
    """The screen that all come to show. Each has sent all it had by then, so equal versions are those of the last edit."""
    for terminal in terminals:
        assert terminal.ask("sync") == ""
    for _ in range(500):
        shown = {terminal.ask("show") for terminal in terminals}
        if len(shown) == 1:
            break
        time.sleep(0.02)
    (screen,) = shown
    assert " settled\n" in screen, screen
    return screen


def letters_of(screen):
    line = next(line for line in screen.split("\n") if line.startswith("b+1: "))
    return line[len("b+1: ") :]


def typed_letters(folder):
    """The letters that came into the document, in the deltas that `wave pipe` sends from the folder to who opens the wavelet at its start."""
    start = base64.b64encode(hashlib.sha256(WAVELET.encode()).digest()).decode()
    messages = {"type": "hello", "user": "alice@a.com"}, {"type": "open", "wavelet": WAVELET, "version": 0, "hash": start}
    lines = "".join(json.dumps({"session": "s", "message": message}) + "\n" for message in messages)
    out = subprocess.run([PROGRAM, "pipe", "--store", folder], input=lines, capture_output=True, text=True, check=True).stdout
    updates = [answer["message"] for answer in map(json.loads, out.splitlines()) if answer["message"]["type"] == "update"]
    assert len({(update["author"], update["client"], update["number"]) for update in updates}) == len(updates)
    edits = [edit for update in updates for edit in update["operations"] if edit.get("document") == "b+1"]
    return "".join(component.get("characters", "") for edit in edits for component in edit["operation"])


def type_at_once(terminals, alphabets, chance):
    """Each types its letters, one after the other, and waits for nobody. What it typed is there, so its places are."""
    for count in range(ROUNDS):
        for terminal, alphabet in zip(terminals, alphabets):
            terminal.type(f"type b+1 {chance.randrange(count + 1)} {alphabet[count]}")


def main():
    chance, port = random.Random(11), free_port()
    alphabets = string.ascii_letters[:ROUNDS], "".join(chr(0x3B1 + k) for k in range(ROUNDS))
    with tempfile.TemporaryDirectory() as folder:
        server = serve(folder, port)
        alice, bob = Terminal(port, "alice", 1), Terminal(port, "bob", 1)
        assert alice.ask(f"create {WAVELET}", "add bob@a.com", "next - b+1", "sync") == ""
        assert bob.ask(f"open {WAVELET}", "sync") == ""
        type_at_once((alice, bob), alphabets, chance)
        screen = screens((alice, bob))
        assert sorted(letters_of(screen)) == sorted("".join(alphabets)), screen
        # of what was typed by each the newest letters go, and no others
        for terminal in (alice, bob):
            terminal.type(*["undo"] * UNDOS)
        screen = screens((alice, bob))
        assert sorted(letters_of(screen)) == sorted("".join(alphabet[:-UNDOS] for alphabet in alphabets)), screen
        print(screen, end="")
        assert alice.ends("quit") == 0 and bob.ends() == 0
        # the server goes away, and comes back with what it acknowledged
        carol = Terminal(port, "alice", 2)
        assert carol.ask(f"open {WAVELET}", "sync", "show") == screen
        server.send_signal(signal.SIGKILL)
        server.wait()
        server.stderr.close()
        assert carol.ends("sync") == 11
        assert Terminal(port, "alice", 3).ends(f"open {WAVELET}", "sync") == 7
        server = serve(folder, port)
        dora = Terminal(port, "alice", 4)
        assert dora.ask(f"open {WAVELET}", "sync", "show") == screen
        assert dora.ends("quit") == 0
        server.kill()
        server.wait()
        server.stderr.close()
        assert sorted(typed_letters(folder)) == sorted("".join(alphabets))


main()
