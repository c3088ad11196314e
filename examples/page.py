#!/usr/bin/env python3
"""Two pages of a browser and a client in Python type into one document at once: python3 examples/page.py [PROGRAM]

PROGRAM is crates/wave/out/wave unless it is given (`rt run` in crates/wave builds it). The pages are examples/page.html in a Chromium without a window.
The server is killed in the middle and started again on its folder, and both pages are typed into meanwhile. An assertion fails where a letter is gone
or there twice, where the pages, the client and the server come to different texts, or where a caret doesn't stay where it was.
"""
import json, os, random, shutil, subprocess, sys, tempfile, time
from pathlib import Path
from urllib.parse import quote, urlencode
from urllib.request import Request, urlopen
from two_sessions import WAVELET, edit, free_port, start
from wave_client import Link, Session

CHROMIUM = shutil.which("chromium") or shutil.which("chromium-browser") or shutil.which("google-chrome")
PAGE = Path(__file__).resolve().parent / "page.html"
ROUNDS, SECONDS = 30, 30
END = {"element_end": True}

# Types a word after so many letters, in the place of so many that follow. The page is busy for a moment before, so it hasn't seen what others did then.
TYPE = """(at, count, word) => {
  for (const end = Date.now() + 20; Date.now() < end; );
  const area = document.getElementById("area"), letters = [...area.value]
  area.focus()
  area.setSelectionRange(...[at, at + count].map(place => letters.slice(0, place).join("").length))
  document.execCommand("insertText", false, word)
}"""


def wait_for(ask, is_awaited):
    """Asks until the answer is as it is awaited."""
    end = time.monotonic() + SECONDS
    while not is_awaited(answer := ask()):
        assert time.monotonic() < end, f"in vain: {answer}"
        time.sleep(0.05)


class Browser:
    """A Chromium without a window, over its DevTools protocol."""

    def __init__(self, folder):
        words = [CHROMIUM, "--headless=new", "--remote-debugging-port=0", f"--user-data-dir={folder}", "--no-first-run"]
        words += ["--no-sandbox"] * (os.getuid() == 0)
        self.process = subprocess.Popen(words, stdout=subprocess.DEVNULL, stderr=subprocess.DEVNULL)
        told = Path(folder) / "DevToolsActivePort"
        wait_for(lambda: told.read_text() if told.exists() else "Chromium starts", lambda text: "\n" in text)
        self.address = "127.0.0.1:" + told.read_text().split("\n")[0]

    def open(self, server, user):
        """A page of that user, who is one of three that begin the wavelet."""
        asked = urlencode({"server": f"ws://{server}", "user": user, "wavelet": WAVELET, "participants": "alice@a.com bob@a.com carol@a.com"})
        url = quote(f"{PAGE.as_uri()}?{asked}", safe="")
        with urlopen(Request(f"http://{self.address}/json/new?{url}", method="PUT")) as answer:
            page = Page(json.load(answer)["webSocketDebuggerUrl"])
        wait_for(page.state, lambda state: state.endswith("settled"))
        return page

    def close(self):
        self.process.terminate()
        self.process.wait()


class Page:
    """One of its pages, which does one after the other what it is told."""

    def __init__(self, url):
        address, _, path = url.removeprefix("ws://").partition("/")
        self.link, self.told = Link(address, SECONDS, "/" + path), 0

    def tell(self, expression):
        self.told += 1
        parameters = {"expression": expression, "returnByValue": True}
        self.link.send(json.dumps({"id": self.told, "method": "Runtime.evaluate", "params": parameters}).encode())

    def ask(self, expression):
        """What an expression is, after all that the page was told before."""
        self.tell(expression)
        answer = {"id": 0}
        while answer["id"] < self.told:
            answer = json.loads(self.link.read())
            assert "exceptionDetails" not in answer["result"], answer
        return answer["result"]["result"]["value"]

    def type(self, word, at, count=0):
        self.tell(f"({TYPE})({at}, {count}, {json.dumps(word)})")

    def text(self):
        return self.ask("document.getElementById('area').value")

    def state(self):
        return self.ask("document.getElementById('state')?.textContent ?? ''")


def change(copy, first, last, *components):
    """Has components in the place of the items of the document from the first to the last."""
    kept = [[{"retain_item_count": count}] * (count > 0) for count in (first, len(copy.documents.get("b+1", [])) - last)]
    copy.submit({"type": "mutate", "document": "b+1", "operation": [*kept[0], *components, *kept[1]]})
    copy.settle()


def element(kind, *attribute):
    return {"type": kind, "attribute": list(attribute)}


def add_quote(copy, at):
    """An element with noted letters in it, which the pages show without note and element."""
    bold = {"annotation_boundary": {"end": [], "change": [{"key": "style", "old": None, "new": "bold"}]}}
    plain = {"annotation_boundary": {"end": ["style"], "change": []}}
    change(copy, at, at, {"element_start": element("quote")}, bold, {"characters": "quoted" * 20}, plain, END)


def remove_quote(copy):
    """Removes that element, with all that came into it."""
    items = copy.documents["b+1"]
    first = items.index({"element_start": element("quote")})
    last = items.index(END, first)
    letters = "".join(items[first + 1 : last])
    gone = [{"delete_element_start": element("quote")}, *[{"delete_characters": letters}] * (letters != ""), {"delete_element_end": True}]
    change(copy, first, last + 1, *gone)


def seen_by_all(pages, copy):
    """Waits until nothing is under way. The text that everyone has then, the server too."""
    for page in pages:
        wait_for(page.state, lambda state: state.endswith("settled"))
    reader = Session(copy.session.address, copy.session.user, client=2)
    seen = reader.open(WAVELET)
    reader.close()
    while copy.version < seen.version:
        copy.session.read()
    for page in pages:
        wait_for(page.state, lambda state: state == f"connected · version {seen.version} settled")
    texts = {seen.text("b+1"), copy.text("b+1"), *[page.text() for page in pages]}
    assert len(texts) == 1, texts
    return seen.text("b+1")


def type_words(pages, words, chance):
    for page in pages:
        words.append(f"({len(words)}😀\n)")
        page.type(words[-1], chance.randrange(6 * len(words)))


def type_at_once(pages, copy, words, chance):
    for _ in range(ROUNDS):
        type_words(pages, words, chance)
        words.append(f"[{len(words)}]")
        edit(copy, words[-1], chance)
        copy.settle()


def type_over(pages, copy, chance):
    """The pages type over what is there, while an element comes and goes with what was typed into it."""
    for step in range(ROUNDS):
        for page in pages:
            page.type(f"<{step}>", chance.randrange(200), chance.randrange(8))
        if step % 2 == 0:
            add_quote(copy, chance.randrange(100))
        else:
            remove_quote(copy)
        seen_by_all(pages, copy)


def run(browser, folder, servers):
    chance, port = random.Random(5), free_port()
    address = f"127.0.0.1:{port}"
    servers.append(start(folder, port))
    pages = [browser.open(address, "alice@a.com"), browser.open(address, "bob@a.com")]
    carol = Session(address, "carol@a.com", client=1)
    copy, words = carol.open(WAVELET), []
    type_at_once(pages, copy, words, chance)
    servers[0].kill()
    servers[0].wait()
    print("> kill -9")
    for _ in range(5):
        type_words(pages, words, chance)
    servers.append(start(folder, port))
    carol.connect()
    type_at_once(pages, copy, words, chance)
    # words are cut by words that were typed inside them, so letters are counted
    assert sorted(seen_by_all(pages, copy)) == sorted("".join(words)), "a letter is gone, or there twice"

    # pages keep elements, and take what else may come
    one, two = ([{"key": "indent", "value": value}] for value in "12")
    change(copy, 0, 0, {"element_start": element("line", *one)}, END)
    type_over(pages, copy, chance)
    line = copy.documents["b+1"].index({"element_start": element("line", *one)})
    change(copy, line, line + 1, {"replace_attributes": {"old_attribute": one, "new_attribute": two}})
    for old, new in ("full", "read"), ("read", "full"):
        copy.submit({"type": "set_role", "participant": "alice@a.com", "old": old, "new": new})
        copy.settle()
    seen_by_all(pages, copy)

    # a caret stays after the letter that it was after
    pages[1].type("caret", 3)
    seen_by_all(pages, copy)
    change(copy, 0, 0, {"characters": "In front: "})
    seen_by_all(pages, copy)
    pages[1].tell("document.execCommand('insertText', false, '!')")
    assert "caret!" in seen_by_all(pages, copy), "the caret isn't where it was"

    pages.append(browser.open(address, "carol@a.com"))
    text = seen_by_all(pages, copy)
    print(f"version {copy.version}, {len(text)} letters, three pages, a client and the server have the same")


def main():
    if CHROMIUM is None:
        sys.exit("There is no Chromium here. `apt-get install -y chromium` gets it.")
    with tempfile.TemporaryDirectory() as folder, tempfile.TemporaryDirectory(ignore_cleanup_errors=True) as profile:
        browser, servers = Browser(profile), []
        try:
            run(browser, folder, servers)
        finally:
            browser.close()
            for server in servers:
                server.kill()
                server.wait()


main()
