#!/usr/bin/env python3
"""Two federated servers for long, under clients that type, while they are killed and links are cut: python3 bench/endurance.py [SECONDS [PACE [PROGRAM]]]

SECONDS is 60 unless it is given, PACE the seconds between a client's edits (0.01), PROGRAM crates/wave/out/wave (`rt run` in crates/wave builds it). The servers of
a.com and b.com each host half of 8 wavelets, which 32 clients share, half of them at each server. Every three seconds or so one of the two servers, in turn, is killed by
kill -9 and started again on its folder, and each client cuts its own link now and then. An assertion fails where an acknowledged edit is gone, where one is there twice, where
two clients see different texts, versions or hashes, where a server has more descriptors than its sessions need, or where a folder, read by `wave pipe` afterwards, isn't what they saw.
"""
import json, multiprocessing, os, random, re, signal, subprocess, sys, tempfile, time
from base64 import b64decode
from pathlib import Path

HOME = Path(__file__).resolve().parent.parent
sys.path.insert(0, str(HOME / "examples"))
sys.path.insert(0, str(HOME / "bench"))
from federation import connect, settle
from two_servers import open_copy, start
from two_sessions import free_port
from wave_client import Session

SECONDS = float(sys.argv[1]) if len(sys.argv) > 1 else 60
PACE = float(sys.argv[2]) if len(sys.argv) > 2 else 0.01
PROGRAM = sys.argv[3] if len(sys.argv) > 3 else str(HOME / "crates/wave/out/wave")
DOMAINS, CLIENTS, WAVELETS, PAUSE, REST = ("a.com", "b.com"), 32, 8, 3, 40


def host_of(wavelet):
    return DOMAINS[wavelet % 2]


def name_of(wavelet):
    return f"{host_of(wavelet)}/w{wavelet}/{host_of(wavelet)}/conv+root"


def domain_of(number):
    return DOMAINS[number // WAVELETS % 2]


def user_of(number):
    return f"u{number}@{domain_of(number)}"


def typed_by(number):
    return chr(0x4E00 + number)


def client(number, port, until, report):
    """Types a letter of its own again and again until the time is over, and reports how often and what it saw at last."""
    chance = random.Random(number)
    session = Session(f"127.0.0.1:{port}", user_of(number), number + 1)
    copy = open_copy(session, name_of(number % WAVELETS))
    typed, cuts = 0, 0
    while time.time() < until:
        try:
            copy.edit("b+1", chance.randrange(len(copy.documents.get("b+1", [])) + 1), typed_by(number))
        except OSError:
            pass
        typed += 1
        if chance.randrange(40) == 0:
            session.link.socket.close()
            cuts += 1
        settle(session, copy)
        time.sleep(PACE * 2 * chance.random())
    watch(session, until + REST)
    assert sorted(copy.acknowledged) == list(range(1, typed + 1)), (number, typed, copy.refused)
    report.put((number, typed, cuts, copy.version, copy.hash, copy.text("b+1")))


def watch(session, end):
    """Reads what others do until they have all ended."""
    while time.time() < end:
        session.link.socket.settimeout(0.5)
        try:
            session.read()
        except TimeoutError:
            session.link.file = session.link.socket.makefile("rb")
        except OSError:
            connect(session)


def level(pid):
    memory = int(re.search(r"VmRSS:\s+(\d+)", Path(f"/proc/{pid}/status").read_text())[1]) / 1024
    return memory, len(os.listdir(f"/proc/{pid}/fd"))


def begin(ports):
    for wavelet in range(WAVELETS):
        maker = Session(f"127.0.0.1:{ports[host_of(wavelet)]}", f"maker@{host_of(wavelet)}", wavelet + 1)
        maker.begin(name_of(wavelet), *[user_of(number) for number in range(wavelet, CLIENTS, WAVELETS)])
        maker.close()


def kill_in_turn(servers, ports, folders, until):
    """What each server took before each kill, the kills in turn."""
    levels = []
    while time.time() < until - PAUSE:
        time.sleep(PAUSE)
        gone = DOMAINS[len(levels) % 2]
        levels.append(level(servers[gone].pid))
        servers[gone].send_signal(signal.SIGKILL)
        servers[gone].wait()
        servers[gone].stderr.close()
        servers[gone] = start(PROGRAM, gone, ports, folders[gone])
    return levels


def main():
    ports = {domain: free_port() for domain in DOMAINS}
    with tempfile.TemporaryDirectory() as top:
        folders = {domain: f"{top}/{domain}" for domain in DOMAINS}
        for folder in folders.values():
            os.mkdir(folder)
        servers = {domain: start(PROGRAM, domain, ports, folders[domain]) for domain in DOMAINS}
        begin(ports)
        until, report = time.time() + SECONDS, multiprocessing.Queue()
        clients = [multiprocessing.Process(target=client, args=(number, ports[domain_of(number)], until, report), daemon=True) for number in range(CLIENTS)]
        for one in clients:
            one.start()
        levels = kill_in_turn(servers, ports, folders, until)
        ends = sorted(report.get(timeout=REST + 120) for _ in clients)
        last = [level(server.pid) for server in servers.values()]
        for server in servers.values():
            server.kill()
            server.wait()
        for wavelet in range(WAVELETS):
            check(folders[host_of(wavelet)], wavelet, [end for end in ends if end[0] % WAVELETS == wavelet])
    total, cuts = sum(typed for _, typed, *_ in ends), sum(cuts for _, _, cuts, *_ in ends)
    print(f"{total} edits by {CLIENTS} clients at {len(DOMAINS)} servers in {SECONDS:.0f} seconds, {len(levels)} kills, {cuts} cuts: none is gone and none there twice")
    print("all who share a wavelet see one text, version and hash, and so does the store")
    for part in range(4):
        of_it = levels[len(levels) * part // 4 : len(levels) * (part + 1) // 4] or levels
        print(f"before the kills of quarter {part + 1} a server took {sum(memory for memory, _ in of_it) / len(of_it):.1f} MB, with {max(files for _, files in of_it)} descriptors at most")
    print(f"at the end {last[0][0]:.1f} and {last[1][0]:.1f} MB")
    assert max(files for _, files in levels + last) <= 3 * CLIENTS + WAVELETS + 40


def check(folder, wavelet, ends):
    _, _, _, version, known, text = ends[0]
    assert all(end[3:] == (version, known, text) for end in ends), f"clients of {name_of(wavelet)} see different things"
    for number, typed, *_ in ends:
        assert text.count(typed_by(number)) == typed, f"an edit of {user_of(number)} is gone, or there twice"
    assert stored(folder, name_of(wavelet), f"maker@{host_of(wavelet)}") == (version, known, text), "the store isn't what the clients saw"


def stored(folder, wavelet, user):
    """The version, the hash and the text of a wavelet, as `wave pipe` reads them."""
    lines = "".join(json.dumps({"session": "s", "message": message}) + "\n" for message in ({"type": "hello", "user": user}, {"type": "open", "wavelet": wavelet}))
    told = subprocess.run([PROGRAM, "pipe", "--store", folder], input=lines, stdout=subprocess.PIPE, text=True, check=True).stdout
    snapshot = json.loads(told.splitlines()[1])["message"]
    parts = [part for one in snapshot["documents"] for part in one["operation"]]
    return snapshot["version"], b64decode(snapshot["hash"]), "".join(part.get("characters", "") for part in parts)


if __name__ == "__main__":
    main()
