#!/usr/bin/env python3
"""Servers of three domains that share wavelets, killed and started again in turn while users of each type: python3 bench/federation.py [ROUNDS [PROGRAM]]

ROUNDS is 100 unless it is given, PROGRAM crates/wave/out/wave (`rt run` in crates/wave builds it). Each domain hosts one wavelet, in which a user of each domain takes part. In
each round every user types a letter into each of the three wavelets at the server of their own domain, and one server is killed by kill -9 and started again on its folder. An
assertion fails where an edit is gone, where one is there twice, or where two users see different texts, versions or hashes at last. Then it prints what a
submission costs at the host and at a copy, in processor time of both servers together, and what it costs at the host once that has many more wavelets.
"""
import os, random, signal, sys, tempfile, time
from pathlib import Path

HOME = Path(__file__).resolve().parent.parent
sys.path.insert(0, str(HOME / "examples"))
from two_servers import open_copy, start
from two_sessions import free_port
from wave_client import Copy, Session

DOMAINS = ("a.com", "b.com", "c.com")
SUBMISSIONS, MORE = 400, 5000
ROUNDS, PROGRAM = 100, str(HOME / "crates/wave/out/wave")


def name_of(domain):
    return f"{domain}/w1/{domain}/conv+root"


def connect(session):
    """Connects until the server is there and has its copies again: after a start it fetches those of other domains anew."""
    for _ in range(3000):
        try:
            session.connect()
            waiting = [copy for copy in session.copies.values()]
            for copy in waiting:
                copy.is_open = False
            while any(not copy.is_open for copy in waiting):
                message = session.read()
                if message["type"] == "unopened":
                    time.sleep(0.02)
                    copy = session.copies[message["wavelet"]]
                    session.say({"type": "open", "wavelet": copy.wavelet, "version": copy.version, "hash": encoded(copy.hash)})
            return
        except OSError:
            time.sleep(0.02)
    raise AssertionError("the server didn't come back")


def encoded(known):
    from base64 import b64encode

    return b64encode(known).decode()


def settle(session, copy):
    while True:
        try:
            return copy.settle()
        except OSError:
            connect(session)


def reach(session, copy, version):
    """Reads until the copy is at this version."""
    while copy.version < version:
        try:
            session.read()
        except OSError:
            connect(session)


def type_letter(session, copy, letter, chance):
    try:
        copy.edit("b+1", chance.randrange(len(copy.documents.get("b+1", [])) + 1), letter)
    except OSError:
        pass


def processor_time(pids):
    fields = [Path(f"/proc/{pid}/stat").read_text().rsplit(")", 1)[1].split() for pid in pids]
    return sum(int(field[11]) + int(field[12]) for field in fields) / os.sysconf("SC_CLK_TCK")


def cost(session, copy, pids):
    """Processor milliseconds of these servers for one submission, of many that are made one after the other."""
    before = processor_time(pids)
    for _ in range(SUBMISSIONS):
        copy.edit("b+1", 0, "x")
        copy.settle()
    return (processor_time(pids) - before) / SUBMISSIONS * 1000


def host_more(address, domain):
    """Wavelets of one user of the domain alone, which nobody has open."""
    maker = Session(address, f"maker@{domain}", 1)
    for number in range(MORE):
        copy = Copy(maker, f"{domain}/m{number}/{domain}/conv+root")
        maker.copies = {copy.wavelet: copy}
        copy.submit({"type": "add", "participant": maker.user})
        while copy.flight is not None and copy.awaited is None:
            maker.read()
    maker.close()


def rounds(ports, folders, servers, users, copies):
    chance, letters = random.Random(5), {}
    for number in range(ROUNDS):
        for place, user in enumerate(users):
            for domain in DOMAINS:
                letter = chr(0x4E00 + 3 * number + place)
                letters.setdefault(domain, []).append(letter)
                type_letter(user, copies[place][domain], letter, chance)
        gone = DOMAINS[number % len(DOMAINS)]
        time.sleep(chance.random() / 50)
        servers[gone].send_signal(signal.SIGKILL)
        servers[gone].wait()
        servers[gone] = start(PROGRAM, gone, ports, folders[gone])
        for place, user in enumerate(users):
            for domain in DOMAINS:
                settle(user, copies[place][domain])
    return letters


def main():
    ports = {domain: free_port() for domain in DOMAINS}
    with tempfile.TemporaryDirectory() as top:
        folders = {domain: f"{top}/{domain}" for domain in DOMAINS}
        for folder in folders.values():
            os.mkdir(folder)
        servers = {domain: start(PROGRAM, domain, ports, folders[domain]) for domain in DOMAINS}
        users = [Session(f"127.0.0.1:{ports[domain]}", f"user@{domain}", 1) for domain in DOMAINS]
        copies = [{} for _ in users]
        for place, domain in enumerate(DOMAINS):
            others = [f"user@{other}" for other in DOMAINS if other != domain]
            copies[place][domain] = users[place].begin(name_of(domain), *others)
        for place, user in enumerate(users):
            for domain in DOMAINS:
                if domain not in copies[place]:
                    copies[place][domain] = open_copy(user, name_of(domain))
        letters = rounds(ports, folders, servers, users, copies)
        for domain in DOMAINS:
            most = max(copies[place][domain].version for place in range(len(users)))
            for place, user in enumerate(users):
                copy = copies[place][domain]
                reach(user, copy, most)
                assert sorted(copy.text("b+1")) == sorted(letters[domain]), f"an edit in {name_of(domain)} is gone, or there twice"
                assert copy.hash == copies[0][domain].hash and copy.text("b+1") == copies[0][domain].text("b+1"), "two texts"
        print(f"{ROUNDS} rounds, {ROUNDS} kills, {sum(map(len, letters.values()))} edits by users of {len(DOMAINS)} domains: none is gone, none there twice, and all see one text")
        pids = [servers[domain].pid for domain in ("a.com", "b.com")]
        at_host = cost(users[0], copies[0]["a.com"], pids)
        at_copy = cost(users[1], copies[1]["a.com"], pids)
        print(f"a submission costs {at_host:.2f} ms of processor time at the host and {at_copy:.2f} at a copy, {at_copy / at_host:.1f} times as much, in both servers together")
        host_more(f"127.0.0.1:{ports['a.com']}", "a.com")
        print(f"and {cost(users[0], copies[0]['a.com'], pids):.2f} at the host once it has {MORE} more wavelets")
        for server in servers.values():
            server.kill()
            server.wait()


if __name__ == "__main__":
    ROUNDS = int(sys.argv[1]) if len(sys.argv) > 1 else ROUNDS
    PROGRAM = sys.argv[2] if len(sys.argv) > 2 else PROGRAM
    main()
