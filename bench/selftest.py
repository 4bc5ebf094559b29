"""Tries the programs of this folder: digests against hashlib's; the home server, the relay and the generator against peers in
Python.

check(FOLDER, PORT) raises where something isn't as it has to be. FOLDER has the compiled programs; the port and the next four
of 127.0.0.1 are used.
"""
import hashlib
import json
import random
import socket
import subprocess
import threading
import time

from bench.proxies import status_server, wait_until_it_answers
from tests.lib.loads import generator
from tests.lib.packets import ACCT_SESSION_ID, PROXY_STATE, answer, attribute, request, turned, user_name

MARK_OCTETS = 10
SECRET, HOME_SECRET = b"a secret of the self-test", b"another one"
LENGTHS, PIECES = [*range(200), 255, 4095, 4096, 8000], [1, 7, 63, 64, 65, 8000]
DELAY, EACH_WRONG = 0.02, 4
REQUESTS = 200


def expect(what, is_so):
    if not is_so:
        raise RuntimeError(f"self-test: {what}")


def spoiled(octets):
    """The same with another authenticator."""
    return turned(octets, 19)


def check_digests(folder):
    """All short lengths and some long ones, in pieces of several sizes."""
    chance = random.Random(1)
    rows = [(piece, chance.randbytes(length)) for length in LENGTHS for piece in PIECES]
    told = "".join(f"{piece} {octets.hex() or '-'}\n" for piece, octets in rows)
    ran = subprocess.run([folder / "digest"], input=told, capture_output=True, text=True, check=True, timeout=60)
    expect("digests are those of hashlib", ran.stdout.split() == [hashlib.md5(octets).hexdigest() for _, octets in rows])


def ask(asking, octets):
    """What comes back, within a while."""
    asking.send(octets)
    try:
        return asking.recv(4096)
    except TimeoutError:
        return None


def check_home(folder, port):
    """It answers right requests with their Proxy-States, and Status-Servers, and nothing else."""
    states = attribute(PROXY_STATE, bytes([1, 2, 3])), attribute(PROXY_STATE, bytes([9]))
    asked = request(7, states[0] + attribute(ACCT_SESSION_ID, b"AB") + states[1], SECRET)
    alive = status_server(8, SECRET)
    with subprocess.Popen([folder / "home", str(port), SECRET, "60"], stdout=subprocess.PIPE, text=True) as home:
        try:
            with socket.socket(socket.AF_INET, socket.SOCK_DGRAM) as asking:
                asking.connect(("127.0.0.1", port))
                asking.settimeout(0.2)
                wait_until_it_answers(home, port, SECRET)
                expect("a home server answers a request",
                       ask(asking, asked) == answer(asked, 7, b"".join(states), SECRET))
                expect("a home server answers a Status-Server",
                       ask(asking, alive) == answer(alive, 8, b"", SECRET))
                expect("a home server drops a spoiled request", ask(asking, spoiled(asked)) is None)
                expect("a home server drops half a packet", ask(asking, asked[:30]) is None)
        finally:
            home.terminate()
            line = home.communicate(timeout=10)[0]
    told = json.loads(line)
    expect("a home server counts", (told["answered"], told["dropped"]) == (1, 2))


def check_relay(folder, port, *options):
    """It has right requests go on and right answers go back, and nothing else."""
    words = [folder / "relay", *options, str(port), SECRET, HOME_SECRET, f"elsewhere.test={port + 2}", f"Realm.Test={port + 1}"]
    with (subprocess.Popen(words, stdout=subprocess.PIPE, text=True) as relay,
          socket.socket(socket.AF_INET, socket.SOCK_DGRAM) as asking,
          socket.socket(socket.AF_INET, socket.SOCK_DGRAM) as home):
        try:
            home.bind(("127.0.0.1", port + 1))
            asking.connect(("127.0.0.1", port))
            for each in asking, home:
                each.settimeout(0.2)
            wait_until_it_answers(relay, port, SECRET)
            expect("a relay answers a Status-Server",
                   ask(asking, status_server(9, SECRET)) == answer(status_server(9, SECRET), 9, b"", SECRET))
            check_relayed(asking, home)
        finally:
            relay.terminate()
            line = relay.communicate(timeout=10)[0]
    told = json.loads(line)
    expect("a relay counts", (told["forwarded"], told["returned"], told["repeated"], told["dropped"]) == (2, 2, 1, 5))


def check_relayed(asking, home):
    """Two requests over a relay, of which one is repeated, among requests and answers that are dropped."""
    state, name = attribute(PROXY_STATE, b"of the client"), user_name(b"user@other@rEALM.tEST")
    asked, nowhere = request(200, name + state, SECRET), request(201, user_name(b"user@nowhere.test"), SECRET)
    for dropped in spoiled(asked), nowhere, request(202, state, SECRET):
        asking.send(dropped)
    for identifier in range(2):
        asking.send(asked)
        came, relay = home.recvfrom(4096)
        mark = came[-MARK_OCTETS:]
        expect("a relay adds a Proxy-State", mark[:2] == bytes([PROXY_STATE, MARK_OCTETS]))
        expect("a relay signs what goes on", came == request(identifier, name + state + mark, HOME_SECRET))
        reply = answer(came, identifier, state + mark + name, HOME_SECRET)
        if identifier == 0:
            asking.send(asked)
            expect("a relay takes what comes in its order", ask(asking, status_server(10, SECRET)) is not None)
            home.sendto(spoiled(reply), relay)
            home.sendto(answer(came, identifier, mark + state, HOME_SECRET), relay)
        home.sendto(reply, relay)
        expect("a relay takes its Proxy-State out of an answer and signs it", asking.recv(4096) == answer(asked, 200, state + name, SECRET))


def answer_by_turns(answering, seen):
    """Answers after a while; each fourth answer is wrong, and that request stays without a right one."""
    for number in range(REQUESTS):
        octets, address = answering.recvfrom(4096)
        seen.append(octets)
        right = answer(octets, octets[1], b"", SECRET)
        time.sleep(DELAY / 10)
        answering.sendto(right if number % EACH_WRONG else spoiled(right), address)


def check_generator(folder, port):
    """It sends right requests, none twice, and takes only right answers."""
    seen = []
    with socket.socket(socket.AF_INET, socket.SOCK_DGRAM) as answering:
        answering.bind(("127.0.0.1", port))
        answering.settimeout(10)
        thread = threading.Thread(target=answer_by_turns, args=(answering, seen), daemon=True)
        thread.start()
        how = {"window": 10, "count": REQUESTS, "seconds": 20, "timeout": 400, "octets": 640}
        words = generator(folder, port=port, secret=SECRET.decode(), **how)
        ran = subprocess.run(words, capture_output=True, text=True, check=True, timeout=60)
        thread.join(20)
    told = json.loads(ran.stdout)
    right = [request(octets[1], octets[20:], SECRET) == octets for octets in seen]
    expect("a generator sends as many as it is told", len(seen) == told["sent"] == REQUESTS)
    expect("a generator sends right requests of the length", all(right) and {len(octets) for octets in seen} == {640})
    expect("a generator sends no request twice", len({octets[4:20] for octets in seen}) == REQUESTS)
    wrong = REQUESTS // EACH_WRONG
    expect("a generator takes right answers alone",
           (told["answered"], told["wrong"], told["unanswered"]) == (REQUESTS - wrong, wrong, wrong))
    expect("a generator's times are those that passed", 1e6 * DELAY / 10 <= told["p50_us"] <= told["p99_us"])


def check(folder, port):
    check_digests(folder)
    check_home(folder, port)
    check_relay(folder, port + 1)
    check_relay(folder, port + 1, "--single")
    check_generator(folder, port + 4)
