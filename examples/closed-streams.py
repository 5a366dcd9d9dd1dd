#!/usr/bin/env python3
"""Each command with its standard streams closed, for examples/closed-streams.sh. Plain Python, nothing to install.

    closed-streams.py PROGRAM FOLDER

Runs each command with no stream closed, then with the input, the output, the error output and all three closed, in a
folder of its own each time, and compares what files are left and what its peers over loopback got: nothing that the
program prints may ever go into a file or a connection. Where its output is closed a command that prints ends with 5
or 7, and else with the status that it has with all streams. Status 1, with what was seen, where it isn't so.
"""
import json
import os
import pathlib
import socket
import subprocess
import sys
import threading
import time

program, folder = os.path.abspath(sys.argv[1]), pathlib.Path(sys.argv[2])
examples = pathlib.Path(__file__).resolve().parent

SETUP = bytes.fromhex("00000010000000020002000000000000000000000000")
ACCEPTED = bytes.fromhex("000001060000020000000000")
OF_VERSION_3 = bytes.fromhex("000001060000030000000000")
# A SubmitSolution for a template that isn't there, with a coinbase of one byte.
SOLUTION = bytes.fromhex("000076170000" + "07" + "00" * 7 + "01000000" + "00000000" + "00000000" + "0100" + "00")
LEDGER_OF_NOTHING = b"SV2LEDG2"
CLOSINGS = [[], [0], [1], [2], [0, 1, 2]]


def free_port():
    with socket.create_server(("127.0.0.1", 0)) as listener:
        return listener.getsockname()[1]


def dialled(port):
    """A connection to the program, as soon as it listens."""
    last = time.monotonic() + 20
    while True:
        try:
            return socket.create_connection(("127.0.0.1", port), timeout=20)
        except ConnectionRefusedError:
            if time.monotonic() > last:
                raise
            time.sleep(0.02)


def all_of(connection):
    """All that comes up to the end."""
    told = b""
    connection.settimeout(20)
    try:
        while piece := connection.recv(4096):
            told += piece
    except ConnectionResetError:
        pass
    return told


class Peer:
    """A peer over loopback: what it says, when it ends, and what it got."""

    def __init__(self, said, listens=True):
        self.said, self.got, self.listens = said, b"", listens
        if listens:
            self.server = socket.create_server(("127.0.0.1", 0))
            self.port = self.server.getsockname()[1]
        else:
            self.port = free_port()
        self.thread = threading.Thread(target=self.talk, daemon=True)
        self.thread.start()

    @property
    def address(self):
        return f"127.0.0.1:{self.port}"

    def talk(self):
        if self.listens:
            self.server.settimeout(20)
            connection, _ = self.server.accept()
        else:
            connection = dialled(self.port)
        with connection:
            connection.sendall(self.said)
            connection.shutdown(socket.SHUT_WR)
            self.got = all_of(connection)

    def heard(self):
        self.thread.join(30)
        return self.got


def settings(place, **more):
    """A file of settings, for a pool whose doors wait a second."""
    said = {
        "pool_script": "51", "least_class": 0, "fee": 100, "rule": "proportional", "ntime_window": 600, "workers": 1,
        "address": f"127.0.0.1:{free_port()}", "idle_turns": 10, "door_turns": 10,
    } | more
    (place / "settings").write_text(json.dumps(said))


def alone(*words):
    """A command that needs no peer, over settings, a worked ledger and one of nothing."""
    def prepare(place):
        settings(place, feed="127.0.0.1:1")
        (place / "worked").write_bytes((examples / "worked.ledger").read_bytes())
        (place / "nothing").write_bytes(LEDGER_OF_NOTHING)
        return list(words), []
    return prepare


def served(*words):
    def prepare(place):
        provider = Peer(ACCEPTED)
        settings(place, feed=provider.address)
        return [*words, "serve", "settings", "ledger"], [provider]
    return prepare


def mined(place):
    pool = Peer(OF_VERSION_3)
    return ["mine", pool.address, "a", "0", "1"], [pool]


def fed(place):
    script = "0000712b0000" + "05" + "00" * 7 + "010000002002000000025151ffffffffe803000000000000" + "00" * 11
    script += "000072500000" + "05" + "00" * 7 + "11" * 32 + "40420f00ffff7f20" + "ff" * 32
    (place / "script").write_bytes(bytes.fromhex(script))
    caller = Peer(SETUP[:6] + b"\x02" + SETUP[7:] + SOLUTION, listens=False)
    return ["feed", "script", caller.address], [caller]


def proxied(place):
    """Its doors wait for an hour, so it is ended once its upstream has heard the end."""
    upstream = Peer(OF_VERSION_3)
    return ["proxy", upstream.address, "a", f"127.0.0.1:{free_port()}", "1"], [upstream]


COMMANDS = [
    alone("frames"), alone("audit", "worked"), alone("migrate", "worked", "new"), alone("solo", "settings", "new"),
    alone("declare", "settings", "new"), alone("solo", "fixed", "43", "00" * 68), alone("load", "7"),
    alone("durable", "solo", "settings", "new"), alone("durable", "audit", "new"), alone("durable", "audit", "nothing"),
    alone("audit", "there-is-none"), served(), served("durable"), mined, fed, proxied,
]


def ran(prepare, closed, place):
    """Runs a command with these streams closed: its words, its status, whether it printed, its files, and what its peers
    got."""
    place.mkdir()
    words, peers = prepare(place)
    closing = "".join(f" {stream}>&-" for stream in closed)
    shell = ["sh", "-c", f'exec "$@"{closing}', "sh", program, *words]
    process = subprocess.Popen(shell, cwd=place, stdin=subprocess.DEVNULL, stdout=subprocess.PIPE, stderr=subprocess.PIPE)
    if prepare is proxied:
        peers[0].heard()
        time.sleep(0.5)
        process.kill()
    try:
        printed, complained = process.communicate(timeout=300)
    except subprocess.TimeoutExpired:
        process.kill()
        sys.exit(f"not so: {' '.join(words)} ends within five minutes, with {closed or 'nothing'} closed")
    if complained:
        sys.exit(f"not so: {' '.join(words)} writes nothing to standard error: {complained}")
    left = {file.name: file.read_bytes() for file in place.iterdir() if file.name != "settings"}
    return words, process.returncode, bool(printed), left, [peer.heard() for peer in peers]


wrong = 0
for number, prepare in enumerate(COMMANDS):
    words, status, prints, files, heard = ran(prepare, [], folder / f"{number}")
    for closed in CLOSINGS[1:]:
        place = folder / f"{number}-{''.join(map(str, closed))}"
        _, found, _, left, got = ran(prepare, closed, place)
        allowed = {5, 7} if prints and 1 in closed else {status}
        faults = [name for name in {*files, *left} if files.get(name) != left.get(name)]
        faults += [f"what peer {at} got" for at, (one, other) in enumerate(zip(heard, got)) if one != other]
        faults += [f"status {found}, and {status} with all streams"] if found not in allowed else []
        if faults:
            wrong += 1
            print(f"WRONG: {' '.join(words)}, with {closed} closed: {', '.join(faults)}")
print(f"{len(COMMANDS)} commands, each with four closings: {wrong} wrong")
sys.exit(wrong > 0)
