#!/usr/bin/env python3
"""A provider and an upstream whose connections end while a miner stays, for examples/hang-up.sh. Plain Python, nothing
to install.

    hang-up.py PROGRAM FOLDER

Serves with the words `serve FOLDER/settings.json FOLDER/ledger`, and then `proxy`. Each time the peer that was dialled
says what ends its session, and has to hear all that was put before, then the end, within a second; what it puts from
then on has to fail within a second too. A miner who came before stays, and has to be answered behind it. Status 1,
with what was seen, where it isn't so.
"""
import json
import socket
import subprocess
import sys
import time

program, folder = sys.argv[1:]

SETUP = bytes.fromhex("00000010000000020002000000000000000000000000")
ACCEPTED = bytes.fromhex("000001060000020000000000")
OF_VERSION_3 = bytes.fromhex("000001060000030000000000")
# A template of one byte, which is no message.
NO_MESSAGE = bytes.fromhex("000071010000" + "00")
OPENING = bytes.fromhex("0000132c000007000000016100000000" + "ff" * 32 + "0800")
SUBSCRIBE = b'{"id":1,"method":"mining.subscribe","params":[]}\n'

# What was put to a provider that has accepted: the pool's setup, and what its coinbases need; to an upstream: a setup.
TO_PROVIDER = 22 + 12
TO_UPSTREAM = 22


def seen(is_so, what):
    if not is_so:
        sys.exit(f"not so: {what}")
    print(f"    {what}")


def read(connection, count):
    """So many bytes."""
    told = b""
    while len(told) < count:
        piece = connection.recv(count - len(told))
        if not piece:
            sys.exit(f"not so: the end came behind {len(told)} bytes")
        told += piece
    return told


def heard_within(connection, seconds):
    """What comes up to the end, or None where none comes so soon."""
    told, last = b"", time.monotonic() + seconds
    while (left := last - time.monotonic()) > 0:
        connection.settimeout(left)
        try:
            piece = connection.recv(4096)
        except TimeoutError:
            return None
        if not piece:
            return told
        told += piece
    return None


def refused_within(connection, seconds):
    """Whether a put fails so soon; each is of more than the system holds for a peer that doesn't read."""
    last = time.monotonic() + seconds
    while (left := last - time.monotonic()) > 0:
        connection.settimeout(left)
        try:
            connection.sendall(bytes(1 << 20))
        except TimeoutError:
            return False
        except OSError:
            return True
    return False


def let_go(connection, said, before, whose):
    """Says what ends the session, and hears what is put, the end, and that nobody hears any more."""
    connection.sendall(said)
    told = heard_within(connection, 1)
    seen(told is not None, f"{whose} hears the end within a second")
    seen(len(told) == before, f"and before it the {before} bytes that were put")
    seen(refused_within(connection, 1), "what it puts then fails within a second")


def dialled(port):
    """A connection to the program, as soon as its doors are open."""
    for _ in range(100):
        try:
            return socket.create_connection(("127.0.0.1", port), timeout=20)
        except ConnectionRefusedError:
            time.sleep(0.05)
    sys.exit("not so: a door was opened")


def free_port():
    with socket.create_server(("127.0.0.1", 0)) as listener:
        return listener.getsockname()[1]


def over(process):
    """Ends the program, which is to be there still."""
    seen(process.poll() is None, "and the program goes on with its miner")
    process.kill()
    process.wait()


def serve_on():
    listener, port = socket.create_server(("127.0.0.1", 0)), free_port()
    settings = {
        "pool_script": "51", "least_class": 0, "fee": 100, "rule": "proportional", "ntime_window": 600,
        "workers": 1, "address": f"127.0.0.1:{port}", "feed": f"127.0.0.1:{listener.getsockname()[1]}",
        "idle_turns": 600, "door_turns": 600,
    }
    with open(f"{folder}/settings.json", "w") as file:
        json.dump(settings, file)
    pool = subprocess.Popen([program, "serve", f"{folder}/settings.json", f"{folder}/ledger"])
    try:
        provider, _ = listener.accept()
        with provider, dialled(port) as miner:
            miner.sendall(SETUP)
            read(miner, 12)
            print("serve: a miner is there, and its provider sends a template of one byte")
            let_go(provider, ACCEPTED + NO_MESSAGE, TO_PROVIDER, "the provider")
            miner.sendall(OPENING)
            seen(len(read(miner, 53)) == 53, "the miner opens a channel behind it")
            over(pool)
    finally:
        pool.kill()


def proxy_on():
    listener, port = socket.create_server(("127.0.0.1", 0)), free_port()
    words = ["proxy", f"127.0.0.1:{listener.getsockname()[1]}", "a", f"127.0.0.1:{port}", "1"]
    proxy = subprocess.Popen([program, *words])
    try:
        upstream, _ = listener.accept()
        with upstream, dialled(port) as miner:
            miner.sendall(SUBSCRIBE)
            read(miner, 1)
            print("proxy: a miner is there, and its upstream accepts version 3")
            let_go(upstream, OF_VERSION_3, TO_UPSTREAM, "the upstream")
            heard_within(miner, 0.3)
            miner.settimeout(20)
            miner.sendall(SUBSCRIBE)
            seen(read(miner, 1) == b"{", "the miner is answered behind it")
            over(proxy)
    finally:
        proxy.kill()


serve_on()
proxy_on()
print("ok: both were let go of at once, and each miner was served on")
