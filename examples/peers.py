#!/usr/bin/env python3
"""A template provider and two miners over loopback, for examples/serve.sh. Plain Python, nothing to install.

    peers.py PROGRAM FOLDER

Starts PROGRAM with the words `serve FOLDER/settings.json FOLDER/ledger`. The provider accepts the pool's setup, and
gives a template and its tip once both miners have opened a channel; the first miner then sends a share, which finds a
block, and the provider waits for it. What each of the three was told stands in FOLDER/feed, FOLDER/miner-1 and
FOLDER/miner-2, what the program printed in FOLDER/output. Ends with the program's status.
"""
import json
import socket
import subprocess
import sys
import threading
import time

program, folder = sys.argv[1:]

SETUP = bytes.fromhex("00000010000000020002000000000000000000000000")
ACCEPTED = bytes.fromhex("000001060000020000000000")
OPENING = bytes.fromhex("0000132c000007000000016100000000" + "ff" * 32 + "0800")
TEMPLATE = bytes.fromhex("0000712b00000500000000000000010000002002000000025151ffffffffe803000000000000" + "00" * 11)
TIP = bytes.fromhex("0000725000000500000000000000" + "11" * 32 + "40420f00ffff7f20" + "ff" * 32)
# A share's frame up to its channel, and behind it.
SHARE = (bytes.fromhex("00801b210000"), bytes.fromhex("09000000010000000000000040420f0000000020080000000000000000"))

opened = threading.Semaphore(0)


def read(connection, told, count):
    """Reads so many bytes more."""
    wanted = len(told) + count
    while len(told) < wanted:
        piece = connection.recv(wanted - len(told))
        if not piece:
            raise EOFError("the pool closed the connection")
        told += piece


def provider(listener):
    connection, _ = listener.accept()
    told = bytearray()
    with connection:
        read(connection, told, 22 + 12)  # the pool's setup, and what its coinbases need
        connection.sendall(ACCEPTED)
        opened.acquire()
        opened.acquire()
        connection.sendall(TEMPLATE)
        connection.sendall(TIP)
        read(connection, told, 103)  # the block that was found
    open(f"{folder}/feed", "wb").write(told)


def miner(number, port):
    told = bytearray()
    with dialled(port) as connection:
        connection.sendall(SETUP)
        read(connection, told, 12)
        connection.sendall(OPENING)
        read(connection, told, 53)
        opened.release()
        read(connection, told, 88 + 54)  # the job of the template, and the tip
        if number == 1:
            channel = bytes(told[22:26])  # as the opening's answer has it
            connection.sendall(SHARE[0] + channel + SHARE[1])
            read(connection, told, 26)
    open(f"{folder}/miner-{number}", "wb").write(told)


def dialled(port):
    """A connection to the pool, as soon as its doors are open."""
    for _ in range(100):
        try:
            return socket.create_connection(("127.0.0.1", port), timeout=20)
        except ConnectionRefusedError:
            time.sleep(0.05)
    raise SystemExit("the pool opened no door")


def free_port():
    with socket.create_server(("127.0.0.1", 0)) as listener:
        return listener.getsockname()[1]


listener = socket.create_server(("127.0.0.1", 0))
port = free_port()
settings = {
    "pool_script": "51", "least_class": 0, "fee": 100, "rule": "proportional", "ntime_window": 600,
    "workers": 2, "address": f"127.0.0.1:{port}", "feed": f"127.0.0.1:{listener.getsockname()[1]}",
    # So many times a tenth of a second is waited for a byte, and for a caller.
    "idle_turns": 100, "door_turns": 20,
}
with open(f"{folder}/settings.json", "w") as file:
    json.dump(settings, file)

threads = [threading.Thread(target=provider, args=(listener,))]
threads += [threading.Thread(target=miner, args=(number, port)) for number in (1, 2)]
with open(f"{folder}/output", "wb") as output:
    pool = subprocess.Popen([program, "serve", f"{folder}/settings.json", f"{folder}/ledger"], stdout=output)
    for thread in threads:
        thread.start()
    for thread in threads:
        thread.join()
    sys.exit(pool.wait())
