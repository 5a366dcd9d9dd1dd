#!/bin/sh
# Shares a second through `proxy`, over loopback, to a peer that answers each, beside the same two miners of Stratum V1 at
# `serve` itself, where each share is of class 0, so that all are credited. Each is timed three times, in turns, and the
# least time counts. All in one run on one machine, whose processors the miners and the peer of this script share. The
# peer hashes nothing: it is there to answer.
set -eu
cd "$(dirname "$0")/.."
count=${1:-100000}
work=$(mktemp -d)
trap 'rm -rf "$work"' EXIT

sh examples/build.sh

python3 - "$count" "$work" <<'PY'
import json, multiprocessing, os, socket, subprocess, sys, threading, time

count, work = int(sys.argv[1]), sys.argv[2]
program = "crates/pool_cli/out/pool_cli"

# What a template provider answers and says, and what an upstream does: a channel whose extranonces have eight bytes
# behind its prefix, a job and its tip.
ACCEPTED = bytes.fromhex("000001060000020000000000")
TEMPLATE = bytes.fromhex("0000712b00000500000000000000010000002002000000025151ffffffffe8030000000000000000000000000000000000")
TIP = bytes.fromhex("0000725000000500000000000000" + "11" * 32 + "40420f00ffff7f20" + "00" * 32)
OPENED = bytes.fromhex("0000142f00000100000001000000" + "ff" * 32 + "08000400000000")
JOB = bytes.fromhex("00801f5200000100000001000000000000002001002c0002000000010000000000000000000000000000000000000000000000"
                    "000000000000000000ffffffff0e51511300ffffffff01e803000000000000015100000000")
JOB_TIP = bytes.fromhex("0080203000000100000001000000" + "11" * 32 + "40420f00ffff7f20")
# What a pool says to its provider, and a proxy upstream, first; and a share on its way up.
GREETING, SETUP, OPENING, SHARE = 22 + 12, 22, 50, 39
# A miner's joining, which five lines answer: three answers, the difficulty and the job.
JOINING = b"""{"id":1,"method":"mining.configure","params":[["version-rolling"],{"version-rolling.mask":"1fffe000"}]}
{"id":2,"method":"mining.subscribe","params":["bench/proxy.sh"]}
{"id":3,"method":"mining.authorize","params":["a.rig","x"]}
"""
MINERS, ROUNDS = 2, 3

def read(connection, wanted):
    told = bytearray()
    while len(told) < wanted:
        piece = connection.recv(min(65536, wanted - len(told)))
        if not piece:
            raise EOFError("the connection was closed")
        told += piece
    return bytes(told)

def read_lines(connection, wanted):
    told = b""
    while told.count(b"\n") < wanted:
        told += read(connection, 1)
    return told

def answered(listener):
    """The peer: it opens a channel, and answers each share."""
    connection, _ = listener.accept()
    connection.setsockopt(socket.IPPROTO_TCP, socket.TCP_NODELAY, 1)
    read(connection, SETUP)
    connection.sendall(ACCEPTED)
    read(connection, OPENING)
    connection.sendall(OPENED + JOB + JOB_TIP)
    front, behind = bytes.fromhex("00801c14000001000000"), bytes.fromhex("010000000100000000000000")
    number = held = 0
    while piece := connection.recv(65536):
        whole, held = divmod(held + len(piece), SHARE)
        connection.sendall(b"".join(front + at.to_bytes(4, "little") + behind for at in range(number, number + whole)))
        number += whole

def free_port():
    with socket.create_server(("127.0.0.1", 0)) as free:
        return free.getsockname()[1]

def dialled(port):
    for _ in range(200):
        try:
            connection = socket.create_connection(("127.0.0.1", port))
            break
        except ConnectionRefusedError:
            time.sleep(0.02)
    connection.setsockopt(socket.IPPROTO_TCP, socket.TCP_NODELAY, 1)
    return connection

def joined(port):
    """A miner that has a job. One that comes before the upstream has answered comes again."""
    while True:
        connection = dialled(port)
        connection.sendall(JOINING)
        told = read_lines(connection, 3)
        if b"no upstream" not in told:
            told += read_lines(connection, 5 - told.count(b"\n"))
            if told.count(b'"error":null') != 3 or b'"mining.notify","params":["1"' not in told:
                sys.exit(f"a miner was told something else: {told}")
            return connection
        connection.close()

def shares(rolled):
    """A miner's lines, with so many bytes to roll, and what answers them."""
    numbers = range(1_000_000, 1_000_000 + count // MINERS)
    zeros = "00" * (rolled - 1)
    said = [b"".join(f'{{"id":{one},"method":"mining.submit","params":["a.rig","1","{miner:02x}{zeros}","000f4240",'
                     f'"{one:08x}","00002000"]}}\n'.encode() for one in numbers) for miner in range(MINERS)]
    told = b"".join(f'{{"error":null,"id":{one},"result":true}}\n'.encode() for one in numbers)
    return said, told

def timed(port, rolled):
    """How long the shares took from the first line to the last answer."""
    miners = [joined(port) for _ in range(MINERS)]
    said, wanted = shares(rolled)
    told = [b""] * MINERS

    def hear(place):
        told[place] = read(miners[place], len(wanted))

    threads = []
    for place, miner in enumerate(miners):
        threads.append(threading.Thread(target=miner.sendall, args=(said[place],)))
        threads.append(threading.Thread(target=hear, args=(place,)))
    start = time.monotonic()
    for thread in threads:
        thread.start()
    for thread in threads:
        thread.join()
    took = time.monotonic() - start
    for miner in miners:
        miner.close()
    if any(answers != wanted for answers in told):
        sys.exit("a share was answered by something else than its credit")
    return took

def served():
    """Through `serve`, with its ledger's file."""
    with socket.create_server(("127.0.0.1", 0)) as listener:
        port = free_port()
        settings = {"pool_script": "51", "least_class": 0, "fee": 100, "rule": "proportional", "ntime_window": 600,
                    "workers": MINERS, "address": f"127.0.0.1:{port}", "v1_base": 0,
                    "feed": f"127.0.0.1:{listener.getsockname()[1]}"}
        if os.path.exists(f"{work}/ledger"):
            os.remove(f"{work}/ledger")
        with open(f"{work}/settings", "w") as file:
            json.dump(settings, file)
        pool = subprocess.Popen([program, "serve", f"{work}/settings", f"{work}/ledger"], stdout=subprocess.DEVNULL)
        try:
            feed, _ = listener.accept()
            read(feed, GREETING)
            feed.sendall(ACCEPTED + TEMPLATE + TIP)
            time.sleep(0.5)
            took = timed(port, 8)
            feed.close()
        finally:
            pool.kill()
            pool.wait()
    return took

def proxied():
    """Through `proxy`, to a peer in a process of its own."""
    with socket.create_server(("127.0.0.1", 0)) as listener:
        peer = multiprocessing.Process(target=answered, args=(listener,), daemon=True)
        peer.start()
        port = free_port()
        proxy = subprocess.Popen([program, "proxy", f"127.0.0.1:{listener.getsockname()[1]}", "a", f"127.0.0.1:{port}",
                                  str(MINERS)], stdout=subprocess.DEVNULL)
        try:
            took = timed(port, 6)
        finally:
            proxy.kill()
            proxy.wait()
            peer.terminate()
            peer.join()
    return took

times = [(served(), proxied()) for _ in range(ROUNDS)]
at_serve, at_proxy = (min(each) for each in zip(*times))
print(f"serve: {count / at_serve:.0f} shares a second, each judged, hashed and kept")
print(f"proxy: {count / at_proxy:.0f} shares a second, each sent upstream and answered there")
print(f"ratio {at_serve / at_proxy:.2f}, shares a second through a proxy to those at serve, two miners each")
PY
