#!/bin/sh
# Shares a second through the whole command `serve`, over loopback, with its settings and its ledger's file: on one, two
# and four links at once by Stratum V2, and on one and four by Stratum V1, each share of class 0, so that all are
# credited. Beside them the same shares through a single `solo`, by its pipes. Each is timed three times, in turns, and
# the least time counts. Then how long an answer takes from the share to the reply, with one share in flight, by V2 and
# by V1: the median and the worst of 10,000. Then what JSON costs a share: by how much longer it takes on a single V1
# link than on a single V2 link, of which at most 12 microseconds are wanted. All in one run on one machine, whose
# processors the miners of this script share.
set -eu
cd "$(dirname "$0")/.."
count=${1:-40000}
work=$(mktemp -d)
trap 'rm -rf "$work"' EXIT

sh examples/build.sh

python3 - "$count" "$work" <<'PY'
import json, os, socket, subprocess, sys, threading, time

count, work = int(sys.argv[1]), sys.argv[2]
program = "crates/pool_cli/out/pool_cli"

# The setup of the worked session, its template and its tip, whose target no hash meets; a channel that rolls eight
# bytes, and a share on it with a nonce of its own.
SETUP = bytes.fromhex("00000010000000020002000000000000000000000000")
ACCEPTED = bytes.fromhex("000001060000020000000000")
OPENING = bytes.fromhex("0000132c000007000000016100000000" + "ff" * 32 + "0800")
TEMPLATE = bytes.fromhex("0000712b00000500000000000000010000002002000000025151ffffffffe8030000000000000000000000000000000000")
TIP = bytes.fromhex("0000725000000500000000000000" + "11" * 32 + "40420f00ffff7f20" + "00" * 32)
# How many bytes answer a setup, an opening, and the template with its tip.
SET_UP, OPENED, JOB = 12, 53, 88 + 54
# The same by Stratum V1, where a channel always rolls eight bytes, and how many lines answer it.
JOINING = b"""{"id":1,"method":"mining.configure","params":[["version-rolling"],{"version-rolling.mask":"1fffe000"}]}
{"id":2,"method":"mining.subscribe","params":["bench/serve.sh"]}
{"id":3,"method":"mining.authorize","params":["a.rig","x"]}
"""
JOINED = 4
# How often each rate is timed, and how many shares are answered one after the other.
ROUNDS, WAITS = 3, 10_000

def share(channel, number):
    return (bytes.fromhex("00801b210000") + channel + bytes.fromhex("0900000001000000") + number.to_bytes(4, "little")
            + bytes.fromhex("40420f0000000020080000000000000000"))

def credit(channel):
    """The answer to a share that is credited."""
    return bytes.fromhex("00801c140000") + channel + bytes.fromhex("09000000010000000100000000000000")

def read(connection, wanted):
    told = bytearray()
    while len(told) < wanted:
        piece = connection.recv(min(65536, wanted - len(told)))
        if not piece:
            raise EOFError("the pool closed the connection")
        told += piece
    return bytes(told)

def read_lines(connection, wanted):
    told = b""
    while told.count(b"\n") < wanted:
        told += read(connection, 1)
    return told

class Frames:
    """A miner of Stratum V2, who has opened a channel."""

    def __init__(self, connection):
        self.connection = connection
        connection.sendall(SETUP)
        read(connection, SET_UP)
        connection.sendall(OPENING)
        self.channel = read(connection, OPENED)[10:14]

    def hear_job(self):
        read(self.connection, JOB)

    def share(self, number):
        return share(self.channel, number)

    def credit(self, number):
        return credit(self.channel)

class Lines:
    """A miner of Stratum V1, who is subscribed. Its shares roll bits of the version."""

    def __init__(self, connection):
        self.connection = connection
        connection.sendall(JOINING)
        told = read_lines(connection, JOINED)
        if told.count(b'"error":null') != 3:
            sys.exit(f"the pool refused a miner of Stratum V1: {told}")

    def hear_job(self):
        read_lines(self.connection, 1)

    def share(self, number):
        return (f'{{"id":{1_000_000 + number},"method":"mining.submit","params":["a.rig","1","0000000000000000",'
                f'"000f4240","{number:08x}","00002000"]}}\n').encode()

    def credit(self, number):
        return f'{{"error":null,"id":{1_000_000 + number},"result":true}}\n'.encode()

class Pool:
    """A `serve` with so many workers, its template provider, and as many miners of a language."""

    def __init__(self, language, miners):
        self.listener = socket.create_server(("127.0.0.1", 0))
        with socket.create_server(("127.0.0.1", 0)) as free:
            port = free.getsockname()[1]
        settings = {"pool_script": "51", "least_class": 0, "fee": 100, "rule": "proportional", "ntime_window": 600,
                    "workers": miners, "address": f"127.0.0.1:{port}", "door_turns": 100, "v1_base": 0,
                    "feed": f"127.0.0.1:{self.listener.getsockname()[1]}"}
        if os.path.exists(f"{work}/ledger"):
            os.remove(f"{work}/ledger")
        with open(f"{work}/settings", "w") as file:
            json.dump(settings, file)
        self.program = subprocess.Popen([program, "serve", f"{work}/settings", f"{work}/ledger"],
                                        stdout=subprocess.DEVNULL)
        self.feed, _ = self.listener.accept()
        read(self.feed, 22 + 12)
        self.feed.sendall(ACCEPTED)
        self.miners = [language(self.dialled(port)) for _ in range(miners)]
        self.feed.sendall(TEMPLATE + TIP)
        for miner in self.miners:
            miner.hear_job()

    def dialled(self, port):
        for _ in range(200):
            try:
                connection = socket.create_connection(("127.0.0.1", port))
                break
            except ConnectionRefusedError:
                time.sleep(0.02)
        connection.setsockopt(socket.IPPROTO_TCP, socket.TCP_NODELAY, 1)
        return connection

    def close(self):
        for miner in self.miners:
            miner.connection.close()
        self.feed.close()
        self.listener.close()
        self.program.kill()
        self.program.wait()

def check(miner, told, numbers):
    """Says so where the answers to these shares aren't all credits."""
    if told != b"".join(map(miner.credit, numbers)):
        sys.exit("a share was answered by something else than its credit")

def served(language, links):
    """How long as many shares took, divided among so many links."""
    pool = Pool(language, links)
    numbers = range(count // links)
    told = [b""] * links

    def hear(place, wanted):
        told[place] = read(pool.miners[place].connection, wanted)

    threads = []
    for place, miner in enumerate(pool.miners):
        shares, wanted = b"".join(map(miner.share, numbers)), sum(len(miner.credit(number)) for number in numbers)
        threads.append(threading.Thread(target=miner.connection.sendall, args=(shares,)))
        threads.append(threading.Thread(target=hear, args=(place, wanted)))
    start = time.monotonic()
    for thread in threads:
        thread.start()
    for thread in threads:
        thread.join()
    took = time.monotonic() - start
    pool.close()
    for miner, answers in zip(pool.miners, told):
        check(miner, answers, numbers)
    return took

def alone():
    """How long they took through `solo`."""
    with open(f"{work}/stream", "wb") as file:
        file.write(SETUP + OPENING + TEMPLATE + TIP)
        for number in range(count):
            file.write(share(bytes.fromhex("01000000"), number))
    if os.path.exists(f"{work}/solo"):
        os.remove(f"{work}/solo")
    with open(f"{work}/stream", "rb") as stream:
        start = time.monotonic()
        subprocess.run([program, "solo", f"{work}/settings", f"{work}/solo"], stdin=stream,
                       stdout=subprocess.DEVNULL, check=True)
        return time.monotonic() - start

def waits(language):
    """How long each of 10,000 answers took, one share after the other."""
    pool = Pool(language, 1)
    [miner] = pool.miners
    times = []
    for number in range(WAITS):
        sent, wanted = miner.share(number), len(miner.credit(number))
        start = time.monotonic()
        miner.connection.sendall(sent)
        told = read(miner.connection, wanted)
        times.append(time.monotonic() - start)
        check(miner, told, [number])
    pool.close()
    return sorted(times)

RUNS = {
    "one link": lambda: served(Frames, 1), "two links": lambda: served(Frames, 2),
    "four links": lambda: served(Frames, 4), "a single solo": alone,
    "one V1 link": lambda: served(Lines, 1), "four V1 links": lambda: served(Lines, 4),
}
rounds = [{name: run() for name, run in RUNS.items()} for _ in range(ROUNDS)]
least = {name: min(times[name] for times in rounds) for name in RUNS}
for name, took in least.items():
    print(f"credited on {name:<14} {count / took:>10,.0f} shares a second")
for name, times in [("one share in flight", waits(Frames)), ("the same on a V1 link", waits(Lines))]:
    print(f"{name:<26} median {times[WAITS // 2] * 1e6:,.0f} microseconds, worst {times[-1] * 1e6:,.0f}")
cost = (least["one V1 link"] - least["one link"]) / count * 1e6
print(f"{'what JSON costs a share':<26} {cost:,.1f} microseconds: one V1 link beside one link of V2")
ratio = least["a single solo"] / least["four links"]
print(f"ratio {ratio:.2f}, credited shares a second on four links to those of a single solo")
PY
