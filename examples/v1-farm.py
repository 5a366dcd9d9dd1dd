#!/usr/bin/env python3
"""Two miners of Stratum V1 behind a proxy, for `proxy.sh`. Plain Python, nothing to install.

    v1-farm.py ADDRESS

Both dial the proxy at ADDRESS, one after the other, and stay. They don't search: what they submit was found before,
by hashing all nonces of the first extranonce2, which takes a computer some minutes for each. It is found again only
for the job of `proxy.sh`, whose template, settings and channel never change, and with a miner's own lead.

Each line that is said and each that is told is printed behind the miner's name. Status 0: all was told as it has to be.
1: it wasn't, or the proxy wasn't reached; standard error says what.
"""
import json
import socket
import sys
import time

# A share of the first miner and one of the second: the nonces that meet class 32 with their leads. A third one meets
# no class to speak of.
NONCES = ["35e95ca1", "d62f5e83"]
WEAK = "00000000"


class Miner:
    """One connection, and the lines that came and weren't looked at."""

    def __init__(self, name, address):
        host, _, port = address.rpartition(":")
        self.name = name
        self.connection = socket.create_connection((host, int(port)), timeout=20)
        self.lines = self.connection.makefile("r", encoding="utf-8")
        self.number = 0

    def say(self, method, *params):
        self.number += 1
        line = json.dumps({"id": self.number, "method": method, "params": list(params)}, separators=(",", ":"))
        print(f"    {self.name} > {line}")
        self.connection.sendall(line.encode() + b"\n")

    def told(self):
        line = self.lines.readline()
        if not line:
            raise SystemExit(f"{self.name}: the proxy closed the connection")
        print(f"    {self.name} < {line.rstrip()}")
        return json.loads(line)

    def ask(self, method, *params):
        """Says it, and returns the answer: the next line that has its id."""
        self.say(method, *params)
        while True:
            line = self.told()
            if line.get("id") == self.number:
                return line


def wanted(holds, what):
    if not holds:
        raise SystemExit(what)


def begun(name, address, lead):
    """A miner with this lead, which has a job."""
    miner = Miner(name, address)
    answer = miner.ask("mining.subscribe")
    while answer["error"] and answer["error"][1] == "no upstream":
        time.sleep(0.2)
        answer = miner.ask("mining.subscribe")
    wanted(answer["result"][1:] == ["00000000" + lead, 6], f"{name} has another space than {lead}")
    while miner.told().get("method") != "mining.notify":
        pass
    wanted(miner.ask("mining.authorize", name, "")["result"] is True, f"{name} isn't authorized")
    return miner


def submit(miner, nonce):
    return miner.ask("mining.submit", miner.name, "1", "000000000000", "000f4240", nonce)


def main():
    if len(sys.argv) != 2:
        raise SystemExit(__doc__)
    one = begun("dora", sys.argv[1], "0000")
    other = begun("emil", sys.argv[1], "0001")
    wanted(submit(one, NONCES[0])["result"] is True, "dora's share wasn't credited")
    wanted(submit(other, NONCES[1])["result"] is True, "emil's share wasn't credited")
    wanted(submit(one, WEAK)["error"][0] == 23, "dora's weak share wasn't refused as one")
    wanted(submit(other, NONCES[1])["error"][0] == 22, "emil's second submission of a share wasn't refused as one")


main()
