"""A relay asks for difficulties, and writes down what was credited."""
import json
import os
import socket
import subprocess
import threading
import unittest

from lib.pace import Pace
from lib.relaying import Relay
from lib.stratum_v1 import Job
from tests.support import WithFolder, coinbase_of, double_hash, tool
from tests.writing import NBITS, PREVIOUS, TIME, VERSION, number

# The Stratum V1 session of docs/POOL.md: P and Q in hex, and the lines that are said and told.
FIRST = coinbase_of(1_000, b"")[:44].hex()
LAST = coinbase_of(1_000, b"")[44:].hex()
NOTIFY = {"id": None, "method": "mining.notify", "params": [
    "1", "11" * 32, FIRST, LAST, [], "20000000", "207fffff", "000f4240", True,
]}
CONFIGURE = {"id": 1, "method": "mining.configure", "params": [
    ["version-rolling"], {"version-rolling.mask": "1fffe000", "version-rolling.min-bit-count": 2},
]}
CONFIGURED = {"error": None, "id": 1, "result": {
    "version-rolling": True, "version-rolling.mask": "1fffe000",
}}
SUBSCRIBED = {"error": None, "id": 2, "result": [
    [["mining.set_difficulty", "00000000"], ["mining.notify", "00000000"]], "00000000", 8,
]}
SUBMIT = ["a.rig", "1", "0000000000000000", "000f4240", "00000000", "00002000"]


class Doors:
    """What a relay says and keeps."""

    def __init__(self, a_minute: float | None = 10.0, start: int | None = None) -> None:
        self.a_minute, self.start = a_minute, start
        self.said: list[str] = []
        self.kept: list[dict] = []

    def say(self, words: str) -> None:
        self.said.append(words)

    def keep(self, receipt: dict) -> None:
        self.kept.append(receipt)


def line(said: dict) -> bytes:
    return json.dumps(said).encode() + b"\n"


def difficulty(value: int) -> bytes:
    return line({"id": None, "method": "mining.set_difficulty", "params": [value]})


class Relays(unittest.TestCase):
    def relay(self, *options: object) -> Relay:
        self.doors = Doors(*options)
        return Relay("1.2.3.4:5", self.doors, 0.0)

    def ask(self, relay: Relay, id_: object, method: str, params: list, **answer: object) -> None:
        """A request of the miner's, and the pool's answer, which it is told as it is."""
        relay.from_miner(line({"id": id_, "method": method, "params": params}))
        told = line({"error": None, "id": id_, "result": True, **answer})
        self.assertEqual(relay.from_pool(told), [told])

    def begun(self, relay: Relay, password: str = "x") -> Relay:
        relay.from_miner(line(CONFIGURE))
        relay.from_pool(line(CONFIGURED))
        self.ask(relay, 2, "mining.subscribe", ["m"], result=SUBSCRIBED["result"])
        for told in (difficulty(1), line(NOTIFY)):
            self.assertEqual(relay.from_pool(told), [told])
        self.ask(relay, 4, "mining.authorize", ["a.rig", password])
        return relay

    def wishes(self, relay: Relay) -> list[int]:
        asked = [json.loads(one) for one in relay.asked()]
        self.assertTrue(all(one["method"] == "mining.suggest_difficulty" for one in asked))
        return [one["params"][0] for one in asked]

    def test_a_share_that_was_answered_true_is_kept_with_its_header(self) -> None:
        relay = self.begun(self.relay())
        self.ask(relay, 6, "mining.submit", SUBMIT)
        root = double_hash(coinbase_of(1_000, bytes(12)))
        head = (number(0x20002000, 4) + PREVIOUS + root + number(TIME, 4) + number(NBITS, 4)
                + number(0, 4))
        self.assertEqual([(one["header"], one["worker"], one["difficulty"]) for one in self.doors.kept],
                         [(head.hex(), "a.rig", 1)])
        self.ask(relay, 7, "mining.submit", SUBMIT[:5])
        self.assertEqual(bytes.fromhex(self.doors.kept[1]["header"])[:4], number(VERSION, 4))

    def test_refusals_are_said(self) -> None:
        relay = self.begun(self.relay())
        self.ask(relay, "s", "mining.submit", SUBMIT, result=None, error=[22, "duplicate share", None])
        self.ask(relay, None, "mining.authorize", ["b"], result=None,
                 error=[24, "unauthorized worker", None])
        self.assertEqual(self.doors.kept, [])
        self.assertEqual(self.doors.said, [
            "1.2.3.4:5 a.rig: is authorized",
            "1.2.3.4:5 a.rig: a share is refused: duplicate share (22)",
            "1.2.3.4:5 a.rig: mining.authorize is refused: unauthorized worker (24)",
        ])
        self.assertEqual(relay.counts(), "0 shares, and 1 that were refused")

    def test_a_password_says_a_difficulty_for_good(self) -> None:
        for password, wished in (("d=1024", [1024]), ("x,d=7;y", [7]), ("dd=5", []), ("d=0", []), ("x", [])):
            relay = self.begun(self.relay(), password)
            self.assertEqual(self.wishes(relay), wished)
        relay = self.begun(self.relay(), "d=4")
        for at in range(40):
            self.ask(relay, 10 + at, "mining.submit", SUBMIT)
        relay.asked()
        relay.measure(10.0)
        self.assertEqual(self.wishes(relay), [])

    def test_a_fast_miner_gets_some_ten_shares_a_minute(self) -> None:
        relay = self.begun(self.relay())
        for at in range(1_000):
            self.ask(relay, 10 + at, "mining.submit", SUBMIT)
        relay.measure(2.0)
        # 500 shares of difficulty 1 a second; at 2^12 these are 7.3 a minute, and at 2^11 14.6.
        self.assertEqual(self.wishes(relay), [4096])
        # The answer to what the relay asked is told to nobody.
        self.assertEqual(relay.from_pool(line({"error": None, "id": "maqefwi-vardiff-1", "result": True})), [])

    def test_nobody_is_asked_where_the_difficulty_is_to_stay(self) -> None:
        relay = self.begun(self.relay(None, 64), "d=1024")
        for at in range(100):
            self.ask(relay, 10 + at, "mining.submit", SUBMIT)
        relay.measure(500.0)
        self.assertEqual(self.wishes(relay), [])
        self.assertEqual(len(self.doors.kept), 100)

    def test_a_first_difficulty_is_asked_for_behind_the_subscribe(self) -> None:
        self.assertEqual(self.wishes(self.begun(self.relay(10.0, 65_536))), [65_536])

    def test_a_lower_difficulty_is_told_with_the_next_job(self) -> None:
        relay = self.begun(self.relay())
        self.assertEqual(relay.from_pool(difficulty(64)), [difficulty(64)])
        second = {**NOTIFY, "params": ["2", *NOTIFY["params"][1:8], False]}
        self.assertEqual(relay.from_pool(line(second)), [line(second)])
        self.assertEqual(relay.from_pool(difficulty(16)), [])
        third = {**NOTIFY, "params": ["3", *NOTIFY["params"][1:8], False]}
        self.assertEqual(relay.from_pool(line(third)), [difficulty(16), line(third)])
        for number_, worth in (("1", 1), ("2", 64), ("3", 16)):
            self.ask(relay, 50, "mining.submit", ["a", number_, *SUBMIT[2:]])
            self.assertEqual(self.doors.kept[-1]["difficulty"], worth)

    def test_lines_that_say_nothing_are_sent_on(self) -> None:
        relay = self.begun(self.relay())
        for told in (b"no json\n", b"[1]\n", line({"id": 99, "result": True, "error": None}),
                     line({"id": None, "method": "client.show_message", "params": ["x"]}),
                     line({"id": None, "method": "mining.notify", "params": [1]}),
                     line({"id": None, "method": "mining.set_difficulty", "params": {}})):
            self.assertEqual(relay.from_pool(told), [told])
            relay.from_miner(told)
        self.ask(relay, 5, "mining.submit", ["a", "unknown", "", "", ""])
        self.assertIsNone(self.doors.kept[0]["header"])


class Jobs(unittest.TestCase):
    def test_the_words_of_a_previous_hash_are_turned(self) -> None:
        told = "03020100" + "07060504" + "00" * 24
        job = Job.of(["1", told, "", "", [], "20000000", "207fffff", "000f4240", True])
        self.assertEqual(job.previous[:8].hex(), "0001020304050607")


class Paces(unittest.TestCase):
    def pace(self, shares: int, worth: int, seconds: float, difficulty_: int, pace: Pace | None = None):
        pace = pace or Pace(10.0, 0.0)
        for _ in range(shares):
            pace.share(worth)
        return pace.wish(seconds, difficulty_)

    def test_which_difficulty_is_wished_for(self) -> None:
        for shares, worth, seconds, present, wish in (
            (46_566 * 2, 1, 2.0, 1, 2**18),  # one S21 at difficulty 1
            (20, 1, 1.9, 1, None), (19, 64, 119.0, 64, None),  # too early to know
            (20, 64, 120.0, 64, None), (25, 64, 120.0, 64, None), (12, 64, 120.0, 64, None),
            (5, 64, 120.0, 64, 16), (0, 64, 120.0, 64, 16), (0, 1, 120.0, 1, None),
            (60, 64, 120.0, 64, 256), (1, 2, 300.0, 2, 1),
        ):
            with self.subTest((shares, seconds)):
                self.assertEqual(self.pace(shares, worth, seconds, present), wish)

    def test_a_difficulty_that_the_pool_doesnt_give_is_asked_for_once(self) -> None:
        pace = Pace(10.0, 0.0)
        self.assertEqual(self.pace(1, 64, 120.0, 64, pace), 2**2)
        self.assertIsNone(self.pace(1, 64, 240.0, 64, pace))
        self.assertEqual(self.pace(90, 64, 360.0, 64, pace), 2**8)


class Program(WithFolder):
    def relay(self, pool: str, *options: str) -> tuple[socket.socket, subprocess.Popen]:
        """A relay before a pool, and a miner at it."""
        program = self.begin("vardiff.py", "127.0.0.1:0", pool, *options)
        port = int(self.line_of(program, "miners come to").split(":")[3].split(",")[0])
        miner = socket.create_connection(("127.0.0.1", port), timeout=20)
        self.addCleanup(miner.close)
        return miner, program

    def test_lines_go_both_ways_and_the_relay_asks_beside_them(self) -> None:
        receipts = os.path.join(self.folder, "receipts")
        heard = []
        with socket.create_server(("127.0.0.1", 0)) as listener:

            def pool() -> None:
                connection, _ = listener.accept()
                with connection, connection.makefile("rwb") as stream:
                    for _ in range(3):
                        said = json.loads(stream.readline())
                        heard.append(said["method"])
                        result = SUBSCRIBED["result"] if said["id"] == 2 else True
                        stream.write(line({"error": None, "id": said["id"], "result": result}))
                        if said["id"] == 2:
                            stream.write(difficulty(1) + line(NOTIFY))
                        stream.flush()
                    heard.append(json.loads(stream.readline())["params"])
                    stream.write(line({"error": None, "id": "maqefwi-vardiff-1", "result": True}))

            thread = threading.Thread(target=pool)
            thread.start()
            miner, program = self.relay(f"127.0.0.1:{listener.getsockname()[1]}", "--receipts", receipts)
            with miner, miner.makefile("rwb") as stream:
                for id_, method, params in ((2, "mining.subscribe", []), (6, "mining.submit", SUBMIT),
                                            (4, "mining.authorize", ["a.rig", "d=512"])):
                    stream.write(line({"id": id_, "method": method, "params": params}))
                    stream.flush()
                told = [json.loads(one) for one in stream]
            thread.join()
        self.assertEqual([one.get("id") for one in told], [2, None, None, 6, 4])
        self.assertEqual(heard, ["mining.subscribe", "mining.submit", "mining.authorize", [512]])
        with open(receipts, encoding="utf-8") as file:
            self.assertEqual(len(file.readlines()), 1)
        program.terminate()
        said = program.stdout.read()
        for words in ("a.rig: is authorized", "a.rig: difficulty 512 is asked for",
                      "has left, after 1 shares, and 0 that were refused"):
            self.assertIn(words, said)

    def test_other_bytes_are_sent_on_as_they_are(self) -> None:
        with socket.create_server(("127.0.0.1", 0)) as listener:

            def pool() -> None:
                connection, _ = listener.accept()
                with connection, connection.makefile("rb") as stream:
                    connection.sendall(stream.read(6)[::-1])

            thread = threading.Thread(target=pool)
            thread.start()
            miner, _ = self.relay(f"127.0.0.1:{listener.getsockname()[1]}")
            miner.sendall(b"\0\0\0\x10ab")
            with miner.makefile("rb") as stream:
                self.assertEqual(stream.read(6), b"ba\x10\0\0\0")
            thread.join()

    def test_a_pool_that_isnt_there(self) -> None:
        with socket.create_server(("127.0.0.1", 0)) as listener:
            address = f"127.0.0.1:{listener.getsockname()[1]}"
        miner, program = self.relay(address)
        self.assertEqual(miner.recv(1), b"")
        self.line_of(program, "is sent away: the pool isn't reached")

    def test_a_pool_that_goes_before_the_miner_has_said_anything(self) -> None:
        with socket.create_server(("127.0.0.1", 0)) as listener:
            miner, program = self.relay(f"127.0.0.1:{listener.getsockname()[1]}")
            listener.accept()[0].close()
            self.assertEqual(miner.recv(1), b"")
            self.line_of(program, "has left")

    def test_statuses(self) -> None:
        with socket.create_server(("127.0.0.1", 0)) as taken:
            address = f"127.0.0.1:{taken.getsockname()[1]}"
            self.assertEqual(tool("vardiff.py", address, address).returncode, 1)
        for words in ((), ("x", "127.0.0.1:1"), ("127.0.0.1:0", "127.0.0.1:1", "--start", "0")):
            self.assertEqual(tool("vardiff.py", *words).returncode, 2)


if __name__ == "__main__":
    unittest.main()
