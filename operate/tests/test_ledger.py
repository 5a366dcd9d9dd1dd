"""A ledger's file is read, of each form, whole and while it is written."""
import os
import unittest

from lib.events import Credit, Teller
from lib.ledger import Defect, LedgerFile, Replaced
from tests import writing
from tests.support import WORKED, WithFolder, tool
from tests.writing import number

# Where the worked session's records begin in a ledger of format 1, and where it ends (docs/POOL.md).
PLACES_1 = [8, 37, 50, 67, 118, 206, 243]
HEAD = "b5bcc6362ad0151c28f40b41c1f1b7da91c244db0224e23c0f5166966f3631b7"


def worked() -> bytes:
    with open(WORKED, "rb") as file:
        return file.read()


def defect_of(path: str) -> str:
    try:
        list(LedgerFile(path).all_entries())
    except Defect as defect:
        return str(defect)
    return ""


class WholeLedgers(WithFolder):
    def test_the_worked_ledger_stands_where_its_description_says(self) -> None:
        ledger = LedgerFile(WORKED)
        entries = list(ledger.all_entries())
        self.assertEqual([entry.place for entry in entries], [
            place + 32 * number for number, place in enumerate(PLACES_1)
        ])
        credit = entries[5].event
        self.assertEqual(credit, Credit(0, 1, 1, 0, 1_000_000, 0x20000000, bytes(8)))
        self.assertEqual(entries[5].record.hex(), "09210000" + "00000000" + "01000000" * 2
                         + "00000000" + "40420f00" + "00000020" + "08" + "00" * 8)
        self.assertEqual(ledger.row.head, worked()[-32:])

    def test_all_forms_have_the_same_events(self) -> None:
        records = writing.records_in(worked())
        forms = {
            "plain": writing.plain(records), "format 1": writing.of_format_1(records),
            "durable": writing.durable(records),
        }
        self.assertEqual(forms["plain"], worked())
        for name, content in forms.items():
            with self.subTest(name):
                ledger = LedgerFile(self.file(name, content))
                self.assertEqual([entry.record for entry in ledger.all_entries()], records)
                self.assertEqual(ledger.content(), writing.of_format_1(records)
                                 if name == "format 1" else worked())

    def test_each_kind_of_event_is_read(self) -> None:
        records = [
            writing.start(fee=100, window=6, users=[b"alice", b"bob"]), writing.enter(1, 0, 2),
            writing.template(0, 2**64 - 1, True, 7, path=[b"\x22" * 32]), writing.tip(0, 2**64 - 1),
            writing.opening(0, writing.V1, b"", b"\0\1", 3), writing.name(0, 1, b"alice"),
            writing.class_set(0, 1, 60), writing.close(0, 1), writing.leave(0),
            writing.credit(0, 1, 1, 2**32 - 1, b""), writing.grant(0, b"a", 1, [b"\x33" * 32] * 2),
            writing.custom(0, 1, 1, 9),
        ]
        ledger, teller = LedgerFile(self.file("ledger", writing.plain(records))), Teller()
        words = [teller.words(entry.event) for entry in ledger.all_entries()]
        self.assertEqual(words[0], 'Start pool_script 51 least_class 0 fee 100 rule pplns window 6 '
                         'ntime_window 600 credit_limit 100 version_rolling yes users "alice" "bob"')
        self.assertEqual(words[1], "Enter worker 1 role Miner flags 2, session 0")
        self.assertIn(f"template_id {2**64 - 1} future yes version 20000000", words[2])
        self.assertTrue(words[2].endswith(f"path {'22' * 32}, job 1"))
        self.assertEqual(words[4], 'Open session 0 kind V1 account "" class 3 lead 0001, channel 1')
        self.assertEqual(words[6], "Class session 0 channel 1 class 60")
        self.assertTrue(words[9].endswith("nonce 4294967295 ntime 1000000 version 20000000 extranonce none"))
        self.assertTrue(words[10].endswith(f"fixed yes path {'33' * 32} {'33' * 32}, token 1"))
        self.assertTrue(words[11].endswith("path none, job 2"))

    def test_what_is_no_ledger_is_refused_at_its_place(self) -> None:
        whole = worked()
        old = writing.of_format_1(writing.records_in(whole))
        tampered = bytearray(whole)
        tampered[366 + 20] = 0x3F
        cases = {
            "broken chain 5": bytes(tampered), "not a ledger at 435": whole[:474],
            "not a ledger at 243": old[:244], "not a ledger at 0": b"SV2LEDG3" + whole[8:],
            "not a ledger at 8: no event has the kind 0c": b"SV2LEDG2\x0c\0\0\0",
            "not a ledger at 8: its length says 300001 bytes": b"SV2LEDG1\0" + number(300_001, 3),
        }
        for words, content in cases.items():
            with self.subTest(words):
                self.assertTrue(defect_of(self.file("ledger", content)).startswith(words))
        self.assertEqual(defect_of(self.file("ledger", b"")), defect_of(self.file("none", b"SV2LED")))
        self.assertEqual(len(list(LedgerFile(self.file("ledger", old[:243])).all_entries())), 6)

    def test_fields_that_no_event_has_are_refused(self) -> None:
        start = writing.start()
        rule_2 = start[:9] + b"\2" + start[10:]
        windowed = start[:9] + b"\0" + number(1, 8) + start[18:]
        open_path = writing.grant(0, b"a", 0, [bytes(32)])
        for words, one in (
            ("rule of the Start is 2, over 1", rule_2),
            ("the Start has the proportional rule and a window", windowed),
            ("the Grant isn't fixed and has a path", open_path),
            ("the Leave ends 1 bytes before its body does", writing.record("Leave", bytes(5))),
            ("session of the Leave passes the end of the body", writing.record("Leave", bytes(3))),
            ("account of the Name isn't UTF-8", writing.name(0, 1, b"\xff")),
        ):
            with self.subTest(words):
                self.assertIn(words, defect_of(self.file("ledger", writing.plain([one]))))

    def test_a_durable_ledger_has_the_events_of_its_open_entries(self) -> None:
        records = writing.records_in(worked())
        whole = writing.durable(records)
        last = len(records[-1]) + 32
        for name, content, count in (
            ("with a torn entry", whole[:-1] + b"\0" + number(last, 4), 7),
            ("without a last gate", whole[:-1], 6),
            ("with the last entry's gate shut", whole[:-last - 6] + b"\0" + whole[-last - 5:], 6),
            ("with a length over the limit", b"SV2DISK1\1" + number(300_101, 4) + bytes(300_102), 0),
            ("without events", b"SV2DISK1\0", 0),
        ):
            with self.subTest(name):
                ledger = LedgerFile(self.file("ledger", content))
                self.assertEqual(len(list(ledger.all_entries())), count)
                self.assertEqual(ledger.row.format, 2)


class GrowingLedgers(WithFolder):
    def test_each_event_is_read_once_and_when_it_is_whole(self) -> None:
        records = writing.records_in(worked())
        for name, whole, counted in (
            ("plain", worked(), lambda piece: len(piece)),
            # An entry has five bytes before it, and is found with the gate behind it.
            ("durable", writing.durable(records), lambda piece: len(piece) + 5),
        ):
            with self.subTest(name):
                path = self.file(name)
                ledger, read, due, at = LedgerFile(path), [], [], 8 if name == "durable" else 0
                for piece in writing.pieces(records):
                    at += counted(piece)
                    due.append(at + (name == "durable"))
                for length in range(len(whole) + 1):
                    self.file(name, whole[:length])
                    read += [entry.record for entry in ledger.new_entries()]
                    self.assertEqual(len(read), sum(one <= length for one in due), length)
                self.assertEqual(read, records)

    def test_an_entry_counts_once_its_gate_is_open(self) -> None:
        first, second = list(writing.pieces([writing.start(), writing.enter(0, 1)]))
        begun = b"SV2DISK1\1" + number(len(first), 4) + first
        path = self.file("ledger", begun + b"\0")
        ledger = LedgerFile(path)
        self.assertEqual(len(list(ledger.new_entries())), 1)
        # Length, bytes and a closed gate come first, and then the gate before them is opened.
        self.file("ledger", begun + b"\0" + number(len(second), 4) + second + b"\0")
        self.assertEqual(len(list(ledger.new_entries())), 0)
        self.file("ledger", begun + b"\1" + number(len(second), 4) + second + b"\0")
        self.assertEqual([entry.record for entry in ledger.new_entries()], [writing.enter(0, 1)])

    def test_a_half_written_record_may_be_another_one_later(self) -> None:
        first, second = writing.start(), writing.enter(0, 1)
        other = writing.enter(3, 0)
        path = self.file("ledger", writing.plain([first, second])[:-40])
        ledger = LedgerFile(path)
        self.assertEqual(len(list(ledger.new_entries())), 1)
        self.file("ledger", writing.plain([first, other]))
        self.assertEqual([entry.record for entry in ledger.new_entries()], [other])

    def test_a_replaced_ledger_is_noticed(self) -> None:
        one, other = [writing.start(), writing.enter(0, 1)], [writing.start(fee=1), writing.enter(0, 1)]
        for name, before, after in (
            ("another ledger", writing.plain(one), writing.plain(other)),
            ("a shorter one", writing.durable(one), writing.durable(one[:1])),
            ("an entry that was taken back", writing.durable(one),
             writing.durable(one[:1])[:-1] + b"\0" + writing.durable(one)[-50:]),
        ):
            with self.subTest(name):
                ledger = LedgerFile(self.file("ledger", before))
                self.assertEqual(len(list(ledger.new_entries())), 2)
                self.file("ledger", after)
                with self.assertRaises(Replaced):
                    list(ledger.new_entries())

    def test_a_ledger_longer_than_what_is_read_at_once(self) -> None:
        outputs = bytes(9) * 500
        records = [writing.start()]
        records += [writing.template(0, one, True, 1, outputs=outputs) for one in range(300)]
        for form in (writing.plain, writing.durable):
            path = self.file("ledger", form(records))
            self.assertGreater(os.path.getsize(path), 1 << 20)
            self.assertEqual(sum(1 for _ in LedgerFile(path).all_entries()), 301)


class ReadLedger(WithFolder):
    def test_each_event_is_a_line_and_the_last_line_has_the_head(self) -> None:
        done = tool("read-ledger.py", WORKED)
        lines = done.stdout.splitlines()
        self.assertEqual((done.returncode, done.stderr, len(lines)), (0, "", 9))
        self.assertEqual(lines[0], "format 2")
        self.assertEqual(lines[2], "1 at 69: Enter worker 0 role Solo flags 0, session 0")
        self.assertEqual(lines[-1], f"7 events, each with its hash; the head is {HEAD}")
        self.assertEqual(worked()[-32:].hex(), HEAD)

    def test_statuses(self) -> None:
        old = self.file("old", writing.of_format_1([writing.start()]))
        done = tool("read-ledger.py", old)
        self.assertEqual((done.returncode, done.stdout.splitlines()[-1]), (0, "1 events, without hashes"))
        for status, words in (
            (1, [os.path.join(self.folder, "nothing")]), (2, []), (2, [WORKED, WORKED]),
            (3, [self.file("other", b"abc")]),
        ):
            with self.subTest(words):
                self.assertEqual(tool("read-ledger.py", *words).returncode, status)


if __name__ == "__main__":
    unittest.main()
