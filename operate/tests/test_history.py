"""What a ledger's events say together, by the rules and worked rows of docs/POOL.md."""
import unittest

from lib.history import History
from lib.ledger import Defect, LedgerFile
from tests import writing
from tests.support import (
    WORKED, WithFolder, begun, coinbase_of, double_hash, header_of, nonces,
)

# A target that one hash of 256 meets.
EIGHT_ZEROS = b"\xff" * 31 + b"\0"


def told(path: str) -> History:
    history = History()
    for _ in history.tell_all(LedgerFile(path).all_entries()):
        pass
    return history


class Rewards(WithFolder):
    def paid(self, works: list[tuple[str, int]], **rules) -> tuple[dict[str, int], int]:
        """What a block pays to whom when it stands behind shares of this work, and is the last of
        them; and the pool's part. A share of work 2^z is one of a channel with class z."""
        records = begun(1_000, EIGHT_ZEROS, **rules)
        records.insert(2, writing.enter(1, writing.MINER))
        for place, (account, work) in enumerate(works):
            lead = place.to_bytes(4, "big")
            class_ = work.bit_length() - 1
            is_last = place == len(works) - 1
            nonce = next(nonces(1_000, lead + bytes(8), 8 if is_last else class_, 257 if is_last else 8))
            opening = writing.opening(1, writing.EXTENDED, account.encode(), lead, class_)
            records[3 + place:3 + place] = [opening]
            records.append(writing.credit(1, place + 1, 1, nonce, bytes(8)))
        history = told(self.file("ledger", writing.plain(records)))
        self.assertEqual((history.credits, len(history.blocks)), (len(works), 1))
        block = history.blocks[0]
        self.assertEqual(sum(block.payouts.values()) + block.pool_part(), 1_000)
        self.assertEqual(block.payouts, {name: one.balance for name, one in history.accounts.items()
                                         if name in block.payouts})
        return block.payouts, block.pool_part()

    def test_the_proportional_rule(self) -> None:
        self.assertEqual(self.paid([("a", 1), ("a", 2), ("b", 4)], fee=100), ({"a": 424, "b": 565}, 11))

    def test_pplns_counts_the_last_units_of_work(self) -> None:
        works = [("a", 4), ("b", 2), ("a", 1), ("b", 2)]
        for window, payouts, pool in (
            (6, {"a": 333, "b": 666}, 1), (1, {"b": 1_000}, 0), (100, {"a": 555, "b": 444}, 1),
        ):
            with self.subTest(window):
                self.assertEqual(self.paid(works, window=window), (payouts, pool))

    def test_a_block_ends_a_round_of_the_proportional_rule_alone(self) -> None:
        for window, second in ((0, {"b": 1_000}), (100, {"a": 500, "b": 500})):
            records = begun(1_000, window=window) + [
                writing.enter(1, writing.MINER), writing.opening(1, 1, b"a", bytes(4)),
                writing.opening(1, 1, b"b", b"\0\0\0\1"),
                writing.credit(1, 1, 1, 0, bytes(8)), writing.credit(1, 2, 1, 0, bytes(8)),
            ]
            history = told(self.file("ledger", writing.plain(records)))
            self.assertEqual([block.payouts for block in history.blocks],
                             [{"a": 1_000}, second])


class Shares(WithFolder):
    def test_the_worked_session(self) -> None:
        history = told(WORKED)
        block = history.blocks[0]
        booked = block.share
        self.assertEqual(booked.header, header_of(1_000, bytes(12), 0))
        self.assertEqual(block.hash, double_hash(booked.header)[::-1].hex())
        self.assertEqual((block.reward, block.payouts, history.pool_part()),
                         (1_000, {"a": 990}, 10))
        self.assertEqual((booked.account, booked.work, block.height, block.own),
                         ("a", 1, 1, False))
        self.assertEqual(booked.job.coinbase(bytes(12)), coinbase_of(1_000, bytes(12)))

    def test_a_class_counts_from_the_next_job_on(self) -> None:
        later = writing.template(0, 6, False, 1_000)
        records = begun(1_000) + [
            writing.enter(1, writing.MINER), writing.opening(1, 1, b"a", bytes(4)),
            writing.class_set(1, 1, 3), writing.credit(1, 1, 1, 0, bytes(8)), later,
            writing.credit(1, 1, 2, 1, bytes(8)), writing.class_set(1, 1, 5),
            writing.credit(1, 1, 2, 2, bytes(8)),
        ]
        ledger = LedgerFile(self.file("ledger", writing.plain(records)))
        works = [booked.work for booked in History().tell_all(ledger.all_entries())]
        self.assertEqual(works, [1, 8, 8])

    def test_kinds_of_channels_have_their_extranonces(self) -> None:
        records = begun(1_000) + [
            writing.enter(1, writing.MINER), writing.opening(1, writing.STANDARD, b"a", bytes(4)),
            writing.opening(1, writing.V1, b"", b"\1"), writing.name(1, 2, b"b"),
            writing.credit(1, 1, 1, 7, b""), writing.credit(1, 2, 1, 7, bytes(range(11))),
        ]
        ledger = LedgerFile(self.file("ledger", writing.plain(records)))
        booked = list(History().tell_all(ledger.all_entries()))
        self.assertEqual([one.header for one in booked], [
            header_of(1_000, bytes(12), 7), header_of(1_000, b"\1" + bytes(range(11)), 7),
        ])
        self.assertEqual([one.account for one in booked], ["a", "b"])

    def test_a_job_of_a_miner_pays_what_its_outputs_say(self) -> None:
        records = [
            writing.start(fee=100), writing.enter(0, writing.SOLO, 2),
            writing.opening(0, writing.EXTENDED, b"a", bytes(4)), writing.template(0, 5, True, 1_000),
            writing.tip(0, 5), writing.credit(0, 1, 1, 0, bytes(8)), writing.grant(0),
            writing.custom(0, 1, 1, 1_000), writing.credit(0, 1, 2, 1, bytes(8)),
        ]
        history = told(self.file("ledger", writing.plain(records)))
        self.assertEqual([block.own for block in history.blocks], [False, True])
        self.assertEqual((history.accounts["a"].balance, history.pool_part()), (1_980, 20))

    def test_a_coinbase_with_a_commitment_has_its_witness(self) -> None:
        output = bytes(8) + b"\x26" + bytes.fromhex("6a24aa21a9ed") + b"\x22" * 32
        records = begun(1_000)
        records[2] = writing.template(0, 5, True, 1_000, outputs=output, count=1)
        job = told(self.file("ledger", writing.plain(records))).newest_job()
        whole = job.coinbase(bytes(12))
        self.assertEqual(len(whole), 158)
        self.assertEqual(whole[4:7], b"\0\1\1")
        self.assertEqual(whole[-38:], b"\1\x20" + bytes(32) + bytes(4))


class Sessions(WithFolder):
    def test_who_is_there(self) -> None:
        records = begun(1_000) + [
            writing.enter(1, writing.MINER), writing.opening(1, 1, b"a", bytes(4)),
            writing.enter(2, writing.MINER), writing.opening(2, 1, b"b", b"\0\0\0\1"),
            # Worker 2 enters again, without having left.
            writing.enter(2, writing.MINER), writing.leave(1), writing.enter(1, writing.MINER),
        ]
        history = told(self.file("ledger", writing.plain(records)))
        self.assertEqual({worker: one.number for worker, one in history.present.items()},
                         {0: 0, 1: 4, 2: 3})
        self.assertEqual([channel.closed for channel in history.channels], [9, None])

    def test_what_a_block_would_pay_now(self) -> None:
        records = begun(1_000, EIGHT_ZEROS, fee=100) + [
            writing.enter(1, writing.MINER), writing.opening(1, 1, b"a", bytes(4)),
            writing.credit(1, 1, 1, next(nonces(1_000, bytes(12), 0, 8)), bytes(8)),
            writing.template(0, 6, False, 3_000),
        ]
        history = told(self.file("ledger", writing.plain(records)))
        self.assertEqual((history.blocks, history.owed_now()), ([], {"a": 2_970}))

    def test_what_can_follow_nothing_is_refused(self) -> None:
        for records, at in (
            (begun(1) + [writing.credit(0, 1, 1, 0, b"")], 4),
            (begun(1) + [writing.leave(1)], 4), (begun(1) + [writing.close(0, 0)], 4),
            (begun(1) + [writing.tip(0, 5)], 4), ([writing.template(0, 1, True, 1)], 0),
            (begun(1) + [writing.opening(0, 1, b"a", bytes(4)), writing.credit(0, 1, 2, 0, bytes(8))], 5),
        ):
            with self.assertRaisesRegex(Defect, f"illegal event {at}:"):
                told(self.file("ledger", writing.plain(records)))


if __name__ == "__main__":
    unittest.main()
