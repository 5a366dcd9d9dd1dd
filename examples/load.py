#!/usr/bin/env python3
"""Prints what `load NUMBER` prints, computed from docs/POOL.md and docs/COMMANDS.md alone.

    load.py NUMBER              the text
    load.py NUMBER frames       the frames of the generated session, as bytes, for `solo`

It needs Python 3 alone, and nothing of this pool's program: the generator, the shares, their
judging, the blocks and their payouts are written down here once more, so that the two can be
compared.
"""
import hashlib
import sys

STEPS = 20_000
WINDOW = 1_000
FEE = 200
REWARD = 5_000_000_000
# The target of class 9, which is that of each tip.
TARGET = 2 ** (256 - 9) - 1
MASK_64 = 2 ** 64 - 1


def numbers(seed):
    """The numbers of Pcg32 of stream 1 (O'Neill, "PCG", XSH RR)."""
    increment = 1 << 1 | 1
    multiplier = 6364136223846793005
    state = ((seed + increment) * multiplier + increment) & MASK_64
    while True:
        word = ((state >> 18 ^ state) >> 27) & 0xffffffff
        turn = state >> 59
        yield (word >> turn | word << (-turn & 31)) & 0xffffffff
        state = (state * multiplier + increment) & MASK_64


def double_hash(content):
    return hashlib.sha256(hashlib.sha256(content).digest()).digest()


def header_of(template, lead, nonce):
    """The header of a share of a template's job, whose miner rolls eight zero bytes."""
    prefix = bytes.fromhex("0200000001" + "00" * 32 + "ffffffff0e5151")
    suffix = bytes.fromhex("ffffffff01") + REWARD.to_bytes(8, "little") + bytes.fromhex("015100000000")
    root = double_hash(prefix + lead.to_bytes(4, "big") + bytes(8) + suffix)
    return (bytes.fromhex("00000020") + bytes([template]) * 32 + root
            + (1_000_000).to_bytes(4, "little") + bytes.fromhex("ffff7f20") + nonce.to_bytes(4, "little"))


def payouts(credits):
    """What each account gets of a block that the last credit is, by PPLNS."""
    left = WINDOW
    weights = {}
    for account in reversed(credits):
        if left == 0:
            break
        weights[account] = weights.get(account, 0) + 1
        left -= 1
    paid_out = REWARD - REWARD * FEE // 10_000
    whole = sum(weights.values())
    return {account: paid_out * weight // whole for account, weight in weights.items()}


def shares(seed):
    """Each share's step, how many templates came before it, and its channel, job and nonce."""
    templates = 1
    for step, random in zip(range(STEPS), numbers(seed)):
        if step != 0 and step % 2000 == 0:
            templates += 1
        yield step, templates, 1 + random % 18, 1 + (random >> 8) % (templates + 1), (random >> 16) % 4096


def frame(extension, kind, payload):
    return (extension.to_bytes(2, "little") + bytes([kind])
            + len(payload).to_bytes(3, "little") + payload)


def job_frames(template):
    """A future template of 50 bitcoins, and the tip that makes its job live."""
    number = template.to_bytes(8, "little")
    content = bytes.fromhex("0100000020" + "02000000" + "025151" + "ffffffff")
    yield frame(0, 0x71, number + content + REWARD.to_bytes(8, "little") + bytes(4 + 2 + 4 + 1))
    yield frame(0, 0x72, number + bytes([template]) * 32 + (1_000_000).to_bytes(4, "little")
                + bytes.fromhex("ffff7f20") + TARGET.to_bytes(32, "little"))


def frames(seed):
    """The frames of the session: the setup, the openings, the first job, and the steps."""
    yield frame(0, 0x00, bytes.fromhex("0002000200" + "00000000" + "00" + "0000" + "00" * 4))
    for number in range(16):
        user = f"u{number % 5}".encode()
        yield frame(0, 0x13, number.to_bytes(4, "little") + bytes([len(user)]) + user + bytes(4)
                    + b"\xff" * 32 + (8).to_bytes(2, "little"))
    yield from job_frames(1)
    told = 1
    for step, templates, channel, job, nonce in shares(seed):
        if templates != told:
            told = templates
            yield from job_frames(templates)
        numbers_of = (channel, step, job, nonce, 1_000_000, 0x20000000)
        yield frame(0x8000, 0x1b, b"".join(it.to_bytes(4, "little") for it in numbers_of)
                    + bytes([8]) + bytes(8))


def report(seed):
    credits, headers, balances = [], set(), {}
    blocks, pool = 0, 0
    for _, templates, channel, job, nonce in shares(seed):
        if channel > 16 or job != templates:
            continue
        header = header_of(templates, channel - 1, nonce)
        if header in headers:
            continue
        headers.add(header)
        credits.append(f"u{(channel - 1) % 5}")
        if int.from_bytes(double_hash(header), "little") <= TARGET:
            blocks += 1
            paid = payouts(credits)
            pool += REWARD - sum(paid.values())
            for account, payout in paid.items():
                balances[account] = balances.get(account, 0) + payout
    events = 3 + 16 + 2 * templates + len(credits)
    print(f"load {seed}\nsubmissions {STEPS}\naccepted {len(credits)}\nrefused {STEPS - len(credits)}")
    print(f"sessions 1\nevents {events}\ncredits {len(credits)}\nblocks {blocks}\npool {pool}")
    for account in dict.fromkeys(credits):
        print(f"account {account} {credits.count(account)} {balances.get(account, 0)}")


def main(words):
    if len(words) not in (1, 2) or not words[0].isdigit() or int(words[0]) > MASK_64 or words[1:] not in ([], ["frames"]):
        sys.exit("want: load.py NUMBER, or load.py NUMBER frames")
    if len(words) == 2:
        sys.stdout.buffer.writelines(frames(int(words[0])))
    else:
        report(int(words[0]))


if __name__ == "__main__":
    main(sys.argv[1:])
