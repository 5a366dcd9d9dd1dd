#!/bin/sh
# What a share that is too weak costs in `solo` once another channel's class was set 40,000 times, beside the same share
# where it never was, in one run on one machine. Each is the processor time of a session with the shares less that of the
# same session without them, the least of several runs.
set -eu
cd "$(dirname "$0")/.."
updates=${1:-40000}
shares=${2:-20000}
work=$(mktemp -d)
trap 'rm -rf "$work"' EXIT

sh examples/build.sh

python3 - "$updates" "$shares" "$work" <<'PY'
import json, os, resource, subprocess, sys

updates, shares, work = int(sys.argv[1]), int(sys.argv[2]), sys.argv[3]
program = "crates/pool_cli/out/pool_cli"
RUNS = 4

# A setup, a template and its tip, whose target no hash meets.
SETUP = bytes.fromhex("00000010000000020002000000000000000000000000")
TEMPLATE = bytes.fromhex("0000712b00000500000000000000010000002002000000025151ffffffffe8030000000000000000000000000000000000")
TIP = bytes.fromhex("0000725000000500000000000000" + "11" * 32 + "40420f00ffff7f20" + "00" * 32)

def opening(number):
    target = (2 ** (256 - 60) - 1).to_bytes(32, "little")
    return bytes.fromhex("0000132c0000") + number.to_bytes(4, "little") + b"\1a" + bytes(4) + target + b"\x08\0"

def update(number):
    """Sets the second channel's class to 0 and 1 by turns."""
    target = (2 ** (256 - number % 2) - 1).to_bytes(32, "little")
    return bytes.fromhex("008016280000" "02000000" "00000000") + target

def share(number):
    """A share on the first channel, whose hash has no 60 zero bits."""
    return (bytes.fromhex("00801b210000" "01000000") + number.to_bytes(4, "little") + bytes.fromhex("01000000")
            + number.to_bytes(4, "little") + bytes.fromhex("40420f0000000020080000000000000000"))

def spent(frames):
    """The processor time of a session with these frames."""
    with open(f"{work}/input", "wb") as file:
        file.write(frames)
    times = []
    for _ in range(RUNS):
        if os.path.exists(f"{work}/ledger"):
            os.remove(f"{work}/ledger")
        before = resource.getrusage(resource.RUSAGE_CHILDREN)
        with open(f"{work}/input", "rb") as source, open(f"{work}/output", "wb") as sink:
            subprocess.run([program, "solo", f"{work}/settings", f"{work}/ledger"], stdin=source, stdout=sink, check=True)
        after = resource.getrusage(resource.RUSAGE_CHILDREN)
        times.append(after.ru_utime + after.ru_stime - before.ru_utime - before.ru_stime)
    with open(f"{work}/output", "rb") as sink:
        return min(times), sink.read().count(b"difficulty-too-low")

with open(f"{work}/settings", "w") as file:
    json.dump({"pool_script": "51", "least_class": 0, "fee": 100, "rule": "proportional", "ntime_window": 600}, file)
head = SETUP + opening(1) + opening(2) + TEMPLATE + TIP
all_shares = b"".join(share(number) for number in range(shares))
costs = []
for count in (0, updates):
    front = head + b"".join(update(number) for number in range(count))
    (without, none), (with_shares, refused) = spent(front), spent(front + all_shares)
    assert none == 0 and refused == shares
    costs.append((with_shares - without) / shares * 1e6)
    print(f"behind {count:>6,} updates of another channel {costs[-1]:>8.2f} microseconds a share")
print(f"ratio {costs[0] / costs[1]:.2f}, shares a second behind {updates:,} updates of another channel to those behind none")
PY
