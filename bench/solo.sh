#!/bin/sh
# Shares a second through the whole command `solo`, with its settings, its ledger's file and its pipes: shares of class 0,
# which are credited, and the same shares for a channel of class 60, which are refused as too weak. Beside them the
# double hashes of as many coinbases and headers alone, and a loop that reads as many frames and writes an answer for
# each, and does nothing else. All in one run on one machine.
set -eu
cd "$(dirname "$0")/.."
count=${1:-100000}
work=$(mktemp -d)
trap 'rm -rf "$work"' EXIT

sh examples/build.sh
echo "proving and building the benchmarks of hashes and frames"
(cd crates/bench && rt run -- shares 0 1 < /dev/null > "$work/build" 2>&1) || { cat "$work/build"; exit 1; }

python3 - "$count" "$work" <<'PY'
import os, subprocess, sys, time

count, work = int(sys.argv[1]), sys.argv[2]

SETTINGS = '{"pool_script":"51","least_class":0,"fee":100,"rule":"proportional","ntime_window":600}'
# The setup of the worked session, its template and its tip, whose target any hash meets but the greatest.
SETUP = "00000010000000020002000000000000000000000000"
TEMPLATE = "0000712b00000500000000000000010000002002000000025151ffffffffe8030000000000000000000000000000000000"
TIP = "0000725000000500000000000000" + "11" * 32 + "40420f00ffff7f20" + "00" * 32
# The answer to a share that is credited.
ANSWER = bytes(26)

def opening(target):
    """Opens the channel 1 for a user a, with this maximum target, rolling eight bytes."""
    return "0000132c000007000000016100000000" + target + "0800"

def share(number):
    """The worked session's share, with this nonce."""
    nonce = number.to_bytes(4, "little").hex()
    return "00801b210000" + "01000000" + "09000000" + "01000000" + nonce + "40420f00" + "00000020" + "08" + "00" * 8

def stream(name, target):
    path = f"{work}/{name}"
    with open(path, "wb") as file:
        for frame in (SETUP, opening(target), TEMPLATE, TIP):
            file.write(bytes.fromhex(frame))
        for number in range(count):
            file.write(bytes.fromhex(share(number)))
    return path

def served(path):
    """How long the command took for a stream."""
    ledger = f"{work}/ledger"
    if os.path.exists(ledger):
        os.remove(ledger)
    with open(path, "rb") as stream:
        start = time.monotonic()
        subprocess.run(["crates/pool_cli/out/pool_cli", "solo", f"{work}/settings", ledger],
                       stdin=stream, stdout=subprocess.DEVNULL, check=True)
        return time.monotonic() - start

def hashed():
    """How long the double hashes of as many coinbases and headers took."""
    start = time.monotonic()
    subprocess.run(["crates/bench/out/bench", "shares", "0", str(count)], stdout=subprocess.DEVNULL, check=True)
    return time.monotonic() - start

def copied(path):
    """How long a loop took that reads the frames and writes an answer for each."""
    with open(path, "rb", buffering=0) as source, open(os.devnull, "wb", buffering=0) as sink:
        start = time.monotonic()
        held = b""
        while piece := source.read(4096):
            held += piece
            at = 0
            while len(held) - at >= 6:
                length = 6 + int.from_bytes(held[at + 3:at + 6], "little")
                if len(held) - at < length:
                    break
                at += length
                sink.write(ANSWER)
            held = held[at:]
        return time.monotonic() - start

with open(f"{work}/settings", "w") as file:
    file.write(SETTINGS)
easy = stream("easy", "ff" * 32)
weak = stream("weak", "ff" * 24 + "0f" + "00" * 7)
# Each is timed three times, in turns, and the least time counts.
rounds = [(served(easy), served(weak), hashed(), copied(easy)) for _ in range(3)]
credited, refused, bare, frames = (min(times[which] for times in rounds) for which in range(4))
print(f"credited shares            {count / credited:>10,.0f} a second")
print(f"shares refused as weak     {count / refused:>10,.0f} a second")
print(f"their double hashes alone  {count / bare:>10,.0f} a second")
print(f"frames in, frames out      {count / frames:>10,.0f} a second")
print(f"ratio {bare / credited:.2f}, credited shares a second to bare double hashes of their coinbases and headers")
PY
