#!/bin/sh
# Records a second that `audit` reads, judges and hashes of ledgers of 2^12 and of 2^18 credits, and the bytes that it
# holds a credit. Beside them the double hashes of as many coinbases and headers alone. All in one run on one machine,
# by the processor time of each program.
set -eu
cd "$(dirname "$0")/.."
few=${1:-4096}
many=${2:-262144}
work=$(mktemp -d)
trap 'rm -rf "$work"' EXIT

sh examples/build.sh
echo "proving and building the benchmarks of hashes and frames"
(cd crates/bench && rt run -- shares 0 1 < /dev/null > "$work/build" 2>&1) || { cat "$work/build"; exit 1; }

python3 - "$few" "$many" "$work" <<'PY'
import hashlib, os, subprocess, sys, time

few, many, work = int(sys.argv[1]), int(sys.argv[2]), sys.argv[3]

# The worked session's Start with the greatest credit limit, its session, channel and template, and its tip, whose
# target no hash meets, so that no credit is a block.
FIRST = [
    "00190000" + "0151" + "00" + "6400" + "00" + "00" * 8 + "58020000" + "ffffff00" + "010000",
    "01090000000000000200000000",
    "040d000000000000010161000400000000",
    "022f0000000000000500000000000000010000002002000000025151ffffffffe8030000000000000000000000000000000000",
    "0354000000000000" + "0500000000000000" + "11" * 32 + "40420f00ffff7f20" + "00" * 32,
]

def credit(number):
    """The worked session's share, with this nonce."""
    return bytes.fromhex("09210000" + "00000000" + "01000000" + "01000000") + number.to_bytes(4, "little") \
        + bytes.fromhex("40420f00" + "00000020" + "08" + "00" * 8)

def ledger(count):
    path = f"{work}/{count}"
    with open(path, "wb") as file:
        file.write(b"SV2LEDG2")
        before = hashlib.sha256(b"SV2LEDG2").digest()
        for record in [bytes.fromhex(text) for text in FIRST] + [credit(number) for number in range(count)]:
            before = hashlib.sha256(before + record).digest()
            file.write(record + before)
    return path

def run(words):
    """What a program prints, the processor time that it takes, and the most memory that it was seen to have, in bytes."""
    program = subprocess.Popen(words, stdout=subprocess.PIPE)
    memory = ended = 0
    while not ended:
        with open(f"/proc/{program.pid}/status") as lines:
            memory = max([memory] + [1024 * int(line.split()[1]) for line in lines if line.startswith("VmHWM:")])
        time.sleep(0.001)
        ended, status, usage = os.wait4(program.pid, os.WNOHANG)
    program.returncode = os.waitstatus_to_exitcode(status)
    assert program.returncode == 0
    return program.stdout.read().decode(), usage.ru_utime + usage.ru_stime, memory

def audited(path, count):
    """How long the command took, and the most memory that it was seen to have, in bytes."""
    text, seconds, memory = run(["crates/pool_cli/out/pool_cli", "audit", path])
    assert text.startswith(f"legal\nsessions 1\nevents {count + 5}\ncredits {count}\n"), text
    return seconds, memory

def hashed(count):
    """How long the double hashes of as many coinbases and headers took."""
    return run(["crates/bench/out/bench", "shares", "0", str(count)])[1]

at_few, at_many = ledger(few), ledger(many)
# Each is timed five times, in turns, and the least time counts; of the few many runs at once, so that what it takes
# to begin a program counts as little as it does for the many.
repeats = max(1, many // few // 8)
started = min(audited(ledger(0), 0)[0] for _ in range(5))
rounds = []
for _ in range(5):
    small = min(audited(at_few, few)[0] for _ in range(repeats))
    large, memory = audited(at_many, many)
    rounds.append((small - started, large - started, hashed(many), memory))
small, large, bare = (min(times[which] for times in rounds) for which in range(3))
base = max(audited(at_few, few)[1] for _ in range(5))
print(f"of {few:>9,} credits {few / small:>12,.0f} records a second")
print(f"of {many:>9,} credits {many / large:>12,.0f} records a second")
print(f"the two double hashes alone {many / bare:>6,.0f} a second")
print(f"{(max(times[3] for times in rounds) - base) / (many - few):,.0f} bytes held a credit")
print(f"ratio {(large / many) / (small / few):.2f}, time a record of {many:,} credits to that of {few:,}")
print(f"ratio {bare / large:.2f}, records a second of {many:,} credits to bare double hashes of their coinbases and headers")
PY
