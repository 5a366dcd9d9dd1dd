#!/bin/sh
# Declarations that each lack one transaction of 8,388,599 bytes, the longest that a frame brings, through the built
# program: read, cut out, parsed and hashed; beside the bare double hashes of as many bytes. All in one run on one
# machine. The seconds are the processor's, so that other programs that run meanwhile count little.
set -eu
cd "$(dirname "$0")/.."
count=${1:-40}
work=$(mktemp -d)
trap 'rm -rf "$work"' EXIT

sh examples/build.sh
echo "proving and building the benchmarks of hashes and frames"
(cd crates/bench && rt run -- bytes 1 1 < /dev/null > "$work/build" 2>&1) || { cat "$work/build"; exit 1; }

python3 - "$count" "$work" <<'PY'
import hashlib, resource, subprocess, sys
count, work = int(sys.argv[1]), sys.argv[2]
LENGTH = 8_388_599

def dsha(data):
    return hashlib.sha256(hashlib.sha256(data).digest()).digest()

def frame(kind, payload):
    return bytes(2) + bytes([kind]) + len(payload).to_bytes(3, "little") + payload

def transaction(number):
    head = number.to_bytes(4, "little") + bytes([1]) + bytes(32) + b"\xff" * 4 + b"\xfe"
    tail = b"\xff" * 4 + bytes([1]) + bytes(8) + b"\x01\x51" + bytes(4)
    script = LENGTH - len(head) - 4 - len(tail)
    return head + script.to_bytes(4, "little") + bytes(script) + tail

with open(f"{work}/settings.json", "w") as settings:
    settings.write('{"pool_script":"51","least_class":0,"fee":100,"rule":"proportional","ntime_window":600,"credit_limit":3}')
prefix = bytes.fromhex("02000000010000000000000000000000000000000000000000000000000000000000000000ffffffff0e5151")
suffix = bytes.fromhex("ffffffff01e80300000000000001510000")+ bytes(2)
with open(f"{work}/input", "wb") as file:
    file.write(bytes.fromhex("0000001000000002000200020000000000000000000000005006000001610300" "0000"))
    for number in range(1, count + 1):
        tx = transaction(number)
        declared = (number.to_bytes(4, "little") + bytes([8]) + (1).to_bytes(8, "little") + bytes.fromhex("00000020")
            + len(prefix).to_bytes(2, "little") + prefix + len(suffix).to_bytes(2, "little") + suffix
            + (1).to_bytes(2, "little") + dsha(tx) + bytes(2))
        file.write(frame(0x57, declared))
        file.write(frame(0x56, number.to_bytes(4, "little") + (1).to_bytes(2, "little") + LENGTH.to_bytes(3, "little") + tx))

def seconds(words, source=None, sink=None):
    start = resource.getrusage(resource.RUSAGE_CHILDREN)
    with open(source or "/dev/null", "rb") as given, open(sink or "/dev/null", "wb") as put:
        subprocess.run(words, stdin=given, stdout=put, check=True)
    end = resource.getrusage(resource.RUSAGE_CHILDREN)
    return end.ru_utime + end.ru_stime - start.ru_utime - start.ru_stime

def declare():
    subprocess.run(["rm", "-f", f"{work}/ledger"], check=True)
    return seconds(["crates/pool_cli/out/pool_cli", "declare", f"{work}/settings.json", f"{work}/ledger"], f"{work}/input", f"{work}/output")

# Each is timed five times, in turns, and the least time counts.
whole, bare = map(min, zip(*[(declare(), seconds(["crates/bench/out/bench", "bytes", str(LENGTH), str(count)])) for _ in range(5)]))
answers = open(f"{work}/output", "rb").read()
accepted = sum(answers.count(frame(0x58, n.to_bytes(4, "little") + bytes([8]) + (n + 1).to_bytes(8, "little"))) for n in range(1, count + 1))
if accepted != count:
    sys.exit(f"{accepted} of {count} declarations were accepted")
print(f"transactions brought        {count * LENGTH / whole / 1e6:>10,.1f} million bytes a second")
print(f"bare double hashes          {count * LENGTH / bare / 1e6:>10,.1f} million bytes a second")
print(f"ratio {bare / whole:.2f}, bytes a second of transactions that were brought, read and hashed to bare double hashes")
PY
