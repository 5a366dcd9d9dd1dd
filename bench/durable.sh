#!/bin/sh
# What a ledger that no crash breaks costs: credits a second through `durable solo`, each of which is there for good before
# it is answered, beside the bare pattern that it needs (an entry is written and synced, the gate before it is written and
# synced) on the same file system; and records a second of resuming a ledger of 2^18 credits, beside auditing it. All in
# one run on one machine.
set -eu
cd "$(dirname "$0")/.."
appends=${1:-4000}
many=${2:-262144}
work=$(mktemp -d "${TMPDIR:-/var/tmp}/bench-durable.XXXXXX")
trap 'rm -rf "$work"' EXIT

sh examples/build.sh

python3 - "$appends" "$many" "$work" <<'PY'
import hashlib, os, subprocess, sys, time

appends, many, work = int(sys.argv[1]), int(sys.argv[2]), sys.argv[3]
POOL = "crates/pool_cli/out/pool_cli"

# The worked session's rules with the greatest credit limit; its setup, its opening, its template, and its tip, whose
# target no hash meets, so that no credit is a block.
SETTINGS = '{"pool_script":"51","least_class":0,"fee":100,"rule":"proportional","ntime_window":600}'
FRAMES = [
    "00000010000000020002000000000000000000000000",
    "0000132c000007000000016100000000" + "ff" * 32 + "0800",
    "0000712b00000500000000000000010000002002000000025151ffffffffe8030000000000000000000000000000000000",
    "0000725000000500000000000000" + "11" * 32 + "40420f00ffff7f20" + "00" * 32,
]
# The same as records, and the session's Leave.
RECORDS = [
    "00190000" + "0151" + "00" + "6400" + "00" + "00" * 8 + "58020000" + "ffffff00" + "010000",
    "01090000000000000200000000",
    "040d000000000000010161000400000000",
    "022f0000000000000500000000000000010000002002000000025151ffffffffe8030000000000000000000000000000000000",
    "0354000000000000" + "0500000000000000" + "11" * 32 + "40420f00ffff7f20" + "00" * 32,
]
LEAVE = bytes.fromhex("0804000000000000")

def share(number):
    nonce = number.to_bytes(4, "little").hex()
    return bytes.fromhex("00801b210000" + "01000000" + "09000000" + "01000000" + nonce + "40420f00" + "00000020" + "08"
                         + "00" * 8)

def credit(number):
    return bytes.fromhex("09210000" + "00000000" + "01000000" + "01000000") + number.to_bytes(4, "little") \
        + bytes.fromhex("40420f00" + "00000020" + "08" + "00" * 8)

def laid(path, count):
    """A durable ledger of so many credits."""
    magic = b"SV2LEDG2"
    before, lead = hashlib.sha256(magic).digest(), magic
    with open(path, "wb") as file:
        file.write(b"SV2DISK1")
        for record in [bytes.fromhex(text) for text in RECORDS] + [credit(number) for number in range(count)] + [LEAVE]:
            before = hashlib.sha256(before + record).digest()
            piece, lead = lead + record + before, b""
            file.write(b"\1" + len(piece).to_bytes(4, "little") + piece)
        file.write(b"\0")

def solo(stream, ledger):
    """The seconds, and the processor's seconds, of `durable solo`."""
    with open(stream, "rb") as source:
        start = time.monotonic()
        program = subprocess.Popen([POOL, "durable", "solo", f"{work}/settings", ledger], stdin=source,
                                   stdout=subprocess.DEVNULL)
        _, status, usage = os.wait4(program.pid, 0)
        program.returncode = os.waitstatus_to_exitcode(status)
        assert program.returncode == 0, program.returncode
        return time.monotonic() - start, usage.ru_utime + usage.ru_stime

def audited(ledger, count):
    program = subprocess.Popen([POOL, "durable", "audit", ledger], stdout=subprocess.PIPE)
    text = program.stdout.read().decode()
    _, status, usage = os.wait4(program.pid, 0)
    program.returncode = os.waitstatus_to_exitcode(status)
    assert program.returncode == 0 and f"\ncredits {count}\n" in text, text
    return usage.ru_utime + usage.ru_stime

def bare():
    """How long the bare pattern takes for as many entries of a credit's size."""
    path = f"{work}/bare"
    entry = (69).to_bytes(4, "little") + bytes(69) + b"\0"
    with open(path, "wb", buffering=0) as file:
        file.write(b"SV2DISK1\0")
        os.fsync(file.fileno())
        gate = 8
        start = time.monotonic()
        for _ in range(appends):
            os.pwrite(file.fileno(), entry, gate + 1)
            os.fsync(file.fileno())
            os.pwrite(file.fileno(), b"\1", gate)
            os.fsync(file.fileno())
            gate += len(entry)
        seconds = time.monotonic() - start
    os.remove(path)
    return seconds

with open(f"{work}/settings", "w") as file:
    file.write(SETTINGS)
with open(f"{work}/few", "wb") as file:
    file.write(b"".join(map(bytes.fromhex, FRAMES)))
with open(f"{work}/shares", "wb") as file:
    file.write(b"".join(map(bytes.fromhex, FRAMES)))
    for number in range(appends):
        file.write(share(number))
with open(f"{work}/nothing", "wb"):
    pass

def kept(stream):
    ledger = f"{work}/ledger"
    if os.path.exists(ledger):
        os.remove(ledger)
    return solo(stream, ledger)[0]

# Each is timed nine times, in turns, and the least time counts, since on a machine that others use too the same work
# takes up to half as long again; what it takes to begin a program and a session without shares doesn't count.
rounds = [(kept(f"{work}/shares") - kept(f"{work}/few"), bare()) for _ in range(9)]
durable, pattern = (min(times[which] for times in rounds) for which in range(2))
print(f"credits kept for good      {appends / durable:>10,.0f} a second")
print(f"the bare pattern alone     {appends / pattern:>10,.0f} a second")
print(f"ratio {pattern / durable:.2f}, credits a second that are kept for good to bare pairs of synced writes")

laid(f"{work}/many", many)
laid(f"{work}/none", 0)
rounds = [(solo(f"{work}/nothing", f"{work}/many")[1] - solo(f"{work}/nothing", f"{work}/none")[1],
           audited(f"{work}/many", many) - audited(f"{work}/none", 0)) for _ in range(9)]
resumed, audit = (min(times[which] for times in rounds) for which in range(2))
print(f"records resumed            {many / resumed:>10,.0f} a second")
print(f"records audited            {many / audit:>10,.0f} a second")
print(f"ratio {audit / resumed:.2f}, records a second of resuming {many:,} credits to auditing them")
PY
