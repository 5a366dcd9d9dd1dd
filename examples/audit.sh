#!/bin/sh
# Audits three ledgers: the worked session's, the same with one bit of its share changed, and the same again with all
# hashes computed again behind that, as somebody would who tampers with it. Then it keeps the worked session's ledger
# of format 1 again, in format 2.
#
# It takes the program that `sh examples/build.sh` has built, where there is one, and else the program as it is written
# (`examples/trial.sh`).
set -eu
cd "$(dirname "$0")/.."

. examples/trial.sh

python3 - "$work" <<'PY'
import hashlib, sys

work = sys.argv[1]
whole = open("examples/worked.ledger", "rb").read()

def records(ledger):
    at = 8
    while at < len(ledger):
        length = 4 + int.from_bytes(ledger[at + 1:at + 4], "little")
        yield bytearray(ledger[at:at + length])
        at += length + 32

def chained(records):
    ledger = b"SV2LEDG2"
    before = hashlib.sha256(ledger).digest()
    for record in records:
        before = hashlib.sha256(before + record).digest()
        ledger += record + before
    return ledger

# The share's time is 999,999 in place of 1,000,000: a second before its job's.
tampered = list(records(whole))
tampered[5][20] = 0x3f
changed = bytearray(whole)
changed[366 + 20] = 0x3f
for name, bytes_ in (("changed", changed), ("rehashed", chained(tampered)),
                     ("old", b"SV2LEDG1" + b"".join(records(whole)))):
    open(f"{work}/{name}", "wb").write(bytes_)
PY

audit() {
    echo "$1:"
    status=0
    "$program" audit "$2" || status=$?
    echo "status $status"
}

audit "the worked session's ledger" examples/worked.ledger
audit "with one bit of its share's time changed" "$work/changed"
audit "with all hashes computed again behind it" "$work/rehashed"
echo "of format 1, kept again:"
"$program" migrate "$work/old" "$work/new"
cmp "$work/new" examples/worked.ledger && echo "it is examples/worked.ledger, byte for byte"
