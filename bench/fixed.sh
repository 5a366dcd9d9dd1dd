#!/bin/sh
# Shares a second of `solo fixed`, beside bare double hashes of 80 bytes, in one run on one machine.
# It feeds 1,000,000 shares that are too weak for class 60.
set -eu
cd "$(dirname "$0")/.."
count=${1:-1000000}
job=00000000000000000000000000000000000000000000000000000000000000003ba3edfd7a7b12b27ac72c3e67768f617fc81bc3888a51323a9fb8aa4b1e5e4affff001d
work=$(mktemp -d)
trap 'rm -rf "$work"' EXIT

echo "proving and building the program, and the benchmarks of hashes and frames"
(cd crates/pool_cli && rt run -- solo fixed 0 "$job" < /dev/null > "$work/build" 2>&1) || { cat "$work/build"; exit 1; }
(cd crates/bench && rt run -- hash 1 < /dev/null > "$work/build" 2>&1) || { cat "$work/build"; exit 1; }

python3 - "$count" "$work/shares" <<'PY'
import struct, sys
with open(sys.argv[2], "wb") as shares:
    for sequence in range(int(sys.argv[1])):
        shares.write(bytes.fromhex("00801a180000") + struct.pack("<6I", 1, sequence, 1, sequence, 1231006505, 1))
PY

now() { python3 -c 'import time; print(time.monotonic())'; }
report() { python3 -c "print(f'{\"$1\":<24} {$2 / ($4 - $3):>12,.0f} a second')"; }

start=$(now)
crates/bench/out/bench hash "$count" > /dev/null
middle=$(now)
crates/pool_cli/out/pool_cli solo fixed 60 "$job" < "$work/shares" > "$work/answers"
end=$(now)
report "bare double hashes" "$count" "$start" "$middle"
report "shares judged" "$count" "$middle" "$end"
[ "$(wc -c < "$work/answers")" -eq $((33 * count)) ] || { echo "not every share was answered"; exit 1; }
python3 -c "print(f'ratio {($middle - $start) / ($end - $middle):.2f}, shares judged to bare double hashes')"
