#!/bin/sh
# Serves a miner that declares the transactions of its own block: a declaration, the transaction that it lacks, the
# token, and the job that spends it. Lists what came, what was answered, and the ledger, in which the token's Grant
# has the path of what was declared.
#
# It takes the program that `sh examples/build.sh` has built, where there is one, and else the program as it is written
# (`examples/trial.sh`).
set -eu
cd "$(dirname "$0")/.."

. examples/trial.sh

bytes() { tr -d ' \n' | sed 's/../\\x&/g' | xargs -0 printf '%b'; }

cat > "$work/settings.json" <<'JSON'
{"pool_script":"51","least_class":0,"fee":100,"rule":"proportional","ntime_window":600,"credit_limit":3}
JSON

# The coinbase of Bitcoin's first block is what the miner declares; its id is that of its witness too.
transaction=01000000010000000000000000000000000000000000000000000000000000000000000000ffffffff4d04ffff001d0104455468652054696d65732030332f4a616e2f32303039204368616e63656c6c6f72206f6e206272696e6b206f66207365636f6e64206261696c6f757420666f722062616e6b73ffffffff0100f2052a01000000434104678afdb0fe5548271967f1a67130b7105cd6a828e03909a67962e0ea1f61deb649f6bc3f4cef38c4f35504e51ec112de5c384df7ba0b8d578a4c702b6bf11d5fac00000000
id=3ba3edfd7a7b12b27ac72c3e67768f617fc81bc3888a51323a9fb8aa4b1e5e4a
hash=1111111111111111111111111111111111111111111111111111111111111111
most=ffffffffffffffffffffffffffffffffffffffffffffffffffffffffffffffff

bytes > "$work/input" <<HEX
00000010000000020002000200000000000000000000
0000132c000007000000016100000000${most}0800
0000712b00000500000000000000010000002002000000025151ffffffffe8030000000000000000000000000000000000
0000725000000500000000000000${hash}40420f00ffff7f20${most}
000050060000016103000000
000057780000 05000000 080100000000000000 00000020
2c00 02000000010000000000000000000000000000000000000000000000000000000000000000ffffffff0e5151
1300 ffffffff01e80300000000000001510000 0000
0100 $id 0000
000056d50000 05000000 0100 cc0000 $transaction
000022790000 01000000 04000000 080200000000000000 00000020 ${hash}40420f00ffff7f20
02000000025151ffffffff0a00d0070000000000000151 00000000 01 $id
HEX

echo "what comes:"
"$program" frames < "$work/input"
status=0
"$program" declare "$work/settings.json" "$work/ledger" < "$work/input" > "$work/output" || status=$?
echo "what is answered, status $status:"
"$program" frames < "$work/output"
echo "the ledger:"
python3 operate/read-ledger.py "$work/ledger"
