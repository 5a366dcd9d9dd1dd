#!/bin/sh
# Serves a template provider and two miners, over loopback sockets and all at once: both miners open a channel, both
# are told of the template and its tip, and the share of the first finds a block. Lists what each of the three was
# told, what the program printed, and what an audit says of the ledger that it kept.
#
# It takes the program that `sh examples/build.sh` has built, where there is one, and else the program as it is written
# (`examples/trial.sh`).
set -eu
cd "$(dirname "$0")/.."

. examples/trial.sh

status=0
python3 examples/peers.py "$program" "$work" || status=$?
for peer in feed miner-1 miner-2; do
  echo "what $peer was told:"
  "$program" frames < "$work/$peer"
done
echo "what serve printed, status $status:"
cat "$work/output"
echo "what an audit of its ledger says:"
"$program" audit "$work/ledger"
