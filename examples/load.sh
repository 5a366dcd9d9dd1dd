#!/bin/sh
# Serves a generated session in memory (`load 7`), and compares what it left with what `examples/load.py` computes of the
# same number from the description alone, by none of this program's code.
#
# It takes the program that `sh examples/build.sh` has built, where there is one, and else the program as it is written
# (`examples/trial.sh`).
#
# Status 0: both are the same text. Else 1.
set -eu
cd "$(dirname "$0")/.."

. examples/trial.sh

# shellcheck disable=SC2154
start served 120 "$program" load 7
serving=$pid
start computed 120 python3 examples/load.py 7
done_well computed "$pid"
done_well served "$serving"
cmp -s "$work/served.out" "$work/computed.out" || fail "they differ"
shown served.out
