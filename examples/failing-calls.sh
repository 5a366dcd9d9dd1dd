#!/bin/sh
# Has one call of the system fail in each run of a command, a sync, a write, a read, a lock, a cut, an opening, by
# `strace -e inject=`, and compares the status, what is printed and the ledger that is left with the rules.
#
# It takes the program that `sh examples/build.sh` has built, where there is one, and else the program as it is written
# (`examples/trial.sh`).
#
# Status 0: all that was seen is so, or there is no strace. Else 1, with what differs. It keeps nothing, and stays on
# loopback.
set -eu
cd "$(dirname "$0")/.."

. examples/trial.sh

# shellcheck disable=SC2154
mkdir "$work/calls"
python3 examples/failing-calls.py "$program" "$work/calls" || fail "not all is as the rules say"
