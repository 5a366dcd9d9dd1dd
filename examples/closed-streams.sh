#!/bin/sh
# Runs each command with its standard input, its output, its error output, and all three closed, and compares all files and
# what its peers got over loopback with those of a run with all streams: what the program prints never goes into a file or
# a connection.
#
# It takes the program that `sh examples/build.sh` has built, where there is one, and else the program as it is written
# (`examples/trial.sh`).
#
# Status 0: all that was seen is so. Else 1, with what differs. It keeps nothing, and stays on loopback.
set -eu
cd "$(dirname "$0")/.."

. examples/trial.sh

# shellcheck disable=SC2154
mkdir "$work/closed"
python3 examples/closed-streams.py "$program" "$work/closed" || fail "what was printed went elsewhere"
