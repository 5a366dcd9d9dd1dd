#!/bin/sh
# A connection whose session is over is let go of at once, over loopback TCP: a provider that sends no message, and the
# upstream of a proxy that accepts another version, hear the end within a second while a miner stays, behind all that
# was put before it; what they put then fails, and doesn't wait. The miners are served on.
#
# It takes the program that `sh examples/build.sh` has built, where there is one, and else the program as it is written
# (`examples/trial.sh`).
#
# Status 0: all that was seen is so. Else 1, with what failed. It keeps nothing.
set -eu
cd "$(dirname "$0")/.."

. examples/trial.sh

start hang-up 120 python3 examples/hang-up.py "$program" "$work"
done_well hang-up "$pid"
cat "$work/hang-up.out"
