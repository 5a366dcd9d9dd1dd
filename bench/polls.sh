#!/bin/sh
# Polls a second of a session that has nothing to hear, beside 100,000 credits of another session and beside none: each
# poll begins at the place before the credits. All in one run on one machine.
set -eu
cd "$(dirname "$0")/.."
held=${1:-100000}
count=${2:-1000000}

bench=$(bench/build)

python3 - "$bench" "$held" "$count" <<'PY'
import subprocess, sys, time

bench = sys.argv[1]

def polls(held, count):
    """How long so many polls took beside the held credits."""
    program = subprocess.Popen(
        [bench, "polls", str(held), str(count)], stdout=subprocess.PIPE)
    assert program.stdout.readline() == b"credits %d\n" % held
    start = time.monotonic()
    assert program.stdout.readline() == b"told 0\n"
    end = time.monotonic()
    assert program.wait() == 0
    return end - start

held, count = map(int, sys.argv[2:])
# Each is timed five times, in turns, and the least time counts.
rounds = [(polls(0, count), polls(held, count)) for _ in range(5)]
none, many = (min(times[which] for times in rounds) for which in (0, 1))
print(f"beside no credits {count / none:>12,.0f} polls a second")
print(f"beside {held:,} credits {count / many:>12,.0f} polls a second")
print(f"ratio {none / many:.2f}, polls a second beside {held:,} credits to those beside none")
PY
