#!/bin/sh
# Calls a second of one machine by one, two and four threads, at a desk and under a plain lock: of a counter, which
# only keeps a number at each call, so that what is timed is the taking of turns; and of a book in memory, where each
# share takes two calls, its brief and its booking, and is hashed between the two, outside the turn. All in one run on
# one machine. The seconds are those that went by, since threads that wait spend the processor's too. A book's begin
# once its sessions are there.
set -eu
cd "$(dirname "$0")/.."
of_counter=${1:-4000000}
of_book=${2:-400000}

bench=$(bench/build)

python3 - "$bench" "$of_counter" "$of_book" <<'PY'
import subprocess, sys, time
bench = sys.argv[1]
of_counter, of_book = map(int, sys.argv[2:])
names = {"desk": "counter at a desk", "lock": "counter under a lock",
         "book-desk": "book at a desk", "book-lock": "book under a lock"}

def calls(word):
    """How many calls all threads make together."""
    return of_book if word.startswith("book") else of_counter

def seconds(word, threads):
    """How long the calls took, each of which a counter has taken, and each second of which has a share credited."""
    each = calls(word) // threads
    start = time.monotonic()
    program = subprocess.Popen(
        [bench, word, str(threads), str(each)], stdout=subprocess.PIPE)
    want = b"calls %d\n" % (threads * each)
    if word.startswith("book"):
        assert program.stdout.readline() == b"sessions %d\n" % threads
        start = time.monotonic()
        want = b"events %d\n" % (3 + 2 * threads + threads * (each // 2))
    assert program.stdout.readline() == want
    end = time.monotonic()
    assert program.wait() == 0
    return end - start

# Each is timed five times, in turns, and the least time counts.
kinds = [(word, threads) for word in names for threads in (1, 2, 4)]
took = {kind: min(times) for kind, times in
        zip(kinds, zip(*[[seconds(*kind) for kind in kinds] for _ in range(5)]))}
for word, threads in kinds:
    print(f"{names[word]}, threads: {threads} {calls(word) / took[word, threads]:>14,.0f} calls a second")
for machine, desk, lock in (("counter", "desk", "lock"), ("book", "book-desk", "book-lock")):
    for threads in (1, 2, 4):
        ratio = took[lock, threads] / took[desk, threads]
        print(f"ratio {ratio:.2f}, a {machine}'s calls a second at a desk to those under a lock, threads: {threads}")
PY
