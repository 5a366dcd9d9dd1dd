#!/bin/sh
# Closings of channels a second among many open ones: those that were opened first beside those that
# were opened last, in one run on one machine. A closing moves the last channel that is kept into its
# place, goes over its session's list, and gives the lead back.
set -eu
cd "$(dirname "$0")/.."
open=${1:-100000}
count=${2:-50000}

bench=$(bench/build)

python3 - "$bench" "$open" "$count" <<'PY'
import subprocess, sys, time

bench = sys.argv[1]

def run(word, held, count):
    """How long so many closings took."""
    program = subprocess.Popen(
        [bench, word, str(held), str(count)], stdout=subprocess.PIPE)
    assert program.stdout.readline() == b"open %d\n" % held
    start = time.monotonic()
    assert program.stdout.readline().startswith(b"last ")
    end = time.monotonic()
    assert program.wait() == 0
    return end - start

held, count = int(sys.argv[2]), int(sys.argv[3])
best = {}
for _ in range(5):
    for word in ("close-first", "close-last"):
        best[word] = min(run(word, held, count), best.get(word, float("inf")))
for word, said in (("close-first", "first"), ("close-last", "last")):
    print(f"{count:,} of {held:,}, the {said} opened ones {count / best[word]:>12,.0f} closings a second")
print(f"ratio {best['close-last'] / best['close-first']:.4f}, closings a second of the first opened channels to those of the last opened")
PY
