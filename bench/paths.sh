#!/bin/sh
# Merkle paths of 65,535 ids, the most that a declaration lists, beside the bare double hashes of 64 bytes that they
# contain: one for each pair of ids and of what lies above them. All in one run on one machine. The seconds are the
# processor's, so that other programs that run meanwhile count little.
set -eu
cd "$(dirname "$0")/.."
ids=${1:-65535}
count=${2:-10}
work=$(mktemp -d)
trap 'rm -rf "$work"' EXIT

echo "proving and building the benchmarks of hashes and frames"
(cd crates/bench && rt run -- path 1 1 < /dev/null > "$work/build" 2>&1) || { cat "$work/build"; exit 1; }

python3 - "$ids" "$count" <<'PY'
import resource, subprocess, sys
ids, count = map(int, sys.argv[1:])

def seconds(*words):
    start = resource.getrusage(resource.RUSAGE_CHILDREN).ru_utime
    subprocess.run(["crates/bench/out/bench", *map(str, words)], stdout=subprocess.DEVNULL, check=True)
    return resource.getrusage(resource.RUSAGE_CHILDREN).ru_utime - start

# A row's first id is in the path itself, and the others are paired; an odd last one with itself.
pairs, row = 0, ids
while row:
    row //= 2
    pairs += row
# Each is timed five times, in turns, and the least time counts.
paths, bare = map(min, zip(*[(seconds("path", ids, count), seconds("bytes", 64, pairs * count)) for _ in range(5)]))
print(f"paths of {ids:,} ids        {count / paths:>10,.1f} a second, {1000 * paths / count:,.1f} ms each")
print(f"double hashes in them       {pairs * count / paths:>10,.0f} a second, {pairs:,} each")
print(f"bare double hashes          {pairs * count / bare:>10,.0f} a second")
print(f"ratio {bare / paths:.2f}, double hashes a second in paths of {ids:,} ids to bare double hashes of 64 bytes")
PY
