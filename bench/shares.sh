#!/bin/sh
# Shares a second, from the coinbase to the header's hash, for merkle paths of 0 and of 12 hashes, beside
# the bare double hashes that they contain: of the coinbase's 98 bytes, of 64 bytes for each hash of the
# path, and of the header's 80 bytes. All in one run on one machine. The seconds are the processor's, so
# that other programs that run meanwhile count little.
set -eu
cd "$(dirname "$0")/.."
count=${1:-500000}
work=$(mktemp -d)
trap 'rm -rf "$work"' EXIT

echo "proving and building the benchmarks of hashes and frames"
(cd crates/bench && rt run -- bytes 80 1 < /dev/null > "$work/build" 2>&1) || { cat "$work/build"; exit 1; }

python3 - "$count" <<'PY'
import resource, subprocess, sys
count = int(sys.argv[1])

def seconds(*words):
    start = resource.getrusage(resource.RUSAGE_CHILDREN).ru_utime
    subprocess.run(["crates/bench/out/bench", *map(str, words)], stdout=subprocess.DEVNULL, check=True)
    return resource.getrusage(resource.RUSAGE_CHILDREN).ru_utime - start

# Each is timed five times, in turns, and the least time counts.
kinds = [("shares", 0), ("shares", 12), ("bytes", 98), ("bytes", 64), ("bytes", 80)]
took = {kind: min(times) for kind, times in
        zip(kinds, zip(*[[seconds(*kind, count) for kind in kinds] for _ in range(5)]))}
for name, size in kinds[2:]:
    print(f"double hashes of {size} bytes      {count / took[name, size]:>10,.0f} a second")
for siblings in (0, 12):
    bare = took["bytes", 98] + siblings * took["bytes", 64] + took["bytes", 80]
    print(f"shares with a path of {siblings:<2}      {count / took['shares', siblings]:>10,.0f} a second,"
          f" ratio {bare / took['shares', siblings]:.2f}")
print(f"ratio {bare / took['shares', siblings]:.2f}, shares with a path of {siblings} to the bare double"
      " hashes that they contain")
PY
