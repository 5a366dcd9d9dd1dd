#!/bin/sh
# What splitting a stream into frames costs: bytes a second for frames with 24 and with 200,000 bytes of
# payload in one run, and the greatest memory that the program had. A splitter copies each byte once into a
# buffer of the limit and six bytes more, so the memory is the same for both.
set -eu
cd "$(dirname "$0")/.."
work=$(mktemp -d)
trap 'rm -rf "$work"' EXIT

echo "proving and building the benchmarks of hashes and frames"
(cd crates/bench && rt run -- frames < /dev/null > "$work/build" 2>&1) || { cat "$work/build"; exit 1; }

python3 bench/stream-of-frames.py 00801a "" 24 8000000 "$work/24"
python3 bench/stream-of-frames.py 00801a "" 200000 1200 "$work/200000"

python3 - "$work" <<'PY'
import os, resource, subprocess, sys, time
speeds = []
for length in (24, 200_000):
    path = f"{sys.argv[1]}/{length}"
    with open(path, "rb") as stream:
        start = time.monotonic()
        said = subprocess.run(["crates/bench/out/bench", "frames"], stdin=stream, capture_output=True,
                              check=True).stdout.decode().strip()
        took = time.monotonic() - start
    # The greatest of the programs so far: it is the same for both where each needs the same.
    memory = resource.getrusage(resource.RUSAGE_CHILDREN).ru_maxrss
    speeds.append(os.path.getsize(path) / took / 1e6)
    print(f"payload {length:>7}: {speeds[-1]:>8,.0f} MB a second, {memory:,} KB, {said}")
print(f"ratio {speeds[0] / speeds[1]:.2f}, bytes a second with 24 bytes of payload to those with 200,000")
PY
