#!/bin/sh
# That stale templates aren't kept: the greatest memory of a program that takes in 100 templates of
# 1,000 bytes, the first of every ten with its tip, and of one that takes in 10,000.
set -eu
cd "$(dirname "$0")/.."

bench=$(bench/build)

python3 - "$bench" <<'PY'
import re, subprocess, sys

bench = sys.argv[1]
held = []
for count in (100, 10_000):
    said = subprocess.run([bench, "jobs", str(count)], capture_output=True,
                          check=True).stdout.decode().strip()
    held.append(int(re.search(r"VmHWM:\s+(\d+) kB", said)[1]))
    print(f"templates {count:>6}: {held[-1]:,} KB, {said.split(' Vm')[0]}")
print(f"ratio {held[1] / held[0]:.2f}, memory held after 10,000 templates to that after 100")
PY
