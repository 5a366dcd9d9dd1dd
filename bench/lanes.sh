#!/bin/sh
# Messages that are hashed a second, four at once and the same ones one by one: a digest of 64 bytes, and double hashes
# of 64 and of 80 bytes. All in one run on one machine. The seconds are the processor's, so that other programs that run
# meanwhile count little.
set -eu
cd "$(dirname "$0")/.."
fours=${1:-500000}
work=$(mktemp -d)
trap 'rm -rf "$work"' EXIT

echo "proving and building the benchmarks of hashes and frames"
(cd crates/bench && rt run -- lanes double-80 1 < /dev/null > "$work/build" 2>&1) || { cat "$work/build"; exit 1; }

python3 - "$fours" <<'PY'
import resource, subprocess, sys
fours = int(sys.argv[1])

def hashed(*words):
    """How long the hashes took, and the last of them."""
    start = resource.getrusage(resource.RUSAGE_CHILDREN).ru_utime
    said = subprocess.run(["crates/bench/out/bench", *words, str(fours)], capture_output=True, check=True).stdout
    return resource.getrusage(resource.RUSAGE_CHILDREN).ru_utime - start, said

# Each is timed five times, in turns, and the least time counts.
for form, name in [("digest-64", "digests of 64 bytes"), ("double-64", "double hashes of 64 bytes"),
                   ("double-80", "double hashes of 80 bytes")]:
    (at_once, said), (singly, said_singly) = map(min, zip(
        *[(hashed("lanes", form), hashed("singly", form)) for _ in range(5)]))
    assert said == said_singly
    print(f"{name:<26} {4 * fours / at_once:>10,.0f} a second four at once, {4 * fours / singly:>10,.0f} one by one,"
          f" ratio {singly / at_once:.2f}")
print(f"ratio {singly / at_once:.2f}, {name} a second four at once to those one by one")
PY
