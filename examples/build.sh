#!/bin/sh
# Proves and builds the program, and says where it lies. From nothing it proves every crate that the program
# stands on: some two hours on four processors, with some GB of memory and four GB of disk; longer where
# others are at work. What was proved is kept, so after a change it proves what the change reaches.
#
# No proof is needed to look at something: the other examples take the program as it is written, which some
# minutes compile.
set -eu
cd "$(dirname "$0")/.."

program=crates/pool_cli/out/pool_cli
log=$(mktemp)
trap 'rm -f "$log"' EXIT

echo "proving and building the program: some two hours from nothing, less after a change"
(cd crates/pool_cli && rt run -- frames < /dev/null > "$log" 2>&1) || { cat "$log"; exit 1; }
echo "the program is $program"
