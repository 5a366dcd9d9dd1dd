#!/bin/sh
# Runs the tests of the tools in this folder, some at once; they take some seconds. They need Python 3 alone;
# what asks for more (a browser, Debian's python3-bitcoinlib) is left out where it isn't there, and said here.
#
# `sh examples/operate.sh` runs each tool over a pool that is really served.
set -eu
cd "$(dirname "$0")"

command -v chromium > /dev/null || echo "left out: the pages in a browser (chromium isn't there)"
python3 - <<'PY'
import sys

sys.path.append("/usr/lib/python3/dist-packages")
try:
    import bitcoin
except ImportError:
    print("left out: blocks as another library sees them (python3-bitcoinlib isn't there)")
PY

ls tests/test_*.py | xargs -n 1 -P 4 python3 -W error::ResourceWarning -m unittest -q
