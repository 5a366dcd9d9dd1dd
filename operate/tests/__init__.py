"""Tests of the tools: `sh operate/test.sh` runs them all. Most need nothing but Python."""
