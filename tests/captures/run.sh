#!/bin/sh
# The player and the second program, fed the same captures. A seed may be given: run.sh [SEED]
set -eu
cd "$(dirname "$0")/../.."
make -s -C second
tools/program player
exec tests/captures/compare.sh "tools/run target/bin/player" target/second/player "${1:-1}"
