#!/usr/bin/env bash
# The benchmark: the proved program against the plain engine on one recording, the stack used, then nanoseconds a sample, and a record of
# the busiest stretch, through the library's calls.
# Usage: tests/bench.sh [TICKS]
set -euo pipefail
cd "$(dirname "$0")/.."
(cd tests && cargo build --offline --release --quiet)
tests/target/release/bench generate "${1:-4000000}" 1 target/bench.bin
tests/target/release/bench ratio target/bin/yoldrim target/bench.bin 25
tests/target/release/bench stack target/bin/yoldrim target/bench.bin
tests/target/release/bench
