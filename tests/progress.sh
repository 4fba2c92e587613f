#!/usr/bin/env bash
# Runs a command of rt, and shows what it says of each crate as it is done, and of its must-fail edits. LOG keeps all that the command
# prints, and is shown whole where it fails.
# Usage: tests/progress.sh LOG COMMAND..
set -euo pipefail
log=$1
shift
mkdir -p "$(dirname "$log")"
if ! "$@" 2>&1 | tee "$log" | { grep --line-buffered '^rt: ' || true; }; then
    cat "$log"
    exit 1
fi
