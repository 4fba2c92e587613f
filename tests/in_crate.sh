#!/usr/bin/env bash
# Runs a command of rt in a crate's folder, with no input.
# Usage: tests/in_crate.sh CRATE COMMAND..
set -euo pipefail
cd "$(dirname "$0")/../crates/$1"
shift
exec rt "$@" < /dev/null
