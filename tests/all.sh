#!/usr/bin/env bash
# All tests: the proofs with the must-fail edits and the programs (rt ci), the example recordings, the C examples, and the
# comparison of the static library and of the programs with the second implementation. The last line is that of rt ci, printed only
# when all passed.
# Usage: tests/all.sh [ROUNDS], the number of rounds of random days in the comparison.
set -euo pipefail
cd "$(dirname "$0")/.."
rounds=${1:-250}
log=$(mktemp)
trap 'rm -f "$log"' EXIT

bash tests/progress.sh "$log" rt ci
# rt ci passes where an edit cannot be applied or read, and only counts it as bad.
edits=$(find crates/*/must-fail -name '*.edit' | wc -l)
if ! grep -q "^rt: ok;.* must-fail edits: $edits refused;" "$log"; then
    echo "not all of the $edits must-fail edits were refused"
    exit 1
fi
if grep -E 'only because a proof file names|only by a limit' "$log"; then
    echo "a must-fail edit was refused, but not for a fact"
    exit 1
fi
make --no-print-directory target/bin/yoldrim
bash tests/recordings.sh

# A tool that is missing is named; under CI it is an error.
have() {
    command -v "$1" > /dev/null && return 0
    echo "left out, no $1 on this machine: $2"
    [ -z "${CI:-}" ] || exit 1
    return 1
}

make --no-print-directory lib
if have cc "the C examples"; then
    for example in stop receive busiest; do
        cc -O2 -Wall -Wextra -Werror -I target -o "target/$example" "examples/$example.c" target/libyoldrim.a
        "target/$example"
    done
fi

if have cargo "the comparison with the second implementation"; then
    (cd tests && cargo test --offline --release --quiet && cargo build --offline --release --quiet)
    tests/target/release/compare library "$rounds"
    mkdir -p target/examples
    tests/target/release/recordings target/examples
    for made in target/examples/*; do
        cmp "$made" "examples/${made##*/}"
    done
    echo "the example recordings: as the second implementation prints them"
    for seed in 1 2 3 4; do
        tests/target/release/bench generate 50000 "$seed" target/day.bin
        tests/target/release/bench lines < target/day.bin > target/day.txt
        target/bin/yoldrim < target/day.bin | diff - target/day.txt
        echo "printed day $seed: as the second implementation"
    done
    make --no-print-directory target/bin/records target/bin/planner
    bash tests/planner.sh
fi

tail -n 1 "$log"
