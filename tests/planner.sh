#!/usr/bin/env bash
# The programs records and planner beside the second implementation: on the example recordings and a generated day, by several widths,
# then on records and widths that are refused.
set -euo pipefail
cd "$(dirname "$0")/.."
second=tests/target/release/bench
made=$(mktemp -d)
trap 'rm -rf "$made"' EXIT

# Compares the records of a recording: the bytes, the status and what is reported of a refused block.
records() {
    local status=0 expected=0
    target/bin/records < "$1" > "$made/records.bin" 2> "$made/errors" || status=$?
    "$second" records < "$1" > "$made/expected.bin" 2> "$made/expected" || expected=$?
    cmp "$made/records.bin" "$made/expected.bin"
    sed -i 's/^bench: //' "$made/expected"
    diff "$made/errors" "$made/expected"
    if [ "$status" != "$expected" ]; then
        echo "$1: the program records ended with status $status, not $expected"
        exit 1
    fi
}

# Compares the planner's line for a file of records, by each width, and its status: 1 where it refuses.
widths="1 2 5 150 600 9999999 10000000 0 10000001"
planner() {
    for width in $widths; do
        local status=0 expected=0
        target/bin/planner "$width" < "$1" > "$made/line" || status=$?
        "$second" busiest "$width" < "$1" | diff "$made/line" -
        if grep -q refused "$made/line"; then
            expected=1
        fi
        if [ "$status" != "$expected" ]; then
            echo "$1: the planner ended with status $status, not $expected, by the width $width"
            exit 1
        fi
    done
}

"$second" generate 50000 1 "$made/day.bin"
for recording in "$made/day.bin" examples/*.bin; do
    records "$recording"
    planner "$made/records.bin"
    echo "${recording##*/}: records and busiest stretches as the second implementation gives them"
done

records "$made/day.bin"
cp "$made/records.bin" "$made/day"
: > "$made/none"
head -c 31 "$made/day" > "$made/short"
head -c 4159 "$made/day" > "$made/torn"
cat "$made/day" "$made/day" > "$made/falls"
{ cat "$made/falls"; head -c 32 /dev/zero; } > "$made/damaged"
for list in none short torn falls damaged; do
    planner "$made/$list"
done
echo "no records, torn, falling and damaged lists: as the second implementation"

# Anything but one argument that is a width is an error of use: nothing is printed.
misused() {
    local status=0
    target/bin/planner "$@" < "$made/day" > "$made/line" 2> "$made/errors" || status=$?
    if [ "$status" != 2 ] || [ -s "$made/line" ] || ! grep -q '^usage: ' "$made/errors"; then
        echo "the planner took '$*' for a width"
        exit 1
    fi
}

for width in abc -1 "" 4294967296; do
    misused "$width"
done
misused
misused 600 600
echo "no width: an error of use, and nothing printed"
