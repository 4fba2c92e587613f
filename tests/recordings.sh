#!/usr/bin/env bash
# The program on the example recordings: from a file, through a pipe in odd pieces, and on a pipe that stays open.
set -euo pipefail
cd "$(dirname "$0")/.."
program=target/bin/yoldrim

for recording in examples/*.bin; do
    "$program" < "$recording" | diff - "${recording%.bin}.txt"
    # The program may end before its input does: at a refused block. The pipe's writer is then told so, which is no failure.
    { dd if="$recording" bs=389 status=none || true; } | "$program" | diff - "${recording%.bin}.txt"
    echo "$recording: as expected, from a file and in pieces of 389 bytes"
done

# A message is printed when its block has come: the pipe stays open until its line is read.
coproc live { "$program"; }
program_id=$live_PID # bash drops live_PID once the program has ended
cat examples/one-block.bin >&"${live[1]}"
line=
read -r -t 20 line <&"${live[0]}" || true
if [ "$line" != "$(head -n 1 examples/one-block.txt)" ]; then
    echo "a live pipe: '$line' came within 20 s, and not the block's line"
    exit 1
fi
echo "a live pipe: its line came while it was open"
exec {live[1]}>&-
wait "$program_id"
