#!/bin/bash
# Explores programs over all schedules with the proved program: what was counted, processor time in seconds, and the peak memory.
cd "$(dirname "$0")/../.." || exit 1
program=crates/rblview/out/rblview
[ -x "$program" ] || { echo "build it first: cd crates/rblview && rt run"; exit 1; }
table=$(mktemp) && trap 'rm -f "$table"' EXIT
python3 -B bench/explore/philosophers.py 3 >"$table"
for source in examples/step4.rbl examples/step8.rbl examples/classics/transfer.rbl "$table"; do
    said=$(/usr/bin/env time -f '%U s, %M kB' "$program" explore "$source" 2>&1 >"$table.out") || exit 1
    echo "${source/$table/philosophers.py 3}: $(head -1 "$table.out"): $said"
done
rm -f "$table.out"
