#!/bin/bash
# Times runs of 1,000,000 turns with the proved program, five of each; prints the median in nanoseconds a turn and the peak memory.
cd "$(dirname "$0")/.." || exit 1
program=crates/rbl/out/rbl
[ -x "$program" ] || { echo "build it first: cd crates/rbl && rt run"; exit 1; }
for name in one channel state_small state_large; do
    times=()
    for _ in 1 2 3 4 5; do
        start=$(date +%s%N)
        "$program" run "bench/$name.rbl" "bench/$name.schedule" >/dev/null || exit 1
        times+=($(($(date +%s%N) - start)))
    done
    median=$(printf '%s\n' "${times[@]}" | sort -n | sed -n 3p)
    memory=$(/usr/bin/env time -f %M "$program" run "bench/$name.rbl" "bench/$name.schedule" 2>&1 >/dev/null | tail -1)
    echo "$name: $((median / 1000000)) ns a turn, $memory kB"
done
