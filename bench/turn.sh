#!/bin/sh
# Holds of the turn a second, by 1, 2 and 4 threads, against the same loop over std's Mutex (rustc -O), where rustc is there.
# usage: bench/turn.sh [HOLDS]   holds that each thread makes, 200,000 if left out
set -eu
cd "$(dirname "$0")/.."
holds=${1:-200000}
out=$PWD/bench/out
mkdir -p "$out"

# The program is proved and built, and its small run is thrown away.
(cd crates/bench_turn && rt run >/dev/null)
cp crates/bench_turn/out/bench_turn "$out/turn"
if command -v rustc >/dev/null; then
    rustc -O -o "$out/turn_peer" bench/turn_peer.rs
else
    echo "no rustc: the turn alone"
fi

# The least time of three runs, in nanoseconds.
least() {
    for _ in 1 2 3; do
        "$@" | sed -n 's/^\([0-9]*\) ns$/\1/p'
    done | sort -n | head -n 1
}

for threads in 1 2 4; do
    all=$((threads * holds))
    ns=$(least "$out/turn" "$threads" "$holds")
    turn=$((all * 1000000000 / ns))
    if [ -x "$out/turn_peer" ]; then
        ns=$(least "$out/turn_peer" "$threads" "$holds")
        mutex=$((all * 1000000000 / ns))
        echo "threads $threads: turn $turn holds/s, Mutex $mutex holds/s, ratio $(awk "BEGIN { printf \"%.2f\", $turn / $mutex }")"
    else
        echo "threads $threads: turn $turn holds/s"
    fi
done
