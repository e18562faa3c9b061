#!/usr/bin/env bash
# Times `TableVersion::with_appended` of one row, to a table of 10,000 rows and to one of 100,000. Run `rt run` in
# crates/bench_rows or a whole `rt ci` first: the program then stands in crates/bench_rows/out.
# Prints the processor time of one append to each, on the average over all fillings of the last chunk, and their ratio, five
# times. The exit status is 1 where the ratio is above 1.5 each time.
cd "$(dirname "$0")/.." || exit 1
program=crates/bench_rows/out/bench_rows
[ -x "$program" ] || { echo "no $program: run 'rt run' in crates/bench_rows first" >&2; exit 1; }
rounds=200
# The user's and the system's seconds of a run.
seconds() {
    local TIMEFORMAT='%U %S'
    { time "$program" "$@" >/dev/null; } 2>&1
}
for _ in 1 2 3 4 5; do
    echo "$(seconds 10000 0) $(seconds 10000 $rounds) $(seconds 100000 0) $(seconds 100000 $rounds)"
done | awk -v appends=$((rounds * 256)) '{
    small = ($3 + $4 - $1 - $2) * 1000000 / appends
    large = ($7 + $8 - $5 - $6) * 1000000 / appends
    ratio = small > 0 ? large / small : 0
    printf "an append to 10,000 rows: %.1f us, to 100,000: %.1f us, ratio %.2f\n", small, large, ratio
    if (ratio <= 1.5) good++
}
END { exit good == 0 }'
