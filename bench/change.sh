#!/usr/bin/env bash
# Times accepted changes of a catalogue of 64 tables and 1,000 users: 20,000 of them against 10,000, what each leaves being what the
# next one finds. Run a whole `rt ci`, or `rt run` in crates/bench_change, first: the program then stands in crates/bench_change/out.
# Prints the processor time of each in milliseconds, on the average of three runs, and their ratio. Where the time of a change doesn't
# grow with those before it, the ratio is about 2. The exit status is 1 where it is above 2.5.
cd "$(dirname "$0")/.." || exit 1
program=crates/bench_change/out/bench_change
[ -x "$program" ] || { echo "no $program: run 'rt run' in crates/bench_change first" >&2; exit 1; }
# The user's and the system's seconds of three runs.
seconds() {
    local TIMEFORMAT='%U %S'
    { time for _ in 1 2 3; do "$program" "$1" >/dev/null 2>&1 || exit 1; done; } 2>&1
}
echo "$(seconds 10000) $(seconds 20000)" |
    awk '{ a = ($1 + $2) * 1000 / 3; b = ($3 + $4) * 1000 / 3; printf "10000 changes: %.0f ms, 20000: %.0f ms, ratio %.2f\n", a, b, b / a; exit b / a > 2.5 }'
