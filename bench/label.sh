#!/bin/sh
# Times `read_fail` on labels of three components. Run `rt run` in crates/bench_label or a whole `rt ci` first: the
# program then stands in crates/bench_label/out.
# Prints the time of a million tests, less that of none, in nanoseconds for each test, five times.
cd "$(dirname "$0")/.." || exit 1
program=crates/bench_label/out/bench_label
[ -x "$program" ] || { echo "no $program: run 'rt run' in crates/bench_label first" >&2; exit 1; }
run() {
    start=$(date +%s%N)
    "$program" "$1" >/dev/null || exit 1
    end=$(date +%s%N)
    echo $((end - start))
}
for _ in 1 2 3 4 5; do
    base=$(run 0)
    whole=$(run 1000000)
    echo "$(( (whole - base) / 1000000 )) ns for each test"
done
