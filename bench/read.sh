#!/usr/bin/env bash
# Times the reader on a SELECT whose condition is a row of 64-fold brackets, of up to 1,024, 2,048 and 4,096 bytes, and
# sqlite3 (where it is there) as it prepares the same SELECTs under EXPLAIN, over a table without rows. Run a whole
# `rt ci`, or `rt run` in crates/bench_read, first: the program then stands in crates/bench_read/out.
# Prints the processor time in microseconds for each reading. Where time is linear, each line is about twice the one before.
cd "$(dirname "$0")/.." || exit 1
program=crates/bench_read/out/bench_read
[ -x "$program" ] || { echo "no $program: run 'rt run' in crates/bench_read first" >&2; exit 1; }
folder=$(mktemp -d) || exit 1
trap 'rm -rf "$folder"' EXIT
rounds=1000
# The user's and the system's seconds of a command that reads from a file.
seconds() {
    local TIMEFORMAT='%U %S'
    { time "${@:2}" <"$1" >"$folder/out" 2>"$folder/log"; } 2>&1
}
# So many EXPLAINs of the program's own text.
explains() {
    awk -v rounds="$1" -v bytes="$2" 'BEGIN {
        for (i = 0; i < 64; i++) { open = open "("; close_ = close_ ")" }
        text = "SELECT A FROM T WHERE A = 1"; more = " OR " open "A = 1" close_
        while (length(text) + length(more) <= bytes) text = text more
        print "CREATE TABLE T (A);"
        for (i = 0; i < rounds; i++) print "EXPLAIN " text ";"
    }'
}
: >"$folder/none"
for bytes in 1024 2048 4096; do
    ours=$(seconds "$folder/none" "$program" "$rounds" 64 "$bytes")
    peer=""
    if command -v sqlite3 >/dev/null; then
        explains 0 "$bytes" >"$folder/base.sql"
        explains "$rounds" "$bytes" >"$folder/peer.sql"
        peer="$(seconds "$folder/peer.sql" sqlite3 :memory:) $(seconds "$folder/base.sql" sqlite3 :memory:)"
    fi
    echo "$ours $peer" | awk -v bytes="$bytes" -v rounds="$rounds" '{
        ours = ($1 + $2) * 1000000 / rounds
        printf "%d bytes: %.1f us", bytes, ours
        if (NF > 2) { peer = ($3 + $4 - $5 - $6) * 1000000 / rounds; printf ", sqlite3 %.1f us, ratio %.2f", peer, ours / peer }
        print ""
    }'
done
