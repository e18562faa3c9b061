#!/usr/bin/env bash
# Times one-row INSERTs into one table: a script of 20,000 against one of 10,000. Run a whole `rt ci`, or `rt run` in
# crates/lbac_script, first: the program then stands in crates/lbac_script/out.
# Prints the processor time of each in milliseconds, on the average of twenty runs, and their ratio. With no copy of the
# table for each statement the ratio is about 2.
cd "$(dirname "$0")/.." || exit 1
program=crates/lbac_script/out/lbac_script
[ -x "$program" ] || { echo "no $program: run 'rt run' in crates/lbac_script first" >&2; exit 1; }
folder=$(mktemp -d) || exit 1
trap 'rm -rf "$folder"' EXIT
script() {
    echo "@SESSION SECADMIN"
    echo "CREATE TABLE NOTES (OWNER VARCHAR(20), BODY VARCHAR(40));"
    awk -v n="$1" 'BEGIN { for (i = 0; i < n; i++) printf "INSERT INTO NOTES VALUES (\047SECADMIN\047, \047note %d\047);\n", i }'
}
runs() {
    for _ in {1..20}; do "$program" run <"$1" >"$folder/out" || exit 1; done
}
# The user's and the system's seconds of twenty runs.
seconds() {
    local TIMEFORMAT='%U %S'
    { time runs "$1" >"$folder/log" 2>&1; } 2>&1
}
script 10000 >"$folder/small.sql"
script 20000 >"$folder/large.sql"
echo "$(seconds "$folder/small.sql") $(seconds "$folder/large.sql")" |
    awk '{ a = ($1 + $2) * 50; b = ($3 + $4) * 50; printf "10000 INSERTs: %.1f ms, 20000: %.1f ms, ratio %.2f\n", a, b, b / a }'
