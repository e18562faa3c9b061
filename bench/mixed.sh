#!/usr/bin/env bash
# Times lbac_script on scripts of 5,000 and of 10,000 mixed statements: the built ones, ones that can be read and aren't
# built yet, and ones that can't be read, with keywords in upper, lower and mixed case, comments, and white space of
# every kind. Run a whole `rt ci`, or `rt run` in crates/lbac_script, first: the program then stands in
# crates/lbac_script/out.
# Prints the processor time of each in milliseconds, on the average of twenty runs, and their ratio. Where the time of a
# statement doesn't grow with those before it, the ratio is about 2. The exit status is 1 where it is above 2.5.
cd "$(dirname "$0")/.." || exit 1
program=crates/lbac_script/out/lbac_script
[ -x "$program" ] || { echo "no $program: run 'rt run' in crates/lbac_script first" >&2; exit 1; }
folder=$(mktemp -d) || exit 1
trap 'rm -rf "$folder"' EXIT
# The two tables: rows are inserted into SHELF and read from HALL, so no answer grows.
cat >"$folder/tables" <<'END'
@SESSION SECADMIN
CREATE TABLE SHELF (OWNER VARCHAR(20), BOOK VARCHAR(40));
CREATE TABLE HALL (OWNER VARCHAR(20), BOOK VARCHAR(40));
INSERT INTO HALL VALUES ('SECADMIN', 'a'), ('ANN', 'b'), ('SECADMIN', 'c');
CREATE PERMISSION OWN ON HALL FOR ROWS WHERE OWNER = SESSION_USER ENFORCED FOR ALL ACCESS ENABLE;
ALTER TABLE HALL ACTIVATE ROW ACCESS CONTROL;
END
# The statements, which come round again; a `?` stands for a text with the statement's number.
cat >"$folder/statements" <<'END'
SELECT * FROM HALL
INSERT INTO SHELF VALUES (?, ?)
CREATE TABLE SHELF (OWNER VARCHAR(20))
CREATE PERMISSION OWN ON HALL FOR ROWS WHERE (OWNER) = SESSION_USER ENFORCED FOR ALL ACCESS ENABLE
ALTER TABLE HALL ACTIVATE ROW ACCESS CONTROL
INSERT INTO HALL VALUES (?, ?)
SELECT * FROM NOWHERE
INSERT INTO SHELF VALUES ((?), ?), (?, (?))
SELECT BOOK AS B, COUNT(*) FROM HALL H LEFT JOIN SHELF ON H.BOOK = SHELF.BOOK WHERE (BOOK IS NOT NULL) OR BOOK IN (?, ?) GROUP BY BOOK ORDER BY 1 DESC FETCH FIRST 3 ROWS ONLY
SELECT CASE WHEN ((1 + 2) * 3 = 9) THEN SUBSTR(BOOK, 1, 2) ELSE ? END FROM HALL WHERE EXISTS (SELECT * FROM SHELF WHERE NOT (OWNER = ?))
UPDATE SHELF SET BOOK = ? || BOOK WHERE OWNER BETWEEN ? AND ?
DELETE FROM SHELF WHERE BOOK = (SELECT MAX(BOOK) FROM HALL)
INSERT INTO SHELF (BOOK) SELECT BOOK FROM HALL
CREATE TABLE BOX (N INTEGER PRIMARY KEY, D DATE NOT NULL)
DROP TABLE BOX
ALTER TABLE SHELF ADD N BIGINT
CREATE MASK M ON SHELF FOR COLUMN BOOK RETURN CASE WHEN VERIFY_ROLE_FOR_USER(SESSION_USER, ?) = 1 THEN BOOK ELSE NULL END ENABLE
CREATE SECURITY LABEL COMPONENT LEVEL ARRAY [?, ?]
CREATE SECURITY POLICY P COMPONENTS LEVEL WITH DB2LBACRULES
GRANT SECURITY LABEL P.L TO ANN FOR READ ACCESS
GRANT EXEMPTION ON RULE DB2LBACREADARRAY FOR P TO USER ANN
GRANT ROLE CLERKS TO ANN
REVOKE SELECT, INSERT ON TABLE SHELF FROM PUBLIC
SELECT FROM HALL
SELECT BOOK, FROM HALL WHERE BOOK = ?
INSERT INTO SHELF VALUES (?, ?
CREATE TABLE (A DATE)
GRANT SELECT SHELF TO ANN
SELECT ((((((((((((BOOK)))))))))))) FROM HALL WHERE (((BOOK = ?) AND (BOOK))) = ?
HELLO WORLD
END
# A script of so many statements.
script() {
    cat "$folder/tables"
    awk -v n="$1" '
    function mixed(text,    out, at, letter) {
        for (at = 1; at <= length(text); at++) {
            letter = substr(text, at, 1)
            out = out (at % 2 ? toupper(letter) : tolower(letter))
        }
        return out
    }
    function cased(text, i) { return i % 3 == 0 ? text : i % 3 == 1 ? tolower(text) : mixed(text) }
    function spaced(text, i) {
        if (i % 5 == 1) gsub(/ /, "  ", text)
        if (i % 5 == 2) gsub(/ /, "\t\r\n ", text)
        if (i % 5 == 3) sub(/ /, " -- a note; it isn\047t the end\n", text)
        if (i % 5 == 4) text = "-- number " i "\n" text " -- behind\n"
        return text
    }
    { statements[NR - 1] = $0 }
    END {
        for (i = 0; i < n; i++) {
            round = int(i / NR)
            text = spaced(cased(statements[i % NR], round), i + int(round / 3))
            gsub(/\?/, "\047it\047\047s number " i "\047", text)
            print text ";"
        }
    }' "$folder/statements"
}
runs() {
    for _ in {1..20}; do "$program" run <"$1" >"$folder/out" || exit 1; done
}
# The user's and the system's seconds of twenty runs.
seconds() {
    local TIMEFORMAT='%U %S'
    { time runs "$1" >"$folder/log" 2>&1; } 2>&1
}
script 5000 >"$folder/small.sql"
script 10000 >"$folder/large.sql"
echo "$(seconds "$folder/small.sql") $(seconds "$folder/large.sql")" | awk '{
    a = ($1 + $2) * 50; b = ($3 + $4) * 50; ratio = a > 0 ? b / a : 0
    printf "5000 mixed statements: %.1f ms, 10000: %.1f ms, ratio %.2f\n", a, b, ratio
    exit ratio > 2.5
}'
