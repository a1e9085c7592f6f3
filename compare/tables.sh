#!/bin/sh
# Has the sqlite3 program make tables of 100,000 rows at several page sizes, and compares the rows that a cursor lists
# with those that sqlite3 gives. Run from the top of the repository. The last line is 'N passed, M failed'.
. "$(dirname "$0")/common.sh"

build images

for size in $(sizes 512 1024 4096 65536); do
    file="$folder/$size.db"
    # Rowids from -49,999 on in steps of 1 and more, and texts of up to 40 letters.
    sqlite3 "$file" "PRAGMA page_size=$size;
        CREATE TABLE t(id INTEGER PRIMARY KEY, a INT, b TEXT) STRICT;
        WITH RECURSIVE n(i) AS (SELECT 0 UNION ALL SELECT i + 1 FROM n WHERE i < 99999)
        INSERT INTO t SELECT i - 49999 + (i % 3) + 2 * i, nullif(i * i * i % 1000003 * (i - 50000), 0),
            substr('it''s a text of forty letters or of fewer', 1, i % 41) FROM n;" >"$folder/made" 2>&1
    root=$(sqlite3 "$file" "SELECT rootpage FROM sqlite_schema WHERE name = 't'")
    sqlite3 "$file" "SELECT quote(id) || ',NULL,' || quote(a) || ',' || quote(b) FROM t ORDER BY id" >"$wanted"
    printf 'rows\t%s\t%s\n' "$file" "$root" | crates/images/out/images >"$answer" 2>&1
    if test "$(wc -l <"$wanted")" -eq 100000 && cmp -s "$wanted" "$answer"; then
        pass
    else
        fail "page size $size"
    fi
done

finish
