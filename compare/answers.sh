#!/bin/sh
# Has the sqlite3 program make tables of 100,000 rows and tables of long values at several page sizes, and compares what the
# program answers with what sqlite3 gives. Run from the top of the repository. The last line is 'N passed, M failed'.
. "$(dirname "$0")/common.sh"

build seleq data/shop.db "SELECT name FROM item"

# expect COUNT WORD..: what the program answers to these words is to be what lies in the file $wanted, of so many lines.
expect() {
    count=$1
    shift
    if crates/seleq/out/seleq "$@" >"$answer" 2>&1 && cmp -s "$wanted" "$answer" &&
        test "$(wc -l <"$wanted")" -eq "$count"; then
        pass
    else
        fail "page size $size: $*"
    fi
}

# Rowids from -49,999 on in steps of 1 and more, integers of each length, texts of up to 40 letters, and blobs.
many_rows() {
    # The longest blob of a row without an overflow page, whose record has 35 bytes less than the page; the others are the
    # record's header and a text of 21. From 16384 bytes a page on the blob's type takes a byte more.
    longest=$((size - 62 - (size > 8192)))
    echo "CREATE TABLE t(id INTEGER PRIMARY KEY, a INT, b TEXT NOT NULL, c BLOB) STRICT;
        WITH RECURSIVE n(i) AS (SELECT 0 UNION ALL SELECT i + 1 FROM n WHERE i < 99999)
        INSERT INTO t SELECT i - 49999 + (i % 3) + 2 * i,
            nullif((i * i * i % 1000003 * (i - 50000)) << (i % 30), 0),
            substr('it''s a text of forty letters or of fewer', 1, i % 41),
            CASE WHEN i = 50000 THEN zeroblob($longest)
                WHEN i % 7 > 0 THEN CAST(substr(x'00ff2710', 1 + i % 4) || substr('a blob', 1 + i % 5) AS BLOB)
            END FROM n;"
}

# Twelve texts of up to four pages and blobs of up to three. Then texts about the longest of a row without an overflow page,
# and about the longest of one with a single overflow page that is full.
long_values() {
    echo "CREATE TABLE long(id INTEGER PRIMARY KEY, b TEXT NOT NULL, c BLOB, d INT NOT NULL) STRICT;
        CREATE TEMP TABLE piece AS WITH RECURSIVE n(i) AS (SELECT 0 UNION ALL SELECT i + 1 FROM n WHERE i < 29999)
            SELECT group_concat(i, ' it''s ') AS b,
                CAST(group_concat(substr(x'00ff2710', 1 + i % 4) || i, '') AS BLOB) AS c FROM n;
        WITH RECURSIVE n(i) AS (SELECT 1 UNION ALL SELECT i + 1 FROM n WHERE i < 12)
        INSERT INTO long SELECT i, substr(b, i, $size * i / 3),
            CASE WHEN i % 5 > 0 THEN substr(c, i, $size * i / 4) END, i FROM n, piece;
        WITH RECURSIVE n(i) AS (SELECT 1 UNION ALL SELECT i + 1 FROM n WHERE i < 30)
        INSERT INTO long SELECT 2 * i + 11 + (k - 1), substr(b, i, k * $size - 65 + i), NULL, i
            FROM n, piece, (SELECT 1 AS k UNION ALL SELECT 2);"
}

for size in $(sizes 512 1024 2048 4096 8192 16384 32768 65536); do
    file="$folder/$size.db"
    { echo "PRAGMA page_size=$size;" && many_rows && long_values; } | sqlite3 -bail "$file" >"$folder/made" 2>&1
    sqlite3 "$file" "SELECT quote(a) || ',' || quote(b) FROM t ORDER BY id" >"$wanted"
    expect 100000 "$file" "SELECT a, b FROM t"
    expect 100000 --cache 1 "$file" "SELECT a, b FROM t"
    sqlite3 "$file" "SELECT '''b'',''id''' UNION ALL SELECT * FROM
        (SELECT quote(b) || ',' || quote(id) FROM t ORDER BY id)" >"$wanted"
    expect 100001 --header "$file" "select B, ID from T"
    sqlite3 "$file" "SELECT quote(id) || ',' || quote(a) || ',' || quote(b) || ',' || quote(c) FROM t ORDER BY id" >"$wanted"
    expect 100000 "$file" "SELECT * FROM t"
    sqlite3 "$file" "SELECT quote(id) || ',' || quote(b) || ',' || quote(c) || ',' || quote(d) FROM long ORDER BY id" >"$wanted"
    for cache in 1 256 1000; do
        expect 72 --cache "$cache" "$file" "SELECT * FROM long"
    done
    sqlite3 "$file" "SELECT quote(d) || ',' || quote(c) FROM long ORDER BY id" >"$wanted"
    expect 72 "$file" "SELECT d, c FROM long"
done

# Payloads of 477, 478, 985, 2000 and 2002 bytes, three bytes more than their texts have: with pages of 512 bytes these go on
# in 0, 1, 1, 3 and 4 overflow pages, of which sqlite3's table dbstat tells, where it has that.
size=512
file="$folder/worked.db"
sqlite3 "$file" "PRAGMA page_size=$size;
    CREATE TABLE t(b TEXT) STRICT;
    INSERT INTO t SELECT printf('%.*c', value, 'x') || 'end' FROM json_each('[471, 472, 979, 1994, 1996]');" >"$folder/made" 2>&1
sqlite3 "$file" "SELECT quote(b) FROM t ORDER BY rowid" >"$wanted"
expect 5 "$file" "SELECT b FROM t"
if sqlite3 "$file" "SELECT count(*) FROM dbstat" >"$folder/made" 2>&1; then
    echo 9 >"$wanted"
    sqlite3 "$file" "SELECT count(*) FROM dbstat WHERE pagetype = 'overflow'" >"$answer" 2>&1
    if cmp -s "$wanted" "$answer"; then pass; else fail "overflow pages of $file"; fi
fi

# A text of 10,000,000 letters, between two that are short.
size=4096
file="$folder/longest.db"
sqlite3 "$file" "PRAGMA page_size=$size;
    CREATE TABLE t(b TEXT, a INT) STRICT;
    INSERT INTO t VALUES('before', 1);
    WITH RECURSIVE n(i) AS (SELECT 1000000 UNION ALL SELECT i + 1 FROM n WHERE i < 1999999)
    INSERT INTO t SELECT substr(group_concat(i, 'it''s'), 1, 10000000), 2 FROM n;
    INSERT INTO t VALUES('behind', 3);" >"$folder/made" 2>&1
sqlite3 "$file" "SELECT quote(b) || ',' || quote(a) FROM t ORDER BY rowid" >"$wanted"
for cache in 1 256 1000; do
    expect 3 --cache "$cache" "$file" "SELECT b, a FROM t"
done
echo 10000000 >"$wanted"
sqlite3 "$file" "SELECT max(length(b)) FROM t" >"$answer"
if cmp -s "$wanted" "$answer"; then pass; else fail "the length of the longest text"; fi

finish
