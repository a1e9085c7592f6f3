#!/bin/sh
# Has the sqlite3 program make files of STRICT tables at several page sizes, and compares what the check finds in them
# with what sqlite3 says: the tables and then the indexes in their order, the rows of each, and the pages of all. Where sqlite3 has the table
# dbstat, the pages and the levels of each tree are compared too. Page 1, the pages of the trees and the overflow pages
# are all that aren't free. Only dbstat tells how many are overflow pages, so that without it the pages of all are
# compared in those files alone that have none.
# Run from the top of the repository. The last line is 'N passed, M failed'.

. "$(dirname "$0")/common.sh"

program=crates/images
build images

# How many words of a line are compared.
words=2
if sqlite3 "$program/data/shop.db" "SELECT count(*) FROM dbstat" >/dev/null 2>&1; then
    words=4
fi

# numbers COUNT: the head of a statement over the numbers i from 1 on.
numbers() {
    echo "WITH RECURSIVE n(i) AS (SELECT 1 UNION ALL SELECT i + 1 FROM n WHERE i < $1)"
}

# The statements that make each kind of file.

many_rows() {
    echo "CREATE TABLE item(id INTEGER PRIMARY KEY, name TEXT NOT NULL, qty INT) STRICT;"
    numbers 10000
    echo "INSERT INTO item SELECT i, 'item ' || i, nullif(i % 7 * (i - 5000) * i, 0) FROM n;"
}

several_tables() {
    echo "CREATE TABLE z(a INT, b BLOB NOT NULL) STRICT;"
    echo "CREATE TABLE \"table\"(a INTEGER, b TEXT, c BLOB) STRICT;"
    echo "CREATE TABLE A(key INTEGER PRIMARY KEY NOT NULL, word TEXT) STRICT;"
    numbers 1500
    echo "INSERT INTO z SELECT nullif(-i * i * i, -1), zeroblob(i % 60) FROM n;"
    numbers 37
    echo "INSERT INTO A SELECT i * i, substr('a word of a few letters', 1, i % 24) FROM n;"
}

# Negative and large rowids, in no order.
far_rowids() {
    echo "CREATE TABLE far(a TEXT, id INTEGER PRIMARY KEY, b INT NOT NULL) STRICT;"
    echo "INSERT INTO far VALUES('last', 9223372036854775807, 1), ('first', -9223372036854775808, 2);"
    numbers 5000
    echo "INSERT INTO far SELECT 'row ' || i, (i * 7919 % 5003 - 2500) * 1000000007 * (1 + i % 2 * 999999), i FROM n;"
}

deleted_rows() {
    echo "CREATE TABLE kept(a INT, b TEXT) STRICT;"
    echo "CREATE TABLE gone(a INTEGER PRIMARY KEY, b TEXT) STRICT;"
    numbers 4000
    echo "INSERT INTO kept SELECT i, 'a text of row ' || i FROM n;"
    echo "INSERT INTO gone SELECT a, b FROM kept;"
    echo "DELETE FROM kept WHERE a % 3 <> 0 OR a BETWEEN 1000 AND 2000;"
    echo "DELETE FROM gone;"
    echo "VACUUM;"
}

no_rows() {
    echo "CREATE TABLE a(a INT) STRICT;"
    echo "CREATE TABLE b(a INTEGER PRIMARY KEY, b TEXT NOT NULL, c BLOB) STRICT;"
}

no_tables() {
    echo "CREATE TABLE a(a INT) STRICT;"
    echo "DROP TABLE a;"
}

# Texts and blobs of up to some pages, and short ones among them, in two tables.
long_values() {
    echo "CREATE TABLE long(id INTEGER PRIMARY KEY, b TEXT, c BLOB) STRICT;"
    echo "CREATE TABLE note(b TEXT NOT NULL) STRICT;"
    numbers 300
    echo "INSERT INTO long SELECT i, replace(hex(zeroblob(i * i % 5003)), '00', i),
        CASE WHEN i % 3 > 0 THEN zeroblob(i * i * i % 20011) END FROM n;"
    numbers 900
    echo "INSERT INTO note SELECT replace(hex(zeroblob(i)), '00', 'a') FROM n;"
}

# A row of the schema that a page of 512 or 1024 bytes doesn't keep whole.
long_schema() {
    echo "CREATE TABLE wide(a INT, $(printf '%01200d' 0 | tr 0 w) TEXT) STRICT;"
    numbers 1000
    echo "INSERT INTO wide SELECT i, 'row ' || i FROM n;"
}

# Indexes of some levels, of columns that descend, and of texts that go on in overflow pages.
long_indexes() {
    echo "CREATE TABLE item(id INTEGER PRIMARY KEY, name TEXT NOT NULL, qty INT) STRICT;"
    echo "CREATE INDEX by_qty ON item(qty DESC);"
    echo "CREATE UNIQUE INDEX by_name ON item(name, id);"
    numbers 3000
    echo "INSERT INTO item SELECT i, replace(hex(zeroblob(i % 700)), '00', i % 10), nullif(i % 97, 0) FROM n;"
    echo "DELETE FROM item WHERE id % 5 = 1;"
}

# A table without rowids, whose rows go on in overflow pages on interior pages too, and an index of it.
long_rowless() {
    echo "CREATE TABLE pair(a INT, b TEXT, c BLOB, PRIMARY KEY (b, a)) STRICT, WITHOUT ROWID;"
    echo "CREATE INDEX by_c ON pair(c DESC, a);"
    numbers 3000
    echo "INSERT INTO pair SELECT i, 'row ' || i % 97, zeroblob(i % 300) FROM n;"
    echo "DELETE FROM pair WHERE a % 5 = 1;"
}

# distinct FILE INDEX TABLE: how many different values the index's first columns have, for each number of columns.
distinct() {
    columns=
    for column in $(sqlite3 "$1" "SELECT name FROM pragma_index_info('$2') ORDER BY seqno"); do
        columns="$columns${columns:+, }\"$column\""
        printf ' %s' "$(sqlite3 "$1" "SELECT count(*) FROM (SELECT DISTINCT $columns FROM \"$3\")")"
    done
}

# said FILE KIND: what sqlite3 says: a line for each table and index, another for the first columns of
# an index, and how many pages are neither free nor overflow pages.
said() {
    objects="SELECT name, tbl_name, type FROM sqlite_schema ORDER BY type DESC, rowid"
    sqlite3 "$1" "$objects" | while IFS='|' read -r name table type; do
        rows=$(sqlite3 "$1" "SELECT count(*) FROM \"$table\"")
        tree=
        # The path of a page in its tree, as /000/01c/, has a slash more than there are levels above it.
        if test "$words" -eq 4; then
            tree=$(sqlite3 -separator ' ' "$1" "SELECT '', count(*),
                max(length(path) - length(replace(path, '/', ''))) - 1 FROM dbstat
                WHERE name = '$name' AND pagetype <> 'overflow'")
        fi
        echo "$name $rows$tree"
        if test "$type" = index; then
            echo "$name:$(distinct "$1" "$name" "$table")"
        fi
    done
    overflow=0
    if test "$words" -eq 4; then
        overflow=$(sqlite3 "$1" "SELECT count(*) FROM dbstat WHERE pagetype = 'overflow'")
    fi
    case "$words $2" in
    "2 long_"*) ;;
    *) echo "$(($(sqlite3 "$1" "PRAGMA page_count") - $(sqlite3 "$1" "PRAGMA freelist_count") - overflow)) pages" ;;
    esac
}

# found FILE KIND: the same as the check finds it.
found() {
    printf 'counts\t%s\n' "$1" | "$program/out/images" >"$folder/lines" 2>&1
    awk -v words="$words" '{
        line = $1
        for (i = 2; i <= words; i++) line = line " " $i
        print line
        if (NF > 4) {
            line = $1 ":"
            for (i = 5; i <= NF; i++) line = line " " $i
            print line
        }
    }' "$folder/lines"
    case "$words $2" in
    "2 long_"*) ;;
    *) awk '{ pages += $3 } END { print pages + 1 " pages" }' "$folder/lines" ;;
    esac
}

for kind in many_rows several_tables far_rowids deleted_rows no_rows no_tables long_values long_schema long_indexes long_rowless; do
    for size in $(sizes 512 1024 4096 8192 65536); do
        file="$folder/$kind.$size.db"
        { echo "PRAGMA page_size=$size;" && "$kind"; } | sqlite3 -bail "$file" >"$folder/made" 2>&1
        said "$file" "$kind" >"$wanted"
        found "$file" "$kind" >"$answer"
        if ! test -s "$folder/made" && cmp -s "$wanted" "$answer"; then
            pass
        else
            cat "$folder/made"
            fail "$kind, page size $size"
        fi
    done
done

finish
