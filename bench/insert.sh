#!/bin/sh
# Times COUNT INSERT lines of 20 words each, and opening the database again, for each count: bench/insert.sh [COUNT ..]
# The folder is made below TMPDIR and removed again. The time of the inserts is mostly that of the disk's syncs; on a
# file system in memory it is the program's own.
top=$(CDPATH='' cd -- "$(dirname -- "$0")/.." && pwd) || exit 1
folder=$(mktemp -d) || exit 1
trap 'rm -rf "$folder"' EXIT

script() {
    awk -v count="$1" 'BEGIN {
        srand(1)
        for (i = 1; i <= count; i++) {
            text = ""
            for (w = 1; w <= 20; w++) text = text (w > 1 ? " " : "") sprintf("w%04d", int(rand() * 3000))
            printf "INSERT INTO docs (id, body) VALUES (%d, \047%s\047)\n", i, text
        }
    }'
}

for count in "${@:-10000}"; do
    rm -rf "$folder/db"
    script "$count" >"$folder/script"
    "$top/fts" "$folder/db" create --columns body || exit 1
    echo "$count inserts:"
    time -p "$top/fts" "$folder/db" run <"$folder/script" | tail -n 1
    echo "opening, and one search:"
    time -p sh -c "echo \"SELECT FTS_DOC_ID FROM docs WHERE MATCH (body) AGAINST ('w0001' IN BOOLEAN MODE)\" | '$top/fts' '$folder/db' run | wc -c"
done
