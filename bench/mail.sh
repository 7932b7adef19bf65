#!/bin/sh
# Times INSERTs of mail-sized texts, each a commit, and then 10,000 searches for a word that 20 rows have; and the same by
# SQLite's FTS5 with a transaction a row and synchronous=FULL: bench/mail.sh [ROWS ..]
# A text has 200 words, the common ones often, as in prose. The time of the INSERTs is told for each tenth of them.
# It needs sqlite3 and the tools of GNU. The folder is made below TMPDIR and removed again.
top=$(CDPATH='' cd -- "$(dirname -- "$0")/.." && pwd) || exit 1
folder=$(mktemp -d) || exit 1
trap 'rm -rf "$folder"' EXIT

# INSERTs with this name of the key's column. After each, where it is named, comes this line.
inserts() {
    awk -v rows="$1" -v key="$2" -v behind="$3" '
    function word(rank,   text) {
        for (text = ""; rank > 0 || length(text) < 4; rank = int(rank / 95))
            text = text substr("bcdfghjklmnprstvwyz", rank % 19 + 1, 1) substr("aeiou", int(rank / 19) % 5 + 1, 1)
        return text
    }
    BEGIN {
        srand(1)
        most = log(50000)
        for (rank = 1; rank <= 50000; rank++) words[rank] = word(rank)
        for (row = 1; row <= rows; row++) {
            text = "thread" int((row - 1) / 20)
            for (w = 1; w < 200; w++) text = text " " words[int(exp(rand() * most))]
            printf "INSERT INTO docs (%s, body) VALUES (%d, \047%s\047);\n%s", key, row, text, behind
        }
    }'
}

# Searches, with what stands before the word and behind it.
searches() {
    awk -v rows="$1" -v front="$2" -v back="$3" 'BEGIN {
        srand(2)
        for (s = 1; s <= 10000; s++) print front "\047thread" int(rand() * rows / 20) "\047" back
    }'
}

# Reads one line for each INSERT and then what the searches found, and tells the time of each kind of statement.
tell() {
    tenth=$(($1 / 10))
    begun=$(date +%s%N)
    printf 'an INSERT:'
    for part in 1 2 3 4 5 6 7 8 9 10; do
        sed -u "${tenth}q" >/dev/null
        now=$(date +%s%N)
        printf ' %d' $(((now - begun) / tenth / 1000))
        begun=$now
    done
    echo ' us'
    found=$(sed 's/.*: //' | wc -w)
    echo "a search: $((($(date +%s%N) - begun) / 10000000)) us, $found ids found in all"
}

for rows in "${@:-10000}"; do
    rm -rf "$folder"/*
    { inserts "$rows" id; searches "$rows" "SELECT FTS_DOC_ID FROM docs WHERE MATCH (body) AGAINST (" " IN BOOLEAN MODE)"; } >"$folder/script"
    "$top/fts" "$folder/db" create --columns body >/dev/null || exit 1
    echo "fts, $rows rows"
    "$top/fts" "$folder/db" run <"$folder/script" | tell "$rows"
    begun=$(date +%s%N)
    "$top/fts" "$folder/db" run </dev/null
    echo "opening: $((($(date +%s%N) - begun) / 1000000)) ms"

    { echo 'PRAGMA synchronous=FULL;'; inserts "$rows" rowid 'SELECT 1;
'; searches "$rows" "SELECT rowid FROM docs WHERE docs MATCH " ";"; } >"$folder/script"
    sqlite3 "$folder/fts5" 'CREATE VIRTUAL TABLE docs USING fts5(body)' || exit 1
    echo "FTS5, $rows rows"
    sqlite3 "$folder/fts5" <"$folder/script" | tell "$rows"
done
