#!/bin/sh
# Loads the texts of a folder, a row a file of its path and its text, each row a commit, and searches them; and the same by
# SQLite's FTS5 with a transaction a row and synchronous=FULL: bench/real.sh [FOLDER]
# The folder is only read; without one it is /usr/share/doc. Files that are no texts are left out, those packed by gzip are
# unpacked, and of each at most 60,000 bytes are taken. It needs sqlite3, python3 and GNU time. What it makes lies below
# TMPDIR and is removed again.
top=$(CDPATH='' cd -- "$(dirname -- "$0")/.." && pwd) || exit 1
texts=${1:-/usr/share/doc}
folder=$(mktemp -d) || exit 1
trap 'rm -rf "$folder"' EXIT

# The texts as a table.
table() {
    python3 - "$texts" <<'END'
import csv, gzip, os, sys
writer = csv.writer(sys.stdout, lineterminator="\n")
writer.writerow(["path", "text"])
for folder, folders, names in os.walk(sys.argv[1]):
    folders.sort()
    for name in sorted(names):
        path = os.path.join(folder, name)
        if not os.path.isfile(path) or os.path.islink(path):
            continue
        try:
            with (gzip.open if name.endswith(".gz") else open)(path, "rb") as file:
                text = file.read(60000)
        except OSError:
            continue
        if text and b"\0" not in text:
            writer.writerow([os.path.relpath(path, sys.argv[1]), text.decode("latin-1")])
END
}

# Words of the texts, one for each search, the same in each run.
words() {
    grep -oE '\b[a-z]{4,12}\b' "$folder/script" | awk 'BEGIN { srand(3) } rand() < 0.001' | head -n 1000
}

# Runs a command with a standard input: its seconds, and the most memory that it held.
timed() {
    what=$1 input=$2
    shift 2
    /usr/bin/time -f "$what: %e s, at most %M kB" "$@" <"$input" >"$folder/out" 2>"$folder/err"
    tail -n 1 "$folder/err"
}

table >"$folder/table"
"$top/tools/csv-to-script" --columns path,text "$folder/table" >"$folder/script" 2>"$folder/told"
words >"$folder/words"
echo "$(wc -l <"$folder/script") rows, $(wc -c <"$folder/script") bytes, $(wc -l <"$folder/told") told by the converter"
sed "s/.*/SELECT FTS_DOC_ID FROM docs WHERE MATCH (path, text) AGAINST ('&' IN BOOLEAN MODE)/" "$folder/words" >"$folder/searches"
head -n 1 "$folder/searches" >"$folder/one"
"$top/fts" "$folder/db" create --columns path,text >/dev/null || exit 1

timed "fts, load" "$folder/script" "$top/fts" "$folder/db" run
grep -vc '^OK commit' "$folder/out" | sed 's/^/refused: /'
timed "fts, opening and a search" "$folder/one" "$top/fts" "$folder/db" run
timed "fts, opening and $(wc -l <"$folder/searches") searches" "$folder/searches" "$top/fts" "$folder/db" run
sed 's/.*: //; s/none//' "$folder/out" | wc -w | sed 's/$/ ids found/'
du -sk "$folder/db" | cut -f 1 | sed 's/$/ kB on the disk/'

{ echo 'PRAGMA synchronous=FULL;'; sed 's/^INSERT INTO docs (id, /INSERT INTO docs (rowid, /; s/$/;/' "$folder/script"; } >"$folder/script5"
sed "s/.*/SELECT rowid FROM docs WHERE docs MATCH '&';/" "$folder/words" >"$folder/searches5"
head -n 1 "$folder/searches5" >"$folder/one5"
sqlite3 "$folder/fts5" 'CREATE VIRTUAL TABLE docs USING fts5(path, text)' || exit 1
timed "FTS5, load" "$folder/script5" sqlite3 "$folder/fts5"
timed "FTS5, opening and a search" "$folder/one5" sqlite3 "$folder/fts5"
timed "FTS5, opening and $(wc -l <"$folder/searches5") searches" "$folder/searches5" sqlite3 "$folder/fts5"
wc -l <"$folder/out" | sed 's/$/ ids found/'
du -sk "$folder/fts5" | cut -f 1 | sed 's/$/ kB on the disk/'
