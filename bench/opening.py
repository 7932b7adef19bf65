#!/usr/bin/env python3
"""Times openings, from the index log and without it: bench/opening.py [ROWS ..]

Mails as in bench/queries.py, each INSERT a commit, and all flushed. Then the program is started,
asked for one word, and ends: on the database as it is; and on one with the same rows log whose
index log has no entry, so that all words are made anew. Told is the least time of three turns, the
processor's time, and the most memory that was held. Beside them FTS5, in this process, opens its
file of the same texts and is asked for the word. It needs Python 3 with its sqlite3 and Linux, and
works below TMPDIR.
"""
import argparse
import os
import shutil
import sqlite3
import subprocess
import tempfile
import time

from batches import end, held, inserts
from queries import MATCH, Fts, as_script_does, program_named, texts_of, word_of

WORD = word_of(20_000)
TURNS = 3


def fill(program, folder, texts):
    """Makes the database; the time of an INSERT in microseconds."""
    fts = Fts(program, folder)
    took = fts.ask(inserts(texts, 1))[1]
    fts.ask(["SYNC\n"])
    end(fts)
    return took


def opened(program, folder):
    """The least time of a start that is asked one thing, its processor's time, and its memory."""
    turns = []
    for _ in range(TURNS):
        began = time.monotonic()
        how = {"stdin": subprocess.PIPE, "stdout": subprocess.PIPE, "env": as_script_does()}
        fts = subprocess.Popen([program, folder, "run"], **how)
        fts.stdin.write((MATCH % WORD).encode("ascii"))
        fts.stdin.flush()
        reply = fts.stdout.readline()
        memory = held(fts.pid)
        fts.stdin.close()
        _, status, used = os.wait4(fts.pid, 0)
        took = time.monotonic() - began
        if status != 0 or not reply.startswith(b"OK as of "):
            raise SystemExit(f"the program answered {reply!r}, with status {status}")
        turns.append((took, used.ru_utime + used.ru_stime, memory, reply))
    return min(turns)


def by_fts5(folder, texts):
    file = f"{folder}/fts5.db"
    made = sqlite3.connect(file)
    made.execute("CREATE VIRTUAL TABLE docs USING fts5(body)")
    made.executemany("INSERT INTO docs (body) VALUES (?)", ((" ".join(it),) for it in texts))
    made.commit()
    made.close()
    began = time.monotonic()
    again = sqlite3.connect(file)
    again.execute("SELECT rowid FROM docs WHERE docs MATCH ?", (WORD,)).fetchall()
    return time.monotonic() - began


def without_entries(folder, other):
    """The same rows log, beside an index log as `create` leaves it."""
    os.mkdir(other)
    shutil.copy(f"{folder}/rows.log", other)
    with open(f"{other}/index.log", "wb") as log:
        log.write(b"FTSINDX1\0")


def main():
    parser = argparse.ArgumentParser(description="Times openings, with and without an index log.")
    parser.add_argument("rows", nargs="*", type=int, default=[10_000])
    parser.add_argument("--program", type=program_named, default="")
    words = parser.parse_args()
    for rows in words.rows:
        texts = texts_of(rows)
        size = sum(len(" ".join(text)) for text in texts) / 1e6
        print(f"{rows:,} mails, {size:.0f} MB of texts, load {os.getloadavg()[0]:.1f}", flush=True)
        with tempfile.TemporaryDirectory() as folder:
            kept = f"{folder}/kept"
            print(f"an INSERT: {fill(words.program, kept, texts):.0f} us", flush=True)
            for log in ["rows", "index"]:
                print(f"{log}.log: {os.path.getsize(f'{kept}/{log}.log') / 1e6:.0f} MB")
            without_entries(kept, f"{folder}/anew")
            found = []
            for name in ["kept", "anew"]:
                took, used, memory, reply = opened(words.program, f"{folder}/{name}")
                found.append(reply)
                print(f"{name}: {took:.2f} s, of the processor {used:.2f} s, {memory:.0f} MB held")
            if found[0] != found[1]:
                raise SystemExit("the two found different rows")
            print(f"FTS5: {by_fts5(folder, texts):.3f} s", flush=True)


if __name__ == "__main__":
    main()
