#!/usr/bin/env python3
"""Times searches of sessions in threads beside one that inserts, and FTS5's: bench/served.py [ROWS]

Mails as in bench/queries.py (100,000 by default), all flushed. 1, 2 and 4 sessions search, and one
more inserts mails, each a commit. fts has them as a script of `serve`, and is timed from the end of
its input to the first byte of its replies, so that the opening, the reading of the script and the
writing of the replies are left out; what a script of one search takes is taken off. How many mails
are inserted is tried until the sessions end at one time. FTS5 has a process for each of them, with
a write-ahead log and synchronous=FULL, and is timed for as long. Each runs on a copy of its own.
Told is the median of three turns by the clock. With --seconds a turn lasts so long, as far as a
script has room. It needs Python 3 with its sqlite3 and Linux, and works below TMPDIR.
"""
import argparse
import fcntl
import itertools
import multiprocessing
import os
import random
import shutil
import sqlite3
import statistics
import subprocess
import sys
import tempfile
import termios
import time

from batches import end, inserts
from queries import MATCH, Fts, as_script_does, asked_of, drawn, found_by, fts5_of, program_named, texts_of, word_of

READERS = (1, 2, 4)
TURNS = 3
TRIES = 8
# A script has at most 100,000 lines, and its replies stand in memory to its end.
MOST_SEARCHES, MOST_INSERTS = 60_000, 15_000
# The session that inserts.
WRITER = 9
FOUND = "SELECT group_concat(rowid, ' ') FROM docs WHERE docs MATCH ?"
# Of each kind the queries in both languages, and the ranks of their words.
KINDS = {
    "a rare word": ("{0}", "{0}", (5_000, 40_000)),
    "+a +b, both frequent": ("+{0} +{1}", "{0} AND {1}", (100, 200)),
    "a phrase of 2 words of half the mails": ('"{0} {1}"', '"{0} {1}"', (1, 60)),
}


def queries_of(kind, count, seed):
    """So many queries of a kind, in both languages."""
    draw, (mine, theirs, ranks) = random.Random(seed), KINDS[kind]
    words = [[word_of(rank) for rank in draw.sample(range(*ranks), 2)] for _ in range(count)]
    return [mine.format(*it) for it in words], [theirs.format(*it) for it in words]


def rates_of(turns):
    """The medians of the searches and of the INSERTs a second."""
    return tuple(statistics.median(it) for it in zip(*turns))


def serve(program, folder, lines):
    """The seconds in which a script is executed on a copy of a database, and the replies."""
    copy = folder + ".copy"
    shutil.rmtree(copy, ignore_errors=True)
    shutil.copytree(folder, copy)
    how = {"stdin": subprocess.PIPE, "stdout": subprocess.PIPE, "env": as_script_does()}
    process = subprocess.Popen([program, copy, "serve"], **how)
    process.stdin.write("".join(lines).encode())
    process.stdin.flush()
    # The database is open where the pipe is empty; no line is executed before its end.
    while unread(process.stdin):
        time.sleep(0.001)
    begun = time.monotonic()
    process.stdin.close()
    first = process.stdout.read(1)
    took = time.monotonic() - begun
    replies = (first + process.stdout.read()).split(b"\n")[:-1]
    process.stdout.close()
    if process.wait() or len(replies) != len(lines) or not all(it.startswith(b"OK ") for it in replies):
        raise SystemExit(f"served with status {process.returncode}, {len(replies)} replies")
    return took, replies


class Served:
    """Scripts that are served, each on a copy of a database."""

    def __init__(self, program, folder, rows, texts, seconds):
        self.program, self.folder, self.rows, self.texts, self.seconds = program, folder, rows, texts, seconds
        self.rest = 0.0
        self.rest = statistics.median(self.time("a rare word", 1, 1, 0)[0] for _ in range(TURNS))

    def script_of(self, kind, readers, searches, count):
        lines = []
        for reader in range(readers):
            lines += [f"{reader + 1}: {MATCH % it}" for it in queries_of(kind, searches, reader)[0]]
        return lines + [f"{WRITER}: {it}" for it in inserts(self.texts[:count], self.rows + 1)]

    def time(self, kind, readers, searches, count):
        """The seconds that a script takes, and behind how many new commits each search of a session was made."""
        lines = self.script_of(kind, readers, searches, count)
        took, replies = serve(self.program, self.folder, lines)
        told = [int(it[: it.index(b":")].split()[-1]) - self.rows for it in replies[: readers * searches]]
        return max(took - self.rest, 1e-6), told

    def balanced(self, kind, readers):
        """How many searches of a session and how many INSERTs take so long, and end at one time."""
        searches, count = 20, 20
        for _ in range(TRIES):
            took, told = self.time(kind, readers, searches, count)
            inserted = beside(told, count)
            longer = min(self.seconds / took, MOST_SEARCHES / readers / searches, MOST_INSERTS / count / inserted)
            if 0.9 < inserted < 1.1 and longer < 1.2:
                break
            searches, count = max(1, int(searches * longer)), max(1, int(count * inserted * longer))
        return searches, count

    def rates(self, kind, readers):
        searches, count = self.balanced(kind, readers)
        turns = [self.time(kind, readers, searches, count) for _ in range(TURNS)]
        shares = [beside(told, count) for _, told in turns]
        if not 0.8 < statistics.median(shares) < 1.25:
            print(f"{kind}, {readers}: the sessions do not end at one time: {shares}", file=sys.stderr)
        return rates_of([(readers * searches / took, count / took) for took, _ in turns])


def beside(told, count):
    """How many times as many INSERTs would have ended with the searches, which tell how many were made before each."""
    behind = sum(it == count for it in told)
    return len(told) / max(len(told) - behind, 1) if behind > 1 else max(max(told), 1) / count


def unread(pipe):
    """How many bytes of a pipe its other end has not read yet."""
    return int.from_bytes(fcntl.ioctl(pipe, termios.FIONREAD, bytes(4)), sys.byteorder)


class Fts5:
    """Processes with a connection each, on a copy of a database."""

    def __init__(self, folder, rows, texts, seconds):
        self.file, self.rows, self.texts, self.seconds = os.path.join(folder, "fts5"), rows, texts, seconds

    def rates(self, kind, readers):
        return rates_of([self.turn(kind, readers) for _ in range(TURNS)])

    def turn(self, kind, readers):
        copy = self.file + ".copy"
        for name in (copy, copy + "-wal", copy + "-shm"):
            if os.path.exists(name):
                os.remove(name)
        shutil.copy(self.file, copy)
        base = sqlite3.connect(copy)
        base.execute("PRAGMA journal_mode=WAL")
        base.close()
        start, counts = multiprocessing.Barrier(readers + 1), multiprocessing.Queue()
        rows = [(self.rows + 1 + place, " ".join(text)) for place, text in enumerate(self.texts)]
        works = [("searches", FOUND, [(it,) for it in queries_of(kind, 1_000, reader)[1]]) for reader in range(readers)]
        works.append(("inserts", "INSERT INTO docs (rowid, body) VALUES (?, ?)", rows))
        processes = [multiprocessing.Process(target=work, args=(copy, start, counts, self.seconds, *it)) for it in works]
        for it in processes:
            it.start()
        told = [counts.get() for _ in processes]
        for it in processes:
            it.join()
        return tuple(sum(rate for name, rate in told if name == wanted) for wanted in ("searches", "inserts"))


def work(file, start, counts, seconds, name, statement, rows):
    """Makes one statement after another, each a transaction, and tells how many a second."""
    base = sqlite3.connect(file, isolation_level=None, timeout=60)
    base.execute("PRAGMA synchronous=FULL")
    start.wait()
    begun, count = time.monotonic(), 0
    while (took := time.monotonic() - begun) < seconds:
        if name == "inserts" and count == len(rows):
            break
        base.execute(statement, rows[count % len(rows)]).fetchone()
        count += 1
    counts.put((name, count / took))


def filled(program, folder, texts):
    """Makes both databases, which have to find the same."""
    fts = Fts(program, os.path.join(folder, "db"))
    fts.ask(inserts(texts, 1))
    fts.ask(["SYNC\n"])
    base = fts5_of(folder, texts)
    for kind in KINDS:
        mine, theirs = queries_of(kind, 10, 0)
        found = [found_by(it) for it in fts.ask([MATCH % it for it in mine])[0]]
        if found != asked_of(base, theirs)[0]:
            raise SystemExit(f"{kind}: the two find other rows")
    base.close()
    end(fts)


def main():
    parser = argparse.ArgumentParser(description="Times sessions that search beside one that inserts.")
    parser.add_argument("rows", nargs="?", type=int, default=100_000)
    parser.add_argument("--seconds", type=float, default=2.0, help="how long a turn lasts")
    parser.add_argument("--program", type=program_named, default="")
    words = parser.parse_args()
    texts = texts_of(words.rows)
    more = list(itertools.islice(drawn(words.rows + MOST_INSERTS), words.rows, None))
    with tempfile.TemporaryDirectory() as folder:
        filled(words.program, folder, texts)
        served = Served(words.program, os.path.join(folder, "db"), words.rows, more, words.seconds)
        fts5 = Fts5(folder, words.rows, more, words.seconds)
        print("| Search | Readers | fts: searches, INSERTs a second | FTS5: searches, INSERTs a second |\n|---|---|---|---|")
        ratios = []
        for kind in KINDS:
            rates = [(served.rates(kind, readers), fts5.rates(kind, readers)) for readers in READERS]
            for readers, (mine, theirs) in zip(READERS, rates):
                told = " | ".join(f"{searches:,.0f}, {count:,.0f}" for searches, count in (mine, theirs))
                print(f"| {kind} | {readers} | {told} |", flush=True)
            mine, theirs = (rates[-1][place][0] / rates[0][place][0] for place in (0, 1))
            told = f"{READERS[-1]} readers search {mine:.1f} times as often as {READERS[0]}"
            ratios.append(f"{kind}: {told}, those of FTS5 {theirs:.1f} times")
    print("\n".join(ratios))
    print(f"load: {os.getloadavg()[0]:.1f} on {os.cpu_count()} processors", file=sys.stderr)


if __name__ == "__main__":
    main()
