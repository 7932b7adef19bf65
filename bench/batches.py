#!/usr/bin/env python3
"""Times INSERTs with batches between them, and SYNC: bench/batches.py [ROWS ..]

Mails as in bench/queries.py, each INSERT a commit, a thousand of them into a database with the
default cache, above which batches follow a commit, then the same thousand into one with the largest
cache, and so on, so that both meet the machine as it is at that moment. Before a batch would follow
there, another database with the largest cache begins. Told is the processor's time for one INSERT,
by tenths of the rows, the least of the turns, and the most memory that was held; and how many times
as long an INSERT with its batches takes as one without, the median of the turns and all of them.
Then SYNC, each time of 1,000 mails more, the least of the turns too. It needs Python 3 and Linux,
and works below TMPDIR.
"""
import argparse
import statistics
import tempfile

from queries import Fts, program_named, texts_of

INSERT = "INSERT INTO docs (id, body) VALUES (%d, '%s')\n"
LARGEST = ["--cache-bytes", "80000000"]
# The largest cache holds somewhat more mails.
HELD = 25_000


def held(pid):
    """The most memory that a process held since its program began, in millions of bytes."""
    with open(f"/proc/{pid}/status", encoding="ascii") as it:
        size = next(line.split()[1] for line in it if line.startswith("VmHWM"))
        return int(size) * 1024 / 1e6


def inserts(texts, first):
    return [INSERT % (first + row, " ".join(text)) for row, text in enumerate(texts)]


def end(fts):
    """Ends a session, and tells the most memory that it held."""
    memory = held(fts.process.pid)
    fts.process.stdin.close()
    fts.process.wait()
    return memory


def side_by_side(program, folder, texts):
    """The microseconds of an INSERT of each thousand mails, with batches and without, and the most
    memory that each held."""
    flushing = Fts(program, f"{folder}/flushing")
    times = []
    memory = 0
    for first in range(0, len(texts), 1_000):
        if first % HELD == 0:
            memory = max(memory, end(holding) if first else 0)
            holding = Fts(program, f"{folder}/holding{first}", *LARGEST)
        lines = inserts(texts[first : first + 1_000], first + 1)
        times.append((flushing.ask(lines)[1], holding.ask(lines)[1]))
    return times, (end(flushing), max(memory, end(holding)))


def syncs(program, folder, texts):
    fts = Fts(program, folder, *LARGEST)
    for first in range(0, len(texts), 1_000):
        fts.ask(inserts(texts[first : first + 1_000], first + 1))
        yield fts.ask(["SYNC\n"])[1] / 1e3
    end(fts)


def least(turns):
    """The least of each place of the turns' times."""
    return [min(times) for times in zip(*turns)]


def tenths(times):
    """The means of the tenths of some times."""
    size = max(1, len(times) // 10)
    return [statistics.mean(times[k : k + size]) for k in range(0, len(times), size)]


def told(times):
    return " ".join(f"{took:.0f}" for took in times)


def main():
    parser = argparse.ArgumentParser(description="Times INSERTs with batches, and SYNC.")
    parser.add_argument("rows", nargs="*", type=int, default=[10_000])
    parser.add_argument("--turns", type=int, default=3)
    parser.add_argument("--program", type=program_named, default="")
    words = parser.parse_args()
    for rows in words.rows:
        texts = texts_of(rows)
        size = sum(len(" ".join(text)) for text in texts) / 1e6
        print(f"{rows:,} mails, {size:.0f} MB of texts, the least of {words.turns} turns")
        turns = []
        flushes = []
        for _ in range(words.turns):
            with tempfile.TemporaryDirectory() as folder:
                turns.append(side_by_side(words.program, folder, texts))
            with tempfile.TemporaryDirectory() as folder:
                flushes.append(list(syncs(words.program, f"{folder}/db", texts[:10_000])))
        for place, name in enumerate(("the default cache", "the largest cache")):
            memory = max(most[place] for _, most in turns)
            times = least(tenths([pair[place] for pair in times]) for times, _ in turns)
            print(f"an INSERT, {name}: {told(times)} us, {memory:.0f} MB held", flush=True)
        ratios = sorted(sum(a for a, _ in it) / sum(b for _, b in it) for it, _ in turns)
        each = " ".join(f"{ratio:.2f}" for ratio in ratios)
        print(f"with batches {statistics.median(ratios):.2f} times as long: {each}")
        print(f"SYNC, each of 1,000 mails: {told(least(flushes))} ms", flush=True)


if __name__ == "__main__":
    main()
