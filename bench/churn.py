#!/usr/bin/env python3
"""Times changes of a database that has rows already: bench/churn.py [ROWS ..]

Mails as in bench/queries.py, each INSERT a commit, into a database with the default cache. Then changes, of each kind as many
as a twentieth of the rows, but at most 3,000: an INSERT, an UPDATE of a random row and a DELETE of another, in turn. Then rows
die until a tenth has, all is flushed, and OPTIMIZE works until it has nothing to do.
Told is the processor's time of one of each kind, batches that follow it included, that of a word of the pass and how much the
index log grew in it, and that of a search for a word before any change, behind them, with a tenth dead and behind the pass. With
--churn OPTIMIZE stands among the changes too, behind each hundred of each kind. It needs Python 3 and Linux, and works below TMPDIR.
"""
import argparse
import os
import random
import tempfile

from batches import INSERT, end, inserts
from queries import MATCH, Fts, program_named, texts_of, word_of

UPDATE = "UPDATE docs SET body = '%s' WHERE id = %d\n"
DELETE = "DELETE FROM docs WHERE id = %d\n"
OPTIMIZE = "OPTIMIZE TABLE docs\n"
WORDS = {"a rare word": (5_000, 40_000), "a word of the middle": (300, 1_500), "a frequent word": (100, 200)}
LEAST_OF = 40


def searches(fts):
    """The least time of some turns, of each kind of word."""
    told = {}
    for name, (low, high) in WORDS.items():
        draw = random.Random(3)
        lines = [MATCH % word_of(draw.randrange(low, high)) for _ in range(40)]
        told[name] = min(fts.ask(lines)[1] for _ in range(LEAST_OF))
    return told


def optimized(fts):
    """How many words an OPTIMIZE worked on, the microseconds that it took, and whether there was nothing to do."""
    replies, took = fts.ask([OPTIMIZE])
    reply = replies[0].decode().split()
    if reply[2] == "nothing":
        return 0, took, True
    return int(reply[2]), took, False


def whole_pass(fts):
    """The words of all passes until nothing is left to do, and the microseconds that these OPTIMIZEs took.

    A pass takes out what had died when it began, so a second one follows where more has died since.
    """
    words, spent, is_done = 0, 0, False
    while not is_done:
        more, took, is_done = optimized(fts)
        words, spent = words + more, spent + took
    return words, spent


def changes(fts, texts, rows, count, is_churn):
    """The mean times of an INSERT, an UPDATE and a DELETE, made in turn, hundred by hundred, and of a word of OPTIMIZE."""
    draw = random.Random(4)
    keys = list(range(1, rows + 1))
    draw.shuffle(keys)
    spent = {"INSERT": 0, "UPDATE": 0, "DELETE": 0}
    words, passing = 0, 0
    for first in range(0, count, 100):
        kinds = {
            "INSERT": [INSERT % (rows + first + k + 1, " ".join(texts[first + k])) for k in range(100)],
            "UPDATE": [UPDATE % (" ".join(texts[-first - k - 1]), keys[count + first + k]) for k in range(100)],
            "DELETE": [DELETE % keys[first + k] for k in range(100)],
        }
        for kind, lines in kinds.items():
            spent[kind] += fts.ask(lines)[1]
        if is_churn:
            more, took, _ = optimized(fts)
            words, passing = words + more, passing + took
    times = {kind: total / (count / 100) for kind, total in spent.items()}
    if words:
        times["a word of OPTIMIZE"] = passing / words
    return times, keys[2 * count :]


def told(times):
    return ", ".join(f"{name} {took:.0f} us" for name, took in times.items())


def main():
    parser = argparse.ArgumentParser(description="Times changes of rows.")
    parser.add_argument("rows", nargs="*", type=int, default=[10_000])
    parser.add_argument("--program", type=program_named, default="")
    parser.add_argument("--churn", action="store_true", help="with OPTIMIZE among the changes")
    words = parser.parse_args()
    for rows in words.rows:
        texts = texts_of(rows)
        count = min(3_000, rows // 20) // 100 * 100
        with tempfile.TemporaryDirectory() as folder:
            fts = Fts(words.program, f"{folder}/db")
            for first in range(0, rows, 1_000):
                fts.ask(inserts(texts[first : first + 1_000], first + 1))
            fts.ask(["SYNC\n"])
            print(f"{rows:,} mails, before: {told(searches(fts))}", flush=True)
            times, left = changes(fts, texts, rows, count, words.churn)
            print(f"one of {count:,} each: {told(times)}", flush=True)
            print(f"behind them: {told(searches(fts))}", flush=True)
            dying = left[: rows // 10 - 2 * count]
            if dying:
                fts.ask([DELETE % key for key in dying])
            fts.ask(["SYNC\n"])
            print(f"a tenth dead, all flushed: {told(searches(fts))}", flush=True)
            index = f"{folder}/db/index.log"
            before = os.path.getsize(index)
            many, spent = whole_pass(fts)
            grown = (os.path.getsize(index) - before) / 1e6
            print(f"a pass of {many:,} words: {spent / 1e3:.0f} ms, {spent / max(many, 1):.1f} us a word,", end=" ")
            print(f"{grown:.1f} MB behind {before / 1e6:.1f} MB of the index log", flush=True)
            print(f"behind the pass: {told(searches(fts))}", flush=True)
            end(fts)


if __name__ == "__main__":
    main()
