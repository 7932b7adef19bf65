#!/usr/bin/env python3
"""Times turns of sessions in threads: bench/turns.py [ROWS]

A database of ROWS mails as in bench/queries.py (4,000 by default) with the default cache, so that
batches of 1,000 mails follow commits. Scripts are served, each on a copy of it, while the kernel
notes when a thread asks for the turn, and when the engine's step in its turn begins and ends. Told
are the steps by kind, their median and the longest, in microseconds: 2,000 searches of one session,
then 10,000 INSERTs of one, each a commit, beside the two workers. A search without an indexed word
asks the index for nothing, so its step tells what a note takes, which is in each of these times.
Then how long such a commit takes from asking for the turn to the end of its step: of all, and of
those during whose wait a batch was made.

Last, with nothing noted, 64,000 searches without an indexed word, by 1, 2, 4 and 16 sessions at
once: the time of all by the clock, for each, the median of five runs. Each is a turn for nothing,
and the reading of its line and the making of its reply, for which no session waits.

A thread that loses its processor in a turn makes that turn longer. It needs root, Linux with
uprobes, nm and readelf, Python 3, and works below TMPDIR.
"""
import argparse
import bisect
import itertools
import os
import random
import statistics
import tempfile

from batches import end, inserts
from installs import noted, noting
from queries import MATCH, Fts, drawn, program_named, word_of
from served import serve

CALLS = {
    "ask": "turn::Turns::take",
    "view": "engine::Engine::view",
    "commit": "engine::Engine::commit",
    "optimize": "engine::Engine::optimize_step",
    "batch": "engine::Engine::sync_batch",
}
STEPS = {"commit": "a commit", "optimize": "a step of OPTIMIZE", "batch": "a batch"}
# Searches by the ranks of their words, as in bench/queries.py.
SEARCHES = {"a rare word": (5_000, 40_000), "a frequent word": (100, 200)}
SEARCHED, INSERTED, TURNS, RUNS = 2_000, 10_000, 64_000, 5
SESSIONS = (1, 2, 4, 16)
# A word below the least length is not indexed.
NOTHING = MATCH % "q"


def turns_of(program, folder, lines):
    """The turns of a script by kinds of steps: when a thread asked for each, and when its step began and ended."""
    with noting(program, CALLS):
        serve(program, folder, lines)
        notes = list(noted())
    turns, asked, begun = {call: [] for call in CALLS}, {}, {}
    for thread, moment, name in notes:
        call = name.removesuffix("_end")
        if name == "ask":
            asked[thread] = moment
        elif name == call:
            begun[thread] = moment
        elif call != "ask":
            # (behind the last session the workers need not ask)
            turns[call].append((asked.get(thread, begun[thread]), begun[thread], moment))
    return turns


def told(name, seconds):
    micros = [it * 1e6 for it in seconds]
    median, longest = statistics.median(micros), max(micros)
    print(f"{name}: {len(micros):,}, the median {median:,.0f} us, the longest {longest:,.0f}", flush=True)


def steps_of(turns):
    return [ended - begun for _, begun, ended in turns]


def beside(turns, others):
    """Of some turns those during whose wait one of the others ended."""
    ends = [ended for _, _, ended in others]
    return [it for it in turns if bisect.bisect(ends, it[0]) < bisect.bisect(ends, it[1])]


def tell_steps(program, folder, rows):
    """Tells the steps by kind, and how long commits wait."""
    draw = random.Random(1)
    lines = [NOTHING] * SEARCHED
    told("a search without an indexed word", steps_of(turns_of(program, folder, lines)["view"]))
    for name, ranks in SEARCHES.items():
        lines = [MATCH % word_of(draw.randrange(*ranks)) for _ in range(SEARCHED)]
        told(name, steps_of(turns_of(program, folder, lines)["view"]))
    texts = list(itertools.islice(drawn(rows + INSERTED), rows, None))
    turns = turns_of(program, folder, inserts(texts, rows + 1))
    for call, name in STEPS.items():
        told(name, steps_of(turns[call]))
    for name, some in (("all", turns["commit"]), ("beside a batch", beside(turns["commit"], turns["batch"]))):
        told(f"from asking to the end of a commit, {name}", [ended - asked for asked, _, ended in some])


def took(program, folder, sessions, count):
    """The seconds that so many searches of sessions take that ask the index for nothing."""
    lines = [f"{place % sessions + 1}: {NOTHING}" for place in range(count)]
    return statistics.median(serve(program, folder, lines)[0] for _ in range(RUNS))


def main():
    parser = argparse.ArgumentParser(description="Times turns of sessions in threads.")
    parser.add_argument("rows", nargs="?", type=int, default=4_000)
    parser.add_argument("--program", type=program_named, default="")
    words = parser.parse_args()
    with tempfile.TemporaryDirectory() as room:
        folder = os.path.join(room, "db")
        fts = Fts(words.program, folder)
        fts.ask(inserts(drawn(words.rows), 1))
        end(fts)
        tell_steps(words.program, folder, words.rows)
        rest = took(words.program, folder, 1, 1)
        for sessions in SESSIONS:
            micros = (took(words.program, folder, sessions, TURNS) - rest) / TURNS * 1e6
            print(f"a turn for nothing, of {sessions} sessions: {micros:.1f} us")
    print(f"load: {os.getloadavg()[0]:.1f} on {os.cpu_count()} processors")


if __name__ == "__main__":
    main()
