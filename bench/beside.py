#!/usr/bin/env python3
"""Times several built programs on the same scripts, in turns: bench/beside.py ROWS PROGRAM ..

A program is the file that `./fts which` tells in a tree, or what was copied from there; in a tree of an earlier commit it is
crates/fts/out/fts, which `./fts help run` builds. For each it tells the processor's time of an INSERT, a commit each, of short texts and of mails of 200 words, with the
default cache and, where the program takes it, with the largest, behind which no batch follows a commit; that of an opening; and that of
a search for a word that 20 rows have. Each is of the least times of five turns, in which the programs follow one another. With valgrind
it counts the instructions of an INSERT too, from the difference of two scripts, which other work beside it does not change.

It works below TMPDIR, and prints the load at its end.
"""
import os
import random
import resource
import shutil
import subprocess
import sys
import tempfile

TURNS = 5


def words_of(count):
    """Returns so many made-up words, the first ones short."""
    letters, vowels = "bcdfghjklmnprstvwyz", "aeiou"
    words = []
    for rank in range(1, count + 1):
        text = ""
        while rank or len(text) < 4:
            text += letters[rank % 19] + vowels[rank // 19 % 5]
            rank //= 95
        words.append(text)
    return words


def insert(key, text):
    return f"INSERT INTO docs (id, body) VALUES ({key}, '{text}')\n"


def short_texts(rows):
    """Returns INSERTs of 20 words each, of 3,000 and one that 20 rows have."""
    draw = random.Random(1)
    texts = (
        " ".join([f"thread{row // 20}"] + [f"w{draw.randrange(3000):04}" for _ in range(19)])
        for row in range(rows)
    )
    return "".join(insert(key, text) for key, text in enumerate(texts, 1))


def mails(rows):
    """Returns INSERTs of 200 words each, so that each doubling of a word's rank is as likely as any other."""
    draw, words = random.Random(1), words_of(50_000)
    texts = (
        " ".join([f"thread{row // 20}"] + [words[int(50_000 ** draw.random()) - 1] for _ in range(199)])
        for row in range(rows)
    )
    return "".join(insert(key, text) for key, text in enumerate(texts, 1))


def searches(rows, count):
    """Returns searches for the words that 20 rows have."""
    draw = random.Random(2)
    front, back = "SELECT FTS_DOC_ID FROM docs WHERE MATCH (body) AGAINST ('", "' IN BOOLEAN MODE)\n"
    return "".join(f"{front}thread{draw.randrange(rows // 20)}{back}" for _ in range(count))


def spent(words, script):
    """Returns the processor's time of a program on a script, in seconds."""
    before = resource.getrusage(resource.RUSAGE_CHILDREN)
    subprocess.run(words, input=script.encode(), stdout=subprocess.DEVNULL, check=True)
    after = resource.getrusage(resource.RUSAGE_CHILDREN)
    return after.ru_utime + after.ru_stime - before.ru_utime - before.ru_stime


def create(program, folder, options):
    shutil.rmtree(folder, ignore_errors=True)
    words = [program, folder, "create", "--columns", "body", *options]
    subprocess.run(words, stdout=subprocess.DEVNULL, check=True)


def times(program, folder, script, rows, options):
    """Returns what the INSERTs, an opening, and an opening with 10,000 searches take, in seconds."""
    create(program, folder, options)
    inserts = spent([program, folder, "run"], script)
    opening = spent([program, folder, "run"], "")
    found = spent([program, folder, "run"], searches(rows, 10_000))
    return inserts, opening, found


def counted(program, folder, script, options):
    """Returns the instructions of a run of a script on a new database."""
    create(program, folder, options)
    words = ["valgrind", "--tool=callgrind", "--callgrind-out-file=/dev/null", program, folder, "run"]
    run = subprocess.run(words, input=script.encode(), stdout=subprocess.DEVNULL, stderr=subprocess.PIPE, check=True)
    return int(run.stderr.decode().split("Collected : ")[1].split()[0])


def tell(kind, rows, programs, results):
    for program in programs:
        inserts, opening, found = (min(turn[place] for turn in results[program]) for place in range(3))
        told = f"INSERT {inserts / rows * 1e6:.1f} us, opening {opening:.3f} s, search {(found - opening) * 100:.1f} us"
        print(f"{kind}, {program}: {told}")


def main():
    if len(sys.argv) < 3:
        sys.exit(__doc__.split("\n")[0])
    rows, programs = int(sys.argv[1]), [os.path.abspath(it) for it in sys.argv[2:]]
    largest = ["--cache-bytes", "80000000"]
    with tempfile.TemporaryDirectory() as top:
        folder = os.path.join(top, "db")
        for kind, script in ("short texts", short_texts(rows)), ("mails", mails(rows)):
            for cache, options in ("default cache", []), ("largest cache", largest):
                results = {program: [] for program in programs}
                for _ in range(TURNS):
                    for program in programs:
                        results[program].append(times(program, folder, script, rows, options))
                tell(f"{kind}, {cache}", rows, programs, results)
        if shutil.which("valgrind"):
            for kind, make in ("short texts", short_texts), ("mails", mails):
                for program in programs:
                    few, more = (counted(program, folder, make(count), largest) for count in (500, 1_500))
                    print(f"{kind}, {program}: {(more - few) // 1000} instructions an INSERT")
    print("load", *os.getloadavg())


if __name__ == "__main__":
    main()
