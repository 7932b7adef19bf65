#!/usr/bin/env python3
"""Times searches of each kind, beside FTS5: bench/queries.py [ROWS] [--sync] [--svg FILE]

ROWS mails of 200 words each (100,000 by default), the common words often, as in prose. Each kind
is asked 40 times, and both find the same rows. fts reads a statement from a pipe and writes the
ids into another; FTS5, in this process, makes one text of them (group_concat). Told is the
processor's time for one search, the least of five turns. It needs Python 3 with its sqlite3 and
Linux, and works below TMPDIR. With --sync all is flushed before the searches. With --svg it draws
the times as bars.
"""
import argparse
import os
import random
import sqlite3
import subprocess
import sys
import tempfile
import threading
import time
from math import log10

TOP = os.path.dirname(os.path.dirname(os.path.realpath(__file__)))
WORDS = 50_000
ASKED = 40
MATCH = "SELECT FTS_DOC_ID FROM docs WHERE MATCH (body) AGAINST ('%s' IN BOOLEAN MODE)\n"


def word_of(rank):
    text = ""
    while rank > 0 or len(text) < 4:
        text += "bcdfghjklmnprstvwyz"[rank % 19] + "aeiou"[rank // 19 % 5]
        rank //= 95
    return text


def drawn(rows):
    """Texts in which each doubling of a word's rank is as likely as any other, one by one."""
    draw = random.Random(1)
    vocabulary = [word_of(rank) for rank in range(1, WORDS + 1)]
    weights = [1 / rank for rank in range(1, WORDS + 1)]
    for rank in range(1, WORDS):
        weights[rank] += weights[rank - 1]
    for _ in range(rows):
        yield draw.choices(vocabulary, cum_weights=weights, k=200)


def texts_of(rows):
    return list(drawn(rows))


def kinds_of(texts):
    """For each kind of search its queries, in both languages."""
    draw = random.Random(2)
    ranks = {word_of(rank): rank for rank in range(1, WORDS + 1)}

    def some(low, high):
        return word_of(draw.randrange(low, high))

    def common():
        return some(1, 60)

    def frequent():
        return some(100, 200)

    def middle():
        return some(300, 1_500)

    def rare():
        return some(5_000, 40_000)

    def together(count, least):
        """Words that stand together in a text, none more common than of this rank."""
        while True:
            text = draw.choice(texts)
            place = draw.randrange(len(text) - count)
            words = text[place : place + count]
            if len(set(words)) == count and all(ranks[word] >= least for word in words):
                return words

    def pair(mine, theirs, *makers):
        made = [make() for make in makers]
        return mine.format(*made), theirs.format(*made)

    def phrase(count, mine, theirs, least=1):
        words = " ".join(together(count, least))
        return mine.format(words), theirs.format(words)

    return {
        "a rare word": lambda: pair("{}", "{}", rare),
        "a word of the middle": lambda: pair("{}", "{}", middle),
        "a frequent word": lambda: pair("{}", "{}", frequent),
        "a word of half the mails": lambda: pair("{}", "{}", common),
        "+a +b, both frequent": lambda: pair("+{} +{}", "{} AND {}", frequent, frequent),
        "+a +b, frequent and rare": lambda: pair("+{} +{}", "{} AND {}", frequent, rare),
        "+a +b, both of half": lambda: pair("+{} +{}", "{} AND {}", common, common),
        "+a -b, frequent and middle": lambda: pair("+{} -{}", "{} NOT {}", frequent, middle),
        "+(a b) -c, of the middle": lambda: pair(
            "+({} {}) -{}", "({} OR {}) NOT {}", middle, middle, middle
        ),
        "a prefix of 4 letters": lambda: pair("{}*", "{}*", lambda: middle()[:4]),
        "a prefix of 2 letters": lambda: pair("{}*", "{}*", lambda: rare()[:2]),
        "a phrase of 2 words": lambda: phrase(2, '"{}"', '"{}"'),
        "a phrase of 3 words": lambda: phrase(3, '"{}"', '"{}"'),
        "2 words at a distance of 5": lambda: phrase(2, '"{}" @5', "NEAR({}, 4)"),
        "a phrase of 2, none of half": lambda: phrase(2, '"{}"', '"{}"', 100),
        "2 at a distance, none of half": lambda: phrase(2, '"{}" @5', "NEAR({}, 4)", 100),
    }


def program_named(path):
    """The program of this path, or else the one that ./fts runs, which builds it where there is none."""
    script = os.path.join(TOP, "fts")
    return path or subprocess.run([script, "which"], check=True, capture_output=True, text=True).stdout.strip()


def as_script_does():
    """What ./fts sets for the program, unless it is set."""
    return {"GLIBC_TUNABLES": "glibc.malloc.hugetlb=1", **os.environ}


class Fts:
    def __init__(self, program, folder, *options):
        create = [program, folder, "create", "--columns", "body", *options]
        subprocess.run(create, check=True, stdout=subprocess.DEVNULL)
        how = {"stdin": subprocess.PIPE, "stdout": subprocess.PIPE, "env": as_script_does()}
        self.process = subprocess.Popen([program, folder, "run"], **how)

    def worked(self):
        """The nanoseconds that its processor worked."""
        with open(f"/proc/{self.process.pid}/schedstat", encoding="ascii") as it:
            return int(it.read().split()[0])

    def ask(self, lines):
        """The replies to lines, and the microseconds that one took."""
        data = "".join(lines).encode()

        def write():
            self.process.stdin.write(data)
            self.process.stdin.flush()

        begun = self.worked()
        writer = threading.Thread(target=write)
        writer.start()
        replies = [self.process.stdout.readline() for _ in lines]
        writer.join()
        return replies, (self.worked() - begun) / len(lines) / 1e3


def found_by(reply):
    ids = reply.decode().partition(": ")[2].split()
    return 0 if ids == ["none"] else len(ids)


def fts5_of(folder, texts):
    base = sqlite3.connect(os.path.join(folder, "fts5"))
    base.execute("CREATE VIRTUAL TABLE docs USING fts5(body)")
    rows = ((row + 1, " ".join(text)) for row, text in enumerate(texts))
    base.executemany("INSERT INTO docs (rowid, body) VALUES (?, ?)", rows)
    base.commit()
    return base


def asked_of(base, queries):
    """How many rows queries find, and the microseconds that one took."""
    begun = time.thread_time_ns()
    ids = "SELECT group_concat(rowid, ' ') FROM docs WHERE docs MATCH ?"
    texts = [base.execute(ids, (it,)).fetchone()[0] for it in queries]
    took = (time.thread_time_ns() - begun) / len(queries) / 1e3
    return [len((it or "").split()) for it in texts], took


def measured(program, texts, folder, sync):
    fts = Fts(program, os.path.join(folder, "db"))
    insert = "INSERT INTO docs (id, body) VALUES (%d, '%s')\n"
    _, took = fts.ask([insert % (row + 1, " ".join(text)) for row, text in enumerate(texts)])
    print(f"an INSERT: {took:.0f} us", file=sys.stderr)
    if sync:
        _, took = fts.ask(["SYNC\n"])
        print(f"SYNC: {took / 1e3:.0f} ms", file=sys.stderr)
    base = fts5_of(folder, texts)
    for kind, make in kinds_of(texts).items():
        mine, theirs = zip(*(make() for _ in range(ASKED)))
        lines = [MATCH % it for it in mine]
        runs = [(fts.ask(lines), asked_of(base, theirs)) for _ in range(5)]
        found = [found_by(it) for it in runs[0][0][0]]
        if found != runs[0][1][0]:
            sys.exit(f"{kind}: fts finds {found}, FTS5 {runs[0][1][0]}")
        yield kind, sum(found) // ASKED, min(it[0][1] for it in runs), min(it[1][1] for it in runs)
    fts.process.stdin.close()
    fts.process.wait()


def svg_of(rows):
    """The times as bars, by their logarithms from 1 microsecond on."""
    size = f'width="760" height="{40 * len(rows) + 50}"'
    font = 'font-family="sans-serif" font-size="12"'
    lines = [f'<svg xmlns="http://www.w3.org/2000/svg" {size} {font}>']
    for place, (kind, _, mine, theirs) in enumerate(rows):
        top = 40 * place + 30
        lines.append(f'<text x="200" y="{top + 20}" text-anchor="end">{kind}</text>')
        bars = (("fts", mine, top, "#2b6cb0"), ("FTS5", theirs, top + 15, "#a0aec0"))
        for name, took, y, colour in bars:
            width = max(1, round(100 * log10(max(took, 1))))
            bar = f'<rect x="210" y="{y}" width="{width}" height="13" fill="{colour}"/>'
            lines.append(f'{bar}<text x="{216 + width}" y="{y + 11}">{name} {took:,.0f} µs</text>')
    title = "processor's time of a search; a bar grows by the same length for each tenfold time"
    lines.append(f'<text x="210" y="20">{title}</text></svg>')
    return "\n".join(lines) + "\n"


def main():
    parser = argparse.ArgumentParser(description="Times searches of each kind beside FTS5.")
    parser.add_argument("rows", nargs="?", type=int, default=100_000)
    parser.add_argument("--sync", action="store_true", help="flush all before the searches")
    parser.add_argument("--svg", metavar="FILE", help="draw the times as bars")
    parser.add_argument("--program", type=program_named, default="")
    words = parser.parse_args()
    texts = texts_of(words.rows)
    rows = []
    print("| Search | Rows found | fts | FTS5 | FTS5 takes |\n|---|---|---|---|---|")
    with tempfile.TemporaryDirectory() as folder:
        for row in measured(words.program, texts, folder, words.sync):
            kind, found, mine, theirs = row
            times = f"{mine:,.0f} µs | {theirs:,.0f} µs | {theirs / mine:.1f} times"
            print(f"| {kind} | {found:,} | {times} |", flush=True)
            rows.append(row)
    print(f"load: {os.getloadavg()[0]:.1f} on {os.cpu_count()} processors", file=sys.stderr)
    if words.svg:
        with open(words.svg, "w", encoding="utf-8") as it:
            it.write(svg_of(rows))


if __name__ == "__main__":
    main()
