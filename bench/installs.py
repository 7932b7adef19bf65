#!/usr/bin/env python3
"""Times what each batch of a run takes in the tables: bench/installs.py [ROWS]

ROWS mails as in bench/queries.py (10,000 by default), each INSERT a commit, into a database with
the default cache, above which batches follow a commit. The kernel notes when the program's
functions that make a batch's room in the tables, and that install it there, begin and end. Told
are both in milliseconds: the mean of the batches up to the 10th, from there to the 100th, and from
there on, and of the sums the least, the median and the most. It needs root, Linux with uprobes,
nm and readelf, Python 3, and works below TMPDIR.
"""
import argparse
import contextlib
import os
import re
import statistics
import subprocess
import tempfile

from queries import as_script_does, drawn, program_named

TRACING = "/sys/kernel/tracing"
NOTE = re.compile(r"\s*\S+-([0-9]+)\s.* ([0-9]+\.[0-9]+): (\w+): ")
WRITTEN = re.compile(r"entries-in-buffer/entries-written: ([0-9]+)/([0-9]+)")
CALLS = {"room": "make_batch_room", "install": "tables::Tables::install_batch"}


def said_by(*words):
    return subprocess.run(words, check=True, capture_output=True, text=True).stdout


def put(name, text, how=os.O_TRUNC):
    file = os.open(os.path.join(TRACING, name), os.O_WRONLY | how)
    os.write(file, text.encode())
    os.close(file)


def said_in(name):
    with open(os.path.join(TRACING, name), encoding="ascii") as it:
        return it.read()


def probe(program, call, place):
    put("uprobe_events", f"p:fts/{call} {program}:{place:#x}\n", os.O_APPEND)
    put("uprobe_events", f"r:fts/{call}_end {program}:{place:#x}\n", os.O_APPEND)


def forget(call):
    put("uprobe_events", f"-:fts/{call}\n", os.O_APPEND)
    put("uprobe_events", f"-:fts/{call}_end\n", os.O_APPEND)


def places_of(program, calls):
    """Where in the program's file these functions begin."""
    text = next(it.split() for it in said_by("readelf", "-SW", program).splitlines() if " .text " in it)
    address, offset = (int(text[text.index("PROGBITS") + k], 16) for k in (1, 2))
    names = [it.split(maxsplit=2) for it in said_by("nm", program).splitlines()]
    for call, name in calls.items():
        # (the instance of a generic function stands behind its name)
        (place,) = (int(it[0], 16) for it in names if it[-1].split("::<")[0].endswith(name))
        yield call, place - address + offset


@contextlib.contextmanager
def noting(program, calls):
    """Has the kernel note when these functions begin and end."""
    for call, place in places_of(program, calls):
        probe(program, call, place)
    kilobytes = said_in("buffer_size_kb").split()[0]
    try:
        put("buffer_size_kb", "16384")
        put("trace", "")
        put("events/fts/enable", "1")
        yield
    finally:
        put("events/fts/enable", "0")
        put("buffer_size_kb", kilobytes)
        for call in calls:
            forget(call)


def noted():
    """What was noted, in its order: by which thread, at which second, and what."""
    for line in said_in("trace").splitlines():
        if found := NOTE.match(line):
            yield found[1], float(found[2]), found[3]
        elif (counts := WRITTEN.search(line)) and counts[1] != counts[2]:
            raise SystemExit(f"of {counts[2]} notes {counts[1]} are left")


def run(program, rows):
    with tempfile.TemporaryDirectory() as folder:
        base = os.path.join(folder, "db")
        subprocess.run([program, base, "create", "--columns", "body"], check=True, stdout=subprocess.DEVNULL)
        how = {"stdin": subprocess.PIPE, "stdout": subprocess.DEVNULL, "env": as_script_does()}
        with subprocess.Popen([program, base, "run"], **how) as process:
            for row, text in enumerate(drawn(rows)):
                line = "INSERT INTO docs (id, body) VALUES (%d, '%s')\n" % (row + 1, " ".join(text))
                process.stdin.write(line.encode())
            process.stdin.close()


def times_of():
    """The milliseconds of each call, in their order."""
    begun, times = {}, {call: [] for call in CALLS}
    for _, moment, name in noted():
        call = name.removesuffix("_end")
        if name == call:
            begun[call] = moment
        else:
            times[call].append((moment - begun[call]) * 1e3)
    return times


def main():
    parser = argparse.ArgumentParser(description="Times what each batch of a run takes in the tables.")
    parser.add_argument("rows", nargs="?", type=int, default=10_000)
    parser.add_argument("--program", type=program_named, default="")
    words = parser.parse_args()
    with noting(words.program, CALLS):
        run(words.program, words.rows)
        times = times_of()
    both = [sum(it) for it in zip(*times.values())]
    for first, last in ((0, 10), (10, 100), (100, len(both))):
        if both[first:last]:
            told = ", ".join(f"{call} {statistics.mean(it[first:last]):.1f}" for call, it in times.items())
            print(f"batches {first + 1} to {min(last, len(both))}: {told} ms")
    print(f"both: {min(both):.1f} to {max(both):.1f} ms, the median {statistics.median(both):.1f}")


if __name__ == "__main__":
    main()
