#!/usr/bin/env python3
"""Tries the edge of the built program in real folders, one line a case: bench/edge.py [WORD ..]

With words, only the cases whose names have one of them. Closed streams, refusals and their two lines, files of
somebody else, two processes at once, signals at random moments, and the script ./fts itself. The program is the one that ./fts
runs, which builds it first where there is none. The folders are made below TMPDIR and removed again.
Ends with a count, and with status 1 where a case failed. Takes half a minute. Python 3.10 or later, Linux.
"""
import os
import random
import re
import resource
import select
import shutil
import signal
import subprocess
import sys
import tempfile
import time

TOP = os.path.dirname(os.path.dirname(os.path.realpath(__file__)))
SCRIPT = os.path.join(TOP, "fts")
# What ./fts runs.
PROGRAM = ""
NOBODY = 65534
SEARCH = b"SELECT FTS_DOC_ID FROM docs WHERE MATCH (body) AGAINST ('apple' IN BOOLEAN MODE)\n"
INDEX = b"FTSINDX1\x00"
CASES = []


def insert(key, text="apple pie"):
    return f"INSERT INTO docs (id, body) VALUES ({key}, '{text}')\n".encode()


def case(made):
    CASES.append(made)
    return made


class Wrong(Exception):
    pass


def same(seen, wanted, what):
    if seen != wanted:
        raise Wrong(f"{what}: {seen!r} and not {wanted!r}")


class Room:
    """A folder of its own for a case, with a copy of the program that any user can start."""

    def __init__(self, path):
        self.path = path
        self.program = os.path.join(path, "program")
        os.chmod(path, 0o755)
        shutil.copy(PROGRAM, self.program)
        os.chmod(self.program, 0o755)

    def at(self, *names):
        return os.path.join(self.path, *names)

    def start(self, *words, closed=(), limits=(), **how):
        def before():
            for stream in closed:
                os.close(stream)
            for what, most in limits:
                resource.setrlimit(what, (most, most))
            if limits:
                signal.signal(signal.SIGXFSZ, signal.SIG_IGN)

        pipes = {"stdin": subprocess.PIPE, "stdout": subprocess.PIPE, "stderr": subprocess.PIPE}
        pipes.update(how)
        return subprocess.Popen([self.program, *words], cwd=self.path, preexec_fn=before, **pipes)

    def run(self, *words, script=b"", **how):
        """Runs the program to its end: its status, what it wrote, and the lines of its standard error."""
        process = self.start(*words, **how)
        is_fed = how.get("stdin", subprocess.PIPE) == subprocess.PIPE
        out, err = process.communicate(script if is_fed and 0 not in how.get("closed", ()) else None, timeout=60)
        return process.returncode, out or b"", (err or b"").decode().splitlines()

    def create(self, folder="shop"):
        same(self.run(folder, "create", "--columns", "body"), (0, b"OK created\n", []), "create")

    def files(self, folder="shop"):
        """What each file of a folder holds."""
        found = {}
        for name in sorted(os.listdir(self.at(folder))):
            with open(self.at(folder, name), "rb") as it:
                found[name] = it.read()
        return found

    def put(self, bytes_, *names):
        os.makedirs(os.path.dirname(self.at(*names)), exist_ok=True)
        with open(self.at(*names), "wb") as it:
            it.write(bytes_)

    def commits(self, folder="shop"):
        """How many commits the database opens with. Their rows are found, each once and in order."""
        status, out, err = self.run(folder, "run", script=SEARCH)
        same((status, err), (0, []), "opening again")
        head, ids = out.decode().split(":")
        count = int(head.split()[-1])
        same(ids.split(), [str(n) for n in range(1, count + 1)] or ["none"], "the rows")
        return count


def told(seen, status, *lines):
    same((seen[0], seen[2]), (status, list(lines)), "status and lines")
    return " | ".join(lines)


# Closed streams


@case
def closed_streams_at_create(room):
    room.create("whole")
    for closed in [(0,), (1,), (2,), (0, 1, 2)]:
        seen = room.run("shop", "create", "--columns", "body", closed=closed)
        same(seen[0], 0, f"status with {closed} closed")
        same(room.files(), room.files("whole"), f"the folder with {closed} closed")
        shutil.rmtree(room.at("shop"))
    return "0, 1, 2 and all three closed: the folder has the bytes of a create with none closed"


@case
def closed_streams_at_run(room):
    script = b"".join(insert(key) for key in range(1, 4)) + SEARCH
    room.create("whole")
    room.run("whole", "run", script=script)
    for closed in [(1,), (2,), (1, 2)]:
        room.create()
        seen = room.run("shop", "run", script=script, closed=closed)
        same((seen[0], seen[2]), (0, []), f"status with {closed} closed")
        same(room.files(), room.files("whole"), f"the folder with {closed} closed")
        shutil.rmtree(room.at("shop"))
    for closed in [(0,), (0, 1, 2)]:
        before = room.files("whole")
        same(room.run("whole", "run", closed=closed), (0, b"", []), f"a run with {closed} closed")
        same(room.files("whole"), before, f"the folder with {closed} closed")
    return "replies go nowhere, the script is empty, and no byte of either reaches a file or comes from one"


@case
def closed_error_at_a_refusal(room):
    room.create()
    before = room.files()
    for words in [("shop", "create", "--columns", "body"), ("shop", "frob"), ("none", "run")]:
        same(room.run(*words, closed=(2,))[2], [], "standard error")
    same(room.files(), before, "the folder")
    return "the status line goes nowhere, and the folder is as it was"


@case
def order_of_the_calls(room):
    if not shutil.which("strace"):
        return "not tried: there is no strace"
    script = insert(1) + insert(2) + SEARCH
    count = ordered(room, calls_of(room, "shop", "create", "--columns", "body", script=b""))
    count += ordered(room, calls_of(room, "shop", "run", script=script))
    return f"null device thrice, lock, then files; {count} writes at their places, each durable before its reply, lseek for lengths alone"


def calls_of(room, *words, script):
    """The calls of the system that a run makes, from its first open on: each one's name, and its text."""
    names = "openat,mkdir,flock,pread64,pwrite64,ftruncate,fsync,lseek,write"
    traced = ["strace", "-f", "-y", "-e", f"trace={names}", "-o", room.at("calls"), room.program, *words]
    subprocess.run(traced, cwd=room.path, input=script, capture_output=True, timeout=60)
    with open(room.at("calls")) as it:
        lines = [line.split(maxsplit=1)[1] for line in it if "(" in line]
    # (the linker's own come before)
    begun = next(place for place, line in enumerate(lines) if "/dev/null" in line)
    return [(line.split("(")[0], line.split("(", 1)[1].strip()) for line in lines[begun:]]


def ordered(room, calls):
    """How many writes to files there were, which are as they have to be."""
    opened = [text.split('"')[1] for name, text in calls if name == "openat"]
    same(opened[:4], ["/dev/null"] * 3 + ["shop/rows.log"], "the first opens")
    is_locked, writes, pending = False, 0, set()
    for name, text in calls:
        file = text[text.find("<") + 1 : text.find(">")]
        if name == "flock":
            is_locked = is_locked or (file == room.at("shop/rows.log") and text.endswith("= 0"))
        elif name == "mkdir" or (name == "openat" and "O_CREAT" in text):
            pending |= {room.at("shop"), room.path}
        elif name in ("pwrite64", "ftruncate"):
            same(is_locked, True, f"locked before {text}")
            pending.add(file)
            writes += 1
        elif name == "fsync":
            pending.discard(file)
        elif name == "write":
            same((text[:2], pending), ("1<", set()), f"what is not durable at {text}")
        # a file's length is the place of its end; no read or write takes it
        same(name == "lseek" and "SEEK_END" not in text, False, "a cursor that is moved")
    return writes


@case
def no_null_device(room):
    room.create()
    seen = room.run("shop", "run", limits=[(resource.RLIMIT_NOFILE, 4)])
    return told(seen, 5, "fts: disk fault", "fts: /dev/null: Too many open files (os error 24)")


# Refusals


def by_nobody(room):
    if os.getuid() != 0:
        return {}
    for folder, _, files in os.walk(room.path):
        for name in [folder, *(os.path.join(folder, it) for it in files)]:
            os.chown(name, NOBODY, NOBODY)
    return {"user": NOBODY, "group": NOBODY, "extra_groups": []}


@case
def permission_denied(room):
    room.create()
    how = by_nobody(room)
    os.chmod(room.at("shop/rows.log"), 0o444)
    seen = room.run("shop", "run", script=SEARCH, **how)
    return told(seen, 5, "fts: disk fault", "fts: shop/rows.log: Permission denied (os error 13)")


@case
def folder_that_cannot_be_made(room):
    os.makedirs(room.at("box"))
    how = by_nobody(room)
    os.chmod(room.at("box"), 0o555)
    seen = room.run("box/shop", "create", "--columns", "body", **how)
    return told(seen, 5, "fts: disk fault", "fts: box/shop: Permission denied (os error 13)")


@case
def folder_whose_parent_cannot_be_read(room):
    os.makedirs(room.at("box"))
    how = by_nobody(room)
    os.chmod(room.at("box"), 0o333)
    seen = room.run("box/shop", "create", "--columns", "body", **how)
    return told(seen, 5, "fts: disk fault", "fts: box: Permission denied (os error 13)")


@case
def parent_is_missing(room):
    seen = room.run("none/shop", "create", "--columns", "body")
    same(os.path.exists(room.at("none")), False, "the parent")
    return told(seen, 5, "fts: disk fault", "fts: none/shop: No such file or directory (os error 2)")


@case
def folder_is_a_file(room):
    room.put(b"text", "shop")
    seen = room.run("shop", "run", script=SEARCH)
    return told(seen, 5, "fts: disk fault", "fts: shop/rows.log: Not a directory (os error 20)")


@case
def log_is_a_folder(room):
    os.makedirs(room.at("shop/rows.log"))
    seen = room.run("shop", "create", "--columns", "body")
    return told(seen, 5, "fts: disk fault", "fts: shop/rows.log: Is a directory (os error 21)")


@case
def log_grows_no_more(room):
    room.create()
    size = len(room.files()["rows.log"])
    script = b"".join(insert(key) for key in range(1, 9))
    seen = room.run("shop", "run", script=script, limits=[(resource.RLIMIT_FSIZE, size + 100)])
    same(room.commits(), seen[1].count(b"OK commit"), "the commits")
    return told(seen, 5, "fts: disk fault", "fts: shop/rows.log: File too large (os error 27)")


@case
def disk_is_full(room):
    os.makedirs(room.at("shop"))
    room.put(b"".join(insert(key) for key in range(1, 2001)), "script")
    room.put(SEARCH, "search")
    mount = "mount -t tmpfs -o size=32k none shop 2>/dev/null || exit 77\n./program shop create --columns body >&2 || exit 78\n"
    runs = "./program shop run <script; ./program shop run <search"
    words = ["unshare", "--mount", "--map-root-user", "sh", "-c", mount + runs]
    ran = subprocess.run(words, cwd=room.path, capture_output=True, text=True)
    if ran.returncode == 77 or not ran.stdout:
        return "not tried: no file system can be mounted here"
    answered = ran.stdout.count("OK commit")
    found = int(ran.stdout.splitlines()[-1].split(":")[0].split()[-1])
    same(0 < answered <= found <= answered + 1, True, f"{answered} answered and {found} there")
    wanted = ["OK created", "fts: disk fault", "fts: shop/rows.log: No space left on device (os error 28)"]
    same(ran.stderr.splitlines(), wanted, "the lines")
    return f"{wanted[2]}; {answered} commits answered, {found} there when it is opened again"


@case
def output_is_full(room):
    room.create()
    with open("/dev/full", "wb") as full:
        seen = room.run("shop", "run", script=insert(1), stdout=full)
    same(room.commits(), 1, "the commits")
    return told(seen, 4, "fts: write fault", "fts: standard output: No space left on device (os error 28)")


@case
def input_is_a_folder(room):
    room.create()
    folder = os.open(room.path, os.O_RDONLY)
    seen = room.run("shop", "run", stdin=folder)
    os.close(folder)
    return told(seen, 3, "fts: read fault", "fts: standard input: Is a directory (os error 21)")


@case
def other_statuses_have_one_line(room):
    room.create()
    usage = "fts: usage: fts DIR create|run|serve|gen .."
    for words in [(), ("shop", "--help"), ("--help",), ("shop", "frob")]:
        told(room.run(*words), 2, usage)
    told(room.run("none", "run"), 6, "fts: not created")
    told(room.run("shop", "create", "--columns", "body"), 7, "fts: already created")
    room.put(b"FTSROWS1\x01more", "other/rows.log")
    return told(room.run("other", "run"), 8, "fts: damaged rows file 0 at 8") + ", and 2, 6 and 7 alike"


@case
def refused_statements_leave_status_0(room):
    room.create()
    seen = room.run("shop", "run", script=b"SELEC\n" + insert(1) + insert(1) + b"INSERT 'a\x01\nINSERT 'a\nb'\n")
    told(seen, 0)
    wanted = ["ERROR syntax at 1", "OK commit 1", "ERROR duplicate key 1 in change 1", "ERROR syntax at 10"]
    wanted += ["ERROR syntax at 8", "ERROR syntax at 1"]
    same(seen[1].decode().splitlines(), wanted, "the replies")
    return "and a byte 10 within a string ends the line: " + " | ".join(wanted[4:])


@case
def a_log_cut_short(room):
    room.create()
    room.run("shop", "run", script=insert(1, "apple"))
    whole = room.files()["rows.log"]
    same(len(whole), 59, "the log's length")
    room.put(INDEX, "cut/index.log")
    for size in range(60):
        room.put(whole[:size], "cut/rows.log")
        seen = room.run("cut", "run", script=SEARCH)
        if size < 9:
            told(seen, 6, "fts: not created")
        elif size < 59:
            told(seen, 8, f"fts: damaged rows file 0 at {8 if size < 33 else 33 if size < 58 else 58}")
        else:
            told(seen, 0)
    return "0 to 8 bytes: not created; 9 to 32: damaged at 8; 33 to 57: at 33; 58: at 58; 59: whole"


@case
def an_index_log_cut_short(room):
    room.create()
    same(room.files()["index.log"], INDEX, "the index log")
    for text in [INDEX[:size] for size in range(10)] + [b"FTSROWS1\x00", INDEX[:8] + b"\x01\x00\x00\x00\x00\x00"]:
        room.put(text, "shop/index.log")
        seen = room.run("shop", "run", script=SEARCH)
        if text == INDEX:
            told(seen, 0)
        else:
            told(seen, 8, f"fts: damaged index file 0 at {8 if text[:8] == INDEX[:8] else 0}")
    return "0 to 7 bytes, or another magic: damaged at 0; 8 bytes, or an entry: at 8; 9 bytes: whole"


@case
def a_length_that_no_payload_has(room):
    room.create()
    whole = room.files()["rows.log"]
    length = (3 << 30).to_bytes(4, "big")
    for front, at in [(whole[:8], 8), (whole[:33], 33)]:
        with open(room.at("shop/rows.log"), "wb") as log:
            log.write(front + b"\x01" + length)
            log.truncate(4 << 30)
        begun = time.monotonic()
        seen = room.run("shop", "run", script=SEARCH, limits=[(resource.RLIMIT_AS, 1 << 30)])
        told(seen, 8, f"fts: damaged rows file 0 at {at}")
        same(time.monotonic() - begun < 5, True, "at once")
    return "3 GiB of settings, or of a commit, in a file of 4 GiB: damaged at 8, and at 33, with 1 GiB of memory"


# Files of somebody else


@case
def foreign_file_is_kept(room):
    for text in [b"0123456789", b"my rows, kept since 1998\n", b"FTSROWS2\x00m", b"FTSINDX1\x00more"]:
        room.put(text, "shop/rows.log")
        seen = room.run("shop", "create", "--columns", "body")
        shown = told(seen, 5, "fts: disk fault", "fts: shop/rows.log: not a log of fts")
        same(room.files()["rows.log"], text, "the file")
    room.put(b"notes on an index", "kept/index.log")
    told(room.run("kept", "create", "--columns", "body"), 5, "fts: disk fault", "fts: kept/index.log: not a log of fts")
    same(room.files("kept")["index.log"], b"notes on an index", "the other file")
    return shown


@case
def begun_file_is_cut(room):
    room.create("whole")
    for text in [b"", b"FTSR", b"012345678", b"FTSROWS1\x00", b"FTSROWS1\x00\x00\x00\x00\x14begun"]:
        room.put(text, "shop/rows.log")
        room.create()
        same(room.files()["rows.log"], room.files("whole")["rows.log"], f"the log over {text!r}")
        shutil.rmtree(room.at("shop"))
    return "nine bytes or fewer, and any that begin with FTSROWS1 but for a whole database"


@case
def folder_without_a_name(room):
    for words in [("", "create", "--columns", "body"), ("", "run")]:
        shown = told(room.run(*words), 5, "fts: disk fault", "fts: '': not a folder's name")
    same(os.path.exists(room.at("rows.log")), False, "a log where it was started")
    return shown


# Two processes at once


@case
def two_create_at_once(room):
    seen = {}
    for turn in range(50):
        if turn % 2:
            os.makedirs(room.at("shop"))
        both = [room.start("shop", "create", "--columns", "body") for _ in range(2)]
        ends = sorted((it.wait(timeout=60), *it.communicate()) for it in both)
        same(ends[0], (0, b"OK created\n", b""), "the one that goes on")
        same(ends[1][0] in (5, 7) and ends[1][1] == b"", True, f"the other, {ends[1]}")
        why = ends[1][2].decode().splitlines()[-1]
        seen[why] = seen.get(why, 0) + 1
        same(room.commits(), 0, "the commits")
        shutil.rmtree(room.at("shop"))
    return "one of two each time; the other: " + ", ".join(f"{count} x {why}" for why, count in sorted(seen.items()))


@case
def two_run_at_once(room):
    room.create()
    for turn in range(1, 51):
        both = [room.start("shop", "run") for _ in range(2)]
        # Each is fed one line and held open, so both are there until one has ended by itself.
        for process in both:
            try:
                process.stdin.write(insert(turn))
                process.stdin.flush()
            except BrokenPipeError:
                pass
        lost, left = ends_first(both)
        same(lost.stdout.read(), b"", "what the other wrote")
        lines = lost.stderr.read().decode().splitlines()
        same((lost.wait(), lines), (5, ["fts: disk fault", "fts: shop/rows.log: in use by another process"]), "the other")
        same(left.stdout.readline(), f"OK commit {turn}\n".encode(), "the one that goes on")
        left.stdin.close()
        same(left.wait(timeout=60), 0, "its status")
        close(lost, left)
    same(room.commits(), 50, "the commits")
    return f"one of two each time, fifty commits; the other: {lines[1]}"


def ends_first(both):
    """Of two processes the one that ends by itself, and then the other."""
    until = time.monotonic() + 60
    while time.monotonic() < until:
        for one, other in (both, both[::-1]):
            if one.poll() is not None:
                return one, other
        time.sleep(0.002)
    raise Wrong("both go on")


def close(*processes):
    for process in processes:
        for stream in (process.stdin, process.stdout, process.stderr):
            try:
                stream.close()
            except BrokenPipeError:
                pass


@case
def create_beside_run(room):
    room.create()
    held = room.start("shop", "run")
    held.stdin.write(insert(1))
    held.stdin.flush()
    same(held.stdout.readline(), b"OK commit 1\n", "the one that goes on")
    shown = "fts: shop/rows.log: in use by another process"
    for words in [("shop", "create", "--columns", "body"), ("shop", "run")]:
        told(room.run(*words, script=insert(2)), 5, "fts: disk fault", shown)
    held.stdin.close()
    same(held.wait(timeout=60), 0, "its status")
    close(held)
    same(room.commits(), 1, "the commits")
    return shown


@case
def a_commit_without_memory_leaves_its_transaction(room):
    room.create()
    process = room.start("shop", "run")

    def asked(line):
        process.stdin.write(line)
        process.stdin.flush()
        return process.stdout.readline().decode().strip()

    same(asked(b"BEGIN\n"), "OK begin", "begin")
    for key in range(1, 401):
        same(asked(insert(key, "apple pie " + "x" * 50_000)), f"OK buffered {key}", "a row")
    with open(f"/proc/{process.pid}/statm") as told_:
        held = int(told_.read().split()[0]) * resource.getpagesize()
    resource.prlimit(process.pid, resource.RLIMIT_AS, (held, resource.RLIM_INFINITY))
    refused = [asked(b"COMMIT\n"), asked(SEARCH), asked(b"COMMIT\n")]
    same(refused, ["ERROR no memory", "OK as of 0: none", "ERROR no memory"], "with no memory more")
    resource.prlimit(process.pid, resource.RLIMIT_AS, (resource.RLIM_INFINITY, resource.RLIM_INFINITY))
    same(asked(b"COMMIT\n"), "OK commit 1", "with memory")
    same(len(asked(SEARCH).split()), 4 + 400, "what is found")
    seen = process.communicate(timeout=60)
    same((process.returncode, seen[1]), (1, b"fts: no memory\n"), "its end")
    return "refused twice; then its 400 rows are committed, and the status is 1"


# Signals


def interrupted(room, interrupt, **how):
    """Starts a run of 10,000 INSERTs, calls `interrupt`, and tells how many were answered and how many are there."""
    room.create()
    room.put(b"".join(insert(key) for key in range(1, 10001)), "script")
    with open(room.at("script"), "rb") as script:
        process = room.start("shop", "run", stdin=script, **how)
        out = interrupt(process)
        out += process.stdout.read() if not process.stdout.closed else b""
        process.wait(timeout=60)
        process.stderr.close()
    answered = out[: out.rfind(b"\n") + 1].count(b"OK commit")
    found = room.commits()
    shutil.rmtree(room.at("shop"))
    return answered, found


def read_to_a_random_moment(process):
    until = time.monotonic() + random.uniform(0, 1)
    seen = b""
    while (left := until - time.monotonic()) > 0:
        if select.select([process.stdout], [], [], left)[0]:
            more = os.read(process.stdout.fileno(), 65536)
            if not more:
                break
            seen += more
    return seen


def signals(room, name):
    def interrupt(process):
        seen = read_to_a_random_moment(process)
        process.send_signal(getattr(signal, name))
        return seen

    answers = []
    for _ in range(20):
        answered, found = interrupted(room, interrupt)
        same(answered <= found <= answered + 1, True, f"{answered} answered and {found} there")
        answers.append(found)
    return f"20 times, with {min(answers)} to {max(answers)} commits: each that was answered is there, and at most one more"


@case
def interrupted_by_sigint(room):
    return signals(room, "SIGINT")


@case
def interrupted_by_sigterm(room):
    return signals(room, "SIGTERM")


@case
def killed_behind_each_reply(room):
    more = 0
    for count in range(1, 51):

        def interrupt(process, count=count):
            seen = b"".join(process.stdout.readline() for _ in range(count))
            process.kill()
            return seen

        answered, found = interrupted(room, interrupt)
        same(count <= answered <= found <= answered + 1, True, f"{answered} answered and {found} there")
        more += found - answered
    return f"SIGKILL behind reply 1 to 50: each commit answered is there; {more} times one more"


@case
def closed_pipe_at_random_moments(room):
    room_of_the_pipe = 4096
    lines = []

    def interrupt(process):
        seen = read_to_a_random_moment(process)
        process.stdout.close()
        lines.append((process.wait(timeout=60), process.stderr.read().decode().splitlines()))
        return seen

    answers = []
    for _ in range(20):
        answered, found = interrupted(room, interrupt, pipesize=room_of_the_pipe)
        unread = room_of_the_pipe // len("OK commit 1\n")
        same(answered <= found <= answered + unread + 1, True, f"{answered} answered and {found} there")
        answers.append(found)
    shown = ["fts: write fault", "fts: standard output: Broken pipe (os error 32)"]
    same([it for it in lines if it not in ((4, shown), (0, []))], [], "status and lines")
    return f"20 times, with {min(answers)} to {max(answers)} commits, each that was read is there: {shown[1]}"


@case
def closed_pipe(room):
    for turn in range(20):
        room.create()
        process = room.start("shop", "run")
        count = random.randint(0, 200)
        for key in range(1, count + 1):
            process.stdin.write(insert(key))
            process.stdin.flush()
            same(process.stdout.readline(), f"OK commit {key}\n".encode(), "a reply")
        process.stdout.close()
        try:
            process.stdin.write(insert(count + 1) + insert(count + 2))
            process.stdin.close()
        except BrokenPipeError:
            pass
        lines = process.stderr.read().decode().splitlines()
        shown = "fts: standard output: Broken pipe (os error 32)"
        same((process.wait(), lines), (4, ["fts: write fault", shown]), "status and lines")
        process.stderr.close()
        same(room.commits(), count + 1, "the commits")
        shutil.rmtree(room.at("shop"))
    return f"20 times: {shown}; the commit whose reply failed is there, and none behind it"


# The script


@case
def script_from_anywhere(room):
    os.makedirs(room.at("a b"))
    os.symlink(SCRIPT, room.at("link"))
    os.symlink("../link", room.at("a b/link to it"))
    for words, status in [(("shop", "create", "--columns", "body"), 0), (("shop", "run"), 0), (("none", "run"), 6), ((), 2)]:
        ran = subprocess.run([room.at("a b/link to it"), *words], cwd=room.path, capture_output=True, stdin=subprocess.DEVNULL)
        same(ran.returncode, status, f"the status of {words}")
    same(sorted(room.files()), ["index.log", "rows.log"], "the folder, where it was started")
    return "through two links, from another folder, statuses 0, 6 and 2"


@case
def script_with_closed_streams(room):
    room.create()
    script = insert(1) + insert(2)
    for closed in (0, 1, 2):
        how = {"stdin": subprocess.PIPE, "stdout": subprocess.PIPE, "stderr": subprocess.PIPE, "cwd": room.path}
        process = subprocess.Popen([SCRIPT, "shop", "run"], preexec_fn=lambda: os.close(closed), **how)
        process.communicate(script if closed else None, timeout=60)
        same((process.returncode, room.commits()), (0, 2 if closed else 0), f"status and commits with {closed} closed")
    return "0, 1 and 2 closed: status 0, and the commits of the script that was read"


@case
def script_helps(room):
    ran = subprocess.run([SCRIPT, "help"], cwd=room.path, capture_output=True, text=True)
    same((ran.returncode, ran.stderr), (0, ""), "status")
    lines = ran.stdout.splitlines()
    same(len(lines) <= 20, True, f"{len(lines)} lines")
    same(lines[-1].startswith("This runs "), True, lines[-1])
    for option in "--columns --min --max --no-stopword --optimize-words --cache-bytes --batch-docs".split():
        same(option in ran.stdout, True, option)
    return f"{len(lines)} lines"


@case
def examples_print_their_output(room):
    folder = os.path.join(TOP, "examples")
    files = {}
    for name in os.listdir(folder):
        with open(os.path.join(folder, name), "rb") as it:
            files[name] = it.read()
    told = []
    for name in sorted(it[:-4] for it in files if it.endswith(".sql")):
        script = files[name + ".sql"]
        # One of several outputs is that of `serve`.
        several = sorted(it for it in files if re.fullmatch(re.escape(name) + r"\.[0-9]+\.out", it))
        command = "serve" if several else "run"
        head = script.decode().splitlines()[0]
        words = head.partition(" create ")[2].split() or ["--columns", "body"]
        same(room.run(name, "create", *words), (0, b"OK created\n", []), f"create for {name}")
        status, out, err = room.run(name, command, script=script)
        same((status, err), (0, []), name)
        fit = [it for it in several or [name + ".out"] if files[it] == out]
        same(len(fit), 1, f"{name}: {out!r}, that of how many outputs")
        told.append(fit[0] if several else name)
    return ", ".join(told)


@case
def folders_of_the_readme_are_ignored(room):
    ran = subprocess.run(["git", "check-ignore", "shop/rows.log", "larder/rows.log", "stall/rows.log"], cwd=TOP, capture_output=True, text=True)
    same(ran.stdout.split(), ["shop/rows.log", "larder/rows.log", "stall/rows.log"], "what git ignores")
    return "shop, larder and stall"


def main():
    global PROGRAM
    asked = subprocess.run([SCRIPT, "which"], stdin=subprocess.DEVNULL, stdout=subprocess.PIPE, text=True)
    if asked.returncode:
        return 1
    PROGRAM = asked.stdout.strip()
    wanted = [it for it in CASES if not sys.argv[1:] or any(word in it.__name__ for word in sys.argv[1:])]
    failed = 0
    for it in wanted:
        with tempfile.TemporaryDirectory() as path:
            try:
                verdict = "ok", it(Room(path))
            except Exception as error:  # (each case is told, and the next is tried)
                failed += 1
                verdict = "FAILED", f"{type(error).__name__}: {error}"
        print(f"{it.__name__}: {verdict[0]}: {verdict[1]}", flush=True)
    print(f"{len(wanted) - failed} passed, {failed} failed")
    return 1 if failed else 0


if __name__ == "__main__":
    sys.exit(main())
