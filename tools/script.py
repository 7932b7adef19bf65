"""What the converters share: packed streams, folded texts, INSERT statements, the map of ids."""
import argparse
import bz2
import gzip
import io
import lzma
import os
import re
import sys
import unicodedata
import zlib

MOST_ROWS = 1_000_000
MOST_TEXT_BYTES = 65_535
LEAST_KEY_PAST = 2**64
MOST_LOG_BYTES = 2**32
MOST_CHANGES = 1_000
MOST_DOC_STEP = 65_535
LARGEST_DOC = 2**63 - 1
PIECE = 65_536
# The first bytes of a packed stream, and what unpacks it.
PACKED = {b"BZh": bz2.open, b"\x1f\x8b": gzip.open, b"\xfd7zXZ\0": lzma.open}


class Full(Exception):
    """The database has all the rows that it may have, or that its log has room for."""


class Unwritten(Exception):
    """Standard output or the map can't be written."""


class Folding(dict):
    """What stands for each character: that of its NFKD parts which the engine takes.

    NFKD may put marks in another order. As all of them are left out, each character is for itself.
    """

    def __missing__(self, code):
        parts = unicodedata.normalize("NFKD", chr(code))
        self[code] = "".join(it if is_taken(it) else " " for it in parts if not is_mark(it))
        return self[code]


def is_taken(character):
    return character == "\t" or " " <= character <= "~"


def is_mark(character):
    return unicodedata.category(character).startswith("M")


FOLDING = Folding()


def folded(text):
    """A text as the engine takes it: tab and 32 to 126, letters without marks, a blank else."""
    return text.translate(FOLDING)


def decoded(data, charset=None):
    """The text of bytes, by their charset or else as latin-1; ASCII and none are tried as UTF-8."""
    named = (charset or "us-ascii").strip().strip("'\"").lower()
    try:
        return data.decode("utf-8" if named in ("us-ascii", "ascii") else named)
    except (LookupError, ValueError):  # (an unknown name, or bytes that are none of it)
        return data.decode("latin-1")


def quoted(text):
    return "'" + text.replace("'", "''") + "'"


def insert_of(columns, key, doc, texts):
    """The statement of a row, whose texts are folded, with a document id or none."""
    given = () if doc is None else ("FTS_DOC_ID",)
    names = ", ".join(("id", *given, *columns))
    numbers = [key] if doc is None else [key, doc]
    values = ", ".join((*map(str, numbers), *(quoted(it) for it in texts)))
    return f"INSERT INTO docs ({names}) VALUES ({values})\n"


def log_bytes_of_settings(columns):
    """At which place a log ends that has no rows yet."""
    return 29 + sum(1 + len(it) for it in columns)


# How many bytes of the log a commit takes beside its rows.
LOG_BYTES_OF_COMMIT = 8


def log_bytes_of(doc, texts):
    """How many bytes of the log a row takes, with a document id or none."""
    return (10 if doc is None else 18) + sum(2 + len(it) for it in texts)


def cut(texts):
    """The first 65,535 bytes of the texts together."""
    kept, left = [], MOST_TEXT_BYTES
    for text in texts:
        kept.append(text[:left])
        left -= len(kept[-1])
    return kept


class Unpacked(io.RawIOBase):
    """The bytes of a stream, unpacked where its first bytes are those of bzip2, gzip or xz.

    What breaks it off is kept as `fault`, and the stream ends there: what came before can be used.
    """

    def __init__(self, stream):
        self.fault = None
        self.count = 0
        head = b""
        try:
            head = stream.peek(6)
        except OSError as error:
            self.fault = error.strerror
        self.stream = stream
        for begin, unpacked in PACKED.items():
            if head.startswith(begin):
                self.stream = unpacked(stream)

    def readable(self):
        return True

    def readinto(self, room):
        if self.fault:
            return 0
        try:
            piece = self.stream.read1(min(len(room), PIECE))
        except (OSError, EOFError, lzma.LZMAError, zlib.error) as error:
            self.fault = getattr(error, "strerror", None) or str(error)
            return 0
        room[: len(piece)] = piece
        self.count += len(piece)
        return len(piece)


class Script:
    """Writes the statements and the map, and says what was left out."""

    def __init__(self, tool, out, map_file):
        self.tool = tool
        self.out = out
        self.map_file = map_file
        self.columns = ()
        self.rows = 0
        self.row_bytes = 0
        # The document id of the last row.
        self.doc = 0
        # How many rows a transaction has, and how many the open one has so far.
        self.transaction = 1
        self.pending = 0
        self.status = 0
        # At most a million: where a key comes twice, the engine refuses it and gives no id.
        self.keys = set()

    def tell(self, place, what):
        print(f"{self.tool}: {place}: {what}", file=sys.stderr)

    def skip(self, place, what):
        """Says that something was left out, which the exit status says too."""
        self.tell(place, what)
        self.status = 1

    def insert(self, place, label, texts, key=None, doc=None):
        """Writes a row, its texts folded, with this key, a number in digits, or else counted.

        The same of its document id, which is counted too where it does not go on from the last.
        """
        if key is not None:
            key = self.checked(place, key)
            if key is None:
                return
        texts = [folded(it) for it in texts]
        size = sum(len(it) for it in texts)
        if size > MOST_TEXT_BYTES:
            self.tell(place, f"texts of {size} bytes cut at {MOST_TEXT_BYTES}")
            texts = cut(texts)
        given = None if doc is None else self.next_doc(place, doc)
        self.take_room(place, given, texts)
        self.doc = self.doc + 1 if given is None else given
        key = self.rows if key is None else key
        self.write_row(insert_of(self.columns, key, given, texts))
        if self.map_file:
            self.write(self.map_file, f"{self.doc}\t{one_line(label)}\n")

    def write_row(self, statement):
        """Writes the statement of a row, in a transaction where each has more than one."""
        if self.transaction > 1 and self.pending == 0:
            self.write(self.out, "BEGIN\n")
        self.write(self.out, statement)
        self.pending += 1
        if self.pending == self.transaction:
            self.commit()

    def commit(self):
        """Ends the open transaction, where there is one."""
        if self.transaction > 1 and self.pending > 0:
            self.write(self.out, "COMMIT\n")
        self.pending = 0

    def next_doc(self, place, doc):
        """The document id as a number, or none where the engine would refuse it behind the last."""
        if re.fullmatch(r"[0-9]{1,40}", doc):
            if self.doc < int(doc) <= min(self.doc + MOST_DOC_STEP, LARGEST_DOC):
                return int(doc)
        within = f"within {MOST_DOC_STEP} above {self.doc}, and counted"
        self.tell(place, f"the document id {one_line(doc)[:40]!r} is not {within}")
        return None

    def take_room(self, place, doc, texts):
        """Counts a row. Where the database has no room for it, nothing is written any more."""
        self.row_bytes += log_bytes_of(doc, texts)
        self.row_bytes += LOG_BYTES_OF_COMMIT if self.pending == 0 else 0
        if self.rows == MOST_ROWS:
            raise Full(place, f"{MOST_ROWS} rows are the most")
        if log_bytes_of_settings(self.columns) + self.row_bytes > MOST_LOG_BYTES:
            raise Full(place, f"{MOST_LOG_BYTES} bytes are the most of the rows log")
        self.rows += 1

    def checked(self, place, key):
        """The key as a number, or none where it is no key that this row can have."""
        if not re.fullmatch(r"[0-9]{1,40}", key) or int(key) >= LEAST_KEY_PAST:
            shown = one_line(key)[:40]
            self.skip(place, f"the key {shown!r} is no number from 0 to 2^64 - 1")
        elif int(key) in self.keys:
            self.skip(place, f"the key {int(key)} comes twice")
        else:
            self.keys.add(int(key))
            return int(key)
        return None

    def write(self, stream, text):
        try:
            stream.write(text.encode("utf-8", "replace"))
        except OSError as error:
            raise Unwritten(f"{self.name_of(stream)}: {error.strerror}") from error

    def flush(self):
        for stream in (self.out, self.map_file):
            try:
                if stream:
                    stream.flush()
            except OSError as error:
                raise Unwritten(f"{self.name_of(stream)}: {error.strerror}") from error

    def name_of(self, stream):
        return "standard output" if stream is self.out else stream.name


def one_line(text):
    """A text without line ends and other control characters, blanks at its ends left out."""
    return "".join(it if it.isprintable() else " " for it in text).strip()


def parser_of(tool, description):
    """The options that each converter has."""
    epilog = (
        "Bad input is told on standard error and left out. Status 0: all was written; "
        "1: something was left out; 2: wrong usage. The ids of the map are those that a new "
        "database gives. At most 1,000,000 rows are written, and what a log of 4 GiB can hold."
    )
    parser = argparse.ArgumentParser(prog=tool, description=description, epilog=epilog)
    parser.add_argument(
        "archive", nargs="?", default="-", help="by default, and for -, standard input"
    )
    parser.add_argument(
        "--map", metavar="FILE", help="write a line for each row: its document id, a tab, its name"
    )
    parser.add_argument(
        "--transaction",
        metavar="ROWS",
        type=rows_of_transaction,
        default=1,
        help=f"commit so many rows at once: 1 to {MOST_CHANGES}, by default 1",
    )
    return parser


def rows_of_transaction(text):
    if re.fullmatch(r"[1-9][0-9]{0,3}", text) and int(text) <= MOST_CHANGES:
        return int(text)
    raise argparse.ArgumentTypeError(f"{text!r} is no number from 1 to {MOST_CHANGES}")


def opened(parser, path, mode):
    try:
        return open(path, mode)
    except OSError as error:
        parser.error(f"{path}: {error.strerror}")


def is_same_file(opened_file, path):
    return os.path.samestat(os.fstat(opened_file.fileno()), os.stat(path))


def convert(parser, words, rows_of):
    """Runs a converter, `rows_of(words, source, script)`, and returns the exit status.

    The source is a binary stream; its `raw.fault` says, once it has ended, what broke it off.
    """
    # (else what is opened next would take the place of a stream that is closed)
    if sys.stderr is None:
        return 2
    if None in (sys.stdin, sys.stdout):
        parser.error("a standard stream is closed")
    archive = sys.stdin.buffer if words.archive == "-" else opened(parser, words.archive, "rb")
    source = io.BufferedReader(Unpacked(archive), PIECE)
    if words.map and os.path.exists(words.map) and is_same_file(archive, words.map):
        parser.error(f"{words.map}: the archive is no place for the map")
    map_file = opened(parser, words.map, "wb") if words.map else None
    script = Script(parser.prog, sys.stdout.buffer, map_file)
    script.transaction = words.transaction
    try:
        try:
            rows_of(words, source, script)
            if source.raw.fault:
                place = f"byte {source.raw.count}"
                script.skip(place, f"the archive breaks off: {source.raw.fault}")
        except Full as full:
            place, why = full.args
            script.skip(place, f"left out with all behind: {why}")
        script.commit()
        script.flush()
    except Unwritten as why:
        print(f"{parser.prog}: {why}", file=sys.stderr)
        # (so that the interpreter's own flush at its end has a place to write to)
        os.dup2(os.open(os.devnull, os.O_WRONLY), 1)
        return 1
    return script.status
