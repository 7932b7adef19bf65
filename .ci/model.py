"""A plain model of the program, random lines, and databases for them: what .ci/replies and .ci/served share.

The model keeps lists, and for a search reads the query and looks at each row of the table. Python 3.8 or later.
"""
import functools
import os
import random
import re
import subprocess

SCRIPT = os.path.join(os.path.dirname(os.path.dirname(os.path.realpath(__file__))), "fts")
KEYS = 50
VIEWS = ["INDEX_TABLE", "INDEX_CACHE", "DELETED", "BEING_DELETED", "CONFIG", "DEFAULT_STOPWORD"]
COLUMNS = ["title", "body"]
# The default stopwords in the order of the view, in which one stands twice.
LISTED_STOPWORDS = (
    "a about an are as at be by com de en for from how i in is it la of on or that the this to was what when where who will "
    "with und the www".split()
)
STOPWORDS = set(LISTED_STOPWORDS)
WORDS = "apple apples pear pears pie plum kiwi mango tart theory the of it's cat at 9ab x1 juice".split()
RAW_WORD = "[0-9A-Za-z_]+(?:'[0-9A-Za-z_]+)*"
RAW = re.compile(RAW_WORD)
# A phrase, and behind it what is the tail of a distance if its number is not too large.
QUOTED = re.compile('"(?P<quoted>[^"]*)"(?P<tail>[ \t]*@(?P<number>[0-9]+)(?![0-9A-Za-z_]))?')
TERM = re.compile(f"(?P<sign>[-+<>~]?)(?:(?P<word>{RAW_WORD})(?P<star>[*]?)|{QUOTED.pattern}|(?P<opens>[(]))|(?P<closes>[)])")
STRAY = re.compile('[-+<>~](?![0-9A-Za-z_"(])|(?<![0-9A-Za-z_])[*]|@')
QUERY_BYTES = 4096
QUERY_DEPTH = 32
SIGNS = ["", "", "", "+", "+", "-", "~", "<", ">"]
WORD_HEADER = "WORD|FIRST_DOC_ID|LAST_DOC_ID|DOC_COUNT|DOC_ID|POSITION"


def is_indexed(word):
    return 3 <= len(word) <= 84 and word not in STOPWORDS


@functools.lru_cache(maxsize=10_000)
def raw_words(text):
    return [found.group().lower() for found in RAW.finditer(text)]


def indexed_words(texts):
    """The indexed words of a row with their places, the columns as if one byte stood between them."""
    words, start = [], 0
    for text in texts:
        for found in RAW.finditer(text):
            word = found.group().lower()
            if is_indexed(word):
                words.append((word, start + found.start()))
        start += len(text) + 1
    return words


def number_len(number):
    """How many bytes a number has in a position list: one for each seven bits."""
    return max(1, (number.bit_length() + 6) // 7)


def document_len(last, doc, places):
    """How many bytes a document has in the list of a node whose last id is this."""
    size, before = number_len(doc - last) + 1, 0
    for place in places:
        size += number_len(place + 1 - before)
        before = place + 1
    return size


def packed(documents):
    """Documents by ascending ids in nodes of at most 8,192 bytes, or of one document."""
    nodes, size, last = [], 0, 0
    for doc, places in documents:
        more = document_len(last, doc, places)
        if nodes and size + more <= 8192:
            nodes[-1][doc] = places
            size += more
        else:
            nodes.append({doc: places})
            size = document_len(0, doc, places)
        last = doc
    return nodes


def joined(nodes):
    return [(doc, node[doc]) for node in nodes for doc in sorted(node)]


def settings_by(draw):
    """`--batch-docs`, `--cache-bytes` and `--optimize-words` of a database with batches and passes among few lines."""
    return draw.choice([1, 3, 20]), draw.choice([1000, 4000]), draw.choice([1, 3, 2000])


def created(folder, batch_docs, cache_bytes, optimize_words):
    """Whether a database with these settings was made."""
    words = ["--columns", ",".join(COLUMNS), "--batch-docs", str(batch_docs), "--cache-bytes", str(cache_bytes)]
    words += ["--optimize-words", str(optimize_words)]
    return subprocess.run([SCRIPT, folder, "create"] + words, stdout=subprocess.DEVNULL).returncode == 0


class Turn:
    """What a commit did: who was born in it, who died, and the largest id that was used after it."""

    def __init__(self, births, deaths, largest):
        self.births, self.deaths, self.largest = births, deaths, largest


class Insert:
    def __init__(self, key, given, texts):
        self.key, self.given, self.texts = key, given, texts

    def make(self, rows, largest, place):
        """The largest id behind it, and its refusal or none."""
        doc = largest + 1 if self.given is None else self.given
        if self.key in rows:
            return largest, f"ERROR duplicate key {self.key} in change {place}"
        if doc <= largest:
            return largest, f"ERROR document id {doc} not above {largest}"
        if doc - largest > 65535:
            return largest, f"ERROR document id {doc} more than 65535 above {largest}"
        rows[self.key] = (doc, tuple(self.texts))
        return doc, None


class Update:
    def __init__(self, key, news):
        self.key, self.news = key, news

    def make(self, rows, largest, place):
        if self.key not in rows:
            return largest, None
        _, texts = rows[self.key]
        rows[self.key] = (largest + 1, tuple(text if new is None else new for new, text in zip(self.news, texts)))
        return largest + 1, None


class Delete:
    def __init__(self, key):
        self.key = key

    def make(self, rows, largest, place):
        rows.pop(self.key, None)
        return largest, None


def made(rows, largest, changes):
    """The rows and the largest id behind changes, and the first refusal or none."""
    rows = dict(rows)
    for place, change in enumerate(changes, 1):
        largest, refusal = change.make(rows, largest, place)
        if refusal:
            return rows, largest, refusal
    return rows, largest, None


class Word:
    def __init__(self, word):
        self.word, self.stays = word, is_indexed(word)

    def holds(self, columns):
        return any(self.word in words for words in columns)


class Prefix:
    stays = True

    def __init__(self, front):
        self.front = front

    def holds(self, columns):
        return any(is_indexed(word) and word.startswith(self.front) for words in columns for word in words)


class Phrase:
    stays = True

    def __init__(self, phrase):
        self.phrase = phrase

    def holds(self, columns):
        count = len(self.phrase)
        stands = any(words[at : at + count] == self.phrase for words in columns for at in range(len(words)))
        return stands and any(is_indexed(word) for word in self.phrase)


class Distance:
    stays = True

    def __init__(self, words, number):
        self.wanted, self.number = {word for word in words if is_indexed(word)}, number

    def holds(self, columns):
        parts = (words[at : at + self.number + 1] for words in columns for at in range(len(words)))
        return bool(self.wanted) and any(self.wanted.issubset(part) for part in parts)


class Group:
    """A list of terms, which stays where one of them did."""

    def __init__(self, terms):
        self.must = [operand for sign, operand in terms if sign == "+"]
        self.never = [operand for sign, operand in terms if sign == "-"]
        self.may = [operand for sign, operand in terms if sign not in ("+", "-")]
        self.stays = bool(terms)

    def holds(self, columns):
        if any(operand.holds(columns) for operand in self.never):
            return False
        if self.must:
            return all(operand.holds(columns) for operand in self.must)
        return any(operand.holds(columns) for operand in self.may)


def without_phrase(found):
    """The first quote of a phrase, which a sign may stand before, and spaces for its other bytes and its tail."""
    tail = found["tail"] or ""
    is_tail = tail and int(found["number"]) <= 65535
    return '"'.ljust(len(found["quoted"]) + 2) + (" " * len(tail) if is_tail else tail)


def bracket_faults(plain):
    """The places of the brackets without a partner, and of those that stand too deep."""
    opened, alone, deep = [], [], []
    for found in re.finditer("[()]", plain):
        if found.group() == "(":
            opened.append(found.start())
            deep += opened[QUERY_DEPTH:]
        elif opened:
            opened.pop()
        else:
            alone.append(found.start())
    return alone + opened, deep


def query_refusal(query):
    """The refusal of a query, or none."""
    if len(query) > QUERY_BYTES:
        return f"ERROR query too long {len(query)}"
    plain = QUOTED.sub(without_phrase, query)
    faults, deep = bracket_faults(plain)
    faults += [found.start() for found in STRAY.finditer(plain)]
    # Quotes are paired from the left, so of an odd number the last has no partner.
    faults += [query.rindex('"')] if query.count('"') % 2 else []
    if faults:
        return f"ERROR query syntax at {min(faults) + 1}"
    return f"ERROR query too deep at {deep[0] + 1}" if deep else None


def read_operand(found):
    if found["word"]:
        word = found["word"].lower()
        return Prefix(word) if found["star"] else Word(word)
    words = raw_words(found["quoted"])
    return Distance(words, int(found["number"])) if found["tail"] else Phrase(words)


def read_query(query):
    """The terms of a query without a fault, but for words that can't be indexed and groups that are left without terms."""
    signs, lists = [], [[]]
    for found in TERM.finditer(query):
        if found["opens"]:
            signs.append(found["sign"])
            lists.append([])
            continue
        sign, term = (signs.pop(), Group(lists.pop())) if found["closes"] else (found["sign"], read_operand(found))
        if term.stays:
            lists[-1].append((sign, term))
    return Group(lists[0])


def scanned(rows, query):
    """The ids of the rows in which a query without a fault holds."""
    terms = read_query(query)
    docs = [doc for doc, texts in rows.values() if terms.holds([raw_words(text) for text in texts])]
    return " ".join(map(str, sorted(docs))) or "none"


class Model:
    def __init__(self, sessions, batch_docs, cache_bytes, optimize_words):
        self.sessions = sessions
        self.batch_docs, self.cache_bytes, self.optimize_words = batch_docs, cache_bytes, optimize_words
        self.is_open, self.being, self.checkpoint = False, set(), ""
        self.rows, self.turns, self.largest = {}, [], 0
        self.open = dict.fromkeys(self.sessions)
        self.flushed, self.synced, self.deleted, self.nodes = 0, 0, set(), {}

    # changes of rows

    def commit(self, changes):
        """The reply of a commit, which is made where no change is refused, with the batches behind it."""
        rows, largest, refusal = made(self.rows, self.largest, changes)
        if refusal:
            return refusal
        before, after = set(self.rows.values()), set(rows.values())
        births = sorted(after - before)
        deaths = sorted(doc for doc, _ in before - after)
        self.rows, self.largest = rows, largest
        self.turns.append(Turn(births, deaths, largest))
        reply = f"OK commit {len(self.turns)}"
        while self.cache_size() > self.cache_bytes and self.batch():
            pass
        return reply

    def change(self, session, change):
        if self.open[session] is None:
            return self.commit([change])
        self.open[session].append(change)
        return f"OK buffered {len(self.open[session])}"

    def begin(self, session):
        if not self.open[session]:
            self.open[session] = []
            return "OK begin"
        reply = self.commit(self.open[session])
        self.open[session] = [] if reply.startswith("OK") else None
        return f"{reply} begin" if reply.startswith("OK") else reply

    def end(self, session):
        changes, self.open[session] = self.open[session], None
        return self.commit(changes) if changes else "OK nothing to commit"

    def roll_back(self, session):
        changes, self.open[session] = self.open[session], None
        return f"OK rollback {len(changes or [])}"

    def stop(self):
        """The end of a script drops what is open."""
        self.open = dict.fromkeys(self.sessions)

    # the index

    def behind(self):
        return self.turns[self.flushed :]

    def cache_size(self):
        births = [texts for turn in self.behind() for _, texts in turn.births]
        return sum(16 + sum(len(word) + 8 for word, _ in indexed_words(texts)) for texts in births)

    def batch(self):
        if self.flushed == len(self.turns):
            return False
        count, births = 0, 0
        for turn in self.behind():
            births += len(turn.births)
            if births > self.batch_docs:
                break
            count += 1
        covered = self.behind()[: max(1, count)]
        dead = {doc for turn in self.turns for doc in turn.deaths}
        added = {}
        for turn in covered:
            for doc, texts in turn.births:
                if doc not in dead:
                    for word, place in indexed_words(texts):
                        added.setdefault(word, {}).setdefault(doc, []).append(place)
        for word, node in added.items():
            self.nodes.setdefault(word, []).extend(packed(sorted(node.items())))
        self.deleted |= {doc for turn in covered for doc in turn.deaths if doc <= self.synced}
        self.flushed += len(covered)
        self.synced = covered[-1].largest
        return True

    def sync(self):
        while self.batch():
            pass
        return f"OK sync as of {self.flushed}"

    def optimize_step(self):
        if not self.is_open:
            loose = any(packed(joined(nodes)) != nodes for nodes in self.nodes.values())
            if not self.deleted and not loose:
                return "nothing"
            self.is_open, self.being, self.checkpoint = True, set(self.deleted), ""
            return "began"
        behind = [word for word in self.nodes if word > self.checkpoint]
        if behind:
            word = self.checkpoint = min(behind)
            nodes = packed([(doc, places) for doc, places in joined(self.nodes.pop(word)) if doc not in self.being])
            if nodes:
                self.nodes[word] = nodes
            return "word"
        self.deleted -= self.being
        self.is_open, self.being, self.checkpoint = False, set(), ""
        return "finished"

    def optimize(self):
        count = words = 0
        while True:
            did = self.optimize_step()
            count += 1
            words += did == "word"
            if did == "nothing" and count == 1:
                return "OK optimize nothing"
            if did in ("nothing", "finished"):
                return f"OK optimize {words} words, pass finished"
            if words == self.optimize_words or count == self.optimize_words + 2:
                return f"OK optimize {words} words, pass open"

    # what is read

    def search(self, query):
        refusal = query_refusal(query)
        if refusal:
            return refusal
        return f"OK as of {len(self.turns)}: {scanned(self.rows, query)}"

    def listed(self, header, rows):
        return "\n".join([header] + rows + [f"OK {len(rows)} rows as of {len(self.turns)}"])

    def words(self, nodes):
        rows = []
        for word in sorted(nodes):
            for node in nodes[word]:
                front = f"{word}|{min(node)}|{max(node)}|{len(node)}"
                rows += [f"{front}|{doc}|{place}" for doc in sorted(node) for place in node[doc]]
        return self.listed(WORD_HEADER, rows)

    def cached(self):
        nodes = {}
        for turn in self.behind():
            for doc, texts in turn.births:
                for word, place in indexed_words(texts):
                    nodes.setdefault(word, [{}])[0].setdefault(doc, []).append(place)
        return nodes

    def view(self, name):
        if name == "INDEX_TABLE":
            return self.words(self.nodes)
        if name == "INDEX_CACHE":
            return self.words(self.cached())
        if name == "DELETED":
            dead = self.deleted | {doc for turn in self.behind() for doc in turn.deaths}
            return self.listed("DOC_ID", [str(doc) for doc in sorted(dead)])
        if name == "DEFAULT_STOPWORD":
            return self.listed("value", LISTED_STOPWORDS)
        if name == "BEING_DELETED":
            return self.listed("DOC_ID", [str(doc) for doc in sorted(self.being)])
        rows = ["max_token_size|84", "min_token_size|3", f"optimize_word|{self.checkpoint}", f"synced_commit|{self.flushed}"]
        return self.listed("KEY|VALUE", rows + [f"synced_doc_id|{self.synced}", "use_stopword|1"])


class Lines:
    """Random lines, each with what the model replies."""

    def __init__(self, seed, model):
        self.draw, self.model = random.Random(seed), model

    def word(self):
        # One is too long to be indexed.
        return self.draw.choice(WORDS) if self.draw.randrange(40) else "y" * 85

    def text(self):
        parts = (self.word() for _ in range(self.draw.randrange(8)))
        return self.draw.choice([" ", ", ", " -- "]).join(parts)

    def key(self):
        return self.draw.randrange(1, KEYS + 1)

    def insert(self):
        key, texts, given = self.key(), [self.text(), self.text()], None
        names, values = "id", f"{key}"
        if self.draw.randrange(10) == 0:
            given = self.model.largest + self.draw.choice([0, 1, 2, 7, 65536])
            names, values = "id, FTS_DOC_ID", f"{key}, {given}"
        quoted = ", ".join("'" + text.replace("'", "''") + "'" for text in texts)
        line = f"INSERT INTO docs ({names}, {', '.join(COLUMNS)}) VALUES ({values}, {quoted})"
        return line, Insert(key, given, texts)

    def update(self):
        key, news = self.key(), [None, None]
        chosen = self.draw.sample([0, 1], self.draw.randrange(1, 3))
        for place in chosen:
            news[place] = self.text()
        sets = ", ".join(f"{COLUMNS[place]} = '" + news[place].replace("'", "''") + "'" for place in chosen)
        return f"UPDATE docs SET {sets} WHERE id = {key}", Update(key, news)

    def delete(self):
        key = self.key()
        return f"DELETE FROM docs WHERE id = {key}", Delete(key)

    def transaction(self, session):
        kind = self.draw.randrange(5)
        if kind < 2:
            return self.draw.choice(["BEGIN", "START TRANSACTION"]), self.model.begin(session)
        if kind < 4:
            return "COMMIT", self.model.end(session)
        return "ROLLBACK", self.model.roll_back(session)

    def passage(self, most):
        """At most so many words: any, or some that follow one another in a row, also over the end of its first column."""
        count = self.draw.randrange(most + 1)
        if not self.model.rows or self.draw.randrange(4) == 0:
            return [self.word() for _ in range(count)]
        _, texts = self.draw.choice(list(self.model.rows.values()))
        words = raw_words(" ".join(texts))
        at = self.draw.randrange(len(words) + 1)
        return words[at : at + count]

    def prefix(self):
        word = self.word()
        return self.draw.choice(["zz", "9", word, word[:1], word[:2], word[:3]]) + "*"

    def phrase(self):
        return '"' + self.draw.choice([" ", " ", ", ", "*(+"]).join(self.passage(3)) + '"'

    def distance(self):
        words = self.passage(5)
        words = self.draw.sample(words, min(len(words), self.draw.choice([1, 2, 2, 3])))
        tail = self.draw.choice(["@", " @", "\t @", " @00"]) + str(self.draw.choice([0, 1, 1, 2, 2, 3, 4, 9, 65535]))
        return '"' + " ".join(words) + '"' + tail

    def operand(self, depth):
        kind = self.draw.randrange(20)
        if kind < 10:
            return self.word()
        if kind < 12:
            return self.prefix()
        if kind < 17:
            return self.phrase() if kind < 15 else self.distance()
        return "(" + self.terms(depth - 1) + ")" if depth else "()"

    def terms(self, depth):
        """Up to three terms, and at times one of them again."""
        operands = [self.operand(depth) for _ in range(self.draw.choice([0, 1, 1, 1, 1, 2, 2, 2, 2, 3, 3, 3]))]
        if operands and self.draw.randrange(5) == 0:
            operands.append(self.draw.choice(operands))
        gap = self.draw.choice([" ", " ", " ", ", ", "\t", ""])
        return gap.join(self.draw.choice(SIGNS) + operand for operand in operands)

    def spoiled(self, query):
        """A query with some bytes more or less, which may put it at fault."""
        for _ in range(self.draw.randrange(1, 4)):
            at = self.draw.randrange(len(query) + 1)
            query = query[:at] + self.draw.choice(list("+-<>~*@()\"' ,3a") + [""]) + query[at + self.draw.randrange(2) :]
        return query

    def query(self):
        query, kind = self.terms(3), self.draw.randrange(200)
        if kind < 2:
            return query.ljust(QUERY_BYTES + kind)
        if kind < 6:
            depth = QUERY_DEPTH - 2 + self.draw.randrange(4)
            query = "(" * depth + query + ")" * depth
        if 4 <= kind < 30:
            return self.spoiled(query)
        return query.upper() if kind < 60 else query

    def search(self):
        query = self.query()
        quoted = query.replace("'", "''")
        line = f"SELECT FTS_DOC_ID FROM docs WHERE MATCH ({', '.join(COLUMNS)}) AGAINST ('{quoted}' IN BOOLEAN MODE)"
        return line, self.model.search(query)

    def view(self):
        name = self.draw.choice(VIEWS)
        return f"SELECT * FROM INFORMATION_SCHEMA.INNODB_FT_{name}", self.model.view(name)

    def statement(self, session):
        kind = self.draw.randrange(100)
        if kind < 48:
            line, change = self.insert() if kind < 22 else self.update() if kind < 37 else self.delete()
            return line, self.model.change(session, change)
        if kind < 55:
            return self.transaction(session)
        if kind < 90:
            return self.search()
        if kind < 93:
            return "SYNC", self.model.sync()
        if kind < 96:
            return "OPTIMIZE TABLE docs", self.model.optimize()
        return self.view()

    def next(self):
        session = self.draw.choice(self.model.sessions)
        line, reply = self.statement(session)
        number = "" if session == 1 and self.draw.randrange(2) else f"{session}: "
        return number + line, reply
