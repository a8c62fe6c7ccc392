"""Stores, written and read a second time: from docs/store.md, which has the format and its rules.

Writing    header, promise, accept, cut, entry     the bytes of a frame
           Pages                                   records over pages, with their LSNs
Reading    read_frame(data)                        what stands at the front of bytes
           read_store(read, node, cluster)         what a store stands for, and where it ends
           is_sound(accepted, log)                 whether a log may be taken up
Calls      MemStore, open_log, stand, append       a store in memory that fails as planned, and a node over it

Nothing is shared with the Rattle code: a reader cuts slices off bytes, and a log is judged by laying its records over
pages that are dicts.
"""

from collections import namedtuple

END = 2 ** 62
HEADER_SIZE = 27
CHUNK = 4096
KINDS = {1: "Integer", 2: "Text", 3: "Blob"}
LEVELS = {1: "snapshot", 2: "serializable"}
HEADS = ("free", "leaf", "inner", "meta")
BLANK_HEAD = (0, 0, 0)
PAGE_ROOM = 4072

Column = namedtuple("Column", "name kind nullable")
Key = namedtuple("Key", "name unique places")
Table = namedtuple("Table", "name columns keys")
Record = namedtuple("Record", "lsn prev page edit")
Setup = namedtuple("Setup", "generation tables records")
Commit = namedtuple("Commit", "generation level began session txn begin changes records")
Text = namedtuple("Text", "bytes")
Blob = namedtuple("Blob", "bytes")


class Bad(Exception):
    """Bytes are no frame, or a frame breaks its rule."""


def need(holds):
    if not holds:
        raise Bad


# Writing.


def number(value, size):
    return value.to_bytes(size, "big")


def sized(data, size):
    """Bytes behind their length."""
    return number(len(data), size) + data


def envelope(kind, payload):
    return number(kind, 1) + sized(payload, 8)


def header(version=1, node=2, cluster=7):
    return envelope(1, number(version, 1) + number(node, 1) + number(cluster, 16))


def promise(generation):
    return envelope(2, number(generation, 8))


def accept(generation):
    return envelope(3, number(generation, 8))


def cut(length):
    return envelope(5, number(length, 8))


def value_code(value):
    if value is None:
        return b"\0"
    if isinstance(value, Text):
        return b"\2" + sized(value.bytes, 4)
    if isinstance(value, Blob):
        return b"\3" + sized(value.bytes, 4)
    return b"\1" + value.to_bytes(8, "big", signed=True)


def row_code(row):
    return b"".join(value_code(value) for value in row)


def key_code(row):
    """The code of a key: bytes whose order is that of the values."""
    code = b""
    for value in row:
        if value is None:
            code += b"\0"
        elif isinstance(value, int):
            code += b"\1" + number(value + 2 ** 63, 8)
        else:
            tag = b"\2" if isinstance(value, Text) else b"\3"
            code += tag + value.bytes.replace(b"\0", b"\0\xff") + b"\0\0"
    return code


def table_bytes(table):
    data = sized(table.name, 1) + number(len(table.columns), 1)
    for column in table.columns:
        data += sized(column.name, 1) + number(column.kind, 1) + number(column.nullable, 1)
    data += number(len(table.keys), 1)
    for key in table.keys:
        data += sized(key.name, 1) + number(key.unique, 1) + sized(bytes(key.places), 1)
    return data


def change_bytes(change):
    kind, table, *rest = change
    data = number({"insert": 1, "update": 2, "delete": 3}[kind], 1) + number(table, 2)
    for genid, row in zip(rest[::2], rest[1::2]):
        data += number(genid, 8) + sized(row_code(row), 4)
    return data


def head_bytes(head):
    kind, level, right = head
    return number(kind, 1) + number(level, 1) + number(right, 8)


def record_bytes(record):
    data = number(record.lsn, 8) + number(record.prev, 8) + number(record.page, 8)
    kind, *rest = record.edit
    data += number({"put": 1, "take": 2, "swap": 3, "head": 4}[kind], 1)
    if kind == "head":
        return data + head_bytes(rest[0]) + head_bytes(rest[1])
    return data + number(rest[0], 2) + b"".join(sized(cell, 2) for cell in rest[1:])


def entry_bytes(entry):
    data = number(entry.generation, 8)
    if isinstance(entry, Setup):
        data += b"\0" + number(len(entry.tables), 2) + b"".join(map(table_bytes, entry.tables))
    else:
        data += number(entry.level, 1) + number(entry.began, 8) + sized(entry.session, 1)
        data += number(entry.txn, 8) + number(entry.begin, 8)
        data += number(len(entry.changes), 8) + b"".join(map(change_bytes, entry.changes))
    return data + number(len(entry.records), 8) + b"".join(map(record_bytes, entry.records))


def entry(what):
    return envelope(4, entry_bytes(what))


class Pages:
    """Pages that are edited, each edit by a record with the next LSN."""

    def __init__(self):
        self.pages, self.lsn, self.records = {}, 0, []

    def taken(self):
        """The records since the last ones were taken."""
        records, self.records = self.records, []
        return records

    def edit(self, page, *edit):
        self.lsn += 1
        before = self.pages.get(page, new_page())["lsn"]
        record = Record(self.lsn, before, page, edit)
        lay(self.pages, record)
        self.records.append(record)

    def put(self, page, at, cell):
        self.edit(page, "put", at, cell)

    def take(self, page, at):
        self.edit(page, "take", at, self.pages[page]["cells"][at])

    def swap(self, page, at, cell):
        self.edit(page, "swap", at, self.pages[page]["cells"][at], cell)

    def head(self, page, head):
        self.edit(page, "head", self.pages.get(page, new_page())["head"], head)


# Reading bytes.


class Reader:
    """The bytes of a payload that are left. Numbers of 8 bytes are below 2^62."""

    def __init__(self, data):
        self.data = data

    def take(self, size):
        need(size <= len(self.data))
        taken, self.data = self.data[:size], self.data[size:]
        return taken

    def number(self, size):
        value = int.from_bytes(self.take(size), "big")
        need(size != 8 or value < END)
        return value

    def among(self, most, least=0):
        """A number of one byte in a range."""
        value = self.number(1)
        need(least <= value <= most)
        return value

    def sized(self, size):
        return self.take(int.from_bytes(self.take(size), "big"))


def read_row(data):
    left, row = Reader(data), []
    while left.data:
        tag = left.among(3)
        if tag == 0:
            row.append(None)
        elif tag == 1:
            row.append(int.from_bytes(left.take(8), "big", signed=True))
        elif tag == 2:
            row.append(Text(left.sized(4)))
            try:
                row[-1].bytes.decode("utf-8")
            except UnicodeDecodeError:
                raise Bad
        else:
            row.append(Blob(left.sized(4)))
    return tuple(row)


def read_table(left):
    name = left.sized(1)
    columns = [Column(left.sized(1), left.among(3, 1), left.among(1)) for _ in range(left.number(1))]
    keys = [Key(left.sized(1), left.among(1), tuple(left.sized(1))) for _ in range(left.number(1))]
    return Table(name, tuple(columns), tuple(keys))


def is_name(name):
    return 1 <= len(name) <= 32


def are_apart(things):
    return len(set(things)) == len(things)


def check_table(table):
    """A table that a schema may have."""
    columns, keys = table.columns, table.keys
    need(is_name(table.name) and len(columns) <= 64 and len(keys) <= 8)
    for parts in (columns, keys):
        need(all(is_name(part.name) for part in parts) and are_apart([part.name for part in parts]))
    for key in keys:
        need(1 <= len(key.places) <= 8 and all(place < len(columns) for place in key.places))
        need(not key.unique or not any(columns[place].nullable for place in key.places))


def read_tables(left):
    tables = []
    for _ in range(left.number(2)):
        table = read_table(left)
        need(len(tables) < 64 and table.name not in [other.name for other in tables])
        check_table(table)
        tables.append(table)
    return tables


def read_change(left):
    kind, table = left.among(3, 1), left.number(2)
    change = [("insert", "update", "delete")[kind - 1], table, left.number(8), read_row(left.sized(4))]
    if kind == 2:
        change += [left.number(8), read_row(left.sized(4))]
    return tuple(change)


def read_head(left):
    return (left.among(3), left.number(1), left.number(8))


def read_record(left):
    lsn, prev, page = left.number(8), left.number(8), left.number(8)
    kind = left.among(4, 1)
    if kind == 4:
        return Record(lsn, prev, page, ("head", read_head(left), read_head(left)))
    edit = (("put", "take", "swap")[kind - 1], left.number(2), left.sized(2))
    return Record(lsn, prev, page, edit + (left.sized(2),) if kind == 3 else edit)


def read_many(left, read):
    return [read(left) for _ in range(left.number(8))]


def read_entry(left):
    generation, tag = left.number(8), left.among(2)
    if tag == 0:
        return Setup(generation, read_tables(left), read_many(left, read_record))
    parts = (left.number(8), left.sized(1), left.number(8), left.number(8))
    return Commit(generation, tag, *parts, read_many(left, read_change), read_many(left, read_record))


def read_payload(kind, payload):
    left = Reader(payload)
    if kind == 1:
        frame = ("header", left.number(1), left.number(1), left.number(16))
    elif kind == 4:
        frame = ("entry", read_entry(left))
    else:
        frame = ({2: "promise", 3: "accept", 5: "cut"}[kind], left.number(8))
    need(not left.data)
    return frame


def read_frame(data):
    """The frame at the front and its size; None where less than an envelope stands there. Raises Bad."""
    need(not data or 1 <= data[0] <= 5)
    size = int.from_bytes(data[1:9], "big")
    if len(data) < 9 or len(data) - 9 < size:
        return None
    return read_payload(data[0], data[9:9 + size]), 9 + size


# What a store stands for.


def new_page():
    return {"head": BLANK_HEAD, "lsn": 0, "cells": []}


def lay(pages, record):
    """Lays a record over its page. Raises Bad where it does not fit."""
    page = pages.setdefault(record.page, new_page())
    need(record.prev == page["lsn"])
    page["lsn"] = record.lsn
    kind, *rest = record.edit
    cells = page["cells"]
    if kind == "head":
        need(page["head"] == rest[0])
        page["head"] = rest[1]
    elif kind == "put":
        need(rest[0] <= len(cells))
        cells.insert(rest[0], rest[1])
    else:
        need(rest[0] < len(cells) and cells[rest[0]] == rest[1])
        cells[rest[0]:rest[0] + 1] = rest[2:]
    need(sum(len(cell) + 4 for cell in cells) <= PAGE_ROOM)


class Log:
    """Entries whose records fit, and the pages that these make."""

    def __init__(self, entries=()):
        self.entries, self.pages, self.lsn = [], {}, 0
        for one in entries:
            self.add(one)

    def add(self, one):
        for record in one.records:
            self.lsn += 1
            need(record.lsn == self.lsn)
            lay(self.pages, record)
        self.entries.append(one)

    def takes(self, one):
        try:
            Log(self.entries + [one])
            return True
        except Bad:
            return False


class Held:
    """What the frames so far stand for. An open adoption is a log beside the log."""

    def __init__(self):
        self.promised, self.accepted, self.log, self.adopting = 0, 0, Log(), None

    def take(self, frame):
        """Takes a frame behind the header. Raises Bad where it may not stand there."""
        kind, value = frame[0], frame[1]
        need(kind != "header")
        if kind == "promise":
            need(value > self.promised)
            self.promised, self.adopting = value, None
        elif kind == "cut":
            need(value <= len(self.log.entries))
            self.adopting = Log(self.log.entries[:value])
        elif kind == "accept":
            need(self.promised == value > self.accepted)
            self.accepted = value
            self.log, self.adopting = self.adopting or self.log, None
        elif self.adopting is not None:
            self.adopting.add(value)
        else:
            need(value.generation == self.accepted)
            self.log.add(value)


# What a store stands for: a log with both generations. `closed` is the offset where the last frame ends behind which
# no adoption is open, None where there is no header yet; `size` is how many bytes there are.
Standing = namedtuple("Standing", "promised accepted log closed size")


class Foreign(Exception):
    """The header is another's."""


class BadFrame(Exception):
    """A frame is bad, at an offset."""


def read_store(read, node, cluster):
    """What a store stands for. `read(at)` gives some bytes from an offset on, none at the end."""
    window = b""
    while len(window) < HEADER_SIZE:
        more = read(len(window))
        if not more:
            break
        window += more
    front = header()[:9]
    if not window[:9] == front[:len(window)]:
        raise BadFrame(0)
    if len(window) < HEADER_SIZE:
        return Standing(0, 0, Log(), None, len(window))
    if window[:HEADER_SIZE] != header(1, node, cluster):
        raise Foreign
    return read_frames(read, window)


def read_frames(read, window):
    """The frames behind the header, with more bytes where less than an envelope is left."""
    held, at, closed = Held(), HEADER_SIZE, HEADER_SIZE
    while True:
        try:
            found = read_frame(window[at:])
            if found:
                held.take(found[0])
        except Bad:
            raise BadFrame(at)
        if found:
            at += found[1]
            closed = at if held.adopting is None else closed
            continue
        more = read(len(window))
        if not more:
            return Standing(held.promised, held.accepted, held.log, closed, len(window))
        window += more


def standing(data, node, cluster):
    return read_store(lambda at: data[at:], node, cluster)


# Which logs are taken up.


def leaf_pair(cell):
    """The key and the value of a cell of a leaf."""
    left = Reader(cell)
    key = left.sized(2)
    need(len(key) <= 1630 and len(cell) <= 1640)
    return key, left.data


def walk_tree(pages, at, used):
    """The level of a page, the leaves below it in order, and the pairs that they list."""
    need(at not in used)
    used.append(at)
    page = pages.get(at, new_page())
    if page["head"][0] == 1:
        need(page["head"][1] == 0)
        return 0, [at], [leaf_pair(cell) for cell in page["cells"]]
    need(page["head"][0] == 2 and page["cells"])
    levels, leaves, pairs = set(), [], []
    for place, cell in enumerate(page["cells"]):
        key, child = leaf_pair(cell)
        need(len(child) == 8 and (place > 0 or key == b""))
        level, others, listed = walk_tree(pages, int.from_bytes(child, "big"), used)
        need(all(before < key for before, _ in pairs) and all(key <= own for own, _ in listed))
        levels.add(level)
        leaves, pairs = leaves + others, pairs + listed
    need(len(levels) == 1 and page["head"][1] == min(level + 1, 255))
    return level + 1, leaves, pairs


def read_tree(pages, root, used):
    """The pairs of a tree, in order."""
    _, leaves, pairs = walk_tree(pages, root, used)
    for at, right in zip(leaves, leaves[1:] + [0]):
        need(pages[at]["head"][2] == right)
    keys = [key for key, _ in pairs]
    need(all(key < other for key, other in zip(keys, keys[1:])))
    return pairs


def read_free(pages, at, used):
    """Goes along the free pages."""
    while at:
        page = pages.get(at, new_page())
        need(at not in used and page["head"][:2] == (0, 0) and not page["cells"])
        used.append(at)
        at = page["head"][2]


def is_of_column(value, column):
    if value is None:
        return bool(column.nullable)
    kind = 1 if isinstance(value, int) else 2 if isinstance(value, Text) else 3
    return kind == column.kind


def check_rows(pairs, table, next_genid):
    """The versions of a table's tree."""
    versions = []
    for key, code in pairs:
        row = read_row(code)
        need(len(key) == 8 and len(code) <= 1600 and len(row) == len(table.columns))
        need(int.from_bytes(key, "big") < next_genid)
        need(all(is_of_column(value, column) for value, column in zip(row, table.columns)))
        versions.append((key, row))
    return versions


def key_pairs(versions, key):
    """The pairs that the tree of a key is to list."""
    pairs = []
    for genid, row in versions:
        code = key_code([row[place] for place in key.places])
        need(len(code) <= 512)
        pairs.append((code, genid) if key.unique else (code + genid, b""))
    need(are_apart([code for code, _ in pairs]))
    return sorted(pairs)


def check_state(pages, tables):
    """Pages stand for a good state of these tables."""
    meta = pages.get(0, new_page())
    need(meta["head"][0] == 3 and len(meta["cells"]) == 1 and len(meta["cells"][0]) == 24)
    cell = Reader(meta["cells"][0])
    next_genid, count, free = cell.number(8), cell.number(8), int.from_bytes(cell.take(8), "big")
    used = [0]
    read_free(pages, free, used)
    root = 1
    for table in tables:
        versions = check_rows(read_tree(pages, root, used), table, next_genid)
        for place, key in enumerate(table.keys):
            need(read_tree(pages, root + 1 + place, used) == key_pairs(versions, key))
        root += 1 + len(table.keys)
    need(all(at < count for at in used))
    need(all(at < count or page["head"] == BLANK_HEAD and not page["cells"] for at, page in pages.items()))


def is_sound(accepted, log):
    """Whether a log may be taken up, where this generation is the accepted one."""
    entries = log.entries
    if not entries:
        return True
    try:
        need(isinstance(entries[0], Setup) and all(isinstance(one, Commit) for one in entries[1:]))
        need(are_apart([(one.began, one.session, one.txn) for one in entries[1:]]))
        need(all(one.began <= accepted for one in entries[1:]))
        check_state(log.pages, entries[0].tables)
    except Bad:
        return False
    return True


def differing_table(logged, given):
    """The place of the first given table that differs from the log's there, of the last given one where the log has
    more; None where all are the same, or none is given."""
    if not given:
        return None
    for place, table in enumerate(given):
        if logged[place:place + 1] != [table]:
            return place
    return len(given) - 1 if len(logged) > len(given) else None


# Calls.


class Failed(Exception):
    """A call of a store fails. Behind a log that was read it has the length of that log as its argument."""


class MemStore:
    """A store in memory. The calls with the numbers of `fails` fail, from 1. It stops once so many bytes are appended,
    and fails from then on until it is halted. A halt keeps so many of the pending bytes."""

    def __init__(self, synced, fails=(), stop_after=None, keeps=0):
        self.synced, self.pending = synced, b""
        self.fails, self.left, self.keeps, self.calls = fails, stop_after, keeps, 0

    def call(self):
        self.calls += 1
        if self.left == 0 or self.calls in self.fails:
            raise Failed

    def read(self, at):
        self.call()
        return self.synced[at:at + CHUNK]

    def append(self, data):
        self.call()
        room = len(data) if self.left is None else min(self.left, len(data))
        self.pending += data[:room]
        if self.left is not None:
            self.left -= room
        if room < len(data):
            raise Failed

    def sync(self):
        self.call()
        self.synced, self.pending = self.synced + self.pending, b""

    def cut(self, at):
        self.call()
        self.synced = self.synced[:at]

    def halt(self):
        self.synced, self.pending = self.synced + self.pending[:self.keeps], b""
        if self.left == 0:
            self.left = None


def keep(store, data):
    """Appends bytes and syncs them; a store that fails there is halted."""
    try:
        store.append(data)
        store.sync()
    except Failed:
        store.halt()
        raise


def open_log(store, node, cluster):
    """What a store stands for. It gets its header where it has none, and what stands for nothing is cut off."""
    found = read_store(store.read, node, cluster)
    closed = found.closed or 0
    try:
        if closed < found.size:
            store.cut(closed)
        if found.closed is None:
            keep(store, header(1, node, cluster))
    except Failed:
        raise Failed(len(found.log.entries)) from None
    return found
