#!/usr/bin/env python3
"""The cases of crates/store_cases, answered a second time, by store_model.py; drawn ones are made here.

    store_cases.py write | draw SEED FOLDER      see case_files.py
"""

import random

import case_files
import store_model as model
from store_model import Bad, BadFrame, Blob, Column, Commit, Failed, Foreign, Key, MemStore, Setup, Table, Text

NODE, CLUSTER = 2, 7


# Frames as text.


def shown_bytes(data, mark):
    if mark != "x" and all(32 <= byte < 127 and byte != 39 for byte in data):
        return "'" + data.decode("ascii") + "'"
    return f"{mark}'{data.hex()}'"


def shown_value(value):
    if value is None:
        return "null"
    if isinstance(value, Text):
        return shown_bytes(value.bytes, "t")
    return shown_bytes(value.bytes, "x") if isinstance(value, Blob) else str(value)


def shown_row(row):
    return "(" + ", ".join(map(shown_value, row)) + ")"


def shown_table(table):
    yield f"    table {shown_bytes(table.name, 'b')}"
    for column in table.columns:
        null = " null" if column.nullable else ""
        yield f"      column {shown_bytes(column.name, 'b')} {model.KINDS[column.kind]}{null}"
    for key in table.keys:
        unique = " unique" if key.unique else ""
        yield f"      key {shown_bytes(key.name, 'b')}{unique}" + "".join(f" {place}" for place in key.places)


def shown_change(change):
    kind, table, *rest = change
    rows = "".join(f" {genid} {shown_row(row)}" for genid, row in zip(rest[::2], rest[1::2]))
    return f"    {kind} {table}{rows}"


def shown_head(head):
    return f"{model.HEADS[head[0]]} {head[1]} {head[2]}"


def shown_record(record):
    kind, *rest = record.edit
    if kind == "head":
        edit = f"head {shown_head(rest[0])} {shown_head(rest[1])}"
    else:
        edit = " ".join([kind, str(rest[0])] + [shown_bytes(cell, "b") for cell in rest[1:]])
    return f"    record {record.lsn} prev {record.prev} page {record.page} {edit}"


def shown_entry(entry):
    if isinstance(entry, Setup):
        yield f"setup {entry.generation}"
        for table in entry.tables:
            yield from shown_table(table)
    else:
        session = shown_bytes(entry.session, "b")
        level = model.LEVELS[entry.level]
        yield f"commit {entry.generation} {level} {session} {entry.began} {entry.txn} {entry.begin}"
        yield from map(shown_change, entry.changes)
    yield from map(shown_record, entry.records)


def shown_frame(frame):
    if frame[0] == "entry":
        return "\n".join(shown_entry(frame[1]))
    return " ".join(map(str, frame))


# Answers.


def frames(data):
    lines, at = [], 0
    while True:
        try:
            found = model.read_frame(data[at:])
        except Bad:
            return lines + [f"  {at} bad"]
        if not found:
            return lines + [f"  {at} short {len(data) - at}"]
        lines.append(f"  {at} {shown_frame(found[0])}")
        at += found[1]


def reading(data):
    try:
        found = model.read_frame(data)
        return f"whole {found[1]}" if found else "short"
    except Bad:
        return "bad"


def guarded(call):
    """What a call over a store comes to, or why it does not."""
    try:
        return call()
    except Foreign:
        return "foreign"
    except BadFrame as bad:
        return f"bad {bad.args[0]}"


def stand(data):
    def told():
        found = model.standing(data, NODE, CLUSTER)
        return f"log {found.promised} {found.accepted} {len(found.log.entries)}"
    return ["  " + guarded(told)]


def opened(data):
    def told():
        store = MemStore(data)
        found = model.open_log(store, NODE, CLUSTER)
        return f"log {found.promised} {found.accepted} {len(found.log.entries)} left {len(store.synced)}"
    return guarded(told)


def fronts(data, every=1):
    return [(size, data[:size]) for size in [*range(0, len(data), every), len(data)]]


def turned(data, bits, every=1):
    places = range(0, len(data), every)
    return [(at, data[:at] + bytes([data[at] ^ bits]) + data[at + 1:]) for at in places]


def joined(answers):
    """Numbered answers, the same ones behind each other by one line."""
    runs = []
    for at, told in answers:
        if runs and runs[-1][2] == told:
            runs[-1][1] = at
        else:
            runs.append([at, at, told])
    return [f"  {first}..{last} {told}" for first, last, told in runs]


class Node:
    """A node over its store, as the steps of a run leave it. A log is there where the node is up."""

    def __init__(self, store, given):
        self.store, self.held, self.told = store, None, []
        self.entries = [frame[1] for frame in given_frames(given) if frame[0] == "entry"]

    def step(self, word):
        """Does a step, where it can be done."""
        if word in ("open", "node", "size"):
            if self.held:
                self.store.halt()
                self.held = None
            getattr(self, word)()
        elif self.held:
            self.stand(word) if word in ("stand", "begin") else self.append()

    def size(self):
        self.told.append(f"size {len(self.store.synced)}")

    def open_log(self):
        """Opens the log, and tells whether it is."""
        found = model.open_log(self.store, NODE, CLUSTER)
        self.held = model.Held()
        self.held.promised, self.held.accepted, self.held.log = found.promised, found.accepted, found.log

    def open(self):
        def told():
            self.open_log()
            return f"open {self.held.promised} {self.held.accepted} {len(self.held.log.entries)}"
        try:
            self.told.append(guarded(told))
        except Failed:
            self.told.append("fault")

    def keep(self, data):
        """Keeps bytes in the store; where it fails the node is shut."""
        try:
            model.keep(self.store, data)
        except Failed:
            self.held = None
            self.told.append("fault")
            return False
        return True

    def rise(self):
        """Promises and accepts the next generation; None where there is none, False where the store fails."""
        held, generation = self.held, self.held.promised + 1
        if generation >= model.END:
            return None
        if not self.keep(model.promise(generation) + model.accept(generation)):
            return False
        held.promised = held.accepted = generation
        return True

    def stand(self, word):
        if word == "begin" and self.held.accepted > 0:
            return
        risen = self.rise()
        if risen is not False:
            self.told.append(f"stand {self.held.accepted}" if risen else "none")

    def append(self):
        held, entries = self.held, self.held.log.entries
        if len(entries) >= len(self.entries):
            self.told.append("no entry")
            return
        entry = self.entries[len(entries)]
        if entry.generation != held.accepted or not held.log.takes(entry):
            self.told.append("unfit")
        elif self.keep(model.entry(entry)):
            held.log.add(entry)
            self.told.append(f"entry {len(entries)}")

    def node(self):
        """Opens the node, with the tables of the given setup, or none."""
        first = self.entries[:1]
        given = first[0].tables if first and isinstance(first[0], Setup) else []
        try:
            self.open_log()
        except Failed as failed:
            self.told.append(f"fault {failed.args[0] if failed.args else 0}")
        except Foreign:
            self.told.append("refused 0")
        except BadFrame as bad:
            self.told.append(f"refused {bad.args[0]}")
        else:
            self.take_up(given)

    def take_up(self, given):
        held, base = self.held, len(self.held.log.entries)
        logged = held.log.entries[0].tables if base and isinstance(held.log.entries[0], Setup) else []
        if not model.is_sound(held.accepted, held.log):
            self.told.append("unsound")
            self.held = None
            return
        differs = model.differing_table(logged, given) if base else None
        if differs is not None:
            self.told.append(f"differs {differs}")
            self.held = None
            return
        risen = self.rise()
        if risen and base == 0:
            # Its records are of its own choice; its size is not told.
            setup = Setup(held.accepted, given, Tree(given).pages.taken())
            risen = self.keep(model.entry(setup))
            held.log.add(setup)
        if risen:
            self.told.append(f"node {base} {held.accepted}")
        elif risen is None:
            self.told.append("none")
            self.held = None
        else:
            self.told[-1] = f"fault {base}"


def given_frames(data):
    found = []
    while True:
        one = model.read_frame(data)
        if not one:
            return found
        found.append(one[0])
        data = data[one[1]:]


def run(store, given, steps):
    node = Node(store, given)
    for word in steps:
        node.step(word)
    return ", ".join(node.told)


def until_calm(make_store, given, steps, every=1):
    """Runs over the stores with each number from 1 on that `every` divides, to the first that does not fail."""
    answers, at = [], 0
    while not answers or "fault" in answers[-1][1]:
        at += every
        answers.append((at, run(make_store(at), given, steps)))
    return joined(answers)


class Case:
    """The store's bytes, and those of the frames that steps take."""

    def __init__(self):
        self.store, self.given, self.is_given, self.every = b"", b"", False, 1

    def take(self, line):
        """The lines that answer a line."""
        line = line.strip()
        word, _, rest = line.partition(" ")
        if word in ("", "#"):
            return []
        if word == "case":
            self.__init__()
            return [line]
        if word in ("store", "given"):
            self.is_given = word == "given"
            self.add(rest)
            return []
        if word == "every":
            self.every = int(rest)
            return []
        if len(word) > 1 and all(digit in "0123456789abcdefABCDEF" for digit in word):
            self.add(line)
            return []
        return [line] + self.answer(word, rest.split())

    def add(self, digits):
        data = bytes.fromhex(digits.partition("#")[0])
        if self.is_given:
            self.given += data
        else:
            self.store += data

    def answer(self, word, rest):
        store, given = self.store, self.given
        if word == "frames":
            return frames(store)
        if word == "stand":
            return stand(store)
        if word == "fronts":
            return joined((at, reading(data)) for at, data in fronts(store))
        if word == "cuts":
            return joined((at, opened(data)) for at, data in fronts(store, self.every))
        if word == "file":
            return ["  " + run(MemStore(store), given, ["open", "stand", "size"])]
        if word == "run":
            return ["  " + run(MemStore(store), given, rest)]
        size, steps = int(rest[0]), rest[1:]
        if word == "bits":
            return joined((at, reading(data)) for at, data in turned(store, size))
        if word == "turns":
            return joined((at, opened(data)) for at, data in turned(store, size, self.every))
        if word == "fails":
            return until_calm(lambda at: MemStore(store, fails=(at,), keeps=size), given, steps)
        return until_calm(lambda at: MemStore(store, stop_after=at, keeps=size), given, steps, self.every)


def answers(lines):
    case = Case()
    return [told for line in lines for told in case.take(line)]


# Drawn cases.


class Draw:
    """Draws stores: frames that mostly keep their rules, over pages of which each log has its own."""

    def __init__(self, seed):
        self.random = random.Random(seed)

    def name(self, most=4):
        return bytes(self.random.choice(b"abcxyz_'\xff") for _ in range(self.random.randint(1, most)))

    def table(self, name):
        count = self.random.randint(0, 3)
        draw = self.random.randint
        columns = tuple(Column(b"c%d" % place, draw(1, 3), draw(0, 1)) for place in range(count))
        keys = ()
        if columns and self.random.random() < 0.7:
            places = tuple(self.random.randrange(count) for _ in range(self.random.randint(1, 2)))
            unique = int(not any(columns[place].nullable for place in places))
            keys = (Key(b"k", unique, places),)
        return Table(name, columns, keys)

    def value(self):
        which = self.random.randrange(4)
        data = bytes(self.random.choice(b"\0az\x7f") for _ in range(self.random.randint(0, 3)))
        return (None, self.random.choice((0, -1, 7, 2 ** 63 - 1, -2 ** 63)), Text(data), Blob(data + b"\xff"))[which]

    def row(self):
        return tuple(self.value() for _ in range(self.random.randint(0, 3)))

    def change(self):
        kind = self.random.choice(("insert", "update", "delete"))
        genid = self.random.randint(0, 9)
        rest = (genid, self.row()) if kind != "update" else (genid, self.row(), genid + 1, self.row())
        return (kind, self.random.randint(0, 2)) + rest

    def edit(self, pages):
        """Edits a page at random."""
        at = self.random.randint(0, 3)
        page = pages.pages.get(at, model.new_page())
        cell = bytes(self.random.choice(b"\0ab") for _ in range(self.random.randint(0, 3)))
        count, which = len(page["cells"]), self.random.randrange(4)
        if which == 0 or which < 3 and count == 0:
            pages.put(at, self.random.randint(0, count), cell)
        elif which == 1:
            pages.take(at, self.random.randrange(count))
        elif which == 2:
            pages.swap(at, self.random.randrange(count), cell)
        else:
            pages.head(at, (self.random.randint(0, 3), self.random.randint(0, 2), self.random.randint(0, 9)))

    def records(self, log):
        """Records that fit behind a log; one time in twelve the first of them does not."""
        pages = model.Pages()
        pages.pages, pages.lsn = model.Log(log.entries).pages, log.lsn
        for _ in range(self.random.choice((0, 1, 1, 2))):
            self.edit(pages)
        records = pages.taken()
        if records and self.random.random() < 0.08:
            part = self.random.choice(("lsn", "prev", "page"))
            records[0] = records[0]._replace(**{part: getattr(records[0], part) + 1})
        return records

    def entry(self, log, generation):
        if not log.entries and self.random.random() < 0.8:
            tables = [self.table(name) for name in (b"t", b"u")[:self.random.randint(0, 2)]]
            return Setup(generation, tables, self.records(log))
        changes = [self.change() for _ in range(self.random.choice((0, 1, 1, 2)))]
        level, began = self.random.randint(1, 2), self.random.randint(0, 3)
        txn, begin = self.random.randint(1, 3), len(log.entries)
        return Commit(generation, level, began, self.name(), txn, begin, changes, self.records(log))

    def frame(self, held):
        """A frame that may stand there, as a rule."""
        which, slip = self.random.random(), self.random.random() < 0.03
        if which < 0.2:
            return ("promise", held.promised + (0 if slip else self.random.randint(1, 3)))
        if which < 0.35 and (held.accepted < held.promised or slip):
            return ("accept", held.promised)
        if which < 0.5:
            return ("cut", len(held.log.entries) + 1 if slip else self.random.randint(0, len(held.log.entries)))
        log = held.log if held.adopting is None else held.adopting
        return ("entry", self.entry(log, held.accepted + slip))

    def frames(self, count):
        """The bytes of so many frames behind a header, to the first that may not stand there."""
        held, pieces = model.Held(), []
        for frame in [("promise", 1), ("accept", 1)] + [None] * count:
            frame = frame or self.frame(held)
            write = getattr(model, frame[0])
            pieces.append(write(frame[1]))
            try:
                held.take(frame)
            except Bad:
                break
        return pieces


def bytes_lines(pieces):
    """Lines of hexadecimal digits, each frame on lines of its own, with its kind."""
    for piece in pieces:
        kind = ("header", "promise", "accept", "entry", "cut")[piece[0] - 1]
        digits = piece.hex()
        lines = [digits[:18]] + [digits[at:at + 96] for at in range(18, len(digits), 96)]
        yield lines[0] + " " + lines[1] + f"  # {kind}"
        yield from lines[2:]


def drawn_store(draw, number):
    """A store that is cut, turned and opened."""
    pieces = [model.header()] + draw.frames(draw.random.randint(6, 10))
    yield f"case drawn store {number}"
    yield from bytes_lines(pieces)
    yield from ["frames", "stand", "every 11", "cuts", f"turns {draw.random.choice((1, 2, 4, 128, 255))}"]
    yield f"fails {draw.random.choice((0, 1, 1000))} open stand size open stand"


def drawn_run(draw, number):
    """Steps of a node over a store that fails, with entries that mostly fit."""
    log, pieces = model.Log(), []
    for _ in range(4):
        one = draw.entry(log, 1)
        pieces.append(model.entry(one))
        if log.takes(one):
            log.add(one)
    words = ("entry", "entry", "entry", "open", "begin", "stand", "size")
    steps = " ".join(draw.random.choice(words) for _ in range(9))
    yield f"case drawn run {number}"
    yield "given"
    yield from bytes_lines(pieces)
    keeps = draw.random.choice((0, 1, 20, 1000))
    yield f"run open begin {steps}"
    yield "every 7"
    yield f"fails {keeps} open begin entry entry {steps} open begin entry entry entry size"
    yield f"stops {keeps} open begin entry entry {steps} open begin entry entry entry size"


class Tree:
    """Pages of a sound log: the meta page, and a leaf for the tree of each table and key."""

    def __init__(self, tables):
        self.tables, self.pages = tables, model.Pages()
        self.rows, self.next = [[] for _ in tables], 1
        count = 1 + sum(1 + len(table.keys) for table in tables)
        self.pages.head(0, (3, 0, 0))
        self.pages.put(0, 0, self.meta(count))
        for page in range(1, count):
            self.pages.head(page, (1, 0, 0))
        self.count = count

    def meta(self, count):
        return model.number(self.next, 8) + model.number(count, 8) + model.number(0, 8)

    def insert(self, page, key, value):
        cell = model.sized(key, 2) + value
        cells = self.pages.pages[page]["cells"]
        at = sum(1 for other in cells if model.leaf_pair(other)[0] < key)
        self.pages.put(page, at, cell)

    def root(self, place):
        return 1 + sum(1 + len(table.keys) for table in self.tables[:place])

    def add(self, place, row):
        """Inserts a row, with its keys, and tells the change."""
        genid, root = model.number(self.next, 8), self.root(place)
        change = ("insert", place, self.next, row)
        self.insert(root, genid, model.row_code(row))
        for step, key in enumerate(self.tables[place].keys):
            code = model.key_code([row[column] for column in key.places])
            self.insert(root + 1 + step, code if key.unique else code + genid, genid if key.unique else b"")
        self.next += 1
        self.pages.swap(0, 0, self.meta(self.count))
        return change


def spoilt(draw, tree):
    """One edit that makes the pages stand for no good state, and its name."""
    pages, root = tree.pages, 1
    ways = {
        "the next genid is one that is there": lambda: swap_meta(pages, 0, tree.next - 1),
        "the next genid is 2^62": lambda: swap_meta(pages, 0, model.END),
        "one page fewer": lambda: swap_meta(pages, 8, tree.count - 1),
        "one page more, which is blank": lambda: swap_meta(pages, 8, tree.count + 1),
        "a free page that is a leaf": lambda: swap_meta(pages, 16, 1),
        "a free page of its own": lambda: free_page(pages, tree.count),
        "a second cell of the meta page": lambda: pages.put(0, 1, b""),
        "a root that is free": lambda: pages.head(root, (0, 0, 0)),
        "a root above the leaves": lambda: pages.head(root, (1, 1, 0)),
        "a leaf with a right neighbour": lambda: pages.head(root, (1, 0, 2)),
        "a row taken away": lambda: pages.take(root, 0),
        "a row without its values": lambda: pages.swap(root, 0, pages.pages[root]["cells"][0][:10]),
        "a key taken away": lambda: pages.take(root + 1, 0),
        "a cell of one byte": lambda: pages.put(root, 0, b"\0"),
        "a page past the end": lambda: pages.put(tree.count + 1, 0, b"x"),
        "an inner root over a leaf": lambda: grow(pages, tree),
    }
    name = draw.random.choice(sorted(ways))
    ways[name]()
    return name


def swap_meta(pages, at, value):
    cell = pages.pages[0]["cells"][0]
    pages.swap(0, 0, cell[:at] + model.number(value, 8) + cell[at + 8:])


def free_page(pages, at):
    """A page more, which is free."""
    swap_meta(pages, 8, at + 1)
    swap_meta(pages, 16, at)


def grow(pages, tree):
    """The row tree of the first table gets a level: its cells move to a page more."""
    cells, child = list(pages.pages[1]["cells"]), tree.count
    for _ in cells:
        pages.take(1, 0)
    pages.head(1, (2, 1, 0))
    pages.put(1, 0, b"\0\0" + model.number(child, 8))
    pages.head(child, (1, 0, 0))
    for at, cell in enumerate(cells):
        pages.put(child, at, cell)
    swap_meta(pages, 8, tree.count + 1)


def fitting_value(draw, column, number):
    if column.nullable and draw.random.random() < 0.3:
        return None
    return (number, Text(b"t%d" % number), Blob(b"\0%d" % number))[column.kind - 1]


def drawn_node(draw, number):
    """A log with rows in its pages, sound or not, whose node is opened."""
    column = Column(b"c0", draw.random.randint(1, 3), 0)
    columns = (column, Column(b"c1", draw.random.randint(1, 3), 1))
    table = Table(b"t", columns, (Key(b"pk", 1, (0,)), Key(b"k", 0, (1, 0))))
    tables = [table] + [draw.table(b"u")] * draw.random.randint(0, 1)
    tree = Tree(tables)
    entries = [Setup(1, tables, tree.pages.taken())]
    have_columns = all(one.columns for one in tables)
    for txn in range(1, 4):
        change = tree.add(0, tuple(fitting_value(draw, one, txn) for one in table.columns))
        entries.append(Commit(1, 1, 1, b"s", txn, txn, [change], tree.pages.taken()))
    name = "sound"
    if draw.random.random() < 0.7:
        name = spoilt(draw, tree)
        entries.append(Commit(1, 1, 1, b"s", 4, 4, [], tree.pages.taken()))
    pieces = [model.header(), model.promise(1), model.accept(1)] + [model.entry(one) for one in entries]
    yield f"case drawn node {number}: {name}" + ("" if have_columns else ", a table without columns")
    yield from bytes_lines(pieces)
    yield "run node size"
    yield "given"
    other = draw.random.choice((tables, tables + [Table(b"w", (column,), ())], tables[:1], [draw.table(b"t")]))
    yield from bytes_lines([model.entry(Setup(1, other, []))])
    yield "run node size node size"
    yield f"fails {draw.random.choice((0, 1, 20, 1000))} node size node size"


def drawn_lines(seed):
    draw = Draw(seed)
    for number in range(1, 5):
        yield from drawn_store(draw, number)
    for number in range(1, 5):
        yield from drawn_run(draw, number)
    for number in range(1, 17):
        yield from drawn_node(draw, number)


if __name__ == "__main__":
    case_files.run("store_cases", drawn_lines, answers)
