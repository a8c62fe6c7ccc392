#!/usr/bin/env python3
"""Makes crates/page_cases/stdin and stdout: the hand-written cases of page_cases.txt, and cases that a seed draws.

    page_cases.py [--seed N] [--to FOLDER]
    page_cases.py draw SEED FOLDER              the same words in the form of `check`

What is expected is computed here, slowly: a tree is a dict, a table a list of rows, a log the list of its entries, and
a page is folded anew from its records at each question. Nothing knows how a tree lies on pages, so lines that show such
pages stand in the hand-written cases alone; of those the others are computed here too, and have to agree.
"""
import argparse
import copy
import os
import random
import re
import sys

HERE = os.path.dirname(os.path.abspath(__file__))


# Words.

def sign(byte):
    return byte == 95 or (byte < 128 and chr(byte).isalnum())


def word(data):
    """The word of bytes: six equal ones and more as one with their number."""
    out, at = '', 0
    while at < len(data):
        run = 1
        while at + run < len(data) and data[at + run] == data[at]:
            run += 1
        out += chr(data[at]) if sign(data[at]) else '%%%02x' % data[at]
        if run >= 6:
            out += '{%d}' % run
        at += run if run >= 6 else 1
    return out or '-'


def unword(text):
    out = b''
    for byte, times in re.findall(r'(%..|[^%-])(?:{(\d+)})?', text):
        plain = bytes.fromhex(byte[1:]) if byte[0] == '%' else byte.encode()
        out += plain * int(times or 1)
    return out


def value(text):
    if text == 'null':
        return None
    if text[0] in "':":
        return (text[0], unword(text[1:]))
    return int(text)


def show(v):
    if v is None:
        return 'null'
    return v[0] + word(v[1]) if isinstance(v, tuple) else str(v)


def rank(v):
    """The order of values: NULL, integers, texts, blobs."""
    if v is None:
        return (0, 0)
    if isinstance(v, int):
        return (1, v)
    return (2 if v[0] == "'" else 3, v[1])


def row_size(row):
    return sum(1 if v is None else 9 if isinstance(v, int) else len(v[1]) + 5 for v in row)


def key_size(values):
    return sum(1 if v is None else 9 if isinstance(v, int) else len(v[1]) + 3 + v[1].count(0) for v in values)


# Pages of records.

class Page:
    def __init__(self):
        self.head, self.lsn, self.cells = ['free', 0, 0], 0, []

    def space(self):
        return 4072 - sum(4 + len(c) for c in self.cells)

    def apply(self, lsn, edit):
        """Whether the edit fits; it is made then."""
        was = copy.deepcopy(self)
        if not self.make(edit) or self.space() < 0:
            self.__dict__ = was.__dict__
            return False
        self.lsn = lsn
        return True

    def make(self, edit):
        if edit[0] == 'head':
            before, after = edit[1:4], edit[5:8]
            before = [before[0], int(before[1]), int(before[2])]
            if self.head != before:
                return False
            self.head = [after[0], int(after[1]), int(after[2])]
            return True
        at, cell = int(edit[1]), unword(edit[2])
        if edit[0] == 'put':
            if at > len(self.cells):
                return False
            self.cells.insert(at, cell)
            return True
        if at >= len(self.cells) or self.cells[at] != cell:
            return False
        if edit[0] == 'take':
            del self.cells[at]
        else:
            self.cells[at] = unword(edit[3])
        return True

    def show(self):
        return '%s %d %d, lsn %d:' % (*self.head, self.lsn) + ''.join(' ' + word(c) for c in self.cells)


def folded(entries, number):
    """A page from the records of entries, and whether all of them are the next ones."""
    page, fits = Page(), True
    for records in entries:
        for lsn, prev, of, edit in records:
            if of == number:
                fits = fits and page.lsn == prev and page.apply(lsn, edit)
    return page, fits


# A case.

class State:
    """What an entry leaves: trees by their roots, the rows of each table by genid, the next genid."""

    def __init__(self):
        self.trees, self.rows, self.next = {}, {}, 1

    def again(self):
        state = State()
        state.trees = {r: dict(t) for r, t in self.trees.items()}
        state.rows = {t: dict(r) for t, r in self.rows.items()}
        state.next = self.next
        return state


def table_of(text):
    """Columns, and keys as columns and whether they are unique, of a simple definition; none over NULL is unique."""
    inner = text[text.index('(') + 1:text.rindex(')')]
    parts, depth, part = [], 0, ''
    for c in inner:
        depth += (c == '(') - (c == ')')
        if c == ',' and depth == 0:
            parts.append(part.strip())
            part = ''
        else:
            part += c
    parts.append(part.strip())
    names = [p.split()[0] for p in parts if not p.startswith(('unique ', 'key '))]
    keys = []
    for p in parts:
        if p.startswith(('unique ', 'key ')):
            columns = p[p.index('(') + 1:p.index(')')].split(',')
            keys.append(([names.index(c.strip()) for c in columns], p.startswith('unique ')))
    nullable = [n for n, p in enumerate(parts[:len(names)]) if 'not null' not in p and 'primary key' not in p]
    if any(unique and c in nullable for columns, unique in keys for c in columns):
        raise ValueError
    return len(names), keys


class Unknown(Exception):
    """A line that only a hand-written case can answer."""


class Case:
    def __init__(self):
        self.tables, self.states, self.records = [], [State()], []
        self.ops, self.waiting, self.group, self.plain = [], [], None, True

    def answer(self, line):
        words = line.split()
        name, rest = words[0], words[1:]
        if name == 'new':
            self.__init__()
            return 'done'
        if name == 'table':
            return self.table(line.split(' ', 1)[1])
        if len(rest) >= 2 and rest[-2] == 'at':
            return self.read(name, rest[:-2], int(rest[-1]))
        act = getattr(self, 'do_' + name, None)
        return act(rest) if act else self.read(name, rest, len(self.states) - 1)

    def table(self, text):
        try:
            self.tables.append(table_of(text))
        except (ValueError, IndexError):
            return 'refused'
        return 'done'

    def do_setup(self, _):
        self.plain = False
        state = self.states[-1].again()
        root = 1
        for at, (_, keys) in enumerate(self.tables):
            state.rows[at] = {}
            for _ in range(1 + len(keys)):
                state.trees[root] = {}
                root += 1
        self.states.append(state)
        return 'done'

    # Trees.

    def do_begin(self, _):
        self.group = self.states[-1].again()
        self.changed = False
        return 'done'

    def do_end(self, _):
        state, self.group = self.group, None
        if self.changed:
            self.states.append(state)
        return 'done'

    def tree(self, root):
        state = self.group or self.states[-1].again()
        return state, state.trees[int(root)]

    def leave(self, state):
        self.changed = True
        if self.group is None:
            self.states.append(state)

    def do_insert(self, words):
        key, data = unword(words[1]), unword(words[2])
        if len(key) > 1630 or len(key) + len(data) > 1638:
            return 'long'
        state, tree = self.tree(words[0])
        if key in tree:
            return 'duplicate'
        tree[key] = data
        self.leave(state)
        return 'done'

    def do_remove(self, words):
        state, tree = self.tree(words[0])
        if tree.pop(unword(words[1]), None) is None:
            return 'absent'
        self.leave(state)
        return 'done'

    # Tables.

    def do_put(self, words):
        self.ops.append(('put', int(words[0]), None, [value(w) for w in words[1:]]))
        return 'done'

    def do_change(self, words):
        at = words.index('to')
        self.ops.append(('change', int(words[0]), int(words[1]), [value(w) for w in words[at + 1:]]))
        return 'done'

    def do_take(self, words):
        self.ops.append(('take', int(words[0]), int(words[1]), None))
        return 'done'

    def do_do(self, _):
        ops, self.ops = self.ops, []
        if any(row is not None and not self.fits(table, row) for _, table, _, row in ops):
            return 'long'
        state = self.states[-1].again()
        for _, table, genid, row in ops:
            if genid is not None:
                del state.rows[table][genid]
            if row is not None:
                state.rows[table][state.next] = row
                state.next += 1
        for table, (_, keys) in enumerate(self.tables):
            for at, (columns, unique) in enumerate(keys):
                found = [tuple(row[c] for c in columns) for row in state.rows[table].values()]
                if unique and len(set(found)) < len(found):
                    return 'duplicate %d %d' % (table, at)
        self.states.append(state)
        return 'done'

    def fits(self, table, row):
        keys = self.tables[table][1]
        return row_size(row) <= 1600 and all(key_size([row[c] for c in columns]) <= 512 for columns, _ in keys)

    def do_state(self, _):
        state = self.states[-1]
        if not state.rows or any(tree for tree in state.trees.values()):
            return 'none'
        return 'next %d; ' % state.next + '; '.join(versions(state.rows[t]) for t in sorted(state.rows))

    def do_between(self, words):
        table, key, bound, v = int(words[0]), int(words[1]), words[2], rank(value(words[3]))
        column = self.tables[table][1][key][0][0]
        takes = {
            'from': lambda x: x >= v, 'above': lambda x: x > v, 'is': lambda x: x == v,
            # NULL lies in no interval that is bounded above alone
            'to': lambda x: (0, 0) < x <= v, 'below': lambda x: (0, 0) < x < v,
        }[bound]
        return versions({g: r for g, r in self.states[-1].rows[table].items() if takes(rank(r[column]))})

    # Logs.

    def do_record(self, words):
        self.waiting.append((int(words[0]), int(words[1]), int(words[2]), words[3:]))
        return 'done'

    def do_append(self, _):
        records, self.waiting = self.waiting, []
        last = max([r[0] for entry in self.records for r in entry] or [0])
        whole = self.records + [records]
        numbered = [r[0] for r in records] == list(range(last + 1, last + 1 + len(records)))
        if not numbered or not all(folded(whole, page)[1] for page in {r[2] for r in records}):
            return 'unfit'
        self.records.append(records)
        self.states.append(self.states[-1].again())
        return 'done'

    def do_drop(self, words):
        if int(words[0]) > len(self.states) - 1:
            return '?'
        del self.states[int(words[0]) + 1:]
        del self.records[int(words[0]):]
        return 'done'

    def of(self, number):
        """The records of a page with the positions of their entries."""
        if not self.plain:
            raise Unknown
        return [(at + 1, r[0]) for at, entry in enumerate(self.records) for r in entry if r[2] == number]

    def do_chain(self, words):
        return ' '.join('%d:%d' % link for link in self.of(int(words[0]))) or 'none'

    def do_grant(self, words):
        later = [lsn for at, lsn in self.of(int(words[0])) if at > int(words[1])]
        return ' '.join(str(lsn) for lsn in reversed(later)) or 'none'

    def do_edited(self, _):
        self.of(0)
        return ' '.join(str(n) for n in sorted({r[2] for entry in self.records for r in entry})) or 'none'

    def do_pages(self, _):
        raise Unknown

    def do_entries(self, _):
        return str(len(self.states) - 1)

    # Reads at a position.

    def read(self, name, words, position):
        if position >= len(self.states):
            return '?'
        state = self.group or self.states[position]
        if name == 'rows':
            return versions(state.rows[int(words[0])])
        if name == 'page':
            self.of(0)
            return folded(self.records[:position], int(words[0]))[0].show()
        if int(words[0]) not in state.trees:
            raise Unknown
        tree = state.trees[int(words[0])]
        if name == 'find':
            found = tree.get(unword(words[1]))
            return 'absent' if found is None else word(found)
        low, high = unword(words[1]), unword(words[2])
        keys = [k for k in sorted(tree) if low <= k and (not high or k < high)]
        return ' '.join(word(k) + '=' + word(tree[k]) for k in keys) or 'none'


def versions(rows):
    return ', '.join('%d: ' % g + ' '.join(show(v) for v in rows[g]) for g in sorted(rows)) or 'none'


# Drawn cases.

class Cases:
    def __init__(self, seed):
        self.draw, self.case, self.lines = random.Random(seed), Case(), []

    def note(self, text):
        self.lines.append(text)

    def say(self, line):
        answer = self.case.answer(line)
        self.lines.append('%s -> %s' % (line, answer))
        return answer


def key_of(number):
    """The key of a number: up to 1,630 bytes, few of them in most keys; many begin alike."""
    kind, eighth = number % 8, number // 8
    if kind == 0:
        size = 1630 - eighth * 11 % 1631
        return b'k' * max(0, size - 3) + (b'%03d' % (number % 1000))[:size]
    if kind == 1:
        return b'ab%d' % eighth if eighth % 4 else b'a' * (eighth % 60)
    return b'%c%d' % (97 + number % 5, number) + b'%c' % (97 + number % 3) * (number % 24)


def value_of(number, key):
    room = 1638 - len(key)
    return b'v' * (room if number % 16 == 3 else min(room, number % 40))


def drawn_tree(cases, turns, together, keys):
    """Turns on three trees of one store, several of them in one entry now and then."""
    draw = cases.draw
    cases.say('new')
    cases.say('table create table t (a int, key k (a), key l (a))')
    cases.say('setup')
    left = 0
    for turn in range(turns):
        if together and left == 0:
            if turn:
                cases.say('end')
            cases.say('begin')
            left = draw.randint(1, together)
        left -= 1
        root = draw.choice([1, 1, 1, 2, 3])
        key = key_of(draw.randrange(keys))
        act = draw.randrange(40)
        if act < 20:
            cases.say('insert %d %s %s' % (root, word(key), word(value_of(draw.randrange(800), key))))
        elif act < 28:
            cases.say('remove %d %s' % (root, word(key)))
        elif act < 39 or together and left:
            back = '' if together else position_of(cases)
            cases.say('find %d %s%s' % (root, word(key), back))
        else:
            low, high = sorted([word(key), word(key_of(draw.randrange(keys)))])
            cases.say('scan %d %s %s%s' % (root, low, high, '' if together else position_of(cases)))
    if together:
        cases.say('end')
    for root in 1, 2, 3:
        cases.say('scan %d - -' % root)


def position_of(cases):
    """One read in three is of an earlier position."""
    positions = len(cases.case.states) - 1
    return ' at %d' % cases.draw.randint(1, positions) if cases.draw.randrange(3) == 0 else ''


def orders(cases):
    """Keys that rise, that fall, that begin alike, and pairs of the greatest size."""
    for name, keys in [
        ('rise', [b'%04d' % n + b'x' * 36 for n in range(300)]),
        ('fall', [b'%04d' % (300 - n) + b'x' * 36 for n in range(300)]),
        ('begin alike', [k for n in range(40) for k in (b'x' * 996 + b'%04d' % (n * 7 % 40), b'x' * (n * 40))]),
        ('are of the greatest size', [b'%04d' % (n * 37 % 101) + b'x' * (0 if n % 4 == 0 else 1626) for n in range(100)]),
    ]:
        cases.note('')
        cases.note('# keys that ' + name)
        cases.say('new')
        cases.say('table create table t (a int)')
        cases.say('setup')
        cases.say('begin')
        for key in keys:
            data = b'y' * (1638 - len(key)) if 'size' in name else b'v'
            cases.say('insert 1 %s %s' % (word(key), word(data)))
        cases.say('end')
        for key in keys[::7]:
            cases.say('find 1 %s' % word(key))
        cases.say('scan 1 - -')
        cases.say('begin')
        for key in keys[::2]:
            cases.say('remove 1 %s' % word(key))
        cases.say('end')
        cases.say('scan 1 - -')
        cases.say('find 1 %s at 2' % word(keys[0]))
        cases.say('entries')


def drawn_log(cases, entries):
    """Entries of drawn records over seven pages; one in five does not fit; tails are dropped."""
    draw = cases.draw
    cases.say('new')
    for _ in range(entries):
        whole = list(cases.case.records)
        lsn = max([r[0] for entry in whole for r in entry] or [0])
        records = []
        spoiled = draw.randrange(5) == 0
        count = draw.randint(1, 4)
        for k in range(count):
            page = draw.randrange(7)
            now = folded(whole + [records], page)[0]
            edit = drawn_edit(draw, now)
            lsn += 1
            record = [lsn, now.lsn, page, edit.split()]
            if spoiled and k == count - 1:
                spoil(draw, record, now)
            records.append(tuple(record))
            cases.say('record %d %d %d %s' % (*record[:3], ' '.join(record[3])))
        cases.say('append')
        look_at_log(cases)
    for page in range(7):
        for position in range(len(cases.case.states)):
            cases.say('page %d at %d' % (page, position))


def drawn_edit(draw, page):
    if page.head[0] == 'free' or not page.cells and draw.randrange(4) == 0:
        after = [draw.choice(['leaf', 'inner', 'free']), draw.randrange(3), draw.randrange(9)]
        return 'head %s %d %d to %s %d %d' % (*page.head, *after)
    act = draw.randrange(4) if page.cells else 0
    cell = bytes([draw.choice(b'abc')]) * draw.choice([0, 1, 3, 900])
    if act < 2 and page.space() >= 4 + len(cell):
        return 'put %d %s' % (draw.randint(0, len(page.cells)), word(cell))
    at = draw.randrange(len(page.cells))
    if act == 2 and page.space() >= 900:
        return 'swap %d %s %s' % (at, word(page.cells[at]), word(cell))
    return 'take %d %s' % (at, word(page.cells[at]))


def spoil(draw, record, page):
    """One number of a record, its cell or its head becomes another."""
    which = draw.randrange(6)
    if which < 2:
        record[which] += draw.choice([-1, 1])
        record[which] = abs(record[which])
    elif which == 2:
        record[3] = ['take', str(len(page.cells)), 'z']
    elif which == 3:
        record[3] = ['swap', '0', 'another', 'z']
    elif which == 4:
        record[3] = ['put', '0', 'z{%d}' % (page.space() - 3 if page.space() > 3 else 4069)]
    else:
        record[3] = ['head', 'meta', '1', '1', 'to', 'free', '0', '0']


def look_at_log(cases):
    draw, positions = cases.draw, len(cases.case.states) - 1
    page = draw.randrange(7)
    cases.say('page %d' % page)
    cases.say('chain %d' % page)
    position = draw.randint(0, positions)
    cases.say('grant %d %d' % (page, position))
    cases.say('page %d at %d' % (page, position))
    if draw.randrange(8) == 0:
        cases.say('edited')
        cases.say('drop %d' % draw.randint(max(0, positions - 5), positions))
        cases.say('page %d' % page)


def drawn_tables(cases, turns, grows):
    """Transactions of one to six operations; the store grows, shrinks and grows again."""
    cases.say('new')
    cases.say('table create table t (id int not null, name text, body blob not null, '
              'unique by_id (id), key by_name (name), unique by_body (body))')
    cases.say('table create table u (a int not null, b int not null, c text, unique by_ab (a, b), key by_c (c, a))')
    cases.say('setup')
    for turn in range(turns):
        inserts, writes = (6, 9) if grows(turn) else (1, 2)
        drawn_ops(cases, inserts, writes)
        cases.say('do')
        if turn % 20 == 19:
            cases.say('state')
            read_tables(cases)
        elif turn % 5 == 0:
            cases.say('rows %d at %d' % (cases.draw.randrange(2), cases.draw.randint(1, len(cases.case.states) - 1)))


def drawn_ops(cases, inserts, writes):
    draw, state, taken = cases.draw, cases.case.states[-1], set()
    for _ in range(draw.randint(1, 6)):
        kind, table = draw.randrange(10), draw.randrange(2)
        rows = [g for g in state.rows[table] if g not in taken]
        if kind < inserts or not rows:
            cases.say('put %d %s' % (table, drawn_row(draw, table)))
            continue
        genid = draw.choice(rows)
        taken.add(genid)
        old = ' '.join(show(v) for v in state.rows[table][genid])
        if kind < writes:
            cases.say('change %d %d %s to %s' % (table, genid, old, drawn_row(draw, table)))
        else:
            cases.say('take %d %d %s' % (table, genid, old))


def drawn_text(draw):
    size = draw.randrange(32)
    return None if size == 31 else ("'", b'n' * size)


def drawn_row(draw, table):
    if table == 0:
        body = bytes([draw.randrange(256), draw.randrange(20)]) + b'b' * draw.randint(98, 397)
        row = [draw.randint(-2000, 2000), drawn_text(draw), (':', body)]
    else:
        row = [draw.randint(-30, 30), draw.randint(-30, 30), drawn_text(draw)]
    return ' '.join(show(v) for v in row)


def read_tables(cases):
    draw = cases.draw
    for bound in 'from', 'above', 'to', 'below', 'is':
        cases.say('between 0 1 %s %s' % (bound, show(("'", b'n' * draw.randrange(31)))))
        cases.say('between 1 0 %s %d' % (bound, draw.randint(-30, 30)))


def wide_rows(cases, rows):
    """Rows of 1,600 bytes with a key of 512: they come, so that leaves and the pages above are split; go; and come again."""
    cases.say('new')
    cases.say('table create table t (id int not null, name text not null, part text not null, body blob not null, '
              'unique by_id (id), unique by_name (name), key by_part (part))')
    cases.say('setup')
    numbers = [n * 37 % rows for n in range(rows)]
    for n in numbers:
        cases.say('put 0 ' + ' '.join(show(v) for v in wide_row(n)))
        cases.say('do')
        if n % 12 == 0:
            read_wide(cases, n)
    for genid, n in list(enumerate(numbers, 1))[3:]:
        cases.say('take 0 %d %s' % (genid, ' '.join(show(v) for v in wide_row(n))))
        cases.say('do')
    cases.say('state')
    for n in numbers[3:rows // 2]:
        cases.say('put 0 ' + ' '.join(show(v) for v in wide_row(n)))
        cases.say('do')
    read_wide(cases, numbers[0])
    cases.say('state')


def wide_row(n):
    name = b'n' + (b'n' if n % 2 == 0 else b'\0') * (n // 2) + (b'\1' if n == 1 else b'')
    part = b'p' * 508 + bytes([n // 2 % 127 + 1])
    row = [n, ("'", name), ("'", part)]
    body = bytes([n]) * (1600 - row_size(row) - 5)
    return row + [(':', body)]


def read_wide(cases, n):
    _, name, part, _ = wide_row(n)
    for bound in 'from', 'above', 'to', 'below', 'is':
        cases.say('between 0 1 %s %s' % (bound, show(name)))
        cases.say('between 0 2 %s %s' % (bound, show(part)))


def drawn(seed):
    cases = Cases(seed)
    for title, make in [
        ('trees, an entry for each change, read at all positions', lambda: drawn_tree(cases, 700, 0, 120)),
        ('trees, many changes in an entry', lambda: drawn_tree(cases, 1500, 200, 400)),
        ('keys in orders of their own', lambda: orders(cases)),
        ('records, and pages at all positions', lambda: drawn_log(cases, 120)),
        ('rows of two tables', lambda: drawn_tables(cases, 160, lambda turn: turn < 90 or turn >= 130)),
        ('rows of the greatest size', lambda: wide_rows(cases, 60)),
    ]:
        cases.note('')
        cases.note('# drawn: ' + title)
        make()
    return cases.lines


def by_hand():
    """The hand-written lines; those that can be computed here agree."""
    with open(os.path.join(HERE, 'page_cases.txt')) as file:
        lines = file.read().splitlines()
    case = Case()
    for line in lines:
        asked, arrow, answer = line.partition(' -> ')
        if not arrow:
            continue
        try:
            found = case.answer(asked)
        except Unknown:
            continue
        if found != answer:
            sys.exit('page_cases.txt: %s -> %s, by hand %s' % (asked, found, answer))
    return lines


def main():
    parser = argparse.ArgumentParser()
    parser.add_argument('--seed', type=int, default=1)
    parser.add_argument('--to', default=os.path.join(HERE, '..', '..', 'crates', 'page_cases'))
    asked = sys.argv[1:]
    if len(asked) == 3 and asked[0] == 'draw':
        asked = ['--seed', asked[1], '--to', asked[2]]
    words = parser.parse_args(asked)
    lines = by_hand() + drawn(words.seed)
    os.makedirs(words.to, exist_ok=True)
    for name, texts in ('stdin', [l.partition(' -> ')[0] for l in lines]), ('stdout', lines):
        with open(os.path.join(words.to, name), 'w') as file:
            file.write('\n'.join(texts) + '\n')


main()
