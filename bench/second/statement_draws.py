"""Statements drawn at random over a few small tables, some of them with errors."""

import sql_model

TABLES = [
    "create table t(id integer primary key, n integer, s text, b blob, key by_n(n, s))",
    "create table u(id integer primary key, m integer not null, w text, c blob, unique one(m), key by_w(w, id))",
]
COLUMNS = {"t": "id n s b", "u": "id m w c"}
KINDS = {"id": "integer", "n": "integer", "m": "integer", "s": "text", "w": "text", "b": "blob", "c": "blob"}
NUMBERS = [None, 0, 1, 2, 3, 4, 5, -1, -7, sql_model.MOST, sql_model.LEAST]
TEXTS = [None, "", "a", "ab", "it's", "''", "Z", "z, y", "\u00e4", "null", "7"]
BLOBS = [None, b"", b"\0", b"\0\0", b"a'", b"\xff"]
WRONG = [
    "selec 1", "", "select * frm t", "insert into t values ('it", "rollback;;", "delete from nowhere",
    "select t.id from t, nowhere where x = 1", "update t set k = 'a'", "select u.k from t", "select n, count(*) from t",
    "select * from u group by m", "select id from t p, t q", "insert into u (c, c) values (x'', x'')",
    "update t set n = 1, n = 2", "select sum(s) from t", "delete from t where s = 1", "update u set w = null + null",
    "insert into u (id) values (1, 'x')", "insert into t values (1)",
]


class Draws:
    """What a generator of numbers draws."""

    def __init__(self, random):
        self.random = random

    def value(self, kind):
        values = {"integer": NUMBERS, "text": TEXTS, "blob": BLOBS}[kind]
        return sql_model.spelled(self.random.choice(values))

    def key(self):
        return str(self.random.randrange(16))

    def column(self, scope, kind=None):
        """A column of a table of the scope, with the table's name before it where there are two."""
        name, table = self.random.choice(scope)
        found = [c for c in COLUMNS[table].split() if kind in (None, KINDS[c])]
        column = self.random.choice(found)
        return (name + "." + column if len(scope) > 1 else column), KINDS[column]

    def test(self, scope):
        column, kind = self.column(scope)
        if self.random.random() < 0.2:
            return column + self.random.choice([" is null", " is not null"])
        side = self.column(scope, kind)[0] if self.random.random() < 0.3 else self.value(kind)
        sides = [column, side]
        if self.random.random() < 0.2:
            sides.reverse()
        return "%s %s %s" % (sides[0], self.random.choice(["=", "=", "<>", "!=", "<", "<=", ">", ">="]), sides[1])

    def condition(self, scope, depth=0):
        drawn = self.random.random()
        if depth > 2 or drawn < 0.5:
            return self.test(scope)
        if drawn < 0.6:
            return "not " + self.enclosed(scope, depth)
        word = " and " if drawn < 0.85 else " or "
        return word.join(self.enclosed(scope, depth) for _ in range(self.random.choice([2, 2, 3])))

    def enclosed(self, scope, depth):
        text = self.condition(scope, depth + 1)
        return "(%s)" % text if " and " in text or " or " in text else text

    def where(self, scope):
        if self.random.random() < 0.25:
            return ""
        return " where " + self.condition(scope)

    def insert(self):
        table = self.random.choice(list(COLUMNS))
        columns = COLUMNS[table].split()
        listed = ""
        if self.random.random() < 0.3:
            columns = columns[:2] + self.random.sample(columns[2:], self.random.randrange(3))
            self.random.shuffle(columns)
            listed = "(%s)" % ", ".join(columns)
        rows = [self.row(columns) for _ in range(self.random.choice([1, 1, 2, 3]))]
        return "insert into %s%s values %s" % (table, listed, ", ".join(rows))

    def row(self, columns):
        values = [self.key() if c == "id" and self.random.random() < 0.9 else self.value(KINDS[c]) for c in columns]
        return "(%s)" % ", ".join(values)

    def update(self):
        table = self.random.choice(list(COLUMNS))
        scope = [(table, table)]
        assigns = []
        for column in self.random.sample(COLUMNS[table].split(), self.random.choice([1, 1, 2])):
            given = self.value(KINDS[column]) if self.random.random() < 0.6 else self.column(scope, KINDS[column])[0]
            while KINDS[column] == "integer" and self.random.random() < 0.4:
                side = self.value("integer") if self.random.random() < 0.7 else self.column(scope, "integer")[0]
                given += self.random.choice([" + ", " - "]) + side
            assigns.append("%s = %s" % (column, given))
        return "update %s set %s%s" % (table, ", ".join(assigns), self.where(scope))

    def delete(self):
        table = self.random.choice(list(COLUMNS))
        return "delete from %s where %s" % (table, self.condition([(table, table)]))

    def item(self, scope, columns):
        """An item of a grouped query: one of these columns, or an aggregate."""
        if columns and self.random.random() < 0.4:
            return self.random.choice(columns)
        aggregate = self.random.choice(["count(*)", "sum", "min", "max"])
        if aggregate == "count(*)":
            return aggregate
        return "%s(%s)" % (aggregate, self.column(scope, "integer" if aggregate == "sum" else None)[0])

    def select(self):
        tables = [self.random.choice(list(COLUMNS)) for _ in range(self.random.choice([1, 1, 1, 2]))]
        names = ["p", "q"] if len(tables) > 1 else tables
        scope = list(zip(names, tables))
        group = []
        if self.random.random() < 0.3:
            group = [self.column(scope)[0] for _ in range(self.random.choice([0, 1, 1, 2]))]
            make = lambda: self.item(scope, group)
        else:
            make = lambda: self.column(scope)[0]
        items = [make() for _ in range(self.random.choice([1, 2, 3]))]
        if not group and items and "(" not in items[0] and self.random.random() < 0.4:
            items = ["*"]
            make = lambda: self.column(scope)[0]
        order = [make() + self.random.choice(["", " asc", " desc"]) for _ in range(self.random.choice([0, 0, 1, 2]))]
        text = self.random.choice(["select ", "select ", "selectv "]) + ", ".join(items) + " from "
        text += ", ".join(table if name == table else table + self.random.choice([" ", " as "]) + name for name, table in scope)
        text += self.where(scope)
        text += " group by " + ", ".join(group) if group else ""
        text += " order by " + ", ".join(order) if order else ""
        return text + (" limit %d" % self.random.randrange(4) if self.random.random() < 0.2 else "")

    def statement(self):
        drawn = self.random.random()
        if drawn < 0.05:
            return self.random.choice(WRONG)
        if drawn < 0.4:
            return self.insert()
        if drawn < 0.6:
            return self.update()
        return self.delete() if drawn < 0.68 else self.select()
