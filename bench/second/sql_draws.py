"""Cases of SQL that are drawn: texts to be read alone, and transactions over drawn rows.

lines(seed)     the lines of the cases that this seed draws
"""

import random
import re

import sql_earley

# Tables with the columns p, q and r, whose keys have one column to three, some beginning with the same column.
KEYED = {
    "a": "p int primary key, q int, r int, key by_q (q), key by_qr (q, r)",
    "b": "p int, q int, r int, key by_r (r), key by_pqr (p, q, r)",
    "c": "p int, q int, r int, key by_rq (r, q), key by_p (p), key by_pq (p, q)",
}
# Tables of all types.
MIXED = {
    "t": "id int not null, v int, s text, key a (v, s), key b (s), key c (id, v)",
    "u": "id int not null, w text not null, b blob, key a (w), key b (b, id)",
    "k": "v int, b blob, key a (b, v)",
}
VALUES = {
    "int": ["0", "1", "2", "3", "-1", "5", "9223372036854775807", "-9223372036854775808"],
    "text": ["''", "'a'", "'ab'", "'b'", "'x''y'", "'é'", "'{300 a}'"],
    "blob": ["x''", "x'00'", "x'00ff'", "x'7A'", "X'ff'"],
}
FEW = ["null", "-1", "0", "1", "2", "3", "4", "5"]

# Texts of which others are made, with a blank between every two words.
TEXTS = [
    "select * from t",
    "selectv t . id , count ( * ) , sum ( v ) from t x , t as y , t where x . id = 1 and ( y . v < 2 or not v is not null ) "
    "group by t . id , v order by count ( * ) desc , t . id asc limit 5 ;",
    "insert into t ( id , v ) values ( 1 , 'a''b' ) , ( -9223372036854775808 , null ) , ( x'00ff' , +1 )",
    "update t set v = v + 1 - id , id = - 5 where v >= -1 or v != 'x'",
    "delete from t where not not ( id <> 3 )",
    "set transaction serializable ;",
    "commit ;",
    "select max ( v ) , min ( t . v ) from t where 1 = 1 and null is null order by id",
    "delete from t where ( ( a . b = 1 ) )",
]
TABLES = [
    "create table t ( a int not null , b integer primary key unique , c text , d blob ) ;",
    "create table t ( a int , primary key ( a , b ) , unique u ( b ) , key k ( a , b ) )",
]
ODD = ["9223372036854775807", "9223372036854775808", "9223372036854775809", "'q'", "x'00'", "x'0'", "'", "!", "#", "é", "x"]
ODD += ['"', "{33 a}", "{32 a}", "1x", ";", "{101 (}", "{100 not }", "00000000000000000000000001"]
WORDS = sorted(sql_earley.RESERVED) + sql_earley.SIGNS + ["a", "t", "id", "1", "0"] + ODD


class Draws:
    def __init__(self, seed):
        self.random = random.Random(seed)

    def often(self, share):
        return self.random.random() < share

    def one(self, choices):
        return self.random.choice(choices)

    # Texts to be read alone.

    def changed(self, text):
        """A text with some of its words taken out, put in, put in place of others, or cut off."""
        words = text.split(" ")
        for _ in range(self.one([0, 1, 1, 1, 2, 3])):
            at = self.random.randrange(len(words) + 1)
            how = self.one(["out", "in", "over", "cut"])
            words[at : at + (how in ("out", "over"))] = [self.one(WORDS)] if how in ("in", "over") else []
            words = words[:at] if how == "cut" else words
        return "".join(word + self.one([" ", " ", " ", "  ", "\t", ""]) for word in words).strip()

    def read_alone(self, count):
        found = ["case drawn texts"]
        for _ in range(count):
            found.append("read: " + self.changed(self.one(TEXTS)))
        for _ in range(count // 4):
            found.append("define: " + self.changed(self.one(TABLES)))
        return found

    # Transactions. A scope is a list of (name before a column, columns), and a column is (name, type, may be null).

    def column(self, scope, kind=None):
        """A column, of this type where there is one."""
        fits = [(name, column) for name, columns in scope for column in columns if kind in (None, column[1])]
        name, column = self.one(fits or [(name, column) for name, columns in scope for column in columns])
        if self.often(0.02):
            return "nope", column[1]
        before = "zz." if self.often(0.01) else name + "." if len(scope) > 1 and self.often(0.85) else ""
        return before + column[0], column[1]

    def value(self, kind):
        if self.often(0.02):
            kind = self.one(list(VALUES))
        return "null" if self.often(0.1) else self.one(FEW if kind == "few" else VALUES[kind])

    def operand(self, scope, kind):
        return self.column(scope, kind)[0] if self.often(0.35) else self.value(kind)

    def comparison(self, scope):
        column, kind = self.column(scope)
        if self.often(0.1):
            return column + self.one([" is null", " is not null"])
        sign = self.one(["=", "=", "=", "=", "<", "<=", ">", ">=", "<>", "!="])
        if self.often(0.04):
            column = self.value(kind)
        sides = [column, self.operand(scope, kind)]
        return (" %s " % sign).join(sides[::-1] if self.often(0.25) else sides)

    def condition(self, scope, depth=0):
        if depth > 2 or self.often(0.7):
            return self.comparison(scope)
        if self.often(0.5):
            return "not " + self.condition(scope, 3) if self.often(0.5) else "(%s)" % self.condition(scope, depth + 1)
        return "(%s)" % self.one([" or ", " and "]).join(self.condition(scope, depth + 1) for _ in range(2))

    def where(self, scope, share=0.85):
        if not self.often(share):
            return ""
        parts = [self.condition(scope) for _ in range(self.one([1, 1, 2, 2, 3, 4]))]
        return " where " + parts[0] + "".join((" or " if self.often(0.08) else " and ") + part for part in parts[1:])

    def tuple(self, columns):
        values = [self.value(kind) for _, kind, _ in columns]
        if self.often(0.02):
            values.pop()
        return "(%s)" % ", ".join(values or ["1"])

    def insert(self, tables, share=0.3):
        name = self.one(list(tables))
        columns, names = tables[name], ""
        if self.often(share):
            columns = self.random.sample(columns, self.random.randrange(1, len(columns) + 1))
            names = " (%s)" % ", ".join([column[0] for column in columns] + (["p"] if self.often(0.03) else []))
        rows = ", ".join(self.tuple(columns) for _ in range(self.one([1, 1, 2, 3])))
        return "insert into %s%s values %s" % (name, names, rows)

    def update(self, tables):
        name = self.one(list(tables))
        scope, assigns = [(name, tables[name])], []
        for column, kind, _ in self.random.sample(tables[name], self.one([1, 1, 2])):
            value = self.operand(scope, kind)
            if kind in ("int", "few") and self.often(0.5) or self.often(0.02):
                value += "".join(self.one([" + ", " - "]) + self.operand(scope, kind) for _ in range(self.one([1, 1, 2])))
            assigns.append("%s = %s" % (column, value))
        return "update %s set %s%s" % (name, ", ".join(assigns), self.where(scope))

    def delete(self, tables):
        name = self.one(list(tables))
        return "delete from %s%s" % (name, self.where([(name, tables[name])], 0.97))

    def item(self, scope, grouped):
        if not grouped or self.often(0.1):
            return self.column(scope)[0]
        word = self.one(["count", "sum", "min", "max"])
        return "count(*)" if word == "count" else "%s(%s)" % (word, self.column(scope, word == "sum" and "int" or None)[0])

    def select(self, tables):
        names, scope = [], []
        for alias in ["x", "y", "z"][: self.one([1, 1, 1, 2, 2, 3])]:
            name = self.one(list(tables)) if self.often(0.99) else "nosuch"
            has_alias = self.often(0.7) or name in [before for before, _ in scope]
            names.append(name + (self.one([" ", " as "]) + alias if has_alias else ""))
            scope.append((alias if has_alias else name, tables.get(name) or self.one(list(tables.values()))))
        grouped = self.often(0.35)
        group = [self.column(scope)[0] for _ in range(self.one([1, 1, 2]))] if grouped and self.often(0.7) else []
        gives = lambda: self.one(group) if group and self.often(0.4) else self.item(scope, grouped)
        items = "*" if not grouped and self.often(0.4) else ", ".join(gives() for _ in range(self.one([1, 2, 3])))
        order = [gives() + self.one(["", " asc", " desc"]) for _ in range(self.one([0, 0, 1, 2]))]
        text = "%s %s from %s%s" % (self.one(["select", "select", "selectv"]), items, ", ".join(names), self.where(scope))
        text += " group by " + ", ".join(group) if group else ""
        text += " order by " + ", ".join(order) if order else ""
        return text + self.one(["", "", "", " limit 0", " limit 1", " limit 3"])

    def statement(self, tables):
        draw = self.one([self.insert] * 2 + [self.update] * 3 + [self.delete] + [self.select] * 8)
        return draw(tables)

    def transaction(self, name, spelled, kinds, statements):
        found = ["case %s" % name]
        found += ["table: create table %s (%s)" % table for table in spelled.items()]
        tables = {table: columns_of(text, kinds) for table, text in spelled.items()}
        for _ in range(self.one([2, 4, 6, 8])):
            if self.often(0.2):
                found.append("genid %d" % (10 * len(found) + self.random.randrange(10)))
            found.append("base: " + self.insert(tables, 0.1))
        found.append("begins %d %s" % (self.random.randrange(1, 9), self.one(["snapshot", "serializable"])))
        if self.often(0.3):
            found.append("gone %d" % self.one([1, 1, 2, 3]))
        found += ["a: " + self.statement(tables) for _ in range(statements)]
        return found + ["request"]


def columns_of(text, kinds):
    """The columns of a table. Integers are of the few ones where `kinds` says so."""
    found = re.findall(r"(\w+) (int|text|blob)( not null| primary key)?", text)
    return [(name, kinds.get(kind, kind), not mark) for name, kind, mark in found]


def lines(seed):
    draws = Draws(seed)
    found = ["", "# What follows is drawn."] + draws.read_alone(240)
    for number in range(40):
        found += draws.transaction("drawn, keys %d" % number, KEYED, {"int": "few"}, 12)
    for number in range(40):
        found += draws.transaction("drawn, types %d" % number, MIXED, {}, 12)
    return found
