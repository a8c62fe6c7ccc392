#!/usr/bin/env python3
"""The cases of crates/sql_cases, and what is answered to each of their lines.

sql_cases.py write            writes stdin and stdout of the crate
sql_cases.py draw 7 FOLDER    draws other cases, by the seed 7, and writes both files into that folder

The cases by hand stand in sql_hand.txt, each line with the answers that were worked out by hand below it, indented. All
answers are computed: texts are read by sql_earley.py, and bound and run by sql_model.py. Each answer by hand must be among
those that are computed for its line, in the same order.
"""

import pathlib
import re
import sys

import sql_draws
import sql_earley
import sql_model

HERE = pathlib.Path(__file__).resolve().parent
CRATE = HERE.parent.parent / "crates" / "sql_cases"
SEED = 1
RULES = {"read": "statement", "define": "table"}


def expanded(text):
    """The text in which {3 abc} is written out."""
    first, *others = text.split("{")
    for part in others:
        times, _, behind = part.partition("}")
        count, _, unit = times.partition(" ")
        first += unit * int(count) + behind
    return first


# What is shown.


def shown_operand(operand):
    return sql_model.spelled(operand[1]) if operand[0] == "value" else "#%d.%d" % operand[1:]


def shown_test(test):
    kind = test[0]
    if kind in ("or", "and"):
        return "%s(%s)" % (kind, "; ".join(map(shown_test, test[1])))
    if kind == "not":
        return "not " + shown_test(test[1])
    if kind == "group":
        return "(%s)" % shown_test(test[1])
    if kind == "null":
        return shown_operand(test[1]) + (" is not null" if test[2] else " is null")
    return "%s %s %s" % (shown_operand(test[2]), test[1], shown_operand(test[3]))


def shown_where(test):
    return "" if test is None else " where " + shown_test(test)


def shown_item(item):
    return "count" if item[0] == "count" else ("" if item[0] == "plain" else item[0] + " ") + "#%d.%d" % item[1]


def shown_row(row):
    return " (%s)" % ", ".join(map(sql_model.spelled, row))


def shown_assign(assign):
    column, first, steps = assign
    return "%d = %s%s" % (column, shown_operand(first), "".join(" %s %s" % (s, shown_operand(o)) for s, o in steps))


def shown_select(bound):
    _, keeps, items, tables, where, group, order, limit = bound
    text = "selectv" if keeps else "select"
    text += "".join(" " + shown_item(item) for item in items) + " from" + "".join(" %d" % table for table in tables)
    text += shown_where(where)
    if group:
        text += " group " + ", ".join("#%d.%d" % column for column in group)
    if order:
        text += " order " + ", ".join(shown_item(item) + (" desc" if falls else "") for item, falls in order)
    return text + ("" if limit is None else " limit %d" % limit)


def shown_bound(bound):
    kind = bound[0]
    if kind == "insert":
        rows = "".join(map(shown_row, bound[2])) if len(bound[2]) <= 20 else " %d rows" % len(bound[2])
        return "insert %d%s" % (bound[1], rows)
    if kind == "update":
        return "update %d %s%s" % (bound[1], ", ".join(map(shown_assign, bound[2])), shown_where(bound[3]))
    if kind == "delete":
        return "delete %d%s" % (bound[1], shown_where(bound[2]))
    return shown_select(bound) if kind == "select" else " ".join(bound)


def shown_table(table):
    columns = ", ".join(
        name + {"integer": " int"}.get(kind, " " + kind) + ("" if nullable else " not null")
        for name, kind, nullable in table.columns
    )
    keys = "".join(
        "%s %s (%s)" % (" unique" if unique else " key", name, ", ".join(map(str, of))) for name, of, unique in table.keys
    )
    return "%s (%s)%s" % (table.name, columns, keys)


def shown_turns(answers):
    """Answers in turn. Where one comes several times it is told once, and how often."""
    text, at = "", 0
    while at < len(answers):
        end = at
        while end < len(answers) and answers[end] == answers[at]:
            end += 1
        text += (" %dx" % (end - at) if end - at > 1 else "") + " %s" % ("ok" if answers[at] is None else answers[at])
        at = end
    return text


class Case:
    """The tables, the rows of the begin position, and one transaction."""

    def __init__(self, tokens=()):
        self.schema, self.base, self.next, self.tokens = [], [], 1, list(tokens)
        self.begin("1 snapshot")

    def begin(self, words):
        self.start, self.level = words.split(" ")
        self.view = sql_model.View(self.base)
        self.used, self.read = [], []

    def answers(self, line):
        """What is answered to a line, a line for each answer."""
        if not line or line.startswith("#"):
            return []
        kind, colon, text = line.partition(":")
        if not colon:
            return self.answers_to_words(line)
        text = expanded(text[1:])
        if kind == "table":
            return [self.add_table(text)]
        if kind == "base":
            return [self.add_rows(text)]
        if kind == "a":
            return self.tell(text)
        how, _, rule = kind.rpartition(" ")
        return {"": read_whole, "cut": read_cut, "change": read_changed}[how](text, RULES[rule], self.tokens)

    def answers_to_words(self, line):
        word, _, words = line.partition(" ")
        if word == "case":
            self.__init__()
        elif word == "genid":
            self.next = int(words)
        elif word == "begins":
            self.begin(words)
        elif word == "tokens":
            self.tokens = words.split(" ")
        elif word == "request":
            return self.request()
        else:
            assert word == "gone", line
        return []

    def add_table(self, text):
        try:
            table = sql_model.read_create(text.encode())
        except (sql_model.SyntaxFault, sql_model.TableFault):
            return "unlawful"
        except sql_model.LimitFault:
            return "limit"
        if table.name in [other.name for other in self.schema]:
            return "unlawful"
        if len(self.schema) == 64:
            return "limit"
        self.schema.append(table)
        return shown_table(table)

    def bound(self, text):
        """What a text means; a StatementFault of the kind `syntax AT` where it is no statement."""
        at = sql_earley.refusal(text.encode(), "statement")
        if at is not None:
            raise sql_model.StatementFault("syntax %d" % at)
        return sql_model.bind(sql_model.read(text.encode()), self.schema)

    def add_rows(self, text):
        view = sql_model.View(self.base)
        try:
            given = sql_model.run(self.bound(text), self.schema, view)
        except sql_model.StatementFault as fault:
            return "error " + fault.kind
        for number, _, row, _ in view.operations:
            self.base.append((number, self.next, row))
            self.next += 1
        return ", ".join(given.lines)

    def tell(self, text):
        try:
            bound = self.bound(text)
        except sql_model.StatementFault as fault:
            return ["error " + fault.kind]
        found = ["is " + shown_bound(bound)]
        if bound[0] in ("begin", "commit", "rollback", "set"):
            return found + ["error state"]
        ranges = self.ranges(bound)
        try:
            given = sql_model.run(bound, self.schema, self.view)
        except sql_model.StatementFault as fault:
            return found + ["error " + fault.kind] + self.shown_ranges(ranges)
        self.used += given.genids
        self.read += ranges
        return found + [", ".join(given.lines)] + self.shown_used(given.genids) + self.shown_ranges(ranges)

    def ranges(self, bound):
        """What a statement reads, also one that fails by its rows."""
        if bound[0] == "insert":
            return []
        numbers, where = (bound[3], bound[4]) if bound[0] == "select" else ([bound[1]], bound[-1])
        return sql_model.read_ranges(numbers, where, self.schema, self.view)

    def shown_version(self, genid):
        number = next(table for table, other, _ in self.base if other == genid)
        return "%s.%d" % (self.schema[number].name, genid)

    def shown_used(self, genids):
        return ["uses " + " ".join(map(self.shown_version, genids))] if genids else []

    def shown_ranges(self, ranges):
        return ["reads " + "; ".join(map(self.shown_range, ranges))] if ranges else []

    def shown_range(self, read):
        text = self.schema[read.number].name + ("" if read.key is None else " " + read.key)
        text += "".join(" = " + sql_model.spelled(value) for _, value in read.equals)
        text += "".join(" %s %s" % (sign, sql_model.spelled(value)) for _, sign, value in read.bounds)
        return text + (" empty" if read.is_empty else "")

    def request(self):
        if not self.view.operations:
            return ["nothing, from " + self.start]
        taken = [operation[1] for operation in self.view.operations if operation[1] is not None]
        used = list(dict.fromkeys(taken + self.used))
        ops = [self.shown_operation(operation) for operation in self.view.operations]
        return ["from %s %s" % (self.start, self.level)] + ops + self.shown_used(used) + self.shown_ranges(self.read)

    def shown_operation(self, operation):
        number, genid, row, _ = operation
        row = None if row is None else "|".join(map(sql_model.spelled, row))
        if genid is None:
            return "insert %s: %s" % (self.schema[number].name, row)
        old = "|".join(map(sql_model.spelled, next(old for _, other, old in self.base if other == genid)))
        if row is None:
            return "delete %s: %s" % (self.shown_version(genid), old)
        return "update %s: %s to %s" % (self.shown_version(genid), old, row)


# Texts that are read alone.


def read_whole(text, rule, _tokens):
    return [shown_turns([sql_earley.refusal(text.encode(), rule)])[1:]]


def read_cut(text, rule, _tokens):
    return [shown_turns([sql_earley.refusal(text[:size].encode(), rule) for size in range(len(text))])[1:]]


def read_changed(text, rule, tokens):
    words = text.split(" ")
    found = []
    for number, word in enumerate(words):
        changed = [" ".join(words[:number] + [token] + words[number + 1 :]) for token in tokens]
        found.append(word + ":" + shown_turns([sql_earley.refusal(one.encode(), rule) for one in changed]))
    return found


def by_hand():
    """The lines by hand, each with its answers by hand."""
    found = []
    for line in (HERE / "sql_hand.txt").read_text().split("\n")[:-1]:
        if line.startswith("  "):
            found[-1][1].append(line[2:])
        else:
            found.append((line, []))
    return found


def is_among(some, answers):
    """Whether these answers are among those, in the same order."""
    left = iter(answers)
    return all(any(one == other for other in left) for one in some)


def files(lines):
    """Both files of these lines with their answers by hand."""
    case, said, told = Case(), [], []
    for line, wanted in lines:
        answers = case.answers(line)
        if not is_among(wanted, answers):
            sys.exit("sql_hand.txt: %s\n  by hand %s\n  computed %s" % (line, wanted, answers))
        said.append(line)
        told += [line] + ["  " + answer for answer in answers]
    return "\n".join(said) + "\n", "\n".join(told) + "\n"


# What drawn cases have to come to, each at least so often.
OFTEN = {
    r"  read(s|.*;) \w+ \w+ [=<>]": 100,
    r"  read.* empty": 10,
    r"  reads \w+(;|$)": 50,
    r"  row ": 60,
    r"  changed [1-9]": 60,
    r"  uses ": 60,
    r"  error overflow": 2,
    r"  error notnull": 2,
    r"  error (table|column|ambiguous|type|count)": 40,
    r"  update .* to ": 10,
    r"  delete ": 10,
    r"  ok$": 20,
    r"  \d+$": 100,
}


def seldom(told):
    """What these answers come to too seldom."""
    found = {pattern: sum(re.match(pattern, line) is not None for line in told) for pattern in OFTEN}
    return ["%s: %d times" % (pattern, times) for pattern, times in found.items() if times < OFTEN[pattern]]


def main():
    seed, folder = SEED, CRATE
    if len(sys.argv) == 4 and sys.argv[1] == "draw":
        seed, folder = int(sys.argv[2]), pathlib.Path(sys.argv[3])
    elif sys.argv[1:] != ["write"]:
        sys.exit("usage: sql_cases.py write | draw SEED FOLDER")
    drawn = files([(line, []) for line in sql_draws.lines(seed)])
    too_seldom = seldom(drawn[1].split("\n"))
    if too_seldom:
        sys.exit("the seed %d draws too seldom:\n%s" % (seed, "\n".join(too_seldom)))
    stdin, stdout = (hand + other for hand, other in zip(files(by_hand()), drawn))
    (folder / "stdin").write_text(stdin)
    (folder / "stdout").write_text(stdout)


if __name__ == "__main__":
    main()
