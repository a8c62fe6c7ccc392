"""Whole runs, computed a second time: from docs/script.md, docs/report.md and docs/isolation.md, with the rows at each position
kept whole.

play(data, log, fault)    the Outcome of a run over a log, which stays as it was

A fault is None, or where the store of the run fails: ("unread",) before its log was read, ("opening",) behind that, and
("entry", k) at the k-th entry of the run. What is left of the log then is `outcome.log`, and with the entry that was under way
`outcome.log_with_entry`.
"""

import copy

import script_model
import sql_model


class Log:
    """A log: its tables, and for each position the rows behind it, each a (table, genid, row)."""

    def __init__(self):
        self.tables, self.states, self.next_genid = None, [], 1

    def length(self):
        return len(self.states)

    def rows_at(self, position):
        return self.states[position - 1]


class Outcome:
    def __init__(self, exit_status, text, log, log_with_entry=None, entries=0):
        self.exit, self.text, self.log, self.log_with_entry = exit_status, text, log, log_with_entry
        self.entries, self.committed = entries, []


class Transaction:
    def __init__(self, number, begin, level, rows):
        self.number, self.begin, self.level = number, begin, level
        self.view = sql_model.View(rows)
        self.genids, self.ranges, self.texts = [], [], []


class Session:
    def __init__(self):
        self.level, self.number, self.open, self.skips = "snapshot", 0, None, False


def play(data, log=None, fault=None, stores=1):
    """Plays a script over a log; without one, over an empty store."""
    log = copy.copy(log) if log else Log()
    log.states = list(log.states)
    try:
        script = script_model.read_script(data, stores)
    except script_model.Refused as refused:
        return Outcome(3, "refused %d %d\n" % (refused.line, refused.why), log)
    if log.length() and fault != ("unread",):
        line = differing_line(script, log)
        if line:
            return Outcome(3, "refused %d 9\n" % line, log)
    return Run(script, log, fault).outcome()


def differing_line(script, log):
    """The `create` line that tells another table than the log's."""
    if not script.tables:
        return None
    for place, table in enumerate(script.tables):
        if place == len(log.tables) or table.parts() != log.tables[place].parts():
            return script.create_lines[place]
    return script.create_lines[-1] if len(script.tables) < len(log.tables) else None


class Run:
    def __init__(self, script, log, fault):
        self.script, self.log, self.fault = script, log, fault
        self.base = log.length()
        self.told, self.history = [], []
        self.is_down, self.entries, self.with_entry = False, 0, None
        self.sessions = {name: Session() for name in script.sessions}
        self.committed = []

    def outcome(self):
        self.open()
        for name, text in self.script.said:
            self.say(name, self.sessions[name], text.encode())
        end = ["end %d" % (0 if self.fault == ("unread",) else self.log.length())]
        base = ["base %d" % self.base] if self.base and self.fault != ("unread",) else []
        text = "".join(line + "\n" for line in self.told + base + self.history + end)
        outcome = Outcome(0, text, self.log, self.with_entry, self.entries)
        outcome.committed = self.committed
        return outcome

    def open(self):
        if self.fault in (("unread",), ("opening",)):
            self.is_down = True
            self.told.append("down 1 1 fault")
            if not self.base:
                self.with_entry = self.set_up()
        elif not self.base:
            self.log = self.set_up()
            self.history.append("entry 1 schema")

    def set_up(self):
        log = Log()
        log.tables, log.states = self.script.tables, [[]]
        return log

    def tell(self, name, number, reply):
        self.told.append("%s %d %s" % (name, number, reply))

    def say(self, name, session, text):
        try:
            statement = sql_model.read(text)
        except sql_model.SyntaxFault as fault:
            statement = ("fault", fault.at)
        ends = statement[0] in ("commit", "rollback")
        if session.skips:
            session.skips = not ends
        elif session.open and self.is_down:
            self.tell(name, session.open.number, "lost 1 1")
            session.open, session.skips = None, not ends
        elif session.open:
            self.inside(name, session, statement, text)
        elif ends:
            self.tell(name, 0, "error state")
        elif statement[0] == "set":
            session.level = statement[1]
            self.tell(name, 0, "level " + session.level)
        elif self.begins(name, session, statement[0] == "begin") and statement[0] != "begin":
            self.answer(name, session.open, statement, text)
            self.commit(name, session)

    def begins(self, name, session, explicit):
        """Begins a transaction, where the node is up."""
        session.number += 1
        if self.is_down:
            self.tell(name, session.number, "nomajority 0 1")
            session.skips = explicit
            return False
        begin = self.log.length()
        session.open = Transaction(session.number, begin, session.level, self.log.rows_at(begin))
        self.tell(name, session.number, "begin %d" % begin)
        return True

    def inside(self, name, session, statement, text):
        if statement[0] == "commit":
            self.commit(name, session)
        elif statement[0] == "rollback":
            self.tell(name, session.open.number, "rolledback")
            session.open = None
        elif statement[0] in ("begin", "set"):
            self.tell(name, session.open.number, "error state")
        else:
            self.answer(name, session.open, statement, text)

    def answer(self, name, transaction, statement, text):
        for line in answered(transaction, statement, self.log.tables):
            self.tell(name, transaction.number, line)
        transaction.texts.append(text)

    def commit(self, name, session):
        transaction, session.open = session.open, None
        number = transaction.number
        if not transaction.view.operations:
            self.tell(name, number, "committed %d" % transaction.begin)
            return
        refusal = self.conflict(transaction) or self.duplicate(transaction)
        if refusal:
            self.tell(name, number, refusal)
            return
        self.entries += 1
        if self.fault == ("entry", self.entries):
            self.is_down = True
            self.with_entry = copy.copy(self.log)
            self.with_entry.states = list(self.log.states)
            append(self.with_entry, transaction)
            self.told.append("down 1 1 fault")
            self.tell(name, number, "lost 1 1")
            return
        append(self.log, transaction)
        position = self.log.length()
        self.committed.append((position, transaction))
        self.tell(name, number, "committed %d" % position)
        self.history.append("entry %d %s %d %d %s" % (position, name, number, transaction.begin, transaction.level))

    def conflict(self, transaction):
        """The first entry behind the begin that touches what the transaction used, and the first of that."""
        used = [("genid", operation[1]) for operation in transaction.view.operations if operation[1] is not None]
        used += [("genid", genid) for genid in transaction.genids]
        if transaction.level == "serializable":
            used += [("range", read) for read in transaction.ranges]
        for position in range(transaction.begin + 1, self.log.length() + 1):
            before, after = self.log.rows_at(position - 1), self.log.rows_at(position)
            taken, added = without(before, after), without(after, before)
            for kind, item in used:
                told = touched(kind, item, taken, added, self.log.tables)
                if told:
                    return "conflict %d %s" % (position, told)
        return None

    def duplicate(self, transaction):
        rows = changed_rows(self.log, transaction)
        for number, table in enumerate(self.log.tables):
            for key, columns, unique in table.keys:
                values = [tuple(sql_model.order_of(row[c]) for c in columns) for t, _, row in rows if t == number]
                if unique and len(set(values)) < len(values):
                    return "duplicate %d %s %s" % (self.log.length(), table.name, key)
        return None


def answered(transaction, statement, tables):
    """The reply lines of a statement in a transaction."""
    if statement[0] == "fault":
        return ["error syntax %d" % statement[1]]
    try:
        given = sql_model.run(sql_model.bind(statement, tables), tables, transaction.view)
    except sql_model.StatementFault as fault:
        return ["error " + fault.kind]
    transaction.genids += given.genids
    transaction.ranges += given.ranges
    return given.lines


def without(rows, others):
    """The rows whose versions the others lack."""
    genids = {genid for _, genid, _ in others}
    return [row for row in rows if row[1] not in genids]


def touched(kind, item, taken, added, tables):
    """How a used item is told where an entry took these rows away and added those; None where it touched none of it."""
    if kind == "genid":
        number = next((table for table, genid, _ in taken if genid == item), None)
        return None if number is None else "genid %s %d" % (tables[number].name, item)
    if any(item.holds(table, row) for table, _, row in taken + added):
        return "range %s %s" % (tables[item.number].name, item.key or "all")
    return None


def changed_rows(log, transaction):
    """The rows at the end of a log with what a transaction does; new versions get the next genids, one after the other."""
    taken = {operation[1] for operation in transaction.view.operations}
    rows = [row for row in log.rows_at(log.length()) if row[1] not in taken]
    genid = log.next_genid
    for number, _, row, version in transaction.view.operations:
        if version:
            rows.append((number, genid, row))
            genid += 1
    return rows


def append(log, transaction):
    rows = changed_rows(log, transaction)
    log.next_genid = max([log.next_genid - 1] + [genid for _, genid, _ in rows]) + 1
    log.states.append(rows)


def might_have_run_alone(log, position, transaction):
    """Whether a committed transaction is told the same, and leaves the same rows, where it is run alone right before its entry."""
    told = [Transaction(0, begin, "snapshot", log.rows_at(begin)) for begin in (transaction.begin, position - 1)]
    lines = []
    for alone in told:
        lines.append([answered(alone, read_or_fault(text), log.tables) for text in transaction.texts])
    front = copy.copy(log)
    front.states = log.states[: position - 1]
    rows = [(table, row) for table, _, row in changed_rows(front, told[1])]
    return lines[0] == lines[1] and rows == [(table, row) for table, _, row in log.rows_at(position)]


def read_or_fault(text):
    try:
        return sql_model.read(text)
    except sql_model.SyntaxFault as fault:
        return ("fault", fault.at)
