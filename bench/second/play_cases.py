#!/usr/bin/env python3
"""The cases of crates/play_cases: those written by hand in play_cases.hand, the examples, the scripts of pages in docs/, and
scripts that are drawn."""

import random
import re

import cases
import play_model
import report_model
import statement_draws

SEED = 1
EXAMPLES = cases.ROOT / "examples"
PAGES = ["docs/promises.md", "docs/report.md", "docs/script.md"]
REFUSALS = {"refused": 3, "store": 6, "unsound": 9}


def is_said(line):
    return line.startswith(("|", "+", "- "))


def with_exits(told):
    """What is told by hand, with the exit status 0 where a case says none."""
    found = []
    for line in told + ["case "]:
        if line.startswith("case ") and found and not has_exit(found):
            found.append("exit 0")
        found.append(line)
    return found[:-1]


def has_exit(told):
    """Whether the last case of these lines tells a status."""
    for line in reversed(told):
        if line.startswith("case "):
            return False
        if line.startswith("exit "):
            return True
    return True


def quoted(script):
    """A script as the lines of a case."""
    return ["|" + line for line in cases.lines_of(script.decode())]


def exit_of(report):
    """The exit status of a run that tells this: a refusal is one line by itself."""
    return REFUSALS.get(report.split()[0], 0) if report.count("\n") == 1 else 0


def example_cases():
    """The examples. What stands in the folder of a store is its bytes; a folder that is not there fails at once."""
    said, told = [], []
    for folder in sorted(EXAMPLES.iterdir()):
        if not (folder / "report").exists() or (folder / "run").exists():
            continue
        name = "case examples/" + folder.name
        said += [name] + quoted((folder / "script").read_bytes())
        if (folder / "stores").exists():
            place = (folder / "stores").read_text().strip()
            said.append("- words play --stores " + place)
            if (folder / "node1.log").exists():
                said.append("- store holds " + (folder / "node1.log").read_bytes().hex(" "))
            else:
                said.append("- store fails at 1")
        said.append("")
        report = (folder / "report").read_text()
        told += [name] + cases.lines_of(report) + ["exit %d" % exit_of(report)]
    return said, told


def page_cases():
    """The first two blocks of each page: a script, and its report, whose lines may have their numbers in front."""
    said, told = [], []
    for page in PAGES:
        script, report = re.findall(r"^```text\n(.*?)^```$", (cases.ROOT / page).read_text(), re.S | re.M)[:2]
        said += ["case " + page] + quoted(script.encode()) + [""]
        told += ["case " + page] + [re.sub(r"^ *\d+  ", "", line) for line in cases.lines_of(report)] + ["exit 0"]
    return said, told


class Drawn:
    """Cases that are drawn, one after the other."""

    def __init__(self, seed):
        self.random = random.Random(seed)
        self.said, self.told = [], []
        self.serial, self.skewed = 0, 0

    def add(self, name, script, outcome, settings=()):
        """A case with what it is told, which is a report."""
        assert report_model.read_report(outcome.text.encode())
        self.add_said(name, script, settings)
        self.told += cases.lines_of(outcome.text) + ["exit %d" % outcome.exit]

    def add_said(self, name, script, settings):
        self.said += ["case " + name] + ["- " + setting for setting in settings] + quoted(script) + [""]
        self.told.append("case " + name)

    def run(self, name, head, body, log=None):
        """A case of these lines over a log; gives the log that it leaves."""
        script = "".join(line + "\n" for line in head + body).encode()
        outcome = play_model.play(script, log)
        self.add(name, script, outcome, ["store of the case before"] if log else ())
        self.run_alone(outcome)
        return outcome.log

    def run_alone(self, outcome):
        """Each transaction committed at level serializable might have run alone; of those at level snapshot some not."""
        for position, transaction in outcome.committed:
            is_alone = play_model.might_have_run_alone(outcome.log, position, transaction)
            if transaction.level == "serializable":
                self.serial += 1
                assert is_alone, position
            elif not is_alone:
                self.skewed += 1

    def faults(self, name, head, body, keeps, last=0, step=1):
        """A case whose store fails at each call, or stops after so many bytes, with what its script is told again behind that.
        What is kept by a halt is an entry as a whole only where the store stops right behind it: that wants each byte."""
        script = "".join(line + "\n" for line in head + body).encode()
        whole = play_model.play(script)
        faults = [("opening",)] + [("entry", entry) for entry in range(1, whole.entries + 1)] + [None]
        numbers = "fails at 1 to %d" % (20 + 4 * whole.entries)
        if keeps != "calls":
            numbers = "stops after 0 to %d" % last + (" by %d" % step if step > 1 else "")
        settings = ["store " + numbers, "halt keeps %d" % KEPT[keeps], "tell again"]
        self.add_said(name, script, settings)
        told = []
        for fault in faults:
            outcome = play_model.play(script, None, fault)
            for log in left_by(outcome, fault, keeps):
                again = play_model.play(script, log)
                told.append(outcome.text + "exit 0\nagain\n" + again.text + "exit 0\n")
        told = [text for place, text in enumerate(told) if place == 0 or text != told[place - 1]]
        self.told += cases.lines_of("later\n".join(told))


def left_by(outcome, fault, keeps):
    """The logs that may be left where the store fails more and more late: without what was under way, and with it."""
    if fault is None or keeps != "all":
        return [outcome.log]
    return [outcome.log, outcome.log_with_entry]


FAULTS = {"calls": "at calls", "none": "after bytes", "one": "after bytes, one kept", "all": "after bytes, all kept"}
KEPT = {"calls": 0, "none": 0, "one": 1, "all": 2 ** 64 - 1}
SESSIONS = ["session a 1", "session b 1", "session c 1"]
HEAD = ["nodes 1"] + SESSIONS + ["create table t%d(id integer primary key, v integer)" % number for number in range(3)]


class Conflicts:
    """Lines of three sessions about few keys of three tables. Each session is mostly in a transaction."""

    def __init__(self, draw):
        self.draw, self.open = draw, set()

    def line(self):
        session = self.draw.choice("abc")
        return "%s: %s" % (session, self.said(session))

    def said(self, session):
        turn = self.draw.random()
        if session in self.open:
            if turn < 0.24:
                self.open.discard(session)
                return "commit" if turn < 0.2 else "rollback"
            return "begin" if turn < 0.26 else self.statement()
        if turn < 0.6:
            self.open.add(session)
            return "begin"
        if turn < 0.75:
            return "set transaction " + self.draw.choice(["serializable", "serializable", "serializable", "snapshot"])
        return "commit" if turn < 0.77 else self.statement()

    def statement(self):
        key, value, draw = self.draw.randrange(6), self.draw.randrange(10), self.draw
        table = "t%d" % draw.choice([0, 0, 0, 0, 1, 2])
        own = " where id = %d" % key
        kind = draw.choice(["insert"] + ["update"] * 3 + ["key", "all", "delete"] + ["select"] * 4 + ["selectv"])
        if kind == "insert":
            return "insert into %s values(%d, %d)" % (table, key, value)
        if kind == "update":
            return "update %s set v = %d%s" % (table, value, own)
        if kind == "key":
            return "update %s set id = %d%s" % (table, draw.randrange(6), own)
        if kind == "all":
            return "update %s set v = %d where v > %d" % (table, value, value)
        if kind == "delete":
            return "delete from %s%s" % (table, own)
        which = [own, " where id >= %d" % key, " where id > %d and id < %d" % (key, key + 3), " where v = %d" % value, ""]
        return "%s * from %s%s" % (kind, table, draw.choice(which))


def lines_of_conflicts(draw, count):
    conflicts = Conflicts(draw)
    first = "a: insert into t0 values " + ", ".join("(%d, %d)" % (key, key) for key in range(6))
    return [first] + [conflicts.line() for _ in range(count - 1)]


def statement_line(draw, draws):
    turn = draw.random()
    if turn < 0.1:
        said = "begin"
    elif turn < 0.2:
        said = "commit"
    elif turn < 0.23:
        said = draw.choice(["rollback", "set transaction serializable", "set transaction snapshot"])
    else:
        said = draws.statement()
    return "%s: %s" % (draw.choice("ab"), said)


def fault_line(draw):
    """A line that mostly adds an entry."""
    key = draw.randrange(3)
    said = draw.choice(["insert into t0 values(%d, 1)" % key] * 3 + ["delete from t0 where id = %d" % key, "begin", "commit"])
    return "%s: %s" % (draw.choice("aab"), said)


def drawn(seed, count=1):
    """Cases drawn by a seed, with what they are told; so many of each kind more."""
    cases_drawn = Drawn(seed)
    draw = cases_drawn.random
    for number in range(10 * count):
        lines = lines_of_conflicts(draw, 100)
        cases_drawn.run("drawn conflicts %d" % number, HEAD, lines)
    for number in range(2 * count):
        log = None
        for part in range(4):
            lines = lines_of_conflicts(draw, draw.randrange(5, 50))
            log = cases_drawn.run("drawn conflicts %d over a store, part %d" % (number, part), HEAD, lines, log)
    draws = statement_draws.Draws(draw)
    head = ["nodes 1", "session a 1", "session b 1"] + statement_draws.TABLES
    for number in range(6 * count):
        cases_drawn.run("drawn statements %d" % number, head, [statement_line(draw, draws) for _ in range(70)])
    for keeps in ("calls", "none", "one"):
        lines = [fault_line(draw) for _ in range(9)]
        cases_drawn.faults("drawn faults " + FAULTS[keeps], HEAD[:5], lines, keeps, 3000, 141)
    assert cases_drawn.serial > 0 and cases_drawn.skewed > 0
    return texts(cases_drawn.said, cases_drawn.told)


def one_entry():
    """A run of one entry whose store stops after each byte and keeps what was appended, or keeps less after each eleventh."""
    found = Drawn(SEED)
    head, lines = ["nodes 1", "session a 1", "create table t(a integer)"], ["a: insert into t values(0)"]
    for keeps, step in (("none", 11), ("one", 11), ("all", 1)):
        found.faults("one entry " + FAULTS[keeps], head, lines, keeps, 470, step)
    return texts(found.said, found.told)


def texts(said, told):
    return "".join(line + "\n" for line in said), "".join(line + "\n" for line in told)


# What is told somewhere by the drawn cases of the files.
KINDS = [
    " genid t", " range t", " all", " duplicate ", " rolledback", " level snapshot", " level serializable", " error state",
    " error syntax 9", " error table", " error column", " error ambiguous", " error type", " error count", " error overflow",
    " error notnull", " row null", "x'00'", "'it''s'", " lost 1 1", " nomajority 0 1", "base ", "later",
]


def written():
    """Both files: cases by hand, examples, and drawn ones."""
    said, told = cases.read_by_hand((cases.HERE / "play_cases.hand").read_text(), is_said)
    examples, pages = example_cases(), page_cases()
    stdin, stdout = texts(said + examples[0] + pages[0], with_exits(told) + examples[1] + pages[1])
    files = [(stdin, stdout), one_entry(), drawn(SEED)]
    assert all(kind in files[-1][1] for kind in KINDS), [kind for kind in KINDS if kind not in files[-1][1]]
    return "".join(said for said, _ in files), "".join(told for _, told in files)


if __name__ == "__main__":
    cases.main("play_cases", written, lambda seed: drawn(seed, 2))
