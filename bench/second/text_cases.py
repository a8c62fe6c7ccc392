#!/usr/bin/env python3
"""The cases of crates/text_cases: those written by hand in text_cases.hand, and texts that are cut and changed at each byte, with
what the second readers tell of them."""

import random

import cases
import report_model
import script_model
import sql_model

# A script that runs, and short ones with the other lines of the language.
RICH_SCRIPT = b"""nodes 1
session a 1
session a_ 1
Create table t(a int primary key,v int,key k(v,a));\r
# \xc3\xa9

a:begin
a_: insert into t values(1,-20)
a: update t set v = 3 where a=1
\ta: selectv * from t \t
a_:delete from t where v= 2
a:commit
a:set transaction serializable
a_:rollback"""
SHORT_SCRIPTS = [
    b"nodes 1\ncluster ab",
    b"nodes 1\nworkers 64\n",
    b"nodes 1\nsession a 1 hasql",
    b"nodes 1\ncreate table t(a int)\nwatch t",
    b"nodes 1\ncreate table t(a text, b blob not null unique, primary key (a))",
    b"nodes 1\ncreate table t(a int not null, unique u (a))",
    b"nodes 1\ncreate table t(a int)\nCREATE table a(t integer)",
    b"nodes 1\nsession a 1\narm a row 1",
    b"nodes 1\nsession a 1\narm a append",
    b"nodes 1\nsession a 1\narm a ship",
    b"nodes 1\nstop 1",
    b"nodes 1\nstart 1",
    b"nodes 1\nbarrier",
    b"nodes 1\nfeed",
]
SCRIPT_BYTES = b"\n\r #,-02:Aa\xff"
# A report with each part and lines that share a front, and one with every kind of line.
RICH_REPORTS = [
    b"""feed 1 row null|-9223372036854775808|'it''s |
'|x'00af'
a 1 error syntax 4294967295
a 0 level serializable
a 2 conflict 3 genid t 7
a 3 conflict 4 range t all
a 4 duplicate 5 t alb
feed 6 lost 2 1
a 7 nomemory
down 1 2 stop
up 10
fed 18446744073709551615
base 8
entry 9 schema
entry 9 a 1 8 snapshot
feed 1 t 2 0
end 9
""",
    b"""a 1 begin 1
a 1 row null|-9223372036854775808|'it''s
'|x'00af'
a 1 done 1
a 1 changed 2
a 1 error syntax 12
a 1 error type
a 0 level serializable
a 1 rolledback
a 2 committed 3
a 3 conflict 3 genid t 7
a 4 conflict 4 range t all
a 5 duplicate 5 t pk
a 6 lost 2 1
a 7 nomajority 1 3
a 8 nomemory
down 1 2 fault
down 2 3 stop
up 2
barrier
fed 18446744073709551615
base 8
entry 9 schema
entry 9 a 1 8 snapshot
feed 1 t 2 0
end 9
""",
]
REPORT_BYTES = b"06 \n'|-laAx\xff"


def is_said(line):
    return line.startswith(("|", "+", "- "))


def told_script(data, counts=(7, 16), in_short=True):
    """What is told of bytes that are read as a script for so many stores and consumers."""
    try:
        script = script_model.read_script(data, *counts)
    except script_model.Refused as refused:
        return ["refused %d %d" % (refused.line, refused.why)]
    if in_short:
        return ["script"]
    names = [" ".join([word] + names) for word, names in (("sessions", script.sessions), ("tables", tables_of(script)))]
    told = ["script of %d nodes, cluster %s, %s, %s" % (script.nodes, script.cluster, names[0], names[1])]
    lines = zip(script.said_lines, script.said)
    return told + [escaped("line %d: %s says %s" % (number, name, text)) for number, (name, text) in lines]


def tables_of(script):
    return [table.name for table in script.tables]


def escaped(text):
    """A text as the program writes it: what no line shows is told by its digits."""
    return "".join("\\x%02x" % ord(c) if ord(c) < 32 or c == "\\" or ord(c) == 127 else c for c in text)


def told_report(data, in_short=True):
    lines = report_model.read_report(data)
    if lines is None:
        return ["no report"]
    return ["report"] if in_short else ["report"] + lines


def told_tables(texts):
    """What is told of each text that is read as a table behind those before it."""
    tables, told = [], []
    for text in texts:
        try:
            table, is_past = sql_model.read_create(text.encode()), len(tables) == script_model.MOST_TABLES
        except (sql_model.SyntaxFault, sql_model.TableFault):
            told.append("unlawful")
            continue
        except sql_model.LimitFault:
            table, is_past = None, True
        name = sql_model.name_of_create(text.encode())
        if name in [table.name for table in tables]:
            told.append("unlawful")
        elif is_past:
            told.append("limit")
        else:
            tables.append(table)
            told.append(shown_table(table))
    return told


def shown_table(table):
    columns = [" %s %s%s;" % (name, kind, "" if nullable else " not null") for name, kind, nullable in table.columns]
    keys = [" %s %s;" % ("unique" if unique else "key", " ".join([name] + list(map(str, of)))) for name, of, unique in table.keys]
    return table.name + ":" + "".join(columns + keys)


def quoted(data):
    """Bytes as the lines of a case."""
    found = []
    for line in data.split(b"\n")[:-1]:
        try:
            text = line.decode()
            is_plain = text == escaped(text).replace("\\x09", "\t")
        except UnicodeDecodeError:
            is_plain = False
        found.append("|" + text if is_plain else "- bytes " + (line + b"\n").hex(" "))
    last = data.split(b"\n")[-1]
    if last:
        found.append("- bytes " + last.hex(" ") if any(byte > 126 or byte < 32 for byte in last) else "+" + last.decode())
    return found


def together(answers):
    """Answers one after the other; those that are alike once, with their number."""
    found = []
    for answer in answers:
        if found and found[-1][1] == answer:
            found[-1][0] += 1
        else:
            found.append([1, answer])
    return ["%d x %s" % (count, answer) for count, answer in found]


class Drawn:
    def __init__(self):
        self.said, self.told = [], []

    def add(self, name, setting, data, changes, read):
        """A text that is cut after each byte, and in which each byte is changed to each of some others."""
        cut = [read(data[:size])[0] for size in range(len(data))]
        changed = [read(data[:at] + bytes([byte]) + data[at + 1 :])[0] for at in range(len(data)) for byte in changes]
        settings = ["- " + setting, "- cut", "- change to " + changes.hex(" ")]
        self.said += ["case " + name] + settings + quoted(data) + [""]
        self.told += ["case " + name] + read(data, in_short=False)
        self.told += ["cut"] + together(cut) + ["changed"] + together(changed)

    def add_script(self, name, data, changes):
        read = lambda data, in_short=True: told_script(data, (1, 16), in_short)
        self.add(name, "script for 1 16", data, changes, read)

    def add_report(self, name, data, changes):
        self.add(name, "report", data, changes, told_report)


def other_bytes(seed, first):
    """The telling bytes, or others by a seed."""
    draw = random.Random(seed)
    return first if seed == 1 else bytes(draw.randrange(256) for _ in range(4)) + bytes(draw.choices(first, k=4))


def drawn(seed):
    found = Drawn()
    script_bytes, report_bytes = other_bytes(seed, SCRIPT_BYTES), other_bytes(seed, REPORT_BYTES)
    found.add_script("a script, cut and changed", RICH_SCRIPT, script_bytes)
    for number, data in enumerate(SHORT_SCRIPTS, 1):
        found.add_script("a short script, cut and changed, %d" % number, data, script_bytes)
    for number, data in enumerate(RICH_REPORTS, 1):
        found.add_report("a report, cut and changed, %d" % number, data, report_bytes)
    return texts(found.said, found.told)


def texts(said, told):
    return "".join(line + "\n" for line in said), "".join(line + "\n" for line in told)


def written():
    said, told = cases.read_by_hand((cases.HERE / "text_cases.hand").read_text(), is_said)
    stdin, stdout = texts(said, told)
    drawn_stdin, drawn_stdout = drawn(1)
    return stdin + drawn_stdin, stdout + drawn_stdout


if __name__ == "__main__":
    cases.main("text_cases", written, drawn)
