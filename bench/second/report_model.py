"""Reports, read a second time: by one pattern for each kind of line, from docs/report.md and the lines of later work.

read_report(data)    what a report holds, a line each by its names; None where the bytes are no report
"""

import re

N = r"(0|[1-9][0-9]*)"
NAME = r"([a-z_][a-z0-9_]{0,31})"
VALUE = r"(?:null|-?(?:0|[1-9][0-9]*)|'(?:[^']|'')*'|x'(?:[0-9a-f]{2})*')"
LEVEL = r"(snapshot|serializable)"
MOST = 2 ** 64 - 1

# Replies of sessions, and what their parts are named.
REPLIES = [
    ("begin " + N, "Begin {}"),
    (r"row (%s(?:\|%s)*)" % (VALUE, VALUE), "Row {}"),
    ("done " + N, "Done {}"),
    ("changed " + N, "Changed {}"),
    ("error syntax " + N, "Syntax at {}"),
    ("error (table|column|ambiguous|type|count|overflow|notnull|toolong|state)", "{}"),
    ("level " + LEVEL, "{}"),
    ("rolledback", "RolledBack"),
    ("committed " + N, "Committed {}"),
    ("conflict %s genid %s %s" % (N, NAME, N), "ConflictGenid position {} table {} genid {}"),
    ("conflict %s range %s %s" % (N, NAME, NAME), "ConflictRange position {} table {} key {}"),
    ("duplicate %s %s (?!all\n)%s" % (N, NAME, NAME), "Duplicate position {} table {} key {}"),
    ("lost %s %s" % (N, N), "Lost node {} down {}"),
    ("nomajority %s %s" % (N, N), "NoMajority up {} nodes {}"),
    ("nomemory", "NoMemory"),
]

# The parts of a report, in order: the lines of the run, the base, the entries, the feeds and the end.
PARTS = [
    [("%s %s %s" % (NAME, N, reply), "session {} txn {} " + shown) for reply, shown in REPLIES]
    + [
        ("down %s %s (stop|fault)" % (N, N), "Down count {} node {} {}"),
        ("up " + N, "Up node {}"),
        ("barrier", "Barrier"),
        ("fed " + N, "Fed position {}"),
    ],
    [("base " + N, "Base {}")],
    [
        ("entry %s schema" % N, "Setup position {}"),
        ("entry %s %s %s %s %s" % (N, NAME, N, N, LEVEL), "Commit position {} session {} txn {} begin {} {}"),
    ],
    [("feed %s (?!lost |nomajority |tooold )%s %s %s" % (N, NAME, N, N), "Feed place {} table {} taken {} dropped {}")],
    [("end " + N, "End {}")],
]
KINDS = [[(re.compile(pattern + "\n"), shown) for pattern, shown in part] for part in PARTS]
NAMED = {
    "snapshot": "Snapshot", "serializable": "Serializable", "notnull": "NotNull", "toolong": "TooLong",
}


def value_kind(text):
    """The type of a value; None where its number does not fit or its text is none."""
    if text == "null":
        return "Null"
    if text[0] in "'x":
        return "Text" if text[0] == "'" else "Blob"
    return "Int" if text != "-0" and -(2 ** 63) <= int(text) < 2 ** 63 else None


def shown_part(shown, text):
    """How a part of a line is told; None where a number does not fit."""
    if shown.startswith("Row"):
        kinds = [value_kind(value) for value in re.findall(VALUE, text)]
        return None if None in kinds else " ".join(kinds)
    if text.isdigit():
        return text if int(text) <= (2 ** 32 - 1 if shown.startswith("Syntax") else MOST) else None
    if shown in ("{}", "{} ") or shown.endswith(" {}") and text in ("snapshot", "serializable"):
        return NAMED.get(text, text.capitalize())
    return text


def read_line(text, at, part):
    """The line of a part of the report that stands at a place, by its names, and the place behind it."""
    for pattern, shown in KINDS[part]:
        match = pattern.match(text, at)
        if match:
            reply = shown.split(" txn {} ")[-1] if shown.startswith("session") else shown
            fixed = match.re.groups - reply.count("{}")
            parts = [shown_part("", text) for text in match.groups()[:fixed]]
            parts += [shown_part(reply, text) for text in match.groups()[fixed:]]
            if None not in parts:
                return " " + shown.format(*parts), match.end()
    return None


def read_report(data):
    try:
        text = data.decode("utf-8")
    except UnicodeDecodeError:
        return None
    lines, at = [], 0
    for part in range(len(PARTS)):
        found = read_line(text, at, part)
        while found:
            lines.append(found[0])
            at = found[1]
            found = read_line(text, at, part) if part not in (1, 4) else None
    return lines if at == len(text) and lines and lines[-1].startswith(" End ") else None
