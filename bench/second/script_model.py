"""Scripts, read a second time: from docs/script.md, line by line, with the words of each line.

read_script(data, stores, consumers)    a Script, or Refused
"""

import re

import sql_model

MOST_NUMBER = 2 ** 64 - 1
MOST_LINE, MOST_SCRIPT = 65535, 67108864
MOST_NODES, MOST_WORKERS, MOST_SESSIONS, MOST_TABLES, MOST_WATCHES = 7, 64, 64, 64, 8
PARTS = ("nodes", "cluster", "workers", "session", "create", "watch", "body")
NAME = re.compile(r"[A-Za-z_][A-Za-z0-9_]*")
NUMBER = re.compile(r"0|[1-9][0-9]*")


class Refused(Exception):
    """A script is refused at a line, from 1, for a reason."""

    def __init__(self, line, why):
        super().__init__(line, why)
        self.line, self.why = line, why


class Script:
    """What a script says: sessions by name, tables with the numbers of their lines, and what sessions say."""

    def __init__(self):
        self.nodes, self.cluster, self.workers = 0, "main", None
        self.sessions, self.tables, self.create_lines, self.watches = [], [], [], []
        self.said, self.said_lines = [], []


def name_faults(word, why):
    """The reasons of a word in a name's place: 3 where it is none, this one where it is malformed."""
    if not NAME.fullmatch(word):
        return {3}
    return {why} if word != word.lower() or len(word) > sql_model.MOST_NAME else set()


def number_of(word):
    return int(word) if NUMBER.fullmatch(word) and int(word) <= MOST_NUMBER else None


class LineReader:
    """The reasons of one line behind those that were read."""

    def __init__(self, script, stores, consumers):
        self.script, self.stores, self.consumers = script, stores, consumers
        self.part = -1

    def reasons(self, text):
        """The reasons of a line that is not skipped. Without any it is added to the script."""
        session = re.match(r"([A-Za-z_][A-Za-z0-9_]*):", text)
        words = re.split(r"[ \t]+", text)
        if session:
            kind = "body"
        elif re.match(r"create(?![a-z0-9_])", text.lower()):
            kind = "create"
        else:
            kind = words[0] if words[0] in PARTS[:-1] else "body"
        found = set()
        part = PARTS.index(kind)
        if part < self.part or (part == self.part and part < 3) or (self.part < 0 and part > 0):
            found.add(3)
        if session:
            found |= self.says(session.group(1), text[session.end() :].strip(" \t"))
        elif kind == "create":
            found |= self.creates(text)
        else:
            found |= getattr(self, "is_" + words[0], lambda words: {3})(words)
        self.part = max(self.part, part)
        return found

    def says(self, name, text):
        if name not in self.script.sessions:
            return {5}
        self.script.said.append((name, text))
        return set()

    def creates(self, text):
        try:
            table = sql_model.read_create(text.encode())
        except (sql_model.SyntaxFault, sql_model.TableFault):
            return {7}
        except sql_model.LimitFault:
            return {7} if self.is_taken(sql_model.name_of_create(text.encode())) else {8}
        if self.is_taken(table.name):
            return {7}
        self.script.tables.append(table)
        return {8} if len(self.script.tables) > MOST_TABLES else set()

    def is_taken(self, name):
        return name in [table.name for table in self.script.tables]

    def is_nodes(self, words):
        number = number_of(words[1]) if len(words) == 2 else None
        if number is None:
            return {3}
        if not 1 <= number <= MOST_NODES:
            return {4}
        self.script.nodes = number
        return ({8} if self.stores < number else set()) | ({10} if number > 1 else set())

    def is_cluster(self, words):
        if len(words) != 2 or name_faults(words[1], 3):
            return {3}
        self.script.cluster = words[1]
        return set()

    def is_workers(self, words):
        number = number_of(words[1]) if len(words) == 2 else None
        if number is None:
            return {3}
        self.script.workers = number
        return {10} if 1 <= number <= MOST_WORKERS else {8, 10}

    def is_session(self, words):
        node = number_of(words[2]) if len(words) in (3, 4) else None
        if node is None or len(words) == 4 and words[3] != "hasql":
            return {3}
        found = name_faults(words[1], 5)
        if words[1] in self.script.sessions:
            found.add(5)
        if not 1 <= node <= self.script.nodes:
            found.add(6)
        if len(words) == 4:
            found.add(10)
        self.script.sessions.append(words[1])
        return found | ({8} if len(self.script.sessions) > MOST_SESSIONS else set())

    def is_watch(self, words):
        if len(words) != 2:
            return {3}
        found = name_faults(words[1], 7) | {10}
        if not self.is_taken(words[1]):
            found.add(7)
        self.script.watches.append(words[1])
        if len(self.script.watches) > min(MOST_WATCHES, self.consumers):
            found.add(8)
        return found

    def is_stop(self, words):
        node = number_of(words[1]) if len(words) == 2 else None
        if node is None:
            return {3}
        return {10} if 1 <= node <= self.script.nodes else {6, 10}

    is_start = is_stop

    def is_arm(self, words):
        if len(words) not in (3, 4) or words[2:] not in (["append"], ["ship"]) and words[2] != "row":
            return {3}
        if words[2] == "row" and (len(words) != 4 or not number_of(words[3])):
            return {3}
        found = name_faults(words[1], 5) | {10}
        return found if words[1] in self.script.sessions else found | {5}

    def is_barrier(self, words):
        return {10} if len(words) == 1 else {3}

    is_feed = is_barrier


def read_script(data, stores=1, consumers=0):
    """The script of these bytes, read for so many stores and consumers."""
    lines = data[: MOST_SCRIPT + 1].split(b"\n")
    if len(data) > MOST_SCRIPT:
        past = len(lines) - (1 if lines[-1] == b"" else 0)
        lines = lines[: past - 1]
    else:
        past = None
        if lines[-1] == b"":
            lines.pop()
    script = Script()
    reader = LineReader(script, stores, consumers)
    for number, line in enumerate(lines, 1):
        judge(reader, number, line)
        if len(script.create_lines) < len(script.tables):
            script.create_lines.append(number)
        if len(script.said_lines) < len(script.said):
            script.said_lines.append(number)
    if past is not None:
        raise Refused(past, 8)
    if reader.part < 0:
        raise Refused(len(lines) + 1, 4)
    return script


def judge(reader, number, line):
    """Reads a line, or refuses it."""
    found = set()
    if len(line) > MOST_LINE:
        found.add(2)
    try:
        text = line.decode("utf-8")
    except UnicodeDecodeError:
        raise Refused(number, 1) from None
    text = (text[:-1] if text.endswith("\r") else text).strip(" \t")
    if text and not text.startswith("#"):
        found |= reader.reasons(text)
    if found:
        raise Refused(number, min(found))
