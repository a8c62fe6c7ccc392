"""Where a text of SQL is refused, by a table of the grammar and Earley's algorithm.

refusal(text, rule)     the offset at which these bytes are refused as a "statement" or a "table"; None where they are read

Nothing here knows how the product reads: all ways in which the tokens so far may go on are kept side by side.
"""

import re

MOST_NAME, MOST_OPEN = 32, 100

RESERVED = set(
    "all and as asc begin blob by commit count create delete desc from group insert int integer into is key limit lost max min "
    "nomajority not null or order pk primary rollback select selectv serializable set snapshot sum table text tooold "
    "transaction unique update values where".split()
)

# A rule and the ways in which it is written. Names of rules are in capitals, as are the kinds of tokens that are no word
# and no sign: NAME, NUMBER, GREATEST (the number 2 ^ 63), TEXT and BLOB. NOT, OR and AND stand for one number of open
# levels each, and are written out below.
RULES = """
STATEMENT   ONE | ONE ;
ONE         begin | commit | rollback | set transaction snapshot | set transaction serializable
ONE         insert into NAME values TUPLES | insert into NAME ( NAMES ) values TUPLES
ONE         update NAME set ASSIGNS WHERE | delete from NAME WHERE
ONE         SELECT ITEMS from TABLES WHERE GROUP ORDER LIMIT
SELECT      select | selectv
ITEMS       * | LISTED
LISTED      ITEM | LISTED , ITEM
ITEM        COLUMN | count ( * ) | sum ( COLUMN ) | min ( COLUMN ) | max ( COLUMN )
TABLES      FROM | FROM , FROM | FROM , FROM , FROM
FROM        NAME | NAME NAME | NAME as NAME
NAMES       NAME | NAMES , NAME
TUPLES      TUPLE | TUPLES , TUPLE
TUPLE       ( LITERALS )
LITERALS    LITERAL | LITERALS , LITERAL
LITERAL     NUMBER | - NUMBER | - GREATEST | TEXT | BLOB | null
ASSIGNS     ASSIGN | ASSIGNS , ASSIGN
ASSIGN      NAME = OPERAND STEPS
STEPS       | STEPS + OPERAND | STEPS - OPERAND
WHERE       | where OR0
GROUP       | group by COLUMNS
COLUMNS     COLUMN | COLUMNS , COLUMN
ORDER       | order by KEYS
KEYS        KEY | KEYS , KEY
KEY         ITEM | ITEM asc | ITEM desc
LIMIT       | limit NUMBER
TEST        = OPERAND | <> OPERAND | != OPERAND | < OPERAND | <= OPERAND | > OPERAND | >= OPERAND
TEST        is null | is not null
OPERAND     LITERAL | COLUMN
COLUMN      NAME | NAME . NAME
CREATE      create table NAME ( PARTS ) | create table NAME ( PARTS ) ;
PARTS       PART | PARTS , PART
PART        NAME TYPE MARKS | primary key ( NAMES ) | unique NAME ( NAMES ) | key NAME ( NAMES )
TYPE        integer | int | text | blob
MARKS       | MARKS not null | MARKS primary key | MARKS unique
"""

SIGNS = ["<>", "!=", "<=", ">=", "(", ")", ",", ".", ";", "*", "=", "<", ">", "+", "-"]


def rules():
    found = {}
    for line in RULES.strip().split("\n"):
        name, _, ways = line.partition(" ")
        found.setdefault(name, []).extend(way.split() for way in ways.split("|"))
    for level in range(MOST_OPEN + 1):
        found["OR%d" % level] = [["AND%d" % level], ["OR%d" % level, "or", "AND%d" % level]]
        found["AND%d" % level] = [["NOT%d" % level], ["AND%d" % level, "and", "NOT%d" % level]]
        found["NOT%d" % level] = [["OPERAND", "TEST"]]
        if level < MOST_OPEN:
            found["NOT%d" % level] += [["not", "NOT%d" % (level + 1)], ["(", "OR%d" % (level + 1), ")"]]
    return found


GRAMMAR = rules()
EMPTY = {name for name, ways in GRAMMAR.items() if [] in ways}
STARTS = {"statement": "STATEMENT", "table": "CREATE"}


def token_at(text, at):
    """The kind of the token at a place that is no blank, and its length; None where no token begins."""
    rest = text[at:]
    if rest[:2] in (b"x'", b"X'"):
        found = re.match(rb"[xX]'([0-9a-fA-F]{2})*'", rest)
        return ("BLOB", found.end()) if found else None
    found = re.match(rb"[A-Za-z_][A-Za-z_0-9]*", rest)
    if found:
        word = found.group().decode().lower()
        return word if word in RESERVED else "NAME" if len(word) <= MOST_NAME else "no name", found.end()
    found = re.match(rb"[0-9]+", rest)
    if found:
        number = int(found.group().lstrip(b"0")[:20] or b"0")
        return ("GREATEST" if number == 2**63 else "NUMBER", found.end()) if number <= 2**63 else None
    if rest[:1] == b"'":
        # A quote right behind it would be the second of two, so that the text is not closed there.
        found = re.match(rb"'([^']|'')*'(?!')", rest)
        return ("TEXT", found.end()) if found else None
    for sign in SIGNS:
        if rest.startswith(sign.encode()):
            return sign, len(sign)
    return None


def spots(text):
    """The tokens with their places. A place where no token begins is the last."""
    found, at = [], 0
    while at < len(text):
        if text[at : at + 1] in (b" ", b"\t"):
            at += 1
            continue
        token = token_at(text, at)
        if token is None:
            return found + [(at, "nothing")]
        found.append((at, token[0]))
        at += token[1]
    return found


class Ways:
    """The ways in which the tokens so far may go on: (rule, way, how much of it is there, where it began)."""

    def __init__(self, start):
        self.start = start
        self.behind = []
        self.add({(start, way, 0, 0) for way in range(len(GRAMMAR[start]))})

    def add(self, ways):
        """The ways behind one more token, with all that they may begin and end."""
        here, found, left = len(self.behind), set(ways), list(ways)
        while left:
            name, way, done, since = left.pop()
            parts = GRAMMAR[name][way]
            if done == len(parts):
                outer = found if since == here else self.behind[since]
                new = [(n, w, d + 1, s) for n, w, d, s in list(outer) if GRAMMAR[n][w][d : d + 1] == [name]]
            elif parts[done] in GRAMMAR:
                new = [(parts[done], other, 0, here) for other in range(len(GRAMMAR[parts[done]]))]
                if parts[done] in EMPTY:
                    new.append((name, way, done + 1, since))
            else:
                new = []
            left += [one for one in new if one not in found]
            found.update(new)
        self.behind.append(found)

    def take(self, token):
        """Whether they may go on with this token, which they then do."""
        on = {(n, w, d + 1, s) for n, w, d, s in self.behind[-1] if GRAMMAR[n][w][d : d + 1] == [token]}
        if on:
            self.add(on)
        return bool(on)

    def may_end(self):
        return any(n == self.start and d == len(GRAMMAR[n][w]) and s == 0 for n, w, d, s in self.behind[-1])


def refusal(text, rule):
    ways = Ways(STARTS[rule])
    for at, token in spots(text):
        if not ways.take(token):
            return at
    return None if ways.may_end() else len(text)
