#!/usr/bin/env python3
"""Memory that is refused to a node of crates/node_cases, at each growth of a case in turn.

    node_refused.py draw COUNT FOLDER    writes so many inputs: a case behind no line of comment, behind one, and so on
    node_refused.py judge < ANSWERS      reads what the program told of them, while one allocation of each run was refused

Each line of comment is one allocation before the case, so the refused one falls earlier behind each line more:

    bench/second/node_refused.py draw 400 FOLDER
    cd crates/node_cases && rt try --steps 1 --fail-alloc 420 --cases FOLDER | ../../bench/second/node_refused.py judge

Where a call is refused its node is as it was, a packet that it took in is lost, and the case goes on: so it is played once more
for each of its calls. A run that was refused what it wants for its own lines tells nothing.
"""

import collections
import pathlib
import sys

import node_cases
from node_cases import Cluster

CASE = """stand 1 1
all
setup 1
lose 1 2
lose 1 3
deliver 1 1
stand 2 2
all
setup 2
all
begin 2
all
ship 2 1
all
stop 1
start 1
ship 2 1
all
begin 2
all""".splitlines()


class Refusing(Cluster):
    """A cluster of which one call is refused its memory. A start or a stop may be ordered by then, and the operator waits."""

    def __init__(self, at, ordered):
        super().__init__({})
        self.calls, self.at, self.ordered = 0, at, ordered

    def refuses(self):
        self.calls += 1
        return self.calls == self.at

    def no_memory(self, node):
        return [f"  {node.number}: no memory", node.shown()]

    def came(self, node, does, *what):
        if does == self.deliver and self.refuses():
            return self.no_memory(node)
        return super().came(node, does, *what)

    def alone(self, word, node, numbers):
        if self.refuses():
            self.waits = self.waits or self.ordered and word in ("start", "stop")
            return self.no_memory(node)
        return super().alone(word, node, numbers)


def told(at, ordered=False):
    """What the case comes to where the call with that number is refused; and how many calls there are."""
    cluster = Refusing(at, ordered)
    return "\n".join(node_cases.lines_told(cluster, CASE)), cluster.calls


def draw(count, folder):
    for number in range(count):
        lines = ["# a line of comment"] * number + CASE
        pathlib.Path(folder, f"{number:04}").write_text("\n".join(lines) + "\n")


def answers(text):
    """What each run told, without its lines of comment."""
    runs, lines = [], []
    for line in text.splitlines():
        if line.startswith("== "):
            lines = []
            runs.append((line[3:], lines))
        elif not line.startswith("#"):
            lines.append(line)
    return [(name, "\n".join(lines)) for name, lines in runs]


def judge(text):
    whole, calls = told(0)
    refused = {told(at, ordered)[0]: at for at in range(1, calls + 1) for ordered in (False, True)}
    seen, others = collections.Counter(), []
    for name, answer in answers(text):
        if answer in refused:
            seen[refused[answer]] += 1
        elif answer not in ("", whole):
            others.append(name)
    print(f"{sum(seen.values())} growths of {len(seen)} of {calls} calls were refused, and each came to what is computed")
    print("no growth was refused at call", *[at for at in range(1, calls + 1) if at not in seen])
    if others:
        print("not as computed:", *others)
    return not others and seen


if __name__ == "__main__":
    words = sys.argv[1:]
    if len(words) == 3 and words[0] == "draw":
        draw(int(words[1]), words[2])
    elif words == ["judge"]:
        sys.exit(0 if judge(sys.stdin.read()) else 1)
    else:
        sys.exit("usage: node_refused.py draw COUNT FOLDER | judge < ANSWERS")
