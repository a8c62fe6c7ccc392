#!/usr/bin/env python3
"""The cases of crates/history_cases: those written by hand in history_cases.hand, and histories that are drawn. A drawn one is
of a cluster whose nodes have whole logs; whose log is reported, and behind which base, is looked up in these."""

import random

import cases

DRAWN = 24


def is_said(line):
    word = line.split(" ")[0]
    return word == "log" or word.isdigit()


class Node:
    """A node: what its store has, and each log that it accepted or led with."""

    def __init__(self, number, accepted, log):
        self.number = number
        self.promised = accepted
        self.accepted = accepted
        self.log = log
        self.up = False
        self.was_up = False
        self.leads_now = False
        self.accepts = []
        self.leads = []
        self.under_way = None

    def pair(self):
        return (self.accepted, len(self.log))

    def has(self, generation, log):
        self.promised = max(self.promised, generation)
        self.accepted = generation
        self.log = list(log)
        self.accepts.append((generation, list(log)))


class Cluster:
    """Nodes, two sessions and the operator; `said` has what each did, `told` the lines of the report."""

    def __init__(self, draw):
        self.draw = draw
        count = draw.randint(1, 5)
        stored = ["setup"] + ["a:%d:%d" % (k, k) for k in range(1, 4)]
        self.nodes = []
        for number in range(1, count + 1):
            length = draw.randint(0, len(stored)) if draw.random() < 0.6 else 0
            self.nodes.append(Node(number, 1 if length else 0, stored[:length]))
        self.said = []
        self.told = []
        self.downs = 0
        self.sessions = {"a": Session("a", count + 1), "b": Session("b", count + 2)}

    def does(self, actor, words):
        self.said.append("%d %s" % (actor, words))

    def down(self, node, by_fault):
        node.up = False
        node.leads_now = False
        self.downs += 1
        kind = "fault" if by_fault else "stop"
        self.does(node.number, kind)
        self.told.append("down %d %d %s" % (self.downs, node.number, kind))

    def is_told_down(self, node):
        return any(line.split(" ")[:1] == ["down"] and line.split(" ")[2] == str(node.number) for line in self.told)

    def first_up(self, node):
        if self.is_told_down(node):
            self.told.append("up %d" % node.number)
        node.up = node.was_up = True
        self.does(node.number, "first %d %d" % node.pair())

    def up_again(self, node):
        """With its log as it left it, or with what the event would have made that was under way."""
        how = "left"
        if node.under_way and self.draw.random() < 0.6:
            how, generation, log = node.under_way
            node.has(generation, log)
            if how == "led":
                node.leads.append((generation, list(log)))
        node.under_way = None
        node.up = True
        self.told.append("up %d" % node.number)
        self.does(node.number, "%s %d %d" % ((how,) + node.pair()))

    def fails(self, node, under_way):
        """Now and then the store of a node fails at an event."""
        if self.draw.random() < 0.85:
            return False
        node.under_way = under_way
        self.down(node, True)
        return True

    def stand(self, node):
        generation = max(other.promised for other in self.nodes) + self.draw.randint(1, 3)
        others = [other for other in self.nodes if other is not node and other.up and self.draw.random() < 0.8]
        if self.fails(node, None):
            return
        node.promised = generation
        node.leads_now = False
        self.does(node.number, "stand %d" % generation)
        votes = 1
        for other in others:
            if other.promised < generation and other.pair() <= node.pair():
                other.promised = generation
                other.leads_now = False
                votes += 1
        if 2 * votes <= len(self.nodes) or self.fails(node, ("led", generation, list(node.log))):
            return
        node.has(generation, node.log)
        node.leads.append((generation, list(node.log)))
        node.leads_now = True
        self.does(node.number, "lead %d" % generation)

    def append(self, node):
        entry = "setup"
        if node.log:
            session = self.draw.choice(list(self.sessions.values()))
            entry = "%s:%d:%d" % (session.name, session.ended + 1, self.draw.randint(1, len(node.log)))
        log = node.log + [entry]
        if self.fails(node, ("appended", node.accepted, log)):
            return
        node.has(node.accepted, log)
        self.does(node.number, "append")

    def ship(self, leader, node):
        newer = node.accepted < leader.accepted or len(node.log) < len(leader.log)
        if node.promised > leader.accepted or not newer:
            return
        length = len(leader.log)
        if node.accepted == leader.accepted:
            length = self.draw.randint(len(node.log) + 1, length)
        if self.fails(node, ("took", leader.accepted, leader.log[:length])):
            return
        node.has(leader.accepted, leader.log[:length])
        node.leads_now = False
        self.does(node.number, "take %d %d" % node.pair())

    def says(self, session):
        session.goes_on(self)

    def step(self):
        node = self.draw.choice(self.nodes)
        kind = self.draw.random()
        if kind < 0.1:
            self.operator()
        elif kind < 0.3:
            self.says(self.draw.choice(list(self.sessions.values())))
        elif not node.up:
            self.up_again(node) if node.was_up else self.first_up(node)
        elif kind < 0.36:
            self.down(node, False)
        elif node.leads_now and kind < 0.8:
            self.draw.choice([self.append, self.ship_to_one])(node)
        elif not any(other.leads_now for other in self.nodes) or kind < 0.4:
            self.stand(node)

    def ship_to_one(self, leader):
        others = [other for other in self.nodes if other is not leader and other.up]
        if others:
            self.ship(leader, self.draw.choice(others))

    def operator(self):
        place = self.draw.randint(1, 4)
        words, line = self.draw.choice([("barrier", "barrier"), ("feed %d" % place, "fed %d" % place), ("again %d" % place, "fed %d" % place)])
        self.does(0, words)
        self.told.append(line)

    def reported(self):
        return max(self.nodes, key=lambda node: (node.pair(), -node.number))

    def base(self):
        """How long the log is that the leader adopted of the least generation in which a majority accepted a log that begins with it."""
        leads = sorted((generation, log) for node in self.nodes for generation, log in node.leads)
        for generation, first in leads:
            count = sum(any(g == generation and log[:len(first)] == first for g, log in node.accepts) for node in self.nodes)
            if 2 * count > len(self.nodes):
                return len(first)
        return len(self.reported().log)

    def tail(self):
        log, base = self.reported().log, self.base()
        lines = ["base %d" % base] if base else []
        for place in range(base, len(log)):
            words = "schema" if log[place] == "setup" else "%s %s %s snapshot" % tuple(log[place].split(":"))
            lines.append("entry %d %s" % (place + 1, words))
        return lines + ["end %d" % len(log)]


class Session:
    """A session: whether it is in a transaction, and how many ended."""

    def __init__(self, name, actor):
        self.name = name
        self.actor = actor
        self.ended = 0
        self.inside = False

    def goes_on(self, cluster):
        draw = cluster.draw
        number = self.ended + 1
        if not self.inside:
            place = draw.randint(0, 5)
            cluster.does(self.actor, "begin %d" % place)
            cluster.told.append("%s %d begin %d" % (self.name, number, place))
            self.inside = True
        elif draw.random() < 0.5:
            words = draw.choice(["changed 1", "done 3", "changed 0"])
            cluster.does(self.actor, "told %s %d %s" % (self.name, number, words))
            cluster.told.append("%s %d %s" % (self.name, number, words))
        else:
            words = draw.choice(["committed 4", "nomemory", "rolledback", "lost 1 2", "nomajority 1 3"])
            cluster.does(self.actor, "ends %s %d %s" % (self.name, number, words))
            cluster.told.append("%s %d %s" % (self.name, number, words))
            self.inside = False
            self.ended = number


def drawn_case(draw, number):
    cluster = Cluster(draw)
    for node in cluster.nodes:
        if draw.random() < 0.85:
            cluster.first_up(node)
        else:
            cluster.down(node, True)
    for _ in range(draw.randint(10, 60)):
        cluster.step()
    head = "case %d drawn, number %d" % (len(cluster.nodes), number)
    said = [head] + cluster.said + [" ".join(["log"] + cluster.reported().log)]
    told = [head, "reported %d behind %d" % (cluster.reported().number, cluster.base())] + cluster.told + cluster.tail()
    return said, told


def drawn(seed, count):
    draw = random.Random(seed)
    said, told = [], []
    for number in range(1, count + 1):
        one = drawn_case(draw, number)
        said += one[0]
        told += one[1]
    return "\n".join(said) + "\n", "\n".join(told) + "\n"


def written():
    said, told = cases.read_by_hand((cases.HERE / "history_cases.hand").read_text(), is_said)
    more = drawn(1, DRAWN)
    return "\n".join(said) + "\n" + more[0], "\n".join(told) + "\n" + more[1]


if __name__ == "__main__":
    cases.main("history_cases", written, lambda seed: drawn(seed, 40 * DRAWN))
