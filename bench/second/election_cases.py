#!/usr/bin/env python3
"""The runs of crates/election_cases, played a second time.

    election_cases.py write | draw SEED FOLDER      see case_files.py

Here nodes have whole logs, facts have the log that they speak of, and each state is looked at: a wrong one, which the
laws of cluster_consensus and its neighbours exclude, ends the program.
"""

import random

import case_files


class Wrong(Exception):
    """A state that no run may come to."""


def right(holds, what):
    if not holds:
        raise Wrong(what)


def begins(log, front):
    return log[:len(front)] == front


def agree(log, other):
    return begins(log, other) or begins(other, log)


class Fact:
    """What a node told: a kind, its numbers, and the log that it speaks of."""

    def __init__(self, kind, sender, generation, log=(), **numbers):
        self.kind, self.sender, self.generation, self.log = kind, sender, generation, log
        self.__dict__.update(numbers)


class Node:
    """A node, with what its store has."""

    def __init__(self, number, promised=0, accepted=0, log=()):
        self.number, self.promised, self.accepted, self.log = number, promised, accepted, log
        self.adopted, self.durable, self.known = 0, 0, ()
        self.granted, self.acked, self.leading, self.up = set(), {}, False, True


class Cluster:
    """Nodes, what they told, and what was accepted and told durable in each generation."""

    def __init__(self, count):
        self.nodes = {number: Node(number) for number in range(1, count + 1)}
        self.told, self.accepted, self.durable = [], [], []
        self.entries, self.ask, self.answered, self.before_ask = 0, 0, 0, 0

    def is_majority(self, numbers):
        return 2 * len(numbers) > len(self.nodes)

    # What nodes may do about a fact: the action, and the facts that it tells.

    def hear(self, node, fact):
        return getattr(self, "hear_" + fact.kind)(node, fact)

    def promise(self, node, generation, to):
        node.promised, node.granted, node.leading = generation, set(), False
        self.told.append(Fact("granted", node.number, generation, node.log, to=to))
        return f"promise {generation} to {to}"

    def stand(self, node, generation):
        if not node.up or generation <= node.promised:
            return "nothing"
        self.told.append(Fact("vote", node.number, generation, node.log, accepted=node.accepted))
        return self.promise(node, generation, node.number)

    def hear_vote(self, node, fact):
        is_newer = (fact.accepted, len(fact.log)) >= (node.accepted, len(node.log))
        if not node.up or fact.generation <= node.promised or not is_newer:
            return "nothing"
        return self.promise(node, fact.generation, fact.sender)

    def hear_granted(self, node, fact):
        if fact.to == node.number and fact.generation == node.promised:
            node.granted.add(fact.sender)
            if node.up and node.accepted < node.promised and self.is_majority(node.granted):
                return self.lead(node)
        return "nothing"

    def lead(self, node):
        generation = node.accepted = node.promised
        node.adopted, node.acked, node.leading = len(node.log), {}, True
        self.accept(node)
        self.told.append(Fact("adopt", node.number, generation, node.log))
        self.acknowledge(node)
        return f"lead {generation}"

    def acknowledge(self, node):
        self.told.append(Fact("ack", node.number, node.accepted, node.log))

    def hear_adopt(self, node, fact):
        return self.hear_ship(node, fact)

    def hear_ship(self, node, fact):
        """Takes the whole log in a new generation, else one entry more, or the same log again."""
        have, length = len(node.log), len(fact.log)
        if not node.up or fact.generation < max(node.promised, node.accepted):
            return "nothing"
        if fact.generation == node.accepted:
            if length < have:
                return "nothing"
            length = min(length, have + 1)
        else:
            node.leading = False
        node.promised = node.accepted = fact.generation
        node.log, node.granted = fact.log[:length], set()
        self.accept(node)
        self.acknowledge(node)
        return f"take {node.accepted} length {length}"

    def hear_ack(self, node, fact):
        if not node.leading or fact.generation != node.accepted:
            return "nothing"
        node.acked[fact.sender] = max(node.acked.get(fact.sender, 0), len(fact.log))
        lengths = [length for length in node.acked.values()
                   if self.is_majority([one for one in node.acked.values() if one >= length])]
        best = max(lengths, default=0)
        if not node.up or best == 0 or best < node.durable:
            return "nothing"
        return self.know(node, best)

    def hear_durable(self, node, fact):
        best = min(len(fact.log), len(node.log))
        if not node.up or node.leading or node.accepted < fact.generation or best <= node.durable:
            return "nothing"
        return self.know(node, best)

    def know(self, node, length):
        right(length <= len(node.log), "a node knows more than its log has")
        node.durable, node.known = length, node.log[:length]
        right(all(agree(node.known, log) for _, log in self.durable), "durable logs disagree")
        if node.leading:
            self.tell_durable(node)
        return f"know {length}"

    def tell_durable(self, node):
        generation, log = node.accepted, node.known
        self.durable.append((generation, log))
        self.told.append(Fact("durable", node.number, generation, log))
        self.answered = max(self.answered, len(log))
        for higher, other in self.accepted:
            right(higher <= generation or begins(other, log), "a later log lacks a durable entry")
        for fact in self.told:
            if fact.kind == "ship" and (fact.sender, fact.generation) == (node.number, generation):
                right(len(fact.log) > len(log) or begins(log, fact.log), "an entry is committed that is lost")

    def hear_ping(self, node, fact):
        if not node.up or fact.generation < node.promised:
            return "nothing"
        self.told.append(Fact("pong", node.number, fact.generation, ask=fact.ask))
        self.check_begin()
        return f"pong {fact.generation} ask {fact.ask} from {node.number} to {fact.sender}"

    def hear_pong(self, node, fact):
        return "nothing"

    # What a node does by itself.

    def append(self, node):
        if node.up and node.leading:
            self.entries += 1
            node.log += (self.entries,)
            self.accept(node)
            self.told.append(Fact("ship", node.number, node.accepted, node.log))
            self.acknowledge(node)
        return "nothing"

    def probe(self, node):
        if node.up and node.leading and node.durable >= max(1, node.adopted):
            self.told.append(Fact("ping", node.number, node.accepted, node.log[:node.durable], ask=self.ask))
            self.answered = max(self.answered, node.durable)
        return "nothing"

    def asks(self):
        self.ask += 1
        self.before_ask = self.answered

    def restart(self, node, promised, accepted, length):
        """A node comes up with what its store has, which may be more than it told."""
        log = self.stored(node, accepted, length)
        known = node.known
        node.__init__(node.number, promised, accepted, log)
        right(begins(log, known), "a store lacks what its node knew as durable")
        self.accept(node)
        node.known = known
        return "nothing"

    def stored(self, node, accepted, length):
        """The log of a store: a front of the node's own; one that was told in that generation; or the node's own with
        entries of which nobody was told."""
        if accepted == node.accepted and length <= len(node.log):
            return node.log[:length]
        for fact in self.told:
            if fact.kind in ("adopt", "ship") and fact.generation == accepted and length <= len(fact.log):
                return fact.log[:length]
        log = node.log[:length]
        while len(log) < length:
            self.entries += 1
            log += (self.entries,)
        return log

    # What each state is looked at for.

    def accept(self, node):
        generation, log = node.accepted, node.log
        right(generation <= node.promised, "a log is accepted above the promise")
        right(begins(log, node.known), "a log lacks what its node knew as durable")
        for lower, other in self.durable:
            right(generation <= lower or begins(log, other), "a later log lacks a durable entry")
        for same, other in self.accepted:
            right(same != generation or agree(log, other), "two logs of one generation disagree")
        self.accepted.append((generation, log))

    def check_begin(self):
        """A begin is answered by a ping that a majority confirmed in its generation."""
        for ping in self.told:
            if ping.kind == "ping" and ping.ask == self.ask:
                numbers = {pong.sender for pong in self.told if pong.kind == "pong"
                           and (pong.ask, pong.generation) == (ping.ask, ping.generation)}
                if self.is_majority(numbers | {ping.sender}):
                    right(len(ping.log) >= self.before_ask, "a begin is answered below what was answered before")

    def again(self):
        """A further run over what the stores have, which fit: nothing that was told before reaches anybody."""
        self.told = []
        for node in self.nodes.values():
            yield self.shown(node, self.restart(node, node.promised, node.accepted, len(node.log)))
        for node in self.nodes.values():
            above = [other for other in self.nodes.values() if other.promised >= node.accepted]
            right(self.is_majority(above), "stores do not fit")

    # Lines.

    def found(self, kind, sender, generation, back=0):
        named = [fact for fact in self.told
                 if (fact.kind, fact.sender, fact.generation) == (kind, sender, generation)]
        return named[-1 - back] if back < len(named) else None

    def shown(self, node, action):
        granted = sum(1 << number for number in node.granted)
        acked = "".join(f" {node.acked.get(number, 0)}" for number in self.nodes)
        leads, down = " leads" if node.leading else "", "" if node.up else " down"
        return (f"  {node.number}: {action}; promised {node.promised} accepted {node.accepted} length {len(node.log)}"
                f" adopted {node.adopted} durable {node.durable} granted {granted} acked{acked}{leads}{down}")

    def heard(self, number, *named):
        fact = self.found(*named)
        if not fact or number not in self.nodes:
            return "  no such fact"
        node = self.nodes[number]
        return self.shown(node, self.hear(node, fact))

    def stood(self, number, generation):
        node = self.nodes[number]
        return self.shown(node, self.stand(node, generation))

    def play(self, word, words):
        """The lines that answer a line of the run."""
        if word == "ask":
            self.asks()
            return []
        if word == "again":
            return list(self.again())
        if word == "hear":
            node, kind, *numbers = words
            return [self.heard(int(node), kind, *map(int, numbers))]
        numbers = list(map(int, words))
        if word == "elect":
            node, generation, voter = numbers
            return [self.stood(node, generation), self.heard(node, "granted", node, generation),
                    self.heard(voter, "vote", node, generation), self.heard(node, "granted", voter, generation)]
        if word == "copy":
            leader, generation, follower = numbers
            return [self.heard(follower, "ship", leader, generation), self.heard(leader, "ack", leader, generation),
                    self.heard(leader, "ack", follower, generation)]
        return [self.alone(word, self.nodes[numbers[0]], numbers[1:])]

    def alone(self, word, node, numbers):
        """What a node does by itself."""
        if word == "down":
            node.up = False
            return self.shown(node, "nothing")
        if word == "restart":
            return self.shown(node, self.restart(node, *(numbers or (node.promised, node.accepted, len(node.log)))))
        return self.shown(node, getattr(self, word)(node, *numbers))


def answers(lines):
    told, cluster = [], Cluster(0)
    for line in map(str.strip, lines):
        word, *words = line.split() or [""]
        if word == "" or line.startswith("#"):
            continue
        told.append(line)
        if word == "nodes":
            cluster = Cluster(int(words[0]))
        elif word != "case":
            told += cluster.play(word, words)
    return told


# Drawn walks.


def name_of(cluster, fact):
    """The words that name a fact."""
    named = [other for other in cluster.told
             if (other.kind, other.sender, other.generation) == (fact.kind, fact.sender, fact.generation)]
    back = len(named) - 1 - named.index(fact)
    return f"{fact.kind} {fact.sender} {fact.generation}" + (f" {back}" if back else "")


def restart_line(draw, cluster, node):
    """A node comes up, maybe with what it had done before anybody was told: a promise, an entry, a log, a lead."""
    promised, accepted, length = node.promised, node.accepted, len(node.log)
    ships = [fact for fact in cluster.told[-8:] if fact.kind in ("adopt", "ship") and fact.generation > node.promised]
    which = draw.randrange(5)
    if which == 0:
        promised += 1
    elif which == 1 and node.leading:
        length += 1
    elif which == 2 and ships:
        promised, accepted, length = ships[0].generation, ships[0].generation, len(ships[0].log)
    elif which == 3 and ships:
        promised = ships[0].generation
    return f"restart {node.number} {promised} {accepted} {length}"


def drawn_line(draw, cluster):
    """A line of a walk: mostly a fact reaches a node, and mostly a late one."""
    node = draw.choice(list(cluster.nodes.values()))
    which = draw.random()
    if which < 0.05:
        return f"stand {node.number} {node.promised + 1}"
    if which < 0.15:
        leaders = [one for one in cluster.nodes.values() if one.leading] or [node]
        return f"append {draw.choice(leaders).number}"
    if which < 0.18:
        return restart_line(draw, cluster, node)
    if which < 0.19:
        return f"down {node.number}"
    if which < 0.22:
        return "ask"
    if which < 0.27 or not cluster.told:
        leaders = [one for one in cluster.nodes.values() if one.leading] or [node]
        return f"probe {draw.choice(leaders).number}"
    fact = draw.choice(cluster.told[-8:] if draw.random() < 0.9 else cluster.told)
    return f"hear {node.number} {name_of(cluster, fact)}"


def drawn_walk(draw, number, count, steps):
    """A walk of so many steps. Behind its half, one time in two, a further run goes on over what the stores have."""
    lines, cluster = [f"case drawn walk {number}", f"nodes {count}"], Cluster(count)
    is_again = draw.random() < 0.5
    for step in range(steps):
        line = "again" if is_again and step == steps // 2 else drawn_line(draw, cluster)
        word, *words = line.split()
        cluster.play(word, words)
        lines.append(line)
    return lines


def drawn_lines(seed):
    draw = random.Random(seed)
    for number in range(1, 13):
        yield from drawn_walk(draw, number, (3, 3, 5, 7)[number % 4], 100)


if __name__ == "__main__":
    case_files.run("election_cases", drawn_lines, answers)
