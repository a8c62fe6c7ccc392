#!/usr/bin/env python3
"""The cases of crates/node_cases, played a second time.

    node_cases.py write | draw SEED FOLDER      see case_files.py

Here a packet carries the whole log of its sender beside the entries that are sent, and each state is looked at: a wrong
one, which the laws of cluster_core exclude, ends the program. A node keeps frames in a store of store_model, and comes up
with what that stands for.
"""

import random

import case_files
import store_model as model
from store_cases import Tree
from store_model import Failed, MemStore, Setup

NODES = (1, 2, 3)
CLUSTER = 7


class Wrong(Exception):
    """A state that no run may come to."""


def right(holds, what):
    if not holds:
        raise Wrong(what)


def begins(log, front):
    return log[:len(front)] == front


def agree(log, other):
    return begins(log, other) or begins(other, log)


def is_majority(numbers):
    return 2 * len(numbers) > len(NODES)


class Packet:
    """A message under way: to whom, what it says, the log that it tells, and how many of its last entries it brings."""

    def __init__(self, sender, to, kind, generation, log=(), brings=0, says="", **numbers):
        self.sender, self.to, self.kind, self.generation, self.log, self.brings = sender, to, kind, generation, log, brings
        self.says, self.numbers = f"{kind} {generation}{says}", numbers


def setup_in(generation):
    """A setup without tables, of which a generation has one at most."""
    return Setup(generation, [], Tree([]).pages.taken())


class Node:
    """A node that is up over an empty store. It is read and opened then, which may fail."""

    def __init__(self, number, fails, keeps):
        self.number, self.up, self.leading, self.promised, self.accepted, self.log = number, True, False, 0, 0, ()
        self.adopted, self.durable, self.granted, self.acked, self.learned = 0, 0, set(), {}, False
        self.known, self.store = (), MemStore(b"", fails, None, keeps)
        self.open()
        self.open()

    def open(self):
        """What the store stands for, as a promise, an acceptance and a log. It may fail."""
        found = model.open_log(self.store, self.number, CLUSTER)
        return found.promised, found.accepted, tuple(one.generation for one in found.log.entries)

    def keep(self, *frames):
        """Keeps frames before the node does anything by them. Where that fails the node is down."""
        try:
            model.keep(self.store, b"".join(frames))
        except Failed:
            self.up = False
            raise

    def others(self):
        return [number for number in NODES if number != self.number]

    def shown(self):
        log = "".join(f" {generation}" for generation in self.log)
        leads, down = " leads" if self.leading else "", "" if self.up else " down"
        return (f"  {self.number}: promised {self.promised} accepted {self.accepted} log{log};"
                f" adopted {self.adopted} durable {self.durable}{leads}{down}")


class Cluster:
    """Three nodes, the packets under way, and what was accepted and known as durable in each generation. The operator waits
    where a start of its failed."""

    def __init__(self, stores):
        self.nodes = {number: Node(number, *stores.get(number, ((), 0))) for number in NODES}
        self.under_way, self.accepted, self.durable = [], [], []
        self.ask, self.led, self.waits = 0, {}, False

    # What a node tells.

    def tell(self, node, to, kind, generation, *rest, **numbers):
        return Packet(node.number, to, kind, generation, *rest, **numbers)

    def tell_others(self, node, kind, generation, *rest, **numbers):
        return [self.tell(node, to, kind, generation, *rest, **numbers) for to in node.others()]

    def ack(self, node, to, length):
        return self.tell(node, to, "ack", node.accepted, node.log[:length], says=f" length {length}")

    def tell_durable(self, node, to):
        return self.tell(node, to, "durable", node.accepted, node.log[:node.durable], says=f" length {node.durable}")

    # What a node does by itself.

    def promise(self, node, generation):
        node.keep(model.promise(generation))
        node.promised, node.granted, node.leading = generation, set(), False

    def stand(self, node, generation):
        if not node.up:
            return None
        if generation <= node.promised:
            return []
        self.promise(node, generation)
        says = f" accepted {node.accepted} length {len(node.log)}"
        own = self.tell(node, node.number, "granted", generation, says=f" to {node.number}", to_node=node.number)
        return self.tell_others(node, "vote", generation, node.log, 0, says, accepted=node.accepted) + [own]

    def setup(self, node):
        if not node.up:
            return None
        node.keep(model.entry(setup_in(node.accepted)))
        node.log = (node.accepted,)
        self.accept(node)
        return self.tell_others(node, "ship", node.accepted, node.log, 1, " length 1") + [self.ack(node, node.number, 1)]

    def begin(self, node):
        says = f" durable {node.durable}"
        return self.tell_others(node, "ping", node.accepted, node.log[:node.durable], 0, says, ask=self.ask)

    def ship(self, node, to):
        if not (node.up and node.leading):
            return []
        adopt = self.tell(node, to, "adopt", node.accepted, node.log, len(node.log), f" length {len(node.log)}")
        return [adopt] + ([self.tell_durable(node, to)] if node.learned else [])

    def start(self, node):
        """The operator starts a node: one that is down comes up with what its store stands for."""
        if node.up:
            return []
        had = node.accepted, node.log
        node.promised, node.accepted, node.log = self.opened(node)
        node.durable, node.leading, node.up = 0, False, True
        node.granted, node.acked, node.learned = set(), {}, False
        if (node.accepted, node.log) != had:
            self.accept(node)
        return []

    def opened(self, node):
        """What its store stands for; the operator waits where the store fails there."""
        try:
            return node.open()
        except Failed:
            self.waits = True
            raise

    # What a node does about a packet.

    def deliver(self, packet):
        node = self.nodes[packet.to]
        return getattr(self, "hear_" + packet.kind)(node, packet) if node.up else None

    def hear_vote(self, node, packet):
        is_newer = (packet.numbers["accepted"], len(packet.log)) >= (node.accepted, len(node.log))
        if packet.generation <= node.promised or not is_newer:
            return []
        self.promise(node, packet.generation)
        says = f" to {packet.sender}"
        return [self.tell(node, packet.sender, "granted", packet.generation, says=says, to_node=packet.sender)]

    def hear_granted(self, node, packet):
        if packet.numbers["to_node"] != node.number or packet.generation != node.promised:
            return []
        node.granted.add(packet.sender)
        if node.accepted >= node.promised or not is_majority(node.granted):
            return []
        right(node.promised not in self.led, "a generation has two leaders")
        node.keep(model.accept(node.promised))
        self.led[node.promised] = node.number
        node.accepted, node.adopted, node.acked, node.leading = node.promised, len(node.log), {}, True
        node.learned = False
        self.accept(node)
        length = len(node.log)
        adopts = self.tell_others(node, "adopt", node.accepted, node.log, length, f" length {length}")
        return adopts + [self.ack(node, node.number, length)]

    def hear_adopt(self, node, packet):
        """Takes a whole log in a new generation; else all entries that it has not, where none is missing before them."""
        have, length = len(node.log), len(packet.log)
        if packet.generation < max(node.promised, node.accepted):
            return []
        if have < length - packet.brings or packet.generation != node.accepted and packet.brings != length:
            return []
        if packet.generation == node.accepted and length < have:
            return []
        self.keep_taken(node, packet)
        node.leading = node.leading and node.accepted == packet.generation
        node.promised = node.accepted = packet.generation
        node.granted = set()
        node.log = packet.log
        self.accept(node)
        return [self.ack(node, packet.sender, length)]

    hear_ship = hear_adopt

    def keep_taken(self, node, packet):
        """Keeps a whole log in a new generation, in the place of its own; else each entry that it has not."""
        entries = [model.entry(setup_in(one)) for one in packet.log]
        if packet.generation > node.accepted:
            promise = [model.promise(packet.generation)] if packet.generation > node.promised else []
            node.keep(*promise, model.cut(0), *entries, model.accept(packet.generation))
            return
        for one in entries[len(node.log):]:
            node.keep(one)

    def hear_ack(self, node, packet):
        if not node.leading or packet.generation != node.accepted:
            return []
        node.acked[packet.sender] = max(node.acked.get(packet.sender, 0), len(packet.log))
        best = max((length for length in node.acked.values()
                    if is_majority([one for one in node.acked.values() if one >= length])), default=0)
        if best == 0 or best < node.durable:
            return []
        self.know(node, best)
        node.learned = True
        return [self.tell_durable(node, to) for to in node.others()]

    def hear_durable(self, node, packet):
        best = min(len(packet.log), len(node.log))
        if not node.leading and packet.generation <= node.accepted and node.durable < best:
            self.know(node, best)
        return []

    def hear_ping(self, node, packet):
        if packet.generation < node.promised:
            return []
        return [self.tell(node, packet.sender, "pong", packet.generation)]

    def hear_pong(self, node, packet):
        return []

    # What each state is looked at for.

    def accept(self, node):
        generation, log = node.accepted, node.log
        right(generation <= node.promised, "a log is accepted above the promise")
        right(begins(log, node.known), "a log lacks what its node knew as durable")
        for lower, other in self.durable:
            right(generation <= lower or begins(log, other), "a later log lacks a durable entry")
        for same, other in self.accepted:
            right(same != generation or agree(log, other), "two logs of one generation disagree")
        self.accepted.append((generation, log))

    def know(self, node, length):
        right(length <= len(node.log), "a node knows more than its log has")
        node.durable, node.known = length, node.log[:length]
        right(all(agree(node.known, log) for _, log in self.durable), "durable logs disagree")
        self.durable.append((node.accepted, node.known))

    # Lines.

    def came(self, node, does, *what):
        """What a node does, and what it sends."""
        try:
            packets = does(*what)
        except Failed:
            return [f"  {node.number}: fault", node.shown()]
        if packets is None:
            return [f"  {node.number}: down"]
        self.under_way += packets
        return [node.shown()] + [f"    to {packet.to}: {packet.says}" for packet in packets]

    def taken(self, sender, to):
        """The oldest packet from a node to another, which is under way no more."""
        found = [packet for packet in self.under_way if (packet.sender, packet.to) == (sender, to)]
        for packet in found[:1]:
            self.under_way.remove(packet)
        return found[0] if found else None

    def play(self, word, numbers):
        """The lines that answer a line of a case."""
        if word == "all":
            return list(self.deliver_all())
        if word in ("deliver", "lose"):
            packet = self.taken(*numbers)
            if packet is None:
                return ["  no such packet"]
            return self.came(self.nodes[packet.to], self.deliver, packet) if word == "deliver" else []
        self.ask += word == "begin"
        if numbers[0] not in NODES:
            return ["  nothing"]
        return self.alone(word, self.nodes[numbers[0]], numbers[1:])

    def deliver_all(self):
        while self.under_way:
            packet = self.under_way.pop(0)
            yield f" {packet.sender} {packet.to}"
            yield from self.came(self.nodes[packet.to], self.deliver, packet)

    def alone(self, word, node, numbers):
        """What a node does by itself."""
        if word in ("stop", "start") and self.waits:
            return ["  nothing"]
        if word == "stop":
            node.up = False
            return [node.shown()]
        if word == "setup" and (not node.leading or node.log) or word == "ship" and numbers[0] not in node.others():
            return ["  nothing"]
        if word == "begin":
            return self.asked(node)
        return self.came(node, getattr(self, word), node, *numbers)

    def asked(self, node):
        if not node.up:
            return [f"  {node.number}: down"]
        if not node.leading:
            return [f"  {node.number}: no master, promised {node.promised}"]
        if node.durable < max(1, node.adopted):
            return [f"  {node.number}: not yet, durable {node.durable} adopted {node.adopted}"]
        return self.came(node, self.begin, node)


DOES = ("stand", "setup", "begin", "ship", "stop", "start", "deliver", "lose", "all")
KEEPS = (0, 20, 999)
COUNTS = {"stand": 2, "ship": 2, "deliver": 2, "lose": 2, "all": 0}


def stores_in(lines):
    """What the lines of a case say of stores: which calls fail, and how many pending bytes a store keeps that stops."""
    stores = {}
    for line in lines:
        word, *words = line.split() or [""]
        if word == "store":
            number, keeps, *fails = map(int, words)
            stores[number] = (set(fails), keeps)
    return stores


def lines_told(cluster, lines):
    """Lines, each with what it comes to below it."""
    for line in lines:
        yield line
        word, *words = line.split() or [""]
        if word in DOES:
            count = COUNTS.get(word, 1)
            yield from cluster.play(word, [*map(int, words), 0, 0][:count])


def case_told(lines):
    """The lines of a case, each with what it comes to below it."""
    try:
        cluster = Cluster(stores_in(lines))
    except Failed:
        return ["a store failed at the opening"]
    return list(lines_told(cluster, lines))


def answers(lines):
    told, case = [], []
    for line in [*lines, ""]:
        if line:
            case.append(line)
        else:
            told, case = told + case_told(case) + [""], []
    return told[:-1]


# Drawn walks.


def drawn_line(draw, cluster):
    """A line of a walk: mostly a packet reaches its node, and mostly an old one."""
    node = draw.choice(list(cluster.nodes.values()))
    leader = draw.choice([one for one in cluster.nodes.values() if one.leading] or [node])
    which = draw.random()
    if which < 0.07:
        return f"stand {node.number} {node.promised + draw.randrange(3)}"
    if which < 0.14:
        return f"setup {leader.number}"
    if which < 0.18:
        return f"ship {leader.number} {draw.choice(leader.others())}"
    if which < 0.22:
        return f"begin {leader.number}"
    if which < 0.26:
        return f"stop {node.number}"
    if which < 0.34:
        down = [one for one in cluster.nodes.values() if not one.up] or [node]
        return f"start {draw.choice(down).number}"
    if which < 0.37:
        return "all"
    if not cluster.under_way:
        return f"stand {node.number} {node.promised + 1}"
    packet = draw.choice(cluster.under_way[:4] if draw.random() < 0.8 else cluster.under_way)
    return f"{'lose' if which > 0.93 else 'deliver'} {packet.sender} {packet.to}"


def drawn_stores(draw):
    """The store of a node or two fails at some of its calls."""
    for number in draw.sample(NODES, draw.randrange(3)):
        fails = sorted(draw.sample(range(6, 40), draw.randrange(1, 4)))
        yield " ".join(map(str, ["store", number, draw.choice(KEEPS), *fails]))


def drawn_walk(draw, number, steps):
    stores = list(drawn_stores(draw))
    lines, cluster = ["", f"case drawn walk {number}", *stores], Cluster(stores_in(stores))
    for _ in range(steps):
        line = drawn_line(draw, cluster)
        word, *words = line.split()
        cluster.play(word, [int(word) for word in words])
        lines.append(line)
    return lines


def failing_case(number, call, keeps):
    """A node leads with a setup, and the next one leads; at one of their calls a store fails, and its node comes up."""
    yield from ("", f"case call {call} of store {number} fails, which keeps {keeps} bytes", f"store {number} {keeps} {call}")
    yield from ("stand 1 1", "all", "setup 1", "all", f"start {number}", "stand 2 2", "all", f"start {number}", "ship 2 1")
    yield from ("all", "setup 2")


def failing_lines():
    """The calls after the opening: each appends bytes first, of which nothing is kept where that fails, and syncs them."""
    for number, last in ((1, 15), (2, 15)):
        for call in range(6, last + 1):
            for keeps in KEEPS if call % 2 else KEEPS[:1]:
                yield from failing_case(number, call, keeps)


def drawn_lines(seed):
    draw = random.Random(seed)
    yield from failing_lines()
    for number in range(1, 13):
        yield from drawn_walk(draw, number, 60)


if __name__ == "__main__":
    case_files.run("node_cases", drawn_lines, answers)
