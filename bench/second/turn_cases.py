#!/usr/bin/env python3
"""The cases of crates/turn_cases: those of play_cases whose script is played over an empty store without a fault, by hand and
drawn. What they are told is what play_cases tells, without the exit status."""

import cases
import play_cases
import play_model

DRAWN = 4
# Words of cases that are about pages, stores and limits.
OTHERS = ["for the next case", "64 columns", "splits", "refill"]


def grouped(lines):
    """The lines of each case, by its name."""
    found = {}
    for line in lines:
        if line.startswith("case "):
            inside = found.setdefault(line, [])
        elif found:
            inside.append(line)
    return found


def is_plain(said, told):
    """Whether a case is a script that can run, in lines that are ended as they stand, with nothing besides."""
    return all(not line or line.startswith("|") for line in said) and told[-1] == "exit 0"


def by_hand():
    said, told = cases.read_by_hand((cases.HERE / "play_cases.hand").read_text(), play_cases.is_said)
    said, told = grouped(said), grouped(play_cases.with_exits(told))
    names = [name for name in said if is_plain(said[name], told[name]) and not any(word in name for word in OTHERS)]
    return [(name, said[name], told[name][:-1]) for name in names]


def drawn_cases(seed, count):
    """Three sessions over few keys, and two over tables of all types."""
    draw = play_cases.Drawn(seed).random
    draws = play_cases.statement_draws.Draws(draw)
    head = ["nodes 1", "session a 1", "session b 1"] + play_cases.statement_draws.TABLES
    for number in range(count):
        yield played("drawn conflicts %d" % number, play_cases.HEAD + play_cases.lines_of_conflicts(draw, 60))
        yield played("drawn statements %d" % number, head + [play_cases.statement_line(draw, draws) for _ in range(40)])


def played(name, lines):
    outcome = play_model.play("".join(line + "\n" for line in lines).encode())
    assert outcome.exit == 0
    return "case " + name, ["|" + line for line in lines] + [""], cases.lines_of(outcome.text)


def files(found):
    said = [line for name, lines, _ in found for line in [name] + lines]
    told = [line for name, _, lines in found for line in [name] + lines]
    return play_cases.texts(said, told)


def written():
    return files(by_hand() + list(drawn_cases(play_cases.SEED, DRAWN)))


if __name__ == "__main__":
    cases.main("turn_cases", written, lambda seed: files(list(drawn_cases(seed, 3 * DRAWN))))
