"""Files of cases: what stands in the stdin of a program, and what in its stdout.

A maker of cases, as play_cases.py, is run as

    play_cases.py write            writes stdin and stdout of crates/play_cases
    play_cases.py draw 7 FOLDER    draws other cases, by the seed 7, and writes both files into that folder
"""

import pathlib
import sys

HERE = pathlib.Path(__file__).resolve().parent
ROOT = HERE.parent.parent


def put(folder, stdin, stdout):
    pathlib.Path(folder, "stdin").write_bytes(stdin.encode())
    pathlib.Path(folder, "stdout").write_bytes(stdout.encode())


def main(name, written, drawn):
    """Runs a maker whose `written()` gives both files of its crate, and whose `drawn(seed)` gives others."""
    if sys.argv[1:] == ["write"]:
        put(ROOT / "crates" / name, *written())
    elif len(sys.argv) == 4 and sys.argv[1] == "draw":
        put(sys.argv[3], *drawn(int(sys.argv[2])))
    else:
        sys.exit("usage: %s write | draw SEED FOLDER" % sys.argv[0])


def lines_of(text):
    assert text.endswith("\n")
    return text[:-1].split("\n")


def read_by_hand(text, is_said):
    """The two files of cases that are written by hand in one: each line that is said, and below it what is told."""
    said, told = [], []
    for line in lines_of(text):
        if line.startswith("case "):
            said.append(line)
            told.append(line)
        elif not line or line.startswith("#") or is_said(line):
            said.append(line)
        else:
            told.append(line)
    return said, told
