"""Files of cases of a program whose stdin has cases by hand, and drawn ones behind them.

    NAME_cases.py write               writes crates/NAME_cases/stdin from the line DRAWN on, and stdout
    NAME_cases.py draw SEED FOLDER    draws other cases, by the seed, and writes both files into that folder
"""

import sys
from pathlib import Path

CRATES = Path(__file__).resolve().parents[2] / "crates"
DRAWN = "# Drawn by bench/second, which writes these lines anew."
SEED = 1


def put(folder, lines, answers):
    """Writes both files."""
    Path(folder, "stdin").write_text("\n".join(lines) + "\n")
    Path(folder, "stdout").write_text("\n".join(answers(lines)) + "\n")


def run(name, drawn_lines, answers):
    """Runs a maker: `drawn_lines(seed)` draws lines, and `answers(lines)` has all lines that are expected of some."""
    words = sys.argv[1:]
    if words == ["write"]:
        lines = (CRATES / name / "stdin").read_text().splitlines()
        by_hand = lines[:lines.index(DRAWN)] if DRAWN in lines else lines
        put(CRATES / name, by_hand + [DRAWN, *drawn_lines(SEED)], answers)
    elif len(words) == 3 and words[0] == "draw":
        put(words[2], [DRAWN, *drawn_lines(int(words[1]))], answers)
    else:
        sys.exit(f"usage: {name}.py write | draw SEED FOLDER")
