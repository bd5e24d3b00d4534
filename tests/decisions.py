#!/usr/bin/env python3
"""Writes the expected output of the program `decisions`: all 1,224 decisions of the tick, by the model of the rules.

A line for each step: the step, then its 72 next steps. The choices vary in the order that the program's own first lines name.
Without arguments it writes `crates/decisions/stdout`; with --check it compares, says what differs, and exits 1 if anything does.
"""

import pathlib
import sys

import model

ROOT = pathlib.Path(__file__).resolve().parent.parent
STORED = ROOT / "crates" / "decisions" / "stdout"
HEADER = "expected output made by: python3 tests/decisions.py"
SITUATIONS = 72


def expected():
    """The whole output, as text."""
    next_steps = list(model.decisions())
    lines = [HEADER]
    for step in range(len(next_steps) // SITUATIONS):
        row = next_steps[step * SITUATIONS:(step + 1) * SITUATIONS]
        lines.append(" ".join(str(number) for number in [step, *row]))
    return "\n".join(lines) + "\n"


def check():
    """Compares the stored output with the model's."""
    stored = STORED.read_text().splitlines()
    wanted = expected().splitlines()
    differing = [number for number, pair in enumerate(zip(stored, wanted), 1) if pair[0] != pair[1]]
    if differing or len(stored) != len(wanted):
        print(f"decisions: {STORED.name} differs from the model in lines {differing or 'after the last'}")
        return 1
    print(f"decisions: {(len(wanted) - 1) * SITUATIONS} decisions agree")
    return 0


def main(arguments):
    if arguments == ["--check"]:
        return check()
    if arguments:
        print(__doc__)
        return 2
    STORED.parent.mkdir(parents=True, exist_ok=True)
    STORED.write_text(expected())
    return 0


if __name__ == "__main__":
    sys.exit(main(sys.argv[1:]))
