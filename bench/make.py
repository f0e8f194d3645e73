#!/usr/bin/env python3
"""Writes the benchmark's chain files into the folder that it is given. Each run writes the same bytes."""

from pathlib import Path
import runpy
import sys

# The examples' script states how a chain file is written; here it is only called.
chain_file = runpy.run_path(str(Path(__file__).resolve().parents[1] / "examples" / "make.py"))["chain_file"]

# Both chains have 64 states, the most there may be: 62 to be removed, then these two.
STATES, GOAL, TRAP = 64, 62, 63


def retry():
    """A night of 62 jobs, in thousandths: after each comes the next, the last one or two are done again, or the night is lost.

    Every state is joined only with near ones, so that rows stay short while states are removed in the order of their numbers.
    """
    rows = []
    for state in range(GOAL):
        again, lost = {1: 40 + state % 7, 2: 20 + state % 5}, 1
        row = {state + 1: 1000 - sum(again.values()) - lost, TRAP: lost}
        for back, weight in again.items():
            before = max(state - back, 0)
            row[before] = row.get(before, 0) + weight
        rows.append(row)
    return rows


def dense():
    """Every state leads to every state, the goal and the trap among them: 3,970 edges, whose weights look scattered."""
    return [
        {target: 1 + (state * state * 31 + target * target * 17 + state * target * 7) % 97 for target in range(STATES)}
        for state in range(GOAL)
    ]


def write(folder, make):
    """Writes a chain, and the same chain with an order that is wrong in its first entry.

    The second is refused (10) at once by the last test of all: a call on it reads the file, looks at the chain and does nothing more.
    """
    rows = make() + [{GOAL: 1}, {TRAP: 1}]
    wrong_order = [STATES, *range(1, STATES)]
    (folder / f"{make.__name__}.chain").write_bytes(chain_file(rows, goals={GOAL}))
    (folder / f"{make.__name__}-looked.chain").write_bytes(chain_file(rows, goals={GOAL}, order=wrong_order))


if __name__ == "__main__":
    if len(sys.argv) != 2:
        sys.exit("usage: bench/make.py FOLDER")
    target = Path(sys.argv[1])
    target.mkdir(parents=True, exist_ok=True)
    for chain in (retry, dense):
        write(target, chain)
