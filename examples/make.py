#!/usr/bin/env python3
"""Writes the chain file of a plan to standard output: the chain whose chance plancopies answers.

With --examples it writes the examples that makechain does not make of their texts, and plans, beside this script instead.
Each run writes the same bytes.
"""

import argparse
from pathlib import Path
import struct
import sys

BLOCK = 512
RECORDS_IN_A_BLOCK = 63

# What the planner takes: numbers of copies, and weights.
MOST_COPIES = 32
MOST_WEIGHT = 1_000_000

# For each version, the modulus of the check and what its sums begin at.
CHECKS = {1: (255, 0), 2: (251, 1)}


def block(version, kind, number, records):
    """One block of 512 bytes: its fields, its records, zeros, and its check."""
    body = struct.pack("<BBHH", kind, version, number, len(records)) + b"".join(records)
    body = body.ljust(BLOCK - 2, b"\0")
    modulus, begin = CHECKS[version]
    first = second = begin
    for byte in body:
        first = (first + byte) % modulus
        second = (second + first) % modulus
    return body + bytes([first, second])


def chain_file(rows, goals, rewards=None, start=0, order=None, version=2):
    """The bytes of a chain file whose edges have no reward.

    rows     for each state, a dictionary of the weight to each target; a row's sum is its
             denominator
    goals    the goal states
    rewards  the reward of each state that has one
    order    the order in which states are removed, that of their numbers unless given
    version  of all its blocks; version 1, whose check is weaker, is still read
    """
    rewards = rewards or {}
    order = order or list(range(len(rows)))
    edges = [(source, to, weight) for source, row in enumerate(rows) for to, weight in row.items()]
    states = [
        struct.pack("<IHBB", sum(row.values()), rewards.get(i, 0), i in goals, order[i])
        for i, row in enumerate(rows)
    ]
    kinds = [
        (1, [struct.pack("<BBHI", len(rows), start, len(edges), 0)]),
        (2, states),
        (3, [struct.pack("<BBHI", source, to, 0, weight) for source, to, weight in edges]),
    ]
    blocks = []
    for kind, records in kinds:
        for i in range(0, len(records), RECORDS_IN_A_BLOCK):
            blocks.append(block(version, kind, len(blocks), records[i : i + RECORDS_IN_A_BLOCK]))
    return b"".join(blocks)


def dice():
    """A die thrown with a coin, after Knuth and Yao. The goals are the six faces.

    Chance 1/1; the expected reward counts the throws of the coin: 11/3. It is a file of version 1.
    """
    turns = [(1, 2), (3, 4), (5, 6), (1, 7), (8, 9), (10, 11), (2, 12)]
    faces = range(7, 13)
    rows = [{heads: 1, tails: 1} for heads, tails in turns] + [{face: 1} for face in faces]
    return chain_file(rows, goals=set(faces), rewards={state: 1 for state in range(7)}, version=1)


def copies(count=5, loss=3, rebuild=40, finish=500):
    """A job that begins with so many copies. With k left a loss, which counts k times, leaves one
    less; a rebuild adds one where some are missing; the finish ends the job well. State k means k
    copies left, the last state the finished job.

    The goal is 0, so that its chance is that of a job that ends with no copy. For the example's
    numbers it has no fit; the bounds answer.
    """
    done = count + 1
    rows = [{0: 1}]
    for left in range(1, count + 1):
        row = {left - 1: left * loss, done: finish}
        if left < count:
            row[left + 1] = rebuild
        rows.append(row)
    return chain_file(rows + [{done: 1}], goals={0}, start=count)


def many():
    """The plan with 32 copies, loss 1, rebuild 20, finish 100: its chance, some 2.7e-33, is far below what the report's bounds can say."""
    return copies(32, 1, 20, 100)


def damaged():
    """A copy wanders among twelve stores, in thousandths. A store archives it 700 times, loses it 14 times, and hands it on to each of the eleven
    others 26 times. Then a bad controller filled 96 of the zeros behind the last edge with FF.

    0 archived: the goal, 1 lost, 2 to 13 the stores, of which 2 has it first

    Chance 50/51, but the check of the last of three blocks of edges is wrong, and the file is refused. It held the rows of 12 and 13 and a part of
    that of 11; from what is left salvage says two fractions that hold the chance.
    """
    stores = range(2, 14)
    rows = [{0: 1}, {1: 1}]
    rows += [{0: 700, 1: 14, **{other: 26 for other in stores if other != store}} for store in stores]
    whole = chain_file(rows, goals={0}, start=2)
    begin, end = len(whole) - 160, len(whole) - 64
    assert not any(whole[begin:end])
    return whole[:begin] + b"\xff" * (end - begin) + whole[end:]


def address_shares():
    """The table of the chances at every state of the address chain: the denominator, then a numerator
    for each state, in four bytes each. A colleague's solver would send such a one.
    """
    return struct.pack("<8I", 4376, 4375, 4368, 4340, 4200, 3500, 4376, 0)


def write_examples():
    here = Path(__file__).resolve().parent
    for make in (dice, copies, many, damaged):
        (here / f"{make.__name__}.chain").write_bytes(make())
    (here / "address.shares").write_bytes(address_shares())


def number(most):
    """What reads a word as a number from 1 to the most."""

    def read(word):
        if not (word.isascii() and word.isdigit() and 1 <= int(word) <= most):
            raise argparse.ArgumentTypeError(f"{word!r} is no number from 1 to {most}")
        return int(word)

    return read


def main():
    if sys.argv[1:] == ["--examples"]:
        write_examples()
        return
    parser = argparse.ArgumentParser(
        usage="%(prog)s COPIES LOSS REBUILD FINISH >FILE\n       %(prog)s --examples",
        description="Writes the chain file of a plan to standard output: the chain whose chance plancopies answers.",
        epilog="example: %(prog)s 5 3 40 500 >plan.chain",
    )
    parser.add_argument("copies", metavar="COPIES", type=number(MOST_COPIES), help=f"the copies that the job begins with, 1 to {MOST_COPIES}")
    for weight in ("loss", "rebuild", "finish"):
        parser.add_argument(weight, metavar=weight.upper(), type=number(MOST_WEIGHT), help=f"its weight, 1 to {MOST_WEIGHT}")
    parser.add_argument("--examples", action="store_true", help="alone: rewrite the examples beside this script")
    plan = parser.parse_args()
    if plan.examples:
        parser.error("--examples stands alone")
    sys.stdout.buffer.write(copies(plan.copies, plan.loss, plan.rebuild, plan.finish))


if __name__ == "__main__":
    main()
