#!/usr/bin/env python3
"""Puts the benchmark's table together from the lines of bench/entry.c and bench/others.c on standard input.

    bench/table.py [--emulated]

A line: FILE WHAT RESULT MEDIAN SPREAD CALLS, the median in nanoseconds; bench_line in bench/bench.h says what a result is. With
--emulated the entry's times come from an emulator, and every figure with one in it gets a question mark. Exit status: 0, or 1 where results
do not agree.
"""

from fractions import Fraction
from pathlib import Path
import sys

NAMES = {
    "exact": "entry exact",
    "bounds": "entry bounds",
    "near": "entry near",
    "steps": "entry steps",
    "order": "entry order",
    "within": "entry within",
    "write": "entry write",
    "dixon": "FLINT Dixon",
    "dixon:solver": "FLINT Dixon, alone",
    "size": "FLINT by size",
    "size:solver": "FLINT by size, alone",
    "lapack": "LAPACK",
    "lapack:solver": "LAPACK, alone",
}
ENTRY = ("exact", "bounds")
# What is a time of the product's own code.
OWN = (*ENTRY, "near", "steps", "order", "within", "write")
FLINT = ("dixon", "size")
# What starts from the file's bytes and has a result.
COMPARED = (*ENTRY, "near", *FLINT, "lapack")
# How far a double may lie from the chance.
NEAR = Fraction(1, 10**9)
# The targets, and the chains that they are for. FLINT's faster way counts.
FLINT_OVER_BOUNDS = {"retry": 25, "dense": 3}
CHAINS_A_SECOND = 400_000
ADDRESS = "address"


def fraction(word):
    """A fraction or a decimal number; a denominator may be a power of two, as 2^POWER."""
    number, _, power = word.partition("/2^")
    return Fraction(int(number), 2 ** int(power)) if power else Fraction(word)


class Measurement:
    """One line of input."""

    def __init__(self, line):
        file, self.what, self.result, median, spread, calls = line.split()
        self.chain = Path(file).stem
        self.median, self.spread, self.calls = float(median), float(spread), int(calls)

    def refusal(self):
        """The number of the refusal, or None where there is an answer."""
        word, _, number = self.result.partition(":")
        return int(number) if word == "refused" else None

    def between(self):
        """The lower and the upper fraction of an answer."""
        lower, _, upper = self.result.partition("..")
        return fraction(lower), fraction(upper or lower)

    def answer(self):
        """The number of the refusal, or both fractions."""
        return self.refusal() or self.between()


def chains(lines):
    """For each chain, in the order they came in, its measurements by what was measured."""
    found = {}
    for line in lines:
        measurement = Measurement(line)
        found.setdefault(measurement.chain, {})[measurement.what] = measurement
    return found


def disagreements(rows):
    """In a sentence each, what the results of one chain contradict each other in."""
    bounds = rows["bounds"]
    if bounds.refusal() is not None:
        return [f"bounds refused {bounds.refusal()}, but bounds always answer"]
    wrong = []
    lower, upper = bounds.between()
    if lower > upper:
        wrong.append(f"the lower bound {lower} is above the upper {upper}")
    exact = rows["exact"]
    steps = rows["steps"]
    if steps.answer() != exact.answer():
        wrong.append(f"the step list ends in {steps.result} and the exact entry says {exact.result}")
    within, _ = rows["within"].between()
    if within > upper:
        wrong.append(f"the chance within the most steps, {within}, is above the upper bound {upper}")
    if exact.refusal() is None:
        chance, again = exact.between()
        if chance != again:
            wrong.append(f"the exact answer is two fractions, {chance} and {again}")
        if not lower <= chance <= upper:
            wrong.append(f"the exact chance {chance} is not between the bounds {lower} and {upper}")
        lower = upper = chance
    above, below = rows["near"].between()
    if not above <= below:
        wrong.append(f"the lower near chance {above} is above the upper {below}")
    if upper < above or below < lower:
        wrong.append(f"the near chances {above} and {below} are beside what the entry says: {lower} to {upper}")
    lower, upper = max(lower, above), min(upper, below)
    # From here on lower and upper are the most that the entries say: the exact chance where there is one.
    for what in (*FLINT, "lapack"):
        if what in rows:
            chance, _ = rows[what].between()
            off = 0 if what in FLINT else NEAR
            if not lower - off <= chance <= upper + off:
                wrong.append(f"the chance of {NAMES[what]}, {rows[what].result}, is not what the entry says: {lower} to {upper}")
    return wrong


def duration(nanoseconds):
    """A time in the unit that suits it."""
    for unit, size in (("ns", 1), ("us", 1e3), ("ms", 1e6)):
        if nanoseconds < 1000 * size or unit == "ms":
            return f"{nanoseconds / size:.{1 if nanoseconds >= 100 * size else 2}f} {unit}"


def said(measurement):
    """What was answered, or the refusal."""
    if measurement.result == "-":
        return ""
    if measurement.refusal() is not None:
        return f"refused {measurement.refusal()}, no fit"
    if measurement.what == "lapack":
        return f"{float(measurement.result):.12f}"
    lower, upper = measurement.between()
    if measurement.what in ("bounds", "near"):
        return f"{float(lower):.12f}, apart {float(upper - lower):.1e}" if lower != upper else f"{lower}, both"
    # A fraction of FLINT's may have hundreds of digits.
    return f"{lower}" if len(str(lower)) <= 23 else f"{float(lower):.12f}, {len(str(lower.denominator))} digits"


def ratio(measurement, entry):
    """How many times as long as a call of the entry. A refusal is no answer, and an order, a file or the chance within so many steps another thing: they are not compared."""
    if measurement is entry or measurement.what in ("order", "within", "write") or measurement.refusal() is not None or entry.refusal() is not None:
        return "-"
    times = measurement.median / entry.median
    return f"{times:,.0f}" if times >= 100 else f"{times:.3g}"


def table(found, mark):
    """The table's lines. `mark` follows each figure that has a time of the entry in it."""
    form = "{:<8} {:<20} {:>11} {:>8} {:>9} {:>10} {:>10}  {}"
    yield form.format("chain", "what", "median", "spread", "calls", "to exact", "to bounds", "says").rstrip()
    for chain, rows in found.items():
        for what, row in rows.items():
            ratios = [ratio(row, rows[mode]) for mode in ENTRY]
            yield form.format(
                chain,
                NAMES[what],
                duration(row.median) + (mark if what in OWN else ""),
                f"{100 * row.spread:.1f} %",
                row.calls,
                *(figure + mark if figure != "-" else figure for figure in ratios),
                said(row),
            ).rstrip()


def rates(rows, mark):
    """Chains a second, for one chain."""
    figures = [
        f"{NAMES[what]} {1e9 / rows[what].median:,.0f}{mark if what in OWN else ''}"
        for what in COMPARED
        if what in rows
    ]
    return f"chains a second, {ADDRESS} chain: " + ", ".join(figures)


def verdict(reached, mark):
    """Whether a target is met."""
    if mark:
        return "not judged under an emulator"
    return "met" if reached else "NOT MET"


def targets(found, mark):
    """A line for each target."""
    for chain, wanted in FLINT_OVER_BOUNDS.items():
        rows = found[chain]
        target = f"target: on the {chain} chain bounds at least {wanted} times as fast as FLINT"
        flint = [rows[what].median for what in FLINT if what in rows]
        if flint:
            times = min(flint) / rows["bounds"].median
            yield f"{target}: {times:.1f} times{mark}, {verdict(times >= wanted, mark)}"
        else:
            yield f"{target}: not judged without FLINT"
    address = found[ADDRESS]
    for mode in ENTRY:
        rate = 1e9 / address[mode].median
        yield (
            f"target: on the {ADDRESS} chain at least {CHAINS_A_SECOND:,} chains a second, {mode}: "
            f"{rate:,.0f}{mark}, {verdict(rate >= CHAINS_A_SECOND, mark)}"
        )


def main():
    mark = " ?" if sys.argv[1:] == ["--emulated"] else ""
    found = chains(sys.stdin)
    print(*table(found, mark), "", rates(found[ADDRESS], mark), *targets(found, mark), sep="\n")
    wrong = [f"{chain}: {sentence}" for chain, rows in found.items() for sentence in disagreements(rows)]
    for sentence in wrong:
        print(f"THE RESULTS DO NOT AGREE. {sentence}", file=sys.stderr)
    if wrong:
        sys.exit(1)
    print("The results agree:", ", ".join(NAMES[what] for what in COMPARED if what in found[ADDRESS]) + ".")


if __name__ == "__main__":
    main()
