#!/usr/bin/env python3
"""Prints the text of a backup night's chain (fetched, half written, copied, lost) from counts of what was seen. makechain makes its file."""

import sys

if len(sys.argv) != 8 or not all(word.isascii() and word.isdigit() for word in sys.argv[1:]):
    sys.exit("usage: exporter.py BEGUN AGAIN LOST FINISHED ON BACK LOST >FILE. Example: exporter.py 990 8 2 970 20 9 1 >night.text")
counts = [int(word) for word in sys.argv[1:]]
rows = [dict(zip((1, 0, 3), counts)), dict(zip((2, 1, 0, 3), counts[3:])), {2: 1}, {3: 1}]
edges = [(source, to, weight) for source, row in enumerate(rows) for to, weight in row.items() if weight]
print(f"states 4\nedges {len(edges)}\nstart 0")
for state, row in enumerate(rows):
    print(f"state {state} denominator {sum(row.values())} reward {(4, 7, 0, 0)[state]}" + " goal" * (state == 3))
print("order 0 1 2 3")
for source, to, weight in edges:
    print(f"edge {source} {to} weight {weight} reward 0")
