#!/usr/bin/env python3
"""Finds the least depth at which some run of a script fails, by running the model over all orders and points.

    python3 tests/search.py FILE [MOST]

For each depth d from 1 to MOST (2 where it isn't given) it runs every order of the threads with every list of d - 1
points in 1..k, where k is the most steps of a run without points. It prints how many of these runs fail, and the first
of them for each verdict."""

import itertools
import os
import sys

sys.dont_write_bytecode = True
sys.path.insert(0, os.path.join(os.path.dirname(os.path.dirname(os.path.realpath(__file__))), "tools"))

from pctmodel.run import run
from pctmodel.script import parse

LIMIT = 10000


def runs(script, depth, steps):
    for order in itertools.permutations(script.threads):
        for points in itertools.product(range(1, steps + 1), repeat=depth - 1):
            events, verdict = run(script, order, points, LIMIT)
            yield order, points, len(events), verdict


def main():
    with open(sys.argv[1], "rb") as file:
        script = parse(file.read())
    most = int(sys.argv[2]) if len(sys.argv) > 2 else 2
    steps = max(length for _, _, length, _ in runs(script, 1, 0))
    for depth in range(1, most + 1):
        total, firsts = 0, {}
        for order, points, _, verdict in runs(script, depth, steps):
            total += 1
            if verdict != "passed":
                first, count = firsts.get(verdict, ((order, points), 0))
                firsts[verdict] = first, count + 1
        print(f"depth {depth}: {sum(count for _, count in firsts.values())} of {total} runs fail, k = {steps}")
        for verdict, ((order, points), count) in firsts.items():
            given = f" --points {','.join(map(str, points))}" if points else ""
            print(f"  {count} {verdict}: --order {','.join(order)}{given}")


if __name__ == "__main__":
    main()
