#!/usr/bin/env python3
"""Prints the words, the order and the points of some seeds by the block function of tools/pctmodel/chacha.py, which
stands apart from the crates. The words, orders and points that the tests of `priority_draw` compare with are typed from
what it prints. It checks the function first, by RFC 8439's block of 20 rounds."""

import itertools
import os
import sys

sys.dont_write_bytecode = True
sys.path.insert(0, os.path.join(os.path.dirname(os.path.dirname(os.path.realpath(__file__))), "tools"))

from pctmodel.chacha import block, draws, words


def check_block():
    """RFC 8439, 2.3.2: a key of the bytes 0 to 31, the counter 1, the nonce 000000090000004a00000000."""
    words = block(bytes(range(32)), [1, 0x09000000, 0x4A000000, 0], 20)
    expected = """
        e4e7f110 15593bd1 1fdd0f50 c47120a3 c7f4d1c7 0368c033 9aaa2204 4e6cd4c3
        466482d2 09aa9f07 05d7c214 a2028bd9 d19c12b5 b94e16de e883d0cb 4e3c50a2"""
    assert words == [int(word, 16) for word in expected.split()]


def main():
    check_block()
    for seed in (0, 1, 2**64 - 1):
        print("seed", seed, "words", " ".join("%08x" % word for word in itertools.islice(words(seed), 18)))
    first_seeds = {}
    for seed in itertools.count():
        places, order, _ = draws(seed, 4, 1, 0)
        first_seeds.setdefault(tuple(places), (seed, order))
        if len(first_seeds) == 24:
            break
    for places, (seed, order) in sorted(first_seeds.items()):
        print("places", list(places), "seed", seed, "order", order)
    for seed, threads, steps, count in ((0, 64, 100000, 7), (1, 2, 1, 7), (2**64 - 1, 3, 64, 3), (7, 3, 100000, 2)):
        places, order, points = draws(seed, threads, steps, count)
        print("seed", seed, "threads", threads, "steps", steps, "order", order, "points", points)


if __name__ == "__main__":
    main()
