"""The words of a seed, by a block function of its own: RFC 8439's, with the number of rounds as an argument, a 64-bit
block counter and a 64-bit stream number. It stands apart from the crates. tests/chacha.py checks it by the RFC's
block."""

from __future__ import annotations

import itertools
from collections.abc import Iterator


def rotated(word: int, count: int) -> int:
    return (word << count | word >> (32 - count)) & 0xFFFFFFFF


def quarter(state: list[int], a: int, b: int, c: int, d: int) -> None:
    for left, right, target, count in ((a, b, d, 16), (c, d, b, 12), (a, b, d, 8), (c, d, b, 7)):
        state[left] = (state[left] + state[right]) & 0xFFFFFFFF
        state[target] = rotated(state[target] ^ state[left], count)


def block(key: bytes, last_words: list[int], rounds: int) -> list[int]:
    start = [int.from_bytes(b"expand 32-byte k"[4 * i : 4 * i + 4], "little") for i in range(4)]
    start += [int.from_bytes(key[4 * i : 4 * i + 4], "little") for i in range(8)]
    start += last_words
    state = list(start)
    for _ in range(rounds // 2):
        for column in range(4):
            quarter(state, column, column + 4, column + 8, column + 12)
        for column in range(4):
            quarter(state, column, (column + 1) % 4 + 4, (column + 2) % 4 + 8, (column + 3) % 4 + 12)
    return [(word + first) & 0xFFFFFFFF for word, first in zip(state, start)]


def words(seed: int) -> Iterator[int]:
    """The words of stream 0 with 8 rounds. The key is the seed in 8 little-endian bytes, and then 24 zero bytes."""
    key = seed.to_bytes(8, "little") + bytes(24)
    for counter in itertools.count():
        yield from block(key, [counter & 0xFFFFFFFF, counter >> 32, 0, 0], 8)


def numbers(seed: int) -> Iterator[int]:
    """Two words make a number, the low word first."""
    source = words(seed)
    while True:
        low = next(source)
        yield next(source) << 32 | low


def draws(seed: int, threads: int, steps: int, count: int) -> tuple[list[int], list[int], list[int]]:
    """The places, the order and the points of a seed."""
    source = numbers(seed)

    def below(bound: int) -> int:
        return next(source) * bound >> 64

    places = [below(threads - taken) for taken in range(threads)]
    remaining = list(range(threads))
    order = [remaining.pop(place) for place in places]
    return places, order, [1 + below(steps) for _ in range(count)]
