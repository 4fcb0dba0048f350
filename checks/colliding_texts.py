"""Texts of one hash, of one number, and others as long: for `colliding-keys`, which says how they are made, and `bench/run
statsd-server`."""

import random
import sys

MULTIPLIER, SEED, ONES = 0x9E3779B97F4A7C15, 0x243F6A8885A308D3, 2**64 - 1
LETTERS = b"abcdefghijklmnopqrstuvwxyzABCDEFGHIJKLMNOPQRSTUVWXYZ_"
LENGTH = 48


def fold(one, other):
    """What the hasher makes of two factors: both halves of their product together."""
    product = one * other
    return (product & ONES) ^ (product >> 64)


def word(text, at):
    return int.from_bytes(text[at : at + 8], "little")


def hash_of(text):
    """The hash of a text above 8 bytes, as a key: its bytes, and then a byte 255."""
    state, at = (SEED + len(text)) & ONES, 0
    while len(text) - at > 16:
        state, at = fold(word(text, at) ^ state, word(text, at + 8) ^ MULTIPLIER), at + 16
    state = fold(word(text, len(text) - 16) ^ state, word(text, len(text) - 8) ^ MULTIPLIER)
    return fold(state ^ 0xFFFFFF, MULTIPLIER ^ 2)


def front():
    """16 letters, and behind them the 8 that are the hasher's state there."""
    rng = random.Random(1)
    while True:
        first = bytes(rng.choices(LETTERS, k=16))
        state = fold(word(first, 0) ^ ((SEED + LENGTH) & ONES), word(first, 8) ^ MULTIPLIER).to_bytes(8, "little")
        if all(byte in LETTERS for byte in state):
            return first + state


def texts(count, begin):
    return [begin + b"%08d" % at + b"0123456789abcdef" for at in range(count)]


def number_of(text):
    """The number by which a StatsD server orders series first, of a name without tags."""
    number = 0
    for byte in text:
        number = (number * 31 + byte) & ONES
    return number


def of_one_number(count):
    """So many texts of one such number, as long as the others: `Aa` and `BB` have one."""
    names = [b"an_ordinary_name__" + b"".join(b"BB" if at >> bit & 1 else b"Aa" for bit in range(15)) for at in range(count)]
    if len(set(names)) != count or len({number_of(name) for name in names}) != 1:
        sys.exit("colliding-texts: the numbers are others than meant")
    return names


def both(count):
    """So many texts of one hash, and as many with hashes of their own, by what they are called."""
    kinds = {"one hash": texts(count, front()), "hashes of their own": texts(count, b"an_ordinary_name_of_text")}
    for kind, names in kinds.items():
        if len({hash_of(name) for name in names}) != (1 if kind == "one hash" else count):
            sys.exit("colliding-texts: the hashes are others than meant")
    return kinds
