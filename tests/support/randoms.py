"""The words of the generator whose key a site is given, made without the program."""

import struct

_CONSTANTS = struct.unpack("<4I", b"expand 32-byte k")
_COLUMNS = ((0, 4, 8, 12), (1, 5, 9, 13), (2, 6, 10, 14), (3, 7, 11, 15))
_DIAGONALS = ((0, 5, 10, 15), (1, 6, 11, 12), (2, 7, 8, 13), (3, 4, 9, 14))
_DOUBLE_ROUNDS = 10


def _turned(word, count):
    """A word of 32 bits turned to the left."""
    return (word << count | word >> 32 - count) & 0xFFFFFFFF


def _quarter_round(state, one, two, three, four):
    """A quarter round (RFC 8439 2.1)."""
    steps = (one, two, four, 16), (three, four, two, 12), (one, two, four, 8), (three, four, two, 7)
    for into, added, turned, count in steps:
        state[into] = (state[into] + state[added]) & 0xFFFFFFFF
        state[turned] = _turned(state[turned] ^ state[into], count)


def block(key, counter):
    """The sixteen words of a block of ChaCha20 (RFC 8439 2.3), with a nonce of zeros."""
    first = [*_CONSTANTS, *struct.unpack("<8I", key), counter, 0, 0, 0]
    state = list(first)
    for _ in range(_DOUBLE_ROUNDS):
        for places in _COLUMNS + _DIAGONALS:
            _quarter_round(state, *places)
    return [(word + begun) & 0xFFFFFFFF for word, begun in zip(state, first)]


def identifiers(key, count):
    """The identifiers for a number of turns: the low 16 bits of the first words."""
    words = [word for counter in range((count + 15) // 16) for word in block(key, counter)]
    return [word & 0xFFFF for word in words[:count]]
