#!/usr/bin/env python3
"""Collects the datagrams of scripts and of tests, one a line in hexadecimal.

usage: collect.py FILE.. > datagrams.txt

Of a script or of what it prints (.in, .out, .script) the last word of each line is taken, where it is one of
hexadecimal digits. So it is of the examples under tests/cases, where names stand for messages. Of the messages and
flushes there each line is taken, by its name or its parts. Of a Rattle source (.rt) every byte string is taken, and
every such word in a string, where {HH*N} stands for the octet HH, N times.
"""

import re
import sys
from pathlib import Path

CASES = Path(__file__).resolve().parents[2] / "tests" / "cases"
sys.path.insert(0, str(CASES.parent))
sys.dont_write_bytecode = True
from support.messages import event_octets, spelled

HEX = re.compile(r"(?:[0-9a-f]{2}|\{[0-9a-f]{2}\*[0-9]+\})+", re.IGNORECASE)
REPEATED = re.compile(r"\{([0-9a-f]{2})\*([0-9]+)\}", re.IGNORECASE)
STRING = re.compile(r"""(?<!\w)(b?)"((?:[^"\\]|\\.)*)"|'\\?"'""", re.DOTALL)
# Files of tests/cases that have messages and frames by their names or in parts, one a line.
IN_PARTS = ("event_messages.txt", "hostile_messages.txt", "hostile_flushes.txt")
SIMPLE = {"n": 10, "r": 13, "t": 9, "0": 0, "\\": 92, '"': 34, "'": 39}


def words_of(text, shortest):
    for word in text.split():
        if HEX.fullmatch(word):
            digits = REPEATED.sub(lambda found: found[1] * int(found[2]), word)
            if len(digits) >= 2 * shortest:
                yield bytes.fromhex(digits)


def last_word_of(line):
    """An event's last word, or what a step sends; numbers stand before it."""
    yield from words_of(" ".join(line.split()[-1:]), 1)


def unescaped(text):
    octets = bytearray()
    at = 0
    while at < len(text):
        if text[at] != "\\":
            octets += text[at].encode()
            at += 1
        elif text[at + 1] == "x":
            octets.append(int(text[at + 2 : at + 4], 16))
            at += 4
        elif text[at + 1] == "\n":
            at = re.compile(r"\s*").match(text, at + 1).end()
        else:
            octets.append(SIMPLE[text[at + 1]])
            at += 2
    return bytes(octets)


def datagrams_of_case(path, lines):
    """What a file of tests/cases has: messages by their names or in parts, or lines of scripts and what they print."""
    for line in lines:
        if line.startswith(("#", ";", "=")):
            continue
        if path.name in IN_PARTS:
            yield event_octets(line.rpartition(":")[2])
        else:
            yield from last_word_of(spelled(line))


def datagrams_of(path):
    text = path.read_text(encoding="utf-8")
    if path.resolve().parent == CASES:
        yield from datagrams_of_case(path, text.splitlines())
        return
    if path.suffix != ".rt":
        for line in text.splitlines():
            yield from last_word_of(line)
        return
    for is_bytes, words in STRING.findall(text):
        yield from [unescaped(words)] if is_bytes else words_of(words, 6)


def main():
    seen = {b""}
    for path in map(Path, sys.argv[1:]):
        seen.update(one for one in datagrams_of(path) if len(one) <= 65000)
    for one in sorted(seen, key=lambda one: (len(one), one)):
        print(one.hex() or "-")


if __name__ == "__main__":
    main()
