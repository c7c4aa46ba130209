"""A script that differs, made as short as it will get: fewer lines, then shorter ones."""

import time

from .compare import compare
from .frames import FrameFault, decode, encode
from .words import LineFault, octets_text, read_octets


class Shrinker:
    """Shortens a script as long as model and program still differ on it, for at most so many seconds."""

    def __init__(self, program, seconds=60):
        self.program = program
        self.end = time.monotonic() + seconds

    def differs(self, lines):
        """Whether a shorter script still differs."""
        return time.monotonic() < self.end and compare(self.program, lines) is not None

    def shrink(self, lines):
        """The shortest script that was found."""
        difference = compare(self.program, lines)
        if difference is None:
            return lines
        if self.differs(lines[:difference.number]):
            lines = lines[:difference.number]
        before = None
        while before != lines:
            before = lines
            lines = self.fewer_lines(lines)
            lines = self.shorter_lines(lines)
        return lines

    def fewer_lines(self, lines):
        """Drops runs of lines, long ones first."""
        size = max(1, len(lines) // 2)
        while size >= 1:
            place = 0
            while place < len(lines):
                shorter = lines[:place] + lines[place + size:]
                if self.differs(shorter):
                    lines = shorter
                else:
                    place += size
            size //= 2
        return lines

    def shorter_lines(self, lines):
        """Shortens words: octets are dropped, numbers become smaller."""
        for place in range(len(lines)):
            lines = self.fewer_entries(lines, place)
            for index in range(1, len(lines[place].split(b" "))):
                lines = self.shorter_word(lines, place, index)
        return lines

    def fewer_entries(self, lines, place):
        """Drops entries of a frame, one by one."""
        words = lines[place].split(b" ")
        index = 0
        entries = entries_of(words)
        while index < len(entries):
            fewer = entries[:index] + entries[index + 1:]
            line = b" ".join(words[:3] + [octets_text(encode(fewer)).encode()])
            if self.differs(lines[:place] + [line] + lines[place + 1:]):
                lines, entries = lines[:place] + [line] + lines[place + 1:], fewer
            else:
                index += 1
        return lines

    def shorter_word(self, lines, place, index):
        """Tries shorter words in place of one, until none of them differs."""
        tried = True
        while tried:
            tried = False
            words = lines[place].split(b" ")
            for word in shorter_words(words[index]):
                line = b" ".join(words[:index] + [word] + words[index + 1:])
                if self.differs(lines[:place] + [line] + lines[place + 1:]):
                    lines = lines[:place] + [line] + lines[place + 1:]
                    tried = True
                    break
        return lines


def entries_of(words):
    """The observations of a line that brings a frame, or none."""
    if len(words) != 4 or words[0] != b"frame":
        return []
    try:
        return decode(read_octets(words[3].decode("latin-1")))
    except (FrameFault, LineFault):
        return []


def shorter_words(word):
    """Words that are shorter or smaller than one. Of octets, runs of each size are dropped from each place."""
    if word.isdigit() and len(word) <= 13:
        value = int(word)
        return [b"%d" % smaller for smaller in sorted({0, value // 2, value - 1}) if 0 <= smaller < value]
    if b":" in word or word == b"-":
        return []
    found = [b"-"]
    size = len(word) // 4 * 2
    while size >= 2:
        found += [word[:place] + word[place + size:] for place in range(0, len(word) - size + 1, size)]
        size = size // 4 * 2
    return found
