"""Memory that comes back: scripts that take more in than a limit of the system has room for, while
all of it ends a moment later."""

import resource

from support.checks import Case
from support.messages import entry, frame
from support.program import Ended, run_with_memory
from support.transcripts import entries_line, text_of

# How many pages a script gets: those of 8 MiB. What these scripts take in needs more than twice as many
# where nothing ends, and some 80 of 4 KiB where all of it does.
PAGES = (8 << 20) // resource.getpagesize()

# A name of 255 octets in 127 labels, that comes before each other one.
LONGEST_NAME = bytes([1, 0]) * 127 + b"\0"


def numbered_names(now, life):
    """The entries of 248 names that are in no other moment's."""
    return [entry(f"{now * 248 + number:040}", now, life) for number in range(248)]


def numbered_types(now, life):
    """An entry at each of 200 names, of a type that is in no other moment's."""
    return [entry(f"{number:03}", now, life, rtype=1000 + now) for number in range(200)]


class BoundsOfMemory(Case):
    """What ended leaves the memory."""

    def check_room(self, first, made, rounds):
        """A script takes entries in at each of so many moments, behind the first ones. It has memory
        for all where they end at the next moment, and has not where they stay."""
        count = len(made(2, 1))
        printed = [f"taken {len(first)}", *["idle", f"taken {count}"] * rounds, "idle", "same"]
        ended = run_with_memory(["script"], PAGES, self.script_of(first, made, rounds, 1))
        self.check_equal(ended, Ended(0, text_of(printed)), "where they end")
        ended = run_with_memory(["script"], PAGES, self.script_of(first, made, rounds, 86400))
        self.check_true(ended.errors.endswith(b": out of memory\n"), "no memory where they stay", ended.errors)

    def script_of(self, first, made, rounds, life):
        """The lines of the script, whose entries last so long."""
        lines = [entries_line(1, *first)]
        for now in range(2, 2 + rounds):
            lines += [f"tick 0 {now}", entries_line(now, *made(now, life))]
        return text_of([*lines, f"tick 0 {2 + rounds}", "same 0 0"])

    def test_longest_entries(self):
        """the frames of these scripts have 16384 octets or less"""
        lengths = [len(frame(made(999, 86400))) <= 16384 for made in (numbered_names, numbered_types)]
        self.check_equal(lengths, [True, True])

    def test_names_behind_the_longest(self):
        """248000 names that end leave the memory, behind a name of 255 octets that ended"""
        self.check_room([entry(LONGEST_NAME, 1, 1)], numbered_names, 1000)

    def test_items_behind_others(self):
        """100000 items that end leave the memory, each beside an item of its name that lasts longer"""
        self.check_room([entry(f"{number:03}", 1, 86400) for number in range(200)], numbered_types, 500)
