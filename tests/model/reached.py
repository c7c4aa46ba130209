"""What the scripts reached, by count. No rule of the model reads it."""

from collections import Counter

COUNTS = Counter()


def note(what):
    """Counts that something was reached."""
    COUNTS[what] += 1


def table():
    """The counts, one to a line, in the order of their names."""
    return "\n".join(f"{count:9d}  {what}" for what, count in sorted(COUNTS.items()))
