"""The base of all test cases: what a failure says, and cases that are rows of a table."""

import unittest

from support.program import CASES, shown

# Texts of so many characters are shown whole, and of longer ones so many lines.
LONGEST_WHOLE = 1000
LINES_SHOWN = 4


class Case(unittest.TestCase):
    """A test case whose failures say what was wanted and what came."""

    def check_equal(self, came, wanted, which=""):
        """What came is what was wanted; `which` says of what."""
        if came != wanted:
            self.fail(f"{which}\n{_difference(_text(wanted), _text(came))}")

    def check_true(self, holds, wanted, came):
        """Something that is wanted holds of what came."""
        if not holds:
            self.fail(f"\nwanted: {wanted}\ncame:   {_text(came)}")

    def check_counts(self, came, **wanted):
        """Numbers by their names are as wanted; of the other names nothing is said."""
        found = {name: came[name] for name in wanted}
        self.check_equal(found, wanted, f"of {came}")


def _text(value):
    """A value as a report shows it."""
    return shown(value) if isinstance(value, bytes) else str(value)


def _difference(wanted, came):
    """What was wanted and what came: of long texts, from the first line on in which they differ."""
    if max(len(wanted), len(came)) <= LONGEST_WHOLE or wanted == came:
        return f"wanted: {wanted}\ncame:   {came}"
    lines, others = wanted.splitlines(), came.splitlines()
    same = 0
    while lines[same : same + 1] == others[same : same + 1] != []:
        same += 1
    parts = ["\n".join(part[same : same + LINES_SHOWN]) for part in (lines, others)]
    begins = f"both begin with {same} equal lines" if same else "they differ from the first line on"
    return f"{begins}; then\nwanted: {parts[0]}\ncame:   {parts[1]}"


def lines_of(name):
    """The lines of a file of cases."""
    return (CASES / name).read_text(encoding="utf-8").splitlines()


def parts_of(name, mark="= "):
    """The parts of a file of cases, each as its first line and the rest. A part begins with a
    mark at the beginning of a line, and ends before the line feed of its last line."""
    whole = "\n" + (CASES / name).read_text(encoding="utf-8").removesuffix("\n")
    return [part.partition("\n")[::2] for part in whole.split("\n" + mark)[1:]]


def _word(text):
    """A text as a part of a method's name."""
    word = "".join(letter if letter.isalnum() else "_" for letter in text)
    return word[:60].strip("_")


def add_cases(group, rows):
    """Gives a class of cases a test for each row: a name, and what its method `check` is called
    with."""
    for number, (name, *given) in enumerate(rows, 1):

        def test(self, given=given):
            self.check(*given)

        test.__doc__ = name
        setattr(group, f"test_{number:03}_{_word(name)}", test)
