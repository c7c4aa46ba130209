"""A script that runs line by line."""

import contextlib
import os
import tempfile

from support.program import shown, started

# A script that runs longer hangs.
LONGEST_SCRIPT = 900

# How the last line begins that an event prints.
_LAST_LINES = (
    "taken ",
    "merged ",
    "refused ",
    "swept ",
    "items ",
    "reply ",
    "miss",
    "dropped",
    "idle",
    "more",
    "restarted",
    "same",
    "different",
)


class Script:
    """The program with a script as it is written: each line is done before the next one comes."""

    def __init__(self, child, errors):
        self._child, self._errors = child, errors

    def begin(self, sites):
        """Makes so many sites, which prints nothing."""
        self._write(f"sites {sites}")

    def do(self, line):
        """Does a line, and gives the lines that it prints."""
        self._write(line)
        printed = []
        while not printed or not printed[-1].startswith(_LAST_LINES):
            read = self._child.stdout.readline()
            if not read:
                self._fail(line)
            printed.append(read.decode().rstrip("\n"))
        return printed

    def _write(self, line):
        """Brings a line."""
        try:
            os.write(self._child.stdin.fileno(), line.encode() + b"\n")
        except BrokenPipeError:
            self._fail(line)

    def _fail(self, line):
        """Says that the script ended at a line."""
        self._child.wait()
        self._errors.seek(0)
        raise AssertionError(f"the script ended at: {line[:200]}\n{shown(self._errors.read())}")


@contextlib.contextmanager
def script_of(sites):
    """A script with so many sites."""
    with tempfile.TemporaryFile() as errors:
        with started(["script"], LONGEST_SCRIPT, stderr=errors) as child:
            script = Script(child, errors)
            script.begin(sites)
            yield script
