"""Standard input and output of a script: reads and writes that fail, reads that are interrupted,
and lines that are done as they come."""

import os

from support.checks import Case
from support.program import Ended, failed, run_into_file, run_script, started
from support.streams import run_before_a_fault, run_interrupted, with_time_out
from test_examples import read_examples, text_of

# An example of two lines, each of which prints one.
_, LINES, PRINTED = read_examples()[0]
SCRIPT, OUTPUT = text_of(LINES), text_of(PRINTED)


class Reads(Case):
    """Reads that fail, and reads that are interrupted."""

    def test_no_read(self):
        """no read is done: standard input is a folder"""
        folder = os.open("/", os.O_RDONLY)
        try:
            self.check_equal(run_script(b"", stdin=folder), failed("line 1: read"))
        finally:
            os.close(folder)

    def test_behind_lines(self):
        """a read fails behind two lines, which are done"""
        self.check_equal(run_before_a_fault(SCRIPT), failed("line 3: read", OUTPUT))

    def test_in_a_line(self):
        """a read fails in a line"""
        self.check_equal(run_before_a_fault(b"# half a line"), failed("line 1: read"))

    def test_time_out(self):
        """a read fails since nothing came in its time"""
        reader, writer = with_time_out(0, 100_000)
        with reader, writer:
            writer.sendall(SCRIPT)
            self.check_equal(run_script(b"", stdin=reader), failed("line 3: read", OUTPUT))

    def test_interruptions(self):
        """a read that is interrupted is done again, before each line"""
        wanted = dict(zip(map(text_of, zip(LINES)), map(text_of, zip(PRINTED))))

        def check_printed(line, output):
            self.check_equal(output.readline(), wanted[line], line)

        self.check_equal(run_interrupted(wanted, check_printed), Ended(0))


class Writes(Case):
    """Writes that fail."""

    def test_first_line(self):
        """what the first line prints can't be written"""
        self.check_equal(run_into_file(["script"], 0, SCRIPT), failed("line 1: write"))

    def test_second_line(self):
        """what the second line prints can't be written; that of the first one remains"""
        first = text_of(PRINTED[:1])
        self.check_equal(run_into_file(["script"], len(first), SCRIPT), failed("line 2: write", first))

    def test_lines_are_done_as_they_come(self):
        """what a line prints is there before the next line comes"""
        with started(["script"]) as child:
            for line, wanted in zip(LINES, PRINTED):
                child.stdin.write(text_of([line]))
                child.stdin.flush()
                self.check_equal(child.stdout.readline(), text_of([wanted]), line)
