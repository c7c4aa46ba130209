"""Cases that run beside one another, in several processes."""

import ctypes
import signal
import time
import unittest
from concurrent.futures import ProcessPoolExecutor, as_completed
from multiprocessing import get_context

# PR_SET_PDEATHSIG of prctl(2): the signal that a process gets when the one that began it ends.
SIGNAL_OF_THE_END = 1

# The parts that the processes run. They begin as copies of the one that found these.
_parts = []


class Report(unittest.TestResult):
    """What becomes of cases: how many passed, and what each other one says."""

    def __init__(self):
        super().__init__()
        self.passed, self.texts = 0, []

    def addSuccess(self, test):
        self.passed += 1

    def addFailure(self, test, err):
        self._note(test, str(err[1]))

    def addError(self, test, err):
        super().addError(test, err)
        self._note(test, self.errors[-1][1])

    def addSubTest(self, test, subtest, err):
        if err is not None:
            self._note(subtest, str(err[1]))

    def addSkip(self, test, reason):
        self._note(test, f"wanted: a case that is run\ncame:   {reason}")

    def _note(self, test, text):
        self.texts.append(f"FAILED {line_of(test)}\n{text.strip()}\n")


def line_of(test):
    """What a case is called, and what it shows."""
    return f"{test.id()}: {test.shortDescription() or ''}"


def _all_in(suite):
    """All cases of a suite."""
    for part in suite:
        if isinstance(part, unittest.TestSuite):
            yield from _all_in(part)
        else:
            yield part


def parts_of(suite):
    """The parts of a suite that can run beside one another: each has a case, or those of a class that
    prepares something for all of them."""
    parts = {}
    for test in _all_in(suite):
        group = type(test)
        prepares = group.setUpClass.__func__ is not unittest.TestCase.setUpClass.__func__
        parts.setdefault(group if prepares else test.id(), []).append(test)
    return list(parts.values())


def _run_part(place):
    """Runs a part. Gives how many of its cases passed, what the others say, and how many seconds it took."""
    report, begun = Report(), time.monotonic()
    unittest.TestSuite(_parts[place]).run(report)
    return report.passed, report.texts, time.monotonic() - begun


def _end_with_the_first():
    """Has a process end when the one that began it does, whatever ends that."""
    ctypes.CDLL(None).prctl(SIGNAL_OF_THE_END, signal.SIGTERM)


def run_parts(parts, jobs):
    """Runs parts in so many processes, in their order; gives each part as it ends, with what became of it.
    Of a part whose process ended before it did, no case passed."""
    _parts[:] = parts
    pool = ProcessPoolExecutor(jobs, get_context("fork"), _end_with_the_first)
    try:
        places = {pool.submit(_run_part, place): place for place in range(len(parts))}
        for done in as_completed(places):
            part, fault = parts[places[done]], done.exception()
            text = "\n".join(f"FAILED {line_of(test)}\n{fault!r}\n" for test in part)
            yield part, *((0, [text], 0) if fault else done.result())
    finally:
        pool.shutdown(cancel_futures=True)
