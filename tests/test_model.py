"""The model's own test: what its random scripts reach, and that they see each mistake that can be switched on."""

import unittest
from pathlib import Path
from unittest import mock

from model import compare
from model.compare import outcome_of, run_model
from model.faults import FAULTS, switched_on
from model.generator.bad_lines import BAD_LINES
from model.generator.maker import ScriptMaker
from model.reached import COUNTS
from model.shrink import Shrinker

EXAMPLES = Path(__file__).resolve().parent.parent / "examples"
SEED = 1
SCRIPTS = 500
REACHED = {
    "event": ["sites", "learn", "ask", "show", "datagram", "tick", "sweep", "frame", "deliver", "merge", "flush",
              "restart", "same"],
    "line": ["bad address", "bad hex", "bad name", "bad number", "line too long", "no such frame", "no such site",
             "not ASCII", "sites must come first", "unknown event", "wrong number of words"],
    "ask": ["reply", "miss", "dropped"],
    "answer": ["miss", "miss behind an alias", "a ninth link", "of a stamp to come", "several kinds fit",
               "several observations fit", "positive, chain of 0", "positive, chain of 8", "nodata, chain of 0",
               "nodata, chain of 1", "nxdomain, chain of 0", "nxdomain, chain of 1"],
    "cache": ["held", "dominated", "withdrawn", "ended"],
    "observed": ["positive of rank 1", "positive of rank 2", "positive of rank 3", "nodata of rank 1",
                 "nodata of rank 3", "nxdomain of rank 1", "nxdomain of rank 3"],
    "question": ["code 0", "code 1", "code 3", "code 4", "code 5", "asked of an upstream", "joined", "again",
                 "a waiter too many", "an open question too many", "an identifier is in use"],
    "reply": ["Records", "NoData", "NxDomain", "Code", "Truncated", "Records, 8 links", "a ninth link",
              "two aliases at one name", "the SOA of another zone", "a denial that is not kept"],
    "site": ["a question fails", "the next upstream is asked", "a reply is relayed to one",
             "a reply is relayed to several", "a datagram of a peer", "a frame with what is known",
             "a moment before the clock"],
    "written": ["a reply cut off for its length", "a reply of just 512 octets"],
    "frames": ["several of one list", "flush of rank 3 read, version 2", "positive of rank 1 read, version 1"],
}
REFUSED = {
    "read": ["TooShort", "TooLong", "Truncated", "BadLabel", "BadPointer", "LongName", "BadRdata", "QuestionCount"],
    "digest": ["NotReply", "BadChain"],
    "frame": ["BadMagic", "BadVersion", "TooLong", "Truncated", "BadKind", "BadRank", "BadMoment", "BadLife", "BadName",
              "BadBody", "Trailing"],
}
REFUSED_ALONE = ["full", "dropped", "unmatched"]


def sees(name, scripts):
    """Whether some script prints something else with a mistake."""
    with switched_on(name):
        return any(run_model(made.lines) != (made.printed, made.fault) for made in scripts)


class Example(unittest.TestCase):
    """The examples of a fleet."""

    def test_the_examples_print_what_they_say(self):
        """Each example's script prints the example's output."""
        for script, output in (("fleet", "fleet"), ("agree", "agree"), ("agree-datagrams", "agree")):
            with self.subTest(script):
                lines = (EXAMPLES / f"{script}.script").read_bytes().splitlines()
                printed, fault = run_model(lines)
                self.assertEqual("".join(f"{text}\n" for texts in printed for text in texts),
                                 (EXAMPLES / f"{output}.out").read_text(encoding="ascii"))
                self.assertIsNone(fault)


class Scripts(unittest.TestCase):
    """The scripts of one seed."""

    @classmethod
    def setUpClass(cls):
        COUNTS.clear()
        cls.scripts = [ScriptMaker(SEED, number).make() for number in range(SCRIPTS)]
        cls.counts = COUNTS.copy()

    def test_each_mistake_is_seen(self):
        """With each mistake some script prints something else."""
        for name in FAULTS:
            with self.subTest(name):
                self.assertTrue(sees(name, self.scripts))

    def test_each_kind_is_reached(self):
        """The scripts reach each event, each fault and each answer."""
        wanted = [f"{group}: {what}" for group, all_of in REACHED.items() for what in all_of]
        wanted += [f"refused {group} {what}" for group, all_of in REFUSED.items() for what in all_of]
        wanted += [f"refused {what}" for what in REFUSED_ALONE]
        self.assertEqual([what for what in wanted if self.counts[what] == 0], [])

    def test_bad_lines_have_their_faults(self):
        """Each line at fault has the fault that it is listed under."""
        for fault, lines in BAD_LINES.items():
            for line in lines:
                with self.subTest(line[:60]):
                    self.assertEqual(run_model([b"show 0", line]), ([["floor 0", "items 0"]], fault))

    def test_the_right_model_changes_nothing(self):
        """A script prints the same when it is run again."""
        for made in self.scripts[:50]:
            self.assertEqual(run_model(made.lines), (made.printed, made.fault))

    def test_a_seed_makes_the_same_scripts(self):
        """The same seed and number make the same script."""
        for number in range(20):
            self.assertEqual(ScriptMaker(SEED, number).make().lines, self.scripts[number].lines)


def run_wrong_program(name, lines):
    """The outcome of a program with a mistake of the model."""
    with switched_on(name):
        printed, fault = run_model(lines)
    return outcome_of(printed, lines, fault)


class Shrinking(unittest.TestCase):
    """A script that differs becomes short, and still differs."""

    def test_a_script_becomes_short(self):
        """Of a script that sees a mistake a few lines are left, and the program alone is wrong in them."""
        name = "a refused frame is taken in part"
        with mock.patch.object(compare, "run_program", run_wrong_program):
            scripts = [ScriptMaker(SEED, number).make().lines for number in range(60)]
            lines = min((lines for lines in scripts if compare.compare(name, lines) is not None), key=len)
            shorter = Shrinker(name).shrink(lines)
            difference = compare.compare(name, shorter)
        self.assertIsNotNone(difference)
        self.assertLessEqual(len(shorter), 4)
        self.assertNotEqual(difference.wanted, difference.came)

    def test_a_script_that_does_not_differ_stays(self):
        """Nothing becomes of a script on which model and program agree."""
        lines = ScriptMaker(SEED, 0).make().lines
        with mock.patch.object(compare, "run_program", lambda _, lines: outcome_of(*model_outcome(lines))):
            self.assertEqual(Shrinker("").shrink(lines), lines)


def model_outcome(lines):
    """The values of the model's outcome."""
    printed, fault = run_model(lines)
    return printed, lines, fault


if __name__ == "__main__":
    unittest.main()
