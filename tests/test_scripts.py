"""Scripts of many lines: octets that end early, more than a frame holds, more questions than are
asked, many frames."""

from support.checks import Case
from support.messages import EXAMPLE_MESSAGES
from support.program import Ended, run_script

MOST_QUESTIONS = 256
FULL_FRAME = 442
MANY_FRAMES = 1100


def beginnings(event, digits):
    """A line for each part of octets that begins with them and lacks some of their end."""
    return "".join(f"{event} {digits[:end] or '-'}\n" for end in range(0, len(digits), 2))


def label(text):
    """A label, in hexadecimal digits."""
    return f"{len(text):02x}" + text.encode().hex()


def entries(first, end):
    """Entries of a frame, each with an address of its own name of seven digits."""
    names = [label(f"{number:07}") for number in range(first, end)]
    return "".join(f"030300000000000000640000012c{name}03636f6d00000100010004c0000201" for name in names)


def message(header, number):
    """A message with a question for a name of four digits."""
    return header + label(f"{number:04}") + "0000010001"


QUESTION = "000701000001000000000000"
FAILURE = "000781820001000000000000"
QUERY_BEHIND_ID = "01000001000000000000"


class ManyLines(Case):
    """Scripts of many lines, with all that they print."""

    def check_script(self, lines, printed):
        """Lines are all done, and print this."""
        self.check_equal(run_script(lines.encode()), Ended(0, printed.encode()))

    def test_early_ends(self):
        """octets that end early are refused, and leave nothing"""
        lines = beginnings("learn 0 100", EXAMPLE_MESSAGES["aliases-reply"])
        lines += beginnings("frame 0 100", EXAMPLE_MESSAGES["first-100"])
        printed = "refused read TooShort\n" * 12 + "refused read Truncated\n" * 87
        printed += "refused frame Truncated\n" * 42 + "floor 0\nitems 0\n"
        self.check_script(lines + "show 0\n", printed)

    def test_packing(self):
        """442 such entries fill a frame, the next one begins another, and 443 in one are too long"""
        full, last = entries(0, FULL_FRAME), entries(FULL_FRAME, FULL_FRAME + 1)
        lines = f"frame 0 100 44470101ba{full}\nframe 0 100 4447010001{last}\nsweep 0\n"
        lines += f"frame 0 100 44470101bb{full}{last}\n"
        printed = f"taken 442\ntaken 1\nframe 0 44470201ba{full}\nframe 1 4447020001{last}\nswept 2\n"
        self.check_script(lines, printed + "refused frame TooLong\n")

    def test_most_questions(self):
        """256 questions are asked, under the next free identifiers, and the 257th fails; one more
        client joins, and those that are due go on, the least identifier first"""
        lines, printed = "", ""
        for number in range(MOST_QUESTIONS + 1):
            lines += f"datagram 0 100 127.0.0.1:6001 65535 {message(QUESTION, number)}\n"
        for number in range(MOST_QUESTIONS):
            identifier = f"{(65535 + number) % 65536:04x}"
            printed += f"send 127.0.0.1:5301 {identifier}{message(QUERY_BEHIND_ID, number)}\ntaken 0\n"
        printed += f"send 127.0.0.1:6001 {message(FAILURE, MOST_QUESTIONS)}\nrefused full\n"
        lines += f"datagram 0 100 127.0.0.1:6002 65535 {message(QUESTION, MOST_QUESTIONS - 1)}\n"
        lines += "tick 0 101\ntick 0 102\ntick 0 103\n"
        printed += f"taken 0\nidle\nsend 127.0.0.1:5302 0000{message(QUERY_BEHIND_ID, 1)}\nmore\n"
        printed += f"send 127.0.0.1:5302 0001{message(QUERY_BEHIND_ID, 2)}\nmore\n"
        self.check_script(lines, printed)

    def test_many_frames(self):
        """each of many frames is kept under its number, and can be delivered"""
        names = [label(f"{number:04}") + "00" for number in range(MANY_FRAMES)]
        lines = "sites 2\n" + "".join(f"flush 0 120 {name}\n" for name in names)
        flushes = [f"44470200010403000000000000007800015180{name}0000" for name in names]
        printed = "".join(f"frame {number} {octets}\ntaken 1\n" for number, octets in enumerate(flushes))
        for number in reversed(range(MANY_FRAMES)):
            lines += f"deliver 1 120 {number}\n"
        lines += "same 0 1\n" + "".join(f"frame 1 120 {octets}\n" for octets in flushes) + "same 1 0\n"
        printed += "taken 1\n" * MANY_FRAMES + "same\n" + "taken 1\n" * MANY_FRAMES + "same\n"
        self.check_script(lines, printed)

    def test_the_same_frame_many_times(self):
        """each of many equal frames has a number of its own"""
        flush = "4447020001040300000000000000780001518003636f6d000000"
        lines = "sites 2\n" + "flush 0 120 03636f6d00\n" * MANY_FRAMES
        printed = "".join(f"frame {number} {flush}\ntaken 1\n" for number in range(MANY_FRAMES))
        for number in range(MANY_FRAMES):
            lines += f"restart 1\ndeliver 1 120 {number}\nsame 0 1\n"
            printed += "restarted\ntaken 1\nsame\n"
        self.check_script(lines, printed)
