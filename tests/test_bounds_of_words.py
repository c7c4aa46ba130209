"""Bounds of what the words of a script say: how many words a line has, moments, digits, sites,
words of 16 bits, addresses."""

from support.checks import add_cases
from support.messages import A, ADDRESS, body_of, entry, flush, frame, question, record, reply_to, response
from support.transcripts import ScriptCase, answered, ask_line, datagram_line, entries_line, held, kept
from support.transcripts import learn_line, sent

NAME = "example.com"
QUESTION = question(7, NAME)

# Each event with its number of words, as a line that is taken, and what that prints.
EVENTS = (
    (2, "sites 1"),
    (4, "learn 0 0 -", "refused read TooShort"),
    (4, "ask 0 0 -", "dropped"),
    (2, "show 0", "floor 0", "items 0"),
    (6, "datagram 0 0 1.2.3.4:1 0 -", "refused dropped"),
    (3, "tick 0 0", "idle"),
    (2, "sweep 0", "swept 0"),
    (4, "frame 0 0 -", "refused frame Truncated"),
    (4, "flush 0 0 00", kept(0, flush("", 0)), "taken 1"),
    (4, "deliver 0 0 0", "taken 1"),
    (3, "merge 0 0", "merged 0"),
    (2, "restart 0", "restarted"),
    (3, "same 0 0", "same"),
)


class BoundsOfLines(ScriptCase):
    """Each event has a number of words, and no other one is taken."""

    def check(self, line):
        self.check_steps((line,), report="wrong number of words")

    def test_right_numbers(self):
        """each event with its number of words, of which a datagram has most: 6"""
        self.check_steps(*[(line, *printed) for _, line, *printed in EVENTS])
        self.check_equal([len(line.split(" ")) for _, line, *_ in EVENTS], [words for words, *_ in EVENTS])


add_cases(
    BoundsOfLines,
    [
        (f"{line.split(' ')[0]} has {words} words: {shows}", made)
        for words, line, *_ in EVENTS
        for shows, made in (
            (f"one of {words + 1} is refused", f"{line} 0"),
            (f"one of {words + 1} whose last is empty is refused", f"{line} "),
            (f"one of {words - 1} is refused", line.rsplit(" ", 1)[0]),
        )
    ],
)


class BoundsOfMoments(ScriptCase):
    """A moment is 1099511627776 at most."""

    def check(self, line):
        self.check_steps((line,), report="bad number")

    def test_last_moment_of_a_frame(self):
        """an entry stamped 1099511627776 is taken, one stamped 1099511627777 is refused"""
        body = body_of(ADDRESS)
        self.check_steps(
            (entries_line(0, entry(NAME, 1099511627776)), "taken 1"),
            (entries_line(0, entry(NAME, 1099511627777)), "refused frame BadMoment"),
            ("tick 0 1099511627776", "idle"),
            (
                "show 0",
                "floor 1099511627776",
                held("positive", 3, 1099511627776, 300, "example.com.", A, body),
                "items 1",
            ),
        )

    def test_last_moment_of_each_event(self):
        """each event that has a moment is done at 1099511627776"""
        last, query = 1099511627776, question(0x1234, NAME)
        answer = response(QUESTION, [record(A, ADDRESS, owner=NAME)])
        self.check_steps(
            (learn_line(last, reply_to(QUESTION)), "taken 1"),
            (ask_line(last, QUESTION), answered(answer)),
            (f"flush 0 {last} 00", kept(0, flush("", last)), "taken 1"),
            (f"deliver 0 {last} 0", "taken 1"),
            (ask_line(last, QUESTION), "miss"),
            (datagram_line(last, 6001, QUESTION, 0x1234), sent(5301, query), "taken 0"),
            (f"tick 0 {last}", "idle"),
        )


add_cases(
    BoundsOfMoments,
    [
        (f"{line.split(' ')[0]} at 1099511627777 is refused", line)
        for line in (
            "learn 0 1099511627777 -",
            "tick 0 1099511627777",
            "frame 0 1099511627777 -",
            "deliver 0 1099511627777 0",
            "flush 0 1099511627777 00",
            "datagram 0 1099511627777 1.2.3.4:1 0 -",
        )
    ],
)


class BoundsOfNumbers(ScriptCase):
    """A number has 13 digits at most, and a word 16 bits."""

    def check(self, line):
        self.check_steps((line,), report="bad number")

    def test_13_digits(self):
        """a number of 13 digits is taken in each place"""
        self.check_steps(
            ("sites 0000000000009",),
            ("show 0000000000008", "floor 0", "items 0"),
            ("tick 0000000000008 0000000000001", "idle"),
            ("datagram 0000000000008 0000000000001 1.2.3.4:1 0000000000000 -", "refused dropped"),
            ("same 0000000000000 0000000000007", "same"),
            ("flush 0 0000000000100 00", kept(0, flush("", 100)), "taken 1"),
            ("deliver 1 0000000000100 0000000000000", "taken 1"),
            ("merge 0000000000002 0000000000001", "merged 1"),
        )

    def test_word_of_16_bits(self):
        """the search for an identifier begins at a word up to 65535, and goes on from there to 0"""
        words = ((65535, 65535), (65535, 0), (0, 1), (65534, 65534))
        steps = []
        for place, (word, identifier) in enumerate(words):
            asked = question(7, f"name{place}")
            steps.append(
                (
                    datagram_line(100, 6001, asked, word),
                    sent(5301, question(identifier, f"name{place}")),
                    "taken 0",
                )
            )
        self.check_steps(*steps)


add_cases(
    BoundsOfNumbers,
    [
        ("the number of sites has 13 digits at most, 14 are refused", "sites 00000000000001"),
        ("a moment has 13 digits at most, 14 are refused", "tick 0 00000000000000"),
        ("the number of a frame has 13 digits at most, 14 are refused", "deliver 0 0 00000000000000"),
        ("a word has 13 digits at most, 14 are refused", "datagram 0 0 1.2.3.4:1 00000000000000 -"),
    ],
)


class BoundsOfSites(ScriptCase):
    """Sites and their ports."""

    def test_nine_sites(self):
        """the last of 9 sites has port 5408: frames come from 5400 and 5407, questions from 5399, 5408, 5409"""
        answer = response(QUESTION, [record(A, ADDRESS, 290, NAME)])
        strangers = [
            (datagram_line(110, port, QUESTION, site=8), sent(port, answer), "taken 0")
            for port in (5399, 5408, 5409)
        ]
        self.check_steps(
            ("sites 9",),
            (datagram_line(100, 5407, frame([entry(NAME, 100)]), site=8), "taken 1"),
            (datagram_line(100, 5400, frame([]), site=8), "taken 0"),
            *strangers,
            ("same 8 7", "different"),
            ("merge 7 8", "merged 1"),
            ("same 8 7", "same"),
        )

    def test_one_site(self):
        """of 1 site there is no second one"""
        self.check_steps(("sites 1",), ("show 0", "floor 0", "items 0"), ("show 1",), report="no such site")

    def test_sites_that_are_not_said(self):
        """where no number of sites is said there is 1"""
        self.check_steps(("show 0", "floor 0", "items 0"), ("show 1",), report="no such site")


# Addresses beside those of the upstreams, whose ports are 5301 and 5302.
CLIENTS = (
    ("0.0.0.0", 1),
    ("255.255.255.255", 65535),
    ("1.22.199.249", 9),
    ("127.0.0.1", 5300),
    ("127.0.0.1", 5303),
    ("127.0.0.2", 5301),
)


class BoundsOfAddresses(ScriptCase):
    """Whose datagram is a question."""

    def check(self, host, port):
        answer = response(QUESTION, [record(A, ADDRESS, owner=NAME)])
        self.check_steps(
            (entries_line(100, entry(NAME, 100)), "taken 1"),
            (datagram_line(100, port, QUESTION, host=host), sent(port, answer, host), "taken 0"),
        )


add_cases(
    BoundsOfAddresses,
    [(f"{host}:{port} is a client, and is answered", host, port) for host, port in CLIENTS],
)
