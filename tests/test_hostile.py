"""Hostile octets: each message and frame of the worked examples with each octet replaced by five
others, in each way in which octets come in. What is refused leaves what a site holds, its open
questions and the kept frames as they were.

Two sites are twins; the second one is spared what is refused. `cases/hostile_messages.txt` and
`hostile_flushes.txt` have a line for each message, by its name or by its parts.
`cases/hostile_counts.txt` has how often octets are refused for each reason, and `-` for none.
Another program counted that, which reads the formats on its own.
"""

from collections import Counter

from support.checks import Case, add_cases, lines_of, parts_of
from support.messages import OTHERS, event_octets, event_parts, question
from support.scripts import script_of

# After how many octets that were not refused the twins begin anew: those of an upstream settle the
# question.
MOST_TAKEN = {"upstream": 1}
MOST_TAKEN_ELSE = 8

MESSAGES = 102
LONGEST_FRAME = 16384
HEADER = question(7, "")[:12]

# Ticks after which all questions have failed.
MOST_TICKS = 64

# The site to which kept frames are delivered.
THIRD = 2


def messages_of(name):
    """The lines of a file of messages."""
    return [line for line in lines_of(name) if not line.startswith("#")]


def worked():
    """The messages and frames of the worked examples."""
    return [event_octets(line) for line in messages_of("hostile_messages.txt")]


def written():
    """The frames among them in the version that is written, and those with flushes."""
    parts = [event_parts(line) for line in messages_of("hostile_messages.txt")]
    frames = [f"4447 02{part.removeprefix('4447 01')}" for part in parts if part.startswith("4447 01")]
    return [event_octets(line) for line in frames + messages_of("hostile_flushes.txt")]


def read_counts():
    """How often octets are refused for each reason, for each way in which they come."""
    counts = {}
    for way, rows in parts_of("hostile_counts.txt"):
        pairs = [row.rsplit(" ", 1) for row in rows.splitlines()]
        counts[way] = {reason: int(count) for reason, count in pairs}
    return counts


def event_of(way, site, message):
    """The line with which octets come in at a site, all at one moment."""
    digits = message.hex() or "-"
    if way == "stranger":
        return f"datagram {site} 103 127.0.0.1:6003 22136 {digits}"
    if way == "upstream":
        return f"datagram {site} 103 127.0.0.1:5301 0 {digits}"
    if way == "peer":
        return f"datagram {site} 103 127.0.0.1:{5401 - site} 0 {digits}"
    return f"{way} {site} 103 {digits}"


def reason_of(line):
    """Why octets were refused, as the counts have it, or `-`."""
    if not line.startswith("refused "):
        return "-"
    kind, *fault = line.split(" ")[1:]
    return kind.capitalize() + "".join(f"({word})" for word in fault)


def without_numbers(printed):
    """Lines without the numbers of frames."""
    return ["frame " + line.split(" ")[2] if line.startswith("frame ") else line for line in printed]


class Twins:
    """Two sites that are each other's peers, and a third one that looks at kept frames."""

    def __init__(self, case, script):
        self.case, self.script, self.kept = case, script, []
        self.held, self.asked = event_octets("held").hex(), event_octets("asked").hex()

    def do(self, line):
        """Does a line, and gives what it prints. The frames that it sends are kept."""
        printed = self.script.do(line)
        for sent in printed:
            if sent.startswith("frame "):
                self.kept.append(sent.split(" ")[1:])
        return printed

    def do_both(self, line_of):
        """Does a line at each site. They do the same, but for the numbers of frames."""
        first, second = [without_numbers(self.do(line_of(site))) for site in (0, 1)]
        self.case.check_equal(first, second, line_of(0)[:200])
        return first

    def begin(self, message):
        """Both begin as new. They hold an address, have swept, ask one question of the second
        upstream, and then one of the first: that of the message, under its identifier."""
        for site in (0, 1):
            self.do(f"restart {site}")
        self.kept = []
        self.do_both(lambda site: f"frame {site} 100 {self.held}")
        self.do_both(lambda site: f"sweep {site}")
        query = event_octets("asked-1111").hex()
        sent = self.do_both(lambda site: f"datagram {site} 100 127.0.0.1:6001 4369 {self.asked}")
        self.case.check_equal(sent, [f"send 127.0.0.1:5301 {query}", "taken 0"])
        sent = self.do_both(lambda site: f"tick {site} 102")
        self.case.check_equal(sent, [f"send 127.0.0.1:5302 {query}", "idle"])
        identifier = int.from_bytes(message[:2], "big") if len(message) > 1 else 0
        asked = (HEADER + message[12:]).hex()
        self.do_both(lambda site: f"datagram {site} 102 127.0.0.1:6002 {identifier} {asked}")

    def come_in(self, way, message):
        """Octets come in at the first site, and at the second one if they are not refused. Gives
        why they are refused."""
        printed = self.do(event_of(way, 0, message))
        reason = reason_of(printed[-1])
        if reason == "-":
            spared = self.do(event_of(way, 1, message))
            self.case.check_equal(without_numbers(spared), without_numbers(printed))
        else:
            frames = [line for line in printed if line.startswith("frame ")]
            self.case.check_equal(frames, [], "frames of what is refused")
            self.case.check_equal(self.do("same 0 1"), ["same"], f"{way} {message.hex()}")
        return reason

    def check_end(self):
        """What both ask from then on, until all their questions have failed, is the same, and at
        first they ask something. Then both hold the same, and the kept frames are as they were."""
        seconds = 104
        for _ in range(MOST_TICKS):
            printed = self.do_both(lambda site: f"tick {site} {seconds}")
            self.case.check_true(seconds > 104 or len(printed) > 1, "a query", printed)
            if printed[-1] == "idle":
                seconds += 2
            if seconds > 110:
                self.case.check_equal(self.do("same 0 1"), ["same"])
                self.check_kept()
                return
        self.case.fail("wanted: no open question\ncame:   still asking")

    def check_kept(self):
        """A kept frame has the octets with which it was sent."""
        for number, digits in self.kept[:3]:
            looks = []
            for line in (f"deliver {THIRD} 100 {number}", f"frame {THIRD} 100 {digits}"):
                self.script.do(f"restart {THIRD}")
                looks.append((self.script.do(line), self.script.do(f"show {THIRD}")))
            self.case.check_equal(looks[0], looks[1], f"frame {number}")


class Hostile(Case):
    """What is refused changes nothing."""

    def check(self, way, messages, wanted):
        counts, most = Counter(), MOST_TAKEN.get(way, MOST_TAKEN_ELSE)
        with script_of(3) as script:
            twins = Twins(self, script)
            for message in messages():
                twins.begin(message)
                taken = 0
                for place in range(len(message)):
                    for octet in OTHERS:
                        changed = message[:place] + bytes([octet]) + message[place + 1 :]
                        reason = twins.come_in(way, changed)
                        counts[reason] += 1
                        taken += reason == "-"
                        if taken == most:
                            twins.check_end()
                            twins.begin(message)
                            taken = 0
                twins.check_end()
        self.check_equal(dict(sorted(counts.items())), dict(sorted(wanted.items())), "how often")

    def test_count(self):
        """there are as many messages as are said"""
        self.check_equal(len(worked()), MESSAGES)

    def test_too_long(self):
        """what is too long changes nothing, whatever octets are at many of its places"""
        message = bytearray(event_octets("held").ljust(LONGEST_FRAME + 1, b"\0"))
        ways = {"peer": "Frame(TooLong)", "frame": "Frame(TooLong)", "learn": "Read(TooLong)"}
        with script_of(3) as script:
            twins = Twins(self, script)
            twins.begin(event_octets("held"))
            for place in range(0, len(message), 64):
                for octet in OTHERS:
                    message[place] = octet
                    for way, reason in ways.items():
                        self.check_equal(twins.come_in(way, bytes(message)), reason)
            twins.check_end()


COUNTS = read_counts()
add_cases(
    Hostile,
    [
        ("datagrams of strangers", "stranger", worked, COUNTS["stranger"]),
        ("datagrams of an upstream", "upstream", worked, COUNTS["upstream"]),
        ("replies that are handed in", "learn", worked, COUNTS["reply"]),
        ("datagrams of a peer", "peer", worked, COUNTS["frames"]),
        ("frames", "frame", worked, COUNTS["frames"]),
        ("datagrams of a peer in the version that is written", "peer", written, COUNTS["written"]),
        ("frames in the version that is written", "frame", written, COUNTS["written"]),
    ],
)
