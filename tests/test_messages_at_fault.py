"""Messages that are cut off, or say what is not so.

A list in `cases/messages_at_fault.txt` begins with `= ` and what it shows. Each row is a message
that is handed in as a reply, and behind `=>` its fault, or how many observations are taken of it:
`changed` has how many octets there are of the reply `aliases-reply` of the examples, a place, and
the octets that replace its own there; `padded` has how many octets there are, zeros behind those
of the row. `cases/read_messages.txt` has messages of servers, and one of each kind that is read or
refused, one a line. Lines that begin with `#` say what is in the row below them.
"""

from support.checks import Case, add_cases, lines_of, parts_of
from support.messages import ANSWERED, HEADER_LENGTH, OTHERS, RECURSION_DESIRED, example, header, question
from support.rows import octets_in, row_of, rows_in
from support.scripts import script_of
from support.sessions import HOST

ALIASES = example("aliases-reply")

# Three labels of 63 octets: a fourth one has 61 at most.
THREE_LABELS = (b"\x3f" + b"a" * 63) * 3


def changed(count, at, octets):
    """The first octets of the reply, with others at a place."""
    place, others = int(at), octets_in(octets)
    return (ALIASES[:place] + others + ALIASES[place + len(others) :])[: int(count)]


def padded(count, octets):
    """Octets, with zeros behind them."""
    return octets_in(octets).ljust(int(count), b"\0")


def read_messages():
    """The messages of servers, and those of each kind."""
    return [octets_in(line) for line in lines_of("read_messages.txt") if not line.startswith("#")]


MADE = {"changed": changed, "padded": padded}


class MessagesAtFault(Case):
    """Each list of messages."""

    def learn(self, script, message):
        """What a new site prints where a message is handed in."""
        script.do("restart 0")
        return script.do(f"learn 0 100 {message.hex() or '-'}")

    def ask(self, script, message):
        """The last line that a new site prints where a message comes from a client."""
        script.do("restart 0")
        return script.do(f"datagram 0 100 {HOST}:6001 7 {message.hex() or '-'}")[-1]

    def check(self, rows):
        with script_of(1) as script:
            for row in rows:
                call, words, wanted = row_of(row)
                is_taken = wanted.startswith("taken ")
                printed = wanted if is_taken else f"refused read {wanted}"
                self.check_equal(self.learn(script, MADE[call](*words)), [printed], row)

    def test_length(self):
        """the reply has 99 octets"""
        self.check_equal(len(ALIASES), 99)

    def test_each_octet(self):
        """whatever octet is at a place of a message, it is taken, asked or refused"""
        with script_of(1) as script:
            places = 0
            for message in read_messages():
                script.do("restart 0")
                for place in range(len(message)):
                    places += 1
                    for octet in OTHERS:
                        others = (message[:place] + bytes([octet]) + message[place + 1 :]).hex()
                        script.do(f"learn 0 100 {others}")
                        script.do(f"datagram 0 100 {HOST}:6001 7 {others}")
            self.check_equal(places, 4969)
            self.check_equal(script.do("restart 0"), ["restarted"])

    def test_questions_that_end_early(self):
        """a question is dropped where its header ends early, and truncated where it ends itself"""
        asked = question(7, "www.example")
        self.check_equal(len(asked), 29)
        with script_of(1) as script:
            for end in range(len(asked) + 1):
                wanted = "refused read Truncated" if end < len(asked) else "taken 0"
                if end < HEADER_LENGTH:
                    wanted = "refused dropped"
                self.check_equal(self.ask(script, asked[:end]), wanted, end)

    def test_long_names(self):
        """a long name is reported before the end of the message is"""
        with script_of(1) as script:
            for length, fault in ((62, "LongName"), (61, "Truncated")):
                message = header(7, RECURSION_DESIRED) + THREE_LABELS + bytes([length])
                self.check_equal(self.ask(script, message), f"refused read {fault}", length)
                reply = header(7, ANSWERED) + THREE_LABELS + bytes([length])
                self.check_equal(self.learn(script, reply), [f"refused read {fault}"], length)


add_cases(MessagesAtFault, [(shows, rows_in(text)) for shows, text in parts_of("messages_at_fault.txt")])
