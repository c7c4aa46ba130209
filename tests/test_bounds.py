"""Bounds of what a site holds and asks: how long it keeps what a reply says, how many aliases it
follows, how long an upstream has, and what goes when items end or are withdrawn."""

from support.checks import add_cases
from support.messages import A, AAAA, ADDRESS, ANSWERED, AUTHORITATIVE, CNAME, NAME_ERROR, SERVER_FAILURE
from support.messages import SOA, body_of, denial_body, entry, flush, name_of, question, record, reply_to
from support.messages import response, soa
from support.transcripts import ScriptCase, answered, ask_line, datagram_line, entries_line, held, kept
from support.transcripts import learn_line, sent

NAME = "example.com"
QUESTION = question(7, NAME)
OTHER_ADDRESS = bytes([192, 0, 2, 2])
LONG_ADDRESS = bytes([32]) * 16


class BoundsOfTimesToLive(ScriptCase):
    """How long a site keeps what a reply says."""

    def check(self, ttl, life):
        """An address with this TTL is kept so many seconds, or not at all."""
        shown = [held("positive", 1, 100, life, "example.com.", A, body_of(ADDRESS))] if life else []
        self.check_steps(
            (learn_line(100, reply_to(QUESTION, record(A, ADDRESS, ttl))), f"taken {len(shown)}"),
            ("show 0", "floor 0", *shown, f"items {len(shown)}"),
        )

    def test_last_answer(self):
        """what came with a TTL of 86401 answers 86399 seconds later for the last time"""
        answer = response(QUESTION, [record(A, ADDRESS, 1, NAME)])
        self.check_steps(
            (learn_line(100, reply_to(QUESTION, record(A, ADDRESS, 86401))), "taken 1"),
            (ask_line(86499, QUESTION), answered(answer)),
            (ask_line(86500, QUESTION), "miss"),
        )

    def test_least_of_two(self):
        """of two records with TTLs 2147483647 and 86399 both are kept 86399 seconds"""
        records = (record(A, ADDRESS, 2147483647), record(A, OTHER_ADDRESS, 86399))
        body = body_of(ADDRESS, OTHER_ADDRESS)
        self.check_steps(
            (learn_line(100, reply_to(QUESTION, *records)), "taken 1"),
            ("show 0", "floor 0", held("positive", 1, 100, 86399, "example.com.", A, body), "items 1"),
        )


add_cases(
    BoundsOfTimesToLive,
    [
        ("a TTL of 0 is not kept", 0, 0),
        ("a TTL of 1 is kept 1 second", 1, 1),
        ("a TTL of 86399 is kept 86399 seconds", 86399, 86399),
        ("a TTL of 86400 is kept 86400 seconds", 86400, 86400),
        ("a TTL of 86401 is kept 86400 seconds", 86401, 86400),
        ("a TTL of 2147483647 is kept 86400 seconds", 2147483647, 86400),
        ("a TTL of 2147483648 is 0, and is not kept", 2147483648, 0),
        ("a TTL of 4294967295 is 0, and is not kept", 4294967295, 0),
    ],
)


class BoundsOfDenials(ScriptCase):
    """A denial is kept for the least of the SOA's TTL, its MINIMUM and 10800 seconds."""

    def check(self, ttl, minimum, life):
        flags = ANSWERED | AUTHORITATIVE | NAME_ERROR
        body = denial_body(NAME, soa(minimum))
        shown = [held("nxdomain", 3, 100, life, "example.com.", 0, body)] if life else []
        denial = response(QUESTION, (), [record(SOA, soa(minimum), ttl)], flags)
        self.check_steps(
            (learn_line(100, denial), f"taken {len(shown)}"),
            ("show 0", "floor 0", *shown, f"items {len(shown)}"),
        )


add_cases(
    BoundsOfDenials,
    [
        (f"a TTL of {ttl} and a MINIMUM of {minimum} are kept {life} seconds", ttl, minimum, life)
        for ttl, minimum, life in (
            (10799, 20000, 10799),
            (10800, 20000, 10800),
            (10801, 20000, 10800),
            (20000, 10799, 10799),
            (20000, 10801, 10800),
            (2147483647, 2147483647, 10800),
            (2147483648, 300, 0),
            (300, 2147483648, 0),
            (1, 300, 1),
        )
    ],
)


def alias(number):
    """The name of an alias, or of what the last one leads to."""
    return f"c{number}"


def chain(identifier, count, ttl=300):
    """A reply with so many aliases and an address, and the answer to a client as well."""
    aliases = [record(CNAME, name_of(alias(place + 1)), ttl, alias(place)) for place in range(count)]
    asked = question(identifier, alias(0))
    return reply_to(asked, *aliases, record(A, ADDRESS, ttl, alias(count)))


def chain_entries(count):
    """The entries of a reply with so many aliases."""
    aliases = [entry(alias(place), 100, 300, 1, CNAME, name_of(alias(place + 1))) for place in range(count)]
    return [*aliases, entry(alias(count), 100, rank=1)]


class BoundsOfAliases(ScriptCase):
    """A reply has 8 aliases at most, and so has an answer."""

    def test_replies(self):
        """a reply with 8 aliases is learnt and answered, one with 9 is refused"""
        self.check_steps(
            (learn_line(100, chain(1, 9)), "refused digest BadChain"),
            (learn_line(100, chain(1, 8)), "taken 9"),
            (ask_line(110, question(7, alias(0))), answered(chain(7, 8, 290))),
        )

    def test_relayed_replies(self):
        """a reply with 8 aliases is relayed, one with 9 leaves the question open"""
        asked = question(7, alias(0))
        self.check_steps(
            (datagram_line(100, 6001, asked, 4660), sent(5301, question(4660, alias(0))), "taken 0"),
            (datagram_line(100, 5301, chain(4660, 9)), "refused digest BadChain"),
            (
                datagram_line(100, 5301, chain(4660, 8)),
                sent(6001, chain(7, 8)),
                kept(0, *chain_entries(8)),
                "taken 9",
            ),
        )


def failure_of(asked):
    """The reply to a question that failed."""
    return response(asked, flags=ANSWERED | SERVER_FAILURE)


def numbered(identifier, number):
    """A question for a name of four digits."""
    return question(identifier, f"{number:04}")


def asked_step(number, identifier):
    """A client's question, which is asked under an identifier."""
    asked = datagram_line(100, 6001, numbered(7, number), 65535)
    return asked, sent(5301, numbered(identifier, number)), "taken 0"


def refused_step(number):
    """A client's question, for which there is no room."""
    asked = datagram_line(100, 6001, numbered(7, number), 65535)
    return asked, sent(6001, failure_of(numbered(7, number))), "refused full"


class BoundsOfOpenQuestions(ScriptCase):
    """How many questions are open, and how long an upstream has."""

    def test_room_of_one(self):
        """where one of 256 open questions is settled there is room for 1, and not for 2"""
        settled = datagram_line(100, 5301, failure_of(numbered(254, 255)))
        self.check_steps(
            *[asked_step(number, (65535 + number) % 65536) for number in range(256)],
            refused_step(256),
            (settled, sent(6001, failure_of(numbered(7, 255))), "taken 0"),
            asked_step(256, 254),
            refused_step(257),
        )

    def test_seconds_of_an_upstream(self):
        """an upstream has 2 seconds: nothing is sent 1 second after a query, and the next step is at 2"""
        query, failure = question(4660, NAME), failure_of(QUESTION)
        self.check_steps(
            (datagram_line(100, 6001, QUESTION, 4660), sent(5301, query), "taken 0"),
            ("tick 0 101", "idle"),
            ("tick 0 102", sent(5302, query), "idle"),
            ("tick 0 103", "idle"),
            ("tick 0 104", sent(6001, failure), "idle"),
            ("tick 0 106", "idle"),
        )

    def test_seconds_behind_a_late_tick(self):
        """an upstream that is asked 9 seconds late has 2 seconds from then on"""
        query, failure = question(4660, NAME), failure_of(QUESTION)
        self.check_steps(
            (datagram_line(200, 6001, QUESTION, 4660), sent(5301, query), "taken 0"),
            ("tick 0 209", sent(5302, query), "idle"),
            ("tick 0 210", "idle"),
            ("tick 0 211", sent(6001, failure), "idle"),
        )


class EndsOfItems(ScriptCase):
    """What goes when an item ends or is withdrawn, and what stays."""

    def check(self, name, shown):
        """Of two items of a name one ends after 10 seconds, and the other one stays."""
        asked, other = question(7, name, AAAA), entry(name, 100, rank=1, rtype=AAAA, rdata=LONG_ADDRESS)
        item = held("positive", 1, 100, 300, shown, AAAA, body_of(LONG_ADDRESS))
        self.check_steps(
            (entries_line(100, entry(name, 100, 10, rank=1), other), "taken 2"),
            ("tick 0 110", "idle"),
            ("show 0", "floor 110", item, "items 1"),
            (ask_line(110, asked), answered(response(asked, [record(AAAA, LONG_ADDRESS, 290, name)]))),
            ("sweep 0", kept(0, other), "swept 1"),
        )

    def test_flush_without_name_errors(self):
        """a flush withdraws where no name error was ever noted of a name as long"""
        answer = response(QUESTION, [record(A, ADDRESS, 290, NAME)])
        self.check_steps(
            (entries_line(100, entry(NAME, 100)), "taken 1"),
            (ask_line(110, QUESTION), answered(answer)),
            ("flush 0 120 03636f6d00", kept(0, flush("com", 120)), "taken 1"),
            (ask_line(120, QUESTION), "miss"),
            ("show 0", "floor 0", "flush 3 120 86400 com. 0 -", "items 1"),
            (entries_line(120, entry(NAME, 120)), "taken 1"),
            (ask_line(120, QUESTION), "miss"),
        )


add_cases(
    EndsOfItems,
    [
        ("one of two items of a short name ends, and the other stays", NAME, "example.com."),
        ("one of two items of a name of 33 octets ends, and the other stays", "a" * 31, "a" * 31 + "."),
    ],
)
