"""Bounds of frames: how long they and their bodies are, lives, kinds, ranks, versions, octets of
names that are shown as they are, and the forms of data with names."""

from support.checks import add_cases
from support.messages import A, AAAA, ADDRESS, ANSWERED, CNAME, NAME_ERROR, NS, SOA, TXT, any_entry, body_of
from support.messages import denial_body, entry, flush, frame, name_of, no_data, no_name, question, record
from support.messages import response, soa
from support.transcripts import ScriptCase, answered, ask_line, datagram_line, entries_line, frame_line
from support.transcripts import held, kept

NAME, OTHER = "example.com", "example.org"


def text(name, length):
    """An entry of a text of so many octets."""
    return entry(name, 100, rtype=TXT, rdata=b"a" * length)


def two_texts(length):
    """An entry of two texts, of 4000 octets and of so many."""
    return any_entry(3, 3, 100, 300, OTHER, TXT, body_of(b"a" * 4000, b"b" * length))


class BoundsOfFrames(ScriptCase):
    """How long a frame is, and a body."""

    def test_lengths_of_entries(self):
        """entries with octets of their own count: these frames have 16384 and 16385 octets"""
        lengths = [len(frame([text(NAME, 8188), text(OTHER, length)])) for length in (8125, 8126)]
        self.check_equal(lengths, [16384, 16385])

    def test_lengths_of_frames(self):
        """a frame of 16384 octets is taken, one of 16385 is refused"""
        entries = (text(NAME, 8188), text(OTHER, 8125))
        longer = (text(NAME, 8188), text(OTHER, 8126))
        self.check_steps(
            ("sites 2",),
            (entries_line(100, *longer), "refused frame TooLong"),
            (frame_line(100, frame(entries) + b"\0"), "refused frame TooLong"),
            (datagram_line(100, 5401, frame(longer)), "refused frame TooLong"),
            ("show 0", "floor 0", "items 0"),
            (entries_line(100, *entries), "taken 2"),
            (datagram_line(100, 5401, frame(entries)), "taken 2"),
            (
                "show 0",
                "floor 0",
                held("positive", 3, 100, 300, "example.com.", TXT, body_of(b"a" * 8188)),
                held("positive", 3, 100, 300, "example.org.", TXT, body_of(b"a" * 8125)),
                "items 2",
            ),
        )

    def test_lengths_without_entries(self):
        """16385 octets are too long, whatever they are; 16384 are read, and here are no frame"""
        self.check_steps(
            (frame_line(100, b"\0" * 16385), "refused frame TooLong"),
            (frame_line(100, b"\0" * 16384), "refused frame BadMagic"),
        )

    def test_packing(self):
        """items that have 16384 octets as a frame are swept in one, of 16385 in two"""
        self.check_steps(
            ("sites 2",),
            (entries_line(100, text(NAME, 8188)), "taken 1"),
            (entries_line(100, text(OTHER, 8125)), "taken 1"),
            ("sweep 0", kept(0, text(NAME, 8188), text(OTHER, 8125)), "swept 1"),
            (entries_line(100, text(NAME, 8188), site=1), "taken 1"),
            (entries_line(100, text(OTHER, 8126), site=1), "taken 1"),
            ("sweep 1", kept(1, text(NAME, 8188)), kept(2, text(OTHER, 8126)), "swept 2"),
        )

    def test_body_of_two_records(self):
        """a body of two records has 8192 octets and is taken, one of 8193 is refused"""
        self.check_equal([len(body_of(b"a" * 4000, b"b" * length)) for length in (4186, 4187)], [8192, 8193])
        self.check_steps(
            (entries_line(100, two_texts(4186)), "taken 1"),
            (entries_line(100, two_texts(4187)), "refused frame BadBody"),
            ("sweep 0", kept(0, two_texts(4186)), "swept 1"),
        )


class BoundsOfLives(ScriptCase):
    """How long an observation holds."""

    def check(self, made, lives):
        steps = []
        for life, taken in lives:
            wanted = "taken 1" if taken else "refused frame BadLife"
            steps.append((entries_line(0, made(NAME, 0, life=life)), wanted))
        self.check_steps(*steps)

    def test_end_of_a_day(self):
        """what holds 86400 seconds answers for the last time at 86399"""
        asked = question(7, NAME)
        self.check_steps(
            (entries_line(0, entry(NAME, 0, 86400)), "taken 1"),
            (ask_line(86399, asked), answered(response(asked, [record(A, ADDRESS, 1, NAME)]))),
            (ask_line(86400, asked), "miss"),
        )

    def test_end_of_denials(self):
        """denials of 10800 seconds answer for the last time at 10799, and no data goes before no name"""
        body, asked, other = denial_body(NAME, soa()), question(7, NAME), question(7, NAME, AAAA)
        source = [record(SOA, soa(), 1, NAME)]
        self.check_steps(
            (entries_line(0, no_data(NAME, 0, 10800, body=body)), "taken 1"),
            (entries_line(0, no_name(NAME, 0, 10800, body=body)), "taken 1"),
            (ask_line(10799, asked), answered(response(asked, (), source))),
            (ask_line(10799, other), answered(response(other, (), source, ANSWERED | NAME_ERROR))),
            (ask_line(10800, asked), "miss"),
            (ask_line(10800, other), "miss"),
        )

    def test_end_of_a_flush(self):
        """a flush at 120 holds 86400 seconds, up to 86520, and withdraws what would last as long"""
        asked = question(7, NAME)
        self.check_steps(
            ("flush 0 120 03636f6d00", kept(0, flush("com", 120)), "taken 1"),
            (entries_line(120, entry(NAME, 120, 86400)), "taken 1"),
            (ask_line(120, asked), "miss"),
            ("tick 0 86519", "idle"),
            ("show 0", "floor 86519", "flush 3 120 86400 com. 0 -", "items 1"),
            (ask_line(86519, asked), "miss"),
            ("tick 0 86520", "idle"),
            ("show 0", "floor 86520", "items 0"),
        )


DENIED_LIVES = ((0, False), (1, True), (10800, True), (10801, False), (86400, False))

add_cases(
    BoundsOfLives,
    [
        (
            "an RRset holds 1 to 86400 seconds; 0 and 86401 are refused",
            entry,
            ((0, False), (1, True), (86400, True), (86401, False)),
        ),
        ("no data holds 1 to 10800 seconds; 0 and 10801 are refused", no_data, DENIED_LIVES),
        ("a name error holds 1 to 10800 seconds; 0 and 10801 are refused", no_name, DENIED_LIVES),
        (
            "a flush holds 86400 seconds; 0, 1, 86399 and 86401 are refused",
            flush,
            ((0, False), (1, False), (86399, False), (86400, True), (86401, False)),
        ),
    ],
)


def entry_of(kind, rank):
    """An entry of a kind, with a rank."""
    if kind == 4:
        return flush("net", 0, rank=rank)
    if kind == 1:
        return no_name("net", 100, rank=rank)
    if kind == 2:
        return no_data("net", 100, rank=rank)
    return any_entry(kind, rank, 100, 300, "net", A, body_of(ADDRESS))


class BoundsOfKinds(ScriptCase):
    """Versions, kinds and ranks."""

    def check(self, version, kind, ranks, otherwise="refused frame BadRank"):
        """A kind is taken with these ranks, and otherwise refused."""
        steps = []
        for rank in (0, 1, 2, 3, 4):
            wanted = "taken 1" if rank in ranks else otherwise
            steps.append((entries_line(100, entry_of(kind, rank), version=version), wanted))
        self.check_steps(*steps)

    def test_rank_is_kept(self):
        """an item of rank 2 is shown and swept with rank 2"""
        made = any_entry(3, 2, 100, 300, "net", A, body_of(ADDRESS))
        self.check_steps(
            (entries_line(100, made), "taken 1"),
            ("show 0", "floor 0", held("positive", 2, 100, 300, "net.", A, body_of(ADDRESS)), "items 1"),
            ("sweep 0", kept(0, made), "swept 1"),
        )

    def test_types_of_name_errors(self):
        """a name error has type 0; type 1 is refused"""
        self.check_steps(
            (entries_line(100, no_name("org", 100)), "taken 1"),
            (entries_line(100, no_name("org", 100, rtype=1)), "refused frame BadKind"),
        )


NO_VERSION, NO_KIND = "refused frame BadVersion", "refused frame BadKind"

add_cases(
    BoundsOfKinds,
    [
        (f"no version is {version}, which is refused with kind {kind}", version, kind, (), NO_VERSION)
        for version in (0, 3, 255)
        for kind in (0, 3, 4)
    ]
    + [
        (f"no kind of version {version} is {kind}, which is refused", version, kind, (), NO_KIND)
        for version, kind in ((1, 0), (1, 4), (1, 5), (1, 255), (2, 0), (2, 5), (2, 255))
    ]
    + [
        (f"kind 1 of version {version} has ranks 1 and 3; 0, 2 and 4 are refused", version, 1, (1, 3))
        for version in (1, 2)
    ]
    + [
        (f"kind 2 of version {version} has ranks 1 and 3; 0, 2 and 4 are refused", version, 2, (1, 3))
        for version in (1, 2)
    ]
    + [
        (f"kind 3 of version {version} has ranks 1 to 3; 0 and 4 are refused", version, 3, (1, 2, 3))
        for version in (1, 2)
    ]
    + [("kind 4 of version 2 has rank 3; 0, 1, 2 and 4 are refused", 2, 4, (3,))],
)


class BoundsOfShownNames(ScriptCase):
    """Octets of a name that are shown as they are, and those that are shown as numbers."""

    def check(self, octet, shows):
        made = entry(bytes([1, octet, 0]), 0)
        self.check_steps(
            (entries_line(0, made), "taken 1"),
            ("show 0", "floor 0", held("positive", 3, 0, 300, f"{shows}.", A, body_of(ADDRESS)), "items 1"),
        )


add_cases(
    BoundsOfShownNames,
    [
        (f"octet {octet} of a name is shown as {shows}", octet, shows)
        for octet, shows in (
            (0, "\\000"),
            (31, "\\031"),
            (32, "\\032"),
            (33, "!"),
            (45, "-"),
            (46, "\\."),
            (47, "/"),
            (91, "["),
            (92, "\\\\"),
            (93, "]"),
            (126, "~"),
            (127, "\\127"),
            (128, "\\128"),
            (255, "\\255"),
        )
    ],
)


class BoundsOfDataWithNames(ScriptCase):
    """How many octets stand before and behind the names of data."""

    def check(self, rtype, right, *wrong):
        """Data of a type are taken, and others refused."""
        rows = [(right, "taken 1"), *((data, "refused frame BadBody") for data in wrong)]
        entries = [(entry(NAME, 100, rtype=rtype, rdata=data), wanted) for data, wanted in rows]
        self.check_steps(*[(entries_line(100, made), wanted) for made, wanted in entries])


MAIL = name_of("mail")

add_cases(
    BoundsOfDataWithNames,
    [
        ("NS (2) has a name; 1 octet behind it is refused", NS, MAIL, MAIL + b"\x01"),
        ("CNAME (5) has a name; 1 octet behind it is refused", CNAME, MAIL, MAIL + b"\x01"),
        (
            "SOA (6) has 20 octets behind two names; 19 and 21 are refused",
            SOA,
            MAIL * 2 + b"\x01" * 20,
            MAIL * 2 + b"\x01" * 19,
            MAIL * 2 + b"\x01" * 21,
        ),
        ("MINFO (14) has two names; 1 octet behind them is refused", 14, MAIL * 2, MAIL * 2 + b"\x01"),
        (
            "MX (15) has 2 octets before a name; 1 and 3 are refused",
            15,
            b"\x01" * 2 + MAIL,
            b"\x01" * 1 + MAIL,
            b"\x01" * 3 + MAIL,
        ),
        (
            "SRV (33) has 6 octets before a name; 5 and 7 are refused",
            33,
            b"\x01" * 6 + MAIL,
            b"\x01" * 5 + MAIL,
            b"\x01" * 7 + MAIL,
        ),
    ],
)
