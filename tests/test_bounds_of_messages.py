"""Bounds of messages: how long they and their names are, types, classes, Opcodes and codes, where a
name ends, and ranks of what a reply says."""

from support.checks import add_cases
from support.messages import A, AAAA, ADDRESS, ANSWERED, AUTHORITATIVE, CNAME, FORMAT_ERROR, NAME_ERROR
from support.messages import NOT_IMPLEMENTED, NS, RECURSION_DESIRED, SOA, TRUNCATED, TXT, body_of
from support.messages import denial_body, entry, flush, header, name_of, no_data, question, record, reply_to
from support.messages import response, soa
from support.transcripts import ScriptCase, answered, ask_line, datagram_line, entries_line, held, kept
from support.transcripts import learn_line, sent

NAME = "example.com"
QUESTION = question(7, NAME)

# The reply to octets in which no question is read.
UNREAD = header(7, ANSWERED | FORMAT_ERROR, questions=0)

# A name of 63 octets in a label, and octets like those of a label of 64.
LABEL_63 = "a" * 63
LABEL_64 = "a" * 64

# Names of 255 octets in full, with 63 octets a label or one; and such names of 256 and of 257.
NAME_255 = ".".join(["a" * 63, "a" * 63, "a" * 63, "a" * 61])
NAME_256 = ".".join(["a" * 63, "a" * 63, "a" * 63, "a" * 62])
SHORT_LABELS_255 = ".".join(["b"] * 127)
SHORT_LABELS_257 = ".".join(["b"] * 128)


def asked_line(now, name, rtype=A, rclass=1):
    """The line with a client's question, whose query is to have the identifier 4660."""
    return datagram_line(now, 6001, question(7, name, rtype, rclass=rclass), 4660)


def query_sent(name, rtype=A):
    """What a line prints that sends the query of the identifier 4660."""
    return sent(5301, question(4660, name, rtype))


class BoundsOfNames(ScriptCase):
    """How long a label is, and a name."""

    def test_lengths(self):
        """the names of these cases have 255, 256, 255 and 257 octets"""
        names = (NAME_255, NAME_256, SHORT_LABELS_255, SHORT_LABELS_257)
        self.check_equal([len(name_of(name)) for name in names], [255, 256, 255, 257])

    def test_labels(self):
        """a label of 63 octets is taken in a question, a flush and a frame; one of 64 is none"""
        self.check_steps(
            (asked_line(100, LABEL_63), query_sent(LABEL_63), "taken 0"),
            (asked_line(100, LABEL_64), sent(6001, UNREAD), "refused read BadLabel"),
            (f"flush 0 100 {name_of(LABEL_63).hex()}", kept(0, flush(LABEL_63, 100)), "taken 1"),
            (entries_line(100, entry(LABEL_63, 101)), "taken 1"),
            (entries_line(100, entry(LABEL_64, 101)), "refused frame BadName"),
            (f"flush 0 100 {name_of(LABEL_64).hex()}",),
            report="bad name",
        )

    def test_names_of_questions(self):
        """a question's name may have 127 labels of one octet, which are 255 octets; 128 are refused"""
        self.check_steps(
            (asked_line(100, SHORT_LABELS_255), query_sent(SHORT_LABELS_255), "taken 0"),
            (asked_line(100, SHORT_LABELS_257), sent(6001, UNREAD), "refused read LongName"),
        )

    def test_names_of_frames(self):
        """an entry's name has 255 octets at most; 256 and 257 are refused"""
        self.check_steps(
            (entries_line(100, entry(NAME_255, 100)), "taken 1"),
            (entries_line(100, entry(NAME_256, 100)), "refused frame BadName"),
            (entries_line(100, entry(SHORT_LABELS_255, 100)), "taken 1"),
            (entries_line(100, entry(SHORT_LABELS_257, 100)), "refused frame BadName"),
        )

    def test_names_of_bodies(self):
        """an alias and the owner of an SOA have 255 octets at most in a frame; 256 are refused"""
        owner, longer = denial_body(NAME_255, soa()), denial_body(NAME_256, soa())
        target, longer_target = name_of(NAME_255), name_of(NAME_256)
        self.check_steps(
            (entries_line(100, entry(NAME, 100, rtype=CNAME, rdata=target)), "taken 1"),
            (entries_line(100, entry(NAME, 100, rtype=CNAME, rdata=longer_target)), "refused frame BadBody"),
            (entries_line(100, no_data(NAME_255, 100, body=owner)), "taken 1"),
            (entries_line(100, no_data(NAME_255, 100, body=longer)), "refused frame BadBody"),
        )

    def test_names_of_replies(self):
        """a name server's name has 255 octets at most in a reply; 256 are refused"""
        asked = question(1, "", NS)
        self.check_steps(
            (learn_line(100, reply_to(asked, record(NS, name_of(NAME_255)))), "taken 1"),
            (learn_line(100, reply_to(asked, record(NS, name_of(NAME_256)))), "refused read LongName"),
        )

    def test_names_of_flushes(self):
        """a flush of 257 octets, in labels of one octet, is refused"""
        self.check_steps((f"flush 0 0 {name_of(SHORT_LABELS_257).hex()}",), report="bad name")


def filled(message, length):
    """A message with zero octets behind it, of this length."""
    return message.ljust(length, b"\0")


class BoundsOfMessages(ScriptCase):
    """A message has 12 to 512 octets."""

    def test_replies(self):
        """a reply of 512 octets is learnt, one of 513 is refused"""
        reply = reply_to(question(1, NAME))
        self.check_steps(
            (learn_line(100, filled(reply, 513)), "refused read TooLong"),
            (learn_line(100, filled(reply, 512)), "taken 1"),
        )

    def test_questions(self):
        """a question of 512 octets is answered, 513 and 12 are not read, and 11 are dropped"""
        answer = response(QUESTION, [record(A, ADDRESS, 290, NAME)])
        self.check_steps(
            (entries_line(100, entry(NAME, 100)), "taken 1"),
            (ask_line(110, filled(QUESTION, 512)), answered(answer)),
            (ask_line(110, filled(QUESTION, 513)), answered(UNREAD)),
            (ask_line(110, QUESTION[:12]), answered(UNREAD)),
            (ask_line(110, QUESTION[:11]), "dropped"),
            (datagram_line(110, 6001, filled(QUESTION, 512)), sent(6001, answer), "taken 0"),
            (datagram_line(110, 6001, filled(QUESTION, 513)), sent(6001, UNREAD), "refused read TooLong"),
            (datagram_line(110, 6001, QUESTION[:12]), sent(6001, UNREAD), "refused read Truncated"),
            (datagram_line(110, 6001, QUESTION[:11]), "refused dropped"),
        )

    def test_replies_of_upstreams(self):
        """an upstream's reply of 512 octets is relayed, and 513 and 11 leave the question open"""
        reply = reply_to(question(4660, NAME))
        relayed = response(QUESTION, [record(A, ADDRESS, owner=NAME)])
        self.check_steps(
            (asked_line(110, NAME), query_sent(NAME), "taken 0"),
            (datagram_line(110, 5301, filled(reply, 513)), "refused read TooLong"),
            (datagram_line(110, 5301, reply[:11]), "refused dropped"),
            (
                datagram_line(110, 5301, filled(reply, 512)),
                sent(6001, relayed),
                kept(0, entry(NAME, 110, rank=1)),
                "taken 1",
            ),
        )

    def test_whole_answers(self):
        """a client gets an answer of 512 octets whole, and one of 513 is cut off"""
        steps = []
        for length, name, is_whole in ((460, "example.com", True), (461, "example.org", False)):
            data, asked = b"a" * length, question(7, name, TXT)
            whole = response(asked, [record(TXT, data, 290, name)])
            cut = response(asked, flags=ANSWERED | TRUNCATED)
            self.check_equal(len(whole), 512 if is_whole else 513)
            steps.append((entries_line(100, entry(name, 100, rtype=TXT, rdata=data)), "taken 1"))
            steps.append((datagram_line(110, 6001, asked), sent(6001, whole if is_whole else cut), "taken 0"))
        self.check_steps(*steps)

    def test_whole_denials(self):
        """a denial of 512 octets is whole, and one of 513 is cut off"""
        steps = []
        for length, is_whole in ((61, True), (62, False)):
            mailbox = ".".join(["r" * 63, "r" * 63, "r" * length])
            name = f"name-with-long-{length}"
            data, asked = soa(300, name_of(NAME_255) + name_of(mailbox)), question(7, name, TXT)
            whole = response(asked, (), [record(SOA, data, 290, "")])
            cut = response(asked, flags=ANSWERED | TRUNCATED)
            self.check_equal(len(whole), 512 if is_whole else 513)
            denied = no_data(name, 100, rtype=TXT, body=denial_body("", data))
            steps.append((entries_line(100, denied), "taken 1"))
            steps.append((ask_line(110, asked), answered(whole if is_whole else cut)))
        self.check_steps(*steps)


class BoundsOfTypes(ScriptCase):
    """The types that data can have: in a question, a reply and a frame."""

    def check(self, rtype, is_of_data):
        asked = question(7, NAME, rtype)
        refused = response(asked, flags=ANSWERED | NOT_IMPLEMENTED)
        learnt = reply_to(question(1, "example.org", rtype), record(rtype, ADDRESS))
        packet = query_sent(NAME, rtype) if is_of_data else sent(6001, refused)
        framed = "taken 1" if is_of_data else "refused frame BadKind"
        self.check_steps(
            (asked_line(100, NAME, rtype), packet, "taken 0"),
            (learn_line(100, learnt), "taken 1" if is_of_data else "refused digest NotReply"),
            (entries_line(100, entry("net", 100, rtype=rtype)), framed),
            (entries_line(100, no_data("net", 100, rtype=rtype)), framed),
        )


add_cases(
    BoundsOfTypes,
    [(f"data can have type {rtype}", rtype, True) for rtype in (1, 40, 42, 127, 256, 65535)]
    + [(f"no data have type {rtype}", rtype, False) for rtype in (0, 41, 128, 129, 254, 255)],
)


class BoundsOfClasses(ScriptCase):
    """Class 1 alone is served."""

    def check(self, rclass):
        asked = question(7, NAME, rclass=rclass)
        refused = response(asked, flags=ANSWERED | NOT_IMPLEMENTED)
        other_record = record(A, ADDRESS, rclass=rclass)
        self.check_steps(
            (datagram_line(100, 6001, asked), sent(6001, refused), "taken 0"),
            (learn_line(100, reply_to(asked, record(A, ADDRESS))), "refused digest NotReply"),
            (learn_line(100, reply_to(QUESTION, other_record)), "taken 0"),
        )

    def test_class_1(self):
        """class 1 is asked and learnt"""
        self.check_steps(
            (asked_line(100, NAME), query_sent(NAME), "taken 0"),
            (learn_line(100, reply_to(QUESTION)), "taken 1"),
        )


add_cases(BoundsOfClasses, [(f"class {rclass} is not served", rclass) for rclass in (0, 2, 3, 254, 255, 65535)])


class BoundsOfOpcodes(ScriptCase):
    """Opcode 0 alone is served."""

    def check(self, opcode):
        bits = opcode << 11
        asked = question(7, NAME, flags=RECURSION_DESIRED | bits)
        refused = header(7, ANSWERED | NOT_IMPLEMENTED | bits, questions=0)
        learnt = response(QUESTION, [record(A, ADDRESS)], flags=ANSWERED | bits)
        self.check_steps(
            (datagram_line(100, 6001, asked), sent(6001, refused), "taken 0"),
            (ask_line(100, asked), answered(refused)),
            (learn_line(100, learnt), "refused digest NotReply"),
        )


add_cases(BoundsOfOpcodes, [(f"Opcode {opcode} is not served", opcode) for opcode in range(1, 16)])


class BoundsOfCodes(ScriptCase):
    """What is learnt of a reply with a code, and what of it is relayed."""

    def check(self, code, is_learnt):
        """Codes 0 and 3 are learnt. Where there is an answer, both are relayed as 0."""
        reply = response(question(4660, NAME), [record(A, ADDRESS)], flags=ANSWERED | code)
        whole = response(QUESTION, [record(A, ADDRESS, owner=NAME)])
        bare = response(QUESTION, flags=ANSWERED | code)
        printed = [sent(6001, whole), kept(0, entry(NAME, 100, rank=1)), "taken 1"]
        self.check_steps(
            (asked_line(100, NAME), query_sent(NAME), "taken 0"),
            (datagram_line(100, 5301, reply), *(printed if is_learnt else [sent(6001, bare), "taken 0"])),
        )


add_cases(
    BoundsOfCodes,
    [(f"a reply of code {code} is learnt", code, True) for code in (0, 3)]
    + [(f"a reply of code {code} is relayed alone", code, False) for code in (1, 2, *range(4, 16))],
)


class RanksOfReplies(ScriptCase):
    """The rank of what a reply says."""

    def check(self, reply, *shown):
        count = len(shown)
        self.check_steps(
            (learn_line(100, reply), f"taken {count}"),
            ("show 0", "floor 0", *shown, f"items {count}"),
        )


# The flags of a reply of an authority.
AUTHORITY = ANSWERED | AUTHORITATIVE
SOURCE = [record(SOA, soa(), owner="")]
ALIAS = [record(CNAME, name_of("v")), record(A, ADDRESS, owner="v")]

add_cases(
    RanksOfReplies,
    [
        (
            "an authority's own data have rank 3, and its name servers rank 2",
            response(QUESTION, [record(A, ADDRESS)], [record(NS, b"\x02ns\xc0\x0c", 600)], AUTHORITY),
            held("positive", 3, 100, 300, "example.com.", A, body_of(ADDRESS)),
            held("positive", 2, 100, 600, "example.com.", NS, body_of(name_of("ns.example.com"))),
        ),
        (
            "an authority's alias has rank 3, and what is behind it rank 1",
            response(question(1, "w"), ALIAS, flags=AUTHORITY),
            held("positive", 1, 100, 300, "v.", A, body_of(ADDRESS)),
            held("positive", 3, 100, 300, "w.", CNAME, body_of(name_of("v"))),
        ),
        (
            "a name error of no authority has rank 1",
            response(question(1, "x"), (), SOURCE, ANSWERED | NAME_ERROR),
            held("nxdomain", 1, 100, 300, "x.", 0, denial_body("", soa())),
        ),
        (
            "a name error of an authority has rank 3",
            response(question(1, "y"), (), SOURCE, AUTHORITY | NAME_ERROR),
            held("nxdomain", 3, 100, 300, "y.", 0, denial_body("", soa())),
        ),
    ],
)


class EndsOfNames(ScriptCase):
    """A name ends behind its first pointer, also where the labels that this one leads to run on,
    over it, up to another pointer further behind."""

    def test_data(self):
        """data that are a pointer at 31 end at 33, though a pointer at 33 ends their name"""
        reply = reply_to(question(1, "a"), record(CNAME, b"\xc0\x10")) + b"\xc0\x0e"
        target = b"\x01" + reply[17:18] + b"\x01" + reply[19:20] + b"\x0c" + reply[21:33] + b"\0"
        self.check_steps(
            (learn_line(100, reply), "taken 1"),
            ("show 0", "floor 0", held("positive", 1, 100, 300, "a.", CNAME, body_of(target)), "items 1"),
        )

    def test_relayed_data(self):
        """so it is of data that are relayed"""
        reply = reply_to(question(4660, "a", AAAA), record(CNAME, b"\xc0\x12")) + b"\xc0\x0e"
        target = b"\x01" + reply[19:20] + b"\x0c" + reply[21:33] + b"\0"
        relayed = reply_to(question(7, "a", AAAA), record(CNAME, target, owner="a"))
        kept_entry = entry("a", 101, rank=1, rtype=CNAME, rdata=target)
        self.check_steps(
            (asked_line(101, "a", AAAA), query_sent("a", AAAA), "taken 0"),
            (datagram_line(101, 5301, reply), sent(6001, relayed), kept(0, kept_entry), "taken 1"),
        )

    def test_owner(self):
        """an owner that is a pointer at 17 ends at 19, though a pointer at 33 ends its name"""
        asked = question(1, "")
        text = record(TXT, b"abcd\xc0\x0c", owner=b"\xc0\x0e")
        self.check_steps(
            (learn_line(101, reply_to(asked, text, record(A, ADDRESS, owner=""))), "taken 1"),
            (ask_line(101, asked), answered(reply_to(asked, record(A, ADDRESS, owner="")))),
        )

    def test_question(self):
        """a question that is a pointer at 12 ends at 14, though a pointer at 18 ends its name"""
        asked = bytes.fromhex("0007 0100 0001 0000 0000 0006 c00b 0001 0001 c004")
        name = bytes.fromhex("06 c00b 0001 0001 00")
        self.check_steps(
            (datagram_line(101, 6001, asked, 4660), query_sent(name), "taken 0"),
            (entries_line(101, entry(name, 101)), "taken 1"),
            (ask_line(101, asked), answered(reply_to(question(7, name), record(A, ADDRESS, owner=name)))),
        )
