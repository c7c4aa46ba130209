"""Messages (RFC 1035 4) and frames (docs/FORMATS.md): those of the cases, by their names, and
others as they are made."""

import struct

from support.checks import lines_of

ADDRESS = bytes([192, 0, 2, 1])

# Types (RFC 1035 3.2.2) and the class IN.
A, NS, CNAME, SOA, TXT, AAAA, IN = 1, 2, 5, 6, 16, 28, 1

# Bits of the flags (RFC 1035 4.1.1), and codes (RCODE).
RESPONSE, TRUNCATED, RECURSION_DESIRED, RECURSION_AVAILABLE = 0x8000, 0x0200, 0x0100, 0x0080
AUTHORITATIVE = 0x0400
NO_ERROR, FORMAT_ERROR, SERVER_FAILURE, NAME_ERROR, NOT_IMPLEMENTED, REFUSED = 0, 1, 2, 3, 4, 5

# The flags of a reply without a fault.
ANSWERED = RESPONSE | RECURSION_DESIRED | RECURSION_AVAILABLE

HEADER_LENGTH = 12

# A name that is a pointer to the question's.
POINTER = b"\xc0\x0c"

# What each octet of a message is replaced by: a zero, the longest label, what is no label, a
# pointer, and the greatest octet.
OTHERS = (0x00, 0x3F, 0x40, 0xC0, 0xFF)


def _repeated(text):
    """A text with each `{61*460}` in it, 460 times `61`, written out."""
    pieces = text.split("{")
    for place, piece in enumerate(pieces[1:], 1):
        repeated, _, rest = piece.partition("}")
        digits, _, count = repeated.partition("*")
        pieces[place] = digits * int(count) + rest
    return "".join(pieces)


def _read_example_messages():
    """The messages of the examples, in hexadecimal digits. A line has a name and its digits, and
    one that begins with # says what they are."""
    rows = [line.split(" ") for line in lines_of("example_messages.txt") if not line.startswith("#")]
    return {name: _repeated(digits) for name, digits in rows}


EXAMPLE_MESSAGES = _read_example_messages()


def spelled(line):
    """A line of an example with digits in place of each `<name>` of a message, and with
    repetitions written out."""
    first, *others = line.split("<")
    pieces = [_repeated(first)]
    for piece in others:
        name, _, rest = piece.partition(">")
        pieces += [EXAMPLE_MESSAGES[name], _repeated(rest)]
    return "".join(pieces)


def example(name):
    """The octets of a message of the examples."""
    return bytes.fromhex(EXAMPLE_MESSAGES[name])


def _read_event_messages():
    """The messages and frames of events. A line has a name and parts, and one that begins with #
    says what they are."""
    rows = [line.partition(":") for line in lines_of("event_messages.txt") if not line.startswith("#")]
    return {name: parts for name, _, parts in rows}


_EVENT_MESSAGES = _read_event_messages()
_NAMES = {"example.com": "076578616d706c6503636f6d00", "example.org": "076578616d706c65036f726700"}


def event_parts(words):
    """The parts of the octets of a name, or the parts themselves."""
    return _EVENT_MESSAGES.get(words, words).strip()


def event_octets(words):
    """The octets of a name, or of parts: each has hexadecimal digits, or a domain's name, and
    `*` with a count."""
    digits = ""
    for part in event_parts(words).split():
        part, _, count = _NAMES.get(part, part).partition("*")
        digits += part * int(count or 1)
    return bytes.fromhex(digits)


def name_of(name):
    """A domain name in full (RFC 1035 3.1), of labels with dots between them. Octets stay as they
    are."""
    if isinstance(name, bytes):
        return name
    labels = [label.encode() for label in name.split(".") if label]
    return b"".join(bytes([len(label)]) + label for label in labels) + b"\0"


def header(identifier, flags, answers=0, authorities=0, questions=1):
    """The header of a message (RFC 1035 4.1.1), with one question unless another number is said."""
    return struct.pack("!6H", identifier, flags, questions, answers, authorities, 0)


def question(identifier, name, rtype=A, flags=RECURSION_DESIRED, rclass=IN):
    """A message with one question (RFC 1035 4.1.2)."""
    return header(identifier, flags) + name_of(name) + struct.pack("!2H", rtype, rclass)


def flags_of(message):
    """The flags of a message."""
    return struct.unpack("!H", message[2:4])[0]


def code_of(message):
    """The code (RCODE) of a message."""
    return flags_of(message) & 0x000F


def record(rtype, rdata, ttl=300, owner=POINTER, rclass=IN):
    """A record (RFC 1035 4.1.3). Its name is a pointer to the question's unless another is said."""
    return name_of(owner) + struct.pack("!2HIH", rtype, rclass, ttl, len(rdata)) + rdata


def soa(minimum=300, names=b"\0\0"):
    """The data of an SOA record (RFC 1035 3.3.13) with this MINIMUM."""
    return names + struct.pack("!5I", 1, 3600, 600, 86400, minimum)


def response(query, answers=(), authorities=(), flags=ANSWERED):
    """A reply to a query of one question, with these records."""
    identifier = struct.unpack("!H", query[:2])[0]
    begin = header(identifier, flags, len(answers), len(authorities))
    return begin + query[HEADER_LENGTH:] + b"".join([*answers, *authorities])


def reply_to(query, *records):
    """The reply to a query of one question, with these records as its answer: one address where
    there are none."""
    return response(query, records or (record(A, ADDRESS),))


def body_of(*parts):
    """The body of an RRset: the data of each record."""
    return struct.pack("!H", len(parts)) + b"".join(struct.pack("!H", len(part)) + part for part in parts)


def any_entry(kind, rank, stamp, life, name, rtype, body=b""):
    """An entry of a frame, of any kind."""
    return struct.pack("!2BQI", kind, rank, stamp, life) + name_of(name) + struct.pack("!H", rtype) + body


def entry(name, stamp, life=300, rank=3, rtype=A, rdata=ADDRESS):
    """An entry of a frame: an RRset of one record."""
    return any_entry(3, rank, stamp, life, name, rtype, body_of(rdata))


def denial_body(owner, rdata):
    """The body of a denial: the name and the data of an SOA record."""
    return name_of(owner) + struct.pack("!H", len(rdata)) + rdata


def no_data(name, stamp, life=300, rank=1, rtype=A, body=denial_body("", soa())):
    """An entry of a frame: a name has no data of a type."""
    return any_entry(2, rank, stamp, life, name, rtype, body)


def no_name(name, stamp, life=300, rank=1, rtype=0, body=denial_body("", soa())):
    """An entry of a frame: a name error."""
    return any_entry(1, rank, stamp, life, name, rtype, body)


def flush(name, stamp, life=86400, rank=3, rtype=0):
    """An entry of a frame: a flush."""
    return any_entry(4, rank, stamp, life, name, rtype)


FRAME_HEADER_LENGTH = 5


def frame(entries, version=2):
    """A frame of entries."""
    return b"DG" + struct.pack("!BH", version, len(entries)) + b"".join(entries)
