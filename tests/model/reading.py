"""Messages, read (RFC 1035 4). Each reader reports the first fault that it meets."""

from dataclasses import dataclass

from .limits import LABEL_LIMIT, MESSAGE_LIMIT, NAME_LIMIT, SHAPES
from .names import lower_name, name_octets
from .reached import note


class ReadFault(Exception):
    """Why a message can't be read."""


@dataclass(frozen=True)
class Header:
    """The header's fields that are read (RFC 1035 4.1.1)."""
    identifier: int
    response: bool
    opcode: int
    authoritative: bool
    cut_off: bool
    recursion_desired: bool
    code: int
    counts: tuple


@dataclass(frozen=True)
class Question:
    """A question (RFC 1035 4.1.2): its name as it was spelled and in lower case, its type and class."""
    spelled: tuple
    name: tuple
    rtype: int
    rclass: int


@dataclass(frozen=True)
class Record:
    """A record (RFC 1035 4.1.3): the TTL as it was read, the names of its RDATA in full and in lower case."""
    name: tuple
    rtype: int
    rclass: int
    ttl: int
    rdata: bytes


@dataclass(frozen=True)
class Message:
    """A reply as it was read. The additional section is never read."""
    header: Header
    question: Question
    answer: tuple
    authority: tuple


def number(octets, place, length):
    """A number of so many octets, the most significant first."""
    return int.from_bytes(octets[place:place + length], "big")


def read_header(message):
    """The header, or None of fewer than 12 octets. RA and the Z bits are not read."""
    if len(message) < 12:
        return None
    return Header(identifier=number(message, 0, 2), response=bool(message[2] & 0x80), opcode=message[2] >> 3 & 0x0F,
                  authoritative=bool(message[2] & 0x04), cut_off=bool(message[2] & 0x02),
                  recursion_desired=bool(message[2] & 0x01), code=message[3] & 0x0F,
                  counts=tuple(number(message, 4 + 2 * index, 2) for index in range(4)))


def read_name(message, place):
    """The name at a place in its own spelling, and where it ends (RFC 1035 4.1.4).

    A pointer leads to a place before the beginning of the run of labels that holds it, and begins another run. The
    name ends behind its first pointer."""
    run, end, labels, length = place, None, [], 0
    while True:
        if place >= len(message):
            raise ReadFault("Truncated")
        octet = message[place]
        if octet >= 0xC0:
            target = pointer_target(message, place, run)
            end = place + 2 if end is None else end
            place = run = target
        elif octet > LABEL_LIMIT:
            raise ReadFault("BadLabel")
        elif octet == 0:
            return tuple(labels), place + 1 if end is None else end
        else:
            length += 1 + octet
            if length + 1 > NAME_LIMIT:
                raise ReadFault("LongName")
            if place + 1 + octet > len(message):
                raise ReadFault("Truncated")
            labels.append(bytes(message[place + 1:place + 1 + octet]))
            place += 1 + octet


def pointer_target(message, place, run):
    """Where the pointer at a place leads: before the beginning of its run."""
    if place + 1 >= len(message):
        raise ReadFault("Truncated")
    target = number(message, place, 2) & 0x3FFF
    if target >= run:
        raise ReadFault("BadPointer")
    note("read: a pointer is followed")
    return target


def read_question(message):
    """The header, the one question, and where it ends."""
    if len(message) < 12:
        raise ReadFault("TooShort")
    if len(message) > MESSAGE_LIMIT:
        raise ReadFault("TooLong")
    header = read_header(message)
    if header.counts[0] != 1:
        raise ReadFault("QuestionCount")
    spelled, place = read_name(message, 12)
    if place + 4 > len(message):
        raise ReadFault("Truncated")
    question = Question(spelled, lower_name(spelled), number(message, place, 2), number(message, place + 2, 2))
    return header, question, place + 4


def read_query(message):
    """A query: header and question. What follows is not read."""
    header, question, _ = read_question(message)
    return header, question


def read_rdata(message, start, length, rtype):
    """RDATA with its names in full and in lower case. Its parts are read in the whole message, and the last one ends
    just where the RDATA does. RDATA of other types is not looked into (RFC 3597 3)."""
    if rtype not in SHAPES:
        return bytes(message[start:start + length])
    place, rdata = start, b""
    for part in SHAPES[rtype]:
        if part == "name":
            labels, place = read_name(message, place)
            rdata += name_octets(lower_name(labels))
        elif place + part > len(message):
            raise ReadFault("Truncated")
        else:
            rdata += bytes(message[place:place + part])
            place += part
    if place != start + length:
        raise ReadFault("BadRdata")
    return rdata


def read_record(message, place):
    """The record at a place, and where it ends."""
    spelled, place = read_name(message, place)
    start = place + 10
    if start > len(message):
        raise ReadFault("Truncated")
    rtype, length = number(message, place, 2), number(message, place + 8, 2)
    if start + length > len(message):
        raise ReadFault("Truncated")
    rdata = read_rdata(message, start, length, rtype)
    record = Record(lower_name(spelled), rtype, number(message, place + 2, 2), number(message, place + 4, 4), rdata)
    return record, start + length


def read_reply(message):
    """A reply: header, question, answer and authority. Of a reply that is cut off both sections count as empty."""
    header, question, place = read_question(message)
    sections = [], []
    if not header.cut_off:
        for section, count in zip(sections, header.counts[1:3]):
            for _ in range(count):
                record, place = read_record(message, place)
                section.append(record)
    return Message(header, question, tuple(sections[0]), tuple(sections[1]))


def plain_name_end(octets, place):
    """Where a name in full and in lower case ends that stands at a place, or None."""
    start = place
    while place < len(octets) and octets[place] <= LABEL_LIMIT:
        length = octets[place]
        if length == 0:
            return place + 1
        label = octets[place + 1:place + 1 + length]
        if len(label) < length or place + 1 + length + 1 - start > NAME_LIMIT:
            return None
        if any(65 <= octet <= 90 for octet in label):
            return None
        place += 1 + length
    return None


def is_plain_rdata(rtype, rdata):
    """Whether RDATA has the shape of its type, with names in full and in lower case."""
    if rtype not in SHAPES:
        return True
    place = 0
    for part in SHAPES[rtype]:
        place = plain_name_end(rdata, place) if part == "name" else place + part
        if place is None or place > len(rdata):
            return False
    return place == len(rdata)
