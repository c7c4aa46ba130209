"""Names of this trial, and what is said of each: by which moment it was made, and that it is of this very name."""

import hashlib
import struct
from types import SimpleNamespace

A, CNAME, SOA, AAAA = 1, 5, 6, 28
ZONE = b"\x07example\x03com\0"
# What the zone has of a name, by its first letter: an address, also for a day; an alias of a name that has one; nothing
# at all; nothing of the type.
ADDRESS, KNOWN, ALIAS, NO_NAME, NO_DATA = b"n", b"k", b"c", b"x", b"d"
DAY = 86400
PREFIX = b"\x20\x01\x0d\xb8"


class Wrong(Exception):
    """Why a reply is wrong."""


def name_of(kind, number, life):
    """A name such as n17.t30.example.com, whose records live for 30 seconds."""
    labels = [kind + b"%d" % number, b"t%d" % life]
    return b"".join(bytes([len(it)]) + it for it in labels) + ZONE


def question(number, name, kind=AAAA, flags=0x0100):
    return struct.pack("!6H", number, flags, 1, 0, 0, 0) + name + struct.pack("!2H", kind, 1)


def labels_of(name):
    labels, at = [], 0
    while name[at]:
        labels.append(name[at + 1 : at + 1 + name[at]])
        at += 1 + name[at]
    return labels


def life_of(name):
    """The seconds that a name says; its zone comes last."""
    return int(labels_of(name)[-3][1:])


def mark(name, made):
    """Six octets that only a record of this name and moment has."""
    return hashlib.blake2b(name + struct.pack("!Q", made), digest_size=6).digest()


def address(name, made):
    """An address that says when it was made, in milliseconds, and of which name it is."""
    return PREFIX + struct.pack("!Q", made)[2:] + mark(name, made)


def target(name, made):
    """The name behind an alias: it says when the alias was made."""
    label = b"%d-" % made + mark(name, made).hex().encode()
    return bytes([len(label)]) + label + name


def denial(name, life, made):
    """The SOA of a denial, whose first name says when it was made."""
    label = b"%d-" % made + mark(name, made).hex().encode()
    return bytes([len(label)]) + label + ZONE + b"\0" + struct.pack("!5I", 1, 3600, 600, DAY, life)


def record(owner, kind, life, data):
    return owner + struct.pack("!2HIH", kind, 1, life, len(data)) + data


def reply_to(query, made):
    """What the zone's server says at a moment in milliseconds."""
    end = query.index(b"\0", 12) + 5
    name, kind = query[12 : end - 4].lower(), int.from_bytes(query[end - 4 : end - 2], "big")
    answers, authority, code = [], [], 0
    if not name.endswith(ZONE) or len(labels_of(name)) < 4:
        code = 5
    else:
        first, life = labels_of(name)[-4][:1], life_of(name)
        if first == ALIAS and len(labels_of(name)) == 4:
            behind = target(name, made)
            answers = [record(name, CNAME, life, behind), record(behind, AAAA, life, address(behind, made))]
        elif first in (ADDRESS, KNOWN, ALIAS) and kind == AAAA:
            answers = [record(name, AAAA, life, address(name, made))]
        else:
            code = 3 if first == NO_NAME else 0
            authority = [record(ZONE, SOA, life, denial(name, life, made))]
    head = query[:2] + struct.pack("!5H", 0x8580 | code, 1, len(answers), len(authority), 0)
    return head + query[12:end] + b"".join(answers + authority)


def read_name(octets, at):
    """A name, of which parts may stand elsewhere in a message, and where what is behind it begins."""
    name, end = b"", None
    while octets[at]:
        if octets[at] >= 0xC0:
            end = end or at + 2
            at = int.from_bytes(octets[at : at + 2], "big") & 0x3FFF
        else:
            name += octets[at : at + 1 + octets[at]]
            at += 1 + octets[at]
    return name.lower() + b"\0", end or at + 1


def read_records(octets, at, count):
    found = []
    for _ in range(count):
        owner, at = read_name(octets, at)
        kind, of, life, length = struct.unpack_from("!2HIH", octets, at)
        data = octets[at + 10 : at + 10 + length]
        if kind in (CNAME, SOA):
            data, after = read_name(octets, at + 10)
            if kind == SOA:
                data += octets[read_name(octets, after)[1] :][:20]
        found.append(SimpleNamespace(owner=owner, kind=kind, of=of, life=life, data=data))
        at += 10 + length
    return found, at


def made_in(label, name):
    """The moment that a label says, such as that of a name behind an alias."""
    made = int(label.partition(b"-")[0])
    if label != b"%d-" % made + mark(name, made).hex().encode():
        raise Wrong("another name's mark")
    return made


def made_of(one, owner):
    """The moment at which a record was made, if it is of its owner."""
    if one.owner != owner or one.of != 1:
        raise Wrong("a record of another name or class")
    if one.kind == AAAA:
        made = int.from_bytes(one.data[4:10], "big")
        if one.data != address(owner, made):
            raise Wrong("another address")
        return made
    if one.kind != CNAME or not one.data.endswith(owner):
        raise Wrong("a record of another type")
    return made_in(one.data[1 : 1 + one.data[0]], owner)


def read_reply(octets, asked):
    """The code of a reply, and of each record its moment in seconds, and the seconds that it shows as left. It raises Wrong
    if something is not what the zone's server said at some moment."""
    code, name = octets[3] & 15, asked[12:-4]
    if octets[12 : len(asked)].lower() != asked[12:] or octets[2] & 0x82 != 0x80:
        raise Wrong("another question, or cut off")
    if code not in (0, 3):
        return code, []
    answers, at = read_records(octets, len(asked), int.from_bytes(octets[6:8], "big"))
    authority, _ = read_records(octets, at, int.from_bytes(octets[8:10], "big"))
    first = labels_of(name)[0][:1]
    if (code == 3) != (first == NO_NAME):
        raise Wrong(f"code {code}")
    if first in (NO_NAME, NO_DATA):
        if answers or len(authority) != 1 or authority[0].kind != SOA or authority[0].owner != ZONE:
            raise Wrong("no denial")
        data = authority[0].data
        if data[1 + data[0] :][: len(ZONE)] != ZONE or data[-4:] != struct.pack("!I", life_of(name)):
            raise Wrong("another SOA")
        return code, [(made_in(data[1 : 1 + data[0]], name) / 1000, authority[0].life)]
    if [it.kind for it in answers] != [CNAME, AAAA][first != ALIAS :]:
        raise Wrong("other records")
    found, owner = [], name
    for one in answers:
        found.append((made_of(one, owner) / 1000, one.life))
        owner = one.data
    return code, found
