"""Frames: observations as octets, and back with the first fault."""

from .limits import (BODY_LIMIT, CNAME, FLUSH, FRAME_LIMIT, KIND_WORDS, LABEL_LIMIT, LAST_MOMENT, LONGEST_DENIAL,
                     LONGEST_LIFE, NAME_ERROR, NAME_LIMIT, NO_DATA, POSITIVE, SOA, is_data_type)
from .names import is_under, name_octets
from .observations import Observation
from .reached import note
from .reading import is_plain_rdata
from .writing import numbers

MAGIC = b"\x44\x47"
RANKS = {NAME_ERROR: (1, 3), NO_DATA: (1, 3), POSITIVE: (1, 2, 3), FLUSH: (3,)}
LIVES = {NAME_ERROR: (1, LONGEST_DENIAL), NO_DATA: (1, LONGEST_DENIAL), POSITIVE: (1, LONGEST_LIFE),
         FLUSH: (LONGEST_LIFE, LONGEST_LIFE)}


class FrameFault(Exception):
    """Why a frame can't be read."""


def entry_octets(observation):
    """One observation as an entry."""
    return (bytes([observation.kind, observation.rank]) + observation.stamp.to_bytes(8, "big")
            + observation.life.to_bytes(4, "big") + name_octets(observation.name) + numbers(observation.rtype)
            + observation.body)


def encode(observations, version=2):
    """The frame of a list of observations. A site writes version 2 alone."""
    entries = b"".join(entry_octets(observation) for observation in observations)
    return MAGIC + bytes([version]) + numbers(len(observations)) + entries


def pack(observations):
    """The frames of a list: an observation begins another frame where the one before has no room for it."""
    groups = []
    for observation in observations:
        if groups and len(encode(groups[-1] + [observation])) <= FRAME_LIMIT:
            groups[-1].append(observation)
        else:
            groups.append([observation])
    if len(groups) > 1:
        note("frames: several of one list")
    return [encode(group) for group in groups]


class FrameReader:
    """The octets of a frame, and how far they are read."""

    def __init__(self, octets):
        self.octets = octets
        self.place = 0

    def take(self, length):
        """The next octets."""
        if self.place + length > len(self.octets):
            raise FrameFault("Truncated")
        self.place += length
        return bytes(self.octets[self.place - length:self.place])

    def number(self, length):
        """The next number."""
        return int.from_bytes(self.take(length), "big")

    def name(self, fault="BadName", capitals=False):
        """The next name, in full. Capital letters in it are a fault, where they are not allowed."""
        labels, octets = [], 0
        while True:
            length = self.number(1)
            if length == 0:
                return tuple(labels)
            octets += 1 + length
            if length > LABEL_LIMIT or octets + 1 > NAME_LIMIT:
                raise FrameFault(fault)
            label = self.take(length)
            if not capitals and any(65 <= octet <= 90 for octet in label):
                raise FrameFault(fault)
            labels.append(label)


def read_positive_body(reader, rtype):
    """The RDATAs of an entry: at least one, just one of an alias, ascending, each of its type's shape."""
    count = reader.number(2)
    if count == 0 or (rtype == CNAME and count != 1):
        raise FrameFault("BadBody")
    octets, rdatas = 2, []
    for _ in range(count):
        rdata = reader.take(reader.number(2))
        octets += 2 + len(rdata)
        if octets > BODY_LIMIT or not is_plain_rdata(rtype, rdata) or (rdatas and rdata <= rdatas[-1]):
            raise FrameFault("BadBody")
        rdatas.append(rdata)
    return tuple(rdatas)


def read_negative_body(reader, name):
    """Owner and RDATA of the SOA of an entry. The owner is the name or an ancestor."""
    owner = reader.name("BadBody")
    if not is_under(name, owner):
        raise FrameFault("BadBody")
    rdata = reader.take(reader.number(2))
    if not is_plain_rdata(SOA, rdata):
        raise FrameFault("BadBody")
    return owner, rdata


def read_entry(reader, version):
    """One entry: its fields in order, each with its fault."""
    kind = reader.number(1)
    if kind not in RANKS or (kind == FLUSH and version == 1):
        raise FrameFault("BadKind")
    rank = reader.number(1)
    if rank not in RANKS[kind]:
        raise FrameFault("BadRank")
    stamp = reader.number(8)
    if stamp > LAST_MOMENT:
        raise FrameFault("BadMoment")
    life = reader.number(4)
    if not LIVES[kind][0] <= life <= LIVES[kind][1]:
        raise FrameFault("BadLife")
    name = reader.name()
    rtype = reader.number(2)
    if rtype != 0 if kind in (NAME_ERROR, FLUSH) else not is_data_type(rtype):
        raise FrameFault("BadKind")
    if kind == FLUSH:
        content = ()
    elif kind == POSITIVE:
        content = read_positive_body(reader, rtype)
    else:
        content = read_negative_body(reader, name)
    note(f"frames: {KIND_WORDS[kind]} of rank {rank} read, version {version}")
    return Observation(kind, name, rtype, rank, stamp, life, content)


def decode(octets):
    """The observations of a frame of version 1 or 2."""
    if len(octets) > FRAME_LIMIT:
        raise FrameFault("TooLong")
    reader = FrameReader(octets)
    if reader.take(2) != MAGIC:
        raise FrameFault("BadMagic")
    version = reader.number(1)
    if version not in (1, 2):
        raise FrameFault("BadVersion")
    observations = [read_entry(reader, version) for _ in range(reader.number(2))]
    if reader.place != len(octets):
        raise FrameFault("Trailing")
    return observations
