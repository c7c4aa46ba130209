"""Messages as octets, with compressed names and capital letters, and octets that are spoilt."""

from ..limits import SHAPES
from ..names import lower_name, name_octets, plain_labels


def capitals(random, labels, share):
    """A name with some of its letters as capitals."""
    return tuple(bytes(octet - 32 if 97 <= octet <= 122 and random.random() < share else octet for octet in label)
                 for label in labels)


class MessageWriter:
    """A message in the making. It knows where names stand, so that pointers can lead there."""

    def __init__(self, random, compressing=0.7, capital_share=0.0):
        self.random = random
        self.octets = bytearray(12)
        self.places = {}
        self.compressing = compressing
        self.capital_share = capital_share

    def header(self, identifier, flags, counts):
        """Fills in the header."""
        self.octets[0:12] = b"".join(value.to_bytes(2, "big") for value in (identifier, flags, *counts))

    def number(self, value, length=2):
        """Adds a number."""
        self.octets += value.to_bytes(length, "big")

    def name(self, labels):
        """Adds a name, and mostly a pointer in place of what stands already."""
        spelled, start = capitals(self.random, labels, self.capital_share), len(self.octets)
        for index in range(len(labels) + 1):
            rest = lower_name(labels[index:])
            place = self.places.get(rest)
            if place is not None and place < start and self.random.random() < self.compressing:
                self.number(0xC000 | place)
                return
            self.places.setdefault(rest, len(self.octets))
            if index < len(labels):
                self.octets += bytes([len(labels[index])]) + spelled[index]
        self.octets += b"\0"

    def question(self, name, rtype, rclass):
        """Adds a question."""
        self.name(name)
        self.number(rtype)
        self.number(rclass)

    def record(self, name, rtype, rclass, ttl, rdata):
        """Adds a record. Names in its RDATA are written like others."""
        self.name(name)
        self.number(rtype)
        self.number(rclass)
        self.number(ttl, 4)
        self.number(0)
        start = len(self.octets)
        self.rdata(rtype, rdata)
        self.octets[start - 2:start] = (len(self.octets) - start).to_bytes(2, "big")

    def rdata(self, rtype, rdata):
        """Adds RDATA part by part."""
        for part in SHAPES.get(rtype, ()):
            if part == "name":
                labels = plain_labels(rdata)
                self.name(labels)
                rdata = rdata[len(name_octets(labels)):]
            else:
                self.octets += rdata[:part]
                rdata = rdata[part:]
        self.octets += rdata


def spoil(random, octets):
    """Octets with a fault somewhere, or with something behind them."""
    octets = bytearray(octets)
    way = random.randrange(6)
    if not octets or way == 0:
        return bytes(octets) + bytes(random.randrange(256) for _ in range(random.choice([1, 2, 11])))
    place = random.randrange(len(octets))
    if way == 1:
        return bytes(octets[:random.choice([place, place % 16])])
    if way == 2:
        octets[place] = random.choice([0, 1, 0x3F, 0x40, 0x80, 0xC0, 0xFF])
    elif way == 3:
        octets[place] = (octets[place] + random.choice([1, 255])) % 256
    elif way == 4:
        del octets[place]
    else:
        octets[place:place + 2] = bytes([0xC0, random.choice([0, 12, place & 0xFF, (place - 1) & 0xFF, 255])])
    return bytes(octets)
