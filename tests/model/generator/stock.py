"""The names, types and RDATA that one script has."""

from ..limits import A, AAAA, CNAME, MINFO, MX, NS, PTR, SHAPES, SOA, SRV, TXT
from ..names import name_octets

TTLS = ([1, 2, 3, 5, 10, 20, 60, 100, 300, 300] * 4
        + [0, 3600, 10799, 10800, 10801, 86399, 86400, 86401, 1 << 31, (1 << 31) + 1, (1 << 32) - 1, (1 << 31) - 1])
OTHER_TYPES = [AAAA, TXT, NS, MX, SOA, SRV, MINFO, PTR, 3, 65, 256, 127]
ODD_LABELS = [b"a.b", b"\\", b"\x00\xff", b" ", b"-", b"x" * 63, b"{|}", b"@["]


def zone_of(random):
    """The zone that most names of a script are in."""
    return random.choice([(b"com",), (b"example", b"com"), (b"x",), (b"example", b"co", b"uk"), ()])


def label_of(random):
    """A label, mostly a short one."""
    if random.random() < 0.08:
        return random.choice(ODD_LABELS)
    return random.choice([b"a", b"b", b"c", b"www", b"ns1"])


def padded(random, zone, length):
    """A name below a zone that has so many octets in all, or the zone where none has."""
    name, left = zone, length - len(name_octets(zone))
    while left >= 2:
        size = min(left - 1, 63)
        if left - 1 - size == 1:
            size -= 1
        name = (bytes([random.choice(b"lmn")]) * size,) + name
        left -= 1 + size
    return name


class Stock:
    """Names by how often they are chosen, the types that are asked for, a few RDATAs of each type."""

    def __init__(self, random):
        self.random = random
        self.zone = zone_of(random)
        self.names = self.make_names()
        self.types = [A, random.choice([A, CNAME])] + random.sample(OTHER_TYPES, random.choice([0, 1, 1, 2, 3]))
        self.pools = {}

    def make_names(self):
        """A few names: children and grandchildren of the zone, the zone, ancestors, long ones."""
        random, zone = self.random, self.zone
        child = (label_of(random),) + zone
        names = [child, (label_of(random),) + child, (b"c0",) + zone, zone]
        for _ in range(random.choice([0, 1, 2])):
            names.append((label_of(random),) + random.choice(names))
        if random.random() < 0.5:
            length = random.choice([31, 32, 33, 34, 40, 65, 128, 200])
            names.append(padded(random, random.choice(names), length))
        if random.random() < 0.08:
            names.append(padded(random, zone, random.choice([253, 254, 255])))
        if random.random() < 0.2:
            names.append(())
        random.shuffle(names)
        return [name for name in dict.fromkeys(names) if len(name_octets(name)) <= 255]

    def name(self):
        """One of the names, the first ones more often."""
        return self.names[min(self.random.randrange(len(self.names)), self.random.randrange(len(self.names)))]

    def asked_name(self):
        """A name that is asked for: one of the names, or one below it."""
        name = self.name()
        if self.random.random() < 0.15 and len(name_octets(name)) < 250:
            return (self.random.choice([b"q", b"a"]),) + name
        return name

    def rtype(self):
        """One of the types."""
        return self.random.choice(self.types)

    def ttl(self):
        """A TTL as it stands in a record."""
        return self.random.choice(TTLS)

    def link(self, index):
        """A name of a chain of aliases."""
        return (b"c%d" % index,) + self.zone

    def ancestor(self, name):
        """The name or an ancestor of it."""
        return name[self.random.randrange(len(name) + 1):] if self.random.random() < 0.6 else name

    def rdata(self, rtype):
        """RDATA of a type, in full and in lower case."""
        if rtype not in self.pools:
            pool = [self.make_rdata(rtype) for _ in range(self.random.choice([2, 3, 4]))]
            self.pools[rtype] = pool
        return self.random.choice(self.pools[rtype])

    def make_rdata(self, rtype):
        """New RDATA of a type."""
        random = self.random
        if rtype in SHAPES:
            return b"".join(name_octets(self.name()) if part == "name" else self.fixed_octets(rtype, part)
                            for part in SHAPES[rtype])
        if rtype == A:
            return bytes([192, 0, 2, random.randrange(4)])
        if rtype == AAAA:
            return bytes(15) + bytes([random.randrange(4)])
        if random.random() < 0.1:
            return b"t" * random.choice([200, 255, 300, 380])
        return random.choice([b"", b"a", b"ab", b"abc", b"A", b"\xc0\x0c", bytes(range(20))])

    def fixed_octets(self, rtype, length):
        """The part of RDATA that is no name. Of an SOA its last number is the TTL of a denial."""
        if rtype == SOA:
            return bytes(16) + self.ttl().to_bytes(4, "big")
        return bytes(length - 1) + bytes([self.random.choice([0, 10])])
