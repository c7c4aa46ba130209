"""Replies of every kind."""

from ..limits import A, CNAME, IN, NS, SOA
from ..names import name_octets
from .messages import MessageWriter, spoil


class ReplyMaker:
    """Makes replies to a question out of the stock of a script."""

    def __init__(self, random, stock):
        self.random = random
        self.stock = stock

    def chance(self, share):
        """True in so many of cases."""
        return self.random.random() < share

    def reply(self, identifier, name, rtype, rclass=IN):
        """The octets of a reply to a question."""
        answer, end = self.answer(name, rtype)
        code = self.random.choice([0, 0, 0, 3])
        authority = self.authority(name, end)
        if not answer and self.chance(0.15):
            code = self.random.choice([1, 2, 4, 5, 15])
        flags = 0x8080 | code | (0x0100 if self.chance(0.8) else 0) | (0x0400 if self.chance(0.55) else 0)
        if self.chance(0.04):
            flags |= 0x0200
        if self.chance(0.03):
            flags ^= self.random.choice([0x8000, 0x0800, 0x0040, 0x7800])
        written = self.write(identifier, flags, (name, rtype, rclass), answer, authority)
        return spoil(self.random, written) if self.chance(0.08) else written

    def write(self, identifier, flags, question, answer, authority):
        """The octets of such a reply."""
        random = self.random
        writer = MessageWriter(random, random.choice([0, 0.7, 1]), random.choice([0, 0, 0.3, 1]))
        writer.question(*question)
        for record in answer + authority:
            writer.record(*record)
        additional = 0
        if self.chance(0.1):
            additional = 1
            writer.record((), 41, 4096, 0, b"")
        writer.header(identifier, flags, (1, len(answer), len(authority), additional))
        return bytes(writer.octets)

    def answer(self, name, rtype):
        """Records of an answer section, and the name where the walk most likely ends."""
        records, end = self.chain(name)
        if self.chance(0.62):
            records += self.rrset(end, rtype)
        for _ in range(self.random.choice([0, 0, 0, 0, 1, 2])):
            records += self.other(end)
        if self.chance(0.3):
            self.random.shuffle(records)
        return records, end

    def chain(self, name):
        """Aliases from a name on, and the last target."""
        links, records = self.random.choices([0, 1, 2, 3, 7, 8, 9], [70, 14, 5, 3, 1, 4, 3])[0], []
        first = self.random.choice([1, 1, 2])
        for index in range(links):
            target = self.stock.name() if links < 3 and self.chance(0.7) else self.stock.link(first + index)
            records.append((name, CNAME, IN, self.stock.ttl(), name_octets(target)))
            if self.chance(0.02):
                records.append((name, CNAME, IN, self.stock.ttl(), name_octets(self.stock.name())))
            name = target
        return records, name

    def rrset(self, name, rtype):
        """Records of one name and type, some of them equal, mostly with one TTL. Of addresses there may be many."""
        ttl, count = self.stock.ttl(), self.random.choice([1, 1, 1, 2, 3])
        rdatas = [self.stock.rdata(rtype) for _ in range(count)]
        if rtype == A and self.chance(0.15):
            rdatas = [bytes([192, 0, 2, index]) for index in range(self.random.choice([4, 5, 6, 12, 20, 29, 30, 31]))]
        return [(name, rtype, IN, ttl if self.chance(0.7) else self.stock.ttl(), rdata) for rdata in rdatas]

    def other(self, name):
        """A record that is beside the walk, or ignored."""
        rtype = self.random.choice([self.stock.rtype(), 41, 255, 0, 128])
        rclass = self.random.choice([IN, IN, 3, 255, 0])
        owner = self.random.choice([name, self.stock.name()])
        if self.chance(0.05):
            owner = (b"l" * self.random.choice([1, 62, 63]),) + (b"x" * 63,) * 3
        rdata = self.stock.rdata(rtype) if rtype not in (0, 41) else b""
        if self.chance(0.05):
            rdata += self.random.choice([b"\0", b"\x01a\0"])
        return [(owner, rtype, rclass, self.stock.ttl(), rdata)]

    def authority(self, name, denied):
        """Records of an authority section: SOAs, name servers, others."""
        records = []
        if self.chance(0.7):
            owner = self.stock.ancestor(denied) if self.chance(0.93) else self.stock.name()
            records.append((owner, SOA, IN if self.chance(0.96) else 3, self.stock.ttl(), self.stock.rdata(SOA)))
        if self.chance(0.3):
            for _ in range(self.random.choice([1, 2, 3])):
                owner = self.stock.ancestor(name) if self.chance(0.85) else self.stock.name()
                records.append((owner, NS, IN, self.stock.ttl(), self.stock.rdata(NS)))
        if self.chance(0.1):
            records += self.other(name)
        if self.chance(0.3):
            self.random.shuffle(records)
        return records
