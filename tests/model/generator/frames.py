"""Frames that anybody may send: known entries among new ones, forged stamps and ranks, faults."""

from dataclasses import replace

from ..frames import encode
from ..limits import (CNAME, FLUSH, LAST_MOMENT, LONGEST_DENIAL, LONGEST_LIFE, NAME_ERROR, NO_DATA, POSITIVE, SOA, TXT)
from ..names import name_octets
from ..observations import Observation, flush_of
from .messages import spoil

LIVES = [1, 2, 3, 5, 10, 20, 60, 100, 120, 300, 300, 3600, LONGEST_DENIAL]


class FrameMaker:
    """Makes frames out of the stock of a script and of what its sites know."""

    def __init__(self, random, stock):
        self.random = random
        self.stock = stock

    def chance(self, share):
        """True in so many of cases."""
        return self.random.random() < share

    def frame(self, known, clock):
        """The octets of a frame. Of what is known some entries are taken as they are, some are changed."""
        entries = [self.entry(known, clock) for _ in range(self.random.choice([0, 1, 1, 2, 3, 4, 6]))]
        if self.chance(0.03):
            entries += [self.huge(clock) for _ in range(self.random.choice([1, 2]))]
        if entries and self.chance(0.12):
            place = self.random.randrange(len(entries))
            entries[place] = self.unlawful(entries[place])
        version = self.random.choice([2, 2, 2, 1])
        if version == 1 and self.chance(0.9):
            entries = [entry for entry in entries if entry.kind != FLUSH]
        octets = encode(entries, version if self.chance(0.99) else self.random.choice([0, 3, 9]))
        return spoil(self.random, octets) if self.chance(0.06) else octets

    def entry(self, known, clock):
        """One entry: known, close to a known one, or new."""
        way = self.random.random()
        if known and way < 0.35:
            return self.random.choice(known)
        if known and way < 0.7:
            return self.close(self.random.choice(known), clock)
        return self.new(clock)

    def close(self, one, clock):
        """An observation that differs a little from one."""
        way = self.random.randrange(4)
        if one.kind == FLUSH:
            return flush_of(one.name, max(0, one.stamp + self.random.choice([-1, 0, 1])))
        if way == 0:
            ranks = (1, 2, 3) if one.kind == POSITIVE else (1, 3)
            return replace(one, rank=self.random.choice(ranks))
        if way == 1:
            return replace(one, stamp=min(LAST_MOMENT, max(0, one.stamp + self.random.choice([-5, -1, 1, 5]))))
        if way == 2:
            life = one.life + self.random.choice([-1, 1, 5, -5])
            return replace(one, life=min(max(1, life), LONGEST_DENIAL))
        return self.like(one, clock)

    def like(self, one, clock):
        """An observation with the same key as one."""
        if one.kind == POSITIVE:
            return replace(one, stamp=self.stamp(clock), content=self.rdatas(one.rtype))
        return replace(one, stamp=self.stamp(clock), content=(one.content[0], self.stock.rdata(SOA)))

    def stamp(self, clock):
        """A stamp around a clock, and now and then far away."""
        if self.chance(0.02):
            return self.random.choice([0, LAST_MOMENT])
        return min(LAST_MOMENT, max(0, clock + self.random.choice([-100, -20, -5, -2, -1, 0, 0, 0, 1, 2, 5, 30])))

    def rdatas(self, rtype):
        """The content of a positive observation."""
        count = 1 if rtype == CNAME else self.random.choice([1, 1, 2, 3])
        return tuple(sorted({self.stock.rdata(rtype) for _ in range(count)}))

    def new(self, clock):
        """An observation of any kind."""
        kind = self.random.choices([POSITIVE, NO_DATA, NAME_ERROR, FLUSH], [60, 12, 14, 14])[0]
        name, stamp = self.stock.name(), self.stamp(clock)
        if kind == FLUSH:
            return flush_of(self.stock.ancestor(name) if self.chance(0.4) else name, stamp)
        if kind == POSITIVE:
            rtype = self.random.choice([self.stock.rtype(), self.stock.rtype(), CNAME])
            life = self.random.choice(LIVES + [LONGEST_LIFE])
            return Observation(kind, name, rtype, self.random.choice([1, 2, 3]), stamp, life, self.rdatas(rtype))
        rtype = 0 if kind == NAME_ERROR else self.stock.rtype()
        content = self.stock.ancestor(name), self.stock.rdata(SOA)
        return Observation(kind, name, rtype, self.random.choice([1, 3]), stamp, self.random.choice(LIVES), content)

    def chain(self, clock, links):
        """Aliases from one name to the next, and an address at the end."""
        rank = self.random.choice([1, 3])
        aliases = [Observation(POSITIVE, self.stock.link(index), CNAME, rank, clock, 300,
                               (self.target(index + 1),)) for index in range(links)]
        return aliases + [Observation(POSITIVE, self.stock.link(links), 1, rank, clock, 300, self.rdatas(1))]

    def many(self, clock, count):
        """Observations of many names below one of the names."""
        above, first = self.random.choice([self.stock.zone, self.long_name()]), self.random.choice([0, 3])
        made = []
        for number in range(first, first + count):
            name = (b"n%d" % number,) + above
            one = self.new(clock)
            made.append(flush_of(name, one.stamp) if one.kind == FLUSH else replace(one, name=name, content=(
                one.content if one.kind == POSITIVE else (above, one.content[1]))))
        return made

    def long_name(self):
        """A name with more octets than most have."""
        name = (b"x" * self.random.choice([20, 40, 63]),) + self.stock.name()
        return name if len(name_octets(name)) < 240 else self.stock.zone

    def target(self, index):
        """The RDATA of an alias to a name of a chain."""
        return name_octets(self.stock.link(index))

    def huge(self, clock):
        """An observation with a body of about the most octets."""
        return self.text(self.stock.name(), self.stamp(clock), self.random.choice([8187, 8188, 8188, 8189, 5000]))

    def text(self, name, stamp, length):
        """An observation of text with so many octets."""
        return Observation(POSITIVE, name, TXT, self.random.choice([1, 3]), stamp, self.random.choice(LIVES),
                           (bytes([self.random.choice(b"xyz")]) * length,))

    def unlawful(self, one):
        """An observation with a value that no observation has."""
        choices = [{"rank": 0}, {"rank": 4}, {"rank": 2}, {"stamp": LAST_MOMENT + 1}, {"life": 0},
                   {"life": LONGEST_LIFE + 1}, {"life": LONGEST_DENIAL + 1}, {"kind": 0}, {"kind": 5}, {"rtype": 41},
                   {"rtype": 0}, {"rtype": 128}, {"rtype": 255}, {"rtype": 1}, {"name": (b"A",)},
                   {"name": (b"x" * 64,)}, {"name": (b"x" * 63,) * 4}]
        if one.kind == POSITIVE:
            choices += [{"content": ()}, {"content": one.content[::-1] + one.content}, {"rtype": CNAME},
                        {"content": one.content + (b"zz",)}]
        elif one.kind != FLUSH:
            owner, rdata = one.content
            choices += [{"content": ((b"elsewhere",), rdata)}, {"content": (owner, rdata[1:])}]
        values = self.random.choice(choices)
        return Spelled(one, values["kind"]) if "kind" in values else replace(one, **values)


class Spelled:
    """An entry as it is, but for its kind."""

    def __init__(self, one, kind):
        self.kind = kind
        self.rank, self.stamp, self.life, self.name, self.rtype = one.rank, one.stamp, one.life, one.name, one.rtype
        self.body = one.body
