"""Observations: what is kept of a reply, with its rank, its stamp and its life."""

from dataclasses import dataclass
from functools import cached_property

from .limits import FLUSH, LONGEST_LIFE, POSITIVE
from .names import name_octets
from .writing import numbers


@dataclass(frozen=True)
class Observation:
    """One observation. Its content is the tuple of ascending RDATAs of a positive one, the owner and the RDATA of the
    SOA of a negative one, and empty of a flush."""
    kind: int
    name: tuple
    rtype: int
    rank: int
    stamp: int
    life: int
    content: tuple

    @cached_property
    def expires(self):
        """The first moment at which it has ended."""
        return self.stamp + self.life

    @cached_property
    def key(self):
        """What it is about."""
        return self.name, self.kind, self.rtype

    @cached_property
    def preference(self):
        """Its place among all observations: the greater one is preferred."""
        return self.rank, self.stamp, self.expires, self.kind, self.rtype, name_octets(self.name), self.body

    @cached_property
    def body(self):
        """The octets of its content, as in frames."""
        if self.kind == FLUSH:
            return b""
        if self.kind == POSITIVE:
            return numbers(len(self.content)) + b"".join(numbers(len(rdata)) + rdata for rdata in self.content)
        owner, rdata = self.content
        return name_octets(owner) + numbers(len(rdata)) + rdata


def flush_of(name, stamp):
    """The flush of a name, as of a moment."""
    return Observation(FLUSH, name, 0, 3, stamp, LONGEST_LIFE, ())


def shown_ttl(now, observation):
    """The TTL that is shown at a moment: the seconds that are left, and never more than its life."""
    return min(observation.expires - now, observation.life)
