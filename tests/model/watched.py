"""What a running site may hold, and what it may send.

The moments at which a running site reads its clock are not known, only that they lie in a window. So there are several
models of it, one for each way in which the moments may fall. Each thing that the site sends rules some of them out.
Where it rules out all, program and model differ."""

from copy import deepcopy
from dataclasses import replace

from . import open_questions
from .site import Site


class Unexpected(Exception):
    """A site sent what it may not send, or did not send what it has to."""


def copy_of(site):
    """A copy of a model that shares what never changes."""
    return replace(site, taken=set(site.taken), entries=deepcopy(site.entries))


def fingerprint(site):
    """What tells one model from another. The floor does not: a running site purges with each turn, and nothing that it
    sends depends on that."""
    return frozenset(site.taken), site.clock, repr(site.entries)


class Sent:
    """What a site sends, by the address: packets, and frames to a peer."""

    def __init__(self):
        self.by_address = {}

    def add(self, address, octets):
        """One datagram more."""
        self.by_address.setdefault(address, []).append(octets)

    def add_step(self, step, listener):
        """The datagrams of a step. Of those to peers only the listener's are seen."""
        for address, octets in step.packets:
            self.add(address, octets)
        for octets in step.frames:
            self.add(listener, octets)

    def copy(self):
        """A copy."""
        other = Sent()
        other.by_address = {address: list(all_of) for address, all_of in self.by_address.items()}
        return other


def tick_all(site, now, sent, listener):
    """Ticks at a moment until none is due."""
    while open_questions.due(site.entries, now):
        sent.add_step(site.tick(now), listener)


class Watched:
    """The models that a running site may be like."""

    def __init__(self, upstreams, peers, listener):
        self.models = [Site(tuple(upstreams), tuple(peers))]
        self.listener = listener

    def ticked(self, site, sent, latest):
        """What may be when time went on without a datagram: for each moment at which something is due, that the site
        ticked then, and that it did not yet."""
        if not open_questions.due(site.entries, site.clock):
            yield site, sent
        deadlines = {entry.deadline for entry in site.entries}
        for moment in range(max(site.clock, min(deadlines, default=latest + 1)), latest + 1):
            copy, more = copy_of(site), sent.copy()
            tick_all(copy, moment, more, self.listener)
            yield from self.ticked(copy, more, latest)

    def handed(self, site, sent, datagram, window):
        """What may be when a datagram was handed to the site, and the site ticked behind it."""
        address, word, octets = datagram
        earliest = max(site.clock, window[0])
        for moment in range(earliest, max(earliest, window[1]) + 1):
            copy, more = copy_of(site), sent.copy()
            more.add_step(copy.datagram(moment, address, word, octets), self.listener)
            tick_all(copy, moment, more, self.listener)
            yield copy, more

    def outcomes(self, datagrams, window):
        """All that the site may be and send behind datagrams that came one after the other in a window of moments.

        A datagram is an address, the word under which a new question is asked, and octets. The tick of the last turn
        may be still to come."""
        ways = [way for model in self.models for way in self.ticked(model, Sent(), window[1])]
        for datagram in datagrams:
            ways = unique(way for site, sent in ways for way in self.handed(site, sent, datagram, window))
            ways = unique(way for site, sent in ways for way in self.ticked(site, sent, window[1]))
        return ways

    def narrow(self, datagrams, window, came):
        """Keeps the models that send just what came."""
        outcomes = self.outcomes(datagrams, window)
        kept = {fingerprint(site): site for site, sent in outcomes if sent.by_address == came}
        if not kept:
            raise Unexpected(difference_text(came, [sent.by_address for _, sent in outcomes]))
        self.models = list(kept.values())

    def take_frame(self, octets):
        """A frame of another site came. When it is taken in does not matter."""
        for model in self.models:
            model.take_frame(octets)


def unique(ways):
    """Each way once."""
    return list({(fingerprint(site), repr(sent.by_address)): (site, sent) for site, sent in ways}.values())


def difference_text(came, wanted):
    """What came, and what each model would have sent."""
    def text(by_address):
        lines = [f"    {address} {octets.hex()}" for address, all_of in sorted(by_address.items()) for octets in all_of]
        return "\n".join(lines) or "    nothing"

    texts = list(dict.fromkeys(text(by_address) for by_address in wanted))[:4]
    return "it sent:\n" + text(came) + "".join("\n  the model sends:\n" + each for each in texts)
