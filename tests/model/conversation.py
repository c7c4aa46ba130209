"""Random conversations with running sites: clients, upstreams that lie, repeat, answer late or never, and peers.

After each step a client puts a question to the site that no site can answer. When its reply is there, all that came
before was handled, and what the site sent for it is there: a site handles datagrams in their order, and a datagram on
the loopback is there when it was sent. Only the ticks of the last turn come behind the reply. Where they may be under
way, what still comes is waited for."""

import random as randomness
import tempfile
import time

from .frames import pack
from .generator.frames import FrameMaker
from .generator.messages import MessageWriter, capitals, spoil
from .generator.replies import ReplyMaker
from .generator.stock import Stock
from .limits import IN
from .reached import note
from .reading import ReadFault, read_query, read_reply
from .replies import DigestFault, digest, observations_of
from .served import PATIENCE, Endpoint, ServedSite, ServeFault, address_text, free_places, wait_for_any, whole_seconds
from .watched import Unexpected, Watched

SITES = 2
SHORT = 512                         # octets that a site sends at once, and handles in their order
TICKING = 5                         # seconds within which a site that was seen at its ticks has sent the rest of them
ACTIONS = {"ask": 30, "ask_together": 12, "answer": 26, "lie": 14, "late": 8, "frame": 14, "silence": 1.5}


class Place:
    """A running site, the models of it, its upstreams and its peer in the run."""

    def __init__(self, program, folder, place, others, key, turns):
        self.upstreams = [Endpoint(), Endpoint()]
        self.listener = Endpoint()
        addresses = [upstream.address for upstream in self.upstreams]
        peers = [address_text(other) for other in others] + [self.listener.address]
        self.site = ServedSite(program, folder, place, addresses, peers, key, turns)
        self.watched = Watched(addresses, peers, self.listener.address)
        self.address = address_text(place)
        self.answered = []
        self.unread = []

    def endpoints(self):
        """Its sockets in the run."""
        return [*self.upstreams, self.listener]

    def entries(self):
        """Its open questions, by one of the models."""
        return self.watched.models[0].entries

    def close(self):
        """Ends the process, and closes the sockets."""
        self.site.stop()
        for endpoint in self.endpoints():
            endpoint.close()


class Conversation:
    """One run with its seed, of so many steps. The sites have turns for more, so that none of them outlives a run that
    was killed for long."""

    def __init__(self, program, seed, steps):
        self.steps = steps
        self.random = randomness.Random(f"sockets {seed}")
        self.stock = Stock(self.random)
        self.replies = ReplyMaker(self.random, self.stock)
        self.frames = FrameMaker(self.random, self.stock)
        self.clients = [Endpoint() for _ in range(4)]
        self.stranger = Endpoint()
        self.prober = Endpoint()
        self.probes = 0
        self.folder = tempfile.TemporaryDirectory()
        self.places = self.begin(program)
        self.did = "nothing"

    def begin(self, program):
        """Starts the sites. A port may be taken between its choice and its use: then others are tried."""
        for _ in range(5):
            free, places = free_places(SITES), []
            try:
                for index, place in enumerate(free):
                    others, key = free[:index] + free[index + 1:], self.random.randbytes(32)
                    places.append(Place(program, self.folder.name, place, others, key, 5000 + 40 * self.steps))
                return places
            except ServeFault:
                for begun in places:
                    begun.close()
        raise ServeFault("the sites do not begin")

    def close(self):
        """Ends all."""
        for place in self.places:
            place.close()
        for endpoint in [*self.clients, self.stranger, self.prober]:
            endpoint.close()
        self.folder.cleanup()

    def run(self):
        """Does the steps. It gives the text of a difference, or None."""
        for number in range(self.steps):
            action = self.random.choices(list(ACTIONS), ACTIONS.values())[0]
            place = self.random.choice(self.places)
            try:
                getattr(self, action)(place)
            except (Unexpected, ServeFault) as fault:
                return f"step {number} ({action}) at {place.address}: {self.did}; {fault}"
        return self.last_look()

    def last_look(self):
        """Whether a site sent what was not looked at yet, as the text of a difference or None."""
        for place in self.places:
            try:
                self.hand(place)
            except (Unexpected, ServeFault) as fault:
                return f"the end, at {place.address}: {fault}"
        return None

    # A step

    def hand(self, place, *datagrams):
        """Sends datagrams to a site, and compares what it sends with the models. A datagram is a socket and octets.

        The site reads its clock for a datagram behind the turn of what came before. So the probe before it bounds the
        moments from below. Where what came fits no model, the site may stand in the middle of its ticks, without a
        processor. Then what still comes is compared too. Nothing is sent to it meanwhile: what only another datagram
        would bring stays missing."""
        self.did = ", ".join(f"{endpoint.address} sent {octets.hex()}" for endpoint, octets in datagrams) or "nothing"
        earliest = whole_seconds()
        self.probe(place)
        for endpoint, octets in datagrams:
            endpoint.send(place.site.place, octets)
        self.probe(place)
        end = time.monotonic() + TICKING
        while True:
            self.collect()
            left = end - time.monotonic()
            try:
                came = self.compare(place, datagrams, earliest)
                break
            except Unexpected:
                if left <= 0:
                    raise
            wait_for_any(self.endpoints(), left)
        place.unread = []
        for frame in came.get(place.listener.address, []):
            for other in self.places:
                if other is not place:
                    other.watched.take_frame(frame)

    def probe(self, place):
        """Waits until a site has handled all that was sent to it."""
        self.probes = self.probes % 65535 + 1
        writer = MessageWriter(self.random)
        writer.question((b"probe-%d" % self.probes, b"invalid"), 1, IN)
        writer.header(self.probes, 0, (1, 0, 0, 0))
        self.prober.send(place.site.place, bytes(writer.octets))
        if not self.prober.wait(PATIENCE):
            raise ServeFault("no answer to a probe")
        replies = [octets for sender, octets in self.prober.received() if sender == place.site.place]
        if len(replies) != 1 or int.from_bytes(replies[0][:2], "big") != self.probes:
            raise Unexpected(f"the replies to a probe are {replies}")

    def endpoints(self):
        """The sockets at which sites may send something, but for the prober's."""
        return [*self.clients, self.stranger, *(each for place in self.places for each in place.endpoints())]

    def collect(self):
        """Takes all that came, and keeps it with the site that sent it. What another program of the machine sent to one
        of these ports is passed over."""
        for endpoint in self.endpoints():
            for sender, octets in endpoint.received():
                for place in self.places:
                    if place.site.place == sender:
                        place.unread.append((endpoint, octets))

    def compare(self, place, datagrams, earliest):
        """Compares what a site sent with the models, and gives it by address. A new question has the identifier of its
        query to the first upstream. To the second one a query of an older question may go, which failed meanwhile."""
        came, identifiers = {}, {}
        for endpoint, octets in place.unread:
            came.setdefault(endpoint.address, []).append(octets)
            if endpoint is place.upstreams[0]:
                identifiers[question_of(octets)] = int.from_bytes(octets[:2], "big")
        handed = [(endpoint.address, identifiers.get(question_of(octets), 0), octets) for endpoint, octets in datagrams]
        place.watched.narrow(handed, (earliest, whole_seconds()), came)
        return came

    # Actions

    def question_octets(self, place):
        """A question: of what a site knows, or any. Recursion is mostly wanted."""
        taken = sorted((one for one in place.watched.models[0].taken if one.rtype), key=lambda one: one.preference)
        if taken and self.random.random() < 0.6:
            one = self.random.choice(taken)
            name, rtype = one.name, one.rtype
        else:
            name, rtype = self.stock.asked_name(), self.stock.rtype()
        writer = MessageWriter(self.random)
        writer.question(capitals(self.random, name, self.random.choice([0, 0, 0.5])), rtype, IN)
        flags = 0x0100 if self.random.random() < 0.8 else 0
        writer.header(self.random.choice([1, 2, 3, 0xFFFF]), flags, (1, 0, 0, 0))
        return bytes(writer.octets)

    def ask(self, place):
        """A client asks, now and then what can't be read."""
        octets = self.question_octets(place)
        if self.random.random() < 0.05:
            octets = spoil(self.random, octets)
        note("sockets: a client asks")
        self.hand(place, (self.random.choice(self.clients), octets))

    def ask_together(self, place):
        """Several clients ask at once, mostly the same."""
        octets = self.question_octets(place)
        asking = [(client, octets) for client in self.random.sample(self.clients, 3)]
        if self.random.random() < 0.3:
            asking.append((self.clients[0], self.question_octets(place)))
        note("sockets: clients ask together")
        self.hand(place, *asking)

    def reply_octets(self, identifier, name, rtype):
        """A reply whose frame is short."""
        while True:
            octets = self.replies.reply(identifier, name, rtype)
            if all(len(frame) <= SHORT for frame in frames_of(octets)):
                return octets

    def answer(self, place):
        """An upstream answers an open question. Where none is open a client asks."""
        if not place.entries():
            self.ask(place)
            return
        entry = self.random.choice(place.entries())
        octets = self.reply_octets(entry.identifier, entry.name, entry.rtype)
        place.answered.append((entry.upstream, octets))
        note("sockets: an upstream answers")
        self.hand(place, *[(place.upstreams[entry.upstream], octets)] * self.random.choice([1, 1, 1, 2]))

    def lie(self, place):
        """A reply that is none: of another upstream or of a stranger, of another identifier or question."""
        if not place.entries():
            self.ask(place)
            return
        entry = self.random.choice(place.entries())
        identifier, name, rtype, sender = entry.identifier, entry.name, entry.rtype, place.upstreams[entry.upstream]
        lie = self.random.choice(["upstream", "stranger", "peer", "identifier", "name", "type"])
        if lie == "upstream":
            sender = place.upstreams[1 - entry.upstream]
        elif lie == "stranger":
            sender = self.stranger
        elif lie == "peer":
            sender = place.listener
        elif lie == "identifier":
            identifier = (identifier + self.random.choice([1, 256, 65535])) % 65536
        elif lie == "name":
            name = (b"other",)
        else:
            rtype = 99
        note(f"sockets: a reply with another {lie}")
        self.hand(place, (sender, self.reply_octets(identifier, name, rtype)))

    def late(self, place):
        """A reply that was sent before comes once more, of its upstream or of the other one."""
        if not place.answered:
            self.answer(place)
            return
        upstream, octets = self.random.choice(place.answered)
        note("sockets: a reply comes late")
        self.hand(place, (place.upstreams[self.random.choice([upstream, 1 - upstream])], octets))

    def frame(self, place):
        """A peer sends a frame, or one sends it that is no peer."""
        known = sorted(place.watched.models[0].taken, key=lambda one: one.preference)
        octets = self.frames.frame(known, whole_seconds())
        if len(octets) > SHORT:
            return
        note("sockets: a peer sends a frame")
        self.hand(place, (place.listener if self.random.random() < 0.9 else self.stranger, octets))

    def silence(self, place):
        """Nobody answers, until the site asks the next upstream or gives up, or did so since the last step at it."""
        if not all(model.entries for model in place.watched.models):
            return
        if not place.unread and not wait_for_any([*place.upstreams, *self.clients], PATIENCE):
            raise Unexpected("it asks no other upstream and does not give up")
        note("sockets: nobody answers in time")
        self.hand(place)


def frames_of(octets):
    """The frames that a site makes of a reply."""
    try:
        return pack(observations_of(digest(read_reply(octets)), whole_seconds()))
    except (ReadFault, DigestFault):
        return []


def question_of(octets):
    """The name and type of a question, or None."""
    try:
        _, question = read_query(octets)
    except ReadFault:
        return None
    return question.name, question.rtype
