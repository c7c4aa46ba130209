"""One site. Each call is one step, done whole."""

from dataclasses import dataclass, field

from . import cache, frames, open_questions, replies
from .limits import (CNAME, FORMAT_ERROR, IN, NAME_ERROR, NO_ERROR, NO_SUCH_NAME, NOT_IMPLEMENTED, POSITIVE, REFUSED,
                     SERVER_FAILURE, SOA, TRY_SECONDS, is_data_type)
from .observations import flush_of, shown_ttl
from .reached import note
from .reading import ReadFault, read_header, read_query, read_reply
from .writing import Reply, Row, query_octets


@dataclass
class Step:
    """What a step gives: packets with their addresses, frames for the peers, how many observations were taken in or
    why it was refused, and whether another open question is due."""
    packets: list = field(default_factory=list)
    frames: list = field(default_factory=list)
    taken: int = 0
    refused: str | None = None
    more: bool = False


@dataclass(frozen=True)
class Look:
    """What a question finds: "dropped", "reply" with its octets and perhaps a refusal, or "miss" with what was
    asked."""
    word: str
    octets: bytes = b""
    refused: str | None = None
    header: object = None
    question: object = None


@dataclass
class Site:
    """A site: its upstreams in order, its peers, all that it took in, its floor, its clock, its open questions."""
    upstreams: tuple
    peers: tuple
    taken: set = field(default_factory=set)
    floor: int = 0
    clock: int = 0
    entries: list = field(default_factory=list)

    def raise_clock(self, now):
        """Raises the clock to the greatest moment so far."""
        if now < self.clock:
            note("site: a moment before the clock")
        self.clock = max(self.clock, now)

    def items(self):
        """What its cache holds, in order."""
        return cache.items(self.taken, self.floor)

    # Questions

    def ask(self, now, octets):
        """Looks a question up, whether recursion is wanted or not."""
        self.raise_clock(now)
        return self.look(octets)

    def look(self, octets):
        """What a question finds. The order of its cases is that in which they are reported."""
        header = read_header(octets)
        if header is None or header.response:
            return Look("dropped")

        def reply(code, question=None, refused=None, answer=(), authority=()):
            note(f"question: code {code}")
            written = Reply(header.identifier, header.recursion_desired, code, question, answer, authority,
                            header.opcode)
            return Look("reply", written.octets(), refused)

        if header.opcode != 0:
            return reply(NOT_IMPLEMENTED)
        try:
            _, question = read_query(octets)
        except ReadFault as fault:
            return reply(FORMAT_ERROR, refused=f"read {fault}")
        if question.rclass != IN or not is_data_type(question.rtype):
            return reply(NOT_IMPLEMENTED, question)
        found = self.answer_rows(question)
        if found is None:
            return Look("miss", header=header, question=question)
        code, answer, authority = found
        return reply(code, question, None, answer, authority)

    def answer_rows(self, question):
        """Code, answer and authority of what it answers, or None of a miss. A moment before the floor is the floor."""
        moment = max(self.floor, self.clock)
        found = cache.answer(self.taken, moment, question.name, question.rtype)
        if found is None:
            return None
        chain, last = found
        answer = tuple(Row(link.name, CNAME, shown_ttl(moment, link), link.content[0]) for link in chain)
        ttl = shown_ttl(moment, last)
        if last.stamp > moment:
            note("answer: of a stamp to come")
        if last.kind == POSITIVE:
            return NO_ERROR, answer + tuple(Row(last.name, last.rtype, ttl, rdata) for rdata in last.content), ()
        owner, rdata = last.content
        code = NO_SUCH_NAME if last.kind == NAME_ERROR else NO_ERROR
        return code, answer, (Row(owner, SOA, ttl, rdata),)

    def question(self, address, word, octets):
        """A question that came as a datagram. On a miss it waits for an upstream, where recursion is wanted."""
        look = self.look(octets)
        if look.word == "dropped":
            return Step(refused="dropped")
        if look.word == "reply":
            return Step(packets=[(address, look.octets)], refused=look.refused)
        if not look.header.recursion_desired:
            note(f"question: code {REFUSED}")
            return Step(packets=[(address, Reply(look.header.identifier, False, REFUSED, look.question).octets())])
        waiter = open_questions.Waiter(address, look.header.identifier, look.question)
        asked = open_questions.ask(self.entries, waiter, self.clock, word)
        if asked == "full":
            return Step(packets=[(address, failure(waiter))], refused="full")
        if asked in ("again", "joined"):
            note(f"question: {asked}")
            return Step()
        note("question: asked of an upstream")
        return Step(packets=[self.query(asked)])

    def query(self, entry):
        """The query of an open question, to the upstream that it is at."""
        return self.upstreams[entry.upstream], query_octets(entry.identifier, entry.name, entry.rtype)

    # Datagrams

    def datagram(self, now, address, word, octets):
        """Octets from an address: of an upstream a reply, of a peer a frame, of any other a question."""
        self.raise_clock(now)
        if address in self.upstreams:
            return self.reply(self.upstreams.index(address), octets)
        if address in self.peers:
            note("site: a datagram of a peer")
            return self.take_frame(octets)
        return self.question(address, word, octets)

    def reply(self, upstream, octets):
        """A reply of an upstream. After a refusal its question stays open."""
        header = read_header(octets)
        if header is None or not header.response:
            return Step(refused="dropped")
        try:
            message = read_reply(octets)
        except ReadFault as fault:
            return Step(refused=f"read {fault}")
        entry = open_questions.find(self.entries, upstream, header.identifier, message.question)
        if entry is None:
            return Step(refused="unmatched")
        try:
            meaning = replies.digest(message)
        except replies.DigestFault as fault:
            return Step(refused=f"digest {fault}")
        note("site: a reply is relayed to one" if len(entry.waiters) == 1 else "site: a reply is relayed to several")
        packets = [(waiter.address, replies.relay(meaning, waiter.question, waiter.identifier))
                   for waiter in entry.waiters]
        observations = replies.observations_of(meaning, self.clock)
        self.taken |= set(observations)
        self.entries.remove(entry)
        return Step(packets, frames.pack(observations), len(observations))

    def take_frame(self, octets):
        """A frame is refused whole, or all its observations are taken in."""
        try:
            observations = frames.decode(octets)
        except frames.FrameFault as fault:
            return Step(refused=f"frame {fault}")
        if any(one in self.taken for one in observations):
            note("site: a frame with what is known")
        self.taken |= set(observations)
        return Step(taken=len(observations))

    # Other steps

    def frame(self, now, octets):
        """Octets that are handed in as a frame."""
        self.raise_clock(now)
        return self.take_frame(octets)

    def learn(self, now, octets):
        """Takes in the observations of a reply that nobody waits for."""
        self.raise_clock(now)
        try:
            observations = replies.observations_of(replies.digest(read_reply(octets)), self.clock)
        except ReadFault as fault:
            return Step(refused=f"read {fault}")
        except replies.DigestFault as fault:
            return Step(refused=f"digest {fault}")
        self.taken |= set(observations)
        return Step(taken=len(observations))

    def tick(self, now):
        """Purges to the clock, and serves the first open question that is due."""
        self.raise_clock(now)
        self.purge(self.clock)
        step = Step()
        over = open_questions.due(self.entries, self.clock)
        if over:
            step.packets = self.serve(over[0])
            step.more = bool(open_questions.due(self.entries, self.clock))
        return step

    def serve(self, entry):
        """Asks the next upstream under the same identifier. After the last one every waiter gets a failure."""
        if entry.upstream + 1 < len(self.upstreams):
            note("site: the next upstream is asked")
            entry.upstream += 1
            entry.deadline = self.clock + TRY_SECONDS
            return [self.query(entry)]
        note("site: a question fails")
        self.entries.remove(entry)
        return [(waiter.address, failure(waiter)) for waiter in entry.waiters]

    def purge(self, now):
        """Raises the floor."""
        self.floor = max(self.floor, now)

    def sweep(self):
        """All that it holds, as frames."""
        return Step(frames=frames.pack(self.items()))

    def flush(self, now, name):
        """Withdraws what was learnt at and below a name, as of the clock."""
        self.raise_clock(now)
        flush = flush_of(name, self.clock)
        self.taken.add(flush)
        return Step(frames=frames.pack([flush]), taken=1)

    def merge(self, other):
        """Takes in all that another site holds, and purges to its floor. It gives how many observations that were."""
        if other is self:
            return 0
        given = len(other.items())
        self.taken |= other.taken
        self.purge(other.floor)
        self.clock = max(self.clock, self.floor)
        return given

    def restart(self):
        """Begins again as new."""
        self.taken, self.floor, self.clock, self.entries = set(), 0, 0, []

    def is_same(self, other):
        """Whether floor and items are equal."""
        return self.floor == other.floor and self.items() == other.items()


def failure(waiter):
    """The reply to a waiter whose question failed."""
    return Reply(waiter.identifier, True, SERVER_FAILURE, waiter.question).octets()
