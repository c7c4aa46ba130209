"""The maker of a script: it chooses events by weight, and runs the model as it goes."""

import random as randomness
from dataclasses import dataclass, field

from ..fleet import UPSTREAMS, site_address
from ..frames import encode
from ..limits import (CNAME, FLUSH, FRAME_LIMIT, IN, LAST_MOMENT, MESSAGE_LIMIT, NAME_ERROR, QUESTION_LIMIT, TXT,
                      WAITER_LIMIT)
from ..names import name_octets
from ..open_questions import due
from ..reached import note
from ..script import Script
from ..words import LineFault, octets_text
from .bad_lines import bad_line, skipped_line, spelled_otherwise
from .frames import FrameMaker
from .messages import MessageWriter, capitals, spoil
from .replies import ReplyMaker
from .stock import Stock

CLIENTS = ["127.0.0.1:6001", "127.0.0.1:6002", "10.0.0.1:53", "255.255.255.255:65535", "0.0.0.0:1"]
STEPS = [0] * 12 + [1, 1, 1, 2, 2, 3, 5, 8, 20, 60, 250]
WEIGHTS = {"learn": 14, "ask": 14, "question": 9, "reply": 13, "peer": 3, "frame": 12, "deliver": 10, "sweep": 4,
           "flush": 4, "tick": 6, "merge": 3, "show": 4, "same": 2, "restart": 1, "look": 3, "chain": 2,
           "again": 2, "brim": 0.7, "crowd": 0.6, "flood": 0.06, "skip": 1, "bad": 0.6,
           "large": 0.25, "full": 0.25, "many": 0.35, "drain": 0.3}


@dataclass
class MadeScript:
    """A script, what each of its lines prints by the model, and the fault that ends it, if any."""
    lines: list = field(default_factory=list)
    printed: list = field(default_factory=list)
    fault: str | None = None


class ScriptMaker:
    """Makes one script. The same seed and number make the same script."""

    def __init__(self, seed, number):
        self.random = randomness.Random(f"{seed} {number}")
        self.stock = Stock(self.random)
        self.replies = ReplyMaker(self.random, self.stock)
        self.frames = FrameMaker(self.random, self.stock)
        self.model = Script()
        self.made = MadeScript()
        self.asked = []

    # Lines

    def add(self, *words):
        """Adds a line, and runs it."""
        line = " ".join(str(word) for word in words).encode()
        if self.chance(0.01):
            line = spelled_otherwise(self.random, line)
        self.add_line(line)

    def add_line(self, line):
        """Adds the octets of a line, and runs it. Behind a fault nothing is run."""
        self.made.lines.append(line)
        if self.made.fault is not None:
            return
        try:
            self.made.printed.append(self.model.run_line(line))
        except LineFault as fault:
            note(f"line: {fault}")
            self.made.fault = str(fault)

    def make(self):
        """The script: perhaps its sites, events by weight, and a last look at all."""
        count = self.random.choice([1, 1, 2, 2, 3, 4])
        if count > 1 or self.chance(0.2):
            self.add("sites", count)
        weights = {event: weight * self.random.choice([0.3, 1, 1, 3]) for event, weight in WEIGHTS.items()}
        if count == 1:
            weights["merge"] /= 5
        self.start = self.random.choice([0, 0, 100, 100, 1000, 10 ** 9, LAST_MOMENT - 400, LAST_MOMENT - 90000])
        for _ in range(self.random.choice([4, 8, 15, 25, 40, 60])):
            event = self.random.choices(list(weights), weights.values())[0]
            getattr(self, event)(self.random.randrange(count))
            if self.made.fault is not None and self.chance(0.5):
                break
        for site in range(count):
            self.look(site)
            self.add("show", site)
            self.add("same", site, self.random.randrange(count))
        return self.made

    # Choices

    def chance(self, share):
        """True in so many of cases."""
        return self.random.random() < share

    def site(self, index):
        """A site of the model."""
        return self.model.fleet.sites[index]

    def known(self, index):
        """Observations that a site holds, or that some site took in."""
        if self.chance(0.6):
            return self.site(index).items()
        taken = set().union(*(site.taken for site in self.model.fleet.sites))
        return sorted(taken, key=lambda one: one.preference)

    def moment(self, index):
        """A moment for a call: the clock, a little later, or one at which something ends or is due."""
        site = self.site(index)
        clock = max(site.clock, self.start)
        if self.chance(0.2):
            clock = max([clock] + [other.clock for other in self.model.fleet.sites])
        ends = sorted({one.expires for one in site.taken} | {entry.deadline for entry in site.entries})
        near = [end for end in ends if clock <= end <= clock + (4000 if self.chance(0.97) else 100000)]
        if near and self.chance(0.25):
            clock = max(clock, self.random.choice(near[:4] + near[-1:]) + self.random.choice([-1, 0, 0, 1]))
        elif self.chance(0.05):
            clock = max(0, clock - self.random.choice([1, 5, 1000]))
        else:
            clock += self.random.choice(STEPS)
        return min(clock, LAST_MOMENT)

    # Questions

    def asked_for(self, index):
        """A name and a type: of something that the site took in, or any."""
        site = self.site(index)
        items = [one for one in site.items() if one.expires > site.clock] if self.chance(0.85) else self.known(index)
        taken = [one for one in items if one.kind != FLUSH]
        if not taken or self.chance(0.2):
            return self.stock.asked_name(), self.stock.rtype()
        one, name = self.random.choice(taken), ()
        if one.kind == NAME_ERROR and self.chance(0.6) and len(name_octets(one.name)) < 250:
            name = self.random.choice([(b"q",), (b"a", b"b")])
        rtype = self.stock.rtype() if one.rtype in (0, CNAME) and self.chance(0.8) else one.rtype
        return name + one.name, rtype or 1

    def question_octets(self, name, rtype, identifier=None):
        """The octets of a question, mostly a lawful one."""
        random = self.random
        identifier = random.choice([1, 2, 7, 0xFFFF]) if identifier is None else identifier
        writer = MessageWriter(random, capital_share=random.choice([0, 0, 0, 0.5]))
        if self.chance(0.01):
            name = (b"l" * random.choice([1, 62, 63]),) + (b"x" * 63,) * 3
        rtype = rtype if self.chance(0.97) else random.choice([0, 41, 255, 252, 128, CNAME])
        writer.question(name, rtype, IN if self.chance(0.97) else random.choice([0, 3, 255]))
        flags, counts = 0x0100 if self.chance(0.85) else 0, [1, 0, 0, 0]
        if self.chance(0.04):
            flags ^= random.choice([0x8000, 0x0800, 0x7800, 0x0010, 0x0400, 0x0200, 0x000F])
        if self.chance(0.02):
            counts[0] = random.choice([0, 2, 256])
        if self.chance(0.1):
            counts[3] = 1
            writer.record((), 41, 1232, 0, b"")
        writer.header(identifier, flags, counts)
        return spoil(random, writer.octets) if self.chance(0.05) else bytes(writer.octets)

    def ask(self, index):
        """A question that is looked up."""
        self.add("ask", index, self.moment(index), octets_text(self.question_octets(*self.asked_for(index))))

    def look(self, index):
        """Several questions at one moment."""
        moment = self.moment(index)
        for _ in range(10 if self.site(index).taken else 2):
            self.add("ask", index, moment, octets_text(self.question_octets(*self.asked_for(index))))

    def client(self, index):
        """The address of a client. A site's own is one."""
        return self.random.choice(CLIENTS[:3] * 3 + CLIENTS + [site_address(index)])

    def question(self, index):
        """A question of a client, sometimes the same one from several."""
        moment, octets = self.moment(index), self.question_octets(*self.asked_for(index))
        for _ in range(self.random.choice([1, 1, 1, 2, 3])):
            self.client_sends(index, moment, self.client(index), octets)

    def client_sends(self, index, now, address, octets):
        """A datagram of a client. Which questions are open is noted, for late replies."""
        word = self.random.choice([0, 1, 4660, 4660, 0xFFFF, self.random.randrange(65536)])
        self.add("datagram", index, now, address, word, octets_text(octets))
        self.asked += [(index, entry.identifier, entry.name, entry.rtype) for entry in self.site(index).entries[-1:]]

    def crowd(self, index):
        """One question of more clients than may wait for it."""
        moment, octets = self.moment(index), self.question_octets(self.stock.asked_name(), self.stock.rtype())
        for number in range(self.random.choice([3, WAITER_LIMIT + 2])):
            self.client_sends(index, moment, f"127.0.0.2:{6000 + number}", octets)

    def flood(self, index):
        """More questions than may be open."""
        moment = self.moment(index)
        for number in range(QUESTION_LIMIT + 2):
            writer = MessageWriter(self.random)
            writer.question((b"%d" % number, b"f"), 1, IN)
            writer.header(number, 0x0100, (1, 0, 0, 0))
            self.client_sends(index, moment, CLIENTS[0], bytes(writer.octets))
        for _ in range(self.random.choice([0, 20, 100, 250])):
            self.reply(index)
        if self.chance(0.3):
            self.drain(index)
            self.drain(index)

    # Replies

    def reply(self, index):
        """A reply to an open question: mostly the right one, else late, of another upstream, of another question."""
        entries = self.site(index).entries
        if entries and self.chance(0.85):
            entry = self.random.choice(entries)
            upstream, identifier, name, rtype = entry.upstream, entry.identifier, entry.name, entry.rtype
        elif self.asked and self.chance(0.8):
            upstream, (_, identifier, name, rtype) = self.random.choice([0, 1]), self.random.choice(self.asked)
        else:
            self.question(index)
            return
        if self.chance(0.15):
            upstream = 1 - upstream
        if self.chance(0.05):
            identifier = (identifier + self.random.choice([1, 65535, 256])) % 65536
        if self.chance(0.04):
            name = self.stock.name()
        if self.chance(0.04):
            rtype = self.stock.rtype()
        octets = self.replies.reply(identifier, name, rtype, IN if self.chance(0.98) else 3)
        self.add("datagram", index, self.moment(index), UPSTREAMS[upstream], 0, octets_text(octets))

    def learn(self, index):
        """A reply that is learnt."""
        name, rtype = self.stock.name(), self.stock.rtype()
        if self.chance(0.03):
            rtype = self.random.choice([0, 41, 255])
        octets = self.replies.reply(self.random.choice([0, 7]), name, rtype, IN if self.chance(0.98) else 3)
        if self.chance(0.03):
            octets = self.question_octets(name, rtype)
        self.add("learn", index, self.moment(index), octets_text(octets))

    def again(self, index):
        """A line that stood before, once more."""
        before = [line for line in self.made.lines[-30:] if line[:1] not in (b"#", b"s", b"")]
        if before:
            self.add_line(self.random.choice(before))
        else:
            self.learn(index)

    # Frames

    def frame_octets(self, index):
        """The octets of a frame: forged, or one that was sent, as it is or spoilt."""
        kept = self.model.fleet.frames
        if kept and self.chance(0.15):
            octets = self.random.choice(kept)
            return spoil(self.random, octets) if self.chance(0.5) else octets
        return self.frames.frame(self.known(index), max(self.site(index).clock, self.start))

    def frame(self, index):
        """Octets that come in as a frame."""
        self.add("frame", index, self.moment(index), octets_text(self.frame_octets(index)))

    def peer(self, index):
        """A datagram of a peer, or of one that is none."""
        address = site_address(self.random.randrange(len(self.model.fleet.sites) + 1))
        self.add("datagram", index, self.moment(index), address, 7, octets_text(self.frame_octets(index)))

    def chain(self, index):
        """A frame with a chain of aliases, and a question for its beginning."""
        links, moment = self.random.choice([1, 2, 7, 8, 8, 9]), self.moment(index)
        chain = self.frames.chain(max(self.site(index).clock, self.start), links)
        self.random.shuffle(chain)
        self.add("frame", index, moment, octets_text(encode(chain)))
        self.add("ask", index, moment, octets_text(self.question_octets(self.stock.link(0), 1)))

    def large(self, index):
        """Frames with long bodies, and a sweep that needs several frames."""
        for _ in range(self.random.choice([2, 3])):
            entries = [self.frames.huge(max(self.site(index).clock, self.start)), *self.known(index)[:2]]
            self.add("frame", index, self.moment(index), octets_text(encode(entries)))
        self.sweep(index)

    def full(self, index):
        """Two texts whose frame has just the most octets, or one more or less: as one frame, and as a sweep."""
        stamp = max(self.site(index).clock, self.start)
        names = [(b"t",) + self.stock.zone, (b"u",) + self.stock.zone]
        room = FRAME_LIMIT - len(encode([self.frames.text(name, stamp, 0) for name in names]))
        lengths = [room // 2, room - room // 2 + self.random.choice([-1, 0, 0, 1])]
        texts = [self.frames.text(name, stamp, length) for name, length in zip(names, lengths)]
        self.add("frame", index, self.moment(index), octets_text(encode(texts)))
        self.add("restart", index)
        for text in texts:
            self.add("frame", index, self.moment(index), octets_text(encode([text])))
        self.sweep(index)

    def many(self, index):
        """A frame with many names, once more with others among them, and ticks behind it."""
        clock = max(self.site(index).clock, self.start)
        entries = self.frames.many(clock, self.random.choice([20, 60, 150]))
        self.add("frame", index, self.moment(index), octets_text(encode(entries)))
        for one in self.frames.many(clock, 5) + self.known(index)[:5]:
            entries[self.random.randrange(len(entries))] = one
        self.add("frame", index, self.moment(index), octets_text(encode(entries)))
        for _ in range(self.random.choice([0, 1, 4])):
            self.tick(index)
        self.look(index)

    def brim(self, index):
        """A frame with text whose reply has just the most octets, or one more or less, and the question for it."""
        name, moment = self.stock.name(), self.moment(index)
        room = MESSAGE_LIMIT - 12 - 2 * len(name_octets(name)) - 4 - 10
        length = room + self.random.choice([-1, 0, 0, 1])
        if length > 0:
            text = self.frames.text(name, max(self.site(index).clock, self.start), length)
            self.add("frame", index, moment, octets_text(encode([text])))
            self.add("ask", index, moment, octets_text(self.question_octets(name, TXT)))

    def deliver(self, index):
        """A frame that was sent, mostly a late one. Where none was, a sweep."""
        kept = len(self.model.fleet.frames)
        if kept == 0:
            self.sweep(index)
            return
        number = self.random.randrange(kept) if self.chance(0.4) else max(0, kept - self.random.choice([1, 1, 2, 3]))
        for _ in range(self.random.choice([1, 1, 1, 2])):
            self.add("deliver", index, self.moment(index), number)

    def sweep(self, index):
        """A sweep, often delivered at once, frame by frame in any order."""
        first = len(self.model.fleet.frames)
        self.add("sweep", index)
        numbers = list(range(first, len(self.model.fleet.frames)))
        if self.chance(0.5):
            self.random.shuffle(numbers)
            for other in range(len(self.model.fleet.sites)):
                for number in numbers:
                    self.add("deliver", other, self.moment(other), number)
                self.add("same", index, other)

    # Other events

    def flush(self, index):
        """A flush of a name, or of one above it."""
        name = self.stock.ancestor(self.stock.name()) if self.chance(0.4) else self.stock.name()
        name = capitals(self.random, name, self.random.choice([0, 0, 0.5]))
        self.add("flush", index, self.moment(index), octets_text(name_octets(name)))

    def tick(self, index):
        """A tick, sometimes several until none is due."""
        moment = self.moment(index)
        for _ in range(self.random.choice([1, 1, 1, 2, 3])):
            self.add("tick", index, moment)

    def drain(self, index):
        """Ticks until nothing is due."""
        moment = self.moment(index)
        for _ in range(QUESTION_LIMIT + 1):
            self.add("tick", index, moment)
            if not due(self.site(index).entries, self.site(index).clock):
                break

    def merge(self, index):
        """A merge, sometimes there and back."""
        other = self.random.randrange(len(self.model.fleet.sites))
        self.add("merge", index, other)
        if self.chance(0.3):
            self.add("merge", other, index)
            self.add("same", index, other)

    def show(self, index):
        """What a site holds."""
        self.add("show", index)

    def same(self, index):
        """Whether two sites hold the same."""
        self.add("same", index, self.random.randrange(len(self.model.fleet.sites)))

    def restart(self, index):
        """A site begins again."""
        self.add("restart", index)

    def skip(self, index):
        """A line that is skipped."""
        self.add_line(skipped_line(self.random))

    def bad(self, index):
        """A line at fault."""
        self.add_line(bad_line(self.random))
