"""The lines of a script, and what they print."""

from .fleet import Fleet
from .limits import KIND_WORDS
from .names import name_text
from .reached import note
from .words import READERS, LineFault, octets_text

LINE_LIMIT = 65536

EVENTS = {
    "sites": ("count",),
    "learn": ("site", "moment", "octets"),
    "ask": ("site", "moment", "octets"),
    "show": ("site",),
    "datagram": ("site", "moment", "address", "word", "octets"),
    "tick": ("site", "moment"),
    "sweep": ("site",),
    "frame": ("site", "moment", "octets"),
    "deliver": ("site", "moment", "frame"),
    "merge": ("site", "site"),
    "flush": ("site", "moment", "name"),
    "restart": ("site",),
    "same": ("site", "site"),
}


def item_text(item):
    """One item of a cache, as it is shown."""
    return " ".join([KIND_WORDS[item.kind], str(item.rank), str(item.stamp), str(item.life), name_text(item.name),
                     str(item.rtype), octets_text(item.body)])


class Script:
    """A script of a fleet, run line by line. Without a line `sites` it has one site."""

    def __init__(self):
        self.fleet = Fleet(1)
        self.begun = False

    def run_line(self, line):
        """What the octets of a line, without the line feed, print: a list of lines. A line at fault raises its fault,
        the first in order."""
        if len(line) > LINE_LIMIT:
            raise LineFault("line too long")
        if not line.isascii():
            raise LineFault("not ASCII")
        if not line or line.startswith(b"#"):
            return []
        event, *words = line.decode("ascii").split(" ")
        if event not in EVENTS:
            raise LineFault("unknown event")
        if len(words) != len(EVENTS[event]):
            raise LineFault("wrong number of words")
        values = [READERS[form](word) for form, word in zip(EVENTS[event], words)]
        self.check_values(event, values)
        self.begun = True
        note(f"event: {event}")
        return getattr(self, event)(*values)

    def check_values(self, event, values):
        """The faults of a line whose words are all right."""
        if event == "sites" and self.begun:
            raise LineFault("sites must come first")
        for form, things, fault in (("site", self.fleet.sites, "no such site"),
                                    ("frame", self.fleet.frames, "no such frame")):
            for kind, value in zip(EVENTS[event], values):
                if kind == form and value >= len(things):
                    raise LineFault(fault)

    def report(self, step, last):
        """What a step prints: its packets, its frames, and a last line. A refusal stands in place of the last line."""
        lines = [f"send {address} {octets_text(octets)}" for address, octets in step.packets]
        lines += [f"frame {index} {octets_text(self.fleet.frames[index])}" for index in self.fleet.keep(step)]
        if step.refused is not None:
            note(f"refused {step.refused}")
            last = f"refused {step.refused}"
        return lines + [last]

    def sites(self, count):
        """Makes the sites."""
        self.fleet = Fleet(count)
        return []

    def learn(self, site, now, octets):
        """A site learns a reply."""
        step = self.fleet.sites[site].learn(now, octets)
        return self.report(step, f"taken {step.taken}")

    def ask(self, site, now, octets):
        """A site answers from what it holds."""
        look = self.fleet.sites[site].ask(now, octets)
        note(f"ask: {look.word}")
        return [f"reply {octets_text(look.octets)}" if look.word == "reply" else look.word]

    def show(self, site):
        """Floor and items of a site."""
        shown = self.fleet.sites[site]
        items = [item_text(item) for item in shown.items()]
        return [f"floor {shown.floor}", *items, f"items {len(items)}"]

    def datagram(self, site, now, address, word, octets):
        """A datagram comes to a site."""
        step = self.fleet.sites[site].datagram(now, address, word, octets)
        return self.report(step, f"taken {step.taken}")

    def tick(self, site, now):
        """A tick of a site."""
        step = self.fleet.sites[site].tick(now)
        return self.report(step, "more" if step.more else "idle")

    def sweep(self, site):
        """A sweep of a site."""
        step = self.fleet.sites[site].sweep()
        return self.report(step, f"swept {len(step.frames)}")

    def frame(self, site, now, octets):
        """Octets come to a site as a frame."""
        step = self.fleet.sites[site].frame(now, octets)
        return self.report(step, f"taken {step.taken}")

    def deliver(self, site, now, number):
        """A frame that was sent comes to a site."""
        return self.frame(site, now, self.fleet.frames[number])

    def merge(self, into, source):
        """A site takes in what another one holds."""
        return [f"merged {self.fleet.sites[into].merge(self.fleet.sites[source])}"]

    def flush(self, site, now, name):
        """A site withdraws a name."""
        step = self.fleet.sites[site].flush(now, name)
        return self.report(step, f"taken {step.taken}")

    def restart(self, site):
        """A site begins again."""
        self.fleet.sites[site].restart()
        return ["restarted"]

    def same(self, site, other):
        """Whether two sites hold the same."""
        same = self.fleet.sites[site].is_same(self.fleet.sites[other])
        note(f"same: {same}")
        return ["same" if same else "different"]
