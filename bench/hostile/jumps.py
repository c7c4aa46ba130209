"""A clock that jumps both ways, and what a site makes of it: the trial `clock` of days.py."""

import collections
import contextlib
import mmap
import os
import random
import struct
import time
from pathlib import Path

import beside
from beside import Bound, Client, Site, Upstream, ask_all, catchup, head, memory_of, question, row, word_of

# Where the clock jumps to, from the latest moment that the site had, and how often of a hundred times.
JUMPS = {"little": (-3, 5, 25), "ahead": (6, 1000, 25), "far ahead": (3600, 200_000, 10), "back": (-1000, -4, 20),
         "far back": (-2_000_000, -3600, 15), "before 1970": (-4_000_000_000, -3_000_000_000, 5)}
# The TTLs of the names that are looked at. A site reads its clock before it waits for a datagram, and whole seconds of it:
# so many seconds its moment may be behind what is told here.
TTLS, BEHIND = (2, 10, 60, 300, 3600, 86400), 1.3
# How long a question that nobody answers stays open, at least and at most, by the site's clock.
LEAST, MOST = 1, 4


class Shifted:
    """A clock that goes as it is told, and the latest moment that it had, which is the site's by the rules."""

    def __init__(self, folder):
        self.path = os.path.join(folder, "seconds-ahead")
        Path(self.path).write_bytes(bytes(8))
        with open(self.path, "r+b") as file:
            self.octets = mmap.mmap(file.fileno(), 8)
        self.ahead, self.latest = 0, 0

    def moment(self):
        self.latest = max(self.latest, time.time() + self.ahead)
        return self.latest

    def set(self, ahead):
        """Sets it so many seconds ahead of the machine's clock."""
        self.moment()
        self.ahead = ahead
        struct.pack_into("=q", self.octets, 0, ahead)

    def jump(self, words):
        """Jumps by chance, and gives which kind of jump it was."""
        kind = words.choices(list(JUMPS), [it[2] for it in JUMPS.values()])[0]
        self.set(round(self.moment() - time.time()) + words.randint(*JUMPS[kind][:2]))
        return kind


class Probes:
    """Names with TTLs of all kinds, and between which moments each ends by the rules."""

    def __init__(self, words, port, clock, count):
        self.names = [f"l{words.choice(TTLS):05d}n{it:04d}.test" for it in range(count)]
        self.ends, self.port, self.clock, self.seen = {}, port, clock, collections.Counter()

    def fault_of(self, name, octets, reply, early, late):
        """What is not by the rules in the reply to a question with RD clear, if anything is."""
        least, most = (end - now for end, now in zip(self.ends[name], (late + BEHIND, early - BEHIND)))
        word = word_of(reply, octets)
        self.seen[word] += 1
        if word != "answer":
            return f"{name}: {word}, where {least:.1f} s were left" if word != "code 5" or least > 0 else None
        (shown,) = struct.unpack("!I", reply[-10:-6])
        if max(least, 1) <= shown <= min(most, int(name[1:6])):
            return None
        return f"{name} has a TTL of {shown} s, where {least:.1f} to {most:.1f} were left"

    def look(self):
        """Asks for each from the cache alone, and has an upstream asked for those that are gone. Gives what is not by the
        rules."""
        asked, early = [question(it, False) for it in self.names], self.clock.moment()
        found, late = ask_all(self.port, asked), self.clock.moment()
        rows = list(zip(self.names, asked, (reply for reply, _ in found)))
        faults = [self.fault_of(*it, early, late) for it in rows]
        gone = [name for name, octets, reply in rows if word_of(reply, octets) != "answer"]
        return [it for it in faults if it] + self.learn(gone)

    def learn(self, gone):
        """Has an upstream asked for names. Each has all of its TTL then, or that is told."""
        asked, before = [question(it) for it in gone], self.clock.moment()
        found, after, faults = ask_all(self.port, asked), self.clock.moment(), []
        for name, octets, (reply, _) in zip(gone, asked, found):
            life, word = int(name[1:6]), word_of(reply, octets)
            self.ends[name] = before + life, after + life
            self.seen["learnt"] += 1
            if word != "answer" or reply[-10:-6] != struct.pack("!I", life):
                faults.append(f"{name}: {word} from the upstream")
        return faults


class Silent:
    """Questions that no upstream answers: each fails two seconds later by the site's clock, and so not while that stands
    still."""

    def __init__(self, port, clock):
        self.asker, self.clock, self.since, self.asked = catchup.bound(0), clock, {}, 0
        self.asker.connect((catchup.HOST, port))
        self.asker.setblocking(False)

    def ask(self):
        self.since[self.asked & 0xFFFF] = self.clock.moment()
        self.asker.send(beside.numbered(question(f"s{self.asked:08d}.test"), self.asked))
        self.asked += 1

    def look(self):
        """Takes what came. Gives what is not by the rules."""
        faults = []
        with contextlib.suppress(BlockingIOError):
            while True:
                reply = self.asker.recv(600)
                lasted = self.clock.moment() - self.since.pop(int.from_bytes(reply[:2], "big"), float("inf"))
                if reply[3] & 15 != 2 or not LEAST <= lasted + BEHIND - 1 < float("inf"):
                    faults.append(f"a question that nobody answers: code {reply[3] & 15} after {lasted:.1f} s")
        waiting = [self.clock.moment() - since for since in self.since.values()]
        return faults + [f"a question is open for {it:.1f} s" for it in waiting if it > MOST]


def clock(options, folder, stack):
    """A clock that jumps both ways under load, and what a site makes of it: its TTLs and its deadlines."""
    library, shifted = beside.build(folder, "hostile/ahead.c", "-shared", "-fPIC"), Shifted(folder)
    words, bound, kinds = random.Random(options.seed), Bound(options.seconds), collections.Counter()
    stack.callback(Upstream(catchup.UPSTREAM).end)
    site = Site(options, folder, catchup.FIRST, [catchup.UPSTREAM], (), 0,
                env={**os.environ, "LD_PRELOAD": library, "CLOCK_AHEAD": shifted.path})
    stack.callback(site.end)
    probes, silent = Probes(words, site.port, shifted, options.names), Silent(site.port, shifted)
    faults, held = probes.learn(probes.names), memory_of(site)
    shifted.set(100)
    time.sleep(0.5)
    if probes.look():
        return ["the library does not move the clock of this program"]
    client = Client(site.port, [question(f"l00300k{it:04d}.test") for it in range(options.names)], options.rate)
    while kinds.total() < options.jumps and bound.left() > options.pause:
        kinds[shifted.jump(words)] += 1
        silent.ask()
        time.sleep(options.pause)
        faults += [f"jump {kinds.total()}: {it}" for it in probes.look() + silent.look()]
    seen = client.end()
    head("Jumps", *JUMPS, "Looks at names: answered", "gone, learnt", "Failed, open of those that nobody answers",
         "Load: right, of", "Slowest ms", "99.9 % ms", "MiB before, after")
    row(kinds.total(), *(kinds[it] for it in JUMPS), f"{probes.seen['answer']:,}",
        f"{probes.seen['code 5']:,}, {probes.seen['learnt']:,}", f"{silent.asked - len(silent.since)}, {len(silent.since)}",
        f"{len(seen.waits):,}, {seen.asked:,}", f"{seen.slowest:.1f}", f"{seen.most:.2f}",
        f"{held:.1f}, {memory_of(site):.1f}")
    if len(seen.waits) < seen.asked:
        faults.append(f"load: {len(seen.waits)} right answers of {seen.asked}, {seen.other} other replies")
    return faults
