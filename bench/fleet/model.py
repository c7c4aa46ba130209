"""The model of a fleet: which sites are peers, what a sweep is, and how news and traffic go. See README.md."""

import functools
import heapq
import itertools
import math
import operator
import random
import sys
from dataclasses import dataclass, field

from machine import ASLEEP, Client, Processors

# A turn waits so many seconds for a datagram.
WAIT = 0.2
# So many datagrams of a sweep leave at a time, so many seconds apart; a frame of at most SHORT octets leaves at once.
BURST, PAUSE, SHORT = 2, 0.001, 512
# Octets of the longest frame and of a frame's head, and those of IP and UDP for each datagram.
LONGEST_FRAME, HEAD, HEADERS = 16384, 5, 28
# How many seconds a frame of over SHORT octets takes its receiver, where all of it is known, and where something is new.
KNOWN, NEW = 0.0001, 0.0003
# How many frames wait to be sent at most, each once for all peers.
MOST_LEAVING = 4095
# How many seconds a record lives whose worth is told.
LIFE = 300
# News comes up over so many sweeps at least; in small fleets over more, so that few go through the same sweeps.
LEAST_SWEEPS, SWEEPS_OF_SITES = 4, 10_000
# A run ends so many sweeps after the last news came up, whatever is missing.
MOST_SWEEPS = 40
# The degree of an arrangement where none is stated.
DEGREES = {"mesh": 16, "ring": 2, "tree": 2, "random": 16}


def option(default, text):
    return field(default=default, metadata={"help": text})


@dataclass(frozen=True)
class Scenario:
    """A fleet, what it holds, and what happens to it."""

    arrangement: str = "mesh"
    sites: int = 17
    degree: int = option(0, "peers of each site of a ring or at random, sites below each of a tree; 0 is 2, 16, 2")
    sweep: int = option(30, "seconds between sweeps")
    spread: bool = option(False, "sites start one after the other, over the time of a sweep")
    names: int = option(0, "names that every site holds")
    entry: int = option(48, "octets of the entry of each name")
    questions: float = option(0.0, "questions a second at each site")
    polled: bool = option(False, "the questions are a client's, which asks each site in turn that lacks the news")
    loss: float = option(0.0, "the share of frames that get lost")
    restarts: float = option(0.0, "restarts of each site in an hour")
    send: float = option(0.06, "milliseconds that a datagram takes its sender")
    wake: float = option(0.0, "milliseconds that a frame or a question takes longer where the processor sleeps")
    take: float = option(0.06, "milliseconds that a frame of at most 512 octets takes its receiver")
    question: float = option(0.06, "milliseconds that a question of a client that measures takes its site")
    answer: float = option(0.06, "milliseconds that an answer to it takes once its question has come")
    begin: float = option(0.0, "milliseconds after which that client begins to ask")
    ask: float = option(0.06, "milliseconds that a question takes it")
    look: float = option(0.0, "milliseconds that it takes to look for answers")
    switch: float = option(0.0, "milliseconds that a shared processor takes from one site to the next")
    processors: int = option(0, "processors that all sites and the client share; 0: each has its own")
    link: int = option(0, "octets of the link for each datagram; loopback counts 14")
    rounds: int = option(64, "how many news, or late sites, are followed")
    seed: int = option(1, "of what is drawn by chance")


def exchanged(pairs, words):
    """Other pairs in which each site has as many peers: two pairs by chance exchange an end, again and again."""
    known = set(pairs)
    for _ in range(5 * len(pairs)):
        one, other = words.randrange(len(pairs)), words.randrange(len(pairs))
        (a, b), (c, d) = pairs[one], words.choice((pairs[other], pairs[other][::-1]))
        made = [(min(it), max(it)) for it in ((a, d), (c, b)) if it[0] != it[1]]
        if len(set(made)) == 2 and not known.intersection(made):
            known -= {pairs[one], pairs[other]}
            known |= set(made)
            pairs[one], pairs[other] = made
    return pairs


def pairs_of(arrangement, sites, degree, words):
    """Which sites are peers."""
    if arrangement == "mesh":
        return itertools.combinations(range(sites), 2)
    if arrangement == "tree":
        return [((it - 1) // degree, it) for it in range(1, sites)]
    ring = [(it, (it + step) % sites) for it in range(sites) for step in range(1, degree // 2 + 1)]
    return ring if arrangement == "ring" else exchanged([(min(it), max(it)) for it in ring], words)


class Fleet:
    """The peers of each site, in the order in which it sends to them."""

    def __init__(self, scenario):
        sites, degree = range(scenario.sites), scenario.degree or DEGREES[scenario.arrangement]
        self.peers = [[] for _ in sites]
        for one, other in pairs_of(scenario.arrangement, len(sites), degree, random.Random(scenario.seed)):
            self.peers[one].append(other)
            self.peers[other].append(one)
        self.most, self.pairs = max(map(len, self.peers)), sum(map(len, self.peers))
        if self.most > 16 or len(self.hops_from(0)) < len(sites):
            sys.exit("a site has more than 16 peers, or not all sites are joined")
        # A ring looks alike from each site; what follows takes long in one.
        self.diameter = max(self.hops_from(0).values()) if scenario.arrangement == "ring" else self.hops_at_most()

    def hops_at_most(self):
        """How many hops lie between two sites at most, by the set of sites near each, which has a bit for each site."""
        everyone, near, hops = (1 << len(self.peers)) - 1, [1 << it for it in range(len(self.peers))], 0
        while any(it != everyone for it in near):
            near = [functools.reduce(operator.or_, map(near.__getitem__, them), own) for own, them in zip(near, self.peers)]
            hops += 1
        return hops

    def hops_from(self, site):
        """How many hops each site is from one."""
        hops, reached = {site: 0}, [site]
        for one in reached:
            for other in self.peers[one]:
                if other not in hops:
                    hops[other] = hops[one] + 1
                    reached.append(other)
        return hops


class Sweep:
    """The frames of a sweep to one peer."""

    def __init__(self, scenario):
        self.entries = (LONGEST_FRAME - HEAD) // scenario.entry
        self.frames = math.ceil(scenario.names / self.entries)
        self.octets = scenario.names * scenario.entry + self.frames * (HEAD + HEADERS + scenario.link)
        self.is_short = scenario.names * scenario.entry + HEAD <= SHORT
        self.send, self.wake, self.take, self.question, self.answer, self.begin, self.ask, self.look = (
            getattr(scenario, it) / 1000 for it in "send wake take question answer begin ask look".split())

    def arrival(self, number):
        """How many seconds after the begin of a sweep its datagram of this number arrives, of those to all peers."""
        if self.is_short:
            return self.send * (number + 1)
        return number // BURST * PAUSE + self.send * (number % BURST + 1)

    def leaving(self, peers):
        """How many seconds a sweep to so many peers takes to leave."""
        return 0 if self.is_short else self.frames * peers / BURST * PAUSE


def each_of(news):
    """The numbers of the news in a set, which has a bit for each."""
    while news:
        yield (news & -news).bit_length() - 1
        news &= news - 1


class Run:
    """A fleet that runs: which news each site holds, and when it first had each."""

    def __init__(self, scenario, fleet, news, seed):
        self.scenario, self.fleet, self.sweep = scenario, fleet, Sweep(scenario)
        self.words, self.queue, self.numbers = random.Random(seed), [], itertools.count()
        self.polls = scenario.questions if scenario.polled else 0
        self.rate = scenario.questions - self.polls
        self.held, self.known, self.turns = ([0] * scenario.sites for _ in range(3))
        # When each site, and the client, is idle again, when its sweep has left, and when its turn ends.
        self.idle, self.left, self.end = ([0.0] * (scenario.sites + 1) for _ in range(3))
        self.due = [scenario.spread * it * scenario.sweep // scenario.sites for it in range(scenario.sites)]
        sweeps = max(LEAST_SWEEPS, min(news, SWEEPS_OF_SITES // scenario.sites))
        self.begun = [1 + sweeps * scenario.sweep * self.words.random() for _ in range(news)]
        self.learners = [self.words.randrange(scenario.sites) for _ in range(news)]
        # In which frame of a sweep each news is: a sweep is in the order of names.
        self.places = [self.words.randrange(max(1, self.sweep.frames)) for _ in range(news)]
        self.arrivals, self.missing, self.lives = [[] for _ in range(news)], news * scenario.sites, 0
        # The client that measures works, too, and comes behind the sites.
        self.processors = Processors(scenario, scenario.sites + 1, self.push)
        self.client = Client(self, scenario.sites)
        for one, begun in enumerate(self.begun):
            self.push(begun, self.learn, one)
        for site in range(scenario.sites):
            self.plan(site)
            if scenario.restarts:
                self.push(self.words.expovariate(scenario.restarts / 3600), self.restart, site)

    def push(self, moment, action, *what):
        heapq.heappush(self.queue, (moment, next(self.numbers), action, what))

    def run(self):
        """Runs until each site has had all news; where sites restart, to the end of the last record at least."""
        now, last = 0, max(self.begun)
        least = last + LIFE if self.scenario.restarts else 0
        most = last + max(LIFE, MOST_SWEEPS * self.scenario.sweep)
        while now < least or self.missing and now < most:
            now, _, action, what = heapq.heappop(self.queue)
            action(now, *what)
        return self

    def plan(self, site):
        """Plans the turn during which the next sweep of a site falls due. A turn's moment is that of its begin, so it is the
        next turn that sweeps."""
        self.turns[site] = 2
        self.wait(self.due[site], site, WAIT if self.rate else self.words.uniform(0, WAIT))

    def wait(self, now, site, most):
        """A turn ends with a question, or after so long at most."""
        self.end[site] = now + (min(most, self.words.expovariate(self.rate)) if self.rate else most)
        self.push(self.end[site], self.end_turn, site, self.end[site])

    def end_turn(self, now, site, planned=None):
        """A turn ends, with a sweep where that is due. One that was planned may have ended before."""
        if now < self.due[site] or planned not in (None, self.end[site]):
            return
        self.turns[site] -= 1
        if self.turns[site]:
            self.wait(now, site, WAIT)
        else:
            self.send_sweep(now, site)
            self.due[site] += self.scenario.sweep
            self.plan(site)

    def send_sweep(self, now, site):
        """Sends all that a site holds. Of frames without news the first two count, where the sweep of a peer is due."""
        held, others, due, peers = self.held[site], self.held, self.due, self.fleet.peers[site]
        begin = max(now, self.left[site])
        self.left[site] = begin + self.sweep.leaving(len(peers))
        soon = begin + len(peers) * PAUSE
        for place, peer in enumerate(peers):
            news = held & ~others[peer]
            may_end = soon >= due[peer]
            if news or may_end:
                frames = dict.fromkeys(range(min(2, max(1, self.sweep.frames))) if may_end else (), 0)
                for one in each_of(news):
                    frames[self.places[one]] = frames.get(self.places[one], 0) | 1 << one
                for number, some in frames.items():
                    self.send(begin + self.sweep.arrival(number * len(peers) + place), peer, some, self.sweep.is_short)

    def send(self, moment, peer, news, is_short):
        """Sends a frame that arrives at a moment, unless it gets lost."""
        if self.words.random() >= self.scenario.loss:
            self.push(moment, self.receive, peer, news, is_short)

    def receive(self, now, site, news, is_short):
        """A frame comes in, behind what its receiver is at."""
        news &= ~self.held[site]
        self.follow(now, site, self.sweep.take if is_short else NEW if news else KNOWN, self.took, site, news, now)

    def took(self, now, site, news, came):
        """A site has taken a frame."""
        self.take(now, site, news)
        if came >= self.due[site]:
            self.end_turn(now, site)

    def work(self, now, worker, seconds, then, *what):
        """A site, or the client, works so long, once it has a processor; then something happens."""
        later = () if self.scenario.processors else (self.push,)
        self.follow(now, worker, seconds, *later, then, *what)

    def follow(self, now, worker, seconds, then, *what):
        """As `work`; but what happens then is told at once, with its moment, where each has a processor of its own."""
        if self.scenario.processors:
            self.processors.give(now, worker, seconds, then, *what)
        else:
            sleeps = now > self.idle[worker] + ASLEEP
            self.idle[worker] = max(now + self.sweep.wake * sleeps, self.idle[worker]) + seconds
            then(self.idle[worker], *what)

    def ran(self, now, worker):
        """A site, or the client, has just run, so its processor does not sleep."""
        self.idle[worker] = max(now, self.idle[worker])
        self.processors.rouse(now)

    def learn(self, now, one):
        """A site learns news from an upstream, and tells its peers at once."""
        site = self.learners[one]
        self.take(now, site, 1 << one)
        self.ran(now, site)
        for peer in self.fleet.peers[site]:
            self.follow(now, site, self.sweep.send, self.send, peer, 1 << one, True)
        if self.polls:
            self.note(now, site, 1 << one)
            self.ran(now, self.client.number)
            self.work(now, self.client.number, self.sweep.begin, self.client.begin)
        self.end_turn(now, site)

    def take(self, now, site, news):
        self.held[site] |= news
        self.count(now, news, 1)
        if not self.polls:
            self.note(now, site, news)

    def count(self, now, news, sign):
        """Counts what is left of the lives of records that a site takes, or loses."""
        for one in each_of(news):
            self.lives += sign * max(0, 1 - (now - self.begun[one]) / LIFE)

    def note(self, now, site, news):
        """Notes when a site first has news, or when the client first has its answer."""
        for one in each_of(news & ~self.known[site]):
            self.arrivals[one].append((now - self.begun[one], site))
            self.missing -= 1
        self.known[site] |= news

    def restart(self, now, site):
        """A site begins anew, with nothing."""
        self.count(now, self.held[site], -1)
        self.held[site], self.left[site], self.due[site] = 0, now, int(now) + self.scenario.sweep
        self.plan(site)
        self.push(now + self.words.expovariate(self.scenario.restarts / 3600), self.restart, site)

    def ask(self, now, site):
        """A question of the client comes in."""
        self.work(now, site, self.sweep.question, self.answer, site)

    def answer(self, now, site):
        """A site has answered the client, and is done with it."""
        self.note(now - self.sweep.question + self.sweep.answer, site, self.held[site])
        self.client.be_answered(now)
        self.end_turn(now, site)


@functools.lru_cache(1)
def news_of(scenario):
    """Seconds until sites have news, by hops from the site that learnt it, and until all have it."""
    fleet, by_hops, everywhere = Fleet(scenario), {}, []
    runs, news = (scenario.rounds, 1) if scenario.polled else (1, scenario.rounds)
    for number in range(runs):
        run = Run(scenario, fleet, news, f"{scenario.seed} {number}").run()
        for learner, arrivals in zip(run.learners, run.arrivals):
            hops = fleet.hops_from(learner)
            for moment, site in arrivals:
                by_hops.setdefault(hops[site], []).append(moment)
            everywhere.append(after(arrivals, scenario.sites))
    return by_hops, everywhere


def after(arrivals, sites):
    """Seconds until so many sites had news."""
    return sorted(arrivals)[sites - 1][0] if len(arrivals) >= sites else math.inf


def traffic_of(scenario, fleet):
    """Octets and datagrams a second of all, what the busiest site sends of both, and a processor's share for its frames."""
    sweep, asked, all_asked = Sweep(scenario), scenario.questions, scenario.questions * scenario.sites
    whole, most = fleet.pairs / scenario.sweep, fleet.most / scenario.sweep
    # An entry has 24 octets and the name, a question 16 and the name, its answer 30 and the name twice.
    question, answer = (it + HEADERS + scenario.link for it in (scenario.entry - 8, 2 * scenario.entry - 18))
    return (whole * sweep.octets + all_asked * (question + answer), whole * sweep.frames + 2 * all_asked,
            most * sweep.octets + asked * answer, most * sweep.frames + asked, most * sweep.frames * KNOWN)


def shares_of(scenario, peers, words):
    """Per cent of the names that the last site has after each of three sweeps of its peers, where it comes late."""
    sweep = Sweep(scenario)
    missing = [sweep.entries] * (sweep.frames - 1) + [scenario.names - (sweep.frames - 1) * sweep.entries]
    for _ in range(3):
        missing = [it for it in missing if all(words.random() < scenario.loss for _ in range(peers))]
        yield 100 - 100 * sum(missing) / scenario.names


def first_limit(scenario, fleet, seconds):
    """What gives way first as names grow, and at how many, where news is everywhere after so many seconds."""
    if seconds > LIFE:
        return "freshness"
    ways = fleet.most / scenario.sweep
    frames, what = min((BURST / PAUSE / ways, "sender"), (1 / KNOWN / ways, "processor"), (MOST_LEAVING, "queue"))
    return f"{what}, {frames * Sweep(scenario).entries / 1e6:.1f} million"
