"""The machine that a fleet is measured on: processors that sites share, and a client that asks them. See README.md."""

import math
from collections import deque

# How many seconds a processor is idle before it sleeps.
ASLEEP = 0.001
# How many times a client asks quickly at first, and how many seconds apart.
QUICK, QUICKLY = 4, 0.0005


class Processors:
    """Processors that workers share. Who has one keeps it until it has nothing left to do; then who waits longest gets it."""

    def __init__(self, scenario, workers, push):
        self.wake, self.switch, self.push, self.waiting = scenario.wake / 1000, scenario.switch / 1000, push, deque()
        # Since when each processor without a worker has none: that which is idle for longest is taken first.
        self.idle = deque([-math.inf] * scenario.processors)
        self.tasks, self.is_placed = [deque() for _ in range(workers)], [False] * workers

    def rouse(self, now):
        """The processor that is taken next does not sleep."""
        if self.idle:
            self.idle[0] = now

    def give(self, now, worker, seconds, then, *what):
        """Has a worker work so long; then something happens."""
        self.tasks[worker].append((seconds, then, what))
        if self.is_placed[worker]:
            return
        self.is_placed[worker] = True
        if self.idle:
            sleeps = now > self.idle.popleft() + ASLEEP
            self.push(now + self.wake * sleeps, self.begin, worker)
        else:
            self.waiting.append(worker)

    def begin(self, now, worker):
        seconds, *rest = self.tasks[worker].popleft()
        self.push(now + seconds, self.end, worker, *rest)

    def end(self, now, worker, then, what):
        then(now, *what)
        if self.tasks[worker]:
            return self.begin(now, worker)
        self.is_placed[worker] = False
        if self.waiting:
            self.push(now + self.switch, self.begin, self.waiting.popleft())
        else:
            self.idle.append(now)


class Client:
    """A client that asks each site for the news until it has it: as `follow` of ask.c does."""

    def __init__(self, run, number):
        # When it asks again, how often it has asked, whether answers wait for it, and whether it waits for them.
        self.run, self.number, self.again, self.asked, self.is_answered, self.sleeps = run, number, 0.0, 0, False, False

    def work(self, now, seconds, then, *what):
        self.run.work(now, self.number, seconds, then, *what)

    def begin(self, now):
        self.again = now
        self.look(now)

    def look(self, now):
        """It has seen which sites answered. It asks the others again, if it is time to."""
        self.is_answered, lacking = False, [it for it, news in enumerate(self.run.known) if not news]
        if now < self.again:
            self.wait(now)
        elif lacking:
            for site in lacking:
                self.work(now, self.run.sweep.ask, self.run.ask, site)
            self.again += min(1 / self.run.polls, QUICKLY) if self.asked < QUICK else 1 / self.run.polls
            self.asked += 1
            self.work(now, 0, self.wait)

    def wait(self, now):
        """It sleeps until an answer comes, or it is time to ask again."""
        self.sleeps = True
        if self.is_answered:
            self.wake(now, self.again)
        else:
            self.run.push(max(now, self.again), self.wake, self.again)

    def be_answered(self, now):
        self.is_answered = True
        self.wake(now, self.again)

    def wake(self, now, again):
        """It looks for answers, if it sleeps until this time to ask again."""
        if self.sleeps and again == self.again:
            self.sleeps = False
            self.work(now, self.run.sweep.look, self.look)
