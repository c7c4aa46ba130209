#!/usr/bin/env python3
"""What a fleet of sites on loopback does: how news travels, what sweeps cost, what a late site has. See README.md."""

import argparse
import bisect
import itertools
import math
import os
import random
import statistics
import subprocess
import sys
import tempfile
import time
from pathlib import Path

sys.dont_write_bytecode = True

import fleet
from fleet import FIRST, Counts, Fleet

HERE = Path(__file__).resolve().parent
# News have names of their own, behind those that all sites have.
FIRST_NEWS = 9_000_000
# How often a site that lacks the news is asked for it, in microseconds: where all are peers, and elsewhere.
STEPS = {"mesh": 100, "ring": 20_000, "tree": 20_000}
# How many seconds the client does nothing where nobody asks; by then peers have taken the news.
AFTERWARDS = 0.01
# How often and for how many seconds a site is asked, to see how soon an answer comes from one that is awake.
OFTEN, LONG = 50_000, 2
# The seconds between two news where news does not wait for sweeps.
PAUSE = 0.05
# An answer that takes as many milliseconds is said to be slow.
SLOW = 10
# How many names clients ask for.
KNOWN = 1000
# How many seconds a sweep may be on its way.
ON_ITS_WAY = 4
# The columns of the table that a simulation is compared with.
COLUMNS = "kind arrangement sites degree sweep spread names entry questions polled hops value".split()


def middle(numbers, places=1):
    """The median, and the range where it is one."""
    numbers = list(numbers)
    least, most = min(numbers), max(numbers)
    text = f"{statistics.median(numbers):,.{places}f}"
    return text if least == most else f"{text} ({least:,.{places}f} to {most:,.{places}f})"


def print_table(heads, rows):
    print("| " + " | ".join(heads) + " |\n" + "|---" * len(heads) + "|")
    for row in rows:
        print("| " + " | ".join(str(it) for it in row) + " |", flush=True)


def keep(options, kind, value, hops="", names=0, questions=0, polled=0):
    """Adds a row to the table that a simulation is compared with."""
    if not options.tsv:
        return
    degree = len(fleet.ARRANGEMENTS[options.arrangement](options.sites)[0])
    row = [kind, options.arrangement, options.sites, degree, options.sweep, int(options.spread), names,
           options.entry, questions, polled, hops, f"{value:.6g}"]
    is_new = not os.path.exists(options.tsv)
    with open(options.tsv, "a") as file:
        if is_new:
            file.write("\t".join(COLUMNS) + "\n")
        file.write("\t".join(str(it) for it in row) + "\n")


class Asker:
    """The client, built where it is needed."""

    def __init__(self, folder):
        self.path = os.path.join(folder, "ask")
        subprocess.run(["cc", "-O2", "-Wall", "-Wl,-z,now", "-o", self.path, HERE / "ask.c"], check=True)

    def words(self, *words):
        """The lines that it prints, as lists of words."""
        told = subprocess.run([self.path, *map(str, words)], stdout=subprocess.PIPE, text=True, check=True).stdout
        return [line.split(" ") for line in told.splitlines()]


def phases(options):
    """When news comes up within the seconds between two sweeps: spread evenly over these, in an order by chance. So fewer
    rounds tell the median. In a mesh news does not wait for sweeps, nor do rounds."""
    found = [options.sweep * (it + 0.5) / options.rounds for it in range(options.rounds)]
    random.shuffle(found)
    return found


def follow_news(options, folder, asker):
    """How long after a site learnt a name the others had it, by hops, and all of them; or its peers, where nobody asks."""
    rounds, group, client = [], Fleet(options, folder), fleet.catchup.bound(0)
    waits_for_sweeps = options.arrangement != "mesh" and not (options.known or options.watched)
    try:
        group.start()
        for site in group.sites if options.known else ():
            group.ask(client, site, [fleet.catchup.name_of(FIRST_NEWS)], True)
        watch = fleet.Watch(group.sites, folder) if options.watched else None
        for phase in phases(options):
            time.sleep((phase - time.time()) % options.sweep if waits_for_sweeps else PAUSE)
            rounds.append(tell_news(options, group, asker, waits_for_sweeps))
        if watch:
            slept, _ = watch.end()
            rounds = [(learner, taken_by(group.peers[learner], slept, learnt)) for learner, learnt in rounds]
    finally:
        client.close()
        group.end()
    print_news(options, group, rounds)


def tell_news(options, group, asker, waits_for_sweeps):
    """Has a site learn a name. Gives the site and how many seconds later others had it; or, where nobody asks, when the
    site had learnt it."""
    learner = random.randrange(options.sites)
    name = FIRST_NEWS if options.known else FIRST_NEWS + random.randrange(1, 900_000)
    if options.watched:
        return learner, learn_alone(options, asker, learner, name)
    patience = options.sweep * (max(fleet.hops_from(group.peers, learner).values()) + 2) if waits_for_sweeps else 2
    lines = asker.words("news", FIRST, options.sites, learner, name, STEPS[options.arrangement], patience)
    return learner, {int(it[1]): float(it[2]) / 1000 for it in lines if it[0] == "had"}


def learn_alone(options, asker, learner, name):
    """Has a site learn a name while nobody else asks. Gives the moment of its answer."""
    return float(asker.words("learn", FIRST, options.sites, learner, name, AFTERWARDS)[-1][1])


def taken_by(peers, slept, learnt):
    """How many seconds after a site learnt a name peers sleep next, which it had woken. One that sleeps later than the client
    waits may not have had it."""
    return {it: seconds for it in peers if (seconds := after(slept[it], learnt)) < AFTERWARDS}


def after(moments, moment):
    """How many seconds after a moment the next of these is."""
    at = bisect.bisect(moments, moment)
    return moments[at] - moment if at < len(moments) else math.inf


def print_news(options, group, rounds):
    by_hops, whole, missing = {}, [], 0
    for learner, had in rounds:
        hops = fleet.hops_from(group.peers, learner)
        for site, seconds in had.items():
            by_hops.setdefault(hops[site], []).append(seconds)
        missing += (len(group.peers[learner]) if options.watched else options.sites - 1) - len(had)
        if len(had) == options.sites - 1:
            whole.append(max(had.values()))
    rows = [(hops, len(some), f"{statistics.median(some):.6f}", f"{max(some):.6f}")
            for hops, some in sorted(by_hops.items())]
    print_table(["Hops", "Samples", "Median s", "Greatest s"], rows)
    if whole:
        print(f"\neverywhere after {statistics.median(whole):.6f} s, at most {max(whole):.6f}, in {len(whole)} rounds")
    print(f"{missing} times a site had it not in time")
    if options.known:
        return
    measure = {} if options.watched else {"questions": 1_000_000 // STEPS[options.arrangement], "polled": 1}
    for hops, some in sorted(by_hops.items()):
        keep(options, "news", statistics.median(some), hops, **measure)
    if whole:
        keep(options, "everywhere", statistics.median(whole), **measure)


def fill(options, group, sites):
    """Has sites learn all names, each its share, and waits until sweeps have brought them everywhere. Gives the share of
    the names that each site has at least."""
    group.learn(sites, options.names)
    for _ in range(group.diameter() + 3):
        time.sleep(options.sweep + ON_ITS_WAY)
        least = min(group.share(site, options.names) for site in sites)
        if least == 100:
            break
    return least


def load_of(options, group, asker):
    """One run: what the sites and the system do while clients ask, and what these get."""
    group.start()
    least = fill(options, group, group.sites)
    before = Counts(group.sites)
    lines = asker.words("load", FIRST, options.sites, options.questions, options.seconds, min(KNOWN, options.names), SLOW)
    after = Counts(group.sites)
    _, asked, answered, other, median, most, slowest = next(it for it in lines if it[0] == "all")
    seconds = after.at - before.at
    ran = [100 * (b - a) / seconds for a, b in zip(before.ran, after.ran)]
    waited = [100 * (b - a) / seconds for a, b in zip(before.waited, after.waited)]
    worst = [float(it[5]) for it in lines if it[0] == "site"]
    if options.slow:
        with open(options.slow, "a") as file:
            file.writelines("\t".join(it[1:]) + "\n" for it in lines if it[0] == "slow")
    return {
        "Share of names %": least, "Processor of a site %": statistics.mean(ran),
        "Waits for a processor %": statistics.mean(waited),
        "Stolen from the machine %": 100 * (after.stolen - before.stolen) / seconds / os.cpu_count(),
        "MB/s, all": (after.octets - before.octets) / seconds / 1e6,
        "Datagrams/s, all": (after.packets - before.packets) / seconds,
        "Dropped by the system": after.dropped - before.dropped,
        "Dropped by the ports": after.dropped_by_ports - before.dropped_by_ports, "Unpaced": after.unpaced - before.unpaced,
        "MiB of a site at most": max(site.memory()[1] for site in group.sites), "Asked": int(asked),
        "Unanswered": int(asked) - int(answered), "Other answers": int(other),
        f"Slower than {SLOW} ms": sum(it[0] == "slow" for it in lines), "Median ms": float(median),
        "99.9 % ms": float(most), "Slowest ms": float(slowest), "Slowest of the median site ms": statistics.median(worst),
    }


def measure_sweeps(options, folder, asker):
    """Several runs of a fleet that has names, is asked and sweeps: medians and ranges."""
    runs = []
    for number in range(options.runs):
        group = Fleet(options, folder)
        try:
            runs.append(load_of(options, group, asker))
        finally:
            group.end()
        told = ", ".join(f"{key} {value:,.2f}" for key, value in runs[-1].items())
        print(f"run {number + 1}: {told}", file=sys.stderr, flush=True)
    rows = [(key, middle((run[key] for run in runs), 2)) for key in runs[0]]
    print_table([f"{options.arrangement} of {options.sites}, {options.names:,} names, a sweep every {options.sweep} s, "
                 + ("spread" if options.spread else "at once"), f"{len(runs)} runs"], rows)


def measure_quiet(options, folder, asker):
    """What a fleet does that nobody asks: with nothing held, and with names."""
    rows, least = [], 100
    group = Fleet(options, folder)
    try:
        group.start()
        for label, names in (("nothing held", 0), (f"{options.names:,} names", options.names)):
            if names:
                least = fill(options, group, group.sites)
            before = Counts(group.sites)
            time.sleep(options.sweep * (2 if names else 1))
            after = Counts(group.sites)
            seconds = after.at - before.at
            ran = [100 * (b - a) / seconds for a, b in zip(before.ran, after.ran)]
            octets, packets = (after.octets - before.octets) / seconds, (after.packets - before.packets) / seconds
            rows.append((label, f"{least:.1f}", f"{statistics.mean(ran):.3f}", f"{max(ran):.3f}", f"{octets:,.0f}",
                         f"{packets:,.0f}", after.dropped - before.dropped, f"{max(site.memory()[0] for site in group.sites):.0f}"))
            if names:
                keep(options, "octets", octets, names=names)
    finally:
        group.end()
    print_table(["", "Share of names %", "Processor of a site %", "Of the busiest %", "Octets/s, all", "Datagrams/s, all",
                 "Dropped by the system", "MiB of a site"], rows)


def watch_late(options, folder):
    """One run: the share of the names that a site has which comes late, by the second, and after the first sweep of all
    its peers."""
    group = Fleet(options, folder)
    try:
        old, late = group.sites[:-1], group.sites[-1]
        group.start(old)
        fill(options, group, old)
        group.start([late])
        began, shares = time.monotonic(), []
        for second in range(1, options.sweep + ON_ITS_WAY + 1):
            time.sleep(max(0, began + second - time.monotonic()))
            shares.append(group.share(late, options.names))
        return shares, late.memory()[1]
    finally:
        group.end()


def measure_late(options, folder, asker):
    """Which share of the names a site has that comes late, by the second: medians and ranges."""
    runs = [watch_late(options, folder) for _ in range(options.runs)]
    print_table(["Seconds", f"Of {options.names:,} names, %"],
                [(second + 1, middle(run[second] for run, _ in runs)) for second in range(options.sweep + ON_ITS_WAY)])
    print(f"\nall after {middle(next((it + 1 for it, share in enumerate(run) if share == 100), 0) for run, _ in runs)} "
          f"seconds (0: not in time); {middle(memory for _, memory in runs)} MiB at most")
    keep(options, "share", statistics.median(run[-1] for run, _ in runs), names=options.names)


def ran_for(group, rounds, action):
    """The milliseconds of processor time that a site takes while another one learns a name by an action: the median. Sites
    learn in turn, each after a pause."""
    others = []
    for site in itertools.islice(itertools.cycle(group.sites), rounds):
        before = [it.processor()[0] for it in group.sites]
        time.sleep(PAUSE)
        action(site.index)
        ran = [1000 * (it.processor()[0] - then) for it, then in zip(group.sites, before)]
        others.append(statistics.mean(ran[: site.index] + ran[site.index + 1 :]))
    return statistics.median(others)


def costs_of(options, folder, asker, sites):
    """What a mesh takes in ms: how long a site works after its answer, while it sends what it learnt, and processor time of
    a peer that takes it, where nobody asks; how soon the first peer has it; how long a processor takes from one site to the
    next; where a client asks all, processor time of a peer, what that client took, and for how much; and how soon an answer
    comes from a site that is awake."""
    options = argparse.Namespace(**{**vars(options), "arrangement": "mesh", "sites": sites})
    group, names, learnt, client = Fleet(options, folder), itertools.count(FIRST_NEWS), [], []

    def learn(learner):
        learnt.append((learner, learn_alone(options, asker, learner, next(names))))

    def follow(learner):
        lines = asker.words("news", FIRST, sites, learner, next(names), STEPS["mesh"], 2)
        client.append([float(it) for it in lines[0][1:]])

    try:
        group.start()
        watch = fleet.Watch(group.sites, folder)
        take = ran_for(group, options.rounds, learn)
        slept, switches = watch.end()
        both = ran_for(group, options.rounds, follow)
        waited = float(asker.words("load", FIRST, 1, OFTEN, LONG, 1, SLOW, "awake")[-1][4])
        works = statistics.median(after(slept[learner], moment) for learner, moment in learnt)
        first = statistics.median(min(after(slept[it], moment) for it in group.peers[learner]) for learner, moment in learnt)
        switch = 1000 * statistics.median(switches or [0])
        return [1000 * works, take, 1000 * first, switch, both, *map(statistics.median, zip(*client)), waited]
    finally:
        group.end()


def measure_costs(options, folder, asker):
    """What the simulation of the first hop needs. What a processor that sleeps costs is what is left of the time until the
    first peer has the news."""
    few, many = (costs_of(options, folder, asker, it) for it in (2, options.sites))
    print_table(["Sites", "Sends for ms", "A peer takes ms", "The first has it after ms", "From site to site ms",
                 "Is asked, too, ms", "The client begins after ms", "Asks for ms", "Looks for ms", "Questions", "Looks",
                 "An answer takes ms"],
                [(sites, *(f"{it:.4f}" for it in row)) for sites, row in ((2, few), (options.sites, many))])
    _, take, first, switch, both, begin, asking, looking, questions, looks, waited = many
    send, ask = (many[0] - few[0]) / (options.sites - 2), asking / questions
    print(f"\n--send {send:.4f} --wake {first - take - send:.4f} --take {take:.4f} "
          f"--question {(both - take) * (options.sites - 1) / questions:.4f} --answer {waited - ask:.4f} --begin {begin:.4f} "
          f"--ask {ask:.4f} --look {looking / looks:.4f} --switch {switch:.4f} --processors {os.cpu_count()}")


JOBS = {"news": follow_news, "costs": measure_costs, "sweeps": measure_sweeps, "quiet": measure_quiet, "late": measure_late}


def options_of():
    words = argparse.ArgumentParser(description=__doc__)
    words.add_argument("job", choices=JOBS)
    words.add_argument("--program", default="crates/dnsfleet/out/dnsfleet", help="the built dnsfleet")
    words.add_argument("--arrangement", choices=fleet.ARRANGEMENTS, default="mesh")
    words.add_argument("--sites", type=int, default=17, help="at most 64, and 17 in a mesh (17)")
    words.add_argument("--sweep", type=int, default=30, help="seconds between sweeps (30)")
    words.add_argument("--spread", action="store_true", help="start sites so that their sweeps are spread over the seconds")
    words.add_argument("--names", type=int, default=20_000, help="names that all hold (20000)")
    words.add_argument("--questions", type=int, default=200, help="questions a second to each site (200)")
    words.add_argument("--seconds", type=int, default=65, help="how long clients ask (65)")
    words.add_argument("--rounds", type=int, default=20, help="how many news are followed (20)")
    words.add_argument("--watched", action="store_true", help="`news` asks no site; perf tells when peers have taken it")
    words.add_argument("--known", action="store_true", help="`news` asks for a name that all know: how long answers take")
    words.add_argument("--runs", type=int, default=1, help="how many times a fleet is started (1)")
    words.add_argument("--slow", help="a file to which slow answers of `sweeps` are added: site, second, milliseconds")
    words.add_argument("--tsv", help="a file to which what a simulation is compared with is added")
    options = words.parse_args()
    is_costs = options.job == "costs"
    least, most = 3 if is_costs else 2, 17 if is_costs or options.arrangement == "mesh" else fleet.MOST_SITES
    if not least <= options.sites <= most:
        words.error(f"{least} to {most} sites")
    # An entry for a name as n0000001.test. with one address.
    options.program, options.entry = os.path.abspath(options.program), 24 + 15
    return options


def main():
    fleet.end_on_signals()
    options = options_of()
    with tempfile.TemporaryDirectory(prefix="dnsfleet-fleet-") as folder:
        JOBS[options.job](options, folder, Asker(folder))


if __name__ == "__main__":
    main()
