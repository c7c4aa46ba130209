#!/usr/bin/env python3
"""Hosts of a fleet behind their fronts, to which harm is done every half minute, while clients ask them. Status 0 says that
no answer was wrong or too old, and that the cause of each that did not come is known. See README.md."""

import argparse
import json
import os
import random
import shutil
import struct
import sys
import threading
import time
from pathlib import Path

sys.dont_write_bytecode = True

import records
from clients import CLIENTS
from judge import Judge, head, row
from lab import ADDRESSES, CABLES, HOSTS, PORTS, ROOM, ROOT, Hosts, enter

# The seconds between two harms, those that one lasts at most, and how often of a hundred times a second one comes too.
STEP, LONGEST, TWICE = 30, 10, 25
# By how many seconds a clock is moved at most.
AHEAD = 5
NEVER = float("inf")
FORGED = bytes.fromhex("20010db8000000000000000000000bad")


class Trial:
    """The hosts, what runs on them, and what was done to them."""

    def __init__(self, options):
        self.options, self.words = options, random.Random(options.seed)
        self.hosts = Hosts(os.path.abspath(options.program), CLIENTS)
        self.lock, self.harms, self.watched = threading.Lock(), [], [*HOSTS, "client"]

    def begin(self):
        """Starts the sites, and has them learn the known names. Gives whether all have them."""
        for host in HOSTS:
            self.hosts.begin_site(host)
        looks = [self.hosts.new(host) for host in HOSTS]
        is_well = max(wait() for wait in looks) < NEVER
        is_well = is_well and self.hosts.look("client", "learn", "learn", ADDRESSES["a"], 53)() < NEVER
        looks = [self.hosts.known(host) for host in HOSTS] if is_well else []
        is_well = is_well and max(wait() for wait in looks) < NEVER
        for place in self.watched:
            self.hosts.python(place, "watch.py", "counts", ROOM / f"{place}.site", *PORTS)
        return is_well

    # Each harm is done at a place and lasts some seconds. It gives the moments at which it ended, and at which all was well
    # again.

    def kill(self, host, seconds):
        self.hosts.hosts[host].end("site")
        time.sleep(seconds)
        wait = self.hosts.known(host)
        ended = time.time()
        self.hosts.begin_site(host)
        return ended, wait()

    def cut(self, place, seconds):
        self.hosts.wire.cut(place)
        time.sleep(seconds)
        waits = [self.hosts.new(host) for host in ([place] if place in HOSTS else HOSTS)]
        ended = time.time()
        self.hosts.wire.heal(place)
        return ended, max(wait() for wait in waits)

    def front(self, host, seconds):
        self.hosts.hosts[host].end("dnsdist")
        time.sleep(seconds)
        wait = self.hosts.new(host)
        ended = time.time()
        self.hosts.begin_dnsdist(host)
        return ended, wait()

    def clock(self, host, seconds):
        """The clock is ahead by half of so many seconds for ten, and then stands still until it is right."""
        ahead = max(1, round(seconds * AHEAD / LONGEST))
        self.hosts.clocks[host].set(ahead)
        time.sleep(LONGEST)
        self.hosts.clocks[host].set(0)
        ended = time.time()
        time.sleep(ahead)
        return ended, time.time()

    def harm(self, kind, place, seconds):
        began = time.time()
        ended, well = getattr(self, kind)(place, seconds)
        with self.lock:
            self.harms.append({"kind": kind, "place": place, "began": began, "ended": ended, "well": well})

    def step(self, kinds):
        """One harm, or two at different places, by chance."""
        places, threads = [*HOSTS, "provider"], []
        for _ in range(1 + (self.words.randrange(100) < TWICE)):
            kind = self.words.choice(kinds)
            place = self.words.choice([it for it in places if it in (CABLES if kind == "cut" else HOSTS)])
            places.remove(place)
            seconds = self.words.choice((0, LONGEST / 2, LONGEST)) * self.words.random()
            threads.append(threading.Thread(target=self.harm, args=(kind, place, seconds)))
        for thread in threads:
            thread.start()
        return threads


def plant(trial, what):
    """What has to be told: the site of host a hears of another address of a name, or the clock of host b's site goes back,
    and nobody says so."""
    if what == "old":
        trial.hosts.clocks["b"].set(-60, False)
    if what == "wrong":
        name = records.name_of(records.ADDRESS, 1, 5)
        entry = struct.pack("!BBQI", 3, 3, int(time.time()), 600) + name + struct.pack("!3H", records.AAAA, 1, 16) + FORGED
        trial.hosts.forge("a", b"DG\x02" + struct.pack("!H", 1) + entry)


def progress(trial, began):
    told = json.loads((ROOM / "told").read_text())["seen"]
    names = ("asked", "first", "second", "wrong", "past its TTL")
    codes, none = (sum(told.get(f"{what} {way}", 0) for way in ("same", "other")) for what in ("code", "none"))
    row(f"{(time.monotonic() - began) / 60:.1f}", len(trial.harms), *(f"{told.get(it, 0):,}" for it in names), codes, none)


def load():
    return f"{os.getloadavg()[0]:.1f}"


def keep(trial, folder):
    """Keeps what was noted of each answer that was out of the ordinary, of the harms, and by the sites and fronts."""
    folder.mkdir(parents=True, exist_ok=True)
    clocks = {host: clock.history for host, clock in trial.hosts.clocks.items()}
    (folder / "harms").write_text(json.dumps({"harms": trial.harms, "clocks": clocks}))
    for path in [ROOM / "told", ROOM / "cases", *ROOM.glob("*.watch"), *ROOM.glob("*.site"), *ROOM.glob("*.dnsdist")]:
        shutil.copy(path, folder)


def run(options):
    """Does harm for so many minutes, and gives what was not as it should be."""
    trial, kinds, seconds = Trial(options), options.kinds.split(","), 60 * options.minutes
    if not trial.begin():
        return ["the sites do not answer, or do not tell each other"]
    fronts = [ADDRESSES[it] for it in HOSTS]
    trial.hosts.python("client", "clients.py", options.seed, seconds, options.rate, ROOM, *fronts)
    began, steps = time.monotonic(), 0
    print(f"seed {options.seed}: {options.minutes:g} minutes, {options.rate:g} questions a second; load {load()}")
    head("Minute", "Harms", "Asked", "At the first try", "At the second", "Wrong", "Past the TTL", "Code twice", "None")
    while (steps + 1) * STEP < seconds:
        steps += 1
        time.sleep(max(0, began + (steps - 0.7) * STEP - time.monotonic()))
        plant(trial, options.plant if steps == 1 else None)
        for thread in trial.step(kinds):
            thread.join()
        if steps % 10 == 0:
            progress(trial, began)
    trial.hosts.hosts["client"].programs["clients"].wait()
    progress(trial, began)
    print(f"\nload {load()}")
    if options.keep:
        keep(trial, Path(options.keep))
    return Judge(trial).told()


def options_of():
    parser = argparse.ArgumentParser(description=__doc__)
    parser.add_argument("--program", default=ROOT / "crates/dnsfleet/out/dnsfleet")
    parser.add_argument("--minutes", type=float, default=50, help="how long (50)")
    parser.add_argument("--seed", type=int, default=1, help="of what is by chance (1)")
    parser.add_argument("--rate", type=float, default=120, help="questions a second of all clients (120)")
    parser.add_argument("--kinds", default="kill,cut,front,clock", help="the harms")
    parser.add_argument("--keep", help="a folder for what was noted")
    parser.add_argument("--plant", choices=("wrong", "old"), help="what has to be told")
    return parser.parse_args()


def main():
    options = options_of()
    enter()
    faults = run(options)
    for fault in faults[:20]:
        print(f"not as it should be: {fault}")
    print(f"{len(faults)} faults" if faults else "all was as it should be")
    sys.exit(1 if faults else 0)


if __name__ == "__main__":
    main()
