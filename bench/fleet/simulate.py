#!/usr/bin/env python3
"""Freshness and traffic of fleets of up to 10,000 sites, simulated. See README.md."""

import argparse
import csv
import itertools
import random
import statistics
import sys
from dataclasses import fields, replace

sys.dont_write_bytecode = True

from model import DEGREES, KNOWN, LIFE, WAIT, Fleet, Run, Scenario, Sweep, after, first_limit, news_of, shares_of, traffic_of

# How far a simulated value may be from the measured one: in per cent of that, or in points for a share.
BOUNDS = {"news": 15, "everywhere": 15, "octets": 10, "share": 1}
# What `large` tries beside a mesh of 17, and the numbers of names whose traffic it tells.
LARGE = (("ring", 2), ("ring", 16), ("tree", 2), ("tree", 15), ("random", 4), ("random", 16))
SIZES, SWEEPS, NAMES = (100, 1_000, 10_000), (30, 60, 300), (1_000, 100_000, 1_000_000)
# What it has happen to two of them, with the first of the sweeps.
TRIED = (("tree", 15), ("random", 16))
TRIALS = {"at once": {"spread": False}, "1 % of frames lost": {"loss": 0.01}, "a restart an hour": {"restarts": 1},
          "1,000,000 names": {"names": 1_000_000}}


def print_row(*cells):
    print("| " + " | ".join(map(str, cells)) + " |", flush=True)


def print_heads(text):
    print_row(*text.split(", "))
    print("|" + "---|" * len(text.split(", ")))


def short(value):
    return f"{value:.2g}" if value < 10 else f"{value:,.0f}"


def print_news(scenario):
    by_hops, everywhere = news_of(scenario)
    print_heads("Hops, Samples, Median s, Greatest s")
    for hops, moments in [*sorted(by_hops.items()), ("everywhere", everywhere)]:
        print_row(hops, len(moments), f"{statistics.median(moments):.6f}", f"{max(moments):.6f}")


def print_traffic(scenario):
    octets, datagrams, most_octets, most_datagrams, share = traffic_of(scenario, Fleet(scenario))
    print_heads("Sites, MB a second, Datagrams a second, Processor for frames %")
    print_row("all", f"{octets / 1e6:.3f}", f"{datagrams:.1f}", "")
    print_row("the busiest sends", f"{most_octets / 1e6:.3f}", f"{most_datagrams:.1f}", f"{100 * share:.2f}")


def print_late(scenario):
    words, fleet = random.Random(scenario.seed), Fleet(scenario)
    rounds = [list(shares_of(scenario, len(fleet.peers[-1]), words)) for _ in range(scenario.rounds)]
    print_heads("After sweep, Names % median, Least, Greatest, Seconds at most")
    for number, shares in enumerate(zip(*rounds), 1):
        seconds = number * scenario.sweep + 2 * WAIT + Sweep(scenario).leaving(fleet.most)
        print_row(number, *(f"{it:.3f}" for it in (statistics.median(shares), min(shares), max(shares))), f"{seconds:.1f}")


def print_large_row(scenario, fleet, what):
    run = Run(scenario, fleet, scenario.rounds, scenario.seed).run()
    half, full = ([after(it, share) for it in run.arrivals] for share in (scenario.sites // 2, scenario.sites))
    seconds = statistics.median(full)
    traffic = list(zip(*(traffic_of(replace(scenario, names=it), fleet) for it in NAMES)))
    agreed = fleet.diameter * (scenario.sweep + 2 * WAIT + Sweep(scenario).leaving(fleet.most))
    print_row(f"{scenario.sites:,}", what, fleet.diameter, scenario.sweep,
              *(f"{it:,.0f}" for it in (statistics.median(half), seconds, max(full), agreed)),
              f"{100 * run.lives / scenario.sites / scenario.rounds:.1f}",
              *(", ".join(short(it / 1e6) for it in traffic[at]) for at in (2, 0)),
              ", ".join(short(100 * it) for it in traffic[4]), first_limit(scenario, fleet, seconds))


def print_large(scenario):
    """Prints which arrangements serve which sizes."""
    print_heads("Sites, Arrangement, Hops, Sweep s, Half have news s, All s, All at most s, Agree after s, Worth %, "
                "Busiest sends MB/s, Fleet MB/s, Processor %, First gives way")
    print_large_row(replace(scenario, spread=True), Fleet(scenario), "mesh")
    for sites, (arrangement, degree) in itertools.product(SIZES, LARGE):
        one = replace(scenario, sites=sites, arrangement=arrangement, degree=degree, spread=True, sweep=SWEEPS[0])
        fleet = Fleet(one)
        for sweep in SWEEPS:
            print_large_row(replace(one, sweep=sweep), fleet, f"{arrangement} {degree}")
        for what, change in TRIALS.items() if (arrangement, degree) in TRIED else ():
            print_large_row(replace(one, **change), fleet, f"{arrangement} {degree}, {what}")


def compared(row, scenario):
    """What was measured by a row, and what is simulated."""
    numbers = {it: int(row[it]) for it in ("sites", "degree", "sweep", "names", "entry")}
    scenario = replace(scenario, arrangement=row["arrangement"], spread=row["spread"] == "1",
                       questions=float(row["questions"]), polled=row["polled"] == "1", link=14, **numbers)
    if row["kind"] == "octets":
        return float(row["value"]), traffic_of(scenario, Fleet(scenario))[0]
    if row["kind"] == "share":
        return float(row["value"]), next(shares_of(scenario, len(Fleet(scenario).peers[-1]), random.Random(scenario.seed)))
    by_hops, everywhere = news_of(scenario)
    return float(row["value"]), statistics.median(everywhere if row["kind"] == "everywhere" else by_hops[int(row["hops"])])


def print_compared(scenario, path):
    """Prints what was measured beside what is simulated, and ends with status 1 where a difference is out of its bound."""
    print_heads("Kind, Fleet, Hops, Measured, Simulated, Difference %, Bound %, Within")
    is_within = True
    with open(path, newline="") as file:
        for row in csv.DictReader(file, delimiter="\t"):
            measured, simulated = compared(row, scenario)
            difference = (simulated - measured) * (1 if row["kind"] == "share" else 100 / measured)
            fleet = f"{row['arrangement']} of {row['sites']}, {'spread' if row['spread'] == '1' else 'at once'}"
            is_near = abs(difference) <= BOUNDS[row["kind"]]
            print_row(row["kind"], fleet, row["hops"], f"{measured:.6g}", f"{simulated:.6g}", f"{difference:+.1f}",
                      BOUNDS[row["kind"]], "yes" if is_near else "no")
            is_within &= is_near
    if not is_within:
        sys.exit(1)


# The options that say what short datagrams cost.
COSTS = "send wake take question answer begin ask look switch processors"
# What each command does, its options, and what is the default of some.
COMMANDS = {
    "news": (print_news, "degree sweep spread names entry questions polled loss restarts " + COSTS + " rounds seed", {}),
    "traffic": (print_traffic, "degree sweep names entry questions link seed", {}),
    "late": (print_late, "degree sweep names entry loss rounds seed", {"names": 100_000}),
    "large": (print_large, "names entry questions send rounds seed", {"names": 100_000}),
    "compare": (print_compared, COSTS + " rounds seed", {"rounds": 512}),
}


def options_of():
    words = argparse.ArgumentParser(description=__doc__)
    commands = words.add_subparsers(dest="command", required=True)
    for name, (_, takes, defaults) in COMMANDS.items():
        command = commands.add_parser(name, formatter_class=argparse.ArgumentDefaultsHelpFormatter)
        if name == "compare":
            command.add_argument("path", metavar="FILE", help="measured values, with tabs between")
        elif name != "large":
            command.add_argument("arrangement", choices=list(DEGREES))
            command.add_argument("sites", type=int)
        for it in fields(Scenario):
            if it.name in takes.split():
                kind = {"action": "store_true"} if it.type is bool else {"type": it.type}
                command.add_argument(f"--{it.name}", default=it.default, help=it.metadata["help"], **kind)
        command.set_defaults(**defaults)
    return vars(words.parse_args())


def main():
    options = options_of()
    action, paths = COMMANDS[options.pop("command")][0], [options.pop("path")] if "path" in options else []
    action(Scenario(**options), *paths)


if __name__ == "__main__":
    main()
