#!/usr/bin/env python3
"""Trials of days, in pieces of at most an hour. Status 0 says that all was as it should be. See README.md."""

import argparse
import collections
import contextlib
import os
import random
import re
import resource
import socket
import struct
import subprocess
import sys
import tempfile
import time
from statistics import median

sys.dont_write_bytecode = True

import beside
from beside import Bound, Client, Drops, Flooders, Site, ask_all, catchup, churn, dropped_by_system, head, is_right, memory_of
from beside import question, row, word_of
from jumps import clock

HOUR = 3600
# Where the site of `datagrams` listens, its upstream and its peer.
SOAK = (5433, 5434, 5435)
NSD, SITE, PEER = churn.PORTS["nsd"], churn.PORTS["dnsfleet"], churn.PORTS["peer"]


# Each trial is given its options, a folder of its own and a stack of what is to be ended, and gives what was not as it
# should be, as texts.


def questions(options, folder, stack):
    """Known names, asked for as fast as the site answers, from a client that keeps some questions open."""
    load, bound = beside.build(folder, "serve/load.c"), Bound(options.seconds)
    upstream, client = (stack.enter_context(contextlib.closing(catchup.bound(it))) for it in (catchup.UPSTREAM, 0))
    site = Site(options, folder, catchup.FIRST, [catchup.UPSTREAM])
    stack.callback(site.end)
    catchup.learn(client, upstream, site, [catchup.name_of(it) for it in range(options.names)])
    lines = [f"n{it:07d}.test A {socket.inet_ntoa(struct.pack('!I', it))}\n" for it in range(options.names)]
    data = churn.write(folder, "names", "".join(lines))
    before, held, sums = site.counts(), memory_of(site), collections.Counter()
    head("Questions", "Right", "Lost", "A second", "MiB")
    while sums["asked"] < options.count and bound.left() > 0:
        words = [site.port, data, min(options.every, bound.left()), options.open, options.count - sums["asked"]]
        said = subprocess.run([load, *map(str, words)], stdout=subprocess.PIPE, text=True, check=True).stdout.split()
        piece = dict(zip(said[::2], map(float, said[1::2])))
        sums.update(piece)
        row(f"{sums['asked']:,.0f}", f"{sums['good']:,.0f}", f"{sums['lost']:.0f}",
            f"{piece['good'] / piece['seconds']:,.0f}", f"{memory_of(site):.2f}")
    after = site.counts()
    counted = {key: after[key] - before[key] for key in ("questions", "hits", "turns", "received", "sent", "failed")}
    asked, good = int(sums["asked"]), int(sums["good"])
    print(f"\nclient: {asked:,} questions, {good:,} right answers in {sums['seconds']:,.0f} s; site: "
          + ", ".join(f"{key} {count:,}" for key, count in counted.items())
          + f"; dropped by the system {dropped_by_system(site)}; {held:.2f} MiB before, {memory_of(site):.2f} after")
    wanted = {"right answers": good, "hits of the site": counted["hits"], "questions of the site": counted["questions"]}
    return [f"{what}: {count:,} of {asked:,}" for what, count in wanted.items() if count != asked]


def names(options, folder, stack):
    """Names that live for some seconds, by a script of two sites: each takes in each name, the second one by a frame."""
    least, _, most = options.ttl.partition("-")
    ttls, words, bound = list(range(int(least), int(most or least) + 1)), random.Random(options.seed), Bound(options.seconds)
    script, rows = churn.Script(options.program), []
    stack.callback(script.end)
    head("Second", "Names at each site", "Both sites MiB")
    for second in range(1, options.count // options.rate + 1):
        script.write([f"tick 0 {second}\n", f"tick 1 {second}\n"])
        script.write(list(churn.lines_of(second, options.rate, second * options.rate, ttls, words)))
        rows.append(script.memory())
        if second % options.every == 0 or second == ttls[-1] + 1:
            row(second, f"{second * options.rate:,}", f"{rows[-1]:.2f}")
        if bound.left() == 0:
            break
    settled = rows[ttls[-1] :]
    if len(settled) < 2:
        return ["it ended before the first TTL had"]
    deviation, after = max((abs(it / settled[0] - 1), at) for at, it in enumerate(settled))
    print(f"\n{len(rows) * options.rate:,} names at each site, {options.rate:,} a second, TTL {options.ttl} s: from second"
          f" {ttls[-1] + 1} on {min(settled):.2f} to {max(settled):.2f} MiB; from the first of these it differs by"
          f" {100 * deviation:.2f} % at most, in second {ttls[-1] + 1 + after}")
    return [f"memory differs by {100 * deviation:.2f} %"] if deviation > 0.05 else []


def number_in(text, pattern):
    """The numbers that a pattern finds in a text."""
    return [float(it) for it in re.search(pattern, text).groups()]


def datagrams(options, folder, stack):
    """Changed datagrams of soak.c, paced or as a flood, while a client asks for known names and for new ones."""
    soak, (port, upstream, peer) = beside.build(folder, "hostile/soak.c"), SOAK
    site = Site(options, folder, port, [upstream], [peer], 30)
    stack.callback(site.end)
    words = [site.process.pid, port, upstream, peer, beside.HERE / "datagrams.txt", options.seconds, options.count,
             options.seed, options.forged, options.way]
    text = ""
    with subprocess.Popen([soak, *map(str, words)], stdout=subprocess.PIPE, text=True) as process:
        stack.callback(process.kill)
        for line in process.stdout:
            print(line, end="", flush=True)
            text += line
    if not text.rpartition("VmRSS")[1]:
        return [f"the soak ended with {process.returncode}"]
    after = site.counts()
    (sent, seconds), (dropped,) = number_in(text, r"sent (\d+) in ([\d.]+) s"), number_in(text, r"before the site: (\d+)")
    asked, right, other, silent = number_in(text, r"known names: asked (\d+), right (\d+), otherwise (\d+), unanswered (\d+)")
    again, slowest = number_in(text, r"asked again (\d+) times; the slowest answer took ([\d.]+)")
    before, end = number_in(text, r"VmRSS (-?\d+) KiB before, (-?\d+) KiB after")
    print()
    head("Way, seed", "Sent", "Seconds", "The site received", "Dropped by the system", "Known names right, of",
         "Asked again", "Slowest s", "MiB before, after", "failed")
    row(f"{options.way}, {options.seed}", f"{sent:,.0f}", f"{seconds:,.0f}", f"{after['received']:,}", f"{dropped:,.0f}",
        f"{right:,.0f}, {asked:,.0f}", f"{again:,.0f}", slowest, f"{before / 1024:.1f}, {end / 1024:.1f}", after["failed"])
    return [f"the soak ended with {process.returncode}"] * (process.returncode != 0) + [
        f"{what}: {count:.0f}" for what, count in (("other answers", other), ("no answer", silent)) if count]


def known(number):
    return f"k{number:04d}.t{HOUR}.{churn.ZONE}"


def maker(kind, source, options):
    """What makes the datagrams of a flooder, each of its number."""
    if kind == "junk":
        return lambda number: bytes(options.size)
    if kind == "known":
        asked = [question(known(it)) for it in range(options.names)]
        return lambda number: beside.numbered(asked[number % len(asked)], number)
    if kind == "listed":
        listed = [bytes.fromhex(it.replace("-", "")) for it in (beside.HERE / "datagrams.txt").read_text().split()]
        return lambda number: listed[number % len(listed)]
    new = question(f"s{source}n00000000.t{HOUR}.{churn.ZONE}")
    place = new.index(b"00000000")
    return lambda number: beside.numbered(new[:place] + b"%08d" % number + new[place + 8 :], number)


def flood_once(options, folder, name, kind):
    """What a server does while it is flooded: figures of a paced client, and the flood's."""
    with contextlib.ExitStack() as stack:
        if name == "dnsfleet":
            server = Site(options, folder, SITE, [NSD])
        else:
            server = churn.Server({"unbound": churn.unbound_words, "dnsmasq": churn.dnsmasq_words}[name](folder))
            server.port = churn.PORTS[name]
            time.sleep(1)
        stack.callback(server.end)
        asked = [question(known(it)) for it in range(options.names)]
        if not all(is_right(reply, it) for it, (reply, _) in zip(asked, ask_all(server.port, asked, 20))):
            sys.exit(f"{name} does not answer")
        before = dropped_by_system(server)
        flooders = [maker(kind, source, options) for source in range(options.flooders)] if kind != "none" else []
        flooding = Flooders(server.port, flooders, options.length + beside.LATE)
        client = Client(server.port, asked, options.rate)
        time.sleep(options.length)
        seen, sent = client.end(), flooding.end()
        count = len(seen.waits)
        return (sent, count / max(1, seen.seconds), 100 * count / seen.asked, seen.most, seen.slowest, seen.other,
                dropped_by_system(server) - before, memory_of(server))


def flood(options, folder, stack):
    """A site, unbound and dnsmasq, each flooded alike from several addresses, and a paced client beside the flood."""
    os.chmod(folder, 0o755)
    upstream = churn.Server(churn.nsd_words(folder, [HOUR]))
    stack.callback(upstream.end)
    time.sleep(1)
    print(f"medians of {options.times} runs of {options.length:g} s; {options.flooders} flooders; {options.rate:,} questions a second\n")
    head("Flood", "Server", "Flood k/s", "Answers a second", "in a hundred", "99.9 % ms", "Slowest ms", "Other replies",
         "Dropped by the system", "MiB")
    bound, faults = Bound(options.seconds), []
    for kind in options.kinds.split(","):
        for name in options.servers.split(","):
            if bound.left() == 0:
                return ["the time was over"]
            runs = [flood_once(options, folder, name, kind) for _ in range(options.times)]
            sent, rate, share, most, slowest, other, dropped, memory = map(median, zip(*runs))
            row(kind, name, f"{sent / 1000:.0f}", f"{rate:.0f}", f"{share:.1f}", f"{most:.2f}", f"{slowest:.1f}",
                f"{other:.0f}", f"{dropped:,.0f}", f"{memory:.0f}")
            faults += [f"{name} without a flood: {share:.2f} answers in a hundred"] * (kind == "none" and share < 100)
    return faults


# How many names are asked for between two looks whether a site still learns; how many new ones at its limit, and after.
SOME, NEW = 500, 200


def answered(port, numbers, options, recursion, most=50):
    """Which of some names a site answers rightly, what became of all, and the seconds of those that failed. A question for
    what is cached is asked once more where nothing came, since the system may have dropped it."""
    asked = [question(f"n{it:08d}.t{options.ttl}.{churn.ZONE}", recursion) for it in numbers]
    found = ask_all(port, asked, most)
    silent = [] if recursion else [at for at, (reply, _) in enumerate(found) if reply is None]
    for at, second in zip(silent, ask_all(port, [asked[it] for it in silent], most)):
        found[at] = second
    words = [word_of(reply, it) for (reply, _), it in zip(found, asked)]
    late = [seconds for word, (_, seconds) in zip(words, found) if word == "code 2"]
    counts = collections.Counter(words)
    if silent:
        counts["asked again"] = len(silent)
    return [it for it, word in zip(numbers, words) if word == "answer"], counts, late


def fill(options, first):
    """Asks for new names until twice in a row one in ten of some is not answered, or the names are over: once alone it may
    be the machine that is busy. Gives those that were answered, and the number of the next one."""
    taken, at, short = [], first, 0
    while at < first + options.names and short < 2:
        good, _, _ = answered(SITE, range(at, at + SOME), options, True, 100)
        taken, at = taken + good, at + SOME
        short = short + 1 if len(good) < SOME * 0.9 else 0
    return taken, at


def shown(words):
    return ", ".join(f"{word} {count}" for word, count in sorted(words.items())) or "none"


def limit_once(options, site, first):
    """Fills a site to its limit, and looks what it does until all of that has ended. Gives the number of the next name,
    and what was not as it should be."""
    began, drops = time.monotonic(), Drops(site)
    taken, at = fill(options, first)
    drops.end_phase()
    kept, once, _ = answered(SITE, taken, options, False)
    drops.end_phase()
    _, new, late = answered(SITE, range(at, at + NEW), options, True, 100)
    drops.end_phase()
    before = site.counts()
    again, other, _ = answered(SITE, kept, options, False)
    drops.end_phase()
    now = site.counts()
    received, by_port = (now[key] - before[key] for key in ("questions", "messages-dropped"))
    missing = len(kept) + other["asked again"] - received
    lasted, held = time.monotonic() - began, memory_of(site)
    sample = kept[:: max(1, len(kept) // NEW)]
    gossip, _, _ = answered(PEER, sample, options, False)
    time.sleep(options.ttl + 2)
    drops.end_phase()
    after, _, _ = answered(SITE, range(at + NEW, at + 2 * NEW), options, True)
    stay, _, _ = answered(SITE, after, options, False)
    drops.end_phase()
    row(f"{len(taken):,}", f"{len(kept):,}", shown(new), f"{min(late):.1f} to {max(late):.1f}" if late else "none",
        f"{len(again):,}", f"{once['asked again']}, {other['asked again']}", ", ".join(map(str, drops.phases)),
        f"{missing}, {by_port}", f"{len(gossip)} of {len(sample)}", f"{len(after)}, {len(stay)}",
        f"{held:.1f}, {memory_of(site):.1f}", f"{lasted:.0f}")
    wrong = {f"kept names at the limit: {shown(other)}": len(again) < len(kept),
             "the limit was not reached, as the names were over": at >= first + options.names,
             f"the limit was not reached: of {NEW} new ones {new['answer']} were answered": new["answer"] > NEW / 2,
             f"it took {lasted:.0f} s, so names may have ended": lasted > options.ttl - 2,
             f"after the TTL: {len(after)} new names answered, {len(stay)} kept, of {NEW}": len(stay) < NEW}
    return at + 2 * NEW, [text for text, is_wrong in wrong.items() if is_wrong]


def limit(options, folder, stack):
    """A site with a limit of its memory (RLIMIT_AS) is filled until it learns no more, again and again."""
    os.chmod(folder, 0o755)
    stack.callback(churn.Server(churn.nsd_words(folder, [options.ttl])).end)
    time.sleep(1)
    room = options.limit << 20
    site = Site(options, folder, SITE, [NSD], [PEER], 5,
                preexec_fn=lambda: resource.setrlimit(resource.RLIMIT_AS, (room, room)))
    stack.callback(site.end)
    stack.callback(Site(options, folder, PEER, [NSD], [SITE], 5).end)
    head("Answered while filled", "Kept", f"{NEW} new ones at the limit", "Seconds to code 2", "Kept, once more",
         "Asked twice: for kept ones, once more", "Dropped by the system: filled, kept, new, once more, until the TTL, after",
         "Once more: questions not received, dropped by the port", "Of some at a peer",
         f"Of {NEW} new ones after the TTL: answered, kept", "MiB at the limit, after", "Seconds at the limit")
    bound, first, faults = Bound(options.seconds), 0, []
    for number in range(1, options.rounds + 1):
        if bound.left() > 0:
            first, more = limit_once(options, site, first)
            faults += [f"filling {number}: {it}" for it in more]
    return faults


# The words of each trial, with what stands where there is none.
WORDS = {
    questions: {"count": (500_000_000, "questions"), "names": (1000, "known names"), "open": (100, "questions that wait at a time"),
                "every": (60, "seconds between two rows")},
    names: {"count": (10_000_000, "names"), "rate": (40_000, "names a second"), "ttl": ("1-5", "seconds that each lives"),
            "every": (25, "seconds between two rows")},
    datagrams: {"count": (50_000_000, "datagrams"), "way": ("paced", "paced, or flood"), "forged": (2000, "frames of the peer")},
    flood: {"kinds": ("none,junk,listed,known,new", "what floods"), "servers": ("dnsfleet,unbound,dnsmasq", "what is flooded"),
            "flooders": (2, "addresses that flood"), "length": (10.0, "seconds of a run"), "times": (3, "runs"),
            "rate": (1000, "questions a second of the client"), "names": (100, "known names"), "size": (40, "octets of junk")},
    limit: {"limit": (24, "MiB that the site may have"), "names": (200_000, "names that it is asked for at most"),
            "ttl": (60, "seconds that a name lives"), "rounds": (12, "fillings")},
    clock: {"jumps": (1500, "jumps"), "pause": (2.0, "seconds between two"), "names": (100, "names that are looked at"),
            "rate": (1000, "questions a second beside")},
}


def options_of():
    parser = argparse.ArgumentParser(description=__doc__)
    trials = parser.add_subparsers(dest="trial", required=True)
    for made, numbers in WORDS.items():
        words = trials.add_parser(made.__name__, help=made.__doc__, description=made.__doc__)
        words.set_defaults(made=made)
        words.add_argument("--program", default="crates/dnsfleet/out/dnsfleet")
        numbers = {**numbers, "seconds": (3300.0, "seconds in which it begins its last step"), "seed": (1, "of what is by chance")}
        for name, (number, text) in numbers.items():
            words.add_argument(f"--{name}", type=type(number), default=number, help=f"{text} ({number})")
    return parser.parse_args()


def main():
    churn.serve.end_servers_when_ended()
    options = options_of()
    options.program = os.path.abspath(options.program)
    with tempfile.TemporaryDirectory(prefix="dnsfleet-days-") as folder, contextlib.ExitStack() as stack:
        faults = options.made(options, folder, stack)
    for fault in faults[:20]:
        print(f"not as it should be: {fault}")
    print(f"{len(faults)} faults" if faults else "all was as it should be")
    sys.exit(1 if faults else 0)


if __name__ == "__main__":
    main()
