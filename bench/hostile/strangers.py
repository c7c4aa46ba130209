#!/usr/bin/env python3
"""A site that comes late and learns by sweeps, while strangers flood it with long datagrams. See README.md."""

import argparse
import os
import sys
import tempfile
import time
from statistics import median

sys.dont_write_bytecode = True

from beside import Flooders, catchup

# How many names are asked for of all, and the seconds after which that is done.
SAMPLE = 200
LOOKS = (6, 12, 18)


def look(site, count):
    """Of some names how many a site answers with their address, and how many questions nobody answers in a second."""
    asker = catchup.bound(0)
    asker.settimeout(1)
    found = silent = 0
    for number, name in enumerate(range(0, count, max(1, count // SAMPLE))):
        asker.sendto(catchup.question(number, catchup.name_of(name), False), (catchup.HOST, site.port))
        try:
            found += catchup.is_answered(asker.recv(600))
        except OSError:
            silent += 1
    asker.close()
    return found, silent


def run(options, folder):
    """What a late site has after each look, how a client beside is answered, and what the system dropped."""
    upstream, client = catchup.bound(catchup.UPSTREAM), catchup.bound(0)
    first = catchup.Site(options, folder, catchup.FIRST, [catchup.LATE])
    late = None
    try:
        catchup.learn(client, upstream, first, [catchup.name_of(it) for it in range(options.names)])
        late = catchup.Site(options, folder, catchup.LATE, [catchup.FIRST])
        catchup.learn(client, upstream, late, catchup.own_names())
        makers = [lambda number: bytes(options.size)] * options.flooders
        flooders, asking = Flooders(late.port, makers, LOOKS[-1] + 2), catchup.Client(late.port)
        began, rows = time.monotonic(), []
        for seconds in LOOKS:
            time.sleep(max(0, began + seconds - time.monotonic()))
            rows.append(look(late, options.names))
        asked, answered, slow = asking.end()
        return rows, asked, answered, slow, late.dropped(), late.memory()[0], flooders.end()
    finally:
        first.end()
        if late:
            late.end()
        upstream.close()
        client.close()


def main():
    parser = argparse.ArgumentParser(description=__doc__)
    parser.add_argument("--program", default="crates/dnsfleet/out/dnsfleet")
    parser.add_argument("--names", type=int, default=20_000)
    parser.add_argument("--sweep", type=int, default=5, help="seconds between two sweeps")
    parser.add_argument("--size", type=int, default=513, help="octets of each datagram of the flood")
    parser.add_argument("--flooders", type=int, default=2)
    parser.add_argument("--times", type=int, default=5, help="runs")
    options = parser.parse_args()
    options.program = os.path.abspath(options.program)
    print("| " + " | ".join(f"Names after {it} s, no answer" for it in LOOKS)
          + " | Answers, of | Slowest ms, 1 in 1,000 | Dropped | MiB | Flood a second |")
    print("|---" * (len(LOOKS) + 5) + "|")
    all_rows = []
    for _ in range(options.times):
        with tempfile.TemporaryDirectory() as folder:
            rows, asked, answered, slow, dropped, memory, sent = run(options, folder)
        all_rows.append(rows)
        words = [f"{found}, {silent}" for found, silent in rows] + [f"{answered}, {asked}"]
        words += [f"{slow[0]:.0f}, {slow[len(slow) // 1000]:.0f}" if slow else "none", f"{dropped}", f"{memory:.0f}", f"{sent:,.0f}"]
        print("| " + " | ".join(words) + " |", flush=True)
    print("\nmedian: " + ", ".join(f"{median(rows[at][0] for rows in all_rows):.0f}" for at in range(len(LOOKS)))
          + f" of {SAMPLE} names after {', '.join(map(str, LOOKS))} seconds")


if __name__ == "__main__":
    main()
