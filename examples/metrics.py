#!/usr/bin/env python3
"""Gives the last counts of a site to Prometheus, in its text format.

    metrics.py SITE [FILE]

FILE, or else standard input, has what `dnsfleet serve --report` printed, as it is or as the journal shows it.
SITE is the address of the site, such as 127.0.0.1:5400, or its configuration. What the system dropped at its
socket is given too, as drops.py shows it, where this runs on the machine of the site.

The status is 1 where there is no line of counts or no socket, and 2 after a fault.
"""

import argparse
import re
import sys

sys.dont_write_bytecode = True
from drops import address_of, row_of
from observe import Fault

# A line of counts. What stands before it is the journal's.
LINE = re.compile(r"\bturns \d+ received \d+ .*\bunwritten \d+$", re.MULTILINE)
# What is so now. All other counts grow until the site ends.
NOW = ("items", "messages-waiting", "frames-waiting", "frames-leaving")


def metric(key, count, site, says="{} of a report"):
    """What Prometheus reads of a count: what it is, its kind, and the number."""
    name = "dnsfleet_" + key.replace("-", "_") + ("" if key in NOW else "_total")
    kind = "gauge" if key in NOW else "counter"
    return f'# HELP {name} {says.format(key)}\n# TYPE {name} {kind}\n{name}{{site="{site}"}} {count}\n'


def main():
    words = argparse.ArgumentParser(description=__doc__, formatter_class=argparse.RawDescriptionHelpFormatter)
    words.add_argument("site", type=address_of, metavar="SITE")
    words.add_argument("file", nargs="?", type=argparse.FileType(encoding="utf-8"), default=sys.stdin, metavar="FILE")
    try:
        given = words.parse_args()
        lines, row = LINE.findall(given.file.read()), row_of(given.site)
    except (Fault, UnicodeDecodeError) as fault:
        print(f"metrics.py: {fault}", file=sys.stderr)
        return 2
    said = lines[-1].split() if lines else []
    for key, count in zip(said[::2], said[1::2]):
        print(metric(key, count, given.site), end="")
    if row:
        print(metric("socket-dropped", row[-1], given.site, "datagrams that the system dropped at the site's socket"), end="")
    return int(not (lines and row))


if __name__ == "__main__":
    sys.exit(main())
