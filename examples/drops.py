#!/usr/bin/env python3
"""Shows how many datagrams the system dropped at the sockets of sites, and what waits there.

    drops.py SITE.. [--every SECONDS] [--times N]

SITE is the address of a site, such as 127.0.0.1:5400, or its configuration. This runs on the machine of
the sites, in their network namespace. A line for each site says how many datagrams the system dropped at
its socket since the site began, most of them for want of room, and how many octets of that room are taken by
what waits there, with what the system adds to each datagram. Both are columns of /proc/net/udp. --every
prints such lines each so many seconds, with the time, and --times says how often (10).

The status is 1 where a site had no socket, 2 after a fault, and 130 after Ctrl-C.
"""

import argparse
import re
import socket
import sys
import time
from pathlib import Path

sys.dont_write_bytecode = True
from observe import Fault, Site, address_in, say, seconds_in


def address_of(word):
    """The address of a site that is named by it, or by a configuration."""
    return address_in(word) if ":" in word and not Path(word).exists() else Site(word).listen


def times_in(word):
    """A number of times, more than 0."""
    if not re.fullmatch("[1-9][0-9]{0,5}", word):
        raise argparse.ArgumentTypeError(f"`{word}` is no number of times")
    return int(word)


def row_of(address):
    """The row of the socket at an address, or None."""
    host, _, port = address.partition(":")
    place = f"{int.from_bytes(socket.inet_aton(host), sys.byteorder):08X}:{int(port):04X}"
    rows = [line.split() for line in Path("/proc/net/udp").read_text(encoding="ascii").splitlines()]
    return next((row for row in rows if row[1] == place), None)


def look(addresses, when):
    """Prints a line for each site. Gives whether each has a socket."""
    rows = [row_of(address) for address in addresses]
    for address, row in zip(addresses, rows):
        said = f"{row[-1]:>9} {int(row[4].partition(':')[2], 16):>8}" if row else "no socket"
        say(f"{when}{address:<21} {said}")
    return all(rows)


def watch(given):
    """Looks as often as is said. Gives whether each site had a socket each time."""
    say(f"{'time     ' if given.every else ''}{'site':<21} {'dropped':>9} {'waiting':>8}")
    had = [look(given.site, time.strftime("%H:%M:%S ") if given.every else "")]
    while given.every and len(had) < given.times:
        time.sleep(given.every)
        had.append(look(given.site, time.strftime("%H:%M:%S ")))
    return all(had)


def main():
    words = argparse.ArgumentParser(description=__doc__, formatter_class=argparse.RawDescriptionHelpFormatter)
    words.add_argument("site", nargs="+", type=address_of, metavar="SITE")
    words.add_argument("--every", type=seconds_in, metavar="SECONDS")
    words.add_argument("--times", type=times_in, default=10, metavar="N")
    try:
        return int(not watch(words.parse_args()))
    except Fault as fault:
        print(f"drops.py: {fault}", file=sys.stderr)
        return 2
    except KeyboardInterrupt:
        return 130


if __name__ == "__main__":
    sys.exit(main())
