#!/usr/bin/env python3
"""What is looked at on a host while a trial runs. See README.md.

    watch.py counts REPORT PORT..  each second a line of JSON: what the sockets of these ports dropped, counts of the front,
                                   and those of the last report of the site
    watch.py known ADDRESS PORT    the moment at which 99 of 100 known names are answered from the cache alone
    watch.py learn ADDRESS PORT    the same, but whoever is asked may ask its upstream
    watch.py new ADDRESS PORT      the moment at which a new name is answered
    watch.py forge FRAME FROM TO   sends octets, in hexadecimal, from a port of 127.0.0.1 to another one
"""

import contextlib
import json
import re
import select
import socket
import sys
import time
import urllib.request
from pathlib import Path

sys.dont_write_bytecode = True

import records

# How long it is looked at most, how long an answer is waited for, how many of how many names have to be there, and
# how many are asked for at once.
MOST, PATIENCE, ENOUGH, NAMES = 40, 0.25, 99, 100
AT_ONCE = 10
# The seconds between two looks, at least.
BETWEEN = 0.1
METRICS = "http://127.0.0.1:8083/metrics"
# The counts of a front: of all that it does, and of each server.
COUNTS = re.compile(r"dnsdist_(?:((?:server_)?\w+))(?:\{server=\"(\w+)\".*\})? (\d+)$", re.MULTILINE)
# A line of counts of the site.
REPORT = re.compile(r"^turns \d+ received .* unwritten \d+$", re.MULTILINE)
WANTED = ("server_status server_drops server_senderrors server_tcpdiedsendingquery server_tcpdiedreadingresponse"
          " server_tcpgaveup server_tcpreadtimeouts server_tcpwritetimeouts server_tcpconnecttimeouts frontend_servfail"
          " downstream_timeouts downstream_send_errors no_policy rule_drop acl_drops udp_noport_errors"
          " udp_recvbuf_errors").split()


def dropped(ports):
    """What the system dropped at the sockets of some ports."""
    with open("/proc/net/udp", encoding="ascii") as file:
        rows = [line.split() for line in file.readlines()[1:]]
    return {f"dropped {port}": sum(int(it[-1]) for it in rows if it[1].endswith(f":{port:04X}")) for port in ports}


def front():
    """The counts of the front, or none while it is down."""
    try:
        with urllib.request.urlopen(METRICS, timeout=1) as page:
            text = page.read().decode()
    except OSError:
        return {}
    return {f"{name} {server}".strip(): int(count) for name, server, count in COUNTS.findall(text) if name in WANTED}


def site(report):
    """The last counts that the site printed."""
    try:
        text = Path(report).read_text(encoding="utf-8")
    except OSError:
        return {}
    found = REPORT.findall(text[-2000:])
    words = found[-1].split() if found else []
    return {f"site {key}": int(count) for key, count in zip(words[::2], words[1::2])}


def counts(report, *ports):
    while True:
        print(json.dumps({"at": time.time(), **dropped([int(it) for it in ports]), **front(), **site(report)}), flush=True)
        time.sleep(1)


def answered(names, place, flags):
    """How many of some names are answered with what the zone has."""
    asker = socket.socket(socket.AF_INET, socket.SOCK_DGRAM)
    asked = {number: records.question(number, name, flags=flags) for number, name in enumerate(names)}
    for octets in asked.values():
        with contextlib.suppress(OSError):
            asker.sendto(octets, place)
    good, end = set(), time.monotonic() + PATIENCE
    while len(good) < len(asked) and select.select([asker], [], [], max(0, end - time.monotonic()))[0]:
        try:
            reply = asker.recv(4096)
            number = int.from_bytes(reply[:2], "big")
            if records.read_reply(reply, asked[number])[1]:
                good.add(number)
        except (OSError, KeyError, records.Wrong):
            pass
    asker.close()
    return len(good)


def new_name():
    return [records.name_of(records.ADDRESS, time.time_ns(), 3)]


def known_names():
    return [records.name_of(records.KNOWN, it, records.DAY) for it in range(NAMES)]


def share(names, place, flags):
    """How many of some names are answered, asked by and by: a front takes so many questions a second of one address."""
    found = 0
    for at in range(0, len(names), AT_ONCE):
        found += answered(names[at : at + AT_ONCE], place, flags)
        time.sleep(PATIENCE)
    return found


def moment_of(is_so):
    """Looks again and again, and gives the moment at which something is so, or none if it takes too long."""
    end = time.monotonic() + MOST
    while time.monotonic() < end:
        looked = time.monotonic()
        if is_so():
            return time.time()
        time.sleep(max(0, looked + BETWEEN - time.monotonic()))
    return float("inf")


def forge(octets, source, target):
    with socket.socket(socket.AF_INET, socket.SOCK_DGRAM) as place:
        place.bind(("127.0.0.1", int(source)))
        place.sendto(bytes.fromhex(octets), ("127.0.0.1", int(target)))


def main():
    what, *words = sys.argv[1:]
    if what in ("counts", "forge"):
        return globals()[what](*words)
    place = words[0], int(words[1])
    looks = {"known": lambda: answered(known_names(), place, 0) >= ENOUGH,
             "learn": lambda: share(known_names(), place, 0x0100) >= ENOUGH,
             "new": lambda: answered(new_name(), place, 0x0100)}
    return print(moment_of(looks[what]))


if __name__ == "__main__":
    main()
