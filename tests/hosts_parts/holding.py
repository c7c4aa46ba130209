"""What sites hold, as they sweep it to root's place of their host."""

import contextlib
import hashlib
import select
import struct
import time

from hosts_parts.fleet import SWEEP, place_of
from support.messages import FRAME_HEADER_LENGTH

# Two sweeps have come by now.
LONGEST = 3 * SWEEP + 3


def _past_name(octets, at):
    """Where a name ends."""
    while octets[at]:
        at += 1 + octets[at]
    return at + 1


def entries_in(octets):
    """The entries of a frame (docs/FORMATS.md)."""
    at, (count,) = FRAME_HEADER_LENGTH, struct.unpack_from("!H", octets, 3)
    for _ in range(count):
        start, kind = at, octets[at]
        at = _past_name(octets, at + 14) + 2
        if kind == 3:
            records = struct.unpack_from("!H", octets, at)[0]
            at += 2
            for _ in range(records):
                at += 2 + struct.unpack_from("!H", octets, at)[0]
        elif kind < 3:
            at = _past_name(octets, at)
            at += 2 + struct.unpack_from("!H", octets, at)[0]
        yield octets[start:at]


def held_by(fleet, names):
    """What each of these sites sweeps: how many entries, and a digest of them. A sweep has come whole when a frame begins
    with an entry that came before."""
    with contextlib.ExitStack() as stack:
        places = {stack.enter_context(contextlib.closing(place_of(fleet.hosts[name]))): name for name in names}
        came, whole = {name: set() for name in names}, {}
        end = time.monotonic() + LONGEST
        while places and time.monotonic() < end:
            for one in select.select(list(places), [], [], 0.2)[0]:
                name, entries = places[one], list(entries_in(one.recv(65535)))
                if entries and entries[0] in came[name]:
                    whole[name] = came[name]
                    del places[one]
                came[name].update(entries)
    digests = {name: hashlib.sha256(b"".join(sorted(entries))).hexdigest()[:12] for name, entries in whole.items()}
    return {name: (len(whole.get(name, ())), digests.get(name)) for name in names}


def alike(fleet, names, times=4):
    """How many entries sites hold, each the same, or what each one holds. They are looked at a few times."""
    for _ in range(times):
        found = held_by(fleet, names)
        print("        " + ", ".join(f"{name} holds {count} ({digest})" for name, (count, digest) in found.items()))
        if len(set(found.values())) == 1 and all(count for count, _ in found.values()):
            return next(iter(found.values()))[0]
    return found
