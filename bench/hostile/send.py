#!/usr/bin/env python3
"""Sends every datagram of a list to a running site, from three kinds of address. See README.md."""

import argparse
import os
import re
import signal
import socket
import struct
import subprocess
import sys
import tempfile
import time

HERE = os.path.dirname(os.path.abspath(__file__))
SITE, UPSTREAM, PEER = 5423, 5424, 5425
# No datagram of the list speaks of a name below this one.
KNOWN = b"\x04well\x07behaved\x00"
ADDRESS = bytes([198, 18, 0, 1])


def question(number, name):
    """A query with RD set, type A, class IN (RFC 1035 4.1)."""
    return struct.pack("!6H", number, 0x0100, 1, 0, 0, 0) + name + struct.pack("!2H", 1, 1)


def name_end(octets, at):
    """Where a name without pointers ends, or None."""
    while at < len(octets) and octets[at] != 0:
        if octets[at] > 63:
            return None
        at += 1 + octets[at]
    return at + 1 if at < len(octets) else None


def asked_in(octets):
    """The question of a message, as its octets, if it has one that can be cut out."""
    if len(octets) < 12 or octets[4:6] != b"\x00\x01":
        return None
    end = name_end(octets, 12)
    if end is None or len(octets) < end + 4:
        return None
    return octets[12 : end + 4]


def answer(query):
    """The authoritative reply to a query of this script: one address, TTL 86400."""
    head = query[:2] + b"\x84\x00" + struct.pack("!4H", 1, 1, 0, 0)
    return head + asked_in(query) + b"\xc0\x0c" + struct.pack("!2HIH", 1, 1, 86400, 4) + ADDRESS


def bound(port):
    one = socket.socket(socket.AF_INET, socket.SOCK_DGRAM)
    one.bind(("127.0.0.1", port))
    one.settimeout(2)
    return one


def drain(one):
    """Takes all that waits at a socket, and counts it."""
    one.setblocking(False)
    seen = []
    try:
        while True:
            seen.append(one.recv(20000))
    except BlockingIOError:
        pass
    one.settimeout(2)
    return seen


def resident(pid):
    with open(f"/proc/{pid}/status") as file:
        return int(re.search(r"VmRSS:\s+(\d+)", file.read()).group(1))


class Run:
    def __init__(self, process):
        self.process = process
        self.anyone, self.client = bound(0), bound(0)
        self.upstream, self.peer = bound(UPSTREAM), bound(PEER)
        self.number = 0
        self.sent = self.matched = self.asked = self.replies = self.queries = self.frames = 0

    def next(self):
        self.number = (self.number + 1) % 65536
        return self.number

    def fail(self, what, octets):
        sys.exit(f"{what}, after {octets.hex() or '-'}; the program: {self.process.poll()}")

    def behave(self, after, name=KNOWN):
        """Asks as a client that behaves well does, and wants the address."""
        number = self.next()
        query = question(number, name)
        self.client.sendto(query, ("127.0.0.1", SITE))
        self.asked += 1
        try:
            while True:
                got = self.client.recv(20000)
                if got[:2] == query[:2]:
                    break
        except socket.timeout:
            self.fail("no reply", after)
        if got[2] & 0x80 == 0 or got[3] & 0x0F != 0 or got[12 : len(query)] != query[12:] or got[-4:] != ADDRESS:
            self.fail(f"another reply {got.hex()}", after)

    def learn(self, name):
        """Asks for a name that the site does not know yet, and answers its query."""
        query = question(self.next(), name)
        self.client.sendto(query, ("127.0.0.1", SITE))
        self.serve(name)
        if self.client.recv(20000)[-4:] != ADDRESS:
            self.fail("no relay", query)

    def serve(self, name):
        deadline = time.monotonic() + 2
        while time.monotonic() < deadline:
            query = self.upstream.recv(20000)
            if asked_in(query)[:-4] == name:
                self.upstream.sendto(answer(query), ("127.0.0.1", SITE))
                return
        self.fail("no query", name)

    def send(self, octets):
        """A datagram from anyone, from the peer and from the upstream, each with a good question behind it."""
        for one in (self.anyone, self.peer, self.upstream):
            self.throw(one, octets)
        if octets[:3] == b"DG\x01" and len(octets) > 15:
            # A frame whose first entry is stamped now, so that it is still live.
            self.throw(self.peer, octets[:7] + struct.pack("!Q", int(time.time())) + octets[15:])
        self.match(octets)
        self.replies += len(drain(self.anyone))
        self.frames += len(drain(self.peer))

    def throw(self, one, octets):
        one.sendto(octets, ("127.0.0.1", SITE))
        self.sent += 1
        self.behave(octets)

    def match(self, octets):
        """The datagram as the reply to a query for just what it asks, where it asks something; and then every open
        query is answered with a server failure, so that the table of open questions does not fill up."""
        asked = asked_in(octets)
        if asked is not None:
            self.throw(self.anyone, struct.pack("!6H", self.next(), 0x0100, 1, 0, 0, 0) + asked)
        for query in drain(self.upstream):
            self.queries += 1
            if asked is not None and (asked_in(query) or b"").lower() == asked.lower():
                self.matched += 1
                self.throw(self.upstream, query[:2] + octets[2:])
            self.throw(self.upstream, query[:2] + b"\x81\x82" + query[4:])


def listed(path):
    with open(path) as file:
        return [bytes.fromhex(line.strip().replace("-", "")) for line in file if line.strip()]


def changed(octets):
    """The datagram cut off at each place, and with each octet replaced."""
    for at in range(len(octets)):
        yield octets[:at]
        for octet in (0x00, 0x3F, 0x40, 0xC0, 0xFF):
            yield octets[:at] + bytes([octet]) + octets[at + 1 :]


def options_of():
    words = argparse.ArgumentParser(description=__doc__)
    words.add_argument("--program", required=True, help="the built dnsfleet")
    words.add_argument("--list", default=os.path.join(HERE, "datagrams.txt"), help="the datagrams, in hexadecimal")
    words.add_argument("--changed", type=int, default=0, metavar="N",
                       help="also send each datagram of at most N octets cut off at each place and with each octet replaced")
    return words.parse_args()


def start(program, folder):
    path = os.path.join(folder, "site.toml")
    with open(path, "w") as file:
        file.write(f'listen = "127.0.0.1:{SITE}"\nupstreams = ["127.0.0.1:{UPSTREAM}"]\npeers = ["127.0.0.1:{PEER}"]\nsweep = 1\n')
    words = [os.path.abspath(program), "serve", "--config", path, "--key", "00" * 32, "--turns", "4294967295"]
    process = subprocess.Popen(words, stdin=subprocess.DEVNULL, stdout=subprocess.DEVNULL)
    time.sleep(0.5)
    return process


def send_all(run, options):
    run.learn(KNOWN)
    before = resident(run.process.pid)
    for octets in listed(options.list):
        run.send(octets)
        if len(octets) <= options.changed:
            for other in changed(octets):
                run.send(other)
    # What is still open is answered by no upstream, and given up after two seconds.
    time.sleep(2.5)
    drain(run.upstream)
    run.learn(b"\x05fresh\x07behaved\x00")
    run.behave(b"")
    print(f"sent {run.sent}, {run.matched} of them as replies to a query for what they ask")
    print(f"well-behaved questions {run.asked + 2}, each answered with the right address")
    print(f"received from the site: {run.replies} replies, {run.queries} queries, {run.frames} frames")
    print(f"memory (VmRSS, KiB): {before} before, {resident(run.process.pid)} after")


def main():
    # A request to end raises an exit, so that the site is ended too.
    signal.signal(signal.SIGTERM, lambda number, _: sys.exit(128 + number))
    options = options_of()
    with tempfile.TemporaryDirectory(prefix="dnsfleet-hostile-") as folder:
        process = start(options.program, folder)
        try:
            if process.poll() is not None:
                sys.exit("the program has ended")
            began = time.monotonic()
            send_all(Run(process), options)
            print(f"in {time.monotonic() - began:.1f} s; the program {'runs' if process.poll() is None else 'has ended'}")
        finally:
            process.send_signal(signal.SIGTERM)
            process.wait()


if __name__ == "__main__":
    main()
