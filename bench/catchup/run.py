#!/usr/bin/env python3
"""A site that comes late, and what sweeps cost the site that sends them. See README.md."""

import argparse
import multiprocessing
import os
import random
import re
import select
import signal
import socket
import struct
import subprocess
import sys
import tempfile
import time

HOST = "127.0.0.1"
# Where the first site listens, the late one, the stub of their upstream, and peers that never answer.
FIRST, LATE, UPSTREAM, SILENT = 15400, 15401, 15500, 15600
# How many names are asked for, of all, to see which share is answered, and how many the client asks for meanwhile.
SAMPLE, KNOWN = 2000, 100
# How many questions a second the client asks.
RATE = 1000
DAY = 86400
# How many seconds without a frame lie between two sweeps at least.
APART = 0.5


def spell(label):
    return bytes([len(label)]) + label + b"\x04test\x00"


def name_of(number):
    return spell(b"n%07d" % number)


def own_name_of(number):
    return spell(b"own%04d" % number)


def question(ident, name, recursion):
    return struct.pack(">HHHHHH", ident & 0xFFFF, 0x0100 if recursion else 0, 1, 0, 0, 0) + name + b"\0\1\0\1"


def reply_to(query, address):
    """The reply of the upstream: one address, for a day."""
    record = b"\xc0\x0c\0\1\0\1" + struct.pack(">IH", DAY, 4) + struct.pack(">I", address)
    return query[:2] + b"\x81\x80\0\1\0\1\0\0\0\0" + query[12:] + record


def is_answered(reply):
    return reply[3] & 15 == 0 and reply[7] == 1


def bound(port):
    made = socket.socket(socket.AF_INET, socket.SOCK_DGRAM)
    made.bind((HOST, port))
    made.setsockopt(socket.SOL_SOCKET, socket.SO_RCVBUF, 1 << 22)
    made.settimeout(5)
    return made


class Site:
    """A running site."""

    def __init__(self, options, folder, port, peers, sweep=None):
        sweep = options.sweep if sweep is None else sweep
        text = f'listen = "{HOST}:{port}"\nupstreams = ["{HOST}:{UPSTREAM}"]\n'
        text += "peers = [" + ", ".join(f'"{HOST}:{it}"' for it in peers) + f"]\nsweep = {sweep}\n"
        path = os.path.join(folder, f"{port}.toml")
        with open(path, "w") as file:
            file.write(text)
        words = [options.program, "serve", "--config", path, "--key", os.urandom(32).hex(), "--turns", "4294967295"]
        self.port = port
        self.process = subprocess.Popen(words, stdout=subprocess.PIPE)
        self.began = time.monotonic()
        if not self.process.stdout.readline().startswith(b"listening"):
            sys.exit(f"no site listens at {port}")

    def memory(self):
        """Memory that is resident, now and at the most, in MiB."""
        with open(f"/proc/{self.process.pid}/status") as file:
            text = file.read()
        return [int(re.search(rf"{word}:\s+(\d+)", text).group(1)) / 1024 for word in ("VmRSS", "VmHWM")]

    def dropped(self):
        """How many datagrams the system dropped at the socket."""
        with open("/proc/net/udp") as lines:
            for line in lines:
                words = line.split()
                if words[1].endswith(f":{self.port:04X}"):
                    return int(words[-1])
        return 0

    def end(self):
        self.process.terminate()
        self.process.wait()


def learn(client, upstream, site, names):
    """Has the site ask the upstream for each name; so many at a time."""
    for at in range(0, len(names), 100):
        some = names[at : at + 100]
        for number, name in enumerate(some):
            client.sendto(question(number, name, True), (HOST, site.port))
        for number, _ in enumerate(some):
            query, asker = upstream.recvfrom(2000)
            upstream.sendto(reply_to(query, at + number), asker)
        for _ in some:
            client.recv(600)


def share_of(client, site, count):
    """The share of some names that the site answers from its cache, in per cent."""
    names = [name_of(it) for it in range(0, count, max(1, count // SAMPLE))]
    found = 0
    for at in range(0, len(names), 50):
        some = names[at : at + 50]
        for number, name in enumerate(some):
            client.sendto(question(number, name, False), (HOST, site.port))
        for _ in some:
            found += is_answered(client.recv(600))
    return 100 * found / len(names)


def ask_for_known(port, ended, told):
    """Asks a site for names that it has, so many a second, whether they are answered or not, and tells each answer's time."""
    asker = socket.socket(socket.AF_INET, socket.SOCK_DGRAM)
    asker.setsockopt(socket.SOL_SOCKET, socket.SO_RCVBUF, 1 << 22)
    names = [own_name_of(it) for it in range(KNOWN)]
    began, number, open_since, waits = time.monotonic(), 0, {}, []
    while not ended.is_set() or open_since:
        now = time.monotonic()
        if ended.is_set() and now - ended_at > 3:
            break
        if not ended.is_set():
            ended_at = now
            while began + number / RATE <= now:
                open_since[number & 0xFFFF] = now
                asker.sendto(question(number, names[number % KNOWN], False), (HOST, port))
                number += 1
        ready, _, _ = select.select([asker], [], [], 0.0005)
        if ready:
            now = time.monotonic()
            reply = asker.recv(600)
            since = open_since.pop(struct.unpack(">H", reply[:2])[0], None)
            if since is not None and is_answered(reply):
                waits.append((since - began, now - since))
    told.put((number, waits))


class Client:
    """A client beside, in a process of its own."""

    def __init__(self, port):
        self.ended, self.told = multiprocessing.Event(), multiprocessing.Queue()
        words = (port, self.ended, self.told)
        self.process = multiprocessing.Process(target=ask_for_known, args=words, daemon=True)
        self.process.start()

    def end(self):
        """How many it asked, how many were answered, and the slowest answers in milliseconds."""
        self.ended.set()
        asked, waits = self.told.get(timeout=30)
        self.process.join()
        slow = sorted((1000 * wait for _, wait in waits), reverse=True)
        return asked, len(waits), slow


def own_names():
    return [own_name_of(it) for it in range(KNOWN)]


def run_late(options, folder, count):
    """One row: a site has names, and its peer starts."""
    upstream, client = bound(UPSTREAM), bound(0)
    first = Site(options, folder, FIRST, [LATE])
    late = None
    try:
        learn(client, upstream, first, [name_of(it) for it in range(count)])
        late = Site(options, folder, LATE, [FIRST], 0 if options.late_is_silent else None)
        learn(client, upstream, late, own_names())
        asking, shares = Client(LATE), []
        for sweep in range(1, options.sweeps + 1):
            time.sleep(max(0, late.began + sweep * options.sweep + options.behind - time.monotonic()))
            shares.append(share_of(client, late, count))
        asked, answered, slow = asking.end()
        words = [f"{count:,}", *(f"{it:.1f} %" for it in shares), f"{slow[0]:.1f}", f"{slow[len(slow) // 1000]:.1f}"]
        words += [f"{asked - answered}", f"{late.dropped()}", f"{first.memory()[0]:.0f}", f"{late.memory()[0]:.0f}", f"{late.memory()[1]:.0f}"]
        print("| " + " | ".join(words) + " |", flush=True)
    finally:
        first.end()
        if late:
            late.end()
        upstream.close()
        client.close()


def seconds_of_sweeps(receiver, seconds):
    """How many seconds lie between the first and the last frame of each sweep that a peer receives meanwhile."""
    end, sweeps = time.monotonic() + seconds, []
    while (now := time.monotonic()) < end:
        ready, _, _ = select.select([receiver], [], [], end - now)
        if ready:
            receiver.recv(20000)
            now = time.monotonic()
            if not sweeps or now > sweeps[-1][1] + APART:
                sweeps.append([now, now])
            sweeps[-1][1] = now
    return [last - first for first, last in sweeps]


def run_sweeping(options, folder, count, peers):
    """One row: how long a site that sweeps answers nobody, and how long the longest sweep took to leave. Of one that had
    begun before, a part is seen."""
    upstream, client = bound(UPSTREAM), bound(0)
    silent = [bound(SILENT + it) for it in range(peers)]
    site = Site(options, folder, FIRST, [SILENT + it for it in range(peers)])
    try:
        names = [name_of(it) for it in range(count)]
        random.Random(count).shuffle(names)
        learn(client, upstream, site, names + own_names())
        asking = Client(FIRST)
        sweeps = seconds_of_sweeps(silent[-1], options.sweeps * options.sweep + 1)
        asked, answered, slow = asking.end()
        print(f"| {count:,} | {peers} | {slow[0]:.1f} | {asked - answered} | {max(sweeps, default=0):.1f} "
              f"| {site.memory()[1]:.0f} |", flush=True)
    finally:
        site.end()
        for it in [upstream, client, *silent]:
            it.close()


def options_of():
    words = argparse.ArgumentParser(description=__doc__)
    words.add_argument("--program", required=True, help="the built dnsfleet")
    words.add_argument("--names", default="1000,20000,100000,1000000", help="how many names, as a list")
    words.add_argument("--sweep", type=int, default=5, help="seconds between sweeps (5)")
    words.add_argument("--sweeps", type=int, default=3, help="how many sweeps are waited for (3)")
    words.add_argument("--behind", type=float, default=0.5, help="seconds behind a sweep's second at which is asked (0.5)")
    words.add_argument("--late-is-silent", action="store_true", help="the late site sends no sweeps of its own")
    words.add_argument("--sweeping", action="store_true", help="measure the site that sweeps, not the late one")
    words.add_argument("--peers", default="1,16", help="with --sweeping: how many peers, as a list")
    return words.parse_args()


def main():
    signal.signal(signal.SIGTERM, lambda number, _: sys.exit(128 + number))
    options = options_of()
    counts = [int(it) for it in options.names.split(",")]
    with tempfile.TemporaryDirectory(prefix="dnsfleet-catchup-") as folder:
        if options.sweeping:
            print("| Names | Peers | Slowest answer ms | Unanswered | A sweep leaves in s | Site MiB at most |\n" + "|---" * 6 + "|")
            for count in counts:
                for peers in options.peers.split(","):
                    run_sweeping(options, folder, count, int(peers))
            return
        heads = ["Names", *(f"After sweep {it + 1}" for it in range(options.sweeps)), "Slowest answer ms", "99.9 % of answers ms"]
        heads += ["Unanswered", "Dropped by the system", "First site MiB", "Late site MiB", "Late site MiB at most"]
        print("| " + " | ".join(heads) + " |\n|" + "---|" * len(heads))
        for count in counts:
            run_late(options, folder, count)


if __name__ == "__main__":
    main()
