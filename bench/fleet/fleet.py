"""A fleet of sites on loopback, an upstream that knows every name, and what the system counts of them."""

import multiprocessing
import os
import random
import re
import signal
import socket
import subprocess
import sys
import time
from pathlib import Path

sys.path.insert(0, str(Path(__file__).resolve().parent.parent / "catchup"))

import run as catchup

HOST = "127.0.0.1"
# Where the upstream listens, and the first site; the others follow it.
UPSTREAM, FIRST = 15690, 15700
MOST_SITES = 64
# How many names each site is asked for, to see which share it has, and how many are asked for at a time.
SAMPLE, AT_ONCE = 400, 50
# A processor that was left so many seconds ago may have slept before another site got it.
SOON = 0.00002


def mesh(count):
    """The peers of each site, where all are each other's."""
    return [[it for it in range(count) if it != at] for at in range(count)]


def ring(count):
    """The peers of each site in a ring."""
    return [sorted({(at - 1) % count, (at + 1) % count} - {at}) for at in range(count)]


def tree(count):
    """The peers of each site in a tree with two below each."""
    return [[it for it in range(count) if it and (it - 1) // 2 == at] + ([(at - 1) // 2] if at else [])
            for at in range(count)]


ARRANGEMENTS = {"mesh": mesh, "ring": ring, "tree": tree}


def hops_from(peers, start):
    """How many hops each site is away from one."""
    hops, reached = {start: 0}, [start]
    for at in reached:
        for peer in peers[at]:
            if peer not in hops:
                hops[peer] = hops[at] + 1
                reached.append(peer)
    return hops


def answer_all(port):
    """Answers every question with an address that has a TTL of a day."""
    served = catchup.bound(port)
    served.settimeout(None)
    while True:
        query, asker = served.recvfrom(2000)
        served.sendto(catchup.reply_to(query, 0xC6120001), asker)


class Upstream:
    """An upstream in a process of its own."""

    def __init__(self):
        self.process = multiprocessing.Process(target=answer_all, args=(UPSTREAM,), daemon=True)
        self.process.start()

    def end(self):
        self.process.terminate()
        self.process.join()


class Site:
    """A site of a fleet; `index` is its place in the arrangement."""

    def __init__(self, options, folder, index, peers):
        self.options, self.index, self.port = options, index, FIRST + index
        self.path, self.told = Path(folder, f"{index}.toml"), Path(folder, f"{index}.out")
        places = ", ".join(f'"{HOST}:{FIRST + it}"' for it in peers)
        self.path.write_text(f'listen = "{HOST}:{self.port}"\nupstreams = ["{HOST}:{UPSTREAM}"]\n'
                             f"peers = [{places}]\nsweep = {options.sweep}\n")
        self.process = None

    def start(self):
        words = [self.options.program, "serve", "--config", self.path, "--key", os.urandom(32).hex(), "--turns",
                 "4294967295", "--report", "1"]
        with open(self.told, "wb") as told:
            self.process = subprocess.Popen(words, stdout=told, stdin=subprocess.DEVNULL)

    def wait_until_up(self):
        until = time.monotonic() + 5
        while b"listening" not in self.told.read_bytes():
            if time.monotonic() > until:
                sys.exit(f"no site listens at {self.port}")
            time.sleep(0.005)

    def report(self):
        """The newest line of counts, by its keys."""
        lines = self.told.read_text().splitlines()
        words = lines[-1].split(" ") if len(lines) > 1 else []
        return dict(zip(words[::2], map(int, words[1::2])))

    def processor(self):
        """Seconds that it ran, and that it waited for a processor."""
        ran, waited, _ = Path(f"/proc/{self.process.pid}/schedstat").read_text().split()
        return int(ran) / 1e9, int(waited) / 1e9

    def memory(self):
        """Memory that is resident, now and at the most, in MiB."""
        text = Path(f"/proc/{self.process.pid}/status").read_text()
        return [int(re.search(rf"{word}:\s+(\d+)", text).group(1)) / 1024 for word in ("VmRSS", "VmHWM")]

    def end(self):
        if self.process:
            self.process.terminate()
            self.process.wait()
            self.process = None


class Fleet:
    """Sites in an arrangement, which start at once or spread over the seconds between two sweeps."""

    def __init__(self, options, folder):
        self.options = options
        self.peers = ARRANGEMENTS[options.arrangement](options.sites)
        self.sites = [Site(options, folder, at, peers) for at, peers in enumerate(self.peers)]
        self.upstream = Upstream()

    def diameter(self):
        """How many hops lie between two sites at most."""
        return max(max(hops_from(self.peers, at).values()) for at in range(len(self.peers)))

    def start(self, sites=None):
        """Starts sites at the begin of a second, all of them or one by one."""
        sites = self.sites if sites is None else sites
        time.sleep(1 - time.time() % 1)
        began = time.time()
        for at, site in enumerate(sites):
            if self.options.spread:
                time.sleep(max(0, began + self.options.sweep * at / len(sites) - time.time()))
            site.start()
        for site in sites:
            site.wait_until_up()

    def end(self):
        for site in self.sites:
            site.end()
        self.upstream.end()

    def learn(self, sites, count):
        """Has each of these sites learn its share of the names, some at a time."""
        asker = catchup.bound(0)
        share = -(-count // len(sites))
        for site in sites:
            first = sites.index(site) * share
            names = [catchup.name_of(it) for it in range(first, min(count, first + share))]
            for at in range(0, len(names), AT_ONCE):
                self.ask(asker, site, names[at : at + AT_ONCE], True)
        asker.close()

    def ask(self, asker, site, names, recursion):
        """How many of these names a site answers."""
        for number, name in enumerate(names):
            asker.sendto(catchup.question(number, name, recursion), (HOST, site.port))
        found = 0
        for _ in names:
            try:
                found += catchup.is_answered(asker.recv(600))
            except TimeoutError:
                break
        return found

    def share(self, site, count):
        """The share of the names that a site answers from its cache, in per cent, by a sample."""
        asker = catchup.bound(0)
        asker.settimeout(1)
        some = random.sample(range(count), min(SAMPLE, count))
        names = [catchup.name_of(it) for it in some]
        found = sum(self.ask(asker, site, names[at : at + AT_ONCE], False) for at in range(0, len(names), AT_ONCE))
        asker.close()
        return 100 * found / len(names)


class Watch:
    """Has perf note when each site gets a processor, and when it leaves it."""

    def __init__(self, sites, folder):
        self.sites, self.path = sites, os.path.join(folder, "switches")
        numbers = ",".join(str(site.process.pid) for site in sites)
        self.process = subprocess.Popen(["perf", "record", "-q", "-k", "CLOCK_REALTIME", "-e", "dummy:u", "--switch-events",
                                         "--sample-cpu", "-p", numbers, "-o", self.path], stdin=subprocess.DEVNULL)
        time.sleep(1)

    def end(self):
        """The moments at which each site went to sleep, in order, and the seconds that processors took from one site to the
        next, where that was soon."""
        self.process.send_signal(signal.SIGINT)
        self.process.wait()
        told = subprocess.run(["perf", "script", "-i", self.path, "--show-switch-events", "--ns", "-F", "pid,cpu,time"],
                              stdout=subprocess.PIPE, text=True, check=True).stdout
        slept, left, switches = {site.process.pid: [] for site in self.sites}, {}, []
        # The line of a site that another process pushes from its processor ends otherwise.
        lines = re.findall(r"(\d+) +\[(\d+)\] +([\d.]+): PERF_RECORD_SWITCH (IN|OUT)(.*)$", told, re.MULTILINE)
        for number, processor, moment, way, rest in sorted(lines, key=lambda line: float(line[2])):
            number, moment = int(number), float(moment)
            if way == "OUT":
                left[processor] = number, moment
                if not rest.strip():
                    slept[number].append(moment)
            elif processor in left and left[processor][0] != number and moment < left[processor][1] + SOON:
                switches.append(moment - left[processor][1])
        return [slept[site.process.pid] for site in self.sites], switches


def dropped_at(sites):
    """How many datagrams the system dropped at the sockets of sites."""
    ports = {f"{HOST_ROW}:{site.port:04X}" for site in sites}
    rows = [line.split() for line in Path("/proc/net/udp").read_text().splitlines()]
    return sum(int(row[-1]) for row in rows if row[1] in ports)


HOST_ROW = f"{int.from_bytes(socket.inet_aton(HOST), sys.byteorder):08X}"


def carried():
    """Octets and packets that loopback carried."""
    for line in Path("/proc/net/dev").read_text().splitlines():
        if line.strip().startswith("lo:"):
            words = line.split(":")[1].split()
            return int(words[0]), int(words[1])
    sys.exit("no loopback")


def stolen():
    """Seconds that other machines had the processors of this one, all together."""
    words = Path("/proc/stat").read_text().split("\n", 1)[0].split()
    return int(words[8]) / os.sysconf("SC_CLK_TCK")


class Counts:
    """What was counted of sites at a moment."""

    def __init__(self, sites):
        self.at = time.monotonic()
        self.octets, self.packets = carried()
        self.dropped, self.stolen = dropped_at(sites), stolen()
        self.ran = [site.processor()[0] for site in sites]
        self.waited = [site.processor()[1] for site in sites]
        reports = [site.report() for site in sites]
        self.dropped_by_ports = sum(it.get("messages-dropped", 0) + it.get("frames-dropped", 0) for it in reports)
        self.unpaced = sum(it.get("unpaced", 0) for it in reports)


def end_on_signals():
    """Ends sites where this program is ended."""
    signal.signal(signal.SIGTERM, lambda number, _: sys.exit(128 + number))
