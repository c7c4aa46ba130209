#!/usr/bin/env python3
"""Measures one, two and three sites behind one address (examples/hosts/processors.nft), beside unbound with as many threads.

    bench/hosts/processors.py --program FILE [--most N] [--names N] [--rounds N] [--seconds N]
                              [--server-cpus LIST] [--client-cpus LIST]

It needs root, nftables, nsd and unbound. The servers and their client are network namespaces that end with it. The client is
bench/serve/load.c, twice for each site or thread, each from a port of its own. It prints a table: answers a second, and
microseconds of the servers' processor time an answer, the middle of all rounds and the best one.
"""

import argparse
import contextlib
import os
import re
import signal
import statistics
import subprocess
import sys
import time
from pathlib import Path

sys.dont_write_bytecode = True
ROOT = Path(__file__).resolve().parents[2]
sys.path[:0] = [str(ROOT / "tests"), str(ROOT / "bench" / "serve")]

import run as serve
from hosts_parts.asking import datagram_socket, exchange
from hosts_parts.lab import Host, here
from support.messages import question

ADDRESS, OTHER = "10.9.0.1", "10.9.0.2"
FOLDER = Path("/run/bench")
FIRST = 53
# Where unbound listens, whose threads divide what comes by the askers' addresses and ports (so-reuseport).
UNBOUND = 5353
OPEN = 100


class Room:
    """A host with the servers, and one with the client."""

    def __init__(self, words):
        self.words = words
        FOLDER.mkdir()
        self.server, self.client = Host("server", FOLDER), Host("client", FOLDER)
        here(f"ip link add eth0 netns {self.server.holder} type veth peer name eth0 netns {self.client.holder}")
        for host, address in ((self.server, ADDRESS), (self.client, OTHER)):
            host.run(f"ip address add {address}/24 dev eth0")
            host.run("ip link set eth0 up")
        serve.write_zone(FOLDER, words.names)
        self.data = serve.write_names(FOLDER, words.names)
        source = (ROOT / "bench/serve/load.c").read_text().replace("INADDR_LOOPBACK", "0x0a090001u")
        self.load = FOLDER / "load"
        subprocess.run(["cc", "-O2", "-x", "c", "-o", self.load, "-"], input=source, text=True, check=True)
        self.server.begin("nsd", serve.nsd_words(FOLDER))

    def pinned(self, words, cpus):
        """A command that stays on some processors."""
        return ["taskset", "-c", cpus, *words] if cpus else words

    def begin(self, name, words):
        """Begins a server."""
        self.server.begin(name, self.pinned(words, self.words.server_cpus))

    def sites(self, count):
        """Sites behind port 53, and the ports of askers that each of them answers."""
        ports = [FIRST + number for number in range(count)]
        for port in ports:
            peers = ", ".join(f'"127.0.0.1:{other}"' for other in ports if other != port)
            conf = f'listen = "127.0.0.1:{port}"\nupstreams = ["127.0.0.1:{serve.PORTS["nsd"]}"]\npeers = [{peers}]\n'
            path = serve.write(FOLDER / f"{port}.toml", conf)
            words = [self.words.program, "serve", "--config", path, "--key", os.urandom(32).hex()]
            self.begin(f"site{port}", [*words, "--turns", "4294967295"])
        text = (ROOT / "examples/hosts/processors.nft").read_text().replace("192.0.2.1", ADDRESS)
        elements = ", ".join(f"{number} : {port}" for number, port in enumerate(ports))
        text = re.sub("elements = {.*}", f"elements = {{ {elements} }}", text).replace("mod 3", f"mod {count}")
        self.server.run("nft -f -", text)
        self.server.run("sysctl -q -w net.ipv4.conf.eth0.route_localnet=1")
        time.sleep(1)
        return FIRST, self.divided(ports)

    def divided(self, ports):
        """Two ports of askers for each site: those that are answered while the other sites stand still."""
        found = []
        for port in ports:
            others = [self.server.programs[f"site{other}"] for other in ports if other != port]
            for other in others:
                other.send_signal(signal.SIGSTOP)
            mine = []
            for asker in range(40000, 40200):
                if len(mine) < 2 and asker not in found:
                    with contextlib.closing(datagram_socket(self.client, port=asker)) as one:
                        if exchange(one, question(1, serve.name_of(0)), (ADDRESS, FIRST), 0.1):
                            mine.append(asker)
            for other in others:
                other.send_signal(signal.SIGCONT)
            found += mine
        time.sleep(1)
        return found

    def unbound(self, count):
        """unbound with some threads, and ports of askers."""
        serve.unbound_words(FOLDER)
        text = (FOLDER / "unbound.conf").read_text()
        text = text.replace("interface: 127.0.0.1", f"interface: {ADDRESS}").replace("num-threads: 1", f"num-threads: {count}")
        text = text.replace(f"port: {serve.PORTS['unbound']}", f"port: {UNBOUND}\n  so-reuseport: yes")
        text = text.replace("access-control: 127.0.0.0/8 allow", "access-control: 0.0.0.0/0 allow")
        (FOLDER / "unbound.conf").write_text(text)
        self.begin("unbound", ["unbound", "-d", "-c", str(FOLDER / "unbound.conf")])
        time.sleep(2)
        return UNBOUND, range(41000, 41000 + 2 * count)

    def asked(self, port, askers, *bounds):
        """Asks from some ports at once. Gives what each client counted."""
        running = []
        for asker in askers:
            # The client takes the one port that its system has to give.
            self.client.run(["sysctl", "-q", "-w", f"net.ipv4.ip_local_port_range={asker} {asker}"])
            words = self.pinned([self.load, port, self.data, *bounds], self.words.client_cpus)
            with self.client.inside():
                running.append(subprocess.Popen(list(map(str, words)), stdout=subprocess.PIPE, text=True))
            time.sleep(0.02)
        texts = [one.communicate(timeout=120)[0].split() for one in running]
        return [dict(zip(text[::2], map(float, text[1::2]))) for text in texts]

    def used(self):
        """The processor time of the servers that are measured."""
        return sum(serve.cpu_seconds(child.pid) for name, child in self.server.programs.items() if name != "nsd")

    def measure(self, name, count):
        """A row of the table."""
        port, askers = (self.sites if name == "dnsfleet" else self.unbound)(count)
        for _ in range(5):
            if all(one["good"] == self.words.names for one in self.asked(port, askers, 5, 20, self.words.names)):
                break
        rates, times, lost, bad = [], [], 0, 0
        for turn in range(self.words.rounds):
            before = self.used()
            shift = 20 * turn if name == "unbound" else 0
            counts = self.asked(port, [it + shift for it in askers], self.words.seconds, OPEN)
            replies = sum(one["replies"] for one in counts)
            times.append(1e6 * (self.used() - before) / max(1, replies))
            rates.append(sum(one["replies"] / one["seconds"] for one in counts))
            lost += sum(one["lost"] for one in counts)
            bad += replies - sum(one["good"] for one in counts)
        for one in [it for it in self.server.programs if it != "nsd"]:
            self.server.end(one)
        print(f"| {name} | {count} | {statistics.median(rates):,.0f} | {max(rates):,.0f} | {statistics.median(times):.2f} | "
              f"{min(times):.2f} | {lost:.0f} | {bad:.0f} |", flush=True)


def read_words():
    """The words of the command."""
    words = argparse.ArgumentParser(description=__doc__, formatter_class=argparse.RawDescriptionHelpFormatter)
    words.add_argument("--program", required=True, help="the built dnsfleet")
    words.add_argument("--most", type=int, default=3, help="sites, and threads of unbound, at most (3)")
    words.add_argument("--names", type=int, default=1000, help="how many names are asked for (1000)")
    words.add_argument("--rounds", type=int, default=7, help="how often each is measured (7)")
    words.add_argument("--seconds", type=int, default=2, help="seconds of one measure (2)")
    words.add_argument("--server-cpus", help="pin the servers to these processors, as taskset -c")
    words.add_argument("--client-cpus", help="pin the client to these processors")
    return words.parse_args()


def main():
    words = read_words()
    words.program = os.path.abspath(words.program)
    if "BENCH_INSIDE" not in os.environ:
        apart = ["unshare", "-mnpf", "--kill-child", "--mount-proc", sys.executable, *sys.argv]
        os.execvpe("unshare", apart, {**os.environ, "BENCH_INSIDE": "yes"})
    subprocess.run(["mount", "-t", "tmpfs", "tmpfs", "/run"], check=True)
    room = Room(words)
    time.sleep(1)
    print("| Server | Sites or threads | Answers a second, middle | Best | Microseconds an answer, middle | Best | Lost | Not good |")
    print("|---|---|---|---|---|---|---|---|")
    for count in range(1, words.most + 1):
        for name in ("dnsfleet", "unbound"):
            room.measure(name, count)


if __name__ == "__main__":
    main()
