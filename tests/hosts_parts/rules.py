"""The rules and the switch: when they come and go, and beside other rules of a host."""

import contextlib
import os
import re
import signal
import time
from pathlib import Path

from hosts_parts.asking import ask_all, datagram_socket
from hosts_parts.fleet import ADDRESSES, INSIDE, PORT, ROOM, SITE, ZONE
from hosts_parts.lab import wait_for
from hosts_parts.packets import Sender, forged_frame, heard, knock

# Where something of host a listens at 127.0.0.1, and whence host c tries to reach it.
PRIVATE, FROM = ("127.0.0.1", 9999), ("10.78.0.3", 7777)
TIMES = 20
SWITCHES = "/proc/sys/net/ipv4/conf"
# A firewall that lets in what a host of the fleet has to have, but for gossip.
FIREWALL = """table inet firewall {
    chain input {
        type filter hook input priority filter; policy drop;
        iif lo accept
        ct state established,related accept
        udp dport { 53, 51820 } accept
        tcp dport { 53, 853 } accept
        GOSSIP
    }
    chain output {
        type filter hook output priority filter; policy drop;
        oif lo accept
        ct state established,related accept
        udp dport { 53, 51820 } accept
        tcp dport { 53, 853 } accept
        WHAT LEAVES
    }
}
"""
# A table that has the kernel keep flows.
KEEPER = "table inet keeper { chain input { type filter hook input priority 0; ct state established accept; }; }"
GOSSIP = 'iifname "wg0" udp dport 540 accept'
LEAVES = 'oifname "wg0" udp sport 540 accept; oifname "wg0" udp dport 540 accept'

# What a kubelet puts into the tables of iptables.
KUBELET = "! -s 127.0.0.0/8 -d 127.0.0.0/8 -m conntrack ! --ctstate RELATED,ESTABLISHED,DNAT -j DROP"


class News:
    """Names of the zone that nobody has asked for."""

    number = 40

    def __init__(self, fleet):
        self._fleet = fleet

    def comes(self, source="b", to="a", seconds=7):
        """Whether what one host learns comes to another one within two sweeps."""
        for _ in range(3):
            News.number += 1
            name = f"new{News.number}.{ZONE}"
            if self._fleet.ask_front(source, name) == "192.0.2.4":
                return wait_for(True, lambda: self._fleet.has(to, name), seconds)
        return "not learnt"


@contextlib.contextmanager
def knocking(host, mac, source, target, interface="wg0"):
    """A host sends to a place, a thousand times a second and more."""
    child = os.fork()
    if child == 0:
        sender = Sender(host, interface, mac)
        while True:
            with contextlib.suppress(OSError):
                sender.send(source, target, b"")
            time.sleep(0.0005)
    try:
        yield
    finally:
        os.kill(child, signal.SIGKILL)
        os.waitpid(child, 0)


@contextlib.contextmanager
def reaching(fleet):
    """Host c tries to reach 127.0.0.1 of host a. Gives the socket there."""
    a, c = fleet.hosts["a"], fleet.hosts["c"]
    key = a.run("wg show wg0 public-key").strip()
    c.run(f"wg set wg0 peer {key} allowed-ips {INSIDE['a']}/32,127.0.0.0/8")
    with contextlib.closing(datagram_socket(a, *PRIVATE, room=1 << 22)) as one, knocking(c, None, FROM, PRIVATE):
        yield one
    c.run(f"wg set wg0 peer {key} allowed-ips {INSIDE['a']}/32")


def hooks(host, *names):
    """The commands of wg0.conf that wg-quick runs as wg0 comes or goes."""
    lines = host.run("cat /etc/wireguard/wg0.conf").replace("%i", "wg0").splitlines()
    return [line.split(" = ", 1)[1] for name in names for line in lines if line.startswith(f"{name} = ")]


def orders(fleet, check):
    """The rules come before the switch, and go after it."""
    a = fleet.hosts["a"]
    up, down = [line for line in hooks(a, "PostUp") if "private-key" not in line], hooks(a, "PreDown", "PostDown")
    orders_of = {
        "the switch is taken back and set as wg0.conf has it": (down, up),
        "the switch is set before the rules": (down, up[::-1]),
        "the switch is taken back after the rules": (down[::-1], up),
    }
    with reaching(fleet) as one:
        for what, (going, coming) in orders_of.items():
            heard(one)
            for _ in range(TIMES):
                for line in going + coming:
                    a.run(line)
            wanted = what.startswith("the switch is taken back and set")
            reached = "is not reached" if wanted else "is reached"
            check(f"while {what}, 127.0.0.1 {reached}", wanted, not heard(one))
    check("after that gossip passes", True, News(fleet).comes())


def link(fleet, check):
    """The link of host a goes and comes, with its rules and its switch."""
    a = fleet.hosts["a"]

    def state():
        switch = a.run(f"cat {SWITCHES}/wg0/route_localnet", fails=True).strip()
        return switch, "dnsfleet" in a.run("nft list tables")

    check("with wg0 up the switch is on, and the rules are there", ("1", True), state())
    check("and the switch of no other interface is", ["0"] * 4,
          [a.run(f"cat {SWITCHES}/{it}/route_localnet").strip() for it in ("all", "default", "eth0", "lo")])
    a.run("wg-quick down wg0")
    check("with wg0 down neither is there", ("", False), state())
    rules = Path(fleet.files("a") / "dnsfleet.nft")
    text = rules.read_text()
    rules.write_text(text.replace("notrack", "no-track", 1))
    check("with rules that cannot be loaded wg0 does not come up", True, a.fails("wg-quick up wg0"))
    check("and there is no switch", ("", False), state())
    rules.write_text(text)
    a.run("wg-quick up wg0")
    check("up again, both are there", ("1", True), state())
    check("and gossip passes", True, News(fleet).comes())


def lost_while(fleet, does):
    """How many of 1,200 questions of host b to site a are lost while something is done twenty times."""
    child = os.fork()
    if child == 0:
        with contextlib.suppress(OSError):
            for _ in range(TIMES):
                does()
                time.sleep(0.1)
        os._exit(0)
    good = ask_all(fleet.hosts["b"], (INSIDE["a"], PORT), [f"www.{ZONE}"] * 1200, most=1200, rate=300)
    os.waitpid(child, 0)
    return 1200 - good


def loads(fleet, check):
    """The rules are loaded again while they are used."""
    a = fleet.hosts["a"]
    own = (ROOM / "nftables.conf")
    own.write_text(Path("/etc/nftables.conf").read_text() + 'include "/etc/dnsfleet/dnsfleet.nft"\n')
    a.run("nft -f /etc/dnsfleet/dnsfleet.nft")
    check("loaded again, each rule is there once", 1, a.run("nft list table ip dnsfleet").count('iif "lo" accept'))
    files = {"the rules are": "/etc/dnsfleet/dnsfleet.nft", "nftables.conf, with them, is": own}
    for what, file in files.items():
        # wireguard-go loses some by itself while sites sweep. Loads that leave a gap would lose more each time.
        lost = []
        while len(lost) < 3 and (not lost or lost[-1] > 12):
            lost.append(lost_while(fleet, lambda: a.run(f"nft -f {file}")))
        print(f"        of 1,200 questions {' then '.join(map(str, lost))} were lost")
        check(f"while {what} loaded twenty times, at most 12 of 1,200 questions are lost", True, lost[-1] <= 12)
    with reaching(fleet) as one:
        heard(one)
        for _ in range(TIMES):
            for file in files.values():
                a.run(f"nft -f {file}")
        check("and 127.0.0.1 of host a is not reached", [], heard(one))
        a.run("nft -f /etc/nftables.conf")
        time.sleep(0.1)
        check("an nftables.conf without them opens it", True, bool(heard(one)))
        check("and ends gossip", False, News(fleet).comes())
        a.run(f"nft -f {own}")
        check("until it has them", True, News(fleet).comes())
    a.run("nft delete table inet filter")


def flows(fleet, check):
    """Gossip and the table of flows."""
    a = fleet.hosts["a"]
    a.run("nft -f -", KEEPER)
    a.run("conntrack -F", fails=True)
    a.run("nft delete table ip dnsfleet")
    time.sleep(4)
    listed = a.run("conntrack -L -p udp", fails=True)
    check("without the rules gossip leaves flows", True, bool(re.search(f"sport={PORT} dport={PORT}", listed)))
    a.run("nft -f /etc/dnsfleet/dnsfleet.nft")
    check("with the rules loaded again it passes, in spite of these", True, News(fleet).comes())
    check("and in the other direction", True, News(fleet).comes("a", "b"))
    a.run("conntrack -F", fails=True)
    time.sleep(4)
    listed = a.run("conntrack -L -p udp", fails=True)
    check("and leaves none", [], [line for line in listed.splitlines() if f"sport={PORT} dport={PORT}" in line])
    a.run("nft delete table inet keeper")


def firewalls(fleet, check):
    """Other rules of host a."""
    a, news = fleet.hosts["a"], News(fleet)
    for coming, going, source, to, passes in (("", LEAVES, "b", "a", False), (GOSSIP, "", "a", "b", False),
                                              (GOSSIP, LEAVES, "b", "a", True), (GOSSIP, LEAVES, "a", "b", True)):
        a.run("nft -f -", FIREWALL.replace("GOSSIP", coming).replace("WHAT LEAVES", going))
        lines = " and ".join(["its line of input"] * bool(coming) + ["its lines of output"] * bool(going))
        does = "lets" if passes else "does not let"
        check(f"with {lines} a firewall {does} news of {source} to {to}", passes, news.comes(source, to))
        a.run("nft delete table inet firewall")
    a.run(f"iptables -A INPUT {KUBELET}")
    check("a rule as of kubelet ends gossip", False, news.comes())
    a.run(f"iptables -I INPUT -i wg0 -p udp --dport {PORT} -j ACCEPT")
    check("with a line for it before that rule it passes", True, news.comes())
    a.run("iptables -F INPUT")


def plain(fleet, check):
    """The rules on eth0, without WireGuard. This also shows that the stranger's frames get to host a."""
    a, stranger = fleet.hosts["a"], fleet.hosts["stranger"]
    a.end("site")
    kept = {path: path.read_text() for path in (fleet.files("a") / "dnsfleet.nft", fleet.files("a") / "site.toml")}
    for path, text in kept.items():
        path.write_text(text.replace("10.78.", "10.77.").replace("wg0", "eth0"))
    a.run("nft -f /etc/dnsfleet/dnsfleet.nft")
    a.run("sysctl -q -w net.ipv4.conf.eth0.route_localnet=1")
    fleet.begin_site("a")
    sources = {"plain-b": (ADDRESSES["b"], PORT), "plain-local": ("127.0.0.1", 549), "plain-own": ("10.77.0.6", PORT)}
    for name, source in sources.items():
        knock(stranger, source, (ADDRESSES["a"], PORT), forged_frame(f"{name}.forged"), a.mac())
        knock(stranger, source, SITE, forged_frame(f"{name}2.forged"), a.mac())
    with contextlib.closing(datagram_socket(a, ADDRESSES["a"], 9999)) as one:
        for number, source in enumerate(("10.77.0.6", "127.0.0.2", "127.0.0.1")):
            knock(stranger, (source, 7000 + number), (ADDRESSES["a"], 9999), b"", a.mac())
        check("nothing comes from the wire with an address of 127.0.0.0/8", [7000], heard(one))
    wait_for(True, lambda: fleet.has("a", "plain-b.forged"), 3)
    names = [f"{name}{number}.forged" for name in sources for number in ("", "2")]
    check("without WireGuard a stranger speaks for site b, and not as himself, or as or to 127.0.0.1",
          ["plain-b.forged"], [name for name in names if fleet.has("a", name)])
    a.end("site")
    a.run("sysctl -q -w net.ipv4.conf.eth0.route_localnet=0")
    for path, text in kept.items():
        path.write_text(text)
    a.run("nft -f /etc/dnsfleet/dnsfleet.nft")
    fleet.begin_site("a")


PARTS = (orders, link, loads, flows, firewalls, plain)
