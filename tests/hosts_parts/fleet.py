"""The fleet of examples/hosts, on the hosts of a wire: keys, certificates, a provider, dnsdist and sites."""

import os
import re
import shutil
import socket
import subprocess
import time
from pathlib import Path

from hosts_parts.asking import ZONE, addresses_in, ask, ask_all, datagram_socket, is_up, said
from hosts_parts.lab import Wire, here, wait_for
from support.messages import REFUSED, code_of

TOP = Path(__file__).resolve().parent.parent.parent
EXAMPLES = TOP / "examples" / "hosts"
ROOM = Path("/run/fleet")
SITES = "abcd"
# Where each host is asked, its address inside WireGuard, and how its kernel judges where a packet came from.
ADDRESSES = {"a": "10.77.0.1", "b": "10.77.0.2", "c": "10.77.0.3", "d": "10.76.0.2"}
INSIDE = {"a": "10.78.0.1", "b": "10.78.0.2", "c": "10.78.0.3", "d": "10.78.0.4"}
RP_FILTER = {"a": 0, "b": 1, "c": 2, "d": 1}
PROVIDER, CLIENT, STRANGER, ROUTER = "10.77.0.4", "10.77.0.5", "10.77.0.6", "10.77.0.254"
PORT, PLACE = 540, 549
SITE = ("127.0.0.1", PORT)
SWEEP = 3
NAMES = [f"n{number}.{ZONE}" for number in range(20000)]
# All of these, but for some that were lost on their way from the provider.
NEARLY_ALL = 19900
# Who runs a site, and who asks the world for dnsdist: users without rights.
SITE_USER = 64999


def address_of(number):
    """The address that the zone gives to a name by its number."""
    return f"198.51.{100 + number // 256 % 100}.{number % 256}"


def zone():
    """The zone of the provider."""
    lines = [f"$ORIGIN {ZONE}.", "$TTL 3600", "@ IN SOA ns hostmaster 1 3600 600 86400 300", " IN NS ns"]
    lines += ["ns IN A 192.0.2.1", "www IN A 192.0.2.2", "brief 6 IN A 192.0.2.3"]
    lines += [f"new{number} IN A 192.0.2.4" for number in range(100)]
    lines += [f"long IN A 192.0.2.{number}" for number in range(1, 61)]
    lines += [f"n{number} IN A {address_of(number)}" for number in range(len(NAMES))]
    return "\n".join(lines) + "\n"


NSD = """server:
    ip-address: {0}@53
    ip-address: {0}@853
    tls-service-key: {1}/provider.key
    tls-service-pem: {1}/provider.pem
    tls-port: 853
    tcp-count: 250
    do-ip6: no
    username: ""
    zonesdir: "{1}"
    pidfile: ""
    zonelistfile: "{1}/zone.list"
    xfrdfile: ""
    database: ""
remote-control:
    control-enable: no
zone:
    name: example.com
    zonefile: zone
"""

UNBOUND = """server:
    interface: {0}@853
    tls-service-key: {1}/provider.key
    tls-service-pem: {1}/provider.pem
    tls-port: 853
    access-control: 0.0.0.0/0 allow
    incoming-num-tcp: 250
    do-daemonize: no
    do-ip6: no
    username: ""
    chroot: ""
    directory: "{1}"
    pidfile: ""
    use-syslog: no
    module-config: "iterator"
    local-data: "a.root-servers.net. A 198.41.0.4"
remote-control:
    control-enable: no
auth-zone:
    name: example.com
    zonefile: zone
    for-upstream: yes
    for-downstream: yes
"""


def certificate(path, name):
    """Makes a key and a certificate for a name."""
    words = f"openssl req -x509 -newkey ec -pkeyopt ec_paramgen_curve:P-256 -nodes -days 2 -subj /CN={name}"
    words += f" -addext subjectAltName=DNS:{name} -keyout {path}.key -out {path}.pem"
    subprocess.run(words.split(), check=True, capture_output=True, timeout=60)


class Fleet:
    """Hosts a, b, c and d, a provider, a client and a stranger. No site is begun."""

    def __init__(self, program):
        self.program, self.ahead, self.is_full = program, ROOM / "ahead.so", False
        ROOM.mkdir(mode=0o755)
        # The hosts have what is made in /etc here, and not the machine.
        for folder in ("etc", "work"):
            (ROOM / folder).mkdir()
        here(f"mount -t overlay overlay -o lowerdir=/etc,upperdir={ROOM}/etc,workdir={ROOM}/work /etc")
        Path("/etc/resolv.conf").unlink(missing_ok=True)
        Path("/etc/resolv.conf").write_text(f"nameserver {CLIENT}\n")
        Path("/etc/dnsfleet").mkdir()
        self.wire = Wire(ROOM)
        self.hosts = self.wire.hosts
        self._place_hosts()
        self._write_files()
        self._begin_provider()
        self.asked_of_resolver = datagram_socket(self.hosts["client"], CLIENT, 53)
        for name in SITES:
            self._set_up(name)

    def _place_hosts(self):
        """Puts the hosts on the wire. Host d is behind two routers, and a link of 1,300 octets is between these."""
        here(f"ip address add {ROUTER}/24 dev wire")
        for name, address in [*ADDRESSES.items(), ("provider", PROVIDER), ("client", CLIENT), ("stranger", STRANGER)]:
            if name != "d":
                self.wire.host(name, f"{address}/24").run(f"ip route add default via {ROUTER}")
        far = self.wire.host("far", "10.75.0.2/24")
        here("ip link set to-far nomaster mtu 1300")
        here("ip address add 10.75.0.1/24 dev to-far")
        here("ip route add 10.76.0.0/24 via 10.75.0.2")
        d = self.wire.host("d", "10.76.0.2/24")
        here(f"ip link set to-d netns {far.holder} nomaster")
        far.run("ip link set eth0 mtu 1300")
        far.run("ip address add 10.76.0.1/24 dev to-d")
        far.run("ip link set to-d up")
        far.run("ip route add default via 10.75.0.1")
        d.run("ip route add default via 10.76.0.1")
        # Host c has a rule of its own about routes, as hosts of two networks have.
        c = self.wire.hosts["c"]
        c.run(f"ip rule add from {ADDRESSES['c']} lookup 100")
        c.run(f"ip route add default via {ROUTER} table 100")
        Path("/proc/sys/net/ipv4/ip_forward").write_text("1")
        far.run("sysctl -q -w net.ipv4.ip_forward=1")

    def _write_files(self):
        """Makes keys and certificates, and has make-hosts write the files of the hosts."""
        table = (EXAMPLES / "hosts").read_text(encoding="utf-8")
        table = re.sub("(?m)^(host|sweep|provider|clients) .*\n", "", table)
        for name in SITES:
            key = subprocess.run(["wg", "genkey"], capture_output=True, text=True, check=True).stdout
            (ROOM / f"{name}.key").write_text(key)
            public = subprocess.run(["wg", "pubkey"], input=key, capture_output=True, text=True, check=True).stdout
            table += f"host {name} {ADDRESSES[name]} {INSIDE[name]} {public}"
        table += f"clients 10.77.0.0/24\nprovider {PROVIDER}:853 resolver.example\nsweep {SWEEP}\n"
        (ROOM / "hosts").write_text(table)
        subprocess.run([EXAMPLES / "make-hosts", ROOM / "hosts", ROOM / "out"], check=True, timeout=60)
        certificate(ROOM / "provider", "resolver.example")
        certificate(ROOM / "impostor", "resolver.example")
        # Another server that the hosts' authority vouches for, by another name.
        certificate(ROOM / "other", "other.example")
        trusted = "".join((ROOM / f"{it}.pem").read_text() for it in ("provider", "other"))
        for name in SITES:
            certificate(self.files(name) / "host", f"{name}.example")
            (self.files(name) / "provider.pem").write_text(trusted)
            shutil.chown(self.files(name) / "host.key", "_dnsdist")

    def files(self, name):
        """Where the files of a host are, which it has in /etc/dnsfleet."""
        return ROOM / "out" / name

    def _begin_provider(self):
        """Begins NSD, with a zone of 20,000 names."""
        (ROOM / "zone").write_text(zone())
        (ROOM / "nsd.conf").write_text(NSD.format(PROVIDER, ROOM))
        (ROOM / "unbound.conf").write_text(UNBOUND.format(PROVIDER, ROOM))
        self.hosts["provider"].begin("nsd", f"nsd -d -c {ROOM}/nsd.conf")

    def _set_up(self, name):
        """Puts a host's files where they belong, and begins its link with its rules, and its dnsdist."""
        host = self.hosts[name]
        for which in ("all", "default"):
            host.run(f"sysctl -q -w net.ipv4.conf.{which}.rp_filter={RP_FILTER[name]}")
        host.run(f"mount --bind {self.files(name)} /etc/dnsfleet")
        for folder in ("/etc/wireguard", "/run/wireguard"):
            Path(folder).mkdir(exist_ok=True)
            host.run(f"mount -t tmpfs -o mode=700 tmpfs {folder}")
        host.run(f"install -m 600 {ROOM}/{name}.key /etc/wireguard/key")
        host.run("install -m 600 /etc/dnsfleet/wg0.conf /etc/wireguard/wg0.conf")
        host.run("wg-quick up wg0")
        self.begin_dnsdist(name)

    def begin_dnsdist(self, name):
        """Begins dnsdist of a host, as its unit does: as a user of its own."""
        words = "dnsdist --supervised --disable-syslog -C /etc/dnsfleet/dnsdist.conf"
        self.hosts[name].begin("dnsdist", words, user="_dnsdist")

    def begin_site(self, name, ahead=None):
        """Begins the site of a host, as a user of its own. Its clock may be some seconds ahead."""
        more = {}
        if ahead is not None:
            (ROOM / "seconds").write_bytes(ahead.to_bytes(8, "little", signed=True))
            more["env"] = {**os.environ, "LD_PRELOAD": str(self.ahead), "CLOCK_AHEAD": str(ROOM / "seconds")}
        words = [self.program, "serve", "--config", "/etc/dnsfleet/site.toml", "--key", os.urandom(32).hex()]
        host = self.hosts[name]
        host.begin("site", [*words, "--turns", "4294967295", "--report", "1"], SITE_USER, **more)
        wait_for(True, lambda: ask(host, SITE, "is.there", 0.5, flags=0) is not None)

    def move_cable(self, name, to, address):
        """Gives the other end of a host's cable to a host, at an address there."""
        here(f"ip link set to-{name} nomaster netns {self.hosts[to].holder}")
        self.hosts[to].run(f"ip address add {address} dev to-{name}")
        self.hosts[to].run(f"ip link set to-{name} up")

    def need(self, *names):
        """Begins the sites of these hosts that are not there, and waits until dnsdist of each host knows it."""
        for name in names:
            if "site" not in self.hosts[name].programs:
                self.begin_site(name)
        for name in names:
            wait_for(True, lambda: is_up(self.hosts[name], name))

    def again(self, name, ahead=None):
        """Ends a site, and begins it anew."""
        self.hosts[name].end("site")
        self.begin_site(name, ahead)

    def fill(self):
        """Has site a learn all names. Gives how many it answered now, or nothing where it has them."""
        if self.is_full:
            return None
        self.need("a", "b")
        good = sum(ask_all(self.hosts["a"], SITE, NAMES[at : at + 1000], most=64) for at in range(0, len(NAMES), 1000))
        self.is_full = True
        return good

    def is_filled(self, name, seconds=40):
        """Whether a site comes to hold nearly all names. It says when."""
        begun = time.monotonic()
        found = wait_for(True, lambda: self.counts(name).get("items", 0) >= NEARLY_ALL, seconds)
        print(f"        site {name} held {self.counts(name).get('items')} after {time.monotonic() - begun:.1f} seconds")
        return found

    def answers(self, name, question):
        """What the site of a host says of a name, of what it holds."""
        return said(ask(self.hosts[name], SITE, question, 2.0, flags=0))

    def has(self, name, question):
        """Whether a site holds something of a name. One that does not refuses a question without recursion."""
        reply = ask(self.hosts[name], SITE, question, 2.0, flags=0)
        return None if reply is None else code_of(reply) != REFUSED

    def ttl(self, name, question):
        """The TTL of a site's answer."""
        reply = ask(self.hosts[name], SITE, question, 2.0, flags=0)
        return addresses_in(reply)[1] if reply and code_of(reply) == 0 else None

    def counts(self, name):
        """The last counts that a site printed."""
        printed = (ROOM / f"{name}.site").read_text().rpartition("listening")[2]
        words = next((line for line in reversed(printed.splitlines()) if line.startswith("turns ")), "").split()
        return dict(zip(words[::2], map(int, words[1::2])))

    def ask_front(self, name, question, **more):
        """What the client is told of a name at a host's address."""
        return said(ask(self.hosts["client"], (ADDRESSES[name], 53), question, **more))


def place_of(host, address="127.0.0.1", port=PLACE):
    """A socket at root's place of a host, with room for a sweep."""
    return datagram_socket(host, address, port, 1 << 26)


def open_stream(host, place, source=None, seconds=1.0):
    """Whether a place takes a connection of TCP from a host."""
    with host.inside():
        one = socket.socket(socket.AF_INET, socket.SOCK_STREAM)
    with one:
        one.settimeout(seconds)
        try:
            if source:
                one.bind((source, 0))
            one.connect(place)
        except OSError:
            return False
        return True
