"""A host whose processors have a site each, behind one address and port (examples/hosts/processors.nft)."""

import contextlib
import os
import re

from hosts_parts.asking import datagram_socket, exchange, said
from hosts_parts.fleet import CLIENT, EXAMPLES, PROVIDER, ROOM, SITE_USER, STRANGER, ZONE
from hosts_parts.lab import wait_for
from hosts_parts.packets import Sender, heard
from hosts_parts.rules import KEEPER
from support.messages import question

ADDRESS, PLACE = "10.77.0.8", ("10.77.0.8", 53)
PORTS = (53, 54, 55)
ASKERS = 120
DNSDIST = f"""setLocal("127.0.0.1:5301")
setACL("127.0.0.1/32")
setSecurityPollSuffix("")
newServer("{PROVIDER}:53")
"""
NAME = f"www.{ZONE}"


def begin_site(fleet, port):
    """Begins the site at a port, whose peers are the others. It asks the provider by way of a relay of this test."""
    others = ", ".join(f'"127.0.0.1:{it}"' for it in PORTS if it != port)
    path = ROOM / f"processor{port}.toml"
    path.write_text(f'listen = "127.0.0.1:{port}"\nupstreams = ["127.0.0.1:5301"]\npeers = [{others}]\nsweep = 1\n')
    words = [fleet.program, "serve", "--config", path, "--key", os.urandom(32).hex(), "--turns", "4294967295"]
    host, me = fleet.hosts["many"], ("127.0.0.1", port)
    host.begin(f"site{port}", [*words, "--report", "1"], SITE_USER)

    def is_there():
        with contextlib.closing(datagram_socket(host)) as one:
            return exchange(one, question(1, "is.there", flags=0), me, 0.5) is not None

    wait_for(True, is_there)


def build(fleet):
    """A host with three sites, and dnsdist alone as the way to the provider."""
    host = fleet.wire.host("many", f"{ADDRESS}/24")
    conf = ROOM / "many.conf"
    conf.write_text(DNSDIST)
    host.begin("dnsdist", f"dnsdist --supervised --disable-syslog -C {conf}")
    for port in PORTS:
        begin_site(fleet, port)
    host.run("nft -f -", KEEPER)
    rules = ROOM / "processors.nft"
    rules.write_text((EXAMPLES / "processors.nft").read_text().replace("192.0.2.1", ADDRESS))
    for line in commands(EXAMPLES / "processors.nft")["nft"].split(" && "):
        host.run(line.replace("/etc/dnsfleet", str(ROOM)))
    return host


def commands(path):
    """The commands that the recipe prints, by their first words."""
    found = re.findall("^#   ((?:nft|sysctl) .*)$", path.read_text(), re.M)
    return {("set" if "delete element" in line else line.split()[0]): line for line in found}


def answered(sockets):
    """Which of some sockets of the client get an answer."""
    for one in sockets:
        one.sendto(question(1, NAME), PLACE)
    wait_for(True, lambda: False, 0.5)
    return [bool(heard(one)) for one in sockets]


def counted(host, port):
    """How many questions a site had."""
    lines = [line for line in (ROOM / f"many.site{port}").read_text().splitlines() if line.startswith("turns ")]
    return int(re.search("questions ([0-9]+)", lines[-1])[1]) if lines else 0


def divided(fleet, check):
    """What sites of one host answer, and when one of them ends."""
    host, client = build(fleet), fleet.hosts["client"]
    with contextlib.ExitStack() as stack:
        askers = [stack.enter_context(contextlib.closing(datagram_socket(client))) for _ in range(ASKERS)]
        wait_for("192.0.2.2", lambda: said(exchange(askers[0], question(1, NAME), PLACE, 1)))
        check(f"of {ASKERS} askers of three sites all are answered", ASKERS, answered(askers).count(True))
        wait_for(True, lambda: sum(counted(host, port) for port in PORTS) >= ASKERS)
        shares = [counted(host, port) for port in PORTS]
        print(f"        the sites had {shares} questions")
        check("each site has a share of them", True, min(shares) >= ASKERS // 6)
        host.end("site54")
        before = answered(askers)
        print(f"        with one of three sites down, {before.count(True)} of {ASKERS} askers are answered")
        check("when one site ends, only its askers get no answer", True, ASKERS // 2 < before.count(True) < ASKERS)
        check("and these again and again", before, answered(askers))
        words = commands(EXAMPLES / "processors.nft")["set"]
        host.run(["nft", words.split("'")[1]])
        check("given to another site, all are answered", ASKERS, answered(askers).count(True))
        begin_site(fleet, 54)
        host.run(f"nft -f {ROOM}/processors.nft")
        wait_for(True, lambda: all(answered(askers)), 10)
        check("and when it is there again", ASKERS, answered(askers).count(True))


def unsummed(fleet, check):
    """Datagrams without a checksum, and other ways in."""
    host, client, ports = fleet.hosts["many"], fleet.hosts["client"], range(30000, 30060)
    with contextlib.ExitStack() as stack:
        askers = [stack.enter_context(contextlib.closing(datagram_socket(client, port=port))) for port in ports]
        sender = stack.enter_context(contextlib.closing(Sender(client, "eth0", host.mac())))
        for port in ports:
            sender.send((CLIENT, port), PLACE, question(port, NAME), summed=False)
        wait_for(True, lambda: False, 0.5)
        came = sum(len(heard(one)) for one in askers)
        check("of 60 datagrams without a checksum all are answered", 60, came)
        listed = host.run("conntrack -L -p udp", fails=True).splitlines()
        check("no answer leaves a flow", [], [line for line in listed if CLIENT in line])
        ears = [(host, "127.0.0.1", 9999), (host, ADDRESS, 9999), (fleet.hosts["stranger"], STRANGER, 53)]
        private, public, beyond = (stack.enter_context(contextlib.closing(datagram_socket(*it))) for it in ears)
        sender.send((CLIENT, 7), ("127.0.0.1", 9999), b"")
        for number, source in enumerate((CLIENT, "127.0.0.2", "127.0.0.1")):
            sender.send((source, 7000 + number), (ADDRESS, 9999), b"")
        host.run("sysctl -q -w net.ipv4.ip_forward=1")
        sender.send((CLIENT, 8000), (STRANGER, 53), question(1, NAME))
        wait_for(True, lambda: False, 0.3)
        host.run("sysctl -q -w net.ipv4.ip_forward=0")
        check("nobody on the wire reaches what else listens at 127.0.0.1 of that host", [], heard(private))
        check("or speaks with an address of 127.0.0.0/8", [7000], heard(public))
        check("what it forwards to port 53 of others is not its sites'", [8000], heard(beyond))
        asker = askers[0]
        for port in PORTS[1:]:
            reply = exchange(asker, question(5, NAME), (ADDRESS, port), 0.3)
            check(f"port {port} is not open to it", None, reply)
    for line in commands(EXAMPLES / "processors.nft")["sysctl"].split(" && "):
        host.run(line)
    host.run("nft delete table inet keeper")
    left = host.run("cat /proc/sys/net/ipv4/conf/eth0/route_localnet").strip(), host.run("nft list tables")
    check("taken back, neither the rules nor the switch is there", ("0", ""), left)


PARTS = (divided, unsummed)
