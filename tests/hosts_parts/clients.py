"""What clients of the hosts meet: dnsdist, and the provider behind it."""

import contextlib
import socket
import time

from hosts_parts.asking import QUERIES, ask, ask_all, ask_stream, datagram_socket, exchange, is_up, metrics, said
from hosts_parts.fleet import ADDRESSES, NAMES, NEARLY_ALL, PROVIDER, ROOM, SITE, SITES, STRANGER, ZONE
from hosts_parts.fleet import address_of, open_stream
from hosts_parts.lab import wait_for
from hosts_parts.packets import heard
from support.messages import question

A = ADDRESSES["a"]
# An address from which no client asks.
NO_CLIENT = "10.99.0.1"


def answers(fleet, check):
    """Answers, short and long."""
    client = fleet.hosts["client"]
    check("a client of host a is answered", "192.0.2.2", fleet.ask_front("a", f"www.{ZONE}"))
    came = wait_for("192.0.2.2", lambda: fleet.answers("b", f"www.{ZONE}"), 15)
    check("site b has the news, and asks nobody", "192.0.2.2", came)
    check("a client of host b is answered", "192.0.2.2", fleet.ask_front("b", f"www.{ZONE}"))
    check("of 60 addresses the site says that they are too many", "cut off", fleet.ask_front("a", f"long.{ZONE}"))
    check("over TCP all 60 come", "60", said(ask_stream(client, (A, 53), f"long.{ZONE}")))
    trusted = fleet.files("a") / "host.pem"
    check("and over TLS", "60", said(ask_stream(client, (A, 853), f"long.{ZONE}", trusted)))
    check("who asks for DNSSEC is answered by the provider", "60", fleet.ask_front("a", f"long.{ZONE}", opt=True))


def strangers_as_clients(fleet, check):
    """Who is no client."""
    stranger = fleet.hosts["stranger"]
    stranger.run(f"ip address add {NO_CLIENT}/32 dev lo")
    for name in "abc":
        fleet.hosts[name].run(f"ip route add {NO_CLIENT}/32 via {STRANGER}")
    with contextlib.closing(datagram_socket(stranger, NO_CLIENT)) as one:
        one.settimeout(1)
        one.sendto(question(1, f"www.{ZONE}"), (A, 53))
        time.sleep(1)
        check("who is no client gets no answer over UDP", [], heard(one))
    for port, trusted in ((53, None), (853, fleet.files("a") / "host.pem")):
        reply = ask_stream(stranger, (A, port), f"www.{ZONE}", trusted, 1.0, NO_CLIENT)
        check(f"nor over TCP at port {port}", "no answer", said(reply))


def flood(fleet, check):
    """A client that asks more than others."""
    client, names = fleet.hosts["client"], [f"www.{ZONE}"] * 400
    before = metrics(fleet.hosts["a"])
    got = ask_all(client, (A, 53), names, most=400)
    print(f"        of 400 questions in an instant {got} were answered")
    check("a client that floods gets a share", True, 80 <= got <= 160)
    after = metrics(fleet.hosts["a"])
    asked = [name for name in (*SITES, "provider") if after[QUERIES, name] - before[QUERIES, name] > 40]
    check("all from the host's own site", ["a"], asked)
    reply = ask(fleet.hosts["stranger"], (A, 53), f"www.{ZONE}")
    check("and another client is answered meanwhile", "192.0.2.2", said(reply))
    time.sleep(1.5)


def connections(fleet, check):
    """Many new names at once, asked at host a."""
    a, provider = fleet.hosts["a"], fleet.hosts["provider"]
    good = fleet.fill()
    held = len(provider.run(f"ss -Htn state established src :853 dst {A}").splitlines())
    print(f"        {good} were answered, and {held} connections to the provider are open")
    check("of 20,000 new names, 64 at once, nearly all are answered", True, good >= NEARLY_ALL)
    check("and the provider has at most 40 connections of host a", True, held <= 40)
    check("and the provider is still up", True, wait_for(True, lambda: is_up(a, "provider"), 5))
    last = len(NAMES) - 1
    check("what came is what the zone has", address_of(last), fleet.answers("a", NAMES[last]))


def impostor(fleet, check):
    """Somebody else at the provider's address, and another kind of provider."""
    provider, a = fleet.hosts["provider"], fleet.hosts["a"]
    text = (ROOM / "nsd.conf").read_text()
    for number, (name, what) in enumerate({"impostor": "of his own for its name", "other": "of another name"}.items()):
        provider.end("nsd")
        theirs = text.replace("provider.key", f"{name}.key").replace("provider.pem", f"{name}.pem")
        (ROOM / f"{name}.conf").write_text(theirs)
        provider.begin("nsd", f"nsd -d -c {ROOM}/{name}.conf")
        wait_for(True, lambda: open_stream(provider, (PROVIDER, 853)))
        seen = wait_for(False, lambda: is_up(a, "provider"), 10)
        check(f"who has a certificate {what} is not the provider", False, seen)
        came = wait_for("code 2", lambda: fleet.ask_front("a", f"new{number}.{ZONE}"), 10)
        check("and nobody is told what he says", True, came in ("code 2", "no answer"))
    provider.end("nsd")
    provider.begin("unbound", f"unbound -d -c {ROOM}/unbound.conf")
    check("with unbound as the provider it is up again", True, wait_for(True, lambda: is_up(a, "provider")))
    check("and answers", "192.0.2.4", wait_for("192.0.2.4", lambda: fleet.ask_front("a", f"new2.{ZONE}"), 10))
    check("also over TCP", "60", said(ask_stream(fleet.hosts["client"], (A, 53), f"long.{ZONE}")))
    provider.end("unbound")
    provider.begin("nsd", f"nsd -d -c {ROOM}/nsd.conf")
    wait_for(True, lambda: is_up(a, "provider"))


def newer_addresses(fleet, check):
    """Clients over IPv6, with two more lines for dnsdist of host b."""
    b, client = fleet.hosts["b"], fleet.hosts["client"]
    for host, address in ((b, "fd77::2"), (client, "fd77::5")):
        host.run(f"ip address add {address}/64 dev eth0 nodad")
    b.end("dnsdist")
    with open(fleet.files("b") / "dnsdist.conf", "a", encoding="utf-8") as conf:
        conf.write('addLocal("[fd77::2]:53")\naddACL("fd77::/64")\n')
    fleet.begin_dnsdist("b")

    def asked():
        with client.inside(), contextlib.closing(socket.socket(socket.AF_INET6, socket.SOCK_DGRAM)) as one:
            return said(exchange(one, question(1, f"www.{ZONE}"), ("fd77::2", 53, 0, 0), 0.5))

    check("a client over IPv6 is answered", "192.0.2.2", wait_for("192.0.2.2", asked, 10))


def others(fleet, check):
    """What dnsdist does besides."""
    fleet.asked_of_resolver.setblocking(False)
    check("dnsdist asks nobody about itself", [], heard(fleet.asked_of_resolver))
    reply = ask(fleet.hosts["a"], SITE, "a.root-servers.net", rclass=3)
    check("a site answers a check of class CH by itself", "code 4", said(reply))


PARTS = (answers, strangers_as_clients, flood, connections, impostor, newer_addresses, others)
