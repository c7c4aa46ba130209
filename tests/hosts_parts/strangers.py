"""Who may not speak to a site, or for one. Each frame says that a name of its own has the address 192.0.2.99."""

import contextlib
import socket
import time

from hosts_parts.asking import ask_stream, datagram_socket, said
from hosts_parts.fleet import ADDRESSES, CLIENT, INSIDE, PLACE, PORT, SITE, STRANGER, ZONE, open_stream, place_of
from hosts_parts.lab import wait_for
from hosts_parts.packets import forged_frame, heard, knock
from support.messages import question

A, B = ADDRESSES["a"], ADDRESSES["b"]
NOBODY = 65534
# The network of guests behind host b, such as containers.
GUEST, GATE = "10.200.0.2", "10.200.0.1"
GUESTS = """table ip guests {
    chain out {
        type nat hook postrouting priority srcnat
        ip saddr 10.200.0.0/24 udp sport 541 masquerade to :540
        ip saddr 10.200.0.0/24 masquerade
    }
}
"""


def taken(fleet, names):
    """Those of some names that site a has taken."""
    return [name for name in names if fleet.has("a", name)]


def knocks(fleet, word):
    """Frames of a stranger on the wire, with all addresses that could be of use to him. Gives where those came from
    and went that were taken."""
    stranger, mac = fleet.hosts["stranger"], fleet.hosts["a"].mac()
    sources = [(it, PORT) for it in (INSIDE["b"], B, ADDRESSES["d"], STRANGER)]
    sources += [("127.0.0.1", PLACE), ("127.0.0.1", 5301)]
    targets = [(INSIDE["a"], PORT), (A, PORT), SITE, (A, 53), ("127.0.0.1", 5301), (A, 51820), ("10.77.0.255", PORT)]
    pairs = {f"{word}{number}.forged": pair for number, pair in enumerate((it, to) for it in sources for to in targets)}
    for name, (source, target) in pairs.items():
        knock(stranger, source, target, forged_frame(name), mac)
    return [pairs[name] for name in taken(fleet, pairs)]


def from_the_wire(fleet, check):
    """A stranger on the wire."""
    a, stranger = fleet.hosts["a"], fleet.hosts["stranger"]
    check("of 42 frames from the wire none is taken", [], knocks(fleet, "wire"))
    a.run("sysctl -q -w net.ipv4.conf.all.route_localnet=1")
    with contextlib.closing(datagram_socket(a, "127.0.0.1", 9999)) as one:
        check("nor where other software, as kube-proxy does, switched route_localnet on", [], knocks(fleet, "all"))
        knock(stranger, (STRANGER, 7777), ("127.0.0.1", 9999), b"", a.mac())
        check("nor is 127.0.0.1 of host a reached then", [], heard(one))
    a.run("sysctl -q -w net.ipv4.conf.all.route_localnet=0")


def at_open_ports(fleet, check):
    """All ports of host a at which something listens, as a stranger finds them."""
    a, stranger = fleet.hosts["a"], fleet.hosts["stranger"]

    def listening(kind):
        return sorted({int(line.split()[3].rsplit(":", 1)[1]) for line in a.run(f"ss -Hln{kind}").splitlines()})

    streams, datagrams = listening("t"), listening("u")
    check("host a listens at these ports of TCP", [53, 853, 5301, 8083], streams)
    check("a stranger reaches two of them", [53, 853], [port for port in streams if open_stream(stranger, (A, port))])
    before = fleet.counts("a").get("code-1")
    replies = []
    for port in sorted({*datagrams, PORT, PLACE, 5301}):
        with contextlib.closing(datagram_socket(stranger)) as one:
            for octets in (forged_frame(f"open{port}.forged"), b"", b"\0" * 11, b"\xff" * 1400, question(1, ZONE)[:-1]):
                with contextlib.suppress(OSError):
                    one.sendto(octets, (A, port))
            time.sleep(0.3)
            replies += heard(one)
    check("to frames and octets of no meaning nobody replies but dnsdist", [], [port for port in replies if port != 53])
    check("and none of it is taken", [], taken(fleet, [f"open{port}.forged" for port in datagrams]))
    time.sleep(1.2)
    check("or gets to the site, which would say that it is at fault", before, fleet.counts("a").get("code-1"))
    check("at the end clients are answered", "192.0.2.2", fleet.ask_front("a", f"www.{ZONE}"))


def own_users(fleet, check):
    """Users of the hosts themselves."""
    a, b = fleet.hosts["a"], fleet.hosts["b"]

    def say(place, target, name):
        one = socket.socket(socket.AF_INET, socket.SOCK_DGRAM)
        try:
            one.bind(place)
            one.sendto(forged_frame(name), target)
        except OSError as fault:
            return fault.strerror
        return "sent"

    there = (INSIDE["a"], PORT)
    check("a user of host b cannot have the site's port", "Permission denied",
          b.as_user(NOBODY, lambda: say((INSIDE["b"], PORT), there, "user.forged")))
    check("from another port he is no peer", ("sent", []),
          (b.as_user(NOBODY, lambda: say((INSIDE["b"], 7000), there, "port.forged")), taken(fleet, ["port.forged"])))
    check("root of host b cannot send from the site's port beside it", [], spoken_by_root(fleet))
    check("a user of host a cannot have root's place", "Permission denied",
          a.as_user(NOBODY, lambda: say(("127.0.0.1", PLACE), SITE, "place.forged")))
    check("root can", ["root.forged"], spoken_at_the_place(fleet))


def spoken_by_root(fleet):
    """What site a took of a frame from the address and port of site b inside WireGuard, but from another socket."""
    with contextlib.closing(datagram_socket(fleet.hosts["b"], INSIDE["b"], PORT)) as one, contextlib.suppress(OSError):
        one.sendto(forged_frame("beside.forged"), (INSIDE["a"], PORT))
    time.sleep(0.3)
    return taken(fleet, ["beside.forged"])


def spoken_at_the_place(fleet):
    """What site a took of a frame from root's place."""
    with contextlib.closing(place_of(fleet.hosts["a"])) as one:
        one.sendto(forged_frame("root.forged"), SITE)
    time.sleep(0.3)
    return taken(fleet, ["root.forged"])


def behind_a_host(fleet, check):
    """A guest of host b, such as a container: host b forwards what it sends, and gives it its own address."""
    b = fleet.hosts["b"]
    guest = fleet.wire.host("guest")
    guest.run("ip address add 10.200.0.2/24 dev eth0")
    fleet.move_cable("guest", "b", f"{GATE}/24")
    guest.run(f"ip route add default via {GATE}")
    b.run("sysctl -q -w net.ipv4.ip_forward=1")
    b.run("nft -f -", GUESTS)
    check("host b forwards for a guest of its own", True, open_stream(guest, (A, 53)))
    for number in range(3):
        with contextlib.closing(datagram_socket(guest, GUEST, PORT + number)) as one:
            one.sendto(forged_frame(f"guest{number}.forged"), (INSIDE["a"], PORT))
    mac = b.mac("to-guest")
    for number, source in enumerate((INSIDE["b"], INSIDE["c"], "127.0.0.1")):
        for target in (INSIDE["a"], INSIDE["b"], "127.0.0.1"):
            knock(guest, (source, PORT), (target, PORT), forged_frame(f"guest-as{number}.forged"), mac)
    for name, source in (("through-b", INSIDE["b"]), ("through-b2", INSIDE["c"])):
        knock(fleet.hosts["stranger"], (source, PORT), (INSIDE["a"], PORT), forged_frame(f"{name}.forged"), b.mac())
    time.sleep(0.3)
    names = [f"guest{number}.forged" for number in range(3)] + [f"guest-as{number}.forged" for number in range(3)]
    check("a guest of host b cannot speak for its site", [], taken(fleet, names))
    check("nor at site b", [], [name for name in names if fleet.has("b", name)])
    check("nor can a stranger who sends through host b", [], taken(fleet, ["through-b.forged", "through-b2.forged"]))
    b.run("nft delete table ip guests")
    b.run("sysctl -q -w net.ipv4.ip_forward=0")


def of_the_fleet(fleet, check):
    """Host c, which WireGuard lets in, sends what it should not: as host b, and to 127.0.0.1 of host a."""
    a, c = fleet.hosts["a"], fleet.hosts["c"]
    fleet.need("a", "b")
    key = a.run("wg show wg0 public-key").strip()
    c.run(f"wg set wg0 peer {key} allowed-ips {INSIDE['a']}/32,127.0.0.0/8")
    with contextlib.closing(datagram_socket(a, "127.0.0.1", 9999)) as one:
        knock(c, (INSIDE["c"], 7777), ("127.0.0.1", 9999), b"", interface="wg0")
        knock(c, ("127.0.0.1", PLACE), SITE, forged_frame("c-as-a.forged"), interface="wg0")
        knock(c, (INSIDE["b"], PORT), (INSIDE["a"], PORT), forged_frame("c-as-b.forged"), interface="wg0")
        knock(c, (INSIDE["c"], PORT), SITE, forged_frame("c-to-127.forged"), interface="wg0")
        knock(c, (INSIDE["c"], PORT), (INSIDE["a"], PORT), forged_frame("c-itself.forged"), interface="wg0")
        check("host c speaks for itself alone", ["c-itself.forged"],
              taken(fleet, ["c-as-a.forged", "c-as-b.forged", "c-to-127.forged", "c-itself.forged"]))
        check("host c does not reach 127.0.0.1 of host a", [], heard(one))
        a.run("nft delete table ip dnsfleet")
        knock(c, (INSIDE["c"], 7778), ("127.0.0.1", 9999), b"", interface="wg0")
        check("without the rules, and with the switch, it does", [7778], wait_for([7778], lambda: heard(one), 3))
        a.run("nft -f /etc/dnsfleet/dnsfleet.nft")
    c.run(f"wg set wg0 peer {key} allowed-ips {INSIDE['a']}/32")


def forwarded(fleet, check):
    """Host a forwards what host c sends to others."""
    a, c, client = (fleet.hosts[name] for name in ("a", "c", "client"))
    key = a.run("wg show wg0 public-key").strip()
    c.run(f"wg set wg0 peer {key} allowed-ips {INSIDE['a']}/32,{CLIENT}/32")
    a.run("sysctl -q -w net.ipv4.ip_forward=1")
    with contextlib.closing(datagram_socket(client, CLIENT, PORT)) as one:
        knock(c, (INSIDE["c"], PORT), (CLIENT, PORT), forged_frame("forwarded.forged"), interface="wg0")
        time.sleep(0.3)
        check("what host a forwards to the same port of others is not its site's", [PORT], heard(one))
    check("nor is it taken", [], taken(fleet, ["forwarded.forged"]))
    a.run("sysctl -q -w net.ipv4.ip_forward=0")
    c.run(f"wg set wg0 peer {key} allowed-ips {INSIDE['a']}/32")


def streams(fleet, check):
    """Connections that say nothing."""
    stranger, held = fleet.hosts["stranger"], []
    with stranger.inside():
        for _ in range(200):
            one = socket.socket(socket.AF_INET, socket.SOCK_STREAM)
            one.settimeout(1)
            with contextlib.suppress(OSError):
                one.connect((A, 53))
            held.append(one)
        for port in (53, 853):
            with contextlib.suppress(OSError), socket.create_connection((A, port), timeout=1) as one:
                one.sendall(b"\xff" * 4096)
    reply = ask_stream(fleet.hosts["client"], (A, 53), f"long.{ZONE}")
    check("while a stranger holds 200 connections, a client is answered over TCP", "60", said(reply))
    for one in held:
        one.close()


PARTS = (from_the_wire, at_open_ports, own_users, behind_a_host, of_the_fleet, forwarded, streams)
