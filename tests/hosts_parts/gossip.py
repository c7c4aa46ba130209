"""How the hosts' sites come to hold the same: late ones, over bad links, with clocks that differ."""

import contextlib
import subprocess
import sys
import time
from pathlib import Path

from hosts_parts.asking import ask
from hosts_parts.fleet import ADDRESSES, NEARLY_ALL, PLACE, SITE, SITES, TOP, ZONE, address_of
from hosts_parts.holding import alike
from hosts_parts.lab import here, wait_for


def late_site(fleet, check):
    """Site c comes late. Of what it is sent each frame of 16,384 octets takes twelve packets."""
    fleet.fill()
    fleet.need("c")
    fleet.is_filled("c")
    held = alike(fleet, "abc")
    check("a late site holds what the others hold", int, type(held))
    check("and that is nearly all of 20,000 names", True, isinstance(held, int) and held >= NEARLY_ALL)


def narrow_link(fleet, check):
    """Host d, to which packets of 1,300 octets pass, where its own interface and the others' take 1,500."""
    d = fleet.hosts["d"]
    check("wg0 of host d takes 1,420 octets", True, "mtu 1420" in d.run("ip link show wg0"))
    fleet.fill()
    fleet.need(*SITES)
    fleet.is_filled("d")
    check("and to host d 1,300 octets pass", True, "mtu 1300" in fleet.hosts["a"].run(f"ip route get {ADDRESSES['d']}"))
    check("a fourth site, over that link, holds the same", int, type(alike(fleet, SITES)))


def cut(fleet, check):
    """The cable of host c is taken out for a while."""
    fleet.fill()
    fleet.need(*SITES)
    fleet.is_filled("c")
    fleet.wire.cut("c")
    fleet.ask_front("a", f"new10.{ZONE}")
    check("with its cable cut, site c answers what it has", address_of(7), fleet.answers("c", f"n7.{ZONE}"))
    check("and has no news", "code 5", fleet.answers("c", f"new10.{ZONE}"))
    time.sleep(5)
    fleet.wire.heal("c")
    check("healed, it has the news", "192.0.2.4", wait_for("192.0.2.4", lambda: fleet.answers("c", f"new10.{ZONE}")))
    check("and all hold the same", int, type(alike(fleet, SITES)))


def withdrawn(fleet, check):
    """Root of host a withdraws a name there."""
    fleet.need(*SITES)
    fleet.ask_front("a", f"n7.{ZONE}")
    for name in SITES:
        wait_for(address_of(7), lambda: fleet.answers(name, f"n7.{ZONE}"))
    words = [fleet.program, "withdraw", "--from", f"127.0.0.1:{PLACE}", "--to", f"127.0.0.1:{SITE[1]}", f"n7.{ZONE}"]
    print("        ", fleet.hosts["a"].run(words, fails=True).strip())
    for name in SITES:
        came = wait_for("code 5", lambda: fleet.answers(name, f"n7.{ZONE}"))
        check(f"what root withdraws at a is withdrawn at {name}", "code 5", came)
    check("dnsdist of b asks its site, which asks the provider anew", (address_of(7), address_of(7)),
          (fleet.ask_front("b", f"n7.{ZONE}"), fleet.answers("b", f"n7.{ZONE}")))


def bad_link(fleet, check):
    """The cable of host c loses 2 of 100 packets, doubles 2, and keeps 5 back. Site c begins anew."""
    fleet.fill()
    fleet.need(*SITES)
    with relayed("c", 2, 2, 5):
        fleet.again("c")
        check("over a link that loses, doubles and delays, a late site is filled", True, fleet.is_filled("c", 60))
        client = fleet.hosts["client"]
        lost = [ask(client, (ADDRESSES["c"], 53), f"n{number}.{ZONE}", 0.5) for number in range(60)].count(None)
        print(f"        of 60 questions over it {lost} had no answer")
        check("and over it clients are answered, but for some", True, lost <= 20)
        check("and then holds what the others hold", int, type(alike(fleet, SITES)))


@contextlib.contextmanager
def relayed(name, *shares):
    """A host's cable goes through a relay."""
    here("ip link add before type veth peer name behind")
    for end in ("before", "behind"):
        here(f"sysctl -q -w net.ipv6.conf.{end}.disable_ipv6=1")
        here(f"ip link set {end} up")
    here(f"ip link set to-{name} nomaster")
    here("ip link set behind master wire")
    words = [sys.executable, Path(__file__).with_name("relay.py"), f"to-{name}", "before", *map(str, shares), "1"]
    with subprocess.Popen(words) as relay:
        try:
            yield
        finally:
            relay.kill()
    here("ip link delete before")
    here(f"ip link set to-{name} master wire")


def clocks(fleet, check):
    """The clock of host b is five seconds ahead of the others."""
    built = ["cc", "-O2", "-shared", "-fPIC", "-o", str(fleet.ahead), str(TOP / "bench" / "hostile" / "ahead.c")]
    subprocess.run(built, check=True, timeout=60)
    fleet.fill()
    fleet.need(*SITES)
    fleet.again("b", ahead=5)
    fleet.is_filled("b")
    check("a site whose clock is five seconds ahead holds the same", int, type(alike(fleet, SITES)))
    fleet.ask_front("a", f"new20.{ZONE}")
    wait_for("192.0.2.4", lambda: fleet.answers("b", f"new20.{ZONE}"))
    older = fleet.ttl("a", f"new20.{ZONE}") - fleet.ttl("b", f"new20.{ZONE}")
    check("it says five seconds less of what host a learnt", True, 4 <= older <= 6)
    fleet.ask_front("b", f"brief.{ZONE}")
    begun = time.monotonic()
    wait_for("192.0.2.3", lambda: fleet.answers("a", f"brief.{ZONE}"), 5)
    wait_for("code 5", lambda: fleet.answers("a", f"brief.{ZONE}"))
    lived = time.monotonic() - begun
    print(f"        a name of six seconds, learnt there, was answered at host a for {lived:.1f} seconds")
    check("and what it learnt lives at most five seconds longer at host a", True, 5 <= lived <= 6 + 5 + 0.2 + 1)
    fleet.again("b")


PARTS = (late_site, narrow_link, cut, withdrawn, bad_link, clocks)
