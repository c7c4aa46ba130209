"""What fails: a site, all sites, the provider, and dnsdist."""

import time

from hosts_parts.asking import QUERIES, is_up, metrics
from hosts_parts.fleet import SITES, ZONE, address_of
from hosts_parts.lab import wait_for

NAME, ADDRESS = f"n9.{ZONE}", address_of(9)


def site_ends(fleet, check):
    """Site a ends, and begins again."""
    a = fleet.hosts["a"]
    fleet.need(*SITES)
    a.end("site")
    begun = time.monotonic()
    came = wait_for(ADDRESS, lambda: fleet.ask_front("a", NAME, seconds=1))
    print(f"        {time.monotonic() - begun:.1f} seconds after site a ended, its client was answered")
    check("while site a is down, its client is answered by another site", ADDRESS, came)
    check("dnsdist sees that site a is down", False, wait_for(False, lambda: is_up(a, "a")))
    before = metrics(a)
    for _ in range(5):
        fleet.ask_front("a", NAME)
    after = metrics(a)
    asked = [name for name in (*SITES, "provider") if after[QUERIES, name] - before[QUERIES, name] >= 5]
    check("and asks site b, not the provider", ["b"], asked)
    fleet.begin_site("a")
    check("and when it is up again", True, wait_for(True, lambda: is_up(a, "a")))
    check("it has what the others have", ADDRESS, wait_for(ADDRESS, lambda: fleet.answers("a", NAME)))


def provider_ends(fleet, check):
    """The provider is cut off, then all sites end too."""
    a = fleet.hosts["a"]
    fleet.need(*SITES)
    fleet.ask_front("a", NAME)
    wait_for(True, lambda: all(is_up(a, name) for name in SITES))
    fleet.wire.cut("provider")
    check("dnsdist sees that the provider is down", False, wait_for(False, lambda: is_up(a, "provider")))
    time.sleep(3)
    check("it does not take sites to be down", [True] * len(SITES), [is_up(a, name) for name in SITES])
    check("what site a has is answered", ADDRESS, fleet.ask_front("a", NAME))
    fleet.wire.heal("provider")
    check("and when the provider is up again", True, wait_for(True, lambda: is_up(a, "provider")))
    check("new names are answered", "192.0.2.4", wait_for("192.0.2.4", lambda: fleet.ask_front("a", f"new30.{ZONE}")))


def dnsdist_ends(fleet, check):
    """dnsdist of host a begins again."""
    a = fleet.hosts["a"]
    a.end("dnsdist")
    begun = time.monotonic()
    fleet.begin_dnsdist("a")
    came = wait_for(ADDRESS, lambda: fleet.ask_front("a", NAME, seconds=0.3))
    print(f"        {time.monotonic() - begun:.1f} seconds after it was begun again, its client was answered")
    check("when dnsdist of host a begins again, its client is answered", ADDRESS, came)


def all_sites_end(fleet, check):
    """Without any site the provider answers."""
    fleet.need(*SITES)
    for name in SITES:
        fleet.hosts[name].end("site")
    came = wait_for(ADDRESS, lambda: fleet.ask_front("a", NAME, seconds=1))
    check("while all sites are down, the provider answers clients", ADDRESS, came)
    fleet.need(*SITES)
    check("dnsdist sees that they are up again", [True] * len(SITES),
          wait_for([True] * len(SITES), lambda: [is_up(fleet.hosts["a"], name) for name in SITES]))


PARTS = (site_ends, provider_ends, dnsdist_ends, all_sites_end)
