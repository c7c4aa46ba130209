"""Running sites: `dnsfleet serve`, each a process on a port of 127.0.0.1."""

import selectors
import socket
import subprocess
import time
from pathlib import Path

PATIENCE = 30                       # seconds that anything is waited for


class ServeFault(Exception):
    """A site that does not begin, or does not answer."""


def address_text(place):
    """An address of a socket, as in a configuration."""
    return f"{place[0]}:{place[1]}"


class Endpoint:
    """A socket of the run: a client, an upstream, a peer, or a stranger."""

    def __init__(self):
        self.socket = socket.socket(socket.AF_INET, socket.SOCK_DGRAM)
        self.socket.bind(("127.0.0.1", 0))
        self.socket.setblocking(False)
        self.place = self.socket.getsockname()
        self.address = address_text(self.place)

    def send(self, to, octets):
        """Sends a datagram. On the loopback it is there when this returns."""
        self.socket.sendto(octets, to)

    def received(self):
        """All that came since, with the sender's place."""
        came = []
        while True:
            try:
                octets, sender = self.socket.recvfrom(65536)
            except BlockingIOError:
                return came
            came.append((sender, octets))

    def wait(self, seconds=PATIENCE):
        """Waits until something is there, and says whether it is."""
        with selectors.DefaultSelector() as selector:
            selector.register(self.socket, selectors.EVENT_READ)
            return bool(selector.select(seconds))

    def close(self):
        """Closes the socket."""
        self.socket.close()


def free_places(count):
    """Places that are free now, as the system gives them."""
    endpoints = [Endpoint() for _ in range(count)]
    places = [endpoint.place for endpoint in endpoints]
    for endpoint in endpoints:
        endpoint.close()
    return places


class ServedSite:
    """One process of the program. It begins at once, and ends by `stop`, or when its turns are over."""

    def __init__(self, program, folder, place, upstreams, peers, key, turns):
        self.place = place
        self.upstreams, self.peers = tuple(upstreams), tuple(peers)
        path = Path(folder) / f"site{place[1]}.toml"
        path.write_text(self.configuration(), encoding="ascii")
        self.process = subprocess.Popen(
            [program, "serve", "--config", path, "--key", key.hex(), "--turns", str(turns)],
            stdin=subprocess.DEVNULL, stdout=subprocess.PIPE, stderr=subprocess.PIPE)
        line = self.process.stdout.readline()
        if line != f"listening {address_text(place)}\n".encode():
            self.stop()
            raise ServeFault(f"the site at {address_text(place)} does not listen: {line!r}")

    def configuration(self):
        """Its configuration. It sends no sweeps: when one is sent depends on its clock alone."""
        def listed(addresses):
            return "[" + ", ".join(f'"{address}"' for address in addresses) + "]"

        return (f'listen = "{address_text(self.place)}"\nupstreams = {listed(self.upstreams)}\n'
                f"peers = {listed(self.peers)}\nsweep = 0\n")

    def stop(self):
        """Ends the process."""
        self.process.terminate()
        self.process.wait(PATIENCE)
        self.process.stdout.close()
        self.process.stderr.close()


def wait_for_any(endpoints, seconds):
    """Waits until one of the sockets has something, and says whether one has."""
    with selectors.DefaultSelector() as selector:
        for endpoint in endpoints:
            selector.register(endpoint.socket, selectors.EVENT_READ)
        return bool(selector.select(seconds))


def whole_seconds():
    """The moment by the system's clock."""
    return int(time.time())
