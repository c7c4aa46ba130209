"""Sessions: the program as a site on a port of this machine, with sockets of the test as its
clients, upstreams and peers.

A session waits for what it expects, up to `PATIENCE` seconds. Where it is about time, it may last
`WIDTH` seconds longer than it has to. It rests on no other bound on time. A site serves more
turns than any session takes. When a session is done it brings datagrams without octets until the
site has served all turns, and takes these out of what the site counted. So counts are exact,
however long a session took.
"""

import contextlib
import os
import select
import socket
import struct
import subprocess
import sys
import tempfile
import time
from pathlib import Path

from support import program
from support.messages import A, NO_ERROR, SERVER_FAILURE, code_of, question, reply_to
from support.program import LONGEST_RUN, Ended
from support.streams import PATIENCE, wait_until

# How many turns a site serves. With nothing to do it would take ten minutes for them.
TURNS = 3000

KEY = "000102030405060708090a0b0c0d0e0f101112131415161718191A1B1C1D1E1F"
HOST = "127.0.0.1"

# An address to which a socket of 127.0.0.1 can't send.
ELSEWHERE = "10.0.0.1:53"

# How many seconds longer than it has to a session may last.
WIDTH = 20

# How often a port that another program took is tried anew.
TRIES = 10

# SO_TIMESTAMPNS of socket(7), which Python's module does not name.
SO_TIMESTAMPNS = 35

LONGEST_DATAGRAM = 65535

# How many datagrams are sent to see how many wait at a socket.
MOST_WAITING = 500


def open_socket(room=None, stamped=False):
    """A socket at a free port, with room for so many octets, and with the times of arrival if
    they are asked for."""
    made = socket.socket(socket.AF_INET, socket.SOCK_DGRAM)
    made.bind((HOST, 0))
    made.settimeout(PATIENCE)
    if room:
        made.setsockopt(socket.SOL_SOCKET, socket.SO_RCVBUF, room)
    if stamped:
        made.setsockopt(socket.SOL_SOCKET, SO_TIMESTAMPNS, 1)
    return made


def port_of(one):
    """The port of a socket."""
    return one.getsockname()[1]


def free_ports(count):
    """Ports that are free."""
    with contextlib.ExitStack() as stack:
        return [port_of(stack.enter_context(open_socket())) for _ in range(count)]


def arrival(one):
    """The next datagram of a socket with times: when it came by the system's clock, in
    nanoseconds, and its octets."""
    octets, parts, _, _ = one.recvmsg(LONGEST_DATAGRAM, 64)
    seconds, rest = struct.unpack("@ll", parts[0][2][:16])
    return seconds * 1_000_000_000 + rest, octets


def waiting(one):
    """All that waits at a socket."""
    came = []
    one.setblocking(False)
    try:
        while True:
            came.append(one.recv(LONGEST_DATAGRAM))
    except BlockingIOError:
        return came
    finally:
        one.settimeout(PATIENCE)


def rows_at(host, port):
    """The rows of sockets at an address, of those that the system has (/proc/net/udp)."""
    place = f"{int.from_bytes(socket.inet_aton(host), sys.byteorder):08X}:{port:04X}"
    rows = [line.split() for line in Path("/proc/net/udp").read_text(encoding="ascii").splitlines()]
    return [row for row in rows if row[1] == place]


def room_taken(port):
    """How much of a port's room what waits there takes (`rx_queue`)."""
    return sum(int(row[4].partition(":")[2], 16) for row in rows_at(HOST, port))


def room_for(octets):
    """How many datagrams like this one wait at a socket whose room the system chose, as a site's is."""
    with open_socket() as one:
        for _ in range(MOST_WAITING):
            one.sendto(octets, one.getsockname())
        return len(waiting(one))


def configuration(listen, upstreams, peers=(), sweep=None):
    """The text of a configuration. A number is a port of this machine, a text an address."""

    def addresses(key, places):
        words = [place if isinstance(place, str) else f"{HOST}:{place}" for place in places]
        return f"{key} = [" + ", ".join(f'"{word}"' for word in words) + "]\n"

    text = f'listen = "{HOST}:{listen}"\n' + addresses("upstreams", upstreams)
    text += addresses("peers", peers) if peers else ""
    return text + ("" if sweep is None else f"sweep = {sweep}\n")


def report_of(text):
    """What a site counted, by its names, of the line that it prints last."""
    words = text.decode().splitlines()[-1].split(" ")
    return dict(zip(words[::2], map(int, words[1::2])))


class Site:
    """A site that serves at a port, in a folder of its own. Where `waits` is false, its writes to standard output fail
    where they would wait."""

    def __init__(self, port, text, turns, key, more=(), waits=True):
        self.port, self.turns, self.brought = port, turns, 0
        self._folder = tempfile.TemporaryDirectory()
        self.path = Path(self._folder.name) / "site.toml"
        self.path.write_text(text, encoding="utf-8")
        words = [program.path(), "serve", "--config", self.path, "--turns", str(turns), "--key", key, *more]
        reader, writer = os.pipe()
        os.set_blocking(writer, waits)
        pipes = {"stdin": subprocess.DEVNULL, "stdout": writer, "stderr": subprocess.PIPE}
        self.child = subprocess.Popen(words, bufsize=0, **pipes)
        os.close(writer)
        self.child.stdout = open(reader, "rb", buffering=0)
        self._first = self.read_line()

    def read_line(self):
        """The next line that it prints, or less where it ends before."""
        line = b""
        while not line.endswith(b"\n"):
            ready, _, _ = select.select([self.child.stdout], [], [], PATIENCE)
            octet = os.read(self.child.stdout.fileno(), 1) if ready else b""
            if not octet:
                break
            line += octet
        return line

    def listens(self):
        """Whether it said that it listens."""
        return self._first == f"listening {HOST}:{self.port}\n".encode()

    def has_no_port(self):
        """Whether it ended since it could not have its port."""
        return not self._first and self.end().errors == b"dnsfleet: socket\n"

    def close(self):
        """Ends it, wherever it is."""
        if self.child.poll() is None:
            self.child.kill()
            self.child.wait()
        self.child.stdout.close()
        self.child.stderr.close()
        self._folder.cleanup()

    def bring(self, one, octets):
        """Sends it a datagram from a socket."""
        one.sendto(octets, (HOST, self.port))
        self.brought += 1

    def bring_next(self, one, octets):
        """Sends it a datagram from a socket while it stands still, and waits until that waits at its port."""
        before = room_taken(self.port)
        self.bring(one, octets)
        wait_until(lambda: room_taken(self.port) > before, "the datagram waits at the port")

    def end(self):
        """Waits for its end."""
        output, errors = self.child.communicate(timeout=LONGEST_RUN)
        return Ended(self.child.returncode, self._first + output, errors)

    def finish(self):
        """Brings datagrams without octets until it has served its turns."""
        deadline = time.monotonic() + LONGEST_RUN
        with open_socket() as filler, contextlib.suppress(ConnectionRefusedError):
            # A socket with one other end is told when the site has closed the port.
            filler.connect((HOST, self.port))
            while self.child.poll() is None and time.monotonic() < deadline:
                for _ in range(50):
                    filler.send(b"")
                time.sleep(0.001)
        return self.end()

    def counts(self, others=0):
        """Finishes it, and gives what it counted but turns and what was received; `refused` is
        without the datagrams that finished it. It ended well and served its turns. `others` is how
        many datagrams came that the session did not bring. Where one was lost, `refused` is greater
        by one."""
        ended = self.finish()
        if (ended.status, ended.errors) != (0, b"") or not self.listens():
            raise AssertionError(f"wanted: a site that ends well\ncame:   {ended}")
        found = report_of(ended.output)
        turns, received = found.pop("turns"), found.pop("received")
        if turns != self.turns:
            raise AssertionError(f"wanted: {self.turns} turns\ncame:   {ended}")
        found["refused"] -= received - self.brought - others
        return found


@contextlib.contextmanager
def serving(count, configure, turns=TURNS, key=KEY, more=(), waits=True):
    """Sites that listen. `configure` is given that number of ports, and gives their
    configurations; `more` are other words of `serve`, and `waits` is as `Site` says. Where another
    program took a port before the site could, others are asked for."""
    sites = []
    try:
        for _ in range(TRIES):
            ports = free_ports(count)
            sites = [Site(port, text, turns, key, more, waits) for port, text in zip(ports, configure(*ports))]
            if all(site.listens() for site in sites) or not any(site.has_no_port() for site in sites):
                break
            for site in sites:
                site.close()
        for site in sites:
            if not site.listens():
                raise AssertionError(f"wanted: a site that listens\ncame:   {site.end()}")
        yield sites
    finally:
        for site in sites:
            site.close()


@contextlib.contextmanager
def serving_one(configure, turns=TURNS, key=KEY, more=(), waits=True):
    """A site that listens. `configure` is given its port, and gives its configuration."""
    with serving(1, lambda port: [configure(port)], turns, key, more, waits) as [site]:
        yield site


@contextlib.contextmanager
def with_neighbours(sweep=0, room=None, stamped=False, more=()):
    """A site that listens, with a socket as its upstream, one as its peer, and one as a client."""
    with open_socket() as upstream, open_socket(room, stamped) as peer, open_socket(room, stamped) as client:

        def configure(port):
            return configuration(port, [port_of(upstream)], [port_of(peer)], sweep)

        with serving_one(configure, more=more) as site:
            yield site, upstream, peer, client


def ask_until_known(site, one, name, rtype=A):
    """Asks a site for a name, without recursion, until it answers from what it holds; gives how
    often it was asked. While it does not know the name it refuses the question."""
    deadline = time.monotonic() + PATIENCE
    times, pause = 0, 0.005
    while time.monotonic() < deadline:
        times += 1
        site.bring(one, question(times, name, rtype, flags=0))
        if code_of(one.recv(LONGEST_DATAGRAM)) == NO_ERROR:
            return times
        time.sleep(pause)
        pause = min(2 * pause, 0.3)
    raise AssertionError(f"not known within {PATIENCE} seconds: {name}")


def ask_upstream(site, client, upstream, asked, *records):
    """Asks a site what it has to ask its only upstream, which answers with these records, or with
    one address; gives the relay, and how often the answer came too late, so that the client got a
    failure and asked again."""
    for late in range(TRIES):
        site.bring(client, asked)
        site.bring(upstream, reply_to(upstream.recv(LONGEST_DATAGRAM), *records))
        relay = client.recv(LONGEST_DATAGRAM)
        if code_of(relay) != SERVER_FAILURE:
            return relay, late
    raise AssertionError("the upstream was always too late")
