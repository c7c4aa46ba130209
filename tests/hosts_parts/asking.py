"""Questions to servers of the hosts, and their replies."""

import contextlib
import http.client
import re
import select
import socket
import ssl
import struct
import time

from support.messages import A, IN, NO_ERROR, RECURSION_DESIRED, TRUNCATED, code_of, flags_of, question

LONGEST = 65535
# An OPT record (RFC 6891 6.1.2) of a client that takes 1,232 octets and asks for DNSSEC.
OPT = b"\0" + struct.pack("!HHIH", 41, 1232, 0x8000, 0)
ZONE = "example.com"
# So many seconds after the last reply or question, no more replies are waited for.
SILENCE = 2.5
# What dnsdist counts of a server: questions to it, without its checks.
QUERIES = "dnsdist_server_queries"


def with_opt(octets):
    """A question with an OPT record."""
    return octets[:10] + b"\0\1" + octets[12:] + OPT


def _past_name(message, at):
    """Where a name ends."""
    while message[at]:
        if message[at] >= 0xC0:
            return at + 2
        at += 1 + message[at]
    return at + 1


def addresses_in(message):
    """The addresses of the answer of a reply, as texts, and its least TTL."""
    at, found, least = _past_name(message, 12) + 4, [], None
    for _ in range(struct.unpack("!H", message[6:8])[0]):
        at = _past_name(message, at)
        rtype, _, ttl, length = struct.unpack("!2HIH", message[at : at + 10])
        at += 10 + length
        least = ttl if least is None else min(ttl, least)
        if rtype == A:
            found.append(socket.inet_ntoa(message[at - 4 : at]))
    return found, least


def said(reply):
    """What a reply says, in a word: an address, how many of them, `cut off`, `none`, a code or `no answer`."""
    if reply is None:
        return "no answer"
    if code_of(reply):
        return f"code {code_of(reply)}"
    if flags_of(reply) & TRUNCATED:
        return "cut off"
    found, _ = addresses_in(reply)
    return found[0] if len(found) == 1 else str(len(found) or "none")


def datagram_socket(host, address="0.0.0.0", port=0, room=None):
    """A socket of a host."""
    with host.inside():
        made = socket.socket(socket.AF_INET, socket.SOCK_DGRAM)
    if room:
        made.setsockopt(socket.SOL_SOCKET, 33, room)  # SO_RCVBUFFORCE
    made.bind((address, port))
    return made


def exchange(one, octets, place, seconds):
    """Sends a datagram, and gives the reply from that place to it, or nothing after some seconds."""
    one.settimeout(seconds)
    try:
        one.sendto(octets, place)
        while True:
            reply, came_from = one.recvfrom(LONGEST)
            if came_from == place and reply[:2] == octets[:2]:
                return reply
    except OSError:
        return None


def ask(host, place, name, seconds=3.0, flags=RECURSION_DESIRED, opt=False, rclass=IN):
    """Asks a place over UDP, from a host, for the address of a name."""
    octets = question(time.monotonic_ns() & 0xFFFF, name, flags=flags, rclass=rclass)
    with contextlib.closing(datagram_socket(host)) as one:
        return exchange(one, with_opt(octets) if opt else octets, place, seconds)


def _read(stream, count):
    """So many octets of a stream."""
    octets = b""
    while len(octets) < count:
        part = stream.recv(count - len(octets))
        if not part:
            raise OSError("the stream ended")
        octets += part
    return octets


def ask_stream(host, place, name, trusted=None, seconds=3.0, source=None):
    """Asks a place over TCP, from a host, or over TLS where a file of a certificate is trusted."""
    octets = question(1, name)
    with host.inside():
        plain = socket.socket(socket.AF_INET, socket.SOCK_STREAM)
    with contextlib.closing(plain), contextlib.suppress(OSError):
        plain.settimeout(seconds)
        if source:
            plain.bind((source, 0))
        plain.connect(place)
        stream = plain
        if trusted:
            context = ssl.create_default_context(cafile=str(trusted))
            context.check_hostname = False
            stream = context.wrap_socket(plain)
        stream.sendall(struct.pack("!H", len(octets)) + octets)
        return _read(stream, struct.unpack("!H", _read(stream, 2))[0])
    return None


def ask_all(host, place, names, most=50, rate=None):
    """Asks a place for the addresses of many names, with at most so many questions open, or so many a second. Gives how
    many replies were good."""
    good, sent, taken, begun = 0, 0, 0, time.monotonic()
    last = begun
    with contextlib.closing(datagram_socket(host, room=1 << 22)) as one:
        one.connect(place)
        while taken < len(names) and time.monotonic() - last < SILENCE:
            late = rate and sent >= (time.monotonic() - begun) * rate
            if sent < len(names) and sent - taken < most and not late:
                one.send(question(sent & 0xFFFF, names[sent]))
                sent, last = sent + 1, time.monotonic()
                if rate or sent - taken < most:
                    continue
            if select.select([one], [], [], 0.0005 if rate else 0.5)[0]:
                good += code_of(one.recv(LONGEST)) == NO_ERROR
                taken, last = taken + 1, time.monotonic()
            elif not rate and sent - taken >= most:
                taken = sent  # What is open has been lost.
    return good


def metrics(host):
    """The counts of a host's dnsdist, each by its name and server."""
    with host.inside():
        plain = socket.create_connection(("127.0.0.1", 8083), timeout=5)
    with contextlib.closing(plain):
        asked = http.client.HTTPConnection("127.0.0.1", 8083)
        asked.sock = plain
        asked.request("GET", "/metrics")
        text = asked.getresponse().read().decode()
    found = re.findall(r'^(\w+){server="([^"]*)".*} (\S+)$', text, re.M)
    return {(name, server): float(value) for name, server, value in found}


def is_up(host, server):
    """Whether a host's dnsdist says that a server is up."""
    try:
        return metrics(host).get(("dnsdist_server_status", server)) == 1
    except OSError:
        return None
