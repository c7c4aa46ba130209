"""Packets with any addresses, and a frame that nobody may say."""

import contextlib
import socket
import struct
import time

from support.messages import entry, frame

IPV4 = 0x0800
# What a forged frame says of its name.
FORGED = bytes([192, 0, 2, 99])


def forged_frame(name):
    """A frame that says that a name has the address 192.0.2.99."""
    return frame([entry(name, int(time.time()), 3600, rdata=FORGED)])


def _checksum(octets):
    """The checksum of the Internet (RFC 1071)."""
    total = sum(struct.unpack(f"!{(len(octets) + 1) // 2}H", octets + b"\0" * (len(octets) % 2)))
    while total >> 16:
        total = (total & 0xFFFF) + (total >> 16)
    return struct.pack("!H", ~total & 0xFFFF)


def datagram(source, target, octets, summed=True):
    """An IPv4 packet with a datagram of UDP, from a place to a place. Its checksum may be left out."""
    (src, sport), (dst, dport) = ((socket.inet_aton(host), port) for host, port in (source, target))
    udp = struct.pack("!4H", sport, dport, 8 + len(octets), 0) + octets
    if summed:
        udp = udp[:6] + _checksum(src + dst + struct.pack("!BBH", 0, 17, len(udp)) + udp) + udp[8:]
    head = struct.pack("!BBHHHBBH", 0x45, 0, 20 + len(udp), 7, 0, 64, 17, 0) + src + dst
    return head[:10] + _checksum(head) + head[12:] + udp


class Sender:
    """Puts packets on an interface of a host, to the interface with a hardware address, if it has one."""

    def __init__(self, host, interface="eth0", mac=None):
        with host.inside():
            self._wire = socket.socket(socket.AF_PACKET, socket.SOCK_RAW, 0)
        self._wire.bind((interface, 0))
        self._head = mac + self._wire.getsockname()[4] + struct.pack("!H", IPV4) if mac else b""
        self._bound = (interface, IPV4)

    def send(self, source, target, octets, summed=True):
        """Sends a datagram."""
        self._wire.sendto(self._head + datagram(source, target, octets, summed), self._bound)

    def close(self):
        """Sends no more."""
        self._wire.close()


def knock(host, source, target, octets, mac=None, interface="eth0"):
    """Puts one datagram on an interface of a host."""
    with contextlib.closing(Sender(host, interface, mac)) as sender:
        sender.send(source, target, octets)
    time.sleep(0.05)


def heard(one):
    """Whose datagrams came to a socket: the ports that they came from."""
    one.setblocking(False)
    ports = []
    with contextlib.suppress(BlockingIOError):
        while True:
            ports.append(one.recvfrom(65535)[1][1])
    return ports
