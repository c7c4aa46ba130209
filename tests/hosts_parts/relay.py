"""A bad link: takes the packets of one interface to another one. It loses some, doubles some, and keeps some back for a
while, so that they come in another order.

    relay.py ONE OTHER LOST DOUBLED LATE SEED

LOST, DOUBLED and LATE say how many of 100 packets. It runs until it is ended.
"""

import heapq
import random
import select
import socket
import sys
import time

# Of packet(7). With the first, a packet keeps what is left to the hardware: its checksum, and how it is to be cut.
LEVEL, PACKET_VNET_HDR, PACKET_IGNORE_OUTGOING = 263, 15, 23
ALL, LATER = 0x0003, 0.03


def opened(interface):
    """A socket for all packets that come in at an interface."""
    one = socket.socket(socket.AF_PACKET, socket.SOCK_RAW, socket.htons(ALL))
    for option in (PACKET_VNET_HDR, PACKET_IGNORE_OUTGOING):
        one.setsockopt(LEVEL, option, 1)
    one.setsockopt(socket.SOL_SOCKET, 33, 1 << 24)  # SO_RCVBUFFORCE
    one.bind((interface, ALL))
    return one


def main():
    """Relays."""
    ends = [opened(interface) for interface in sys.argv[1:3]]
    lost, doubled, late = (float(word) / 100 for word in sys.argv[3:6])
    chance, waiting = random.Random(int(sys.argv[6])), []
    while True:
        pause = max(0, waiting[0][0] - time.monotonic()) if waiting else None
        for one in select.select(ends, [], [], pause)[0]:
            packet, other = one.recv(70000), ends[1 - ends.index(one)]
            if chance.random() < lost:
                continue
            for _ in range(2 if chance.random() < doubled else 1):
                delay = LATER if chance.random() < late else 0
                heapq.heappush(waiting, (time.monotonic() + delay, chance.random(), other.fileno(), packet))
        while waiting and waiting[0][0] <= time.monotonic():
            _, _, number, packet = heapq.heappop(waiting)
            try:
                next(one for one in ends if one.fileno() == number).send(packet)
            except OSError:
                pass


if __name__ == "__main__":
    main()
