"""Bounds of a site that serves: what is sent at once and what waits, how much waits, how long a turn
lasts, and where its socket is."""

import os
import subprocess
import tempfile
import time

from support.checks import Case, add_cases
from support.messages import TXT, entry, frame, question
from support.program import started
from support.sessions import ELSEWHERE, HOST, KEY, LONGEST_DATAGRAM, TRIES, TURNS, WIDTH, ask_until_known
from support.sessions import configuration, free_ports, open_socket, port_of, report_of, room_for, serving_one
from support.streams import PATIENCE

LIFE = 86400

# More turns than a session takes with thousands of datagrams.
MANY_TURNS = 1 << 22

# How many seconds a site has to take in all frames of a session. A session that takes longer is begun
# anew with twice as many.
FIRST_PAUSE = 4

# How many seconds a session may take until it has brought all to a site whose turns are counted.
LATE = 2


def text_frame(name, length):
    """A frame of so many octets, with one text."""
    now = int(time.time())
    less = len(frame([entry(name, now, LIFE, rtype=TXT, rdata=b"")]))
    return frame([entry(name, now, LIFE, rtype=TXT, rdata=b"x" * (length - less))])


class BoundsOfSending(Case):
    """A datagram of 512 octets or less is sent at once: where it can't be, it is lost. A longer one
    waits: where it can't be sent then, that is a fault."""

    def swept_counts(self, length):
        """What a site counts that sweeps a frame of so many octets twice or more, to one peer to
        which nothing can be sent and to another one."""
        with open_socket() as peer:
            peers = [port_of(peer), ELSEWHERE]
            with serving_one(lambda port: configuration(port, [5301], peers, 1)) as site:
                octets = text_frame("example", length)
                self.check_equal(len(octets), length)
                site.bring(peer, octets)
                for _ in range(3):
                    self.check_equal(peer.recv(LONGEST_DATAGRAM), octets)
                return site.counts()

    def test_frame_of_512(self):
        """a frame of 512 octets is sent at once"""
        counts = self.swept_counts(512)
        self.check_counts(counts, faults=0, refused=0, short=0)
        self.check_true(counts["lost"] >= 2, "two are lost or more", counts)

    def test_frame_of_513(self):
        """a frame of 513 octets waits"""
        counts = self.swept_counts(513)
        self.check_counts(counts, lost=0, refused=0, short=0)
        self.check_true(counts["faults"] >= 2, "two faults or more", counts)

    def check(self, name, length):
        """The query for a name has so many octets, and is sent at once."""
        asked = question(7, name)
        self.check_equal(len(asked), length)
        with open_socket() as client:
            with serving_one(lambda port: configuration(port, [ELSEWHERE])) as site:
                site.bring(client, asked)
                self.check_counts(site.counts(), lost=1, faults=0, refused=0, short=0)


add_cases(
    BoundsOfSending,
    [
        ("a query of 65 octets is sent at once", "a" * 47, 65),
        ("a query of 66 octets is sent at once", "a" * 48, 66),
        ("a query of 271 octets, the longest, is sent at once", ".".join(["a" * 63] * 3 + ["a" * 61]), 271),
    ],
)


class BoundsOfWaiting(Case):
    """A frame waits once for all the peers that it goes to, so that more sends wait than frames."""

    def first_at_the_last(self, frames, peers, pause):
        """Which frame of a sweep comes first to the last one of so many peers, or nothing where a
        sweep may have begun before the site had all frames."""
        others = [open_socket() for _ in range(peers - 1)]
        try:
            with open_socket() as last, open_socket() as client:
                places = [port_of(one) for one in (*others, last)]
                begun, most = int(time.time()), max(1, room_for(frames[0][0]) // 2)

                def configure(port):
                    return configuration(port, [ELSEWHERE], places, pause)

                with serving_one(configure, MANY_TURNS) as site:
                    for place in range(0, len(frames), most):
                        brought = frames[place : place + most]
                        for octets, _ in brought:
                            site.bring(others[0], octets)
                        ask_until_known(site, client, brought[-1][1], TXT)
                    if time.time() >= begun + pause:
                        return None
                    last.settimeout(pause + PATIENCE)
                    return last.recv(LONGEST_DATAGRAM)
        finally:
            for one in others:
                one.close()

    def check(self, count, peers, place):
        """Of so many frames to so many peers the one at a place comes first to the last peer."""
        names = [f"{number:03}" for number in range(count)]
        frames = [(text_frame(name, 8210), name) for name in names]
        for again in range(TRIES):
            first = self.first_at_the_last(frames, peers, FIRST_PAUSE << again)
            if first is not None:
                break
        self.check_equal([octets for octets, _ in frames].index(first), place)


add_cases(
    BoundsOfWaiting,
    [
        ("of 256 frames to 16 peers all 4096 wait, and the last peer gets the first one first", 256, 16, 0),
    ],
)


class BoundsOfTurns(Case):
    """How long turns last."""

    def check_lasting(self, turns, brought, peers, seconds):
        """A site serves so many turns, and gets datagrams at their beginning. It takes so long, or
        somewhat longer; gives what it counted. A session that brings them too late is begun anew."""
        places = [port_of(one) for one in peers]
        for _ in range(TRIES):
            begun = time.monotonic()
            with serving_one(lambda port: configuration(port, [5301], places, 1), turns) as site:
                for octets in brought:
                    site.bring(peers[0], octets)
                if time.monotonic() - begun > LATE:
                    continue
                ended = site.end()
                lasted = time.monotonic() - begun
            self.check_equal((ended.status, ended.errors), (0, b""))
            wanted = f"{seconds} seconds or more, and less than {WIDTH} more"
            self.check_true(seconds <= lasted < seconds + WIDTH, wanted, lasted)
            return report_of(ended.output)
        self.fail(f"wanted: {len(brought)} datagrams within {LATE} seconds\ncame:   each time later")

    def test_without_a_datagram(self):
        """each of 55 turns lasts a fifth of a second where nothing comes, and not three fifths"""
        counts = self.check_lasting(55, [], [], 55 * 0.2 - 0.1)
        zero = {name: 0 for name in ("received", "sent", "lost", "faults", "refused", "short")}
        self.check_equal(counts, {"turns": 55, **zero})

    def test_behind_a_long_datagram(self):
        """behind a datagram of 600 octets each of 24 turns still lasts a fifth of a second"""
        with open_socket() as peer:
            counts = self.check_lasting(25, [b"x" * 600], [peer], 24 * 0.2 - 0.1)
        self.check_counts(counts, turns=25, received=1)

    def test_many_frames_in_a_turn(self):
        """a turn sends all of the 64 frames that wait: so 40 turns last beyond two sweeps of them"""
        peers = [open_socket() for _ in range(16)]
        frames = [text_frame(f"{number}", 8210) for number in range(4)]
        # Nothing comes in 36 turns. In at most one of them a second frames wait.
        counts = self.check_lasting(40, frames, peers, 5)
        for peer in peers:
            peer.close()
        self.check_counts(counts, turns=40, received=4, lost=0, refused=0)
        self.check_true(counts["sent"] > 64, "more than 64 are sent", counts)


class BoundsOfDescriptors(Case):
    """A site that is started without a standard descriptor has its socket at 3, the first other
    one."""

    def sockets_of(self, closed):
        """Where a site has sockets that is started without these descriptors."""

        def close():
            for descriptor in closed:
                os.close(descriptor)

        with tempfile.NamedTemporaryFile("w") as file:
            file.write(configuration(free_ports(1)[0], [5301]))
            file.flush()
            words = ["serve", "--config", file.name, "--turns", str(TURNS), "--key", KEY]
            nothing = subprocess.DEVNULL
            with started(words, stdin=nothing, stderr=nothing, preexec_fn=close) as child:
                if not child.stdout.readline().startswith(f"listening {HOST}:".encode()):
                    return None
                folder = f"/proc/{child.pid}/fd"
                places = {int(word): os.readlink(f"{folder}/{word}") for word in os.listdir(folder)}
                return [place for place, leads in places.items() if leads.startswith("socket:")]

    def check(self, *closed):
        for _ in range(TRIES):
            places = self.sockets_of(closed)
            if places is not None:
                break
        self.check_equal(places, [3])


add_cases(
    BoundsOfDescriptors,
    [
        ("with all standard descriptors the socket is at 3",),
        ("without standard input the socket is at 3", 0),
        ("without standard error the socket is at 3", 2),
        ("without standard input and standard error the socket is at 3", 0, 2),
    ],
)
