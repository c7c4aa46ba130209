"""Sessions with frames that come and go in bursts. Frames of more octets than a message has wait
in the site; messages overtake them."""

import contextlib
import time

from support.checks import Case
from support.messages import FRAME_HEADER_LENGTH, NO_ERROR, NS, REFUSED, TXT, code_of, entry, frame
from support.messages import question, record, reply_to
from support.sessions import ELSEWHERE, LONGEST_DATAGRAM, TRIES, arrival, ask_until_known
from support.sessions import ask_upstream, configuration, open_socket, port_of, room_for, serving_one, waiting
from support.sessions import with_neighbours
from support.streams import go_on, stop

LONGEST_MESSAGE = 512
LONGEST_FRAME = 16384
LIFE = 86400

# Room in a socket for all that a session sends at once.
ROOM = 1 << 22

# A name, and records of names below it: a reply with them is a message, and a frame with them is
# longer than one.
LONG_NAME = ".".join([letter * 40 for letter in "abc"])
LONG_RECORDS = [record(NS, b"\1" + letter.encode() + b"\xc0\x0c") for letter in "vwxyz"]

# How many replies come before the frames of the first one are looked at. A socket has room for as many.
LAG = 50

# How many frames a sweep of these sessions has, and how many octets the data in each has: two of
# them don't go into one frame.
SWEPT = 16
LONG_DATA = 8180


def long_frame(name, now):
    """A frame of 600 octets or more, in which a name is known."""
    others = [entry(f"{number}.{name}", now, LIFE) for number in range(14)]
    octets = frame([entry(name, now, LIFE), *others])
    assert len(octets) > LONGEST_MESSAGE
    return octets


class Arriving(Case):
    """Frames that come in."""

    def test_messages_before_frames(self):
        """of what waits at the socket messages come before frames, and none is lost"""
        now, count = int(time.time()), 10
        with with_neighbours() as (site, upstream, peer, client), open_socket() as other:
            stop(site.child)
            for number in range(count):
                site.bring(peer, long_frame(f"{number}.example", now))
            for number in range(count):
                site.bring(client, question(number, f"{number}.example"))
            go_on(site.child)
            for number in range(count):
                query = upstream.recv(LONGEST_DATAGRAM)
                self.check_equal(query[2:], question(0, f"{number}.example")[2:], f"query {number}")
            for number in range(count):
                ask_until_known(site, other, f"{number}.example")
            self.check_counts(site.counts(), lost=0, faults=0, refused=0, short=0)

    def test_none_is_lost(self):
        """of 500 frames in some bursts, each taken in while others wait, none is lost"""
        now, count = int(time.time()), 500
        names = [f"{number}.example" for number in range(count)]
        # A burst leaves room in the socket of the site.
        most = max(1, room_for(long_frame(names[-1], now)) * 2 // 3)
        with with_neighbours() as (site, _, peer, client):
            for first in range(0, count, most):
                stop(site.child)
                for name in names[first : first + most]:
                    site.bring(peer, long_frame(name, now))
                site.bring(client, question(first, "example", flags=0))
                go_on(site.child)
                # Behind the reply all of the burst was taken in, and most of it waits.
                self.check_equal(code_of(client.recv(LONGEST_DATAGRAM)), REFUSED)
            for name in names:
                ask_until_known(site, client, name)
            self.check_counts(site.counts(), lost=0, faults=0, refused=0, short=0)

    def test_longest(self):
        """a frame of 16384 octets is taken whole and sent on, and longer ones are refused"""
        now = int(time.time())
        entries = [entry(f"{number:07}.com", now, LIFE) for number in range(441)]
        entries.append(entry("z" * 36, now, LIFE))
        octets = frame(entries)
        self.check_equal(len(octets), LONGEST_FRAME)
        with with_neighbours(sweep=1) as (site, _, peer, client):
            for longer in (b"\0", b"\0\0", b"\0" * 1000):
                site.bring(peer, octets + longer)
            site.bring(peer, octets)
            swept = peer.recv(LONGEST_DATAGRAM)
            self.check_equal(len(swept), LONGEST_FRAME, "octets of the sweep")
            self.check_equal(swept[:FRAME_HEADER_LENGTH], octets[:FRAME_HEADER_LENGTH])
            wanted = sorted(entries, key=name_in)
            self.check_equal(split_entries(swept), wanted, "the entries of the sweep")
            ask_until_known(site, client, "z" * 36)
            self.check_counts(site.counts(), lost=0, faults=0, refused=3, short=0)


# Where the name of an entry begins.
NAME = 14


def end_of_name(octets, place):
    """Where a name ends that begins at a place."""
    while octets[place]:
        place += 1 + octets[place]
    return place + 1


def name_in(octets):
    """The name of an entry."""
    return octets[NAME : end_of_name(octets, NAME)]


def split_entries(octets):
    """The entries of a frame, each of one address."""
    place, found = FRAME_HEADER_LENGTH, []
    while place < len(octets):
        end = end_of_name(octets, place + NAME) + 2 + 2 + 2 + 4
        found.append(octets[place:end])
        place = end
    return found


def swept_frames(now):
    """The frames of a sweep that has several: each has one long record."""
    names = [f"{number:02}.example" for number in range(SWEPT)]
    return [frame([entry(name, now, LIFE, rtype=TXT, rdata=b"x" * LONG_DATA)]) for name in names]


class Leaving(Case):
    """Frames that are sent."""

    def fill(self, site, peer, client, frames):
        """Brings a site frames, one after the other, each when the one before is taken."""
        for number, octets in enumerate(frames):
            site.bring(peer, octets)
            ask_until_known(site, client, f"{number:02}.example", TXT)

    def whole_sweep(self, peer, frames):
        """When each frame came, until a sweep came whole: its frames are the last ones."""
        came = []
        while [octets for _, octets in came[-SWEPT:]] != frames:
            came.append(arrival(peer))
        return [moment for moment, _ in came]

    def test_pauses(self):
        """a sweep leaves in bursts of two frames, with a pause of a millisecond behind each"""
        frames = swept_frames(int(time.time()))
        with with_neighbours(2, ROOM, stamped=True) as (site, _, peer, _), open_socket() as asker:
            self.fill(site, peer, asker, frames)
            moments = self.whole_sweep(peer, frames)[-SWEPT:]
            lasted = (moments[-1] - moments[0]) / 1_000_000
            # The first burst may have begun late. Each one behind the second begins a millisecond
            # later than the one before it, or more.
            least = SWEPT / 2 - 2
            self.check_true(lasted > least - 0.5, f"more than {least} milliseconds", lasted)
            self.check_counts(site.counts(), lost=0, faults=0, refused=0, short=0)

    def test_many(self):
        """4000 frames leave two a millisecond, whatever comes: in two seconds or more, once 16 within 14 milliseconds"""
        asked, peers, short = 250, 16, 7
        with contextlib.ExitStack() as stack:
            upstream, client = [stack.enter_context(open_socket()) for _ in range(2)]
            first, *others, last = [stack.enter_context(open_socket(stamped=True)) for _ in range(peers)]
            places = [port_of(one) for one in (first, *others, last)]
            site = stack.enter_context(serving_one(lambda port: configuration(port, [port_of(upstream)], places, 0)))
            begun, begins, ends = time.monotonic(), [], []
            for number in range(asked + LAG):
                if number < asked:
                    name = f"{number}.{LONG_NAME}"
                    ask_upstream(site, client, upstream, question(number, name, NS), *LONG_RECORDS)
                    # A site that made no pause would send frames behind each datagram.
                    for _ in range(short):
                        site.bring(client, b"x")
                if number >= LAG:
                    begins.append(arrival(first))
                    ends.append(arrival(last))
            lasted = time.monotonic() - begun
            self.check_equal([octets for _, octets in ends], [octets for _, octets in begins])
            self.check_true(all(len(octets) > LONGEST_MESSAGE for _, octets in ends), "long frames", ends[0])
            self.check_true(lasted > 1.9, "more than 1.9 seconds", lasted)
            # A frame has seven pauses of a millisecond between the first peer and the last one. However busy the
            # machine is, one of 200 takes less than twice as long; it would take more if a burst had one frame, or
            # a pause two milliseconds. The system may stamp the first ones later.
            least = min(end - begin for (begin, _), (end, _) in zip(begins[LAG:], ends[LAG:])) / 1_000_000
            self.check_true(least < 14, "less than 14 milliseconds from the first peer to the last", least)
            self.check_counts(site.counts(), lost=0, faults=0, short=0)

    def test_messages_overtake(self):
        """while frames wait to be sent, the site answers"""
        frames, asked = swept_frames(int(time.time())), 50
        with with_neighbours(2, ROOM, stamped=True) as (site, _, peer, client), open_socket() as asker:
            self.fill(site, peer, asker, frames)
            self.whole_sweep(peer, frames)
            # While it stands still the next sweep becomes due, and questions wait.
            stop(site.child)
            waiting(peer)
            for number in range(asked):
                site.bring(client, question(number, "00.example", TXT, flags=0))
            time.sleep(3)
            go_on(site.child)
            moments = self.whole_sweep(peer, frames)
            answers = [arrival(client)[0] for _ in range(asked)]
            between = [moment for moment in answers if moments[0] < moment < moments[-1]]
            self.check_true(between, "answers between the first frame and the last one", answers)
            self.check_counts(site.counts(), lost=0, faults=0, refused=0, short=0)

    def test_at_the_end(self):
        """frames that wait when the turns are over are sent then"""
        for _ in range(TRIES):
            relays = self.check_end()
            if relays:
                return
        self.fail("wanted: frames that wait when the turns are over\ncame:   none")

    def check_end(self, turns=100, asked=60, peers=8):
        """A site whose turns end while replies come, each with a frame to each peer; gives how
        many it handled."""
        with open_socket() as upstream, open_socket(ROOM) as client, open_socket(ROOM) as peer:
            others = [open_socket(ROOM) for _ in range(peers - 1)]
            places = [port_of(one) for one in (peer, *others)]
            with serving_one(lambda port: configuration(port, [port_of(upstream)], places, 0), turns) as site:
                for number in range(asked):
                    site.bring(client, question(number, f"{number}.{LONG_NAME}", NS))
                queries = [upstream.recv(LONGEST_DATAGRAM) for _ in range(asked)]
                for query in queries:
                    site.bring(upstream, reply_to(query, *LONG_RECORDS))
                site.end()
            relays = [octets for octets in waiting(client) if code_of(octets) == NO_ERROR]
            sent = [waiting(one) for one in (peer, *others)]
            for one in others:
                one.close()
        self.check_equal([len(frames) for frames in sent], [len(relays)] * peers, "frames at each peer")
        self.check_true(all(len(octets) > LONGEST_MESSAGE for octets in sent[0]), "long frames", sent[0])
        return relays

    def test_unsent(self):
        """a frame that waits and can't be sent is a fault, and the site goes on"""
        now = int(time.time())
        octets = long_frame("example", now)
        with open_socket() as upstream, open_socket() as peer, open_socket() as client:
            peers = [ELSEWHERE, port_of(peer)]
            with serving_one(lambda port: configuration(port, [port_of(upstream)], peers, 1)) as site:
                site.bring(peer, octets)
                for _ in range(2):
                    self.check_equal(len(peer.recv(LONGEST_DATAGRAM)), len(octets))
                ask_until_known(site, client, "example")
                counts = site.counts()
                self.check_counts(counts, lost=0, refused=0, short=0)
                self.check_true(counts["faults"] >= 2, "two faults or more", counts)
