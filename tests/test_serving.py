"""Sessions of one or two sites: what they answer, ask, send to peers and count."""

import contextlib
import struct
import time

from support.checks import Case
from support.messages import HEADER_LENGTH, entry, event_octets, example, frame, name_of, question
from support.randoms import identifiers
from support.sessions import ELSEWHERE, KEY, LONGEST_DATAGRAM, WIDTH, arrival, ask_until_known, ask_upstream
from support.sessions import configuration, open_socket, port_of, serving, serving_one, waiting
from support.sessions import with_neighbours
from support.streams import PATIENCE, go_on, stop

# Where the TTL is in the reply with one address of example.com.
TTL = slice(46, 50)


def ttl_of(reply):
    """The TTL of the address in a reply."""
    return struct.unpack("!I", reply[TTL])[0]


def without_ttl(reply):
    """A reply but for its TTL."""
    return reply[: TTL.start] + reply[TTL.stop :]


class Gossip(Case):
    """What one site learns, its peer answers."""

    def test_learnt_by_a_peer(self):
        """a site sends its peer what it learns from its upstream, and the peer answers from it"""
        with open_socket() as upstream, open_socket() as client:
            there = port_of(upstream)

            def configure(first, second):
                own = configuration(first, [there], [second], 0)
                return [own, configuration(second, [there], [first], 0)]

            with serving(2, configure) as [first, second]:
                relay, late = ask_upstream(first, client, upstream, example("question"))
                self.check_equal(relay, example("relay"), "the relay")
                times = ask_until_known(second, client, "example.com")
                second.bring(client, example("question"))
                self.check_answer(client.recv(LONGEST_DATAGRAM))
                counts = first.counts()
                self.check_counts(counts, sent=3 + 2 * late, lost=0, faults=0, refused=late, short=0)
                counts = second.counts(others=1)
                self.check_counts(counts, sent=times + 1, lost=0, faults=0, refused=0, short=0)
                self.check_equal(waiting(upstream), [], "what else the upstream was asked")

    def check_answer(self, answer):
        """An answer is the relay, but that some seconds may have passed."""
        self.check_equal(without_ttl(answer), without_ttl(example("relay")), "the answer")
        self.check_true(300 - WIDTH <= ttl_of(answer) <= 300, "a TTL of about 300", ttl_of(answer))

    def test_sent_to_each_peer(self):
        """what is learnt has the seconds since 1970 as its stamp, and goes to each peer in its order"""
        with open_socket() as upstream, open_socket() as client:
            with open_socket(stamped=True) as second, open_socket(stamped=True) as first:
                peers = [port_of(first), port_of(second)]
                with serving_one(lambda port: configuration(port, [port_of(upstream)], peers, 0)) as site:
                    before = int(time.time())
                    _, late = ask_upstream(site, client, upstream, example("question"))
                    (came, heard), (came_then, heard_then) = arrival(first), arrival(second)
                    self.check_equal(heard_then, heard, "what the second peer was sent")
                    self.check_true(came <= came_then, "the first peer first", (came, came_then))
                    stamp = struct.unpack("!Q", heard[7:15])[0]
                    self.check_true(before <= stamp <= time.time(), f"a stamp from {before} to now", stamp)
                    self.check_equal(heard, frame([entry("example.com", stamp, rank=1)]))
                    counts = site.counts()
                    self.check_counts(counts, sent=4 + 2 * late, lost=0, faults=0, refused=late, short=0)

    def test_flush_by_a_frame(self):
        """a flush that a peer sends withdraws what was learnt"""
        with with_neighbours() as (site, _, peer, client):
            now = int(time.time())
            site.bring(peer, frame([entry("example.com", now - 100)]))
            ask_until_known(site, client, "example.com")
            flush = struct.pack("!2BQI", 4, 3, now, 86400) + name_of("com") + struct.pack("!H", 0)
            site.bring(peer, frame([flush, entry("example.org", now)]))
            ask_until_known(site, client, "example.org")
            site.bring(client, event_octets("local"))
            self.check_equal(client.recv(LONGEST_DATAGRAM), event_octets("local-denial"))
            self.check_counts(site.counts(), lost=0, faults=0, refused=0, short=0)


class Upstreams(Case):
    """Upstreams that do not answer."""

    def test_time_goes_on(self):
        """one upstream is silent, to the other one nothing can be sent, and the question fails"""
        with open_socket() as upstream, open_socket() as client:
            with serving_one(lambda port: configuration(port, [port_of(upstream), ELSEWHERE])) as site:
                begun = time.monotonic()
                site.bring(client, example("question"))
                for _ in range(4):
                    site.bring(client, b"x")
                query = upstream.recv(LONGEST_DATAGRAM)
                self.check_equal(query[2:], example("question")[2:], "the query but for its identifier")
                self.check_equal(client.recv(LONGEST_DATAGRAM), example("failure"))
                lasted = time.monotonic() - begun
                self.check_true(lasted > 3, "a failure behind more than three seconds", lasted)
                self.check_counts(site.counts(), sent=2, lost=1, faults=0, refused=4, short=0)

    def test_order(self):
        """each upstream is asked in its order, under one identifier, and each once; all keys are given"""
        with contextlib.ExitStack() as stack:
            second, first, third, client = [stack.enter_context(open_socket(stamped=True)) for _ in range(4)]
            upstreams = [port_of(first), port_of(second), port_of(third)]
            site = stack.enter_context(serving_one(lambda port: full_configuration(port, upstreams)))
            site.bring(client, example("question"))
            came = [arrival(one) for one in (first, second, third)]
            end, failure = arrival(client)
            moments = [moment for moment, _ in came] + [end]
            self.check_equal(moments, sorted(moments), "when each was sent something")
            self.check_equal({query for _, query in came}, {came[0][1]}, "the queries")
            self.check_equal(failure, example("failure"))
            self.check_counts(site.counts(), sent=4, lost=0, faults=0, refused=0, short=0)
            others = waiting(first) + waiting(second) + waiting(third)
            self.check_equal(others, [], "what else they were asked")

    def test_identifiers(self):
        """the identifiers of queries are those of the key, one word a turn"""
        asked = 12
        with open_socket() as upstream, open_socket() as client:
            with serving_one(lambda port: configuration(port, [port_of(upstream)])) as site:
                stop(site.child)
                for number in range(asked):
                    site.bring(client, question(number, f"{number}.example"))
                go_on(site.child)
                queries = [upstream.recv(LONGEST_DATAGRAM) for _ in range(asked)]
                came = [struct.unpack("!H", query[:2])[0] for query in queries]
                words = identifiers(bytes.fromhex(KEY), site.turns)
                runs = [next_free(words[place : place + asked]) for place in range(site.turns)]
                self.check_true(came in runs, "identifiers that follow one another", came)
                self.check_counts(site.counts(), lost=0, faults=0, refused=0)


def full_configuration(port, upstreams):
    """A configuration with all keys, in another order than that of the documents, and with three
    upstreams."""
    first, second, third = upstreams
    return (
        "sweep = 0\npeers = ['10.0.0.1:53', \"255.255.255.255:65535\",]\n"
        f"listen = '127.0.0.1:{port}'\nupstreams = [ # three\n"
        f'"127.0.0.1:{first}",\n"127.0.0.1:{second}", "127.0.0.1:{third}"]'
    )


def next_free(words):
    """The identifiers of queries that are sent one after the other: of each word, the next one
    that is free."""
    taken = []
    for word in words:
        while word in taken:
            word = (word + 1) % 65536
        taken.append(word)
    return taken


class Hits(Case):
    """What a site holds it answers, and what it does not serve it denies."""

    def check_reply(self, client, name):
        """A reply is the one of this name, but that some seconds may have passed."""
        came, wanted = client.recv(LONGEST_DATAGRAM), event_octets(name)
        self.check_equal(without_ttl(came), without_ttl(wanted), name)
        if len(wanted) > TTL.stop:
            self.check_true(300 - WIDTH <= ttl_of(came) <= 300, "a TTL of about 300", ttl_of(came))

    def test_replies(self):
        """hits in any spelling, and questions of another class, type or Opcode"""
        asked = {"question": "relay", "local": "local-relay", "capitals": "capitals-relay"}
        denied = {"chaos": "chaos-denial", "any": "any-denial", "status": "status-denial", "header": "unread"}
        with with_neighbours() as (site, upstream, peer, client):
            site.bring(peer, frame([entry("example.com", int(time.time()))]))
            times = ask_until_known(site, client, "example.com")
            for name, wanted in {**asked, **denied}.items():
                site.bring(client, event_octets(name))
                self.check_reply(client, wanted)
            site.bring(client, event_octets("relay"))
            site.bring(upstream, event_octets("question"))
            site.bring(peer, event_octets("question"))
            self.check_counts(site.counts(), sent=times + 7, lost=0, faults=0, refused=4, short=0)
            self.check_equal(waiting(upstream), [], "what the upstream was asked")


class Datagrams(Case):
    """Datagrams of any length."""

    def test_short(self):
        """datagrams of fewer octets than a header has are refused, and nothing is sent"""
        with open_socket() as upstream, open_socket() as client:
            with serving_one(lambda port: configuration(port, [port_of(upstream)])) as site:
                for length in range(HEADER_LENGTH):
                    site.bring(client, b"\0" * length)
                self.check_counts(site.counts(), sent=0, lost=0, faults=0, refused=12, short=0)
                self.check_equal(waiting(client), [])

    def test_long(self):
        """a question of more than 512 octets is a format error, and octets behind one are not read"""
        with open_socket() as upstream, open_socket() as client:
            with serving_one(lambda port: configuration(port, [port_of(upstream)])) as site:
                for length in (513, LONGEST_DATAGRAM - 100):
                    site.bring(client, example("question").ljust(length, b"\0"))
                    self.check_equal(client.recv(LONGEST_DATAGRAM), example("unread"), f"{length} octets")
                site.bring(client, example("question").ljust(512, b"\0"))
                self.check_equal(upstream.recv(LONGEST_DATAGRAM)[2:], example("question")[2:])
                self.check_counts(site.counts(), lost=0, faults=0, refused=2, short=0)


class Sweeps(Case):
    """Sweeps in their time."""

    def test_pause(self):
        """without a word of it the pause is 30 seconds, and with 0 there is no sweep"""
        with contextlib.ExitStack() as stack:
            upstream, peer, other, client = [stack.enter_context(open_socket()) for _ in range(4)]
            there = [port_of(upstream)]

            def configure(first, second):
                swept = configuration(first, there, [port_of(peer)])
                return [swept, configuration(second, there, [port_of(other)], 0)]

            begun = time.monotonic()
            with serving(2, configure) as sites:
                swept = frame([entry("example.com", int(time.time()), 86400)])
                for site, one in zip(sites, (peer, other)):
                    site.bring(one, swept)
                    ask_until_known(site, client, "example.com")
                peer.settimeout(30 + PATIENCE)
                self.check_equal(peer.recv(LONGEST_DATAGRAM), swept)
                lasted = time.monotonic() - begun
                wanted = f"a sweep from 29 to {29 + WIDTH} seconds later"
                self.check_true(29 < lasted < 29 + WIDTH, wanted, lasted)
                self.check_equal(waiting(other), [], "what the site without sweeps sent")

    def test_each_second(self):
        """each sweep has all that the site holds, and goes to each peer"""
        with open_socket() as upstream, open_socket() as one, open_socket() as two:
            peers = [port_of(one), port_of(two)]
            with serving_one(lambda port: configuration(port, [port_of(upstream)], peers, 1)) as site:
                now = int(time.time())
                entries = [entry(f"{letter}.example", now, 86400) for letter in "abc"]
                site.bring(one, frame(entries[:2]))
                for peer in (one, two):
                    for _ in range(2):
                        self.check_equal(peer.recv(LONGEST_DATAGRAM), frame(entries[:2]))
                site.bring(two, frame(entries[2:]))
                while one.recv(LONGEST_DATAGRAM) != frame(entries):
                    pass
                counts = site.counts()
                self.check_counts(counts, lost=0, faults=0, refused=0, short=0)
                self.check_true(counts["sent"] >= 6, "six frames or more", counts)
