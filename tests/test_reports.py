"""Lines of counts that a site prints while it serves (`--report`)."""

import fcntl
import os
import select
import tempfile
import time

from support.checks import Case, add_cases
from support.messages import HEADER_LENGTH, NOT_IMPLEMENTED, REFUSED, code_of, entry, example, frame, question
from support.program import failed, run, run_into_file
from support.sessions import KEY, LONGEST_DATAGRAM, TRIES, ask_until_known, ask_upstream, configuration, free_ports
from support.sessions import open_socket, port_of, report_of, serving_one, with_neighbours
from support.streams import PATIENCE, go_on, stop
from test_bursts import LONGEST_MESSAGE, long_frame

# The key of what came, is no frame, and found no room.
MESSAGES_DROPPED = "messages-dropped"

# The keys of a line, in their order.
KEYS = (
    "turns received sent lost faults questions hits code-1 code-2 code-4 code-5 relayed failed queries again replies"
    " frames-in frames-out items messages-waiting messages-dropped frames-waiting frames-dropped frames-leaving unpaced unwritten"
).split()

DAY = ("--report", "86400")
SECOND = ("--report", "1")

# How many seconds a turn waits for a datagram.
TURN = 0.2

# More turns than a site serves in any time.
MOST_TURNS = 4294967295

# The clock is looked at at one datagram of so many.
LOOKED_AT = 256

# How many octets find room in the smallest pipe, where a page has no more, and in a usual one (pipe(7)).
SMALL_PIPE, USUAL_PIPE = 4096, 65536


def counts_of(line):
    """The counts of a line, by their keys."""
    words = line.split(" ")
    return dict(zip(words[::2], map(int, words[1::2])))


def last_counts(site):
    """What a site counted in its last line but one, once it has served its turns, and in its last. The datagrams that
    finished it are taken out."""
    ended = site.finish()
    if (ended.status, ended.errors) != (0, b""):
        raise AssertionError(f"wanted: a site that ends well\ncame:   {ended}")
    counts, report = counts_of(ended.output.decode().splitlines()[-2]), report_of(ended.output)
    filled = counts["received"] - site.brought
    counts["questions"] -= filled
    return counts, report


class Counts(Case):
    """What each number counts."""

    def test_keys(self):
        """a line has all keys, and its first five numbers are those of the last line"""
        with with_neighbours(more=DAY) as (site, _, _, _):
            counts, report = last_counts(site)
            self.check_equal(list(counts), KEYS)
            first = KEYS[:5]
            self.check_equal([counts[key] for key in first], [report[key] for key in first])
            self.check_counts(counts, questions=0, hits=0, queries=0, items=0, unwritten=0)

    def test_answers(self):
        """each answer counts once: at once by its code, relayed or failed"""
        with with_neighbours(more=DAY) as (site, upstream, _, client):
            _, late = ask_upstream(site, client, upstream, example("question"))
            for asked in (example("question"), example("question"), question(1, "other.org", flags=0)):
                site.bring(client, asked)
                last = client.recv(LONGEST_DATAGRAM)
            self.check_equal(code_of(last), REFUSED)
            site.bring(client, question(2, "example.com", flags=0x1000))
            self.check_equal(code_of(client.recv(LONGEST_DATAGRAM)), NOT_IMPLEMENTED)
            site.bring(client, question(3, "example.com")[:HEADER_LENGTH])
            client.recv(LONGEST_DATAGRAM)
            counts, _ = last_counts(site)
            asked = 1 + late
            answers = {"hits": 2, "code-1": 1, "code-2": 0, "code-4": 1, "code-5": 1, "relayed": 1, "failed": late}
            self.check_counts(counts, questions=asked + 5, **answers)
            self.check_counts(counts, queries=asked, again=0, replies=asked)

    def test_upstreams(self):
        """a question goes to one upstream after the other, and fails after the last"""
        with open_socket() as first, open_socket() as second, open_socket() as client:
            upstreams = [port_of(first), port_of(second)]
            with serving_one(lambda port: configuration(port, upstreams), more=DAY) as site:
                site.bring(client, example("question"))
                self.check_equal(code_of(client.recv(LONGEST_DATAGRAM)), 2)
                counts, _ = last_counts(site)
                self.check_counts(counts, questions=1, failed=1, queries=2, again=1, replies=0, hits=0, relayed=0)
                self.check_counts(counts, **{"code-2": 0})

    def relay_failure(self):
        """What a site counts whose upstream gives code 2."""
        with with_neighbours(more=DAY) as (site, upstream, _, client):
            site.bring(client, example("question"))
            query = upstream.recv(LONGEST_DATAGRAM)
            site.bring(upstream, query[:2] + b"\x81\x82" + query[4:])
            self.check_equal(code_of(client.recv(LONGEST_DATAGRAM)), 2)
            counts, _ = last_counts(site)
            return counts

    def test_relayed_failure(self):
        """a code that an upstream gives is relayed"""
        for _ in range(TRIES):
            counts = self.relay_failure()
            # Where the upstream was too late, the site failed by itself, with the same code.
            if not counts["failed"]:
                break
        self.check_counts(counts, relayed=1, failed=0, replies=1)

    def test_frames(self):
        """frames come and leave, and the last sweep has as many items as the site holds"""
        with with_neighbours(sweep=1, more=DAY) as (site, _, peer, client):
            now = int(time.time())
            names = ("example.com", "example.org", "other.example.org")
            site.bring(peer, frame([entry(name, now) for name in names]))
            ask_until_known(site, client, names[-1])
            peer.recv(LONGEST_DATAGRAM)
            counts, _ = last_counts(site)
            self.check_counts(counts, items=3, **{"frames-in": 1})
            self.check_true(counts["frames-out"] >= 1, "at least one frame that left", counts)

    def test_dropped(self):
        """long datagrams of a stranger that come while a question waits are dropped, and counted"""
        strangers = 3
        with with_neighbours(more=DAY) as (site, _, peer, client):
            stop(site.child)
            site.bring_next(peer, long_frame("example", int(time.time())))
            site.bring_next(client, question(1, "other.org", flags=0))
            for _ in range(strangers):
                site.bring_next(client, b"x" * (LONGEST_MESSAGE + 1))
            go_on(site.child)
            self.check_equal(code_of(client.recv(LONGEST_DATAGRAM)), REFUSED)
            times = ask_until_known(site, client, "example")
            site.brought -= strangers
            counts, _ = last_counts(site)
            waiting = {"messages-waiting": 0, "frames-waiting": 0, "frames-leaving": 0}
            self.check_counts(counts, questions=1 + times, unpaced=0, **{"frames-in": 1}, **waiting)
            self.check_counts(counts, **{MESSAGES_DROPPED: strangers})


class Times(Case):
    """When a line comes."""

    def test_each_second(self):
        """a line comes after each second, and one before the last"""
        turns, began = 13, time.monotonic()
        with serving_one(lambda port: configuration(port, [5301]), turns=turns, more=SECOND) as site:
            lines = site.end().output.decode().splitlines()
        took = time.monotonic() - began
        self.check_true(4 <= len(lines) <= 3 + took, f"a line for each of {took} seconds, and two more", lines)
        first, last = [counts_of(lines[place])["turns"] for place in (1, -2)]
        # The first line does not count the turn in which it comes. The turns behind that one wait as long.
        least = 1 + TURN * (turns - first - 1)
        self.check_true(took >= least, f"the first line after a second, so {least} seconds and not {took}", lines)
        self.check_equal(last, turns)

    def test_busy(self):
        """a line comes while datagrams never cease: at each 256th one the site looks at the clock"""
        asked = [question(number, "other.org", flags=0) for number in range(16)]
        with open_socket() as client:
            with serving_one(lambda port: configuration(port, [5301]), MOST_TURNS, more=SECOND) as site:
                deadline, counts = time.monotonic() + PATIENCE, {}
                # On a busy machine this test pauses. A line that comes then has another number of datagrams.
                while not self.is_at_a_datagram(counts) and time.monotonic() < deadline:
                    for octets in asked:
                        site.bring(client, octets)
                    for _ in asked:
                        client.recv(LONGEST_DATAGRAM)
                    if select.select([site.child.stdout], [], [], 0.002)[0]:
                        counts = counts_of(site.read_line().decode())
        self.check_true(self.is_at_a_datagram(counts), f"a line at each {LOOKED_AT}th datagram", counts)

    def is_at_a_datagram(self, counts):
        """Whether a line came at a datagram at which the clock is looked at: this one is not counted yet."""
        return counts != {} and counts["received"] % LOOKED_AT == LOOKED_AT - 1

    def test_no_line(self):
        """without the option there is none"""
        with serving_one(lambda port: configuration(port, [5301]), turns=8) as site:
            self.check_equal(len(site.end().output.splitlines()), 2)


def fill(reader):
    """Makes a pipe small and fills it with line feeds; gives how many there are."""
    fcntl.fcntl(reader, fcntl.F_SETPIPE_SZ, SMALL_PIPE)
    writer, count = os.open(f"/proc/self/fd/{reader.fileno()}", os.O_WRONLY | os.O_NONBLOCK), 0
    try:
        while True:
            count += os.write(writer, b"\n")
    except BlockingIOError:
        return count
    finally:
        os.close(writer)


class UnwrittenLines(Case):
    """Lines that can't be written: the site serves on."""

    def test_full(self):
        """standard output is full after the first line: the site serves its turns, and the last line fails"""
        [port] = free_ports(1)
        first = f"listening 127.0.0.1:{port}\n".encode()
        with tempfile.NamedTemporaryFile("w", suffix=".toml") as file:
            file.write(configuration(port, [5301]))
            file.flush()
            words = ["serve", "--config", file.name, "--key", KEY, "--turns", "12", "--report", "1"]
            began = time.monotonic()
            self.check_equal(run_into_file(words, len(first)), failed("write", first))
            self.check_true(time.monotonic() - began >= 2, "twelve turns", began)

    def ask_until_looked(self, site, client):
        """Brings so many questions that the site looks at the clock; it answers each."""
        for number in range(LOOKED_AT):
            site.bring(client, question(number, "other.org", flags=0))
            self.check_equal(code_of(client.recv(LONGEST_DATAGRAM)), REFUSED)

    def test_full_for_a_while(self):
        """a pipe is full for a while: the site serves on. The next line begins with a line feed, and says how many were lost"""
        least, began, written = 3, time.monotonic(), 0
        with open_socket() as client:
            with serving_one(lambda port: configuration(port, [5301]), more=SECOND, waits=False) as site:
                feeds = fill(site.child.stdout)
                for _ in range(least):
                    # A line is due by now, and one more than a second later.
                    time.sleep(1.1)
                    self.ask_until_looked(site, client)
                while feeds:
                    is_feed = site.read_line() == b"\n"
                    feeds, written = feeds - is_feed, written + (not is_feed)
                fcntl.fcntl(site.child.stdout, fcntl.F_SETPIPE_SZ, USUAL_PIPE)
                self.check_equal(site.read_line(), b"\n")
                first = counts_of(site.read_line().decode())
                # This line is due a second after the one before it at least, and so on.
                lost, most = first["unwritten"], int(time.monotonic() - began) - 1 - written
                self.check_true(least <= lost <= most, f"{least} to {most} lines that were lost", first)
                self.check_counts(counts_of(site.read_line().decode()), unwritten=lost)
                counts, _ = last_counts(site)
                self.check_counts(counts, unwritten=lost, questions=least * LOOKED_AT)

    def test_closed(self):
        """nobody reads any more: the site answers, and at the end says that it could not write"""
        with open_socket() as client:
            with serving_one(lambda port: configuration(port, [5301]), more=SECOND) as site:
                site.child.stdout.close()
                # A line is due by then.
                time.sleep(1.5)
                site.bring(client, question(1, "other.org", flags=0))
                self.check_equal(code_of(client.recv(LONGEST_DATAGRAM)), REFUSED)
                ended = site.finish()
        self.check_equal((ended.status, ended.errors), (1, b"dnsfleet: write\n"))


class Words(Case):
    """Numbers that the option does not take."""

    def check(self, number):
        ended = run(["serve", "--config", "/dev/null", "--key", KEY, "--turns", "1", "--report", number])
        self.check_equal((ended.status, ended.output), (2, b""))
        self.check_true(ended.errors.startswith(b"error: "), "a report that begins with 'error: '", ended)


add_cases(Words, [(f"report {number}", number) for number in ("0", "86401", "-1", "x", "1.5", "")])
