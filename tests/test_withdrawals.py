"""The command `withdraw`: where aliases lead, the flush that sites are sent, and what they say then."""

import struct
import subprocess
import time

from support import program
from support.checks import Case, add_cases
from support.messages import AAAA, CNAME, HEADER_LENGTH, NAME_ERROR, REFUSED, RESPONSE, TRUNCATED, entry, frame, name_of
from support.messages import question, record, response
from support.program import LONGEST_RUN, Ended, failed, run
from support.sessions import HOST, LONGEST_DATAGRAM, ask_until_known, configuration, free_ports, open_socket, port_of
from support.sessions import serving_one

# Sites have two seconds to answer. How often a session is tried at most in which an answer was too late.
SESSIONS = 3

NO_ANSWER = b" no answer\n"

# How many targets of aliases are asked for, one after the other.
MOST_LINKS = 8


def address(one):
    """The address of a socket."""
    return f"{HOST}:{port_of(one)}"


def flush(name, stamp):
    """A frame that flushes a name (docs/FORMATS.md)."""
    return frame([struct.pack("!2BQI", 4, 3, stamp, 86400) + name_of(name) + struct.pack("!H", 0)])


def refused(asked):
    """A site's reply to a question of which it has no answer, with RD clear."""
    return asked[:2] + struct.pack("!H", RESPONSE | REFUSED) + asked[4:]


def aliased(asked, target, owner=None):
    """A site's reply that the name asked for is an alias of a target, with names in full (RFC 1035 3.3.1)."""
    return response(asked, [record(CNAME, name_of(target), owner=owner or asked[HEADER_LENGTH:-4])], flags=RESPONSE)


def in_time(session):
    """What a session gives, how the command ended and what is wanted, once no answer in it was too late."""
    for _ in range(SESSIONS):
        ended, wanted = session()
        if NO_ANSWER in wanted.output or NO_ANSWER not in ended.output:
            break
    return ended, wanted


class Flushes(Case):
    """What the sites are sent."""

    def check(self, *given):
        """Two sites are sent the flush of a name, and withdraw it."""
        self.check_equal(*in_time(lambda: self.withdraw(*given)))

    def withdraw(self, word, name, more=(), rtype=1):
        """Two sockets as sites are sent the flush of a name, and asked for it; each says that it has no answer."""
        with open_socket() as one, open_socket() as other:
            [place] = free_ports(1)
            words = ["withdraw", "--from", f"{HOST}:{place}", "--to", address(one), address(other), word, *more]
            before = int(time.time())
            with subprocess.Popen([program.path(), *words], stdout=subprocess.PIPE, stderr=subprocess.PIPE) as child:
                for site in (one, other):
                    asked, client = site.recvfrom(LONGEST_DATAGRAM)
                    self.check_equal(asked[2:], question(0, name, CNAME, flags=0)[2:])
                    site.sendto(refused(asked), client)
                for site in (one, other):
                    sent, source = site.recvfrom(LONGEST_DATAGRAM)
                    self.check_equal(source, (HOST, place))
                    stamp = struct.unpack("!Q", sent[7:15])[0]
                    self.check_true(before <= stamp <= time.time(), "the moment of the flush", stamp)
                    self.check_equal(sent, flush(name, stamp))
                    asked, client = site.recvfrom(LONGEST_DATAGRAM)
                    self.check_true(client != source, "another address", client)
                    self.check_equal(asked[2:], question(0, name, rtype, flags=0)[2:])
                    site.sendto(refused(asked), client)
                output, errors = child.communicate(timeout=LONGEST_RUN)
            wanted = f"{address(one)} withdrawn\n{address(other)} withdrawn\n".encode()
            return Ended(child.returncode, output, errors), Ended(0, wanted)


add_cases(
    Flushes,
    [
        ("a name", "example.com", "example.com"),
        ("a name with a dot at its end, in capitals", "Example.COM.", "example.com"),
        ("everything", ".", b"\0"),
        ("escapes", "a\\.b\\032c\\\\.example", b"\x06a.b c\\\x07example\0"),
        ("another type", "example.com", "example.com", ["--type", "aaaa"], AAAA),
        ("a type by its number", "example.com", "example.com", ["--type", "TYPE65280"], 65280),
    ],
)


class Answers(Case):
    """What sites say."""

    def check(self, *given):
        """What is said of a site that answers so."""
        self.check_equal(*in_time(lambda: self.withdraw(*given)))

    def withdraw(self, answer, says):
        """A socket as a site answers so."""
        with open_socket() as one:
            [place] = free_ports(1)
            words = ["withdraw", "--from", f"{HOST}:{place}", "--to", address(one), "example.com"]
            with subprocess.Popen([program.path(), *words], stdout=subprocess.PIPE, stderr=subprocess.PIPE) as child:
                asked, client = one.recvfrom(LONGEST_DATAGRAM)
                one.sendto(refused(asked), client)
                one.recv(LONGEST_DATAGRAM)
                asked, client = one.recvfrom(LONGEST_DATAGRAM)
                for octets in answer(asked):
                    one.sendto(octets, client)
                output, errors = child.communicate(timeout=LONGEST_RUN)
            return Ended(child.returncode, output, errors), Ended(1, f"{address(one)} {says}\n".encode())

    def test_site(self):
        """a site answers what its peer's frame said, and after the flush it does not"""
        with open_socket() as peer, open_socket() as client:
            place = port_of(peer)
            with serving_one(lambda port: configuration(port, [5301], [place], 0)) as site:
                site.bring(peer, frame([entry("example.com", int(time.time()) - 100)]))
                ask_until_known(site, client, "example.com")
                words = ["--to", f"{HOST}:{site.port}", "example.com"]
                [other] = free_ports(1)
                still = f"{HOST}:{site.port} not taken: the address of --from is none of its peers\n".encode()
                order = ["withdraw", "--from", f"{HOST}:{other}", *words]
                self.check_equal(*in_time(lambda: (run(order), Ended(1, still))))
                self.check_equal(ask_until_known(site, client, "example.com"), 1)
                peer.close()
                order[2], taken = f"{HOST}:{place}", f"{HOST}:{site.port} withdrawn\n".encode()
                self.check_equal(*in_time(lambda: (run(order), Ended(0, taken))))


def reply(asked, code, records=0, flags=RESPONSE):
    """A reply to a question, with this code and so many addresses."""
    head = asked[:2] + struct.pack("!5H", flags | code, 1, records, 0, 0)
    return head + asked[HEADER_LENGTH:] + record(1, bytes([192, 0, 2, 1])) * records


add_cases(
    Answers,
    [
        ("records", lambda asked: [reply(asked, 0, 2)], "still answers: code 0, records 2"),
        ("a denial", lambda asked: [reply(asked, NAME_ERROR)], "still answers: code 3, records 0"),
        ("nothing", lambda asked: [], "no answer"),
        (
            "what is no reply to the question",
            lambda asked: [b"", asked, reply(b"\xff\xff" + asked[2:], REFUSED), reply(asked[:12] + b"\0" * 5, REFUSED)],
            "no answer",
        ),
        ("two answers, of which the first counts", lambda asked: [reply(asked, 0, 1), reply(asked, REFUSED)], "still answers: code 0, records 1"),
    ],
)


class Aliases(Case):
    """Where a site says that the name is an alias."""

    def check(self, *given):
        """What is said of a site that answers so."""
        self.check_equal(*in_time(lambda: self.withdraw(*given)))

    def withdraw(self, replies, says, status, last=refused):
        """A socket as a site is asked for the CNAME of one name after the other, and replies so; then it is sent the
        flush, and asked for the first name."""
        with open_socket() as one:
            [place] = free_ports(1)
            words = ["withdraw", "--from", f"{HOST}:{place}", "--to", address(one), "www.example.com"]
            with subprocess.Popen([program.path(), *words], stdout=subprocess.PIPE, stderr=subprocess.PIPE) as child:
                for name, answer in replies:
                    asked, client = one.recvfrom(LONGEST_DATAGRAM)
                    self.check_equal(asked[2:], question(0, name, CNAME, flags=0)[2:])
                    for octets in answer(asked):
                        one.sendto(octets, client)
                sent, source = one.recvfrom(LONGEST_DATAGRAM)
                self.check_equal((source[1], sent[:7]), (place, flush("www.example.com", 0)[:7]))
                asked, client = one.recvfrom(LONGEST_DATAGRAM)
                self.check_equal(asked[2:], question(0, "www.example.com", flags=0)[2:])
                one.sendto(last(asked), client)
                output, errors = child.communicate(timeout=LONGEST_RUN)
            return Ended(child.returncode, output, errors), Ended(status, f"{address(one)} {says}\n".encode())

    def test_two_sites(self):
        """at one of two sites the name is an alias"""
        with open_socket() as one, open_socket() as other:
            [place] = free_ports(1)
            words = ["withdraw", "--from", f"{HOST}:{place}", "--to", address(one), address(other), "a.example"]
            with subprocess.Popen([program.path(), *words], stdout=subprocess.PIPE, stderr=subprocess.PIPE) as child:
                asked, client = one.recvfrom(LONGEST_DATAGRAM)
                one.sendto(aliased(asked, "b.example"), client)
                asked, client = other.recvfrom(LONGEST_DATAGRAM)
                other.sendto(refused(asked), client)
                asked, client = one.recvfrom(LONGEST_DATAGRAM)
                self.check_equal(asked[2:], question(0, "b.example", CNAME, flags=0)[2:])
                one.sendto(refused(asked), client)
                for site in (one, other):
                    site.recv(LONGEST_DATAGRAM)
                    asked, client = site.recvfrom(LONGEST_DATAGRAM)
                    site.sendto(refused(asked), client)
                output, errors = child.communicate(timeout=LONGEST_RUN)
            wanted = f"{address(one)} withdrawn, an alias of b.example., which stays\n{address(other)} withdrawn\n"
            self.check_equal(Ended(child.returncode, output, errors), Ended(3, wanted.encode()))

    def test_site(self):
        """a site has an alias and its target; the target stays, and is withdrawn by its own name"""
        with open_socket() as peer, open_socket() as client:
            place = port_of(peer)
            with serving_one(lambda port: configuration(port, [5301], [place], 0)) as site:
                stamp = int(time.time()) - 100
                alias = entry("www.example.com", stamp, rtype=CNAME, rdata=name_of("example.com"))
                site.bring(peer, frame([entry("example.com", stamp), alias]))
                ask_until_known(site, client, "www.example.com")
                peer.close()
                order = ["withdraw", "--from", f"{HOST}:{place}", "--to", f"{HOST}:{site.port}"]
                stays = f"{HOST}:{site.port} withdrawn, an alias of example.com., which stays\n".encode()
                self.check_equal(*in_time(lambda: (run([*order, "www.example.com"]), Ended(3, stays))))
                self.check_equal(ask_until_known(site, client, "example.com"), 1)
                gone = f"{HOST}:{site.port} withdrawn\n".encode()
                self.check_equal(*in_time(lambda: (run([*order, "example.com"]), Ended(0, gone))))


def chain(*names):
    """Replies by which each name is an alias of the next, and of the last one nothing is known."""
    replies = [(name, lambda asked, target=target: [aliased(asked, target)]) for name, target in zip(names, names[1:])]
    return [*replies, (names[-1], lambda asked: [refused(asked)])]


STAYS = "withdrawn, an alias of {}, which stays"
LOOP = ["www.example.com", "example.com"] * (MOST_LINKS // 2) + ["www.example.com"]
NOT_ALIASES = [
    ("a denial of the alias", lambda asked: [response(asked, flags=RESPONSE)]),
    ("a record of another type", lambda asked: [response(asked, [record(1, bytes([192, 0, 2, 1]))], flags=RESPONSE)]),
    ("an alias of another class", lambda asked: [response(asked, [record(CNAME, name_of("b.example"), rclass=3)], flags=RESPONSE)]),
    ("an alias of another owner", lambda asked: [aliased(asked, "b.example", owner="c.example")]),
    ("what cannot be read", lambda asked: [aliased(asked, "b.example")[:-1]]),
    ("what was cut off", lambda asked: [response(asked, flags=RESPONSE | TRUNCATED)]),
]
add_cases(
    Aliases,
    [
        ("an alias", chain("www.example.com", "host.example.net"), STAYS.format("host.example.net."), 3),
        ("two aliases in a row", chain("www.example.com", "a.example", "b.example"), STAYS.format("b.example."), 3),
        ("an alias of a name below", chain("www.example.com", "a.www.example.com"), "withdrawn", 0),
        ("a name below that is one of another", chain("www.example.com", "a.www.example.com", "b.example"), STAYS.format("b.example."), 3),
        ("the root", chain("www.example.com", "."), STAYS.format("."), 3),
        ("aliases in a circle", [*chain(*LOOP)[:-1], ("www.example.com", lambda asked: [aliased(asked, "example.com")])], "withdrawn", 0),
        ("an alias that is still answered", chain("www.example.com", "b.example"), "still answers: code 0, records 1", 1, lambda asked: reply(asked, 0, 1)),
        (
            "a reply to another question, and one to this",
            [("www.example.com", lambda asked: [aliased(b"\xff\xff" + asked[2:], "c.example"), refused(asked)])],
            "withdrawn",
            0,
        ),
    ]
    + [(what, [("www.example.com", answer)], "withdrawn", 0) for what, answer in NOT_ALIASES],
)


class Words(Case):
    """Words that say no order."""

    def check(self, words, report):
        self.check_equal(run(["withdraw", *words]), Ended(2, b"", f"error: {report}\n".encode()))

    def test_absent(self):
        """each option, and the name, has to be there"""
        for words in ([], ["--from", "127.0.0.1:1", "--to", "127.0.0.1:2"], ["--to", "127.0.0.1:2", "a"], ["--from", "127.0.0.1:1", "a"]):
            ended = run(["withdraw", *words])
            self.check_equal((ended.status, ended.output), (2, b""), words)

    def test_taken(self):
        """the address is taken"""
        with open_socket() as one:
            words = ["withdraw", "--from", address(one), "--to", "127.0.0.1:2", "a"]
            self.check_equal(run(words), failed("socket"))


FROM, TO = ["--from", "127.0.0.1:1"], ["--to", "127.0.0.1:2"]
LONG = "a" * 64
add_cases(
    Words,
    [
        ("no address to send from", ["--from", "localhost:1", *TO, "a"], "`localhost:1` is no address"),
        ("no address of a site", [*FROM, "--to", "x", "a"], "`x` is no address"),
        ("no address of another site", [*FROM, *TO, "127.0.0.1", "a"], "`127.0.0.1` is no address"),
        ("no type", [*FROM, *TO, "--type", "B", "a"], "`B` is no type"),
        ("no type by its number", [*FROM, *TO, "--type", "TYPE65536", "a"], "`TYPE65536` is no type"),
        ("a type by a number with a sign", [*FROM, *TO, "--type", "TYPE+28", "a"], "`TYPE+28` is no type"),
        ("a type of questions alone", [*FROM, *TO, "--type", "TYPE255", "a"], "`TYPE255` is no type"),
        ("two sites, and no name", [*FROM, *TO, "127.0.0.1:3"], "`127.0.0.1:3` is no name"),
    ]
    + [
        (f"the name {name}", [*FROM, *TO, name], f"`{name}` is no name")
        for name in ("", "..", ".a", "a..b", "a b", "é.example", "a\\", "a\\25", "a\\256", LONG, ".".join([LONG[1:]] * 4))
    ],
)
