"""Configurations: what the program takes, and the first fault of what it does not take.

A row of `cases/configurations_*.txt` begins with `! ` and the fault; the text below it has the
fault. In `configurations_added.txt` it comes behind the two keys that are required; in
`configurations_whole.txt` it is all.
"""

import os
import tempfile

from support.checks import Case, add_cases, parts_of
from support.program import Ended, failed, run
from support.sessions import KEY, TRIES, configuration, free_ports, open_socket, port_of

LEAST = 'listen = "127.0.0.1:5400"\nupstreams = ["127.0.0.1:5301"]\n'
LONGEST = 65536
ROWS_ADDED, ROWS_WHOLE = 16, 27
NO_PORT = failed("socket")


def serve(path, turns=1, **more):
    """Serves with the configuration at a path."""
    return run(["serve", "--config", path, "--key", KEY, "--turns", str(turns)], **more)


def serve_text(text, turns=1):
    """Serves with a configuration."""
    with tempfile.NamedTemporaryFile() as file:
        file.write(text if isinstance(text, bytes) else text.encode())
        file.flush()
        return serve(file.name, turns)


class Files(Case):
    """What a configuration is read from."""

    def check(self, path, report):
        self.check_equal(serve(path), failed(f"config: {report}"))


add_cases(
    Files,
    [
        ("no path", "", "not readable"),
        ("a folder", "/", "not readable"),
        ("a file that is not there", "/nowhere/site.toml", "not readable"),
        ("an empty file", "/dev/null", "missing key"),
        ("a file without end", "/dev/zero", "too long"),
    ],
)


class NotTaken(Case):
    """Texts that are no configuration, with the first fault of each."""

    def check(self, text, report):
        self.check_equal(serve_text(text), failed(f"config: {report}"), text[:400])

    def test_count(self):
        """there are as many rows as are said"""
        self.check_equal((len(ADDED), len(WHOLE)), (ROWS_ADDED, ROWS_WHOLE))


def read_rows(name, keys):
    """A name for each row, its text behind these keys, and its fault."""
    return [(f"{fault}: {text}", keys + text, fault) for fault, text in parts_of(name, "! ")]


def with_lists(upstreams, peers, listen=10):
    """A configuration with so many upstreams and peers. The ports of the peers begin at 10, so
    an eleventh upstream is a peer too."""
    return configuration(listen, range(1, 1 + upstreams), range(10, 10 + peers))


def filled(text, length):
    """A text with line feeds behind it, of this length."""
    return text + "\n" * (length - len(text))


ADDED = read_rows("configurations_added.txt", LEAST)
WHOLE = read_rows("configurations_whole.txt", "")
add_cases(
    NotTaken,
    ADDED
    + WHOLE
    + [
        ("5 upstreams and 16 peers", with_lists(5, 16), "too many upstreams"),
        ("5 upstreams and 17 peers", with_lists(5, 17), "too many upstreams"),
        ("4 upstreams and 17 peers", with_lists(4, 17), "too many peers"),
        ("no upstream and 17 peers", with_lists(0, 17), "no upstream"),
        ("11 upstreams, one of them a peer", with_lists(11, 1), "too many upstreams"),
        ("17 peers, one of them an upstream", configuration(9, [10], range(10, 27)), "too many peers"),
        ("5 equal upstreams and 17 peers", configuration(9, [1] * 5, range(1, 18)), "too many upstreams"),
        ("the last peer is an upstream", configuration(9, [20, 25], range(10, 26)), "address twice"),
        ("one octet too many", filled(LEAST, LONGEST + 1), "too long"),
        ("as many octets as may be that are no TOML", filled("=", LONGEST), "not TOML"),
        ("one octet too many, and no TOML", filled("=", LONGEST + 1), "too long"),
        ("octets that are none of UTF-8", b'listen = "\xff"', "not TOML"),
    ],
)


def report(port, turns):
    """What a site prints to which nothing comes."""
    counts = f"turns {turns} received 0 sent 0 lost 0 faults 0 refused 0 short 0\n"
    return f"listening 127.0.0.1:{port}\n{counts}".encode()


class Taken(Case):
    """Configurations that are taken: the program serves its turns, and says what it counted."""

    def check_served(self, text_for, turns, serve_one=serve_text):
        """Serves with the configuration for a port. Where another program took the port, another
        one is asked for."""
        for _ in range(TRIES):
            [port] = free_ports(1)
            ended = serve_one(text_for(port), turns)
            if ended != NO_PORT:
                break
        self.check_equal(ended, Ended(0, report(port, turns)))

    # Allocates: `fleet_program`: `read_settings`.
    def test_least(self):
        """the keys that are required, with an upstream elsewhere"""
        self.check_served(lambda port: configuration(port, [5301, "10.0.0.1:53"]), 3)

    def test_full(self):
        """all keys, in another order and other spellings"""
        self.check_served(
            lambda port: "sweep = 0\npeers = ['10.0.0.1:53', \"255.255.255.255:65535\",]\n"
            f"listen = '127.0.0.1:{port}'\nupstreams = [ # three\n"
            '"127.0.0.1:3",\n"127.0.0.1:2", "127.0.0.1:1"]',
            1,
        )

    def test_most(self):
        """as many addresses and octets as may be, and the longest pause between two sweeps"""
        self.check_served(lambda port: filled(with_lists(4, 16, port) + "sweep = 3600\n", LONGEST), 1)

    def test_one_turn(self):
        """one turn"""
        self.check_served(lambda port: configuration(port, [5301]), 1)

    def test_pipe(self):
        """a configuration that comes from a pipe"""
        self.check_served(lambda port: configuration(port, [5301, "10.0.0.1:53"]), 2, serve_pipe)


def serve_pipe(text, turns):
    """Serves with a configuration that a pipe has."""
    reader, writer = os.pipe()
    try:
        os.write(writer, text.encode())
        os.close(writer)
        return serve(f"/proc/self/fd/{reader}", turns, pass_fds=[reader])
    finally:
        os.close(reader)


class Ports(Case):
    """Ports that the program can't have."""

    def test_port_in_use(self):
        """a port that another socket has"""
        with open_socket() as other:
            self.check_equal(serve_text(configuration(port_of(other), [5301])), NO_PORT)
