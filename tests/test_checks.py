"""The command `check`: what configurations say, and every fault of theirs.

A case of `cases/checked_faults.txt` begins with `! ` and a name. Then come the text of a configuration, a line `--`, and the
lines that are printed of it, without the path.
"""

import os
import tempfile
from pathlib import Path

from support.checks import Case, add_cases, parts_of
from support.program import Ended, run

ROWS = 14
GOOD = 'listen = "127.0.0.1:5400"\nupstreams = ["127.0.0.1:5301", "127.0.0.1:5302"]\n'


def checked(*texts):
    """What `check` gives for files with these texts, `0.toml` and on, without their folder."""
    with tempfile.TemporaryDirectory() as folder:
        paths = [Path(folder) / f"{at}.toml" for at in range(len(texts))]
        for path, text in zip(paths, texts):
            path.write_bytes(text if isinstance(text, bytes) else text.encode())
        ended = run(["check", *map(str, paths)])
        place = f"{folder}{os.sep}".encode()
        return Ended(ended.status, ended.output.replace(place, b""), ended.errors.replace(place, b""))


def lines(*texts):
    """Lines of a file `0.toml`."""
    return "".join(f"0.toml: {text}\n" for text in texts).encode()


class Faults(Case):
    """Every fault of a configuration, in its order."""

    def check(self, text, faults):
        self.check_equal(checked(text), Ended(1, b"", lines(*faults)), text)

    def test_count(self):
        """there are as many rows as are said"""
        self.check_equal(len(CASES), ROWS)


def read_cases():
    """A name for each case, its text, and the faults that are printed."""
    for name, body in parts_of("checked_faults.txt", "! "):
        text, _, faults = body.partition("--\n")
        yield name, text, faults.splitlines()


CASES = list(read_cases())
add_cases(
    Faults,
    CASES
    + [
        ("too long", "#" * 65537, ["too long"]),
        ("no UTF-8", GOOD.encode() + b'x = "\xff"\n', ["not TOML: line 3"]),
    ],
)


class Good(Case):
    """Configurations without a fault."""

    def test_served(self):
        """what would be served"""
        text = GOOD + 'peers = ["127.0.0.1:5401", "127.0.0.1:5402"]\nsweep = 7\n'
        served = "listen 127.0.0.1:5400 upstreams 127.0.0.1:5301 127.0.0.1:5302 peers 127.0.0.1:5401 127.0.0.1:5402 sweep 7"
        self.check_equal(checked(text), Ended(0, lines(served)))

    def test_no_peers(self):
        """no peers, and the usual sweep"""
        served = "listen 127.0.0.1:5400 upstreams 127.0.0.1:5301 127.0.0.1:5302 peers none sweep 30"
        self.check_equal(checked(GOOD), Ended(0, lines(served)))

    def test_some(self):
        """of several files each is checked, and one with a fault is enough for the status"""
        served = b"0.toml: listen 127.0.0.1:5400 upstreams 127.0.0.1:5301 127.0.0.1:5302 peers none sweep 30\n"
        ended = Ended(1, served, b"1.toml: missing key: listen\n1.toml: missing key: upstreams\n")
        self.check_equal(checked(GOOD, ""), ended)

    def test_not_readable(self):
        """a file that is not there"""
        self.check_equal(run(["check", "/nowhere/a.toml"]), Ended(1, b"", b"/nowhere/a.toml: not readable\n"))

    def test_no_file(self):
        """no file at all"""
        self.check_equal(run(["check"]).status, 2)


def site(listen, upstreams, peers):
    """A configuration by its ports."""
    texts = [", ".join(f'"127.0.0.1:{port}"' for port in ports) for ports in (upstreams, peers)]
    return f'listen = "127.0.0.1:{listen}"\nupstreams = [{texts[0]}]\npeers = [{texts[1]}]\n'


class Warnings(Case):
    """What is lawful, and surely meant otherwise."""

    def check(self, texts, warnings):
        ended = checked(*texts)
        wanted = "".join(f"{at}.toml: warning: {text}\n" for at, text in warnings)
        self.check_equal((ended.status, ended.errors), (0, wanted.encode()), texts)


add_cases(
    Warnings,
    [
        ("none", [site(1, [9], [2]), site(2, [9], [1])], []),
        ("its own address as an upstream", [site(1, [1], [])], [(0, "own address: upstreams, 1: 127.0.0.1:1")]),
        ("its own address as a peer", [site(1, [9], [2, 1])], [(0, "own address: peers, 2: 127.0.0.1:1")]),
        ("a peer on another host", [site(1, [9], [2]).replace("127.0.0.1:2", "10.0.0.1:2")], []),
        (
            "an upstream elsewhere",
            [site(1, [9], []).replace("127.0.0.1:9", "10.0.0.1:9")],
            [(0, "no loopback address: upstreams, 1: 10.0.0.1:9")],
        ),
        (
            "a peer at one end alone",
            [site(1, [9], [2]), site(2, [9], [])],
            [(0, "the peer does not have this site as one: peers, 1: 127.0.0.1:2")],
        ),
        (
            "an upstream that has the site as a peer",
            [site(1, [2], []), site(2, [9], [1])],
            [
                (0, "the upstream has this site as a peer: upstreams, 1: 127.0.0.1:2"),
                (1, "the peer does not have this site as one: peers, 1: 127.0.0.1:1"),
            ],
        ),
        ("two sites at one address", [site(1, [9], [2]), site(1, [9], [])], [(1, "two sites at one address: listen: 127.0.0.1:1")]),
        (
            "two sites of hosts that each have that address",
            [site(1, [9], []), site(1, [9], [2]).replace("127.0.0.1:2", "128.0.0.1:2"), site(1, [9], [])],
            [],
        ),
    ],
)
