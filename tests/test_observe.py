"""The script examples/observe.py: what it shows of sites, which names are below others, and how it ends."""

import contextlib
import errno
import importlib.util
import os
import re
import signal
import socket
import subprocess
import sys
import tempfile
import time
import xml.etree.ElementTree
from pathlib import Path

from support import program
from support.checks import Case, add_cases
from support.messages import AAAA, TXT, entry, flush, frame, no_data, no_name
from support.program import LONGEST_RUN, TESTS, Ended
from support.sessions import HOST, TRIES, ask_until_known, configuration, open_socket, port_of, rows_at, serving
from support.streams import wait_until

SCRIPT = TESTS.parent / "examples" / "observe.py"

# How long ago the sites learnt what they hold, and how long it lives: as long as a denial may, or a flush has to.
AGE, LIFE, LIFE_OF_FLUSH = 100, 10800, 86400

# The columns of the lines of sites.
HEAD = "site frames octets items positive nodata nxdomain flush lacks"
COLUMNS = len(HEAD.split())

# How many items that a site lacks are shown.
SHOWN = 10


def words_of(words):
    """The words that run the script, with the program under test unless another one is named."""
    named = [] if "--program" in words else ["--program", program.path()]
    return [sys.executable, "-B", SCRIPT, *words, *named]


def observe(words, **more):
    """Runs the script."""
    settings = {"stdout": subprocess.PIPE, "stderr": subprocess.PIPE, **more}
    ran = subprocess.run(words_of(words), timeout=LONGEST_RUN, check=False, **settings)
    return Ended(ran.returncode, ran.stdout or b"", ran.stderr)


def observe_until(is_so, run):
    """Runs the script by a call until something is so of how it ended: on a busy machine a site may send
    nothing while it listens."""
    for _ in range(TRIES):
        ended = run()
        if is_so(ended):
            break
    return ended


def heard(ended):
    """The addresses of the sites that were heard."""
    rows = [line.split() for line in ended.output.decode().splitlines()]
    return [row[0] for row in rows if len(row) == COLUMNS][1:]


@contextlib.contextmanager
def operator():
    """A socket at the operator's place, and its address. No other process of the tests has a socket at that
    host, so that the port stays free once this one is closed."""
    number = os.getpid()
    with socket.socket(socket.AF_INET, socket.SOCK_DGRAM) as made:
        made.bind((f"127.1.{number >> 8 & 255}.{number & 255}", 0))
        host, port = made.getsockname()
        yield made, f"{host}:{port}"


def wait_until_bound(listen, child):
    """Waits until there is a socket at an address, or the process that opens it has ended."""
    host, port = listen.split(":")
    wait_until(lambda: child.poll() is not None or rows_at(host, int(port)), f"a socket at {listen}")


def at(port):
    """The address of a site."""
    return f"{HOST}:{port}"


def site_text(port, peers, sweep=1):
    """The configuration of a site."""
    return configuration(port, [5301], peers, sweep)


def write_silent(folder, listen):
    """Writes the configurations of two sites that are not there: the second has no sweeps, and no peer."""
    silent, still = [Path(folder) / name for name in ("silent.toml", "still.toml")]
    silent.write_text(site_text(1, [listen]), encoding="utf-8")
    still.write_text(site_text(2, [], 0), encoding="utf-8")
    return silent, still


class Served(Case):
    """What is shown of sites that serve."""

    def check_output(self, ended, frames, lines, began):
        """The lines that are printed, where each site that was heard sent one frame again and again. `F O` are
        the frames and octets of a site, and `L` the seconds that are left of a life."""
        came = []
        for line in ended.output.decode().splitlines():
            words = line.split(" ") if " (rank " in line else line.split()
            if words[0] in frames and len(words) == COLUMNS:
                count, octets = int(words[1]), int(words[2])
                self.check_true(count > 0 and octets == count * len(frames[words[0]]), "whole frames", line)
                words[1:3] = ["F", "O"]
            elif " (rank " in line:
                place = 6 if words[0] == "" else 1
                left, most = int(words[place]), (LIFE_OF_FLUSH if " flush " in line else LIFE) - AGE
                least = most - (int(time.time()) - began)
                self.check_true(least <= left <= most, f"{least} to {most} seconds", line)
                words[place] = "L"
            came.append(" ".join(words))
        self.check_equal("\n".join(came), "\n".join(lines))
        self.check_equal(ended.errors, b"")

    def test_alike(self):
        """two sites hold the same: each kind is counted, and who holds what at a name and below it is shown"""
        now = int(time.time())
        held = frame(
            [
                entry("example.com", now - AGE, LIFE),
                entry("www.example.com", now - AGE, LIFE, 2, AAAA, bytes(15) + b"\1"),
                entry("text.example.com", now - AGE, LIFE, 3, TXT, b"\2hi"),
                entry(b"\x09a.example\x03com\0", now - AGE, LIFE),
                no_data("example.com", now - AGE, LIFE, rtype=AAAA),
                no_name("nothing.example.com", now - AGE, LIFE),
                flush("gone.example.com", now - AGE),
            ]
        )

        def configure(one, other):
            return [site_text(one, [other, listen]), site_text(other, [one, listen])]

        with operator() as (place, listen), open_socket() as client, serving(2, configure) as sites:
            place.sendto(held, (HOST, sites[0].port))
            for site in sites:
                ask_until_known(site, client, "example.com")
            place.close()
            one, other = [at(site.port) for site in sites]
            words = [listen, *[site.path for site in sites], "--seconds", "2.5", "--name", "EXAMPLE.com"]
            ended = observe_until(lambda ended: len(heard(ended)) == 2, lambda: observe(words))
        lines = [
            HEAD,
            f"{one} F O 7 4 1 1 1 0",
            f"{other} F O 7 4 1 1 1 0",
            "example.com. L nodata AAAA (rank 1) at all",
            "example.com. L A 192.0.2.1 (rank 3) at all",
            "gone.example.com. L flush (rank 3) at all",
            "nothing.example.com. L nxdomain (rank 1) at all",
            "text.example.com. L TXT \\# 3 026869 (rank 3) at all",
            "www.example.com. L AAAA ::1 (rank 2) at all",
        ]
        self.check_output(ended, {one: held, other: held}, lines, now)
        self.check_equal(ended.status, 0)

    def test_lacking(self):
        """a peer is stated at one end alone: each site lacks what the other one holds. Others are not heard"""
        now, names = int(time.time()), [f"{letter}.example" for letter in "abcdefghijkl"]
        many = frame([entry(name, now - AGE, LIFE) for name in names])
        single = frame([entry("one.example", now - AGE, LIFE)])

        def configure(one, other):
            return [site_text(one, [other, listen]), site_text(other, [listen])]

        with operator() as (place, listen), tempfile.TemporaryDirectory() as folder:
            with open_socket() as client, serving(2, configure) as sites:
                for site, octets, name in zip(sites, (many, single), (names[0], "one.example")):
                    place.sendto(octets, (HOST, site.port))
                    ask_until_known(site, client, name)
                place.close()
                one, other = [at(site.port) for site in sites]
                paths, drawn = [site.path for site in sites], Path(folder) / "drawn.svg"
                paths += write_silent(folder, listen)
                words, began = [listen, *paths, "--name", "C.EXAMPLE.", "--svg", drawn], time.monotonic()
                ended = observe_until(lambda ended: len(heard(ended)) == 2, lambda: observe(words))
                self.check_true(time.monotonic() - began >= 4, "a sweep of a second, and three seconds more", began)
            self.check_picture(drawn, sites[1].port)
        lines = [
            f"{paths[0]}: the peer {other} does not have {one} among its peers",
            f"{paths[3]}: {listen} is none of its peers",
            HEAD,
            f"{one} F O 12 12 0 0 0 1",
            "    lacks one.example. L A 192.0.2.1 (rank 3)",
            f"{other} F O 1 1 0 0 0 12",
            *[f"    lacks {name}. L A 192.0.2.1 (rank 3)" for name in names[:SHOWN]],
            "127.0.0.1:1 not heard",
            "127.0.0.1:2 not heard: it has no sweeps",
            f"c.example. L A 192.0.2.1 (rank 3) at {one}",
        ]
        self.check_output(ended, {one: many, other: single}, lines, now)
        self.check_equal(ended.status, 1)

    def check_picture(self, drawn, port):
        """The picture of these four sites says what each holds, and has a red line for the peer that is stated
        at one end alone."""
        parts = list(xml.etree.ElementTree.parse(drawn).getroot())
        kinds = [part.tag.rpartition("}")[2] for part in parts]
        self.check_equal(kinds, ["rect", "line", *["circle", "text", "text"] * 4])
        self.check_equal(parts[1].get("stroke"), "#c00")
        texts = [part.text for part in parts if part.text]
        self.check_equal(texts[2::2], [str(port), "1", "2"], "the ports of all but the first site")
        self.check_equal(texts[1::2], ["12 items, lacks 1", "1 items, lacks 12", "not heard", "not heard"])


class Sent(Case):
    """What is shown of frames from sockets of the test, in place of sites."""

    def observe(self, words, sent):
        """Runs the script, and sends it datagrams once it listens: each with the socket that it comes from. On a busy
        machine it may have ended by then, and hears none."""
        pipes = {"stdout": subprocess.PIPE, "stderr": subprocess.PIPE}
        with subprocess.Popen(words_of(words), **pipes) as child:
            wait_until_bound(words[0], child)
            host, port = words[0].split(":")
            for one, octets in sent:
                one.sendto(octets, (host, int(port)))
            output, errors = child.communicate(timeout=LONGEST_RUN)
        return Ended(child.returncode, output, errors)

    def test_sent(self):
        """what is no frame is refused, a stranger's is left out, and nobody lacks what is newer than the listening"""
        now = int(time.time())
        # The second of them is newer than any listening of this test.
        old, new = entry("old.example", now - AGE, LIFE), entry("new.example", now + LONGEST_RUN, LIFE)
        with operator() as (place, listen), tempfile.TemporaryDirectory() as folder:
            with open_socket() as one, open_socket() as other, open_socket() as stranger:
                paths = [Path(folder) / name for name in ("one.toml", "other.toml")]
                for path, site in zip(paths, (one, other)):
                    path.write_text(site_text(port_of(site), [listen]), encoding="utf-8")
                place.close()
                words = [listen, *paths, "--seconds", "1.5"]
                third = frame([entry("third.example", now - AGE, LIFE)])
                # Where the last one is heard, all are.
                sent = [(stranger, third), (other, b"x"), (other, frame([old])), (one, frame([old, new]))]
                ended = observe_until(lambda ended: len(heard(ended)) == 2, lambda: self.observe(words, sent))
                first, second = [at(port_of(site)) for site in (one, other)]
        octets = len(frame([old, new])), 1 + len(frame([old]))
        lines = [
            HEAD,
            f"{first} 1 {octets[0]} 2 2 0 0 0 0",
            f"{second} 2 {octets[1]} 1 1 0 0 0 0",
            "refused frames: 1",
        ]
        came = [" ".join(line.split()) for line in ended.output.decode().splitlines()]
        self.check_equal("\n".join(came), "\n".join(lines))
        self.check_equal((ended.status, ended.errors), (0, b""))


def read_script():
    """The script as a module."""
    spec = importlib.util.spec_from_file_location("observe", SCRIPT)
    module = importlib.util.module_from_spec(spec)
    spec.loader.exec_module(module)
    return module


class Names(Case):
    """Which names are below which other ones, as zones write them (RFC 1035 5.1). Letters of ASCII alone have a case
    (RFC 4343)."""

    def check(self, name, top, is_below):
        script = read_script()
        self.check_equal(script.is_below(script.labels_of(name), script.labels_of(top)), is_below)

    def test_none(self):
        """texts that are no names"""
        labels_of, longest = read_script().labels_of, "a" * 63
        for text in ("", "..", ".a", "a..b", "a b", "é.a", "\\é.a", "a\\", "a\\25", "a\\256", longest + "a"):
            self.assertRaises(ValueError, labels_of, text)
        names = [".".join([longest] * 3 + ["a" * length]) for length in (61, 62)]
        self.check_equal([len(label) for label in labels_of(names[0])], [63, 63, 63, 61])
        self.assertRaises(ValueError, labels_of, names[1])


add_cases(
    Names,
    [
        ("itself", "example.com.", "example.com", True),
        ("itself in capitals", "example.com.", "Example.COM.", True),
        ("below", "a.b.example.com.", "example.com", True),
        ("above", "com.", "example.com", False),
        ("where the end of a label is the same", "anexample.com.", "example.com", False),
        ("where a dot in a label makes it look so", "a\\.example.com.", "example.com", False),
        ("where a dot in a label is above", "a\\.example.com.", "com", True),
        ("itself, a dot in a label by its number", "a\\.example.com.", "A\\046example.com", True),
        ("below, behind a backslash in a label", "a\\\\.example.com.", "example.com", True),
        ("below, an octet by its number", "\\000.example.com.", "example.com", True),
        ("itself, a capital by its number", "a.example.", "\\065.example", True),
        ("letters beyond ASCII, whose case counts", "\\195\\169.example.", "\\195\\137.example", False),
        ("below the root", "example.com.", ".", True),
        ("the root itself", ".", ".", True),
        ("the root is below no other name", ".", "com", False),
    ],
)


class Ends(Case):
    """How it ends where nothing is shown."""

    def check(self, words, says):
        """With these words the last line of its report begins so. Files are in place of `{config}` and `{twin}`,
        configurations of one address, and of others, which are none; `{text}` may be executed. `{listen}` is the
        operator's place."""
        with operator() as (place, listen), tempfile.TemporaryDirectory() as folder:
            place.close()
            texts = {"config": site_text(1, [listen]), "twin": site_text(1, []), "peer": site_text(1, [listen, "x"])}
            texts |= {"other": "listen = 5", "nonsense": 'listen = "nonsense"', "text": "listen"}
            names = {name: str(Path(folder) / name) for name in texts}
            for name, text in texts.items():
                Path(names[name]).write_text(text, encoding="utf-8")
            Path(names["text"]).chmod(0o755)
            names["listen"] = listen
            ended = observe([word.format(**names) for word in words])
        self.check_equal(ended.status, 2)
        last = ended.errors.decode().splitlines()[-1]
        wanted = f"observe.py: {says}".format(**names)
        self.check_true(last.startswith(wanted) and b"Traceback" not in ended.errors, wanted, ended)

    def test_taken(self):
        """the operator's place is taken"""
        with operator() as (_, listen), tempfile.TemporaryDirectory() as folder:
            silent, _ = write_silent(folder, listen)
            wanted = Ended(2, b"", f"observe.py: {listen}: {os.strerror(errno.EADDRINUSE)}\n".encode())
            self.check_equal(observe([listen, silent]), wanted)

    def check_output(self, fault, **more):
        """Where its lines can't be written, it says so and no more."""
        with operator() as (place, listen), tempfile.TemporaryDirectory() as folder:
            silent, _ = write_silent(folder, listen)
            place.close()
            ended = observe([listen, silent, "--seconds", "0.1"], **more)
        self.check_equal(ended, Ended(2, b"", f"observe.py: output: {fault}\n".encode()))

    def test_full(self):
        """standard output is full"""
        with open("/dev/full", "wb") as full:
            self.check_output(os.strerror(errno.ENOSPC), stdout=full)

    def test_unread(self):
        """nobody reads standard output any more"""
        reader, writer = os.pipe()
        os.close(reader)
        with open(writer, "wb") as unread:
            self.check_output(os.strerror(errno.EPIPE), stdout=unread)

    def test_closed(self):
        """standard output is closed from the beginning"""
        self.check_output("it is closed", stdout=None, preexec_fn=lambda: os.close(1))

    def test_interrupted(self):
        """Ctrl-C ends it while it listens"""
        pipes = {"stdout": subprocess.PIPE, "stderr": subprocess.PIPE}
        with operator() as (place, listen), tempfile.TemporaryDirectory() as folder:
            silent, _ = write_silent(folder, listen)
            place.close()
            words = words_of([listen, silent, "--seconds", "600"])
            with subprocess.Popen(words, preexec_fn=mind_interrupts, **pipes) as child:
                wait_until_bound(listen, child)
                child.send_signal(signal.SIGINT)
                output, errors = child.communicate(timeout=LONGEST_RUN)
        self.check_equal(Ended(child.returncode, output, errors), Ended(130))


def mind_interrupts():
    """Has a process mind Ctrl-C, though the shell of the tests may have them pass it over."""
    signal.signal(signal.SIGINT, signal.SIG_DFL)


NO_ADDRESS = "error: argument LISTEN: `{0}` is no address such as 127.0.0.1:5499"
NO_SECONDS = "error: argument --seconds: `{0}` is no number of seconds"
NO_NAME = "error: argument --name: `{0}` is no name"

GIVEN = ["{listen}", "{config}"]
SOON = [*GIVEN, "--seconds=0.1"]
add_cases(
    Ends,
    [
        (f"no address: {word}", [word, "{config}"], NO_ADDRESS.format(word))
        for word in ("127.0.0.1", "localhost:5499", "127.0.0.1:0", "127.0.0.1:65536", "::1")
    ]
    + [
        (f"no seconds: {word}", [*GIVEN, f"--seconds={word}"], NO_SECONDS.format(word))
        for word in ("0", "-1", "inf")
    ]
    + [
        ("no name", [*GIVEN, "--name=a..b"], NO_NAME.format("a..b")),
        ("no configuration is named", ["{listen}"], "error: the following arguments are required: CONFIG"),
        ("a configuration is not there", [*GIVEN, "{config}.none"], f"{{config}}.none: {os.strerror(errno.ENOENT)}"),
        ("a configuration is none", [*GIVEN, "{other}"], "{other}: no configuration: `dnsfleet check {other}` says"),
        ("a configuration is not TOML", [*GIVEN, "{text}"], "{text}: not TOML: "),
        ("a site's address is none", [*GIVEN, "{nonsense}"], "{nonsense}: no configuration: "),
        ("a peer's address is none", [*GIVEN, "{peer}"], "{peer}: no configuration: "),
        ("two sites have one address", [*GIVEN, "{twin}"], "{twin}: listen 127.0.0.1:1 is that of {config}, too"),
        ("one site is named twice", [*GIVEN, "{config}"], "{config}: listen 127.0.0.1:1 is that of {config}, too"),
        ("the program is not there", [*GIVEN, "--program", "/none"], "/none: no program; --program says where it is"),
        ("the program is none", [*SOON, "--program", "{text}"], f"{{text}}: {os.strerror(errno.ENOEXEC)}"),
        ("the program fails", [*SOON, "--program", "/bin/false"], "`/bin/false script` ended with status 1"),
        ("the program shows nothing", [*SOON, "--program", "/bin/true"], "`/bin/true script` printed no line `items"),
        ("another machine's address", ["192.0.2.1:9", "{config}"], f"192.0.2.1:9: {os.strerror(errno.EADDRNOTAVAIL)}"),
        ("the picture can't be written", [*SOON, "--svg={config}/x"], f"{{config}}/x: {os.strerror(errno.ENOTDIR)}"),
    ],
)
