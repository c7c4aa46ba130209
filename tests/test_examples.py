"""The worked examples: scripts with what they print, examples/drops.py and examples/metrics.py.

An example is a transcript in `cases/examples_*.txt`. It begins with `= ` and what it shows. A
line behind `> ` is one of the script's, and the lines below it are what it prints. A line that
begins with `; ` says what the message below it is, as dig would. `<name>` stands for a message
of `cases/example_messages.txt`.
"""

import os
import re
import shutil
import subprocess
import sys
import tempfile
from pathlib import Path

from support.checks import Case, add_cases, parts_of
from support.messages import spelled
from support.program import CASES, LONGEST_RUN, TESTS, Ended, run_octet_by_octet, run_script
from support.sessions import HOST, open_socket, port_of, waiting
from support.streams import run_interrupted
from support.transcripts import text_of
from test_reports import KEYS

FILES = ("examples_questions.txt", "examples_datagrams.txt", "examples_frames.txt")
EXAMPLES = 58
MOST_SITES = 9

# Where a test has the same scripts, and runs them with each call for memory refused.
SOURCE = TESTS.parent / "crates" / "fleet_tests" / "src" / "tests" / "program" / "scripts.rt"


def parts_of_transcript(transcript):
    """The lines of a script, and the lines that they print."""
    lines = [spelled(line) for line in transcript.splitlines() if not line.startswith(";")]
    script = [line[2:] for line in lines if line.startswith("> ")]
    printed = [line for line in lines if not line.startswith("> ")]
    return script, printed


def read_examples():
    """What each example shows, the lines of its script, and the lines that they print."""
    parts = [part for name in FILES for part in parts_of(name)]
    return [(shows, *parts_of_transcript(transcript)) for shows, transcript in parts]


class Examples(Case):
    """Each example by itself: its script at once, and octet by octet."""

    def check(self, script, printed):
        wanted = Ended(0, text_of(printed))
        self.check_equal(run_script(text_of(script)), wanted, "the script at once")
        self.check_equal(run_octet_by_octet(text_of(script)), wanted, "the script octet by octet")

    def test_count(self):
        """there are as many examples as are said"""
        self.check_equal(len(read_examples()), EXAMPLES)


add_cases(Examples, read_examples())


class Agreement(Case):
    """Three sites in a row, which agree once each has told the others all that it knew."""

    def check_file(self, name):
        script = (TESTS.parent / "examples" / f"{name}.script").read_bytes()
        printed = (TESTS.parent / "examples" / "agree.out").read_bytes()
        self.check_equal(run_script(script), Ended(0, printed), name)
        self.check_equal(printed.splitlines()[-3:], [b"same"] * 3, "the three at the end")

    def test_delivered(self):
        """frames that are delivered bring all to each site, and take back what is flushed"""
        self.check_file("agree")

    def test_datagrams(self):
        """so do frames that come as datagrams from peers' addresses"""
        self.check_file("agree-datagrams")


def moved_on(line, kept):
    """A line whose frame has a number that is greater by that of the frames that were kept
    before."""
    words = line.split(" ")
    place = {"deliver": 3, "frame": 1}.get(words[0])
    if place:
        words[place] = str(int(words[place]) + kept)
    return " ".join(words)


def read_as_one():
    """All examples as one script, each at nine sites that are as new, and what it prints. Frames
    stay, and are counted on."""
    script, printed, kept = [f"sites {MOST_SITES}"], [], 0
    for shows, lines, wanted in read_examples():
        script.append(f"# {shows}")
        script += [moved_on(line, kept) if line.startswith("deliver ") else line for line in lines]
        printed += [moved_on(line, kept) for line in wanted]
        kept += sum(1 for line in wanted if re.match(r"frame \d+ ", line))
        script += [f"restart {site}" for site in range(MOST_SITES)]
        printed += ["restarted"] * MOST_SITES
    script = [line for place, line in enumerate(script) if not place or not line.startswith("sites ")]
    return text_of(script), text_of(printed)


class AllExamples(Case):
    """All examples as one script."""

    # Allocates: `fleet_program`: `run_script`.
    def test_at_once(self):
        """all examples as one script"""
        script, printed = read_as_one()
        self.check_equal(run_script(script), Ended(0, printed))

    def test_octet_by_octet(self):
        """all examples as one script, octet by octet"""
        script, printed = read_as_one()
        self.check_equal(run_octet_by_octet(script), Ended(0, printed))

    def test_behind_an_interruption(self):
        """all examples as one script, behind a read that was interrupted"""
        script, printed = read_as_one()
        self.check_equal(run_interrupted([script]), Ended(0, printed))


def scripts_of_the_crate():
    """What each script of that test shows, and its lines."""
    text = SOURCE.read_text(encoding="utf-8").split(' = "\\\n', 1)[1].split('\n";', 1)[0]
    scripts = [script.split("\n") for script in text.split("\n\n")]
    return [(shows.removeprefix("# "), [spelled(line) for line in lines]) for shows, *lines in scripts]


class InTheCrate(Case):
    """The scripts of that test, where the sources are at hand."""

    def test_same(self):
        """the scripts of the test that refuses calls for memory are those of the examples"""
        wanted = [(shows, script) for shows, script, _ in read_examples()]
        if SOURCE.is_file():
            self.check_equal(scripts_of_the_crate(), wanted)


# How many long datagrams are sent to a socket that has room for some of them.
SENT = 30


def run_example(name, *words, given=b""):
    """What a script of examples/ prints, and its status."""
    script = [sys.executable, "-B", TESTS.parent / "examples" / name]
    ran = subprocess.run([*script, *words], input=given, capture_output=True, timeout=LONGEST_RUN, check=False)
    return ran.stdout.decode(), ran.returncode


def drops(*words):
    """What examples/drops.py prints, word by word of each line, and its status."""
    printed, status = run_example("drops.py", *words)
    return [line.split() for line in printed.splitlines()], status


class Drops(Case):
    """What the system dropped at the sockets of sites."""

    def test_counted(self):
        """what found no room at a socket is counted, and what waits there"""
        with open_socket() as one:
            address = f"{HOST}:{port_of(one)}"
            for _ in range(SENT):
                one.sendto(bytes(16384), one.getsockname())
            [head, [_, dropped, room]], status = drops(address)
            kept = len(waiting(one))
            self.check_equal((head, status), (["site", "dropped", "waiting"], 0))
            self.check_equal(int(dropped), SENT - kept, f"{kept} of {SENT} were kept")
            self.check_true(int(room) >= kept * 16384, f"room for {kept} datagrams is taken", room)
            self.check_equal(drops(address), ([head, [address, dropped, "0"]], 0), "nothing waits any more")

    def test_no_socket(self):
        """a configuration whose site is down, beside a site that is up; both are looked at twice"""
        # No other process of the tests has a socket at this host.
        down = f"127.1.{os.getpid() >> 8 & 255}.{os.getpid() & 255}:5400"
        with open_socket() as one, tempfile.TemporaryDirectory() as folder:
            address, path = f"{HOST}:{port_of(one)}", Path(folder) / "site.toml"
            path.write_text(f'listen = "{down}"\nupstreams = ["127.0.0.1:5301"]\n', encoding="ascii")
            [head, *lines], status = drops(address, path, "--every", "0.01", "--times", "2")
            self.check_equal((head, status), (["time", "site", "dropped", "waiting"], 1))
            self.check_equal([line[1:] for line in lines], [[address, "0", "0"], [down, "no", "socket"]] * 2)

    def test_no_site(self):
        """neither an address nor a configuration"""
        self.check_equal(drops("127.0.0.1"), ([], 2))


# The counts of a report that may fall. Of each other one the name ends so that Prometheus knows it only grows.
GAUGES = ("items", "messages-waiting", "frames-waiting", "frames-leaving")

# What stands before a line in the journal.
JOURNAL = "Dec 01 20:00:00 host dnsfleet[7]: "


def counts(more):
    """A line of a report, each of whose numbers is another one."""
    return " ".join(f"{key} {place + more}" for place, key in enumerate(KEYS))


class Metrics(Case):
    """The counts of a site as Prometheus reads them."""

    def check(self, before, *lines):
        """The last of some lines of counts is given, with something before each, and what was dropped at the socket."""
        text = text_of([before + line for line in ("listening", *lines, "turns 7 received 3 sent 2 lost 0 short 0")])
        with open_socket() as one:
            address = f"{HOST}:{port_of(one)}"
            printed, status = run_example("metrics.py", address, given=text)
        names = [key.replace("-", "_") + ("" if key in GAUGES else "_total") for key in KEYS]
        wanted = dict(zip(names, lines[-1].split()[1::2])) if lines else {}
        wanted["socket_dropped_total"] = "0"
        numbers = [line for line in printed.splitlines() if not line.startswith("#")]
        self.check_equal(numbers, [f'dnsfleet_{name}{{site="{address}"}} {count}' for name, count in wanted.items()])
        self.check_equal(status, 0 if lines else 1)
        if shutil.which("promtool"):
            judged = subprocess.run(["promtool", "check", "metrics"], input=printed.encode(), capture_output=True, check=False)
            self.check_equal((judged.returncode, judged.stdout + judged.stderr), (0, b""), "promtool")

    def test_no_socket(self):
        """counts of a site that has ended"""
        down = f"127.1.{os.getpid() >> 8 & 255}.{os.getpid() & 255}:5400"
        printed, status = run_example("metrics.py", down, given=text_of([counts(7)]))
        self.check_equal((status, printed.count("# TYPE")), (1, len(KEYS)))

    def test_faults(self):
        """no address, and a file that is not there"""
        for words in (["5400"], [f"{HOST}:5400", "/not/there"]):
            self.check_equal(run_example("metrics.py", *words), ("", 2))


add_cases(
    Metrics,
    [
        ("the last of two lines", "", counts(1), counts(100)),
        ("a line as the journal shows it", JOURNAL, counts(10)),
        ("a site that has printed no counts", ""),
    ],
)
