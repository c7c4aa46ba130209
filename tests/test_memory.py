"""Want of memory: a limit of the system on the program's data (setrlimit(2), RLIMIT_DATA), a page
more in each run.

Which call finds no memory is the C library's choice. What is looked at is that the program ends
or goes on as it says, and that it does so at several places.
"""

import re
import resource
import tempfile
import time

from support.checks import Case
from support.messages import entry, frame, question
from support.program import failed, run, run_script, run_with_memory
from support.sessions import KEY, LONGEST_DATAGRAM, ask_until_known, with_neighbours
from test_examples import read_as_one
from test_scripts import QUESTION, entries, message

MOST_PAGES = 600

# How often a run has all the memory that it needs before more of it is believed to make no difference.
PASSES = 3


def least_pages():
    """With how many pages the program begins: with fewer the system does not load it."""
    whole = run(["--version"])
    for pages in range(1, MOST_PAGES):
        if run_with_memory(["--version"], pages) == whole:
            return pages
    raise AssertionError(f"the program does not begin with {MOST_PAGES} pages")


def ends(words, given=b""):
    """How the program ends with each number of pages, until it ended in the same way as without
    a limit some times."""
    whole, found = run(words, given), []
    for pages in range(least_pages(), MOST_PAGES):
        found.append(run_with_memory(words, pages, given))
        if found[-PASSES:] == [whole] * PASSES:
            return found
    raise AssertionError(f"wanted, with {MOST_PAGES} pages: {whole}\ncame:   {found[-1]}")


def growing_script():
    """A script whose every line needs more memory: a frame that is taken, or a question that is
    asked."""
    lines = ["sites 2"]
    for number in range(400):
        lines.append(f"frame 0 100 4447020001{entries(number, number + 1)}")
        lines.append(f"datagram 1 100 127.0.0.1:6001 65535 {message(QUESTION, number)}")
    return "".join(f"{line}\n" for line in lines).encode()


class Scripts(Case):
    """Scripts that find no memory end at that line, with all that the lines before it print."""

    def check_script(self, script, least):
        """A script ends at so many lines or more, where it has more and more memory."""
        found = set()
        for ended in ends(["script"], script):
            if ended.status == 0 or ended == failed("out of memory"):
                continue
            report = re.fullmatch(rb"dnsfleet: line (\d+): out of memory\n", ended.errors)
            self.check_true(report and ended.status == 1, "status 1 and a line that is out of memory", ended)
            line = int(report[1])
            before = b"".join(script.splitlines(True)[: line - 1])
            self.check_equal(ended.output, run_script(before).output, f"before line {line}")
            found.add(line)
        self.check_true(len(found) >= least, f"{least} lines or more that found no memory", sorted(found))

    def test_growing(self):
        """a script whose lines need more and more memory"""
        self.check_script(growing_script(), 5)

    def test_examples(self):
        """all examples as one script"""
        script, _ = read_as_one()
        self.check_script(script, 1)


class Words(Case):
    """Words and configurations that find no memory."""

    def check_short(self, words, report, earlier=None):
        """Some runs find no memory, and say so; each other one ends as without a limit, or earlier."""
        whole = run(words)
        short = {ended for ended in ends(words) if ended != whole}
        self.check_equal(short - {failed(earlier)}, {failed(report)})

    def test_long_word(self):
        """a word of 100000 letters"""
        self.check_short(["serve", "--config", "x" * 100_000, "--key", KEY, "--turns", "1"], "out of memory")

    def test_long_configuration(self):
        """a configuration with many lines and a long list"""
        text = "".join(f"# {number}\n" for number in range(5000)) + "x = 1\n"
        text += "y = [" + ", ".join(['"127.0.0.1:1"'] * 1000) + "]\n"
        with tempfile.NamedTemporaryFile() as file:
            file.write(text.encode())
            file.flush()
            words = ["serve", "--config", file.name, "--key", KEY, "--turns", "1"]
            self.check_equal(run(words), failed("config: unknown key"))
            self.check_short(words, "config: out of memory", earlier="out of memory")


def limit_memory(child, is_limited):
    """Has a process that runs get no more data than it has, or as much as it may. The limit is a
    page, since the system takes 0 for no limit."""
    _, most = resource.prlimit(child.pid, resource.RLIMIT_DATA)
    room = resource.getpagesize() if is_limited else most
    resource.prlimit(child.pid, resource.RLIMIT_DATA, (room, most))


class Sites(Case):
    """A site that finds no memory."""

    def frames(self, count):
        """Frames of many names each."""
        now = int(time.time())
        names = [[f"{number}.{many}.example" for many in range(300)] for number in range(count)]
        return [frame([entry(name, now, 86400) for name in part]) for part in names]

    def test_short(self):
        """frames that find no memory are short, and come again; what is held is answered all the while"""
        frames = self.frames(30)
        known = question(7, "0.0.example", flags=0)
        with with_neighbours() as (site, _, peer, client):
            site.bring(peer, frames[0])
            ask_until_known(site, client, "0.0.example")
            limit_memory(site.child, True)
            for octets in frames[1:]:
                site.bring(peer, octets)
                site.bring(client, known)
                answer = client.recv(LONGEST_DATAGRAM)
                self.check_equal(answer[:4], b"\0\x07\x80\x80", "an answer without memory")
            limit_memory(site.child, False)
            for number, octets in enumerate(frames):
                site.bring(peer, octets)
                ask_until_known(site, client, f"{number}.299.example")
            counts = site.counts()
            self.check_counts(counts, lost=0, faults=0)
            self.check_true(counts["short"] > 0, "some frames that found no memory", counts)
