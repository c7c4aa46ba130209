"""Lines at fault: how each is reported, and that what the lines before it printed remains.

A row of `cases/line_faults.txt` has a script with a line at fault, `/` in place of each line
feed and `\\r` in place of a carriage return; behind ` => ` the report; and behind another one
what was printed before it.
"""

from support.checks import Case, add_cases, lines_of
from support.program import Ended, failed, run_script

ROWS = 51


def octets_of(text):
    """The octets of a script or of what it prints, as a row has them."""
    return text.replace("/", "\n").replace("\\r", "\r").encode()


def read_rows():
    """A name for each row, the script, the report, and what was printed before."""
    rows = []
    for row in lines_of("line_faults.txt"):
        script, report, *before = row.split(" => ")
        rows.append((f"{report}: {script}", octets_of(script), report, octets_of("".join(before))))
    return rows


class LineFaults(Case):
    """Each row of the table, an octet that is none of UTF-8, and lines far down."""

    def check(self, script, report, before):
        self.check_equal(run_script(script), failed(report, before))

    def test_count(self):
        """there are as many rows as are said"""
        self.check_equal(len(read_rows()), ROWS)

    def test_not_utf_8(self):
        """an octet that begins no character"""
        self.check(b"\n\xff\n", "line 2: not ASCII", b"")

    def test_far_down(self):
        """a line at fault behind 9 others, and behind 99999"""
        for others in (9, 99_999):
            self.check(b"#\n" * others + b"show x\n", f"line {others + 1}: bad number", b"")


add_cases(LineFaults, read_rows())


class SeventhLine(Case):
    """Each fault of what a line says, in line 7: comments and empty lines are counted."""

    def check(self, line, what):
        self.check_equal(run_script(b"#\n\n#\n\n#\n\n" + line), failed(f"line 7: {what}"))


add_cases(
    SeventhLine,
    [
        ("a line that is too long", b"#" * 65537, "line too long"),
        ("a line that is not ASCII", b"# caf\xc3\xa9", "not ASCII"),
        ("an unknown event", b"lern 0 0 -", "unknown event"),
        ("a wrong number of words", b"show", "wrong number of words"),
        ("a bad number", b"show x", "bad number"),
        ("a bad address", b"datagram 0 0 localhost:1 0 -", "bad address"),
        ("bad digits", b"learn 0 0 g", "bad hex"),
        ("a bad name", b"flush 0 0 03636f", "bad name"),
        ("a site that is not there", b"show 1", "no such site"),
        ("a site that is not asked", b"ask 2 110 -", "no such site"),
        ("a site that does not withdraw", b"flush 2 200 03636f6d00", "no such site"),
        ("a frame that is not there", b"deliver 0 0 0", "no such frame"),
    ],
)


class Sites(Case):
    """The line that makes sites comes first."""

    def test_seventh_line(self):
        """sites that are made behind another event, in line 7"""
        script = b"show 0\n\n#\n\n#\n\nsites 1"
        self.check_equal(run_script(script), failed("line 7: sites must come first", b"floor 0\nitems 0\n"))


def label(length):
    """A label of so many letters, in hexadecimal digits."""
    return f"{length:02x}" + "61" * length


def long_flush(last):
    """A flush of a name of three labels of 63 letters and one of this length."""
    return "flush 0 0 " + "".join(map(label, (63, 63, 63, last))) + "00"


ADDRESSES = ("0.0.0.0:1", "255.255.255.255:65535", "127.0.0.1:5301")
NO_ADDRESSES = (
    "",
    "127.0.0.1",
    "127.0.0.1:",
    "127.0.0.1:0",
    "127.0.0.1:01",
    "127.0.0.1:65536",
    "127.0.0.1:5301:1",
    "127.0.0.01:5301",
    "127.0.0.256:5301",
    "127.0.0:5301",
    "127.0.0.1.1:5301",
    "localhost:5301",
)


class Bounds(Case):
    """What a line may just have, and what not."""

    def check(self, lines, report=None):
        ended = run_script(lines.encode())
        wanted = failed(report) if report else Ended(0)
        self.check_equal((ended.status, ended.errors), (wanted.status, wanted.errors), lines[:100])


add_cases(
    Bounds,
    [
        ("a name of 255 octets", long_flush(61)),
        ("a name of 256 octets", long_flush(62), "line 1: bad name"),
        ("a line of 65536 octets", "\n" + "#" * 65536),
        ("a line of 65537 octets", "\n" + "#" * 65537, "line 2: line too long"),
        ("a line of 65536 octets and another one", "#" * 65536 + "\nshow 0"),
        ("the last moment", "tick 0 1099511627776"),
        ("nine sites", "sites 9\nshow 8"),
        ("a line without its line feed", "show 0"),
    ]
    + [(f"the address {word}", f"datagram 0 0 {word} 0 -") for word in ADDRESSES]
    + [(f"no address: {word}", f"datagram 0 0 {word} 0 -", "line 1: bad address") for word in NO_ADDRESSES],
)
