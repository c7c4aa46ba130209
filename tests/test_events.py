"""Lists of events with what they do.

A list in `cases/events_*.txt` begins with `= ` and what it shows. The line below it says how
many sites there are. Each other line is a row: an event with its site and its moment, and behind
`=>` what it does: packets, frames, how many observations were taken if any were, a refusal, and
whether there is more. A line that begins with `#` says what octets below it are. A datagram comes
from a port of this machine. These rows look at something: `ask` at the answer to a question, `kept`
at the frame with a number, `site` at the clock of a site, its floor and how many items it has,
`same` at whether two sites hold the same. Messages and frames are those of
`cases/event_messages.txt`.
"""

from support.checks import Case, add_cases, parts_of
from support.messages import event_octets, name_of
from support.rows import rows_in
from support.scripts import script_of
from support.sessions import HOST

FILES = ("events_fleets.txt", "events_sites.txt", "events_hits.txt")


def digits_of(words):
    """The digits of a message or a frame, as a script has them."""
    return event_octets(words).hex() or "-"


def line_of(kind, words):
    """The line of a script for the event of a row."""
    if kind == "datagram":
        site, now, port, word, *message = words
        return f"datagram {site} {now} {HOST}:{port} {word} {digits_of(' '.join(message))}"
    if kind in ("frame", "learn", "ask"):
        site, now, *message = words
        return f"{kind} {site} {now} {digits_of(' '.join(message))}"
    if kind == "flush":
        site, now, name = words
        return f"flush {site} {now} {name_of(name).hex()}"
    return " ".join([kind, *words])


def row_of(printed):
    """What a row says of a line that is printed."""
    match printed.split(" "):
        case ["send", address, digits]:
            host, _, port = address.partition(":")
            return f"{'send' if host == HOST else 'elsewhere'} {port} {digits}"
        case ["frame", number, _]:
            return f"frame {number}"
        case ["taken" | "merged", count]:
            return printed if count != "0" else ""
        case ["refused", word]:
            return f"refused {word.capitalize()}"
        case ["refused", word, fault]:
            return f"refused {word.capitalize()}({fault})"
        case ["reply", digits]:
            return f"answer {digits}"
        case ["idle"] | ["swept", _] | ["restarted"]:
            return ""
        case _:
            return printed


# Where the stamp of its first entry is in the digits of a frame.
STAMP = slice(14, 30)


class Fleet:
    """A script whose lines are the events of rows."""

    def __init__(self, script, sites):
        self.script, self.sites, self.done, self.frames = script, sites, [], {}

    def do(self, kind, words):
        """Does what a row says, and gives what a row says of it."""
        if kind == "kept":
            return self.frames.get(words[0], "none")
        if kind == "site":
            return self.look_at(words[0])
        line = line_of(kind, words)
        printed = self.script.do(line)
        self.done.append(line)
        for line in printed:
            if line.startswith("frame "):
                _, number, digits = line.split(" ")
                self.frames[number] = digits
        return " ".join(filter(None, map(row_of, printed)))

    def look_at(self, site):
        """The clock of a site, its floor and how many items it has."""
        shown = self.script.do(f"show {site}")
        return f"clock {self.clock_of(site)} {shown[0]} {shown[-1]}"

    def clock_of(self, site):
        """The clock of a site: the stamp of a flush, in another script in which all was done
        that was done here."""
        with script_of(self.sites) as other:
            for line in self.done:
                other.do(line)
            flushed = other.do(f"flush {site} 0 00")[0]
        return int(flushed.split(" ")[2][STAMP], 16)


def wanted_of(kind, words):
    """What a row wants, with digits in place of the names of messages and frames."""
    spelled = []
    for place, word in enumerate(words):
        is_frame = kind == "kept" and word != "none"
        is_answer = place > 0 and words[place - 1] == "answer"
        is_packet = place > 1 and words[place - 2] == "send"
        spelled.append(digits_of(word) if is_frame or is_answer or is_packet else word)
    return " ".join(spelled)


def read_lists():
    """What each list shows, how many sites there are, and its rows."""
    lists = []
    for name in FILES:
        for shows, text in parts_of(name):
            sites, *rows = rows_in(text)
            lists.append((shows, int(sites.removeprefix("sites ")), rows))
    return lists


class Events(Case):
    """Each list of events."""

    def check(self, sites, rows):
        with script_of(sites) as script:
            fleet = Fleet(script, sites)
            for row in rows:
                event, _, output = row.partition(" =>")
                kind, *words = event.split(" ")
                self.check_equal(fleet.do(kind, words), wanted_of(kind, output.split()), row)

    def test_longest_query(self):
        """the query for a name of 255 octets has 271"""
        self.check_equal(len(event_octets("longest-query")), 271)


add_cases(Events, read_lists())
