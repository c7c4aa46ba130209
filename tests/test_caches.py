"""What sites hold and answer, beside a flush too, and behind frames, merges and restarts.

A list in `cases/caches.txt` begins with `= ` and what it shows. Each row is a call at one of three
sites, the one at hand first, and behind `=>` what comes of it:

- `take NAME TYPE RANK STAMP LIFE RDATA`, `deny NAME TYPE RANK STAMP LIFE OWNER` (of the SOA; type
  0 for the name) and `flush NAME STAMP` come in as a frame: whether what is held then is another
- `list` has several of the first kind, `frame` the octets of one: how many are taken
- `answer NAME TYPE NOW`: how many links lead to the end, the end's TTL, and of records the last
  octet of the first; `links NAME TYPE NOW`: the name, the type and the TTL of each link and record
- `items`: how many items there are, and the rank and the life of each; `purge NOW` is a tick, and
  gives these; `clear` is a restart; `merge` takes in the next site; `other` goes to the next site
  and back, `turn` round all three
- `floor`; `same`: whether the next site holds the same; `sweep`: its frames; `observations`
"""

from support.checks import Case, add_cases, parts_of
from support.messages import CNAME, NAME_ERROR, any_entry, body_of, code_of, denial_body, frame, name_of
from support.messages import question, soa
from support.reading import sections_of
from support.rows import name_in, observation_of, octets_in, row_of, rows_in
from support.scripts import script_of

FLUSH_RANK, FLUSH_LIFE = 3, 86400

# The words of a record in a row.
RECORD_WORDS = 6


def record_of(name, rtype, rank, stamp, life, rdata):
    """The entry of a record."""
    body = body_of(octets_in(rdata))
    return any_entry(3, int(rank), int(stamp), int(life), name_in(name), int(rtype), body)


def denial_of(name, rtype, rank, stamp, life, owner):
    """The entry of a denial."""
    kind, body = 1 if rtype == "0" else 2, denial_body(owner, soa())
    return any_entry(kind, int(rank), int(stamp), int(life), name_in(name), int(rtype), body)


def flush_of(name, stamp):
    """The entry of a flush."""
    return any_entry(4, FLUSH_RANK, int(stamp), FLUSH_LIFE, name, 0)


ENTRIES = {"take": record_of, "deny": denial_of, "flush": flush_of}


def answer_of(reply, rtype):
    """What a row says of a reply to a question for a type."""
    answer, authority = sections_of(reply)
    if code_of(reply) == NAME_ERROR:
        return f"NxDomain {len(answer)} {authority[0].ttl}"
    if authority:
        return f"NoData {len(answer)} {authority[0].ttl}"
    links = [made for made in answer if made.rtype == CNAME != rtype]
    first = answer[len(links)]
    return f"Found {len(links)} {first.ttl} {first.rdata[-1]}"


class Sites:
    """Three sites of a script, the one at hand first."""

    def __init__(self, script):
        self.script, self.sites = script, [0, 1, 2]

    def do(self, words):
        """Does a line at the site at hand, and gives what it prints."""
        event, *others = words.split(" ")
        return self.script.do(" ".join([event, str(self.sites[0]), *others]))

    def call(self, call, words):
        """Makes a call, and gives what comes of it."""
        if call in ENTRIES:
            before = self.do("show")
            self.hand_in(ENTRIES[call](*words))
            return "true" if self.do("show") != before else "false"
        return getattr(self, call)(*words)

    def hand_in(self, *entries):
        """Entries come in as a frame, before any moment: how many are taken."""
        return self.do(f"frame 0 {frame(entries).hex()}")[-1].removeprefix("taken ")

    def list(self, *words):
        records = [words[at : at + RECORD_WORDS] for at in range(0, len(words), RECORD_WORDS)]
        return self.hand_in(*(record_of(*record) for record in records))

    def frame(self, octets):
        return self.do(f"frame 0 {octets_in(octets).hex()}")[-1].removeprefix("taken ")

    def ask(self, name, rtype, now):
        """The reply to a question, if there is one."""
        asked = question(7, name_of(name_in(name)), int(rtype))
        event, *digits = self.do(f"ask {now} {asked.hex()}")[0].split(" ")
        return bytes.fromhex(digits[0]) if event == "reply" else None

    def answer(self, name, rtype, now):
        reply = self.ask(name, rtype, now)
        return answer_of(reply, int(rtype)) if reply else "Miss"

    def links(self, name, rtype, now):
        answer, _ = sections_of(self.ask(name, rtype, now))
        return "".join(f"{made.name} {made.rtype} {made.ttl};" for made in answer)

    def items(self):
        shown = [item.split(" ") for item in self.do("show")[1:-1]]
        lives = [f"{rank}/{life}" for _, rank, _, life, *_ in shown]
        return " ".join([str(len(shown)), *(lives or ["empty"])])

    def purge(self, now):
        self.do(f"tick {now}")
        return self.items()

    def clear(self):
        self.do("restart")
        return self.items()

    def merge(self):
        self.do(f"merge {self.sites[1]}")
        return self.items()

    def other(self):
        self.sites[:2] = self.sites[1::-1]
        return self.items()

    def turn(self):
        self.sites = self.sites[1:] + self.sites[:1]
        return self.items()

    def same(self):
        return "true" if self.do(f"same {self.sites[1]}") == ["same"] else "false"

    def floor(self):
        return self.do("show")[0].removeprefix("floor ")

    def observations(self):
        return "".join(f"{observation_of(item)};" for item in self.do("show")[1:-1])

    def sweep(self):
        frames = [line.split(" ")[2] for line in self.do("sweep") if line.startswith("frame ")]
        return "".join(f"{octets};" for octets in frames)


def wanted_of(call, wanted):
    """What a row wants, with digits in place of what frames are spelled with."""
    if call == "sweep":
        return "".join(f"{octets_in(word).hex()};" for word in wanted.split(";")[:-1])
    return wanted


class Caches(Case):
    """Each list of calls."""

    def check(self, rows):
        with script_of(3) as script:
            sites = Sites(script)
            for row in rows:
                call, words, wanted = row_of(row)
                self.check_equal(sites.call(call, words), wanted_of(call, wanted), row)


add_cases(Caches, [(shows, rows_in(text)) for shows, text in parts_of("caches.txt")])
