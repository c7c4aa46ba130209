"""Frames that are taken, or refused by their first fault, in their first entry and in the second.

A list in `cases/frames.txt` begins with `= ` and what it shows. Each row is one of `FRAMES` with
changes, `-` for none: a place, `=` and the octet there in hexadecimal digits; or it is `frame` with
octets, or `data` with a type and the RDATA of a record. Behind `=>` is the fault, or how many
observations are taken, and whether a frame of one is swept `again` as it was, or as `another`, in
the version that is written. Lines that begin with `#` say what is in the row below them.
"""

from support.checks import Case, add_cases, parts_of
from support.messages import OTHERS, denial_body, entry, flush, frame, name_of, no_name, soa
from support.rows import octets_in, row_of, rows_in
from support.scripts import script_of

NAME = "example.com"
ADDRESSES = [entry(NAME, 100), entry(NAME, 100, rdata=bytes([192, 0, 2, 2]))]
DENIAL = no_name("b.example", 100, rank=3, body=denial_body("example", soa()))

FRAMES = {
    "one": frame(ADDRESSES[:1]),
    "denial": frame([DENIAL]),
    "two": frame(ADDRESSES),
    "denied": frame([ADDRESSES[0], DENIAL]),
}

# Where the version of a frame stands, and the one that is written.
VERSION_PLACE, VERSION = 2, 2


def changed(octets, changes):
    """Octets with changes."""
    others = bytearray(octets)
    for change in changes.split(",") if changes != "-" else ():
        place, _, digits = change.partition("=")
        others[int(place)] = int(digits, 16)
    return bytes(others)


def made_of(kind, word, rdata=None):
    """The frame of a row."""
    if kind == "data":
        return frame([entry(NAME, 100, rtype=int(word), rdata=octets_in(rdata))])
    return octets_in(word) if kind == "frame" else changed(FRAMES[kind], word)


def written(octets):
    """A frame in the version that is written."""
    return octets[:VERSION_PLACE] + bytes([VERSION]) + octets[VERSION_PLACE + 1 :]


class Frames(Case):
    """Each list of frames, each of which comes to a site that is new."""

    def taken(self, script, octets):
        """What a new site prints where a frame comes in."""
        script.do("restart 0")
        return script.do(f"frame 0 0 {octets.hex() or '-'}")[-1]

    def swept(self, script):
        """The frames of a sweep."""
        return [line.split(" ")[2] for line in script.do("sweep 0") if line.startswith("frame ")]

    def check_row(self, script, row):
        """A frame is taken as a row says."""
        kind, words, wanted = row_of(row)
        octets = made_of(kind, *words)
        count, _, how = wanted.partition(" ")
        came = self.taken(script, octets)
        self.check_equal(came, f"taken {count}" if how else f"refused frame {wanted}", row)
        if not how:
            self.check_equal(script.do("show 0"), ["floor 0", "items 0"], row)
        if how:
            self.check_equal("again" if octets == written(octets) else "another", how, row)
        if how and count != "2":
            self.check_equal(self.swept(script), [written(octets).hex()] * int(count), row)

    def check(self, rows):
        with script_of(1) as script:
            for row in rows:
                self.check_row(script, row)

    def test_early_ends(self):
        """a frame that ends early is truncated, wherever it ends"""
        with script_of(1) as script:
            for kind, length in (("one", 42), ("two", 79), ("denied", 102)):
                octets = FRAMES[kind]
                self.check_equal(len(octets), length, kind)
                for end in range(length):
                    self.check_equal(self.taken(script, octets[:end]), "refused frame Truncated", f"{kind} {end}")

    def test_each_octet(self):
        """a frame with another octet is refused, or taken and swept as it is"""
        with script_of(1) as script:
            for place in range(len(FRAMES["one"])):
                for octet in OTHERS:
                    octets = changed(FRAMES["one"], f"{place}={octet:02x}")
                    came = self.taken(script, octets)
                    if came == "taken 1":
                        self.check_equal(self.swept(script), [octets.hex()], f"{place} {octet}")
                    else:
                        self.check_true(came.startswith("refused frame "), "a refusal", came)


add_cases(Frames, [(shows, rows_in(text)) for shows, text in parts_of("frames.txt")])


# As many frames are made before the first is delivered.
MANY = 1100


class KeptFrames(Case):
    """Frames that a fleet keeps, so that each can be delivered."""

    def test_many(self):
        """each of 1100 frames is kept, and comes to another site"""
        with script_of(2) as script:
            for number in range(MANY):
                name = f"{number}.com"
                made = frame([flush(name, 120)])
                printed = script.do(f"flush 0 120 {name_of(name).hex()}")
                self.check_equal(printed, [f"frame {number} {made.hex()}", "taken 1"])
            for number in range(MANY):
                self.check_equal(script.do(f"deliver 1 120 {number}"), ["taken 1"])
            self.check_equal(script.do("same 0 1"), ["same"])
