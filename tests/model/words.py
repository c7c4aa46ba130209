"""The words of a script's line, each read with its fault."""

from .frames import FrameFault, FrameReader
from .limits import LAST_MOMENT
from .names import lower_name

DIGITS = frozenset("0123456789")
HEXADECIMAL = frozenset("0123456789abcdefABCDEF")


class LineFault(Exception):
    """Why a line ends the script."""


def read_number(word, least=0, most=10 ** 13):
    """A number of 1 to 13 decimal digits, within bounds."""
    if not 1 <= len(word) <= 13 or not DIGITS.issuperset(word) or not least <= int(word) <= most:
        raise LineFault("bad number")
    return int(word)


def read_address(word):
    """An address, as its text: each has just one spelling."""
    host, colon, port = word.partition(":")
    parts = host.split(".")
    bounds = [(0, 255)] * 4 + [(1, 65535)]
    if not colon or len(parts) != 4:
        raise LineFault("bad address")
    for part, (least, most) in zip(parts + [port], bounds):
        if not 1 <= len(part) <= 5 or not DIGITS.issuperset(part) or str(int(part)) != part:
            raise LineFault("bad address")
        if not least <= int(part) <= most:
            raise LineFault("bad address")
    return word


def read_octets(word):
    """Octets: two hexadecimal digits each, or a hyphen for none."""
    if word == "-":
        return b""
    if not word or len(word) % 2 or not HEXADECIMAL.issuperset(word):
        raise LineFault("bad hex")
    return bytes.fromhex(word)


def read_name_word(word):
    """One whole name in full. Capital letters are put in lower case."""
    reader = FrameReader(read_octets(word))
    try:
        name = reader.name(capitals=True)
    except FrameFault:
        raise LineFault("bad name") from None
    if reader.place != len(reader.octets):
        raise LineFault("bad name")
    return lower_name(name)


READERS = {
    "count": lambda word: read_number(word, 1, 9),
    "site": read_number,
    "frame": read_number,
    "moment": lambda word: read_number(word, 0, LAST_MOMENT),
    "word": lambda word: read_number(word, 0, 65535),
    "address": read_address,
    "octets": read_octets,
    "name": read_name_word,
}


def octets_text(octets):
    """Octets as they are printed."""
    return octets.hex() or "-"
