"""Rows of a file of cases: a call with its words, and behind ` => ` what comes of it."""

# The magic of a frame, and the version that is written.
OPENING = "444702"


# The kind of an observation, as a script shows it and as a row has it.
_KINDS = {"positive": "Positive", "nodata": "NoData", "nxdomain": "NameError", "flush": "Flush"}


def _repeated(text):
    """A text with each `{61*460}` in it, 460 times `61`, written out."""
    first, *others = text.split("{")
    pieces = [first]
    for piece in others:
        repeated, _, rest = piece.partition("}")
        part, _, count = repeated.partition("*")
        pieces.append(part * int(count) + rest)
    return "".join(pieces)


def name_in(word):
    """The text of a name as a row has it."""
    return _repeated(word)


def octets_in(word):
    """The octets of a word: hexadecimal digits, or letters between two `'`; `@` is what a frame
    begins with, `{61*460}` is 460 times `61`, and `-` is for none."""
    if word == "-":
        return b""
    pieces = word.split("'")
    digits = [_repeated(piece.replace("@", OPENING)) for piece in pieces[::2]]
    letters = [piece.encode().hex() for piece in pieces[1::2]] + [""]
    return bytes.fromhex("".join(part for pair in zip(digits, letters) for part in pair))


def rows_in(text):
    """The rows of a text: its lines, but for those that begin with `#`."""
    return [line for line in text.splitlines() if not line.startswith("#")]


def observation_of(item):
    """What a row says of an item that a script shows."""
    kind, rank, stamp, life, name, rtype, body = item.split(" ")
    return " ".join([_KINDS[kind], name, rtype, rank, stamp, life, body])


def row_of(line):
    """The call of a row, its words, and what is wanted."""
    made, _, wanted = line.partition(" => ")
    call, *words = made.split(" ")
    return call, words, wanted
