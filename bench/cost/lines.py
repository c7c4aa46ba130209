"""Lines of scripts: names, entries of frames, messages, and the lines of `dnsfleet script` that bring them.

What brings octets has a twin with `refused` in its name: lines of the same length that are refused or dropped at once. So
the cost of reading them can be taken off.
"""

CLIENT = "127.0.0.1:6001"
UPSTREAM = "127.0.0.1:5301"
# Types whose RDATA has a form, and types of questions alone; of the others any RDATA is lawful.
SPECIAL_TYPES = {2, 3, 4, 5, 6, 7, 8, 9, 12, 14, 15, 33, 41, *range(128, 256)}
TYPES = [it for it in range(1, 65536) if it not in SPECIAL_TYPES]


def wire(labels):
    return b"".join(bytes([len(label)]) + label for label in labels) + b"\0"


# The shapes of names: each gives the name with a number.
def short(number):
    return (b"n%06d" % number, b"com")


def longest_short(number):
    """32 octets."""
    return (b"x" * 24 + b"%06d" % number,)


def long(number):
    return (b"n%06d" % number + b"x" * 40, b"com")


def same_start(number):
    """Names that share their first 48 octets."""
    return (b"x" * 48 + b"%06d" % number, b"com")


def longest(number):
    """255 octets, of which names share the first 240."""
    return (b"x" * 63, b"x" * 63, b"x" * 63, b"x" * 54 + b"%06d" % number)


def mixed(number):
    """Short and long names by turns, in their order."""
    return (b"%06d" % number, b"com" if number % 2 == 0 else b"c" * 30)


SHAPES = {
    it.__name__.replace("_", " "): it for it in (short, longest_short, long, same_start, longest, mixed)
}


# Entries of frames.
def two(number):
    return number.to_bytes(2, "big")


def entry(kind, rank, stamp, life, name):
    return bytes([kind, rank]) + stamp.to_bytes(8, "big") + life.to_bytes(4, "big") + wire(name)


def positive(name, rtype=1, stamp=1000, life=5000, rdata=b"\xc0\0\2\1"):
    return entry(3, 3, stamp, life, name) + two(rtype) + b"\0\1" + two(len(rdata)) + rdata


SOA = wire((b"ns",)) + wire(()) + bytes(16) + (300).to_bytes(4, "big")


def denial(name, rtype=1):
    return entry(2, 3, 1000, 5000, name) + two(rtype) + wire((b"com",)) + two(len(SOA)) + SOA


def flush(name, stamp=1000):
    return entry(4, 3, stamp, 86400, name) + b"\0\0"


def chain(count):
    """Observations of one key of which none dominates another: stamps rise by a second, and ends fall by one. The last of
    them is the preferred one, so it is the first of its front."""
    return [positive(short(1), 1, 1000 + it, 40000 - 2 * it) for it in range(count)]


def pack(entries, most=16384, each=None):
    """The frames that bring entries: as many in each as it may have octets, or `each`."""
    packed, size = [[]], 5
    for it in entries:
        if size + len(it) > most or len(packed[-1]) == each:
            packed.append([])
            size = 5
        packed[-1].append(it)
        size += len(it)
    return [b"DG\2" + two(len(it)) + b"".join(it) for it in packed if it]


def frame_lines(packed, now=1000, site=0):
    return [f"frame {site} {now} {it.hex()}" for it in packed]


def refused_frames(packed, now=1000):
    """They begin with other octets than a frame does."""
    return frame_lines([b"DX" + it[2:] for it in packed], now)


def held(entries, site=0):
    """The lines that bring entries to a site, for a setup."""
    return frame_lines(pack(entries), 1000, site)


# Messages.
def question(name, rtype=1, number=7):
    return two(number) + b"\1\0\0\1" + bytes(6) + wire(name) + two(rtype) + b"\0\1"


def reply(name, rtype=1, number=7, ttl=5000):
    begin = two(number) + b"\x85\x80\0\1\0\1" + bytes(4) + wire(name) + two(rtype) + b"\0\1"
    return begin + b"\xc0\x0c" + two(rtype) + b"\0\1" + ttl.to_bytes(4, "big") + b"\0\4\xc0\0\2\1"


def denying_reply(name):
    """A name error, whose SOA belongs to `com`."""
    begin = b"\0\7\x85\x83\0\1\0\0\0\1\0\0" + wire(name) + b"\0\1\0\1"
    owner = two(0xC000 | 12 + len(wire(name)) - 5)
    return begin + owner + b"\0\6\0\1" + (300).to_bytes(4, "big") + two(len(SOA)) + SOA


def learn_lines(messages, now=1000):
    return [f"learn 0 {now} {it.hex()}" for it in messages]


def refused_learns(messages, now=1000):
    """They have two questions."""
    return learn_lines([it[:4] + b"\0\2" + it[6:] for it in messages], now)


def as_reply(message):
    return message[:2] + bytes([message[2] | 0x80]) + message[3:]


def as_question(message):
    return message[:2] + b"\5" + message[3:]


def ask_lines(messages, now=1000):
    return [f"ask 0 {now} {it.hex()}" for it in messages]


def refused_asks(messages, now=1000):
    """Replies, which are no questions."""
    return ask_lines(map(as_reply, messages), now)


def datagram_lines(messages, now=1000, source=CLIENT, first=0, step=1):
    """Datagrams with their random words, which begin with `first`."""
    return [f"datagram 0 {now} {source} {first + step * at} {it.hex()}" for at, it in enumerate(messages)]


def tick_lines(first, end):
    return [f"tick 0 {it}" for it in range(first, end)]
