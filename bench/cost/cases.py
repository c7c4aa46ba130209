"""Cases: scripts whose cost may grow in a worse order than before.

A case makes, for each n, a `Script`: lines of a setup, the lines that are measured, and lines of the same length that are
refused at once. What is measured is what the measured lines cost after the setup, without what the refused ones cost.
"""

import collections

from lines import CLIENT, SHAPES, TYPES, UPSTREAM, as_question, as_reply, ask_lines, chain, datagram_lines, denial
from lines import denying_reply, flush, frame_lines, held, learn_lines, long, longest, pack, positive, question, refused_asks
from lines import refused_frames, refused_learns, reply, same_start, short, tick_lines, two, wire

Script = collections.namedtuple("Script", "setup measured refused")
# A case with all of its sizes, and those of the default set.
Case = collections.namedtuple("Case", "name sizes default make")

CASES = []
ONE_NAME = (8, 200, 2000)
SOME = (1000, 4000)
MANY = (500, 1000, 2000)
FEW = (1, 4, 8, 16, 32, 64, 128)
OPEN = (16, 64, 128, 256)
CALLS = (250, 500, 1000)


def add(name, sizes, default, make):
    """Notes a case with these sizes, and those of the default set."""
    CASES.append(Case(name, sorted({*sizes, *default}), default, make))


def case(name, sizes, default=()):
    """Notes the function below as a case."""
    return lambda make: add(name, sizes, default, make)


def each_shape(name, default, make, shapes=tuple(SHAPES)):
    """Notes a case for each shape of names; those that `default` names are in the default set."""
    for shape in shapes:
        chosen = SOME if shape in default else ()
        add(f"{name}, {shape} names", SOME, chosen, lambda n, of=SHAPES[shape]: make(n, of))


def named(n, name, **parts):
    """Observations of n names."""
    return [positive(name(it), **parts) for it in range(n)]


def of_types(chosen, name=short(1), **parts):
    """Observations of one name, of these types."""
    return [positive(name, it, **parts) for it in chosen]


def frames(setup, packed, now=1000):
    return Script(setup, frame_lines(packed, now), refused_frames(packed, now))


def takes(setup, entries, now=1000):
    """Frames that bring entries after a setup."""
    return frames(setup, pack(entries), now)


def learns(setup, messages, now=1000):
    messages = list(messages)
    return Script(setup, learn_lines(messages, now), refused_learns(messages, now))


def asks(setup, messages, now=1000):
    messages = list(messages)
    return Script(setup, ask_lines(messages, now), refused_asks(messages, now))


def asked(setup, messages, first=0, step=1):
    """Datagrams of a client."""
    lines = datagram_lines(messages, 1000, CLIENT, first, step)
    return Script(setup, lines, datagram_lines(map(as_reply, messages), 1000, CLIENT, first, step))


def answered(setup, messages):
    """Datagrams of an upstream, a second later."""
    refused = datagram_lines(map(as_question, messages), 1001, UPSTREAM)
    return Script(setup, datagram_lines(messages, 1001, UPSTREAM), refused)


# 1000 entries for one name. Its items are in the order of types, and those of one type begin with the preferred one.
def apart(things, count):
    """Things in two lists: `count` of them in even steps, and the others."""
    chosen = {at * len(things) // count for at in range(count)}
    return [it for at, it in enumerate(things) if at in chosen], [it for at, it in enumerate(things) if at not in chosen]


def held_types(n):
    """The setup that the cases of n types share: a purge after them sets the floor to 1001."""
    return held(of_types(TYPES[:n])) + ["tick 0 1001"]


def held_items(n):
    """The setup that the cases of n items share: a purge after them sets the floor to 9500, and all last longer."""
    return held(chain(n)) + ["tick 0 9500"]


def some_of(entries):
    """1000 of these entries, in no order."""
    return [entries[at * 7919 % len(entries)] for at in range(1000)]


def ended(name, rtype):
    """1000 entries that end at 160, or before."""
    return [positive(name, rtype, 100 + at % 50, 10) for at in range(1000)]


add("one name of n types: 1000 known", ONE_NAME, ONE_NAME,
    lambda n: takes(held_types(n), some_of(of_types(TYPES[:n])), 1001))


@case("one name of n types: 1000 new", ONE_NAME, ONE_NAME)
def types_new(n):
    new, old = apart(TYPES[: n + 1000], 1000)
    return takes(held(of_types(old)), of_types(new))


@case("one name of n types: 1000 ended", (*ONE_NAME, 8000), (*ONE_NAME, 8000))
def types_ended(n):
    """They had ended at the floor, and are of the last type."""
    return takes(held_types(n), ended(short(1), TYPES[n - 1]), 1001)


@case("one name of n types: 1000 withdrawn by a flush above", ONE_NAME, ONE_NAME)
def types_withdrawn(n):
    """They are of the last type, and end later than what is held of it, so that nothing else makes them needless."""
    entries = [positive(short(1), TYPES[n - 1], 900 - at % 50, 6000) for at in range(1000)]
    return takes(held(of_types(TYPES[:n]) + [flush((b"com",), 950)]), entries)


@case("one name of n types: 1000 dominated by the first item", ONE_NAME, ONE_NAME)
def types_first(n):
    return takes(held_types(n), [positive(short(1), TYPES[0], 900 - at % 50) for at in range(1000)], 1001)


@case("one name of n types: 1000 dominated by the last item", (*ONE_NAME, 8000), (*ONE_NAME, 8000))
def types_last(n):
    return takes(held_types(n), [positive(short(1), TYPES[n - 1], 900 - at % 50) for at in range(1000)], 1001)


for of in (long, longest):
    add(f"one {of.__name__} name of n types: 1000 dominated by the first item", ONE_NAME, (8, 2000),
        lambda n, of=of: takes(held(of_types(TYPES[:n], of(1))),
                               [positive(of(1), TYPES[0], 900 - at % 50) for at in range(1000)]))
add("one key of n items: 1000 known", ONE_NAME, ONE_NAME, lambda n: takes(held_items(n), some_of(chain(n)), 9500))


@case("one key of n items: 1000 new", ONE_NAME, ONE_NAME)
def items_new(n):
    """None of the new ones dominates another one or an item, and none is dominated."""
    new, old = apart(chain(n + 1000), 1000)
    return takes(held(old), new)


@case("one key of n items: 1000 ended", (*ONE_NAME, 8000), (*ONE_NAME, 8000))
def items_ended(n):
    """They had ended at the floor."""
    return takes(held_items(n), ended(short(1), 1), 9500)


@case("one key of n items: 1000 withdrawn by a flush above", ONE_NAME, ONE_NAME)
def items_withdrawn(n):
    """They end later than all items, so that nothing else makes them needless."""
    entries = [positive(short(1), 1, 900 - at % 50, 41000) for at in range(1000)]
    return takes(held(chain(n) + [flush((b"com",), 950)]), entries)


@case("one key of n items: 1000 dominated by the first item", ONE_NAME, ONE_NAME)
def items_first(n):
    stamp, end = 1000 + n - 1, 41000 - (n - 1)
    entries = [positive(short(1), 1, stamp - 1 - at % 50, end - at % 7 - (stamp - 1 - at % 50)) for at in range(1000)]
    return takes(held_items(n), entries, 9500)


@case("one key of n items: 1000 dominated by the last item", (*ONE_NAME, 8000), (*ONE_NAME, 8000))
def items_last(n):
    """They end when the last item does, and later than any other."""
    entries = [positive(short(1), 1, 990 - at % 50, 41000 - (990 - at % 50)) for at in range(1000)]
    return takes(held_items(n), entries, 9500)


add("one key of n items: all of them new", (500, 1000, 2000, 4000), (500, 2000), lambda n: takes([], chain(n)))
add("one name of n types: all of them new", (500, 1000, 2000, 4000), (500, 2000),
    lambda n: takes([], of_types(TYPES[:n])))


add("one long name of n types: 1000 ended, of a type that is not held", MANY, (),
    lambda n: takes(held(of_types(TYPES[:n], longest(1))) + ["tick 0 1001"], ended(longest(1), 65535), 1001))


def of_few(n, **parts):
    """Observations of the first n types, for 1000/n names."""
    return [positive(short(at), it, **parts) for at in range(1000 // n) for it in TYPES[:n]]


add("few types of a name: 1000 ended, of a type that is not held", FEW, (),
    lambda n: takes(held(of_types(TYPES[:n])) + ["tick 0 1001"], ended(short(1), 65535), 1001))
add("few types of a name: all new, for 1000/n names", FEW, (), lambda n: takes([], of_few(n)))
add("few types of a name: all known, for 1000/n names", FEW, (), lambda n: takes(held(of_few(n)), of_few(n)))
add("few types of a name: all refreshed by newer ones, for 1000/n names", FEW, (),
    lambda n: takes(held(of_few(n)), of_few(n, stamp=1100)))


# Frames over many names.
def renewed(**parts):
    """Frames over names that are held, stamped at 1000, with entries that differ from them in these parts."""
    return lambda n, name: takes(held(named(n, name)), named(n, name, **parts))


each_shape("frames, new", ("short", "longest"), lambda n, name: takes([], named(n, name)))
each_shape("frames, known", ("short", "mixed"), renewed())
each_shape("frames, dominated", ("short",), renewed(stamp=900))
each_shape("frames, dominating", ("short",), renewed(stamp=1100))
each_shape("frames, ended", (), lambda n, name: takes(["tick 0 1000"], named(n, name, stamp=100, life=10)))


def partly(places):
    """Frames of 50 entries, of which those at some places are new, and the others known."""
    return lambda n, name: frames(held([positive(name(it)) for it in range(n) if it % 50 not in places]),
                                  pack(named(n, name), each=50))


each_shape("frames, those that are looked at new", ("short",), partly((0, 1, 3, 7, 15, 31)))
each_shape("frames, new and known by turns", (), partly(range(0, 50, 2)))
each_shape("frames of one entry each, new", (), lambda n, name: frames([], pack(named(n, name), each=1)))
add("frames, denials new", SOME, (), lambda n: takes([], [denial(short(it)) for it in range(n)]))
add("frames, denials known", SOME, (),
    lambda n: takes(held([denial(short(it)) for it in range(n)]), [denial(short(it)) for it in range(n)]))
add("frames, n names that a flush above withdraws", SOME, SOME,
    lambda n: takes(held([flush((b"com",))]), named(n, short, stamp=900)))
add("frames, n names that are stamped after a flush above", SOME, (),
    lambda n: takes(held([flush((b"com",))]), named(n, short, stamp=1100)))
add("frames of one entry each, known", SOME, (),
    lambda n: frames(held(named(n, short)), pack(named(n, short), each=1)))
add("frames refused at the last of 400 entries, n frames", (4, 8, 16), (4, 16),
    lambda n: frames([], pack(named(400, short) + [b"\3\3" + (1 << 41).to_bytes(8, "big") + bytes(20)]) * n))
add("frames of flushes of the root, whose stamps fall, n frames", (1, 2, 4), (),
    lambda n: frames(held([flush((), 5000)]), pack([flush((), 1963 - it) for it in range(963)]) * n))


def below_flushes(n):
    """Flushes at n lengths of a name of 100 labels, and 300 entries below it that are stamped later."""
    flushes = [flush((b"a",) * it, 900) for it in range(1, n + 1)]
    return flushes, [positive((b"%03d" % it,) + (b"a",) * 100) for it in range(300)]


@case("frames, 300 names of 101 labels that are new, flushes at n lengths", (5, 25, 100), (5, 100))
def new_below_flushes(n):
    flushes, entries = below_flushes(n)
    return takes(held(flushes), entries)


@case("frames, 300 names of 101 labels that are known, flushes at n lengths", (5, 25, 100), (5, 100))
def known_below_flushes(n):
    flushes, entries = below_flushes(n)
    return takes(held(flushes + entries), entries)


def many_rdatas(stamp):
    """An entry with 1000 RDATAs."""
    whole = positive(short(1), 1, stamp, rdata=b"")
    return whole[:-4] + two(1000) + b"".join(b"\0\4" + it.to_bytes(4, "big") for it in range(1000))


def late_difference(last):
    """An entry of some 8000 octets that ends in this one."""
    return positive(short(1), 16, rdata=b"x" * 7990 + last)


for what, stamp in (("known", 1000), ("dominated", 900)):
    add(f"frames of 1000 RDATAs in an entry, {what}, n frames", (4, 8, 16), (),
        lambda n, stamp=stamp: frames(held([many_rdatas(1000)]), pack([many_rdatas(stamp)]) * n))
add("frames of equal stamps and lives that differ at the end, n frames", (4, 8, 16), (),
    lambda n: frames(held([late_difference(b"b")]), pack([late_difference(b"a")]) * n))


# Replies that are learnt.
def replies(n, name):
    return [reply(name(it)) for it in range(n)]


each_shape("learn, new", ("short",), lambda n, name: learns([], replies(n, name)))
each_shape("learn again", ("short",), lambda n, name: learns(learn_lines(replies(n, name)), replies(n, name)))
each_shape("learn again later", (), lambda n, name: learns(learn_lines(replies(n, name)), replies(n, name), 1010))


add("learn one name of n types", MANY, (250, 1000), lambda n: learns([], [reply(short(1), it) for it in TYPES[:n]]))


@case("learn one key, n times with falling TTLs", MANY)
def learn_chain(n):
    parts = [learns([], [reply(short(1), ttl=40000 - 2 * it)], 1000 + it) for it in range(n)]
    return Script([], [it.measured[0] for it in parts], [it.refused[0] for it in parts])


add("learn denials", SOME, (), lambda n: learns([], [denying_reply(short(it)) for it in range(n)]))


def with_owners(first, at):
    """A reply with a record of this RDATA, and records owned by the name at a place in it."""
    begin = b"\0\7\x85\x80\0\1\0\0\0\0\0\0\1q\0\0\x10\0\1\0" + two(999) + b"\0\1\0\0\1\0" + two(len(first))
    owned = two(0xC000 | len(begin) + at) + two(999) + b"\0\1\0\0\1\0\0\0"
    others = min(19, (512 - len(begin + first)) // len(owned))
    return begin[:6] + two(1 + others) + begin[8:] + first + owned * others


add("learn 200 replies, 20 owners that point to a run of n labels", (8, 15, 30, 60, 110), (8, 110),
    lambda n: learns([], [with_owners(b"\1a" * n + b"\xc0\x0c", 0)] * 200))


@case("learn 200 replies, 20 owners that begin a chain of n pointers", (2, 8, 30, 110), (2, 110))
def learn_pointers(n):
    places = [12] + [30 + 2 * it for it in range(n - 1)]
    return learns([], [with_owners(b"".join(two(0xC000 | it) for it in places), 2 * (n - 1))] * 200)


@case("learn 200 replies of n records of the smallest size", (1, 10, 30, 44))
def learn_small(n):
    records = b"".join(b"\0" + two(999 + it) + b"\0\1\0\0\1\0\0\0" for it in range(n))
    return learns([], [b"\0\7\x85\x80\0\1" + two(n) + bytes(4) + b"\0\0\x10\0\1" + records] * 200)


@case("learn 200 replies that are refused at the last of n records", (10, 40))
def learn_refused(n):
    records = b"".join(b"\0" + two(999 + it) + b"\0\1\0\0\1\0\0\0" for it in range(n - 1))
    return learns([], [b"\0\7\x85\x80\0\1" + two(n) + bytes(4) + b"\0\0\x10\0\1" + records + b"\x80"] * 200)


# Questions.
def hits(n, name):
    return asks(held(named(n, name)), [question(name(it * 7919 % n)) for it in range(1000)])


def misses(n, name):
    return asks(held(named(n, lambda it: name(2 * it))), [question(name(2 * (it * 7919 % n) + 1)) for it in range(1000)])


each_shape("1000 hits, n held", ("short", "longest"), hits)
each_shape("1000 misses, n held", ("short",), misses)
add("one name of n types, 500 hits of the last type", MANY, (500, 2000),
    lambda n: asks(held(of_types(TYPES[:n])), [question(short(1), TYPES[n - 1])] * 500))
add("one key of n items, 500 hits, all but the last item ended", MANY, (),
    lambda n: asks(held(chain(n)), [question(short(1))] * 500, 40999))


@case("300 hits of names of 101 labels, flushes at n lengths", (5, 25, 100))
def hits_deep(n):
    deep = [(b"%02d" % it,) + (b"a",) * 100 for it in range(50)]
    flushes = [flush((b"a",) * it, 900) for it in range(1, n + 1)]
    return asks(held(flushes + [positive(it) for it in deep]), [question(deep[it % 50]) for it in range(300)])


@case("500 hits, n flushes of other names held", CALLS, (250, 1000))
def hits_beside_flushes(n):
    entries = [flush(short(it + 5000), 900) for it in range(n)] + named(500, short)
    return asks(held(entries), [question(short(it)) for it in range(500)])


def opened(count):
    """The lines by which questions are open."""
    return datagram_lines([question(short(it)) for it in range(count)])


add("n questions that open", OPEN, (16, 256), lambda n: asked([], [question(short(it)) for it in range(n)]))
add("n questions that open, whose random words are 0", OPEN, (),
    lambda n: asked([], [question(short(it)) for it in range(n)], step=0))
add("256 open, n questions turned away", (100, 200, 400), (100, 400),
    lambda n: asked(opened(256), [question(short(it + 1000)) for it in range(n)]))


@case("1000 hits by datagram, n held", SOME)
def hits_by_datagram(n):
    entries = named(n, short)
    return asked(held(entries), [question(short(it * 7919 % n)) for it in range(1000)], 1, 0)


add("n open, all answered in order", OPEN, (16, 256),
    lambda n: answered(opened(n), [reply(short(it), number=it) for it in range(n)]))
add("n open, all answered, the last one first", OPEN, (),
    lambda n: answered(opened(n), [reply(short(it), number=it) for it in reversed(range(n))]))
add("n open, 500 replies that match none", OPEN, (16, 256),
    lambda n: answered(opened(n), [reply(short(it + 5000), number=it) for it in range(500)]))
add("n open, 500 ticks before the first deadline", OPEN, (16, 256),
    lambda n: Script(opened(n), ["tick 0 1001"] * 500, []))


@case("n open, ticks until each has failed", OPEN, (16, 256))
def ticks_until_idle(n):
    lines = [f"tick 0 {at}" for at in range(1001, 1021) for _ in range(n + 1 if at in (1002, 1004) else 1)]
    return Script(opened(n), lines, [])


@case("n open, each second one settled, one asked and two ticks, 120 s", (16, 64, 128, 250))
def turns(n):
    lines = []
    for second in range(120):
        now = 1001 + second
        lines += datagram_lines([reply(short(second), number=second)], now, UPSTREAM)
        lines += datagram_lines([question(short(n + second))], now, CLIENT, n + second) + [f"tick 0 {now}"] * 2
    return Script(opened(n), lines, [])


def first_settled(count):
    """All are open but the first one, whose deadline was the first."""
    first = datagram_lines([question(short(0))])
    others = datagram_lines([question(short(it)) for it in range(1, count)], 1001, CLIENT, 1)
    return first + others + datagram_lines([reply(short(0), number=0, ttl=0)], 1001, UPSTREAM)


add("a tick after the first deadline, whose question was settled, n - 1 open", OPEN, (16, 256),
    lambda n: Script(first_settled(n), ["tick 0 1002"], []))


# Purges.
def purges(beside=(), **parts):
    """Twenty purges of names, some time after they came, beside other observations that came last."""
    first = 1001 + parts.get("life", 0)
    return lambda n, name: Script(held(named(n, name, **parts) + [*beside]), tick_lines(first, first + 20), [])


def purges_of_two(life):
    """Twenty purges of names with two items, of which the second one lasts so long."""

    def make(n, name):
        entries = [it for at in range(n) for it in (positive(name(at)), positive(name(at), 16, life=life(at)))]
        return Script(held(entries), tick_lines(1011, 1031), [])

    return make


def purges_of_half(short_life, long_life):
    """Twenty purges of mixed names, of which the short ones last so long, and the long ones so long."""

    def make(n, name):
        entries = [positive(name(it), life=long_life if it % 2 else short_life) for it in range(n)]
        return Script(held(entries), tick_lines(1011, 1031), [])

    return make


each_shape("20 purges, all live", ("short", "mixed"), purges())
each_shape("20 purges, all live, a flush noted", (), purges([flush((b"org",), 900)]))
each_shape("20 purges, all ended", ("short", "longest"), purges(life=10))
each_shape("20 purges, a flush withdraws all", ("short",), purges([flush((b"com",))]), ("short", "long"))
each_shape("20 purges, one of two items ended", ("short",), purges_of_two(lambda at: 10))
each_shape("20 purges, one of two items ends each second", (), purges_of_two(lambda at: 10 + at % 20))
each_shape("20 purges, the short ones ended", (), purges_of_half(10, 5000), ("mixed",))
each_shape("20 purges, the long ones ended", (), purges_of_half(5000, 10), ("mixed",))


@case("20 purges, all live, names of 101 labels, flushes at 100 lengths", (250, 500, 1000, 2000))
def purge_deep(n):
    flushes = [flush((b"b",) * it, 900) for it in range(2, 101)]
    deep = [positive((b"%04d" % it,) + (b"a",) * 100) for it in range(n)]
    return Script(held(flushes + deep), tick_lines(1001, 1021), [])


add("20 purges, one key of n items, one ends each second", MANY, (),
    lambda n: Script(held(chain(n)), tick_lines(41000 - n + 1, 41000 - n + 21), []))


@case("500 purges of a cache that held n names and is empty", SOME)
def purge_emptied(n):
    setup = held([positive(SHAPES["mixed"](it), life=10) for it in range(n)]) + tick_lines(1011, 1031)
    return Script(setup, tick_lines(1031, 1531), [])


@case("20 purges, one name of n types, one ends each second", MANY, (500, 2000))
def purge_types(n):
    entries = [positive(short(1), it, life=10 + at) for at, it in enumerate(TYPES[:n])]
    return Script(held(entries), tick_lines(1010, 1030), [])


# Lists of all that is held.
def listed(*lines):
    return lambda n, name: Script(held(named(n, name)), list(lines), [])


def two_sites(entries):
    return ["sites 2"] + held(entries) + held(entries, 1)


def of_two_sites(*lines):
    return lambda n, name: Script(two_sites(named(n, name)), list(lines), [])


each_shape("2 sweeps", ("short", "mixed"), listed(*["sweep 0"] * 2))
each_shape("show", ("mixed",), listed("show 0"))
each_shape("restart", (), listed("restart 0"))
each_shape("10 comparisons of two equal sites", ("mixed",), of_two_sites(*["same 0 1"] * 10))
each_shape("5 merges of two equal sites", ("short",), of_two_sites(*["merge 0 1"] * 5))
each_shape("a merge into an empty site", (), lambda n, of: Script(["sites 2"] + held(named(n, of), 1), ["merge 0 1"], []))
add("10 comparisons, one name of n types beside a long one", SOME, (),
    lambda n: Script(two_sites(of_types(TYPES[:n]) + [positive(same_start(1))]), ["same 0 1"] * 10, []))


@case("10 comparisons, a short and a long name that share 31 octets, n types each", SOME)
def compares_shared(n):
    names = ((b"x" * 30,), (b"x" * 30, b"y" * 5))
    return Script(two_sites([positive(name, it) for it in TYPES[:n] for name in names]), ["same 0 1"] * 10, [])


# Flushes.
def flush_lines(names):
    return [f"flush 0 {1000 + at} {wire(it).hex()}" for at, it in enumerate(names)]


add("n flushes, nothing below", CALLS, (250, 1000),
    lambda n: Script([], flush_lines([short(it) for it in range(n)]), []))
add("n flushes of one name", CALLS, (), lambda n: Script([], flush_lines([(b"com",)] * n), []))
add("n flushes of one name, 4000 names below", CALLS, (),
    lambda n: Script(held(named(4000, short)), flush_lines([(b"com",)] * n), []))
