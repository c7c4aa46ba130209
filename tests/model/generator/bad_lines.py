"""Lines at fault, and unusual spellings of others."""

# By the fault that each line has, where its sites and frames are there.
BAD_LINES = {
    "line too long": [b"#" * 65537, b"show 0" + b" " * 65531, b"show 0" + b"\xff" * 65531],
    "not ASCII": [b"tick \xff 1", b"#\x80", b"\x80", b"unknown \x80"],
    "unknown event": [b" learn 0 1 -", b"LEARN 0 1 -", b"learned 0 1 -", b"unknown", b"show\t0", b"sweep\r", b" "],
    "wrong number of words": [
        b"learn", b"learn 0", b"learn 0 1", b"learn 0 1 - -", b"learn  0 1 -", b"learn 0 1 - ", b"tick 0",
        b"tick 0 1 2",
        b"sites", b"deliver 0 1", b"merge 0", b"same 0", b"show", b"show 0 ", b"sweep", b"restart", b"flush 0 1",
        b"datagram 0 1 127.0.0.1:53 -", b"ask x y"],
    "bad number": [
        b"learn x 1 -", b"learn -1 1 -", b"learn 0 +1 -", b"learn 0 1099511627777 -", b"learn 0 00001099511627776 -",
        b"learn 0 99999999999999 -", b"learn x y z", b"tick 0 1\r", b"sites 0", b"sites 10", b"deliver 0 1 x",
        b"datagram 0 1 127.0.0.1:53 65536 0", b"learn  1 -", b"tick 0 ", b"tick 0 1.0", b"tick 0x0 1"],
    "bad address": [b"datagram 0 1 %s 65536 0" % address for address in (
        b"127.0.0.1", b"127.0.0.1:0", b"127.0.0.1:65536", b"127.0.0.01:53", b"256.0.0.1:53", b"127.0.0:53",
        b"127.0.0.1:53:", b"127.0.0.1.1:53", b"127.0.0.1:053", b":53", b"-", b"127.0.0.:53", b"127.0.0.1:",
        b"127.0.0.1:00053", b"127.0.0.1:999999", b"+1.0.0.1:53", b"1.2.3.4,53", b"1000.0.0.1:53", b"")],
    "bad hex": [
        b"learn 0 1 0", b"learn 0 1 0g", b"learn 0 1 0x00", b"learn 0 1 --", b"ask 0 1 -\r", b"flush 0 1 0",
        b"flush 0 1 zz", b"flush 9 1 0", b"frame 0 1 444", b"datagram 0 1 127.0.0.1:53 0 0", b"ask 0 1 "],
    "bad name": [
        b"flush 0 1 -", b"flush 0 1 03636f", b"flush 0 1 036f6f6d", b"flush 0 1 036f6f6d0000", b"flush 0 1 c00c",
        b"flush 0 1 40" + b"61" * 64 + b"00", b"flush 9 1 01", b"flush 0 1 " + (b"3f" + b"61" * 63) * 4 + b"00",
        b"flush 0 1 " + (b"3f" + b"61" * 63) * 3 + b"3e" + b"61" * 62 + b"00"],
    "sites must come first": [b"sites 1", b"sites 01", b"sites 9"],
    "no such site": [b"learn 9 1 -", b"learn 9999999999999 1 -", b"deliver 9 1 9999999999999", b"merge 0 9",
                     b"merge 9 0", b"same 0 9", b"show 9", b"sweep 9", b"restart 9", b"flush 9 1 00", b"frame 9 1 -"],
    "no such frame": [b"deliver 0 1 9999999999999", b"deliver 0 0 100000", b"deliver 0 1099511627776 0099999"],
}


def bad_line(random):
    """A line that ends a script."""
    return random.choice(BAD_LINES[random.choice(list(BAD_LINES))])


def skipped_line(random):
    """A line that is skipped, but counted."""
    return random.choice([b"", b"# a comment", b"#", b"#" * 300, b"# show 0"])


def spelled_otherwise(random, line):
    """The same line with a zero before its first number, or with capital digits in its last word."""
    event, *words = line.split(b" ")
    if random.random() < 0.5:
        words[0] = words[0].rjust(random.choice([2, 3, 13]), b"0")
    elif b":" not in words[-1]:
        words[-1] = words[-1].upper()
    return b" ".join([event, *words])
