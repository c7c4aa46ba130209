#!/usr/bin/env python3
"""Shows what the sites of a fleet hold, from what they sweep to an operator's place among their peers.

    observe.py LISTEN CONFIG.. [--seconds N] [--name NAME] [--svg FILE] [--program DNSFLEET]

LISTEN is the operator's place, an address such as 127.0.0.1:5499, and CONFIG the configuration of each
site. It listens for one sweep of the slowest site and three seconds more, or for N seconds, and sends
nothing. A line for each site says what came from it, what it holds, and how many items it lacks of
what the fleet held when the listening began; below are the first of these. --name shows who holds what
at a name, as zones write it, and below it. --svg draws a picture.

Frames are read by `dnsfleet script`: one script for each site, and one for the fleet, which takes in
the frames of all. The status is 1 where a site was not heard or lacks an item, or where a peer is
stated at one end alone, LISTEN among them; it is 2 after a fault, and 130 after Ctrl-C.
"""

import argparse
import ipaddress
import math
import re
import shutil
import socket
import subprocess
import sys
import time
import tomllib
from collections import Counter
from pathlib import Path

KINDS = ("positive", "nodata", "nxdomain", "flush")
TYPES = {1: "A", 2: "NS", 5: "CNAME", 6: "SOA", 12: "PTR", 15: "MX", 16: "TXT", 28: "AAAA", 33: "SRV"}
# How many items that a site lacks are shown.
SHOWN = 10
LONGEST_FRAME = 16384
LONGEST_LABEL, LONGEST_NAME = 63, 255
LONGEST_SWEEP = 3600
# What a name is written of (RFC 1035 5.1): an octet by its number, one after a backslash, or a character.
WRITTEN = re.compile(r"\\[0-9]{3}|\\[^0-9]|.", re.DOTALL)


class Fault(Exception):
    """Why nothing is shown."""


class Site:
    """A site: its configuration, the frames that came from it, and the items that it holds."""

    def __init__(self, path):
        try:
            says = tomllib.loads(Path(path).read_text(encoding="utf-8"))
        except OSError as error:
            raise Fault(f"{path}: {error.strerror}") from error
        except ValueError as error:
            raise Fault(f"{path}: not TOML: {error}") from error
        self.path, self.listen = path, says.get("listen")
        self.peers, self.sweep = says.get("peers", []), says.get("sweep", 30)
        is_read = type(self.peers) is list and all(is_address(it) for it in [self.listen, *self.peers])
        if not is_read or type(self.sweep) is not int or not 0 <= self.sweep <= LONGEST_SWEEP:
            raise Fault(f"{path}: no configuration: `dnsfleet check {path}` says why")
        self.frames, self.items, self.refused = [], [], 0


def read_sites(paths):
    """The sites of configurations: no two have one address."""
    sites, at = [Site(path) for path in paths], {}
    for site in sites:
        if site.listen in at:
            raise Fault(f"{site.path}: listen {site.listen} is that of {at[site.listen].path}, too")
        at[site.listen] = site
    return sites


def one_sided(sites):
    """Where a peer is stated at one end alone."""
    at = {site.listen: site for site in sites}
    for site in sites:
        for peer in site.peers:
            if peer in at and site.listen not in at[peer].peers:
                yield site, peer


def hear(listen, sites, seconds):
    """Receives frames for some seconds; each is kept at its site, with the second in which it came."""
    at = {site.listen: site for site in sites}
    host, _, port = listen.partition(":")
    with socket.socket(socket.AF_INET, socket.SOCK_DGRAM) as place:
        place.setsockopt(socket.SOL_SOCKET, socket.SO_RCVBUF, 1 << 23)
        try:
            place.bind((host, int(port)))
        except OSError as error:
            raise Fault(f"{listen}: {error.strerror}") from error
        end = time.monotonic() + seconds
        while (left := end - time.monotonic()) > 0:
            place.settimeout(left)
            try:
                frame, (host, port) = place.recvfrom(LONGEST_FRAME + 1)
            except TimeoutError:
                return
            if site := at.get(f"{host}:{port}"):
                site.frames.append((int(time.time()), frame))


def items_of(program, frames, now):
    """What a site holds at a moment that took in these frames: the words of each item as `show` prints them;
    and how many frames it refused."""
    lines = [f"frame 0 {second} {frame.hex() or '-'}" for second, frame in sorted(frames)]
    script = "\n".join([*lines, f"tick 0 {now}", "show 0", ""])
    settings = {"capture_output": True, "text": True, "errors": "replace", "check": False}
    try:
        ran = subprocess.run([program, "script"], input=script, **settings)
    except OSError as error:
        raise Fault(f"{program}: {error.strerror}") from error
    if ran.returncode:
        raise Fault(f"`{program} script` ended with status {ran.returncode} {ran.stderr}".strip())
    printed = [line.split(" ") for line in ran.stdout.splitlines()]
    items = [tuple(words) for words in printed if words[0] in KINDS]
    if printed[-1:] != [["items", str(len(items))]]:
        raise Fault(f"`{program} script` printed no line `items {len(items)}` at its end: it is no dnsfleet")
    return items, sum(words[0] == "refused" for words in printed)


def octet_of(written):
    """The octet that a part of a name's text stands for."""
    number = int(written[1:]) if len(written) == 4 else ord(written[-1])
    is_escaped, is_plain = len(written) > 1, 33 <= number <= 126 and written != "\\"
    if number > 255 or not written.isascii() or not (is_escaped or is_plain):
        raise ValueError(written)
    return number


def labels_of(text):
    """The labels of a name as zones write it, in lower case, which letters of ASCII alone have. A dot that is
    not escaped ends a label; the last one may be left out."""
    if text == ".":
        return []
    labels = [[]]
    for written in WRITTEN.findall(text):
        if written == ".":
            labels.append([])
        else:
            labels[-1].append(octet_of(written))
    if not labels[-1] and len(labels) > 1:
        labels.pop()
    lengths = [len(label) for label in labels]
    if not all(1 <= length <= LONGEST_LABEL for length in lengths) or sum(lengths) + len(lengths) >= LONGEST_NAME:
        raise ValueError(text)
    return [bytes(label).lower() for label in labels]


def is_below(name, top):
    """Whether a name is another one or lies below it, both as `labels_of` gives them."""
    return name[max(0, len(name) - len(top)) :] == top


def rdata_texts(rtype, body):
    """The RDATAs of a body: addresses as such, others as RFC 3597 section 5 writes them."""
    at = 2
    while at < len(body):
        rdata = body[at + 2 : at + 2 + int.from_bytes(body[at : at + 2], "big")]
        at += 2 + len(rdata)
        if (rtype, len(rdata)) in ((1, 4), (28, 16)):
            yield str(ipaddress.ip_address(rdata))
        else:
            yield f"\\# {len(rdata)} {rdata.hex()}"


def item_text(item, now):
    """An item: its name, the seconds that are left of its life, and what it says."""
    kind, rank, stamp, life, name, rtype, body = item
    word = TYPES.get(int(rtype), f"TYPE{rtype}")
    says = kind if kind in ("nxdomain", "flush") else f"{kind} {word}"
    if kind == "positive":
        says = f"{word} {', '.join(rdata_texts(int(rtype), bytes.fromhex(body)))}"
    return f"{name} {int(stamp) + int(life) - now} {says} (rank {rank})"


def picture(sites, fleet):
    """A picture of the sites and their peers, in SVG. A peer that is stated at one end alone is drawn in red."""
    half, radius = 320, 240
    turns = [2 * math.pi * at / len(sites) for at in range(len(sites))]
    place = {site.listen: (half + radius * math.sin(it), half - radius * math.cos(it)) for site, it in zip(sites, turns)}
    alone = {(site.listen, peer) for site, peer in one_sided(sites)}
    drawn = [f'<svg xmlns="http://www.w3.org/2000/svg" viewBox="0 0 {2 * half} {2 * half}" font-family="sans-serif"'
             ' font-size="12" text-anchor="middle">', '<rect width="100%" height="100%" fill="#fff"/>']
    for site in sites:
        for peer in [it for it in site.peers if it in place]:
            (x1, y1), (x2, y2) = place[site.listen], place[peer]
            colour = "#c00" if (site.listen, peer) in alone else "#999"
            drawn.append(f'<line x1="{x1:.0f}" y1="{y1:.0f}" x2="{x2:.0f}" y2="{y2:.0f}" stroke="{colour}"/>')
    for site in sites:
        (x, y), lacks = place[site.listen], len(fleet - set(site.items))
        colour, says = ("#fc6", f"{len(site.items)} items, lacks {lacks}") if lacks else ("#8d8", f"{len(site.items)} items")
        if not site.frames:
            colour, says = "#ccc", "not heard"
        drawn.append(f'<circle cx="{x:.0f}" cy="{y:.0f}" r="30" fill="{colour}" stroke="#333"/>')
        drawn.append(f'<text x="{x:.0f}" y="{y + 4:.0f}">{site.listen.rpartition(":")[2]}</text>')
        drawn.append(f'<text x="{x:.0f}" y="{y + 46:.0f}">{says}</text>')
    return "\n".join([*drawn, "</svg>", ""])


def say(*words):
    """Prints a line at once, so that nothing is left to be printed as Python ends."""
    if sys.stdout is None:
        raise Fault("output: it is closed")
    try:
        print(*words, flush=True)
    except OSError as error:
        raise Fault(f"output: {error.strerror}") from error


def print_sites(sites, fleet, now):
    """Prints a line for each site, and the first items that it lacks."""
    say(f"{'site':<21} {'frames':>7} {'octets':>9} {'items':>8}", *(f"{kind:>8}" for kind in KINDS), f"{'lacks':>7}")
    for site in sites:
        if not site.frames:
            say(f"{site.listen:<21} not heard" if site.sweep else f"{site.listen:<21} not heard: it has no sweeps")
            continue
        counts, lacking = Counter(item[0] for item in site.items), fleet - set(site.items)
        octets = sum(len(frame) for _, frame in site.frames)
        say(f"{site.listen:<21} {len(site.frames):>7} {octets:>9} {len(site.items):>8}",
            *(f"{counts[kind]:>8}" for kind in KINDS), f"{len(lacking):>7}")
        if site.refused:
            say(f"    refused frames: {site.refused}")
        for item in sorted(lacking, key=lambda it: (it[4], it))[:SHOWN]:
            say(f"    lacks {item_text(item, now)}")


def print_name(sites, top, now):
    """Prints who holds what at a name and below it."""
    held = {item for site in sites for item in site.items if is_below(labels_of(item[4]), top)}
    for item in sorted(held, key=lambda it: (it[4], it)):
        holders = [site.listen for site in sites if item in site.items]
        say(item_text(item, now), "at", "all" if len(holders) == len(sites) else " ".join(holders))


def address_in(word):
    """An address as configurations write it."""
    host, _, port = word.partition(":")
    if not re.fullmatch("[0-9]{1,5}", port) or not 0 < int(port) < 65536:
        raise argparse.ArgumentTypeError(f"`{word}` is no address such as 127.0.0.1:5499")
    try:
        return f"{ipaddress.IPv4Address(host)}:{int(port)}"
    except ValueError as error:
        raise argparse.ArgumentTypeError(f"`{word}` is no address such as 127.0.0.1:5499") from error


def is_address(word):
    """Whether a value of a configuration is an address, written as it has to be."""
    try:
        return isinstance(word, str) and address_in(word) == word
    except argparse.ArgumentTypeError:
        return False


def seconds_in(word):
    """A number of seconds, more than 0."""
    if not re.fullmatch(r"[0-9]{1,6}(\.[0-9]+)?", word) or not float(word):
        raise argparse.ArgumentTypeError(f"`{word}` is no number of seconds")
    return float(word)


def name_in(word):
    """The labels of a name."""
    try:
        return labels_of(word)
    except ValueError as error:
        raise argparse.ArgumentTypeError(f"`{word}` is no name") from error


def read_words():
    """The words of the command."""
    words = argparse.ArgumentParser(description=__doc__, formatter_class=argparse.RawDescriptionHelpFormatter)
    words.add_argument("listen", type=address_in, metavar="LISTEN")
    words.add_argument("config", nargs="+", metavar="CONFIG")
    words.add_argument("--seconds", type=seconds_in, metavar="N")
    words.add_argument("--name", type=name_in)
    words.add_argument("--svg", type=Path, metavar="FILE")
    words.add_argument("--program", default="dnsfleet", metavar="DNSFLEET")
    given = words.parse_args()
    if not shutil.which(given.program):
        raise Fault(f"{given.program}: no program; --program says where it is")
    return given


def print_one_sided(listen, sites):
    """Prints where a peer is stated at one end alone, the operator's place among them; gives whether there is any."""
    alone = [(site, f"the peer {peer} does not have {site.listen} among its peers") for site, peer in one_sided(sites)]
    alone += [(site, f"{listen} is none of its peers") for site in sites if listen not in site.peers]
    for site, says in alone:
        say(f"{site.path}: {says}")
    return bool(alone)


def observe(given):
    """Listens, and shows what is held. Gives whether all is well."""
    sites = read_sites(given.config)
    is_alone = print_one_sided(given.listen, sites)
    began = int(time.time())
    hear(given.listen, sites, given.seconds or max(site.sweep for site in sites) + 3)
    now = int(time.time())
    for site in sites:
        site.items, site.refused = items_of(given.program, site.frames, now)
    held = items_of(given.program, [it for site in sites for it in site.frames], now)[0]
    # What is newer came to the operator from whoever learnt it, and to the others at their own time.
    fleet = {item for item in held if int(item[2]) < began}
    print_sites(sites, fleet, now)
    if given.name is not None:
        print_name(sites, given.name, now)
    if given.svg:
        try:
            given.svg.write_text(picture(sites, fleet), encoding="utf-8")
        except OSError as error:
            raise Fault(f"{given.svg}: {error.strerror}") from error
    return not is_alone and all(site.frames and fleet <= set(site.items) for site in sites)


def main():
    try:
        return int(not observe(read_words()))
    except Fault as fault:
        print(f"observe.py: {fault}", file=sys.stderr)
        return 2
    except KeyboardInterrupt:
        return 130


if __name__ == "__main__":
    sys.exit(main())
