#!/usr/bin/env python3
"""Counts the instructions of made scripts in two proved programs, so that an order that got worse is seen.

    bench/cost/run.py OLD NEW [OUT.tsv] [--all] [CASE ..]

OLD and NEW are checkouts with a proved crates/dnsfleet/out/dnsfleet, as for bench/run. Each case of cases.py runs for some n
as `dnsfleet script` in both, under valgrind. Its cachegrind, without a simulated cache, counts nearly what callgrind counts,
in less time. What is measured is the difference of two scripts: a setup with the measured lines, and the setup alone.
Lines of the same length that are refused at once are taken off, so that reading is not counted.

Without more words it is the default set (six minutes of one processor were seen); with --all all cases in all sizes;
with CASE those whose name begins so, in all sizes. A line is the case, n, the instructions of both, and the new ones over
the old ones; OUT.tsv gets the same lines with tabs. At the end are those with a ratio over 1.1, and the cases whose ratio
grows with n. Where the two programs print different things, or one fails, it stops with status 1.
"""

import argparse
import hashlib
import re
import subprocess
import sys
from itertools import zip_longest
from pathlib import Path

sys.dont_write_bytecode = True
import cases

WORDS = ["valgrind", "--tool=cachegrind", "--cache-sim=no", "--cachegrind-out-file=/dev/null"]
# From this ratio on a case is dearer, and from this rise of its ratio on, from the least n to the greatest, it grows.
DEARER = 1.1
GROWS = 1.05
# Fewer instructions than these have no ratio: a line that is read otherwise costs as much.
LEAST = 1_000


class Program:
    """A proved program. What a setup costs that cases share, or what reading costs, is counted once."""

    def __init__(self, tree):
        self.file = Path(tree).resolve() / "crates" / "dnsfleet" / "out" / "dnsfleet"
        if not self.file.is_file():
            sys.exit(f"{tree} has no proved program: `rt run` in its crates/dnsfleet makes one")
        self.known = {}

    def run(self, lines):
        """The instructions of a script, and what it prints."""
        script = "".join(f"{line}\n" for line in lines).encode()
        ran = subprocess.run([*WORDS, self.file, "script"], input=script, capture_output=True, check=False)
        count = re.search(rb"I +refs: +([\d,]+)", ran.stderr)
        if ran.returncode or not count:
            sys.exit(f"{self.file} ended with {ran.returncode}: {ran.stderr.decode(errors='replace')[-500:]}")
        return int(count[1].replace(b",", b"")), ran.stdout

    def count(self, lines):
        key = hashlib.sha256("\n".join(lines).encode()).digest()
        if key not in self.known:
            self.known[key] = self.run(lines)[0]
        return self.known[key]

    def cost(self, script):
        """The instructions of the measured lines of a script without those of reading them, and what it prints."""
        whole, printed = self.run(script.setup + script.measured)
        return whole - self.count(script.setup) - (self.count(script.refused) - self.count([])), printed


def compare(old, new, name, n, make):
    """What a case costs in both programs; it ends the run where they print different things."""
    script = make(n)
    before, printed = old.cost(script)
    after, also = new.cost(script)
    if printed != also:
        lines = zip_longest(printed.splitlines(), also.splitlines(), fillvalue=b"no line")
        first = next((it for it in lines if it[0] != it[1]), (b"an end", b"another end"))
        differing = " and ".join(repr(it.decode(errors="replace")[:200]) for it in first)
        sys.exit(f"{name}, n = {n}: the two programs print different things, first {differing}")
    return before, after


def ratio_of(before, after):
    return after / before if before >= LEAST else None


def told(ratio):
    return "-" if ratio is None else f"{ratio:.3f}"


def chosen(everything, words):
    """The cases that are asked for, with their sizes."""
    unknown = [it for it in words if not any(case.name.startswith(it) for case in cases.CASES)]
    if unknown:
        sys.exit(f"no case begins with '{unknown[0]}'")
    for case in cases.CASES:
        sizes = case.default if not (everything or words) else case.sizes
        if sizes and (not words or case.name.startswith(tuple(words))):
            yield case, sizes


def summary(ratios):
    """Prints which cases are dearer, and whose ratio grows."""
    dearer = [(name, n, it) for name, of in ratios.items() for n, it in of if it is not None and it > DEARER]
    known = {name: [(n, it) for n, it in of if it is not None] for name, of in ratios.items()}
    growing = {name: of for name, of in known.items() if len(of) > 1 and of[-1][1] > of[0][1] * GROWS}
    print(f"\nover {DEARER}: {len(dearer)}")
    for name, n, ratio in dearer:
        print(f"  {ratio:.3f} {name}, n = {n}")
    print(f"ratio grows with n: {len(growing)}")
    for name, of in growing.items():
        print(f"  {name}: " + ", ".join(f"{ratio:.3f} at {n}" for n, ratio in of))


def main():
    words = argparse.ArgumentParser(description=__doc__, formatter_class=argparse.RawDescriptionHelpFormatter)
    words.add_argument("old")
    words.add_argument("new")
    words.add_argument("more", nargs="*", metavar="OUT.tsv or CASE")
    words.add_argument("--all", action="store_true")
    given = words.parse_args()
    out = given.more.pop(0) if given.more and given.more[0].endswith(".tsv") else None
    old, new, ratios = Program(given.old), Program(given.new), {}
    with open(out or "/dev/null", "w", encoding="utf-8") as table:
        for case, sizes in chosen(given.all, given.more):
            for n in sizes:
                before, after = compare(old, new, case.name, n, case.make)
                ratio = ratio_of(before, after)
                ratios.setdefault(case.name, []).append((n, ratio))
                print(f"{case.name:<70} {n:>6} {before:>13} {after:>13} {told(ratio):>7}", flush=True)
                print(case.name, n, before, after, told(ratio), sep="\t", file=table, flush=True)
    summary(ratios)


if __name__ == "__main__":
    main()
