#!/usr/bin/env python3
"""Gives functions wrong bodies that no contract can refuse, and sees that a test fails for each.

Such a body is an edit of the code, crates/NAME/tested-bodies/BODY.edit, in the form of those of must-fail/ (`rt help`)
after a first line that names what has to fail. Each is applied in a copy of the sources.

`test: CRATE::TEST` names a test of Rattle, which runs there, unproved (`rt try --test`). `rt ci` sees it pass without.
`case: MODULE.CLASS.TEST ..` names cases of the program, as `tests/run --list` does. The program is proved there with the body
in it (`rt run` in crates/dnsfleet), which shows besides that no contract refuses the body. Then each of these cases has to
fail. `tests/run` sees them pass without.

    python3 tools/tested_bodies.py [--jobs N] [BODY..]     all bodies, or those that are named, N at a time

A test takes a minute or two, a case three or more: check the crates before (`rt run` in crates/dnsfleet), since a copy begins
with what was proved of the same crates on this machine. The status is 1 where something passed, or a body could not be tried.
"""

import argparse
import sys
from concurrent.futures import ThreadPoolExecutor

sys.dont_write_bytecode = True
from proved_cases import cases_fail
from unproved_tests import ROOT, copy_of_sources, fails

FOLDER = "tested-bodies"


def read_body(file):
    """What has to fail for a body, and its edits: each a file of the crate, a text that stands in it once, and another."""
    first, *lines = file.read_text().splitlines()
    kind, _, named = first.partition(": ")
    if kind not in ("test", "case") or not named:
        sys.exit(f"{file}: no such line: {first}")
    place, old, edits = None, None, []
    for line in lines:
        word, _, rest = line.partition(": ")
        if word == "file":
            place = rest
        elif word == "old":
            old = rest
        elif word == "new":
            edits.append((place, old, rest))
        else:
            sys.exit(f"{file}: no such line: {line}")
    return kind, named, edits


def apply(crate, edits):
    """Applies edits in turn, and gives what is wrong with one, if anything."""
    for place, old, new in edits:
        text = (crate / place).read_text()
        if text.count(old) != 1:
            return f"a text stands in {place} {text.count(old)} times, and not once: {old}"
        (crate / place).write_text(text.replace(old, new))
    return None


def attempt(file):
    """Whether what a body names fails for it."""
    name = file.parent.parent.name
    what = f"{name}: {file.stem}"
    kind, named, edits = read_body(file)
    with copy_of_sources() as root:
        wrong = apply(root / "crates" / name, edits)
        if wrong:
            print(f"{what}: {wrong}", flush=True)
            return False
        if kind == "case":
            return cases_fail(root, named.split(), what)
        crate, _, test = named.rpartition("::")
        return fails(root, crate, test, what)


def main():
    words = argparse.ArgumentParser(description=__doc__, formatter_class=argparse.RawDescriptionHelpFormatter)
    words.add_argument("bodies", nargs="*", metavar="BODY")
    words.add_argument("--jobs", type=int, default=1, metavar="N", help="how many are tried at a time")
    words = words.parse_args()
    files = sorted(ROOT.glob(f"crates/*/{FOLDER}/*.edit"))
    unknown = set(words.bodies) - {file.stem for file in files}
    if unknown:
        sys.exit(f"no such body: {', '.join(sorted(unknown))}")
    wanted = [file for file in files if not words.bodies or file.stem in words.bodies]
    with ThreadPoolExecutor(words.jobs) as pool:
        tried = list(pool.map(attempt, wanted))
    print(f"{sum(tried)} of {len(tried)} wrong bodies fail their test")
    sys.exit(0 if all(tried) else 1)


if __name__ == "__main__":
    main()
