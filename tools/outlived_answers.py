#!/usr/bin/env python3
"""Reads an answer after its cache has changed, and sees that this does not compile.

An answer is lent by its cache. The prover is never asked about code that the compiler refuses, so no wrong body can show
it. Here a crate with one test is made over a copy of the sources: it takes an observation, asks, and changes the cache.
Where it reads the answer after the change, `rt try --test` has to refuse it as a borrow that is still in use (E0502 of
rustc); where it reads it before, the test has to pass.

    python3 tools/outlived_answers.py

It takes about two minutes. The status is 1 where such a read compiles, or is refused for another reason, or where the
read before the change does not pass.
"""

import re
import shutil
import subprocess
import sys
import tempfile
from pathlib import Path

ROOT = Path(__file__).resolve().parent.parent

# The calls that change the cache, each while an answer was lent.
CHANGES = {"Cache::take": "    assert!(rt; cache.take(second)?);\n", "Cache::purge": "    cache.purge(later);\n"}

READ = "    assert!(rt; matches!(answer, Answer::Found { .. }));\n"

LINE = "outlived: fleet_name fleet_wire fleet_observe fleet_cache\n"

TEST = """#![tactic(auto)]

#[cfg(test)]
mod tests;
"""

BODY = """use fleet_cache::{Answer, Cache};
use fleet_name::{Name, Octets};
use fleet_observe::{Moment, Observation};
use fleet_wire::Question;
use std::alloc::Global;
use std::test::Fail;

fn address(alloc: Global, stamp: Moment, last: u8) -> Result<Observation, Fail> {
    let mut rdatas = Vec::new(alloc);
    rdatas.push(Octets::copy_of(alloc, &[192, 0, 2, last])?)?;
    Ok(Observation::positive(Name::root(alloc)?, 1, 1, stamp, 300, rdatas)?)
}

#[test]
fn reads_an_answer(rt: HostRuntime) -> Result<(), Fail> {
    let stamp = Moment::new(100).ok_or("a moment")?;
    let later = Moment::new(500).ok_or("a moment")?;
    let first = address(rt.alloc(), stamp, 1)?;
    let second = address(rt.alloc(), stamp, 2)?;
    let spelled = Octets::copy_of(rt.alloc(), &[0])?;
    let question = Question { spelled, name: Name::root(rt.alloc())?, rtype: 1, class: 1 };
    let mut cache = Cache::new(rt.alloc());
    assert!(rt; cache.take(first)?);
    let answer = cache.answer(&question, stamp);
"""


def tried(read_before, change, read_behind):
    """What the compiler says of the test, whether it passes, and whether the change is refused because of the answer."""
    with tempfile.TemporaryDirectory() as room:
        root = Path(room)
        (root / "crates.txt").write_text((ROOT / "crates.txt").read_text() + LINE)
        shutil.copy(ROOT / "HANDLES", root)
        shutil.copytree(ROOT / "crates", root / "crates", ignore=shutil.ignore_patterns("out"))
        source = root / "crates" / "outlived" / "src"
        source.mkdir(parents=True)
        (source / "lib.rt").write_text(TEST)
        text = BODY + read_before
        (source / "tests.rt").write_text(text + change + read_behind + "    Ok(())\n}\n")
        ran = subprocess.run(["rt", "try", "--test"], cwd=source.parent, capture_output=True, text=True)
    said = ran.stdout + ran.stderr
    refused = re.search(rf"^src/tests.rt:{text.count(chr(10)) + 1}:\d+: error\[borrow-e0502\].*", said, re.M)
    return (refused[0] if refused else (said.strip().splitlines() or [""])[-1]), ran.returncode == 0, bool(refused)


def main():
    well = True
    for call, change in CHANGES.items():
        said, passes, refused = tried("", change, READ)
        well = well and refused and not passes
        told = "does not compile, as it has to" if refused else "is not refused"
        print(f"{call}: an answer that is read after it {told}: {said[:200]}", flush=True)
    said, passes, _ = tried(READ, "".join(CHANGES.values()), "")
    print(f"An answer that is read before both: {said[:200]}")
    sys.exit(0 if well and passes else 1)


if __name__ == "__main__":
    main()
