"""Runs a test of a copy of the sources, unproved: what tools that try wrong bodies against tests share."""

import re
import shutil
import subprocess
import tempfile
from contextlib import contextmanager
from pathlib import Path

ROOT = Path(__file__).resolve().parent.parent


@contextmanager
def copy_of_sources():
    """A folder with a copy of all crates, for as long as it is used."""
    with tempfile.TemporaryDirectory() as room:
        root = Path(room)
        shutil.copy(ROOT / "crates.txt", root)
        shutil.copy(ROOT / "HANDLES", root)
        shutil.copytree(ROOT / "crates", root / "crates", ignore=shutil.ignore_patterns("out"))
        yield root


def told_of(root, crate, test):
    """What a run says of the test, `ok` or `FAILED`, and the whole of what it said."""
    words = ["rt", "try", "--test", "--seconds", "900", "--", test]
    ran = subprocess.run(words, cwd=root / "crates" / crate, capture_output=True, text=True)
    lines = [line for line in ran.stdout.splitlines() if re.match(rf"test (\w+::)*{test} ", line)]
    return [line.split("... ")[-1] for line in lines], ran.stdout + ran.stderr


def fails(root, crate, test, what):
    """Whether the test fails, with a line on what became of it."""
    told, text = told_of(root, crate, test)
    if told == ["FAILED"]:
        print(f"{what}: {test} fails, as it has to", flush=True)
        return True
    last = text.strip().splitlines()[-1:] or [""]
    print(f"{what}: {test} does not fail: {told} {last[0][:200]}", flush=True)
    return False
