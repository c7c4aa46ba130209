"""Proves the program of a copy of the sources, and runs cases of tests/run over it: what tools that try wrong bodies against
cases share."""

import re
import subprocess

from unproved_tests import ROOT

RUNNER = ROOT / "tests" / "run"

# What ends a run that could not prove the program: so many of its last lines are shown.
SHOWN = 6


def names_of_cases():
    """The names of all cases."""
    ran = subprocess.run([RUNNER, "--list"], capture_output=True, text=True, check=True)
    return {line.partition(":")[0] for line in ran.stdout.splitlines()}


def prove(root):
    """Proves and builds the program of a copy. Gives where it is, or nothing, and the end of what was said."""
    folder = root / "crates" / "dnsfleet"
    ran = subprocess.run(["rt", "run", "--", "--version"], cwd=folder, capture_output=True, text=True, errors="replace")
    built = folder / "out" / "dnsfleet"
    lines = (ran.stdout + ran.stderr).strip().splitlines()
    return built if built.is_file() else None, "\n".join(lines[-SHOWN:])


def failed_cases(program, cases):
    """Those of the cases that fail with a program, and the last line of the run."""
    words = [word for case in cases for word in ("-k", case)]
    ran = subprocess.run([RUNNER, "--program", program, *words], capture_output=True, text=True, errors="replace")
    failed = set(re.findall(r"^FAILED ([\w.]+)", ran.stdout, re.M))
    return failed & set(cases), (ran.stdout.strip().splitlines() or [""])[-1]


def cases_fail(root, cases, what):
    """Whether each of the cases fails with the program of a copy, with lines on what became of them."""
    unknown = sorted(set(cases) - names_of_cases())
    if unknown:
        print(f"{what}: no such case: {' '.join(unknown)}", flush=True)
        return False
    program, said = prove(root)
    if not program:
        print(f"{what}: the program is not proved\n{said}", flush=True)
        return False
    failed, last = failed_cases(program, cases)
    for case in cases:
        told = "fails, as it has to" if case in failed else f"does not fail: {last}"
        print(f"{what}: proved, {case} {told}", flush=True)
    return len(failed) == len(cases)
