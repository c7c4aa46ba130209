"""A script through the model and through the program."""

import subprocess
from dataclasses import dataclass

from .script import Script
from .words import LineFault


@dataclass(frozen=True)
class Outcome:
    """What became of a script: the lines that it printed, its standard error, its status."""
    printed: tuple
    error: str
    status: int


@dataclass(frozen=True)
class Difference:
    """The first place where two outcomes differ: the number of the script's line, what was wanted and what came."""
    number: int
    wanted: str
    came: str


def outcome_of(printed, lines, fault):
    """The outcome of a script whose lines print lists of lines, up to a fault."""
    error = "" if fault is None else f"dnsfleet: line {len(printed) + 1}: {fault}\n"
    return Outcome(tuple(text for texts in printed for text in texts), error, 0 if fault is None else 1)


def run_model(lines):
    """What each line prints by the model, and the fault that ends the script, or None."""
    script, printed = Script(), []
    for line in lines:
        try:
            printed.append(script.run_line(line))
        except LineFault as fault:
            return printed, str(fault)
    return printed, None


def run_program(program, lines):
    """The outcome of the program."""
    script = b"".join(line + b"\n" for line in lines)
    try:
        ended = subprocess.run([program, "script"], input=script, capture_output=True, timeout=120)
    except subprocess.TimeoutExpired:
        return Outcome((), "no end within two minutes", -1)
    return Outcome(tuple(ended.stdout.decode("latin-1").splitlines()), ended.stderr.decode("latin-1"), ended.returncode)


def difference(printed, wanted, came):
    """The first difference between what is wanted and what came, or None."""
    if wanted == came:
        return None
    owners = [number for number, texts in enumerate(printed, 1) for _ in texts]
    for place in range(max(len(wanted.printed), len(came.printed))):
        pair = [outcome.printed[place] if place < len(outcome.printed) else "nothing more"
                for outcome in (wanted, came)]
        if pair[0] != pair[1]:
            number = owners[place] if place < len(owners) else len(printed)
            return Difference(number, *pair)
    return Difference(len(printed), f"status {wanted.status} {wanted.error}".strip(),
                      f"status {came.status} {came.error}".strip())


def compare(program, lines):
    """The first difference between the model and the program, or None."""
    printed, fault = run_model(lines)
    return difference(printed, outcome_of(printed, lines, fault), run_program(program, lines))
