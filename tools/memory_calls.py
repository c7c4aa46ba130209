#!/usr/bin/env python3
"""Finds public calls that can find no memory, and that no test says it makes.

A contract that allows an answer for want of memory is met by a body that always gives it. So each such call is made with
ample memory by a test that compares its answer. The comment above that test says so: "Allocates: `CRATE`: `CALL`, ..", in a
test of Rattle or of tests/. Run at the top of the repository, by hand: `python3 tools/memory_calls.py`. It reads
signatures: a call can find no memory where the fault that it may answer is `AllocError`, or a type of the repository that
speaks of memory or has such a part. It looks whether the calls that a comment names are made in the crate of the test (a
row of text is read by a helper, which makes the call). The status is 1 where one is not, or a call is named nowhere.
"""

import re
import sys
from pathlib import Path

sys.dont_write_bytecode = True
from proved_cases import names_of_cases

ROOT = Path(__file__).resolve().parent.parent
# The comment above a test that says which calls it makes, in Rattle and in Python.
NAMED = re.compile(r"Allocates: `(\w+)`: ((?:`[\w:]+`[,\s/#]*)+)\.(?=\s)")
CLASS = re.compile(r"^class (\w+)", re.M)
TEST = re.compile(r"#\[test\]\s*fn (\w+)|    def (test_\w+)\(")


def sources(crate):
    """The source files of a crate, without comments."""
    files = sorted((ROOT / "crates" / crate / "src").rglob("*.rt"))
    return {file: re.sub(r"//[^\n]*", "", file.read_text()) for file in files}


def exports(files):
    """The names that the root of a crate makes public, and the files of its public modules."""
    root = next(text for file, text in files.items() if file.name in ("lib.rt", "main.rt"))
    names = set()
    for path in re.findall(r"^pub use ([^;]*);", root, re.M):
        names.update(re.findall(r"\w+", path.split("{")[-1] if "{" in path else path.split("::")[-1]))
    names.update(re.findall(r"^pub (?:struct|enum|fn) (\w+)", root, re.M))
    return names, set(re.findall(r"^pub mod (\w+);", root, re.M))


def types(files):
    """The public types with their definitions."""
    pattern = r"^((?:#\[[^\n]*\n)*)pub (?:enum|struct) (\w+)[^\n{;]*(\{.*?^\}|;)"
    found = {}
    for text in files.values():
        for attributes, name, body in re.findall(pattern, text, re.M | re.S):
            found[name] = attributes + body
    return found


def faults(definitions):
    """The types whose values can tell a want of memory."""
    told = {"AllocError", "AllocFailed"}
    told |= {name for name, body in definitions.items() if "out of memory" in body}
    while True:
        more = {
            name
            for name, body in definitions.items()
            if name not in told and any(re.search(rf"[:(] *{fault}\b", body) for fault in told)
        }
        if not more:
            return told
        told |= more


def refused_with(signature):
    """The name of the fault of a `Result`, or none."""
    answer = re.search(r"->\s*Result<(.*)>\s*$", signature, re.S)
    if not answer:
        return None
    depth = 0
    for at in range(len(answer[1]) - 1, -1, -1):
        letter = answer[1][at]
        depth += (letter == ">" and answer[1][at - 1] != "-") - (letter == "<")
        if letter == "," and depth == 0:
            found = re.match(r"\s*(?:\w+::)*(\w+)", answer[1][at + 1 :])
            return found[1] if found and found[1].strip() else refused_with("->Result<" + answer[1][:at] + ">")
    return None


def calls(crate, files, told):
    """The public calls of a crate that can find no memory."""
    names, modules = exports(files)
    found = set()
    pattern = r"^( *)pub fn (\w+)(.*?)(?=\{|;|^\s*(?:ensures|requires|where|ghost)\b)"
    for file, text in files.items():
        for call in re.finditer(pattern, text, re.M | re.S):
            if refused_with(call[3]) not in told:
                continue
            owners = re.findall(r"^impl\b.*?(\w+)(?:<[^\n{]*>)? *\{", text[: call.start()], re.M)
            if call[1] and owners and owners[-1] in names:
                found.add(f"{owners[-1]}::{call[2]}")
            elif not call[1] and (call[2] in names or file.stem in modules):
                found.add(call[2])
    return found


def rows():
    """The calls that tests say they make: a crate, its calls, and the test or the case, as `tests: MODULE.CLASS.TEST`."""
    for file in sorted([*(ROOT / "crates").glob("*/src/**/*.rt"), *(ROOT / "tests").glob("test_*.py")]):
        text = file.read_text()
        for named in NAMED.finditer(text):
            test = TEST.search(text, named.end())
            owners = CLASS.findall(text[: named.start()])
            case = test[2] and f"tests: {file.stem}.{owners[-1]}.{test[2]}"
            yield named[1], re.findall(r"`([^`]+)`", named[2]), case or f"{file.relative_to(ROOT).parts[1]}::{test[1]}"


def crate_with_test(files, test):
    """The text of the files of a crate that has a test of this name; nothing where it has none."""
    pattern = rf"#\[test\]\s*fn {test}\b"
    return "".join(files.values()) if any(re.search(pattern, text) for text in files.values()) else ""


def case_of(test):
    """The case of a row, or nothing where it has a test of Rattle."""
    word, _, case = test.partition(": ")
    return case if word == "tests" else None


def wrong_row(files, cases, crate, made, test):
    """What is wrong with the test of a row: it is not there, or it does not make a call."""
    case = case_of(test)
    if case:
        return [] if case in cases else [f"{crate}: no case {case}"]
    place, _, name = test.rpartition("::")
    text = crate_with_test(files.get(place or crate, {}), name)
    if not text:
        return [f"{crate}: no test {test}"]
    unmade = [call for call in made if not re.search(rf"\b{call.split('::')[-1]}\(", text)]
    return [f"{crate}: the crate of {test} does not call {call}" for call in unmade]


def main():
    crates = sorted(path.name for path in (ROOT / "crates").iterdir() if (path / "src").is_dir())
    files = {crate: sources(crate) for crate in crates}
    definitions = {}
    for crate in crates:
        definitions.update(types(files[crate]))
    told = faults(definitions)
    cases = names_of_cases()
    wrong = []
    with_row = set()
    for crate, made, test in rows():
        with_row.update((crate, call) for call in made)
        wrong += wrong_row(files, cases, crate, made, test)
    wanted = {(crate, call) for crate in crates for call in calls(crate, files[crate], told)}
    wrong += [f"{crate}: {call} has no row" for crate, call in sorted(wanted - with_row)]
    for line in wrong:
        print(line)
    print(f"{len(wanted)} calls can find no memory, {len(wanted & with_row)} of them are made by a test that says so")
    sys.exit(1 if wrong else 0)


if __name__ == "__main__":
    main()
