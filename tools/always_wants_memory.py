#!/usr/bin/env python3
"""Makes each call that can find no memory always say so, and sees that its test fails.

The prover lets such a body pass, since a contract allows the answer whatever the call is given; so no wrong body under
must-fail/ can show it. Here each call that a test says it makes ("Allocates: ..", see memory_calls.py) gets such a body in a
copy of the sources, and the tests run there, unproved (`rt try --test`): that test has to fail. `rt ci` sees it pass without.

    python3 tools/always_wants_memory.py [CALL..]     all calls, or those that are named, as `Name::push`

A call takes from a few seconds to a minute, all of them a quarter of an hour or more. The status is 1 where a test passed.
"""

import re
import sys

sys.dont_write_bytecode = True
from memory_calls import case_of, rows
from proved_cases import cases_fail
from unproved_tests import copy_of_sources, fails

# What a call answers that finds no memory, by the fault of its signature.
FAULTS = {
    "AllocError": "AllocError",
    "AllocFailed": "std::alloc::AllocFailed { value: item }",
    "NameFault": "NameFault::OutOfMemory",
    "ReadFault": "ReadFault::OutOfMemory",
    "DigestFault": "DigestFault::OutOfMemory",
    "FrameFault": "FrameFault::OutOfMemory",
    "TakeFault": "TakeFault::OutOfMemory { taken: 0 }",
    "Stopped": "Stopped { taken: 0 }",
    "Unasked": "Unasked { fault: PendingFault::OutOfMemory, waiter }",
    "SiteFault": "SiteFault::OutOfMemory { taken: 0 }",
    "WorldFault": "WorldFault::Memory { taken: 0 }",
    "Halted": "Halted { at: 0, fault: WorldFault::Memory { taken: 0 } }",
    "ScriptFault": "ScriptFault { line: 1, what: LineFault::OutOfMemory }",
    "SettingsFault": "SettingsFault::OutOfMemory",
}


# `serve` has no such answer, and counts each step as short. A text that is too long is reported before any allocation: a clause
# of `read_settings` says so.
IN_PLACE_OF = {
    "serve": ("server.rt", "carry_out", "if true { count_one(&mut report.short); return false; }"),
    "read_settings": (
        "settings.rt",
        "read_settings",
        "if octets.len() <= LONGEST_CONFIGURATION { return Err(SettingsFault::OutOfMemory); }",
    ),
}


def body_at(text, call):
    """Where the body of a function begins, and the head before it."""
    owner, _, name = call.rpartition("::")
    for found in re.finditer(rf"^( *)(?:pub )?fn {name}\b", text, re.M):
        owners = re.findall(r"^impl\b.*?(\w+)(?:<[^\n{]*>)? *\{", text[: found.start()], re.M)
        if bool(found[1]) == bool(owner) and (not owner or owners[-1:] == [owner]):
            end = re.compile(r"\{$", re.M).search(text, found.end()).end()
            return end, text[found.start() : end]
    return None


def edited(folder, call):
    """Gives the call a body that always wants memory; whether it was found."""
    place, function, body = IN_PLACE_OF.get(call, ("*.rt", call, None))
    for file in sorted((folder / "src").rglob(place)):
        text = file.read_text()
        found = body_at(text, function)
        if not found:
            continue
        end, head = found
        fault = re.findall(rf"\b({'|'.join(FAULTS)})\b", head.split("->", 1)[1]) + [""]
        body = body or f"if true {{ return Err({FAULTS[fault[0]]}); }}"
        file.write_text(f"{text[:end]}\n    {body}{text[end:]}")
        return True
    return False


def attempt(crate, call, test):
    """Whether the test of a call fails where the call always wants memory."""
    what = f"{crate}: {call}"
    with copy_of_sources() as root:
        if not edited(root / "crates" / crate, call):
            print(f"{what}: not found")
            return False
        case = case_of(test)
        if case:
            return cases_fail(root, [case], what)
        place, _, name = test.rpartition("::")
        return fails(root, place or crate, name, what)


def main():
    wanted = sys.argv[1:]
    made = [(crate, call, test) for crate, calls, test in rows() for call in calls]
    unknown = [call for call in wanted if call not in {call for _, call, _ in made}]
    tried = [attempt(*row) for row in made if not wanted or row[1] in wanted]
    for call in unknown:
        print(f"{call}: no test says that it makes this call")
    sys.exit(0 if all(tried) and not unknown else 1)


if __name__ == "__main__":
    main()
