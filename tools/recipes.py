#!/usr/bin/env python3
"""Runs the shell recipes of README.md and docs/OPERATING.md as they are printed, and the scripts of examples/.

    python3 tools/recipes.py [PROGRAM]

By hand: it needs dig, nsd and the proved program (crates/dnsfleet/out/dnsfleet, or PROGRAM), and takes a minute. It clones
the repository to a scratch folder. There it runs the `sh` blocks of each page in one bash, from top to bottom, and each
script below examples/. A block without a language right after a recipe is what that prints. Where the recipe leaves a
program running, other lines may come between. A TTL and a number of seconds may differ.

`rt try .. -- WORDS` and `rt run -- WORDS` run the proved program in place of a new build. `apt-get` does nothing, and a
recipe that is only `./check` is left out. So is one below a comment such as `<!-- needs: unbound -->` where that program is
not installed, and a line says so. The status is 1 where something else is printed, a recipe fails, or the clone is not as it
was.
"""

import os
import re
import shutil
import subprocess
import sys
import tempfile
from pathlib import Path

ROOT = Path(__file__).resolve().parent.parent
PAGES = ("README.md", "docs/OPERATING.md")
# Each script of examples/ prints the file of its own name, or that which is named here.
PRINTED = {"agree-datagrams": "agree"}
BLOCK = re.compile(r"^```(\w*)\n(.*?)^```$", re.M | re.S)
LEFT_OUT = ("./check",)
NEEDS = re.compile(r"<!-- needs: (\S+) -->\s*$")
SECONDS = 300
END = "-- the recipe ended with"
# What stands in place of commands, so that the proved program is run and nothing is installed.
IN_PLACE = {"rt": 'while [ "$1" != -- ]; do shift; done; shift; exec "$PROGRAM" "$@"', "apt-get": ":"}


def recipes(page, text, path):
    """The recipes of a page that can run, each with its line and what it prints, or nothing where the page does not say."""
    blocks = list(BLOCK.finditer(text))
    for at, block in enumerate(blocks):
        line, needs = text.count("\n", 0, block.start()) + 1, NEEDS.search(text, 0, block.start())
        if needs and not shutil.which(needs[1], path=path):
            print(f"{page}:{line}: skipped: {needs[1]} is not installed")
        elif block[1] == "sh" and block[2].strip() not in LEFT_OUT:
            after = blocks[at + 1] if at + 1 < len(blocks) else None
            printed = after and not after[1] and "```" not in text[block.end() : after.start()]
            yield line, block[2], after[2] if printed else None


def plain(text):
    """A text whose TTLs and numbers of seconds are the same as those of every other one."""
    text = re.sub(r"(?<=\t)\d+(?=\tIN\t)", "TTL", text)
    return re.sub(r"\b\d+(?= seconds$)", "SOME", text, flags=re.M).strip().splitlines()


def is_printed(wanted, got, leaves_running):
    wanted, got = plain(wanted), plain(got)
    if not leaves_running:
        return wanted == got
    return any(got[at : at + len(wanted)] == wanted for at in range(len(got) - len(wanted) + 1))


def run_page(page, folder, environment):
    """Runs the recipes of a page, and gives what is wrong."""
    found = list(recipes(page, (folder / page).read_text(), environment["PATH"]))
    script = "exec 2>&1\n" + "".join(f'{text}\necho "{END} $?"\n' for _, text, _ in found)
    with subprocess.Popen(["bash"], cwd=folder, env=environment, stdin=subprocess.PIPE, stdout=subprocess.PIPE, text=True,
                          errors="replace", start_new_session=True) as shell:
        try:
            told, _ = shell.communicate(script + "kill $(jobs -p)\nwait\n", timeout=SECONDS)
        except subprocess.TimeoutExpired:
            os.killpg(shell.pid, 9)
            told, _ = shell.communicate()
    pieces = re.split(rf"^{END} (\d+)\n", told, flags=re.M)
    wrong = []
    for at, (line, text, wanted) in enumerate(found):
        got, status = (pieces[2 * at], pieces[2 * at + 1]) if 2 * at + 1 < len(pieces) else (pieces[-1], "nothing")
        if status != "0":
            wrong.append(f"{page}:{line}: ended with {status}:\n{got}")
        elif wanted is not None and not is_printed(wanted, got, bool(re.search(r" &( |$|\n)", text))):
            wrong.append(f"{page}:{line}: printed\n{got}in place of\n{wanted}")
    print(f"{page}: {len(found)} recipes, {sum(it[2] is not None for it in found)} with what they print", flush=True)
    return wrong


def run_examples(folder, program):
    wrong = []
    for script in sorted((folder / "examples").glob("*.script")):
        wanted = script.with_name(PRINTED.get(script.stem, script.stem) + ".out").read_text()
        with script.open() as lines:
            ran = subprocess.run([program, "script"], stdin=lines, capture_output=True, text=True, check=False)
        if ran.returncode or ran.stdout != wanted:
            wrong.append(f"examples/{script.name}: status {ran.returncode}, printed\n{ran.stdout}{ran.stderr}")
    return wrong


def put_in_place(folder):
    folder.mkdir()
    for name, text in IN_PLACE.items():
        (folder / name).write_text(f"#!/bin/sh\n{text}\n")
        (folder / name).chmod(0o755)


def main():
    built = Path(sys.argv[1] if sys.argv[1:] else ROOT / "crates" / "dnsfleet" / "out" / "dnsfleet").resolve()
    for tool in ("dig", "nsd"):
        if not shutil.which(tool, path=os.environ["PATH"] + ":/usr/sbin"):
            sys.exit(f"{tool} is not installed")
    with tempfile.TemporaryDirectory() as scratch:
        folder = Path(scratch) / "clone"
        subprocess.run(["git", "clone", "-q", ROOT, folder], check=True)
        program = folder / "crates" / "dnsfleet" / "out" / "dnsfleet"
        program.parent.mkdir(exist_ok=True)
        shutil.copy(built, program)
        put_in_place(Path(scratch) / "bin")
        environment = {**os.environ, "PROGRAM": str(program), "PATH": f"{scratch}/bin:{os.environ['PATH']}:/usr/sbin"}
        wrong = [line for page in PAGES for line in run_page(page, folder, environment)] + run_examples(folder, program)
        left = subprocess.run(["git", "status", "--porcelain"], cwd=folder, capture_output=True, text=True, check=True).stdout
        wrong += [f"left in the checkout:\n{left}"] if left else []
    print("\n".join([*wrong, f"{len(wrong)} wrong"]))
    sys.exit(1 if wrong else 0)


if __name__ == "__main__":
    main()
