#!/usr/bin/env python3
"""Tries the wrong bodies that the gate does not try, and keeps what became of each.

  tools/wrong_bodies.py CRATE ..           tries the bodies of these crates
  tools/wrong_bodies.py --above CRATE ..   those of these crates and of all crates that stand on them: what a changed
                                           definition asks for
  tools/wrong_bodies.py --all              those of all crates
  tools/wrong_bodies.py --stale            lists the bodies whose verdict is older than what it judged, or that have none, and
                                           ends with 1 where there is one; takes seconds, and tries nothing

A wrong body is an edit of the code, crates/NAME/wrong-bodies/BODY.edit, in the form of those of must-fail/ (`rt help`).
The prover has to refuse it; one that passes is a defect of a contract. The bodies are laid under must-fail/ in a copy of the
sources of their crate and of those below it, and `rt must-fail` tries them there: some at a time, as it chooses itself. Its
lines may come late, and what it tried once on the same sources it does not try again. --room FOLDER keeps the copy there, so
that a later run finds what the kit has built of it; runs of different crates may share a room at the same time.

crates/NAME/wrong-bodies/verdicts has a line for each: its verdict, a hash and its name. The hash is of what was judged: the
body, how often each text that it replaces stands in its file, the src/, specs/ and proofs/ of its crate, what the crates
below promise (promises.py says what that is), and the kit's logic, the last word that `rt version` prints. Kits of one logic
share their verdicts. Comments and tests are no part of the hash. A line with any other hash is stale, those that an older
form of this tool wrote among them.

With --only NAME (more than once, if need be) the bodies of that name alone; with --stale-only those alone whose verdict is
stale; --jobs N shares the bodies of a crate out to N copies, each with a run of its own (FOLDER-2 is the second room). It ends
with 1 where a body was not refused, is no edit or was not spoken of. One that could not be tried keeps its verdict from before.

With --together the bodies that stand inside of functions are tried many at a time: one check of a copy with at most one in
each function (`rt check --allow-holes`) says of each function what of it is not proved. A body is refused if a goal of its own
function stays open, or a stored answer of that is refused by what it means. An answer that is not found any more, or a callee
that is not proved, shows nothing. Such bodies, and those in a head, a constant or a type, are tried by `rt must-fail`. What
`rt check` kept of the crate (its out/), if anything, is copied.
"""

import argparse
import hashlib
import re
import shutil
import subprocess
import sys
import tempfile
import threading
from concurrent.futures import ThreadPoolExecutor
from pathlib import Path
from typing import NamedTuple

sys.dont_write_bytecode = True
import promises

ROOT = Path(__file__).resolve().parent.parent
FOLDER = "wrong-bodies"
# What `rt must-fail` says of an edit, and the verdicts that are kept of it.
TOLD = re.compile(r"rt: must-fail (\w+)/(\w+)\.edit: (refused|NOT REFUSED|BAD EDIT|NOT TRIED)\b")
KEPT = {"refused": "refused", "NOT REFUSED": "passed"}
# What `rt check` says of a function: what of its own is not proved. And what it says of an answer that it does not find.
CHECKED = re.compile(r"^fn (\S+): (.*)$", re.M)
OWN_GOALS = re.compile(r"did not prove ((?:`[^`]+`(?:, | and )?)+)")
OWN_ANSWER = re.compile(r"stands on `\S+?\.proofs\.(\S+)\.Answers\.(\S+)`, which antt refuses")
NOT_FOUND = "that can be named from here"


def read_crates():
    """The line of each crate in crates.txt, and the crates of the repository that it names."""
    lines = {}
    for line in promises.read(ROOT / "crates.txt").splitlines():
        name, colon, _ = line.partition("#")[0].partition(":")
        if colon:
            lines[name.split()[0]] = line
    below = {name: line.partition("#")[0].partition(":")[2].split() for name, line in lines.items()}
    return lines, {name: [it for it in libraries if it in lines] for name, libraries in below.items()}


def all_below(below, name):
    """All crates that a crate stands on, and itself."""
    return {name}.union(*(all_below(below, it) for it in below[name]))


def bodies_of(name):
    return sorted((ROOT / "crates" / name / FOLDER).glob("*.edit"))


def logic():
    """The kit's logic, as `rt version` names it; empty where there is no kit, so that --stale says something there too."""
    try:
        line = subprocess.run(["rt", "version"], capture_output=True, text=True, check=False).stdout
    except OSError:
        return ""
    return line.partition(" logic ")[2].strip()


class States:
    """What the verdicts of each crate rest on, but the body itself. Each source file is read once."""

    def __init__(self, below):
        self.below, self.logic, self.promises, self.states = below, logic(), {}, {}

    def promise(self, name):
        if name not in self.promises:
            self.promises[name] = promises.promise(ROOT / "crates" / name)
        return self.promises[name]

    def of(self, name):
        if name not in self.states:
            parts = {name: promises.whole(ROOT / "crates" / name)}
            parts.update((it, self.promise(it)) for it in all_below(self.below, name) - {name})
            state = hashlib.sha256(self.logic.encode())
            for crate, told in sorted(parts.items()):
                for place, text in sorted(told.items()):
                    octets = text.encode()
                    state.update(f"\n{crate} {place} {len(octets)}\n".encode() + octets)
            self.states[name] = state.digest()
        return self.states[name]

    def stamp(self, body):
        """The hash of a verdict on a body. An edit whose text was moved is no edit, so the places of its texts count."""
        crate, text, file, counts = body.parent.parent, promises.read(body), None, []
        for line in text.splitlines():
            word, _, rest = line.partition(": ")
            if word == "file":
                file = promises.read(crate / rest) if (crate / rest).is_file() else ""
            elif word == "old" and file is not None:
                counts.append(file.count(rest))
        return hashlib.sha256(self.of(crate.name) + f"{counts}\n{text}".encode()).hexdigest()[:16]


def read_verdicts(name):
    """What became of each body when it was last tried: its verdict, and the hash of what was judged."""
    file = ROOT / "crates" / name / FOLDER / "verdicts"
    words = [line.split() for line in promises.read(file).splitlines()] if file.is_file() else []
    return {it[2]: (it[0], it[1]) for it in words if len(it) == 3}


def write_verdicts(name, verdicts):
    """Writes the verdicts on the bodies that are there."""
    there = sorted({it.stem for it in bodies_of(name)} & verdicts.keys())
    text = "".join(f"{verdicts[body][0]} {verdicts[body][1]} {body}\n" for body in there)
    (ROOT / "crates" / name / FOLDER / "verdicts").write_text(text, encoding="utf-8")


def stale_bodies(states, name):
    """The bodies of a crate whose verdict is older than what it judged, or that have none, or were not refused."""
    verdicts = read_verdicts(name)
    return [it for it in bodies_of(name) if verdicts.get(it.stem) != ("refused", states.stamp(it))]


def list_stale(states):
    count = sum(len(bodies_of(name)) for name in states.below)
    stale = [it for name in states.below for it in stale_bodies(states, name)]
    for body in stale:
        print(f"stale: {body.parent.parent.name}/{body.name}")
    print(f"wrong bodies: {count - len(stale)} of {count} refused on this code; {len(stale)} stale")
    if not stale:
        return 0
    print("try them again: python3 tools/wrong_bodies.py --all --stale-only")
    return 1


def renew(source, copy):
    """Makes the copy of a folder what the folder is now. A file that is the same is not touched."""
    files = {it.relative_to(source): it.read_bytes() for it in source.rglob("*") if it.is_file()}
    for file in [it for it in copy.rglob("*") if it.is_file() and it.relative_to(copy) not in files]:
        file.unlink()
    for place, octets in files.items():
        file = copy / place
        if not file.is_file() or file.read_bytes() != octets:
            file.parent.mkdir(parents=True, exist_ok=True)
            file.write_bytes(octets)


def lay_out(room, lines, below, name, bodies):
    """Copies the sources of a crate and of those below it, with the bodies as its edits."""
    for crate in all_below(below, name):
        for part in ("src", "specs", "proofs"):
            renew(ROOT / "crates" / crate / part, room / "crates" / crate / part)
    there = "".join(f"{line}\n" for it, line in lines.items() if (room / "crates" / it).is_dir())
    (room / "crates.txt").write_text(there, encoding="utf-8")
    shutil.copy(ROOT / "HANDLES", room)
    edits = room / "crates" / name / "must-fail"
    shutil.rmtree(edits, ignore_errors=True)
    edits.mkdir()
    for body in bodies:
        shutil.copy(body, edits)


class Place(NamedTuple):
    """A function in whose body the texts of a wrong body stand: its file, its type, if it is of one, and its name."""

    file: str
    owner: str
    name: str

    def is_of(self, crate, path):
        """Whether a function that `rt check` names is this one, or a closure or an instance inside of it."""
        module = self.file.removeprefix("src/").removesuffix(".rt").replace("/", "::")
        head = f"{crate}::" if module == "lib" else f"{crate}::{module}::"
        rest = path.removeprefix(head).split("::")
        if not path.startswith(head):
            return False
        return rest[0] == "fn" and self.name in rest or rest[-1] == self.name and "::".join(rest[:-1]).startswith(self.owner)


def type_of(words):
    """The type that an `impl` or a trait is of, by the words before its brace; nothing where these are of another item."""
    depth, found = 0, ""
    for word in words if "impl" in words or "trait" in words else []:
        depth += (word == "<") - (word == ">")
        if depth == 0 and word[0].isupper() and not found:
            found = word
        elif depth == 0 and word == "for":
            found = ""
    return found


def functions_in(text):
    """The functions of a file: the type that each is of, or nothing, its name, and where its body begins and ends."""
    spans = [(it[0], *it.span()) for it in promises.TOKEN.finditer(text)]
    spans = [it for it in spans if not it[0].isspace() and not it[0].startswith(("//", "/*"))]
    words, owner, item, at = [it[0] for it in spans], [], [], 0
    while at < len(words):
        if words[at] == "fn" and words[at + 1].isidentifier():
            end = promises.end_of_head(words, at)
            stop = promises.end_of_group(words, end)
            yield next((it for it in reversed(owner) if it), ""), words[at + 1], spans[end][1], spans[stop - 1][2]
            at, item = stop, []
            continue
        if words[at] == "{":
            owner.append(type_of(item))
        elif words[at] == "}":
            owner.pop()
        item = [] if words[at] in "{};" else [*item, words[at]]
        at += 1


def place_of(body):
    """The function in whose body all texts of a wrong body stand, or None."""
    crate, file, places = body.parent.parent, None, set()
    for line in promises.read(body).splitlines():
        word, _, rest = line.partition(": ")
        if word == "file":
            file = rest
        elif word == "old":
            text = promises.read(crate / file)
            at = text.find(rest)
            inside = [it for it in functions_in(text) if it[2] <= at and at + len(rest) <= it[3]]
            places.add(Place(file, *inside[0][:2]) if inside else None)
    return places.pop() if len(places) == 1 else None


def rounds_of(bodies):
    """Bodies by rounds, each with at most one body a function, and the bodies that stand in none."""
    rounds, alone = [], []
    for body in bodies:
        place = place_of(body)
        free = [it for it in rounds if place not in it]
        if place is None:
            alone.append(body)
        elif free:
            free[0][place] = body
        else:
            rounds.append({place: body})
    return rounds, alone


def edited(room, name, body):
    """Lays a body into the copy of its crate."""
    file, old = None, None
    for line in promises.read(body).splitlines():
        word, _, rest = line.partition(": ")
        if word == "file":
            file = room / "crates" / name / rest
        elif word == "old":
            old = rest
        elif word == "new":
            text = promises.read(file)
            assert text.count(old) == 1, f"{body.stem}: {old}"
            file.write_text(text.replace(old, rest), encoding="utf-8")


def judged(told, crate, place):
    """What a check tells of the body in a function: what refuses it; or None where it shows nothing."""
    for path, said in CHECKED.findall(told):
        if place.is_of(crate, path):
            goals, answers = OWN_GOALS.search(said), OWN_ANSWER.findall(said)
            lost = [it for it in answers if re.search(rf"{it[0].replace('.', '/')}/Answers\.antt:.*{it[1]}.*{NOT_FOUND}", told)]
            if goals:
                return f"{path}: {goals[1]}"
            if answers and not lost:
                return f"{path}: " + ", ".join(f"`{it[1]}`" for it in answers)
    return None


def try_together(room, lines, below, name, bodies, note):
    """Tries bodies of a crate many at a time, and gives those of which that showed nothing."""
    rounds, left = rounds_of(bodies)
    for each in rounds:
        lay_out(room, lines, below, name, [])
        if (ROOT / "crates" / name / "out").is_dir():
            shutil.copytree(ROOT / "crates" / name / "out", room / "crates" / name / "out", dirs_exist_ok=True)
        for body in each.values():
            edited(room, name, body)
        words = ["rt", "check", "--allow-holes"]
        ran = subprocess.run(words, cwd=room / "crates" / name, capture_output=True, text=True, check=False)
        for place, body in each.items():
            why = judged(ran.stdout + ran.stderr, name, place)
            if why:
                note(f"{name}/{body.stem}.edit: refused: {why}", body.stem, "refused")
            else:
                left.append(body)
    return left


def try_share(room, lines, below, name, bodies, note):
    """Tries bodies of a crate in a copy: passes each line of `rt must-fail` on, with the body that it speaks of and what it
    tells of it; and names those of which it told nothing."""
    left = {it.stem for it in bodies}
    lay_out(room, lines, below, name, bodies)
    words = ["rt", "must-fail", name]
    with subprocess.Popen(words, cwd=room, stdout=subprocess.PIPE, stderr=subprocess.STDOUT, text=True) as ran:
        for line in ran.stdout:
            told = TOLD.match(line)
            if told and told[1] == name and told[2] in left:
                left.remove(told[2])
                note(line.rstrip(), told[2], told[3])
            else:
                note(line.rstrip(), None, None)
    for body in sorted(left):
        note(f"{name}/{body}.edit: nothing was said of it", body, None)


def try_crate(rooms, lines, states, name, bodies, together=False):
    """Tries bodies of a crate, shared out to the rooms; says whether each was refused."""
    refused, lock = set(), threading.Lock()
    stamps = {it.stem: states.stamp(it) for it in bodies}

    def note(line, body, told):
        """Passes a line on, and keeps at once the verdict that it tells, if any."""
        with lock:
            print(line.replace("must-fail", "wrong body", 1), flush=True)
            if told in KEPT:
                # Read again, since another run may have tried other bodies of the crate meanwhile.
                write_verdicts(name, {**read_verdicts(name), body: (KEPT[told], stamps[body])})
            if told == "refused":
                refused.add(body)

    if together:
        bodies = try_together(rooms[0], lines, states.below, name, bodies, note)
    shares = [(room, bodies[at :: len(rooms)]) for at, room in enumerate(rooms) if bodies[at :: len(rooms)]]
    with ThreadPoolExecutor(len(shares) or 1) as pool:
        for done in [pool.submit(try_share, room, lines, states.below, name, it, note) for room, it in shares]:
            done.result()
    return refused == stamps.keys()


def main():
    words = argparse.ArgumentParser(description=__doc__, formatter_class=argparse.RawDescriptionHelpFormatter)
    words.add_argument("crates", nargs="*")
    words.add_argument("--all", action="store_true")
    words.add_argument("--above", action="store_true")
    words.add_argument("--stale", action="store_true")
    words.add_argument("--stale-only", action="store_true")
    words.add_argument("--only", action="append", default=[])
    words.add_argument("--together", action="store_true")
    words.add_argument("--jobs", type=int, default=1)
    words.add_argument("--room", type=Path)
    given = words.parse_args()
    lines, below = read_crates()
    states = States(below)
    if given.stale:
        return list_stale(states)
    unknown = [it for it in given.crates if it not in below]
    if unknown or not (given.crates or given.all):
        words.error(f"no crate {unknown[0]}" if unknown else "name crates, or --all")
    wanted = {*given.crates}
    well = True
    with tempfile.TemporaryDirectory(prefix="wrong-bodies-") as place:
        room = given.room or Path(place) / "room"
        rooms = [room, *(room.with_name(f"{room.name}-{at}") for at in range(2, given.jobs + 1))]
        for name in below:
            if given.all or name in wanted or given.above and all_below(below, name) & wanted:
                bodies = stale_bodies(states, name) if given.stale_only else bodies_of(name)
                bodies = [it for it in bodies if not given.only or it.stem in given.only]
                if bodies:
                    well = try_crate(rooms, lines, states, name, bodies, given.together) and well
    return 0 if well else 1


if __name__ == "__main__":
    sys.exit(main())
