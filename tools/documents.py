#!/usr/bin/env python3
"""Looks whether the pages speak of what is there: links, names, counts and commits.

    python3 tools/documents.py [FILE.md ..]

It reads every .md file of the repository, or those that are named, and ends with 1 where it found something. It tells of

- a relative link whose file, or whose heading, is not there;
- a name in backticks that no source has: a path, a path of Rust (`Cache::answer`), a name with a capital or an underscore, a
  call (`ask()`), an option of a tool. Sources are all files but the pages. A name has to be one whole word of theirs; of
  `A::b` both, and where A is a type or a module of the repository, b has to stand in a file with A;
- a path in a block of commands that is not there;
- a clause in PROMISES.md, after its function as in "`Name::push`: `ok`", that the function does not have;
- a count that is not what the tree has. After a number stands a comment that says what it counts, as in
  `158<!-- count: must-fail -->`; COUNTS lists what can be counted, and such a number without a comment is told too;
- a commit that does not exist, or is no ancestor of the one that is checked out: a page names what has landed. It passes over
  commits where the whole history is not at hand: without git, in a copy, in a shallow clone;
- a page that a source names and that is not there.

A page may name what belongs to others. A line `<!-- elsewhere: NAME .. -->` anywhere in it lists such names; one that a
source has all the same is told too, as is one that the page never names. Of what reference.py writes, links alone are read.
"""

import os
import re
import subprocess
import sys
from functools import lru_cache
from pathlib import Path
from urllib.parse import unquote

sys.dont_write_bytecode = True
from memory_calls import ROOT
from proved_cases import names_of_cases

WORD = re.compile(r"[A-Za-z_]\w*")
BLOCK = re.compile(r"^```.*?^```[^\n]*$", re.M | re.S)
GENERATED = "docs/reference/"
# Words that look like names of this repository and are the language's.
LANGUAGE = set("Err Ok Some None Self String Vec Box Option Result u8 u16 u32 u64 usize bool str".split())
# Beginnings of commands of others, whose words are not names of this repository.
COMMANDS = set("rt git dig apt apt-get kill nsd od cargo taskset cd printf for seq ulimit grep".split())


def listed():
    """The files of the repository; not what builds leave, as .gitignore has it."""
    left_out = {".git", *(line.strip("/") for line in (ROOT / ".gitignore").read_text().split())}
    found = []
    for folder, folders, names in os.walk(ROOT):
        folders[:] = [it for it in folders if it not in left_out]
        found += [(Path(folder) / it).relative_to(ROOT).as_posix() for it in names]
    return sorted(found)


FILES = listed()
PAGES = [it for it in FILES if it.endswith(".md")]
SOURCES = [it for it in FILES if not it.endswith(".md")]


@lru_cache(None)
def text_of(file):
    return (ROOT / file).read_text(encoding="utf-8", errors="replace")


@lru_cache(None)
def files_by_word():
    """The sources that have a word; a part of a path is a word of its file."""
    found = {}
    for file in SOURCES:
        for word in {*WORD.findall(text_of(file)), *WORD.findall(file)}:
            found.setdefault(word, set()).add(file)
    return found


@lru_cache(None)
def ends_of_paths():
    """Each path of the repository, folders too, from each of its parts on."""
    paths = {str(it) for file in FILES for it in (Path(file), *Path(file).parents)}
    return {"/".join(path.split("/")[at:]) for path in paths for at in range(path.count("/") + 1)}


def unread(text, pattern):
    """A text with blanks in place of what a pattern finds."""
    return re.sub(pattern, lambda it: re.sub(r"[^\n]", " ", it[0]), text)


# Counts.


def count(pattern):
    return sum(1 for it in FILES if Path(it).match(pattern))


def crates():
    return [line.split(":")[0].split()[0] for line in text_of("crates.txt").splitlines() if line.partition("#")[0].strip()]


def lines_of(file):
    return sum(1 for it in text_of(file).splitlines() if it and not it.startswith("#"))


COUNTS = {
    "must-fail": lambda: count("crates/*/must-fail/*.edit"),
    "wrong-bodies": lambda: count("crates/*/wrong-bodies/*.edit"),
    "tested-bodies": lambda: count("crates/*/tested-bodies/*.edit"),
    "crates": lambda: len(crates()),
    "tests": lambda: sum(text_of(it).count("#[test]") for it in SOURCES if it.endswith(".rt")),
    "cases": lambda: len(names_of_cases()),
    "workloads": lambda: lines_of("bench/workloads.txt"),
    "datagrams of bench/hostile": lambda: lines_of("bench/hostile/datagrams.txt"),
}
MARKED = re.compile(r"([\d,]+)\W{0,3}<!-- count: ([^>]*?) -->")
COUNTABLE = re.compile(r"\b(\d[\d,]*|eight|nine|ten|eleven|twelve) (must-fail edits?|wrong bodies|tested bodies|crates|libraries|workloads)\b")


def wrong_counts(text):
    for at, line in enumerate(text.splitlines(), 1):
        for number, what in MARKED.findall(line):
            if what not in COUNTS:
                yield at, f"nothing counts {what!r}"
            elif COUNTS[what]() != int(number.replace(",", "")):
                yield at, f"{what}: {COUNTS[what]()}, and not {number}"
        for found in COUNTABLE.finditer(line):
            yield at, f"a count without a mark: {found[0]}"


# Links.


@lru_cache(None)
def anchors(file):
    """The anchors of a page's headings, as GitHub makes them, and those that it sets."""
    found, seen = set(re.findall(r'<a (?:id|name)="([^"]*)"', text_of(file))), {}
    for heading in re.findall(r"^#{1,6} +(.*?)\s*#*$", BLOCK.sub("", text_of(file)), re.M):
        heading = re.sub(r"\[([^\]]*)\]\([^)]*\)", r"\1", heading)
        slug = re.sub(r"[^\w\- ]", "", heading.lower()).replace(" ", "-")
        number = seen.get(slug, 0)
        seen[slug] = number + 1
        found.add(f"{slug}-{number}" if number else slug)
    return found


def wrong_links(file, text):
    for at, line in enumerate(text.splitlines(), 1):
        for target in re.findall(r"\]\(([^)\s]+)\)", line):
            if re.match(r"[a-z]+:", target):
                continue
            place, _, anchor = unquote(target).partition("#")
            there = (ROOT / file).parent / place if place else ROOT / file
            if not there.exists():
                yield at, f"no such file: {target}"
            elif anchor and (there.suffix != ".md" or anchor not in anchors(str(there.resolve().relative_to(ROOT)))):
                yield at, f"no such heading: {target}"


# Names.


def is_path(word):
    kinds = "md|rt|antt|py|sh|txt|toml|c|edit|zone|conf|diff|script|out"
    return "/" in word.strip("/") and re.fullmatch(r"[\w./*-]+", word) or re.fullmatch(rf"[\w-]+\.({kinds})", word)


def path_is_there(word):
    """Whether a path stands at the top or below some folder of the repository."""
    word = re.sub(r"^(\.\.?/)+", "", word.rstrip("/"))
    if "/out/" in word or word.startswith(("out/", "/")) or word in ends_of_paths():
        return True
    pattern = re.compile(re.escape(word).replace(r"\*", "[^/]*"))
    return "*" in word and any(pattern.fullmatch(it) for it in ends_of_paths())


def missing_of(word):
    """What is missing of a name, or nothing."""
    parts = word.split("::")
    for it in parts:
        if it not in files_by_word() and it not in LANGUAGE:
            return it
    if len(parts) == 1 or parts[-2] in LANGUAGE:
        return None
    owner, last = parts[-2:]
    places = files_by_word()[last] if last not in LANGUAGE else set()
    if owner in crates():
        there = any(it.startswith(f"crates/{owner}/") for it in places)
    else:
        there = places & files_by_word().get(owner, set())
    return None if there else f"{owner} with {last}"


def is_name(word):
    """Whether a word is to be one of the sources: a path of Rust, or with a capital or an underscore inside."""
    if not re.fullmatch(r"[A-Za-z_]\w*(::[A-Za-z_]\w*)*", word):
        return False
    return "::" in word or "_" in word.strip("_") or re.search(r"[a-z][A-Z]", word) or re.fullmatch(r"[A-Z][a-z]\w+", word)


def names_of(span):
    """The names, options and paths of a piece of code in a page."""
    words = span.split()
    if not words:
        return
    if words[0] in COMMANDS or words[0].startswith("$"):
        yield from (("path", it) for it in words[1:] if is_path(it) and not it.startswith(("/", "-")))
        return
    for word in words:
        word = word.strip("(),;:'\"")
        bare = re.sub(r"(<.*>)?(\(.*\)|\(\.\.)?$", "", word)
        if is_path(word):
            yield "path", word
        elif is_name(bare):
            yield "name", bare
        elif len(words) == 1 and re.fullmatch(r"[a-z]\w*\(.*\)|[a-z]{3,}", word):
            yield "name", word.partition("(")[0]
        elif len(words) == 1 and re.fullmatch(r"--[a-z][a-z-]+", word):
            yield "option", word


def missing(kind, word):
    if kind == "path":
        return None if path_is_there(word) else word
    if kind == "option":
        found = word[2:].replace("-", "_") in files_by_word() or any(word in text_of(it) for it in SOURCES)
        return None if found else word
    return missing_of(word)


def wrong_names(text):
    elsewhere = set(" ".join(re.findall(r"<!-- elsewhere: ([^>]*?) -->", text)).split())
    met = set()
    for at, line in enumerate(unread(text, re.compile(r"<!--.*?-->", re.S)).splitlines(), 1):
        for span in re.findall(r"`([^`]+)`", line):
            for kind, word in names_of(span):
                gone = missing(kind, word)
                if {word, gone} & elsewhere:
                    met |= {word, gone} & elsewhere
                elif gone:
                    yield at, f"no such {kind}: {word}" + (f" ({gone})" if gone != word else "")
    yield from ((0, f"listed as elsewhere, and not named, or a source has it: {it}") for it in sorted(elsewhere - met))


def wrong_commands(text):
    """Paths of the repository in blocks of code."""
    for block in BLOCK.finditer(text):
        first = text.count("\n", 0, block.start()) + 1
        for at, line in enumerate(block[0].splitlines(), first):
            for word in re.findall(r"(?<![\w/.-])(?:\.\./)*(?:tools|crates|bench|examples|docs|tests)/[\w./-]*\w", line):
                if not path_is_there(word):
                    yield at, f"no such path: {word}"


# Clauses.


@lru_cache(None)
def clauses():
    """The names of the clauses of each function, of `Type::function` where it belongs to a type, and of its name alone."""
    found = {}
    for file in SOURCES:
        if not re.match(r"crates/\w+/src/.*\.rt$", file) or "/tests" in file:
            continue
        owner, made_of = None, []
        for line in text_of(file).splitlines():
            block = re.match(r"(?:pub |unsafe )*(?:impl|trait)\b(?:<.*?>+)? ?(.*)", line)
            made = re.match(r" *(?:pub(?:\(\w+\))? )?(?:const |unsafe )*fn (\w+)", line)
            if block:
                owner = WORD.match(block[1].split(" for ")[-1].strip())[0]
            elif line.startswith("}"):
                owner = None
            elif made:
                made_of = [found.setdefault(it, set()) for it in {made[1], f"{owner}::{made[1]}"}]
            for names in made_of:
                names.update(re.findall(r"\b(?:ensures|requires)\*? (\w+) \{", line))
    return found


PROMISED = re.compile(r"((?:`\w+::\w+`, )*`[\w:]+`): ((?:`\w+`(?:, | and )?)+)(?!::)")


def wrong_clauses(text):
    """Clauses that a page names after a function, as in `Name::push`: `ok`, `err`."""
    for at, line in enumerate(text.splitlines(), 1):
        for functions, names in PROMISED.findall(re.sub(r"\[(`[\w:]+`)\]\([^)]*\)", r"\1", line)):
            for function in re.findall(r"[\w:]+", functions):
                has = clauses().get(function, clauses().get(function.split("::")[-1]))
                if has is None:
                    yield at, f"no such function: {function}"
                for name in re.findall(r"\w+", names) if has is not None else []:
                    if name not in has and name != "and":
                        yield at, f"no such clause: {function}: {name}"


# Commits.

COMMIT = re.compile(r"(?<![\w.,-])[0-9a-f]{7,40}(?![\w-])")


@lru_cache(None)
def git(*words):
    """What git says of the repository, or None where it fails or is not there."""
    try:
        ran = subprocess.run(["git", "-C", ROOT, *words], capture_output=True, text=True, check=False)
    except OSError:
        return None
    return None if ran.returncode else ran.stdout.strip()


def has_history():
    """Whether the whole history is at hand: the last word is the folder in the work tree, none at the top."""
    words = ("--is-inside-work-tree", "--is-shallow-repository", "--show-prefix")
    return git("rev-parse", *words) == "true\nfalse"


def commits_in(text):
    """The commits that a page names, each with its line: words of 7 to 40 hexadecimal digits in a table, or in a line that
    speaks of a commit. Code and numbers count where the line does, or the head of the table."""
    head = ""
    for at, line in enumerate(text.splitlines(), 1):
        is_row = line.startswith("|")
        head = (head or line) if is_row else ""
        is_said = re.search(r"\bcommits?\b", head + line, re.I)
        if is_row or is_said:
            found = COMMIT.findall(line if is_said else re.sub(r"`[^`]*`", " ", line))
            yield from ((at, it) for it in found if is_said or not it.isdigit())


def wrong_commits(text):
    for at, commit in commits_in(text) if has_history() else []:
        if git("rev-parse", "--verify", "--quiet", f"{commit}^{{commit}}") is None:
            yield at, f"no such commit: {commit}"
        elif git("merge-base", "--is-ancestor", commit, "HEAD") is None:
            yield at, f"a commit that has not landed: {commit}"


def wrong_pages():
    """Pages that a source names and that are not there."""
    for file in SOURCES:
        text = text_of(file) if ".md" in text_of(file) else ""
        for at, line in enumerate(text.splitlines(), 1):
            for word in re.findall(r"[\w./-]+\.md\b", line) if ".md" in line else []:
                if not path_is_there(word) and word != "FILE.md":
                    yield f"{file}:{at}: no such page: {word}"


def wrong(file):
    """What is wrong in a page, each with its line."""
    text = text_of(file)
    prose = unread(text, BLOCK)
    found = [*wrong_links(file, prose)]
    if not file.startswith(GENERATED):
        found += [*wrong_names(prose), *wrong_commands(text), *wrong_counts(prose), *wrong_commits(prose)]
    if file == "docs/PROMISES.md":
        found += wrong_clauses(prose)
    return [f"{file}:{at}: {what}" for at, what in sorted(found)]


def main():
    given = [str(Path(it).resolve().relative_to(ROOT)) for it in sys.argv[1:]]
    told = [line for file in given or PAGES for line in wrong(file)] + ([] if given else [*wrong_pages()])
    print("\n".join([*told, f"{len(given or PAGES)} pages: {len(told)} to look at"]))
    return 1 if told else 0


if __name__ == "__main__":
    sys.exit(main())
