#!/usr/bin/env python3
"""Writes dnsfleet.1, the page of `man dnsfleet`, from the words that `dnsfleet --help` prints.

    python3 tools/manual.py            writes the page
    python3 tools/manual.py --check    compares it, and writes nothing

The commands and their options are those of crates/fleet_program/src, and the texts those of help.rt there. In a text,
a line that begins with two spaces is a row where a wide gap parts a word from what it is, and else a line to be printed
as it is. All other lines are prose; those that end in a colon head what comes after them.

The status is 1 where --check finds another page, or a text or an option is not found.
"""

import itertools
import re
import sys
import textwrap
from pathlib import Path
from typing import NamedTuple

ROOT = Path(__file__).resolve().parent.parent
SOURCES = ROOT / "crates" / "fleet_program" / "src"
PAGE = ROOT / "dnsfleet.1"
TEXT = r'"((?:[^"\\]|\\.)*)"'
CONSTANT = re.compile(rf"^(?:pub )?const (\w+): &str = {TEXT};", re.M | re.S)
COMMAND = re.compile(rf"Command::new\(alloc, {TEXT}\)\s*\.about\({TEXT}\)(.*?);", re.S)
HELP = re.compile(r"\.after_help\(help::(\w+)\)")
OPTION = re.compile(rf"\b(required|optional|repeated|words)\(\s*alloc,\s*{TEXT},\s*{TEXT},\s*(?:{TEXT}|(\w+)),?\s*\)", re.S)
NAMED = re.compile(rf"let (\w+) = {TEXT};")
ROW = re.compile(r"  (\S.*?) {2,}(\S.*)")


class Option(NamedTuple):
    """An option or a word: how it is called, what it is, and the function of options.rt that makes it."""

    called: str
    says: str
    kind: str


# A space that does not end a line.
GLUE = "\a"
# The day on which the words changed last, set by hand.
DATE = "2026-12-01"

# What no text of the program says.
STATUS = """\
.SH EXIT STATUS
.TP
0
What was asked for was done.
.TP
1
A line of a script, a configuration, the socket, the output or an
allocation failed: a line on standard error says which.
Or a site did not say that a name is withdrawn.
.TP
2
The words or the key are not taken.
.TP
3
A name is withdrawn at all sites, and at one of them it was an alias
that ended at a name which the flush does not reach."""
STANDARDS = """\
.SH STANDARDS
RFC 1034, RFC 1035, RFC 2181, RFC 2308, RFC 8020."""


def unescaped(text):
    """A string literal's text: a backslash at the end of a line takes the line feed, and the spaces after it, away."""
    return re.sub(r"\\(\n\s*|.)", lambda it: "" if it[1].isspace() else {"n": "\n"}.get(it[1], it[1]), text, flags=re.S)


def source(name):
    return (SOURCES / name).read_text(encoding="utf-8")


def options(text):
    """The options and words of a file, each as it is called, and what it is."""
    found = []
    for it in OPTION.finditer(text):
        kind, name, value, says, named = it.groups()
        if named:
            says = [other[2] for other in NAMED.finditer(text, 0, it.start()) if other[1] == named][-1]
        called = f"\\fI{value}\\fR" if kind == "words" else f"\\fB{escaped('--' + name)}\\fR \\fI{value}\\fR"
        found.append(Option(called, unescaped(says), kind))
    return found


def escaped(text):
    """Text for the page: its own backslashes and hyphens stay what they are."""
    return text.replace("\\", "\\e").replace("-", "\\-")


def filled(text):
    """A line of prose. What stands in backquotes is bold; a dot or a quote does not begin it."""
    text = re.sub(r"`([^`]*)`", r"\\fB\1\\fR", escaped(text.replace(GLUE, " ")))
    return f"\\&{text}" if text.startswith((".", "'")) else text


def prose(text):
    """Lines of prose, a new one for each sentence. What stands in backquotes is not parted."""
    text = re.sub(r"`[^`]*`", lambda it: it[0].replace(" ", GLUE), " ".join(text.split()))
    lines = []
    for sentence in text.replace(". ", ".\n").splitlines():
        lines += textwrap.wrap(sentence, 70, break_long_words=False, break_on_hyphens=False)
    return [filled(it) for it in lines]


def literal(text):
    """A line to be printed as it is; a long one is continued."""
    pieces = [escaped(text[at : at + 60]) for at in range(0, len(text), 60)] or [""]
    return [f"{piece}\\" for piece in pieces[:-1]] + [f"\\&{pieces[0]}" if len(pieces) == 1 else pieces[-1]]


def kind_of(text):
    """What a line of a text is: a blank one, a row, one to be printed as it is, or prose."""
    if not text.strip():
        return "blank"
    return "prose" if not text.startswith("  ") else "row" if ROW.fullmatch(text) else "literal"


def laid_out(text):
    """The lines of the page for a text."""
    page = []
    for kind, group in itertools.groupby(text.splitlines(), kind_of):
        group = list(group)
        if kind == "prose":
            page += [".PP", *prose(" ".join(group))]
        elif kind == "literal":
            page += [".PP", ".EX", *(piece for it in group for piece in literal(it[2:])), ".EE"]
        elif kind == "row":
            for word, says in (ROW.fullmatch(it).groups() for it in group):
                page += [".TP", f".B {escaped(word)}", *prose(says)]
    return page


def synopsis(name, given):
    """How a command is called. What is said to be a thing of its kind, and not the only one, may come more than once."""
    words = []
    for it in given:
        more = " .." if it.kind in ("repeated", "words") and it.says.startswith("A ") else ""
        words.append(f"[{it.called}]" if it.kind == "optional" else it.called + more)
    return [".br", f"\\fBdnsfleet {name}\\fR {' '.join(words)}".strip()]


def section(name, about, given, text):
    """What the page says of a command."""
    page = [f".SS dnsfleet {name}", *prose(f"{about}.")]
    for it in given:
        page += [".TP", it.called, *prose(f"{it.says}.")]
    return [*page, *laid_out(text)]


def page():
    """The page."""
    library = source("lib.rt")
    texts = {name: unescaped(text) for name, text in CONSTANT.findall(source("help.rt"))}
    version = dict(CONSTANT.findall(library))["VERSION"]
    commands = [(name, about, HELP.search(rest)[1]) for name, about, rest in COMMAND.findall(library)]
    given = {name: options(source(f"{name}.rt")) if name != "dnsfleet" else [] for name, _, _ in commands}
    (_, about, whole), parts = next(it for it in commands if it[0] == "dnsfleet"), [it for it in commands if it[0] != "dnsfleet"]
    about = about[0].lower() + about[1:]
    lines = ['.\\" Written by tools/manual.py from the words of `dnsfleet --help`.',
             f'.TH DNSFLEET 1 {DATE} "dnsfleet {version}"', ".SH NAME", f"dnsfleet \\- {about}", ".SH SYNOPSIS"]
    for name, _, _ in parts:
        lines += synopsis(name, given[name])[0 if name != parts[0][0] else 1 :]
    lines.append(".SH DESCRIPTION")
    for name, about, text in parts:
        lines += section(name, about, given[name], texts[text])
    lines += [STATUS, ".SH EXAMPLES", *laid_out(texts[whole].partition("\n")[2])[1:], STANDARDS]
    return "\n".join(lines) + "\n"


def main():
    text = page()
    if "--check" not in sys.argv[1:]:
        PAGE.write_text(text, encoding="utf-8")
        return 0
    if PAGE.is_file() and PAGE.read_text(encoding="utf-8") == text:
        print("dnsfleet.1: as the program's help says")
        return 0
    print("dnsfleet.1 is not what tools/manual.py writes: run it")
    return 1


if __name__ == "__main__":
    sys.exit(main())
