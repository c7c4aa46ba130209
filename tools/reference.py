#!/usr/bin/env python3
"""Writes docs/reference from the comments of the sources: a page for each crate, and an index.

    python3 tools/reference.py            writes the pages
    python3 tools/reference.py --check    compares them, and writes nothing

A page has the definitions of a crate by module, with the source of each: the RFC sections that its comment names, else
those of the module's head, else "own". It has the public functions with the first sentence of their comment and their
clauses by name, the constants, the calls that can find no memory with the test that makes each, and what the contracts let
through: the comments beside the code that begin with `Lets through:`.

The status is 1 where a public definition, function, type or constant has no comment, a module of definitions does not say
what it serves, and with --check where a page differs from what the sources say.
"""

import re
import sys
from pathlib import Path

sys.dont_write_bytecode = True
from memory_calls import case_of, exports, rows, sources

ROOT = Path(__file__).resolve().parent.parent
PAGES = ROOT / "docs" / "reference"
UP = "../.."
NOTE = "Written by `tools/reference.py` from the comments of the sources: change those."

KIND = r"(?:(?:unfoldable|abbrev|record|data) )*"
DEFINITION = re.compile(rf"{KIND}pub (?!mod |use ){KIND}(\S+)")
PRIVATE = "What follows, private contracts alone cite"
RFC = re.compile(r"RFC(?:\s|-- )+\d+(?:\s+\d+(?:\.\d+)*)?(?:(?:,| and|, and| to)\s+\d+(?:\.\d+)+)*")
ITEM = re.compile(r"( *)(?:pub )?(?:const )?fn (\w+)")
NAMED = re.compile(r"(\s*)(?:pub(?:\(\w+\))? )?(?:const )?(?:unsafe )?(?:fn|struct|enum|const|trait|static) (\w+)")
CLAUSE = re.compile(r"\b(?:ensures|requires)\*?(?: (\w+))? \{")
LETS = "Lets through: "

told = []


def fault(file, at, what):
    told.append(f"{file.relative_to(ROOT)}:{at + 1}: {what}")


def crates():
    listed = (line.partition("#")[0].partition(":")[0].split() for line in (ROOT / "crates.txt").read_text().splitlines())
    return [words[0] for words in listed if words]


def comment_above(lines, at, mark):
    """The text of the comment right above a line, attributes between them passed over; and where it begins."""
    while at and lines[at - 1].strip().startswith("#["):
        at -= 1
    first = at
    while first and re.match(rf"\s*{mark}(?: |$)", lines[first - 1]):
        first -= 1
    text = " ".join(line.strip()[len(mark) :].strip() or "\n" for line in lines[first:at])
    return re.sub(r" *\n *", "\n", text).strip(), first


def first_sentence(text):
    """The first sentence of a comment. A full stop in a number or a section ends none."""
    return re.split(r"(?<=[\w)`\]\"]\.) (?=[A-Z`\"])", text.partition("\n")[0], maxsplit=1)[0]


def cell(text):
    """A text as a cell of a table: a bar is no border, and a link of Rust's documentation is a word."""
    text = re.sub(r"\[(`[^`\]]+`)\](?:\([^)]*\))?", r"\1", text)
    return text.replace("|", "\\|").replace("\n", "<br>")


def sentence(text):
    """A text that begins with a capital letter, as a sentence, unless it begins with a name."""
    plain = re.match(r"[a-z]{2,}[ ,]|a (?!is |has |was |and |or |may )[A-Za-z]", text)
    text = text[0].upper() + text[1:] if plain else text
    return text if text.endswith((".", ":", "?")) else text + "."


def rfcs(text):
    return ", ".join(dict.fromkeys(re.sub(r"\s+", " ", it.replace("-- ", "")) for it in RFC.findall(text)))


def link(file):
    return f"{UP}/{file.relative_to(ROOT).as_posix()}"


def anchored(word):
    return f'<a id="{word}"></a>`{word}`'


class Module:
    """A file of definitions: what its head says of it, whom it serves, its words with their comments."""

    def __init__(self, file, top):
        lines = file.read_text().splitlines()
        self.file, self.name = file, ".".join(file.relative_to(top).with_suffix("").parts)
        heads = []
        for line in lines:
            if not line.startswith("--"):
                break
            heads.append(line[2:].strip())
        serves = next((at for at, it in enumerate(heads) if it.startswith("Serves")), len(heads))
        self.about, self.serves = " ".join(heads[:serves]), " ".join(heads[serves:])
        self.words, self.private, private = [], [], "steps" in file.parts
        self.handed_on = re.findall(r"^pub use Rattle\.(\w+)\.specs\.([\w.]+)\.\{([^}]*)\}", "\n".join(lines), re.M)
        for at, line in enumerate(lines):
            private = private or PRIVATE in line
            found = DEFINITION.match(line)
            if found:
                text, _ = comment_above(lines, at, "--")
                if not text:
                    fault(file, at, f"{found[1]} has no comment")
                (self.private if private else self.words).append((found[1], text))
        if not self.is_list() and not (self.about and self.serves):
            fault(file, 0, "the head does not say what the module is about, and whom it serves")

    def is_list(self):
        """Whether it only lists modules."""
        return not (self.words or self.private or self.handed_on)

    def hands_on(self):
        """The words of other crates that it hands on."""
        told = (f"It hands on {', '.join(f'`{it.strip()}`' for it in words.split(','))} of [{crate} {place}]({crate}.md)."
                for crate, place, words in self.handed_on)
        return " ".join(told)

    def rows(self, words):
        for word, text in words:
            source = rfcs(text) or rfcs(self.about) or "own"
            yield f"| {anchored(word)} | {source} | {cell(sentence(text)) if text else ''} |"


def modules_of(crate):
    top = ROOT / "crates" / crate / "specs"
    found = [Module(file, top) for file in sorted(top.rglob("*.antt"))]
    return [it for it in found if not it.is_list()]


def clauses_below(lines, at, indent):
    """The names of the clauses of the function whose head begins at a line, and how many have none."""
    names, nameless, depth = [], 0, 0
    for line in lines[at:]:
        if not depth and (line.startswith(f"{indent}{{") or line.rstrip().endswith("{}") and "ensures" not in line):
            break
        if not depth:
            for found in CLAUSE.finditer(line):
                names.append(found[1]) if found[1] else None
                nameless += not found[1]
        depth += line.count("{") - line.count("}")
        if depth <= 0 and line.rstrip().endswith(";"):
            break
        if depth == 1 and line.rstrip().endswith("{") and not CLAUSE.search(line):
            break
    return list(dict.fromkeys(names)), nameless


class Source:
    """A source file of a crate: its public functions, types and constants, and what its contracts let through."""

    def __init__(self, file, names, modules):
        self.file, self.lines, self.place = file, file.read_text().splitlines(), f"[{file.stem}]({link(file)})"
        self.functions, self.types, self.constants, self.lets = [], [], [], []
        owner, is_trait, open_module = None, False, file.stem in modules or file.name == "lib.rt"
        for at, line in enumerate(self.lines):
            block = re.match(r"(pub )?(?:unsafe )?(impl|trait)\b(?:<.*?>+)? ?(.*)", line)
            if block:
                owner, is_trait = re.match(r"\w+", block[3].split(" for ")[-1].strip())[0], block[2] == "trait"
            elif line.startswith("}"):
                owner = None
            kind = re.match(r"pub (struct|enum|trait|const) (\w+)", line)
            if kind and (kind[2] in names or open_module):
                self.add_item(at, *kind.groups())
            made = ITEM.match(line)
            if made and not self.is_test(at):
                name = f"{owner}::{made[2]}" if made[1] and owner else made[2]
                shown = "pub " in line.partition("fn")[0] or is_trait and made[1]
                if shown and (owner in names if made[1] else made[2] in names or open_module):
                    self.add_function(at, made[1], name)
            if line.strip().startswith(f"// {LETS}"):
                self.add_let(at, owner)

    def is_test(self, at):
        return any("#[test]" in it for it in self.lines[max(0, at - 3) : at])

    def add_item(self, at, kind, name):
        text, _ = comment_above(self.lines, at, "///")
        if not text:
            fault(self.file, at, f"{name} has no comment")
        if kind == "const":
            value = re.search(r"= ([^;]*);", self.lines[at])
            self.constants.append((name, value[1] if value else "", text))
        else:
            self.types.append((name, kind, text))

    def add_function(self, at, indent, name):
        text, _ = comment_above(self.lines, at, "///")
        if not text:
            fault(self.file, at, f"{name} has no comment")
        self.functions.append((name, text, *clauses_below(self.lines, at, indent)))

    def add_let(self, at, owner):
        """A comment of what is let through, and the function, type or constant that it stands above."""
        end = at
        while end < len(self.lines) and re.match(r"\s*//(?!/)", self.lines[end]):
            end += 1
        text = " ".join(it.strip()[2:].strip() for it in self.lines[at:end])[len(LETS) :]
        below = next((it for it in self.lines[end:] if not it.strip().startswith(("///", "#["))), "")
        found = NAMED.match(below)
        name = found[2] if found else self.file.stem
        self.lets.append((f"{owner}::{name}" if found and found[1] and owner else name, text))


def sources_of(crate):
    names, modules = exports(sources(crate))
    files = sorted((ROOT / "crates" / crate / "src").rglob("*.rt"))
    return [Source(file, names, modules) for file in files if "tests" not in file.parts]


def table(head, lines):
    lines = list(lines)
    return [f"| {' | '.join(head)} |", "|---" * len(head) + "|", *lines, ""] if lines else []


def definitions(title, modules, words_of):
    page = []
    for module in modules:
        words = words_of(module)
        if words or module.handed_on and words is module.words:
            told = f"{module.about} {module.serves} {module.hands_on() if words is module.words else ''}"
            page += [f"### [{module.name}]({link(module.file)})", "", told.strip(), ""]
            page += table(("Word", "Source", "What it says"), module.rows(words))
    return [f"## {title}", "", *page] if page else []


def functions(files):
    lines = []
    for it in files:
        for name, text, names, nameless in it.functions:
            clauses = ", ".join(f"`{name}`" for name in names) or ("one" if nameless else "none")
            if names and nameless:
                clauses += f", {nameless} without a name"
            lines.append(f"| {anchored(name)} | {it.place} | {cell(first_sentence(text))} | {clauses} |")
    return table(("Function", "File", "What it does", "Clauses"), lines)


def types(files):
    return table(("Type", "Kind", "File", "What it is"), (
        f"| {anchored(name)} | {kind} | {it.place} | {cell(first_sentence(text))} |"
        for it in files for name, kind, text in it.types))


def bounds(crate, files):
    return table(("Constant", "Value", "File", "What it is", "Cited in"), (
        f"| {anchored(name)} | `{value}` | {it.place} | {cell(text)} | {cited_in(crate, name)} |"
        for it in files for name, value, text in it.constants))


def lets(files):
    return table(("Where", "File", "What a body may do by its contract"), (
        f"| `{name}` | {it.place} | {cell(sentence(text))} |" for it in files for name, text in it.lets))


def part(head, lines):
    """A part of a page, or nothing where it has no line."""
    return [head, "", *lines] if lines else []


def cited_in(crate, name):
    """The modules of definitions that cite a constant."""
    found = []
    for file in sorted((ROOT / "crates").glob("*/specs/**/*.antt")):
        if re.search(rf"\b{name}\b", file.read_text()):
            owner = file.relative_to(ROOT / "crates").parts[0]
            word = ".".join(file.relative_to(ROOT / "crates" / owner / "specs").with_suffix("").parts)
            found.append(f"[{word}]({link(file)})" if owner == crate else f"[{owner} {word}]({link(file)})")
    return ", ".join(found)


def memory(crate):
    lines = []
    for owner, calls, test in sorted(rows()):
        if owner == crate:
            lines.append(f"| {', '.join(f'`{it}`' for it in calls)} | `{case_of(test) or test}` |")
    return table(("Calls", "Test"), lines)


def head_of(crate):
    """What the root of a crate says of it first."""
    roots = (ROOT / "crates" / crate / "src" / name for name in ("lib.rt", "main.rt"))
    lines = next(it for it in roots if it.is_file()).read_text().splitlines()
    text = "\n".join(line[3:].strip() for line in lines if line.startswith("//!"))
    return cell(text.partition("\n\n")[0].replace("\n", " "))


def page_of(crate, modules, files):
    page = [f"# `{crate}`", "", head_of(crate), "", NOTE, ""]
    page += definitions("Definitions", modules, lambda it: it.words)
    page += part("## Types", types(files)) + part("## Public functions", functions(files)) + part("## Bounds", bounds(crate, files))
    page += part('<a id="memory"></a>\n\n## Calls that can find no memory\n\nBy its contract each of these calls may always '
                 'answer "out of memory". Its test fails if it does.', memory(crate))
    page += part('<a id="let-through"></a>\n\n## What the contracts let through', lets(files))
    page += definitions("Definitions of private contracts, and of laws of memory", modules, lambda it: it.private)
    return "\n".join(page).rstrip() + "\n"


def index_of(modules):
    page = ["# Reference", "", NOTE, "", "Where a rule is: each module of definitions, what it is about, whom it serves.", ""]
    for crate, found in modules.items():
        page += [f"## [`{crate}`]({crate}.md)", ""]
        page += table(("Module", "What it is about", "Serves"), (
            f"| [{it.name}]({link(it.file)}) | {cell(it.about)} | {cell(it.serves.removeprefix('Serves ').rstrip('.'))} |"
            for it in found))
    return "\n".join(page).rstrip() + "\n"


def made():
    """The pages by name."""
    modules = {crate: modules_of(crate) for crate in crates() if not crate.endswith(("_tests", "_bench"))}
    pages = {f"{crate}.md": page_of(crate, found, sources_of(crate)) for crate, found in modules.items()}
    return {"README.md": index_of(modules), **pages}


def main():
    pages = made()
    there = {file.name: file.read_text() for file in PAGES.glob("*.md")} if PAGES.is_dir() else {}
    if "--check" in sys.argv[1:]:
        told.extend(f"docs/reference/{name}: not what the sources say: python3 tools/reference.py writes it"
                    for name in sorted(pages.keys() | there.keys()) if pages.get(name) != there.get(name))
    else:
        PAGES.mkdir(exist_ok=True)
        for name, text in pages.items():
            (PAGES / name).write_text(text)
        for name in there.keys() - pages.keys():
            (PAGES / name).unlink()
    print("\n".join([*told, f"{len(pages)} pages: {len(told)} to look at"]))
    sys.exit(1 if told else 0)


if __name__ == "__main__":
    main()
