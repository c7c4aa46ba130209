#!/usr/bin/env python3
"""Writes at the head of each lemma file whom it serves, and looks whether what proofs import is there.

    python3 tools/lemmas.py            writes the lines
    python3 tools/lemmas.py --check    compares them, and writes nothing

A lemma file is a file of a crate's proofs/ that is in no function's folder. Its head says what it is about, and then, after
`Serves`, whose proofs need it. These are the functions of its crate whose proofs cite it: directly, through other lemma
files, or through definitions that are built with its lemmas. If they are more than MOST, the head names those that cite the
file themselves, and the files through which the others do. Of the crates above it names the crates alone.

The status is 1 where

- a lemma file does not say what it is about, or with --check not whom it serves;
- no function needs it, or it serves one function of its crate alone and is not named after it: for `parent` it is Parent,
  or begins so, as ParentLemmas;
- a module or an item of proofs/ that is imported is not there, or stands in a crate below and not in proofs/Lemmas.antt;
- Lib.antt lists another file than those beside it, or one of them twice or not at all.
"""

import re
import sys
import textwrap
from collections import defaultdict
from pathlib import Path
from typing import NamedTuple

sys.dont_write_bytecode = True
from reference import KIND, crates

ROOT = Path(__file__).resolve().parent.parent
CRATES = ROOT / "crates"
ORDER = crates()
MOST = 8
WIDTH = 100  # of a line of a head

# The files in a function's folder, and the modules that the checker adds to it.
OF_FUNCTION = {"Answers", "Invariants", "Proof"}
MADE = {"Goals", "Given", "Code", "Statement", "Symbol", "Met"}

# An import of a crate of this repository.
IMPORT = re.compile(r"(pub use )?\bRattle\.(\w*fleet\w*\.(?:proofs|specs)(?:\.[\w+]+)+)(?:\.\{([^}]*)\})?")
# A lemma that an attribute of a function names.
NAMED = re.compile(r"\bcrate::proofs::(\w+(?:::\w+)*)::(\w+)")
# A definition, or a case or a part of one, which stands indented.
DEFINED = re.compile(rf"^(?: *{KIND}pub (?!mod |use ){KIND}| +(?=\S+ : ))(\S+)", re.M)
BLOCK = re.compile(r"(?:pub |unsafe )*(?:impl|trait)\b(?:<.*?>+)? ?(?:(\w+)(?:<[^{]*?>+)? for )?(\w+)")
TYPE = re.compile(r"(?:pub(?:\(\w+\))? )?(?:struct|enum|union|type) (\w+)")
FUNCTION = re.compile(r"( *)(?:pub(?:\(\w+\))? )?(?:const |unsafe |ghost )*fn (\w+)")


class Function(NamedTuple):
    """A function: its crate, and the folder of its proof as the parts of its path."""

    crate: str
    path: tuple


class Import(NamedTuple):
    """An import: its line, whether it hands on what it imports, and the module with the items that it takes of it."""

    at: int
    is_public: bool
    module: str
    items: list


def line_of(text, found):
    """The line on which a match of a text begins."""
    return text.count("\n", 0, found.start()) + 1


def imports_of(text):
    """What a text imports. Each item is a list of its name and, where it is renamed, its new name."""
    for found in IMPORT.finditer(text):
        items = [re.split(r"\s+as\s+", it.strip()) for it in (found[3] or "").split(",") if it.strip()]
        yield Import(line_of(text, found), bool(found[1]), found[2], items)


def named_in(crate, text):
    """The lemmas that attributes in a text of the code name, as imports."""
    for found in NAMED.finditer(text):
        path = found[1].replace("::", ".")
        yield Import(line_of(text, found), False, f"{crate}.proofs.{path}", [[found[2]]])


def listing(names):
    """Names as they stand in a sentence."""
    return ", ".join(f"`{it}`" for it in names)


class Module:
    """A file of proofs/ or specs/: what it imports, hands on and defines. Its name is its path in that folder."""

    def __init__(self, file):
        self.file, parts = file, file.relative_to(CRATES).with_suffix("").parts
        self.crate, self.folder, *path = parts
        self.path, self.name = ".".join(parts), ".".join(path)
        text = re.sub(r"(^|[ \t])--.*", "", file.read_text(), flags=re.M)
        self.imports = [*imports_of(text)]
        self.handed_on = {names[-1]: it.module for it in self.imports if it.is_public for names in it.items}
        self.words = {*DEFINED.findall(text), *self.handed_on}
        self.listed = re.findall(r"^(?:pub )?mod (\w+)$", text, re.M)
        end = next((at for at, it in enumerate(path) if at and it in OF_FUNCTION), 0)
        self.function = Function(self.crate, tuple(path[:end])) if end and self.folder == "proofs" else None

    def is_lemma_file(self):
        """Whether it is in proofs/, and in no function's folder."""
        return self.folder == "proofs" and not self.function and self.name != "Lib"


class Code:
    """The code of a crate: its types, its functions that belong to no type, and the lemmas that attributes name."""

    def __init__(self, crate):
        self.crate, self.types, self.named = crate, set(), []
        # The modules that have a function of a name; not laws, which a head names as such.
        self.modules = defaultdict(set)
        top = CRATES / crate / "src"
        for file in sorted(top.rglob("*.rt")):
            self.read(file.relative_to(top).with_suffix("").parts, file.read_text())

    def read(self, place, text):
        """Adds what a file has whose path below src/ has these parts."""
        owner, lemmas = "", []
        for line in text.splitlines():
            block, kind, made = BLOCK.match(line), TYPE.match(line), FUNCTION.match(line)
            if block:
                owner = block[2] + (block[1] or "")
            if kind:
                self.types.add(kind[1])
            lemmas += [it.module for it in named_in(self.crate, line)]
            if made:
                path = [*(place if place != ("lib",) else ()), *([owner] if made[1] else ()), made[2]]
                self.named += [(Function(self.crate, tuple(path)), it) for it in lemmas]
                lemmas = []
                if not made[1] and place[0] not in ("laws", "tests"):
                    self.modules[made[2]].add(place)

    def name_of(self, function):
        """A function as a reader knows it: with its type, or with its module where two have one of this name. In a path, the
        name of a trait follows the type's, and a function's name may have a `+` before it."""
        *path, last = (it.lstrip("+") for it in function.path)
        if path and path[-1][0].isupper():
            owner = max((it for it in self.types if path[-1].startswith(it)), key=len, default=path[-1])
            return f"{owner}::{last}"
        return f"{path[-1]}::{last}" if path and len(self.modules[last]) > 1 else last


class Tree:
    """The modules of proofs/ and specs/ by their paths, those that are lemma files, the code of each crate, and who cites
    each module: functions, and the paths of modules."""

    def __init__(self):
        files = sorted([*CRATES.glob("*/proofs/**/*.antt"), *CRATES.glob("*/specs/**/*.antt")])
        self.modules = {it.path: it for it in map(Module, files)}
        self.lemma_files = [it for it in self.modules.values() if it.is_lemma_file()]
        self.code = {crate: Code(crate) for crate in ORDER}
        self.cited_by = defaultdict(set)
        for module in self.modules.values():
            # Of the modules of specs/, those count that are built with lemmas.
            if module.folder == "proofs" or any(".proofs." in it.module for it in module.imports):
                self.add_citations(module)
        for code in self.code.values():
            for function, cited in code.named:
                self.cited_by[cited].add(function)

    def add_citations(self, module):
        """What a module imports, it cites; what it hands on, those cite who import it of the module."""
        who = module.function or module.path
        for it in module.imports:
            if it.is_public or it.module not in self.modules:
                continue
            handed_on = self.modules[it.module].handed_on
            cited = {it.module, *(handed_on[names[0]] for names in it.items if names[0] in handed_on)}
            for path in cited - {who}:
                self.cited_by[path].add(who)

    def served_by(self, module):
        """All functions that a module serves, of every crate."""
        seen, todo = set(), [module.path]
        while todo:
            more = self.cited_by[todo.pop()] - seen
            seen |= more
            todo += [it for it in more if isinstance(it, str)]
        return {it for it in seen if isinstance(it, Function)}

    def serves(self, module):
        """The sentence that says whom a lemma file serves; nothing where it serves nobody."""
        functions = self.served_by(module)
        above = sorted({it.crate for it in functions} - {module.crate}, key=ORDER.index)
        own, through = {it for it in functions if it.crate == module.crate}, []
        if len(own) > MOST:
            own &= self.cited_by[module.path]
            citing = [self.modules[it] for it in self.cited_by[module.path] if isinstance(it, str)]
            through = sorted(it.name for it in citing if it.crate == module.crate)
        names = [self.code[module.crate].name_of(it) for it in sorted(own) if it.path[0] != "laws"]
        laws = sorted(it.path[-1] for it in own if it.path[0] == "laws")
        said = [listing(dict.fromkeys(names))] if names else []
        said += [f"{'law' if len(laws) == 1 else 'the laws'} {listing(laws)}"] if laws else []
        said += [f"what {listing(through)} {'serves' if len(through) == 1 else 'serve'}"] if through else []
        said += [", ".join(above)] if above else []
        if len(said) > 1 and (through or above):
            said[-1] = f"and {said[-1]}"
        return f"Serves {', '.join(said)}." if said else ""


def lines_of(sentence):
    """A sentence as the lines of a comment."""
    lines = textwrap.wrap(sentence, WIDTH - len("-- "), break_long_words=False, break_on_hyphens=False)
    return [f"-- {it}" for it in lines]


def parts_of(file):
    """The lines of a file's head that say what it is about, those that say whom it serves, and the rest of the file."""
    lines = file.read_text().split("\n")
    end = next((at for at, it in enumerate(lines) if not it.startswith("--")), len(lines))
    serves = next((at for at, it in enumerate(lines[:end]) if it.startswith("-- Serves ")), end)
    return lines[:serves], lines[serves:end], lines[end:]


def write_head(tree, module):
    """Writes whom a lemma file serves in the place of what it says of it."""
    about, served, rest = parts_of(module.file)
    wanted = lines_of(tree.serves(module))
    if served != wanted:
        module.file.write_text("\n".join([*about, *wanted, *rest]))


def wrong_head(tree, module):
    """What is wrong in the head of a lemma file, and with the file's name."""
    about, served, _ = parts_of(module.file)
    wanted = lines_of(tree.serves(module))
    if not about:
        yield 1, "the head does not say what the file is about"
    if not wanted:
        yield 1, "no function needs this file"
    elif served != wanted:
        yield len(about) + 1, "\n    ".join(["here the head should say, as python3 tools/lemmas.py writes it:", *wanted])
    functions = [*tree.served_by(module)]
    if len(functions) == 1 and functions[0].crate == module.crate:
        name = tree.code[module.crate].name_of(functions[0])
        wanted = "".join(it[0].upper() + it[1:] for it in re.split("::|_", name))
        if not module.file.stem.startswith(wanted):
            yield 1, f"the file serves `{name}` alone, so its name should begin with {wanted}"


def wrong_import(tree, crate, found):
    """What is wrong with an import in a file of a crate."""
    owner, folder, *path = found.module.split(".")
    if folder != "proofs" or len(path) > 1 and path[-1] in MADE:
        return
    if found.module not in tree.modules:
        yield found.at, f"no such module: {found.module}"
        return
    if owner != crate and path != ["Lemmas"]:
        yield found.at, f"of a crate below, only proofs/Lemmas.antt may be cited: {found.module}"
    for name in (names[0] for names in found.items):
        if name not in tree.modules[found.module].words:
            yield found.at, f"{found.module} has no {name}"


def wrong_imports(tree):
    """The files with an import that is wrong, and what is wrong with it."""
    found = [(it.file, it.crate, it.imports) for it in tree.modules.values()]
    for file in sorted([*CRATES.glob("*/src/**/*.rt"), *CRATES.glob("*/*/*.edit")]):
        crate, text = file.relative_to(CRATES).parts[0], file.read_text()
        found.append((file, crate, [*imports_of(text), *named_in(crate, text)]))
    yield from ((file, *wrong) for file, crate, imports in found for it in imports for wrong in wrong_import(tree, crate, it))


def wrong_list(folder):
    """What is wrong in the Lib.antt of a folder proofs/."""
    library = folder / "Lib.antt"
    there = sorted(it.stem for it in folder.glob("*.antt") if it != library)
    listed = sorted(Module(library).listed) if library.is_file() else []
    if listed != there:
        wrong = sorted({*listed} ^ {*there}) or sorted({it for it in listed if listed.count(it) > 1})
        yield 1, f"it has to list once each file beside it, and no other: {', '.join(wrong)}"


def main():
    """Writes the lines, unless they are to be compared, and tells what is wrong."""
    tree = Tree()
    if "--check" not in sys.argv[1:]:
        for it in tree.lemma_files:
            write_head(tree, it)
    told = [(it.file, *wrong) for it in tree.lemma_files for wrong in wrong_head(tree, it)]
    told += wrong_imports(tree)
    told += [(it / "Lib.antt", *wrong) for it in sorted(CRATES.glob("*/proofs")) for wrong in wrong_list(it)]
    for file, at, what in told:
        print(f"{file.relative_to(ROOT)}:{at}: {what}")
    print(f"{len(tree.lemma_files)} lemma files: {len(told)} to look at")
    return 1 if told else 0


if __name__ == "__main__":
    sys.exit(main())
