"""What verdicts rest on: the text of a crate's sources, and what it promises to the crates above it.

A proof reads of a crate below its specs/, of its src/ all but private functions and the bodies of functions, and the
statements of the lemmas that proofs/Lemmas.antt hands on. A comment is no part of any of it, nor is the way in which code is
broken into lines. Where a text can't be taken apart, it counts whole: then a verdict is stale once too often.
"""

import re

TOKEN = re.compile(
    r"""//[^\n]*|/\*.*?\*/|\s+            # a comment, a space
    |b?r(?P<marks>\#*)".*?"(?P=marks)     # a string as it stands
    |b?"(?:\\.|[^"\\])*"                  # a string
    |b?'(?:\\[^']*.|[^'\\])'|'\w+         # a character, a lifetime
    |\w+|.""",
    re.S | re.X,
)
PAIRS = {"(": ")", "[": "]", "{": "}"}
CLAUSES = {"requires", "ensures", "ghost"}
SIGNATURE = re.compile(r"\s*(?:pub )*(abbrev |unfoldable )?(?:pub )?(\S+) :(?: |$)")


def read(file):
    return file.read_text(encoding="utf-8", errors="replace")


def tokens_of(text):
    """The tokens of a source file, without comments and spaces."""
    found = (it[0] for it in TOKEN.finditer(text))
    return [it for it in found if not it.isspace() and not it.startswith(("//", "/*"))]


def end_of_group(tokens, at):
    """Where the group ends that begins with the bracket at this place."""
    wanted = []
    while at < len(tokens):
        if tokens[at] in PAIRS:
            wanted.append(PAIRS[tokens[at]])
        elif wanted and tokens[at] == wanted[-1]:
            wanted.pop()
        at += 1
        if not wanted:
            break
    return at


def end_of_head(tokens, at):
    """Where the signature of a function and its clauses end: at its body, or at the `;` in its place. A clause has braces of
    its own, so the body is the first group in braces that no clause asks for."""
    clause = False
    while at < len(tokens):
        token = tokens[at]
        if token == ";" or token == "{" and not clause:
            return at
        if token in PAIRS:
            clause = clause and token != "{"
            at = end_of_group(tokens, at)
        else:
            clause = clause or token in CLAUSES
            at += 1
    return at


def is_public(tokens, at, of_trait):
    """Whether crates above can see the function whose `fn` is at this place: it is `pub`, or belongs to a trait."""
    while at and tokens[at - 1] in ("const", "unsafe"):
        at -= 1
    return of_trait or tokens[at - 1 : at] == ["pub"]


def promised(tokens):
    """The tokens of a file without private functions, without the bodies of the others and without private imports; and
    these imports."""
    kept, imports, of_traits, item, at = [], [], [False], [], 0
    while at < len(tokens):
        token = tokens[at]
        if token == "fn":
            end = end_of_head(tokens, at)
            if is_public(tokens, at, of_traits[-1]):
                kept += tokens[at:end] + [";"]
            else:
                del kept[len(kept) - len(item) :]
            item, at = [], end_of_group(tokens, end)
        elif token == "use" and tokens[at - 1 : at] not in (["pub"], [")"]):
            end = tokens.index(";", at) if ";" in tokens[at:] else len(tokens)
            imports.append(re.sub(r" ?([^\w ]) ?", r"\1", " ".join(tokens[at + 1 : end])))
            if item[-1:] == ["ghost"]:
                kept.pop()
            item, at = [], end + 1
        else:
            if token == "{":
                of_traits.append("trait" in item or "impl" in item and "for" in item)
            elif token == "}" and len(of_traits) > 1:
                of_traits.pop()
            item = [] if token in "{};" else item + [token]
            kept.append(token)
            at += 1
    return kept, imports


def cited_imports(imports, text):
    """Those names of imports, each with its place, that a text cites. A name with other signs than letters is looked for
    sign by sign, so that one too many may be found."""
    words, squeezed, found = set(re.findall(r"\w+", text)), re.sub(r"\s", "", text), []
    for line in imports:
        place, _, names = (it.strip() for it in line.partition("{"))
        for name in names.rstrip("} ").split(",") if names else [place]:
            last = re.split(r"::|\.", re.sub(r".*\bas\s+", "", name.strip(" {}")))[-1]
            parts = [it for it in last.split("◌") if it not in ("", "*")]
            if all(it in words if it.isidentifier() else it in squeezed for it in parts):
                found.append(f"{place} {name.strip()}")
    return sorted(found)


def code(text):
    """A source file without comments, its tokens apart."""
    return " ".join(tokens_of(text))


def promise_of_code(text):
    """What a source file promises. Of its private imports it has those that this cites."""
    kept, imports = promised(tokens_of(text))
    rest = " ".join(kept)
    return "\n".join(cited_imports(imports, rest) + [rest])


def logic(text):
    """A file of definitions or proofs without comments and empty lines."""
    lines = (re.sub(r"(^|\s)--.*", "", line).rstrip() for line in text.splitlines())
    return "\n".join(line for line in lines if line)


def statements(text):
    """A file of proofs without the bodies of what is abstract: of a lemma its statement is left. An `abbrev`, what is
    `unfoldable`, a record and a type of data count whole."""
    abstract, kept, dropped = {}, [], None
    for line in logic(text).splitlines():
        column = len(line) - len(line.lstrip())
        if dropped is not None and (column > dropped or column == dropped and line.lstrip()[0] in ")]}"):
            continue
        word, found = line.split()[0], SIGNATURE.match(line)
        dropped = column if not found and (abstract.get(word) == column or word == "unfolding") else None
        if dropped is None:
            kept.append(line)
        if found and not found[1]:
            abstract[found[2]] = column
    return "\n".join(kept)


def promise_of_lemmas(folder):
    """The statements that proofs/Lemmas.antt of a crate hands on, and of the files of proofs/ that they cite."""
    told, left = {}, ["Lemmas"]
    while left:
        place = left.pop()
        file = folder / "proofs" / f"{place}.antt"
        if place in told or not file.is_file():
            continue
        pieces = re.split(r"^use ([^\n]*(?:\n\s[^\n]*)*)", statements(read(file)), flags=re.M)
        rest = "\n".join(it for it in pieces[0::2] if it.strip())
        used = cited_imports(pieces[1::2], rest)
        told[place] = "\n".join(used + [rest])
        own = rf"\bRattle\.{folder.name}\.proofs\.([\w.]*\w)"
        left += [it.replace(".", "/") for it in re.findall(own, told[place])]
    return told


def files_of(folder, part, ending):
    """The files of a part of a crate with their text, but none of its tests, which a check of a body leaves out."""
    top = folder / part
    for file in sorted(top.rglob(f"*{ending}")):
        place = str(file.relative_to(top).with_suffix(""))
        if place != "tests" and not place.startswith("tests/"):
            yield f"{part}/{place}", read(file)


def whole(folder):
    """All that a crate's own bodies are judged by, by file."""
    told = {place: code(text) for place, text in files_of(folder, "src", ".rt")}
    for part in ("specs", "proofs"):
        told.update((place, logic(text)) for place, text in files_of(folder, part, ".antt"))
    return told


def promise(folder):
    """What a crate promises to those above it, by file."""
    told = {place: promise_of_code(text) for place, text in files_of(folder, "src", ".rt")}
    told.update((place, logic(text)) for place, text in files_of(folder, "specs", ".antt"))
    told.update((f"proofs/{place}", text) for place, text in promise_of_lemmas(folder).items())
    return told
