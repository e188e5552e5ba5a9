"""What the page tools read from the files of definitions that the library re-exports: each public definition, with its
comment and its text."""
import functools
import re
import sys
import typing

from sources import ROOT, text_of, words_of

# A public definition, or a public field of a record: its indentation and its name.
NAME = re.compile(r"^( *)(?:abbrev |unfoldable )*pub (?:record |data )?(?!use |mod |module )([^\s:(]+)", re.M)
EXPORT = re.compile(r"^pub use Rattle\.(\w+)\.specs\.(\w+)(?: as (\w+))?$", re.M)
# What a comment cites of the Unicode Standard: a definition or a section.
CITED = re.compile(r"\bD\d+[a-z]?(?: (?:to|and) D\d+)?\b|\bsection \d+\.\d+")


class Definition(typing.NamedTuple):
    """A public definition: its name, those of its fields or constructors, its comment in one line, and its text. A text
    inside a module begins with the module's head, which declares the parameters."""

    name: str
    parts: list
    comment: str
    text: str


class DefinitionFile(typing.NamedTuple):
    """A file of definitions, by the name that `widestring` gives it: where it is, what its first comment says, its
    names in order, its definitions, and where the terms in them come from."""

    name: str
    crate: str
    file: str
    comment: str
    names: list
    definitions: list
    words: dict

    def import_line(self, names):
        return f"ghost use Rattle.widestring.specs.{self.name}.{{{', '.join(names)}}};"


def is_comment(line):
    return line.lstrip().startswith("--")


def indent_of(block):
    return re.match(" *", block[0])[0]


def blocks(lines):
    """Yields the definitions of a file as lines, each with the comment before it, and the head of the module that it is
    in, with the module's comment, or nothing."""
    block, module = [], []
    for line in [*lines, ""]:
        has_code = not all(map(is_comment, block))
        name = NAME.match(line)
        begins = is_comment(line) or name and block and name[1] == indent_of(block)
        if block and (not line.strip() or has_code and begins):
            yield block, module if block[0].startswith(" ") else []
            block = []
        if re.match(r"module _ .* where$", line):
            module, block = [*block, line], []
        elif line.strip():
            block.append(line)


def definitions_in(lines):
    """Returns the public definitions among the lines of a file."""
    found = []
    for block, module in blocks(lines):
        text = [line for line in block if not is_comment(line)]
        names = NAME.findall("\n".join(text))
        own = [name for indent, name in names if indent == indent_of(block)]
        if own:
            comment = " ".join(line.strip()[3:] for line in block if is_comment(line))
            parts = [name for indent, name in names if indent != indent_of(block)]
            found.append(Definition(own[0], [*parts, *constructors(text)], comment, "\n".join([*module, *text])))
    return found


def constructors(text):
    """Returns the constructors that a definition of data lists."""
    lines = text[1:] if text[0].lstrip().startswith("pub data ") else ()
    return [line.split()[0] for line in lines]


@functools.lru_cache(maxsize=None)
def definition_files():
    """Returns the files that `widestring` re-exports, in the order of its list."""
    found = []
    for crate, file, name in EXPORT.findall(text_of(ROOT / "crates" / "widestring" / "specs" / "Lib.antt")):
        text = text_of(ROOT / "crates" / crate / "specs" / f"{file}.antt")
        lines = text.split("\n")
        first = next(at for at, line in enumerate(lines) if not is_comment(line))
        own = definitions_in(lines[first:])
        names = list(dict.fromkeys(name for it in own for name in (it.name, *it.parts)))
        lost = {it for _, it in NAME.findall(text)} - set(names)
        if lost:
            listed = ", ".join(sorted(lost))
            sys.exit(f"docs/definitions.py: {listed} of {crate}/specs/{file}.antt are in no definition")
        comment = " ".join(line[3:] for line in lines[:first])
        words = {word: origin for line in lines for word, origin in words_of(line).items()}
        # Fields are left out: the name of a field is more often a variable.
        words |= {it.name: (crate, file, it.name) for it in own}
        words |= {part: (crate, file, part) for it in own for part in it.parts if part[0].isupper()}
        found.append(DefinitionFile(name or file, crate, file, comment, names, own, words))
    return found
