"""What the page tools read from the sources: the public modules and items of the library, the files that have them,
and the types, calls and clauses of a file. `docs/api_pages`, `docs/links`, `docs/own`, `docs/paths` and `docs/uncalled`
share it.

What is public is what `crates/widestring/src` makes so, by `pub mod` and `pub use`, and what those lines name in the
crates below. Nothing here has to name a new item, file or crate.
"""
import collections
import functools
import pathlib
import re
import sys
import textwrap
import typing

ROOT = pathlib.Path(__file__).resolve().parent.parent
ITEM = re.compile(r"^pub (?:const fn|unsafe fn|fn|struct|enum|trait|type|const|static) (\w+)", re.M)
TYPE = re.compile(r"^(?:pub(?:\(crate\))? )?(?:unsafe )?(?:struct|enum|trait|type) (\w+)", re.M)
CALL = re.compile(r"^( *)(pub )?(const )?(unsafe )?fn (\w+)")

# What is editorial: the order of the modules on the pages, and for each the files that come first, since a reader meets
# their types first. Each other module and file comes after these: files in the order of their crates in crates.txt,
# then by name, and the laws last. A file is named by its crate only if two of the module have its name.
ORDER = {
    "error": "wide_error/error nul wide_utferror/error",
    "iter": "decode16 decode32 lossy lossy_decoders",
    "ucstr": "view text search",
    "ucstring": "ucstring compare display cow boxed view",
    "ustr": "view text iter lossy_with lines line_indices search split",
    "ustring": "ustring compare display cow boxed iter",
    "utfstr": "view text trim lines search boundaries escapes display",
    "utfstring": "utfstring compare display cow boxed lossy convert iter",
    "unit": "unit policy any_units range split nul first lanes line compare order validation print utf8",
    "search": "units",
    "bytes": "order mode",
    "edit": "edits text_edit lockstep utf marked",
}


class Origin(typing.NamedTuple):
    """Where a public name comes from: its crate and file, and its name there, or no name if it is a module."""

    crate: str
    file: str
    name: str


class Member(typing.NamedTuple):
    """A public field or a variant of a type, with its doc comment, and the fields of a variant."""

    text: str
    doc: list
    fields: list


class Entry(typing.NamedTuple):
    """A heading, a type, a call, a constant or a ghost member of a file.

    `kind` is `owner`, `type`, `call`, `const` or `ghost`. `more` holds the clauses of a call, or what a type derives.
    `words` says where the terms of clauses come from.
    """

    kind: str
    head: str
    more: list
    doc: list
    members: list
    words: typing.Mapping


# The longest line that the formatter leaves.
WIDTH = 99


def use_line(head, names, margin=""):
    """Returns a `use` line, of which this is the head, as the formatter writes it after a margin."""
    listed = sorted(set(names), key=lambda name: (not name[0].isupper(), natural(name)))
    if len(listed) == 1:
        return f"{margin}{head}::{listed[0]};"
    short = f"{margin}{head}::{{{', '.join(listed)}}};"
    if len(short) <= WIDTH:
        return short
    body = textwrap.fill(", ".join(listed), WIDTH - len(margin) - 4) + ","
    return textwrap.indent(f"{head}::{{\n{textwrap.indent(body, '    ')}\n}};", margin)


def text_of(path):
    return path.read_text(encoding="utf-8")


def source(crate, file="lib"):
    return ROOT / "crates" / crate / "src" / f"{file}.rt"


def natural(name):
    """A sort key by which numbers in names are in the order of their values."""
    return [(0, int(field)) if field.isdigit() else (1, field) for field in re.findall(r"\d+|\D+", name)]


@functools.lru_cache(maxsize=None)
def crates():
    """Returns the crates that `widestring` depends on, lowest first."""
    lines = dict(re.findall(r"^(wide\w+)(?: staticlib)?: ?(.*)$", text_of(ROOT / "crates.txt"), re.M))
    needed = {"widestring"}
    for crate in reversed(lines):
        needed |= set(lines[crate].split()) if crate in needed else set()
    return [crate for crate in lines if crate in needed - {"widestring"}]


def used(text):
    """Yields the `pub use` lines of a file: the path of each, and the names that it makes public, by their names
    there."""
    for path, names in re.findall(r"^pub use ((?:\w+::)*)(\{[^}]*\}|\w+(?: as \w+)?);", text, re.M):
        pairs = (name.strip().partition(" as ") for name in names.strip("{}").split(",") if name.strip())
        yield path.strip(":"), {new or name: name for name, _, new in pairs}


def origin(crate, path, name):
    """Returns where a name comes from that a file of the crate uses by this path, or as a whole crate."""
    if not path:
        return Origin(name, "lib", "")
    return exports(path)[name] if source(path).is_file() else exports(crate, path)[name]


@functools.lru_cache(maxsize=None)
def exports(crate, file="lib"):
    """Returns what a file makes public: the origin of each name. Public modules are among them."""
    text = text_of(source(crate, file))
    found = {name: Origin(crate, file, name) for name in ITEM.findall(text)}
    found |= {name: Origin(crate, name, "") for name in re.findall(r"^pub mod (\w+);", text, re.M)}
    for path, names in used(text):
        found |= {new: origin(crate, path, name) for new, name in names.items()}
    return found


def items_below(origins, path=""):
    """Yields a module's path, and the origins of its items by their names, and so for each module below it."""
    yield path, {name: it for name, it in origins.items() if it.name}
    for name, it in sorted(origins.items()):
        if not it.name:
            yield from items_below(exports(it.crate, it.file), f"{path}::{name}" if path else name)


@functools.lru_cache(maxsize=None)
def modules():
    """Returns the public modules: the path of each below `widestring`, and the origins of its items by their names."""
    return dict(items_below(exports("widestring")))


@functools.lru_cache(maxsize=None)
def public():
    """Returns the origins of all public items. Names of one item by width, as `U16StrInUstring`, have one origin, so
    that the pages list them once."""
    return {it for items in modules().values() for it in items.values()}


@functools.lru_cache(maxsize=None)
def homes():
    """Returns the module on whose page each crate's items are: the one that is the whole crate, or else the first one
    that re-exports an item of it. A crate of which the root alone re-exports an item has none."""
    tops = {name: it for name, it in exports("widestring").items() if not it.name}
    found = {it.crate: name for name, it in tops.items() if it.crate != "widestring"}
    for name in sorted(tops, key=lambda name: (name not in ORDER, [*ORDER, name].index(name), name)):
        for path, items in modules().items():
            if path.partition("::")[0] == name:
                found = {it.crate: name for it in items.values()} | found
    return found


@functools.lru_cache(maxsize=None)
def files(module):
    """Returns the files that have public items of a module, each with its crate, in the order of the page."""
    own = (crate for crate, home in homes().items() if home == module)
    found = [(crate, path.stem) for crate in own for path in sources_of(crate) if entries(crate, path.stem)]
    first = ORDER.get(module, "").split()
    unknown = set(first) - {file for _, file in found} - {"/".join(it) for it in found}
    if unknown:
        sys.exit(f"docs/sources.py: {', '.join(sorted(unknown))} in ORDER: no such file has public items of {module}")

    def place(it):
        rank = next((at for at, name in enumerate(first) if name in (it[1], "/".join(it))), len(first))
        return rank, it[1] == "laws", crates().index(it[0]), natural(it[1])

    return sorted(found, key=place)


def order_of_modules():
    """Returns the modules in the order of the pages."""
    found = set(homes().values())
    return [name for name in ORDER if name in found] + sorted(found - set(ORDER))


def sources_of(crate):
    return [path for path in sorted((ROOT / "crates" / crate / "src").glob("*.rt")) if path.stem != "lib"]


@functools.lru_cache(maxsize=None)
def private_types():
    """Returns the types and traits of the library that have no public name."""
    declared = {name for crate in crates() for path in sources_of(crate) for name in TYPE.findall(text_of(path))}
    return declared - {it.name for it in public()}


@functools.lru_cache(maxsize=None)
def entries(crate, file):
    """Returns the public entries of a file: types, calls of no type that have a public name, and impls of public types
    and traits with their calls."""
    path, found, skips = source(crate, file), [], False
    own = {it.name for it in public() if (it.crate, it.file) == (crate, file)}
    hidden = private_types() | hidden_in(path)
    for entry in Reader(path, own).read():
        if entry.kind == "owner":
            skips = is_hidden(entry.head, hidden)
        elif entry.kind == "type":
            skips = type_of(entry.head) not in own
        if not skips:
            found.append(entry)
    return found


def declaration(lines, at):
    """Returns the signature of the call that begins in this line, its clauses, and the index of the first line after
    them."""
    signature, clauses = [], []
    while at < len(lines):
        line = lines[at].strip()
        at += 1
        if not line or line.startswith("//"):
            continue
        if line in ("{", "{}"):
            break
        is_clause = line.startswith(("requires", "ensures"))
        ends = line.endswith((";", "{}")) or line.endswith("{") and not is_clause
        text = re.sub(r"(;| ?\{\}| ?\{)$", "", line) if ends else line
        if text.startswith(("requires", "ensures")):
            clauses.append(text.rstrip(","))
        elif clauses:
            clauses[-1] += " " + text
        else:
            signature.append(text)
        if ends:
            break
    joined = " ".join(signature)
    joined = re.sub(r"\( ", "(", joined)
    joined = re.sub(r",? \)", ")", joined)
    return joined, clauses, at


def joined_until(lines, at, ends):
    """Returns the text from this line to the first one for which `ends` holds, in one line, and the index of that
    line."""
    text = lines[at]
    while not ends(text):
        at += 1
        text += " " + lines[at].strip()
    return text, at


def in_one_line(head):
    """Returns a head of several lines as if it had been written in one."""
    return re.sub(r"<\s+", "<", re.sub(r",?\s+>", ">", head))


def members_of(lines, at):
    """Returns the public fields or the variants of the type whose body follows this line, with the fields of each
    variant."""
    found, doc = [], []
    while lines[at + 1] != "}":
        at += 1
        line = lines[at].strip()
        if line.startswith("///"):
            doc.append(comment_text(line))
            continue
        if re.match(r"    (pub [a-z]\w*:|[A-Z])", lines[at]):
            found.append(Member(re.sub(r"[,{ ]+$", "", line), doc, []))
        elif re.match(r"        \w+: ", lines[at]):
            found[-1].fields.append(Member(line.rstrip(","), doc, []))
        doc = []
    return found


def comment_text(line):
    """Returns what a line of a doc comment says, with its indentation."""
    return re.sub(r"^ ", "", line.strip()[3:]).rstrip()


class Reader:
    """Reads the headings, types, calls and ghost members of a file, in order, each with the doc comment before it.
    Functions of no type are left out unless their names are in `exported`."""

    def __init__(self, path, exported):
        self.lines = text_of(path).split("\n")
        self.exported = exported
        self.found, self.at = [], 0
        # What the next item has before it: its doc comment, other comments, and the traits that it derives.
        self.doc, self.notes, self.derives = [], [], ""
        # The heading of the impl or trait that the line is in, or was in if only functions of no type follow.
        self.owner, self.is_inside, self.is_public = "", False, False
        # Where the terms of clauses come from: those of the whole file, and those of the impl or trait alone.
        self.words, self.words_inside = {}, {}

    def read(self):
        while self.at < len(self.lines) and not self.lines[self.at].startswith("#[cfg(test)]"):
            line = self.lines[self.at]
            if line.strip().startswith("///"):
                self.doc.append(comment_text(line))
                self.at += 1
            elif line.strip().startswith("//") and not line.startswith("//!"):
                self.notes.append(re.sub(r"^// ?", "", line.strip()))
                self.at += 1
            elif line.strip().startswith("#["):
                derived = re.match(r"#\[derive\((.*)\)\]$", line)
                self.derives = derived[1] if derived else self.derives
                self.at += 1
            else:
                self.read_item(line)
                self.doc, self.notes, self.derives = [], [], ""
        return self.found

    def read_item(self, line):
        """Reads the item that begins in this line, if it is public, and moves to the line after its head."""
        if re.match(r"(pub )?(unsafe )?(impl|trait)\b", line):
            self.read_owner()
        elif re.match(r"pub (struct|enum|type)\b", line):
            self.read_type()
        elif CALL.match(line) and not line.strip().startswith("pub(crate)"):
            self.read_call(CALL.match(line))
        else:
            if line.strip().startswith("ghost use "):
                (self.words_inside if line.startswith(" ") else self.words).update(words_of(line))
            elif self.is_inside:
                self.read_member(line)
            elif line.startswith("pub const ") and ITEM.match(line)[1] in self.exported:
                self.owner = ""
                self.add("owner", "")
                self.add("const", re.sub(r"^pub | = .*|;$", "", line))
            if line == "}":
                self.is_public = self.is_inside = False
            self.at += 1

    def add(self, kind, head, more=(), members=()):
        words = collections.ChainMap(self.words_inside if self.owner else {}, self.words)
        doc = self.notes if kind == "ghost" else [] if kind == "owner" and not head else self.doc
        self.found.append(Entry(kind, head, list(more), doc, list(members), words))

    def read_owner(self):
        header, last = joined_until(self.lines, self.at, lambda text: text.rstrip().endswith(("{", "{}")))
        owner = in_one_line(re.sub(r"\s*\{(\})?$", "", header))
        self.is_public = owner.startswith("pub trait") or " for " in owner
        self.is_inside = not header.endswith("}")
        self.owner, self.words_inside = re.sub(r"^pub ", "", owner), {}
        self.add("owner", self.owner)
        self.at = last + 1

    def read_type(self):
        head, last = joined_until(self.lines, self.at, lambda text: re.search(r"[{;]$", text))
        declared = re.sub(r"^pub |\s*[{;]$", "", in_one_line(head))
        members = members_of(self.lines, last) if head.endswith("{") else []
        self.add("type", declared, [self.derives] if self.derives else [], members)
        self.at += 1

    def read_call(self, call):
        """Reads a function. One of no type has an empty heading of its own before it."""
        is_public = call[2] or self.is_public and call[1]
        if not is_public:
            self.at += 1
            return
        signature, clauses, after = declaration(self.lines, self.at)
        if call[1] or call[5] in self.exported:
            if not call[1]:
                self.owner = ""
                self.add("owner", "")
            self.add("call", re.sub(r"^pub ", "", signature), clauses)
        self.at = after

    def read_member(self, line):
        """Reads what a public trait declares, or an impl states, beside calls."""
        declares = self.owner.startswith("trait ")
        ghost = re.match(r"^    ghost (\w+)(: | = )\{ (.*) \};$", line)
        constant = re.match(r"^    (const \w+: .*|type \w+: .*);$", line)
        if ghost and (ghost[2] == ": ") == declares:
            self.add("ghost", f"ghost {ghost[1]}: {ghost[3]}")
        elif constant and declares:
            self.add("const", constant[1])
        elif re.match(r"^    type \w+ = .*;$", line) and not declares:
            self.add("ghost", line.strip(" ;"))


def words_of(line):
    """Returns where the terms come from that a `use` line of definitions imports: the crate, the file of definitions and
    the name there of each, by the name that it has in the file."""
    found = re.match(r"\s*(?:ghost )?use Rattle\.(\w+)\.specs\.([\w.]+)\.\{(.*)\};?$", line)
    pairs = (name.strip().partition(" as ") for name in found[3].split(",")) if found else ()
    return {new or name: (found[1], found[2], name) for name, _, new in pairs}


def without_parameters(header):
    """Returns a header without what is between angle brackets."""
    bare = header
    while re.search(r"<[^<>]*>", bare):
        bare = re.sub(r"<[^<>]*>", "", bare)
    return bare


def type_of(header):
    """Returns the name of the type or trait in a header."""
    kind = r"(?:unsafe )?(?:impl|trait|struct|enum|type)\s*(?:.* for )?"
    found = re.match(kind + r"&?(?:'\w+ )?(?:mut )?((?:\w+::)*\w+)", without_parameters(header))
    return found[1] if found else ""


def hidden_in(path):
    """Returns the types and traits of a file that are not public."""
    return set(re.findall(r"^(?:pub\(crate\) )?(?:struct|enum|trait|type) (\w+)", text_of(path), re.M))


def is_hidden(header, hidden):
    trait = re.search(r"(\w+) for ", without_parameters(header))
    return type_of(header) in hidden or trait is not None and trait[1] in hidden


def write_or_check(path, made, command):
    """Writes a generated file. With `--check` it reports whether the file is what would be written; the result is the
    exit status."""
    name = path.name if path.parent == ROOT or path.suffix == ".rt" else path.relative_to(ROOT)
    if sys.argv[1:] == ["--check"]:
        is_new = path.is_file() and text_of(path) == made
        print(f"{name} is what the sources say" if is_new else f"{name} is older than the sources: run {command}")
        return 0 if is_new else 1
    path.write_text(made, encoding="utf-8")
    return 0
