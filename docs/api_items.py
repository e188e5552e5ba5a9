"""The public items of the library as sections of pages: types, traits, calls, constants and variants, by module and by
type. The text of a section still has the links of doc comments, as ``[`UStr::find`]``; docs/api_pages resolves them."""
import functools
import re
import typing

import definitions
import sources
from sources import type_of

# A signature that is longer than this has one argument on each line.
WIDTH = 100
# A type with more calls than this lists them.
FEW = 4
# The files of this name hold the laws of a module, which are a group of their own.
LAWS = "laws"


class Section(typing.NamedTuple):
    """A part of a page: its heading, the name by which comments link to it, what it is, its first sentence, and its
    text. A section without a name is a heading alone, or text that no comment links to."""

    level: int
    title: str
    name: str
    kind: str
    summary: str
    text: str


class Group(typing.NamedTuple):
    """A type or a trait of a module with its entries; or the functions of no type, which have no name, or the laws."""

    module: str
    name: str
    entries: list

    @property
    def title(self):
        titles = {"": f"Functions of `widestring::{self.module}`", LAWS: f"Laws of `widestring::{self.module}`"}
        return titles.get(self.name, f"`widestring::{self.module}::{self.name}`")

    @property
    def file(self):
        return self.name.lower() or "functions"


def first_sentence(doc):
    """Returns the first sentence of a doc comment, in one line."""
    paragraph = " ".join(doc[: doc.index("")] if "" in doc else doc)
    found = re.match(r"(.*?[.])(?= [A-Z`\[]|$)", paragraph)
    return found[1] if found else paragraph


def markdown_of(doc):
    """Returns a doc comment as it is, with its headings in bold, and its examples as Rust."""
    text = "\n".join(re.sub(r"^#+ (.*)", r"**\1**", line) for line in doc)
    return re.sub(r"^```\n(.*?)^```$", r"```rust\n\1```", text, flags=re.M | re.S)


def code(lines, language="text"):
    return f"```{language}\n" + "\n".join(lines) + "\n```"


def folded(summary, text):
    return f"<details><summary>{summary}</summary>\n\n{text}\n\n</details>"


def joined(*parts):
    return "\n\n".join(part for part in parts if part)


def clause_text(clause):
    found = re.match(r"(requires|ensures\*?)\s*(\w*)\s*\{ (.*) \}$", clause, re.S)
    word, name, text = found.groups() if found else ("", "", clause)
    return f"{word} {name}: {text}".replace("  :", ":").replace(" :", ":", 1)


@functools.lru_cache(maxsize=None)
def known_words():
    """Returns the terms that have a page: the crate, the file and the name of each definition."""
    return {(it.crate, it.file, name) for it in definitions.definition_files() for name in it.names}


def definitions_used(clauses, words):
    """Returns the line that links the terms of clauses which the library defines."""
    known = known_words()
    used = {word: words[word] for clause in clauses for word in re.findall(r"[^\s(){},.]+", clause) if word in words}
    listed = sorted((word, origin) for word, origin in used.items() if origin in known)
    named = (f"[`{word}`](definition:{'.'.join(origin)})" + renamed(word, origin) for word, origin in listed)
    return f"Definitions used: {', '.join(named)}." if listed else ""


def renamed(word, origin):
    """Returns what a term is called where it is defined, if a contract calls it otherwise."""
    return f" (there `{origin[2]}`)" if word != origin[2] else ""


def contract(clauses, words, summary="Contract"):
    return folded(summary, joined(code(clauses), definitions_used(clauses, words))) if clauses else ""


def arguments(text):
    """Returns the arguments of a list, split at the commas that are in no brackets."""
    found, depth = [""], 0
    for at, char in enumerate(text):
        depth += char in "(<[{"
        depth -= char in ")]}" or char == ">" and text[at - 1] != "-"
        if char == "," and depth == 0:
            found.append("")
        else:
            found[-1] += char
    return [it.strip() for it in found]


def signature_lines(head):
    """Returns a signature, with one argument on each line if it is long."""
    head = head.rstrip(",")
    opened = re.match(r"[^(<]*(?:<.*?>)?(?=\()", head)
    start = opened.end() if opened else -1
    if len(head) <= WIDTH or start < 0:
        return [head]
    depth = 0
    for end in range(start, len(head)):
        depth += (head[end] == "(") - (head[end] == ")")
        if depth == 0:
            break
    inner = [f"    {it}," for it in arguments(head[start + 1 : end])]
    return [head[: start + 1], *inner, head[end:]]


def paths_of(crate, file, name):
    """Returns the paths by which a public item can be imported, that of its module first."""
    named = ((path, public, it) for path, items in sources.modules().items() for public, it in items.items())
    paths = [(path, public) for path, public, it in named if it == sources.Origin(crate, file, name)]
    home = sources.homes().get(crate, "")
    paths.sort(key=lambda it: (it[1] != name, it[0].partition("::")[0] != home, it))
    return ["::".join(part for part in ("widestring", *it) if part) for it in paths]


def import_line(crate, file, name):
    first, *others = paths_of(crate, file, name)
    more = f" Other paths: {', '.join(f'`{path}`' for path in others)}." if others else ""
    return f"Import: `use {first};`{more}"


class Located(typing.NamedTuple):
    """An entry with the file that it is in, and the heading that it is under."""

    crate: str
    file: str
    owner: str
    entry: sources.Entry


def is_trait(head):
    return head.startswith(("trait ", "unsafe trait "))


def own_names(module):
    """Returns the types and traits that a module declares."""
    found = set()
    for crate, file in sources.files(module):
        for it in sources.entries(crate, file):
            if it.kind == "type" or it.kind == "owner" and is_trait(it.head):
                found.add(type_of(it.head))
    return found


def aliases(module):
    """Returns the type that each alias of a module is a name of, if that is the module's too."""
    found, own = {}, own_names(module)
    for crate, file in sources.files(module):
        for it in sources.entries(crate, file):
            alias = re.match(r"type (\w+).* = (\w+)", it.head) if it.kind == "type" else None
            if alias:
                found[alias[1]] = alias[2] if alias[2] in own else ""
    return found


def home_of(head, kind, file, own, names):
    """Returns the group that a heading or a type belongs to: a type's own, that of the type of which it is another
    name, or the trait's, if the type is of another module."""
    if not head:
        return LAWS if file == LAWS else ""
    name = type_of(head)
    while kind == "type" and name in names:
        name = names[name]
    if name in own or not name:
        return name
    others = [word for word in re.findall(r"\w+", head) if word in own]
    return others[0]


def groups_of(module):
    """Returns the groups of a module, in the order in which they first occur, with the functions after the types and
    the laws last."""
    groups, own, names = {}, own_names(module), aliases(module)
    for crate, file in sources.files(module):
        name, owner = "", ""
        for it in sources.entries(crate, file):
            if it.kind in ("type", "owner"):
                name = home_of(it.head, it.kind, file, own, names)
                owner = it.head
            groups.setdefault(name, []).append(Located(crate, file, owner, it))
    order = sorted(groups, key=lambda name: (name == LAWS, name == ""))
    return [Group(module, name, groups[name]) for name in order]


def call_name(head):
    return re.match(r"(?:const |unsafe |fn |type )+(\w+)", head)[1]


def item_section(group, located, level):
    """Returns the section of a call or a constant, with the head of the impl or trait that it is in."""
    crate, file, owner, entry = located
    call = call_name(entry.head)
    prefix = type_of(owner) if owner else LAWS if group.name == LAWS else ""
    name = f"{prefix}::{call}" if prefix else call
    text = joined(
        code([*([owner] if owner else []), *signature_lines(entry.head)], "rust"),
        "" if owner else import_line(crate, file, call),
        markdown_of(entry.doc),
        contract([clause_text(it) for it in entry.more], entry.words),
    )
    kind = "constant" if entry.kind == "const" else "call" if owner else "law" if prefix else "function"
    return Section(level, f"`{name}`", name, kind, first_sentence(entry.doc), text)


def call_list(sections):
    """Returns the names of the calls among some sections, with links."""
    own = (it for it in sections if it.kind in ("call", "constant", "function", "law"))
    return ", ".join(dict.fromkeys(f"[`{it.name.rpartition('::')[2]}`]({it.name})" for it in own))


@functools.lru_cache(maxsize=None)
def calls_elsewhere():
    """Returns the traits of other modules that give a type calls: for the module and name of each type, the module and
    name of each trait, and the trait's calls."""
    types = {it.name: sources.homes()[it.crate] for it in sources.public() if it.name and it.crate in sources.homes()}
    found = {}
    for module in sources.order_of_modules():
        for group in groups_of(module):
            calls = [it for it in group.entries if it.entry.kind == "call" and is_trait(it.owner)]
            for it in group.entries if calls else ():
                name = type_of(it.owner)
                if it.entry.kind == "owner" and " for " in it.owner and types.get(name, module) != module:
                    listed = found.setdefault((types[name], name), {})
                    listed[module, group.name] = [call_name(call.entry.head) for call in calls]
    return found


def elsewhere(module, name):
    """Returns the sentence that names the traits of other modules that give a type calls."""
    listed = []
    for (other, trait), calls in calls_elsewhere().get((module, name), {}).items():
        named = ", ".join(f"[`{call}`]({other}::{trait}::{call})" for call in dict.fromkeys(calls))
        listed.append(f"- [`{other}::{trait}`]({other}::{trait}): {named}")
    first = ["Traits of other modules give it these calls. A caller imports the trait:", ""]
    return "\n".join([*first, *listed]) if listed else ""


def declared(entry):
    """Returns the lines of a type's declaration."""
    derives = [f"#[derive({entry.more[0]})]"] if entry.more else []
    if not entry.members:
        return [*derives, entry.head]
    lines = []
    for it in entry.members:
        fields = [f"        {field.text}," for field in it.fields]
        lines += [f"    {it.text} {{", *fields, "    },"] if fields else [f"    {it.text},"]
    return [*derives, entry.head + " {", *lines, "}"]


def field_list(members):
    """Returns the fields of a type or a variant as a list."""
    lines = ((it.text.removeprefix("pub "), " ".join(it.doc)) for it in members)
    return "\n".join(f"- `{text}`" + (f": {doc}" if doc else "") for text, doc in lines)


def type_sections(group, located, level):
    """Yields the section of a type, and those of its variants."""
    crate, file, _, entry = located
    name, is_enum = type_of(entry.head), entry.head.startswith("enum ")
    fields = "" if is_enum else field_list(entry.members)
    more = elsewhere(group.module, name)
    text = joined(code(declared(entry), "rust"), import_line(crate, file, name), markdown_of(entry.doc), fields, more)
    title = group.title if level == 1 and name == group.name else f"`{name}`"
    yield Section(level, title, name, "type", first_sentence(entry.doc), text)
    for it in entry.members if is_enum else ():
        variant = name + "::" + re.match(r"\w+", it.text)[0]
        shown = joined(code([it.text], "rust"), markdown_of(it.doc), field_list(it.fields))
        yield Section(level + 1, f"`{variant}`", variant, "variant", first_sentence(it.doc), shown)


def ghost_lines(entry):
    """Returns a ghost member with the comment before it."""
    return [*(f"// {line}" for line in entry.doc), entry.head]


def trait_section(group, located, level):
    """Returns the section of a trait, with what it declares for contracts."""
    crate, file, owner, entry = located
    members = [it.entry for it in group.entries if it.owner == owner and it.entry.kind == "ghost"]
    lines = [line for it in members for line in ghost_lines(it)]
    text = joined(
        code([entry.head], "rust"),
        import_line(crate, file, group.name),
        markdown_of(entry.doc),
        contract(lines, entry.words, "What an impl states"),
    )
    title = group.title if level == 1 else f"`{group.name}`"
    return Section(level, title, group.name, "trait", first_sentence(entry.doc), text)


def impl_lines(impl):
    """Returns an impl of a trait with what it states and its calls."""
    lines = []
    for it in impl:
        if it.kind == "owner":
            lines += [f"/// {line}".rstrip() for line in it.doc] + [it.head]
        elif it.kind == "ghost":
            lines += [f"  {line}" for line in ghost_lines(it)]
        else:
            lines += [f"  /// {line}".rstrip() for line in it.doc] + [f"  {it.head}"]
            lines += [f"    {clause_text(clause)}" for clause in it.more]
    return lines


def impls_section(group, level):
    """Yields the section of the traits that a type implements, or of the types that implement a trait."""
    impls = []
    for it in group.entries:
        if it.entry.kind == "owner" and " for " in it.owner:
            impls.append([])
        if " for " in it.owner and impls:
            impls[-1].append(it.entry)
    if not impls:
        return
    is_type = not any(is_trait(it.owner) for it in group.entries)
    title = f"Traits that `{group.name}` implements" if is_type else f"Types that implement `{group.name}`"
    words = {word: origin for impl in impls for it in impl for word, origin in it.words.items()}
    stated = [impl_lines(impl) for impl in impls if len(impl) > 1 or impl[0].doc]
    lines = [line for impl in stated for line in [*impl, ""]][:-1]
    note = "" if is_type else "A type that has a page of its own has its impls there."
    text = joined(note, code([impl[0].head for impl in impls], "rust"), contract(lines, words, "What these impls state"))
    yield Section(level, title, "", "", "", text)


def sections_of(group, level):
    """Returns the sections of a group. The first one of a type or trait with many calls lists them."""
    first, *others = parts_of(group, level)
    calls = call_list(others)
    if calls.count(",") >= FEW:
        first = first._replace(text=joined(first.text, f"Calls: {calls}."))
    return [first, *others]


def parts_of(group, level):
    """Yields the sections of a group: the type or the trait, its other names, its calls, and the impls of traits."""
    if group.name in ("", LAWS):
        yield Section(level, group.title, group.name, "", "", "")
    heads = [it for it in group.entries if it.entry.kind == "type" or it.entry.kind == "owner" and is_trait(it.owner)]
    heads.sort(key=lambda it: type_of(it.entry.head) != group.name)
    for it in heads:
        own = type_of(it.entry.head) == group.name
        if it.entry.kind == "type":
            yield from type_sections(group, it, level if own else level + 1)
        else:
            yield trait_section(group, it, level)
    for it in group.entries:
        if it.entry.kind in ("call", "const") and " for " not in it.owner:
            yield item_section(group, it, level + 1)
    yield from impls_section(group, level + 1)
