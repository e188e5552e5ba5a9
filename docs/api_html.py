"""The pages as static HTML, in a folder that a browser opens without a server: CALLING.md as the first page, those of
docs/api, and docs/DIFFERENCES.md, with a search over names, first sentences, tasks and differences. If bindings/wasm/build
has built the WebAssembly module, a page shows units and faults of what is typed there."""
import base64
import html
import json
import os.path
import posixpath
import re
import shutil

import api_items
import markdown
import sources
from sources import ROOT

SITE = ROOT / "docs" / "site"
FILES = ["style.css", "search.js"]
# The WebAssembly module and its wrapper, and the page that they belong to.
WASM = ROOT / "bindings" / "wasm" / "out"
UNITS = "docs/units.md"
DIFFERENCES = "docs/DIFFERENCES.md"
PAGE = """<!doctype html>
<html lang="en">
<head>
<meta charset="utf-8">
<meta name="viewport" content="width=device-width, initial-scale=1">
<meta name="color-scheme" content="light dark">
<title>{title}</title>
<link rel="stylesheet" href="{root}style.css">
</head>
<body data-root="{root}">
<header>
<a class="home" href="{root}index.html">widestring</a>
<input id="search" type="search" placeholder="Search names and tasks" aria-label="Search" autocomplete="off">
<ol id="results" hidden></ol>
</header>
<div class="columns">
<details class="menu">
<summary>Pages</summary>
<nav>
{menu}
</nav>
</details>
<main>
<button id="contracts" type="button" hidden>Open contracts</button>
{body}
</main>
</div>
<script src="{root}search_index.js"></script>
<script src="{root}search.js"></script>
{script}</body>
</html>
"""


def file_of(path):
    """Returns the file of a page in the folder."""
    return "index.html" if path == "CALLING.md" else path.removeprefix("docs/").removesuffix(".md") + ".html"


def address(path, anchor, start):
    """Returns the address of a page's section, seen from another page."""
    file = os.path.relpath(file_of(path), posixpath.dirname(file_of(start)) or ".")
    return file + (f"#{anchor}" if anchor else "")


def target_from(start, texts):
    """Returns the function that makes the address of a link of a page, or nothing if the folder lacks its file."""

    def target(link):
        if re.match(r"[a-z]+:", link):
            return link
        file, _, anchor = link.partition("#")
        path = posixpath.normpath(posixpath.join(posixpath.dirname(start), file)) if file else start
        return address(path, anchor, start) if path in texts else ""

    return target


def menu(start):
    """Returns the list of the modules, with the types of the module that the page is of."""
    lines = ["<ul>", link_item("Start", "CALLING.md", start), link_item("Index", "docs/api/index.md", start)]
    for module in sources.order_of_modules():
        path = f"docs/api/{module}.md"
        own = "" if module not in start.split("/")[2:3] and start != path else types_of(module, start)
        lines.append(link_item(module, path, start, own))
    lines.append(link_item("Definitions", "docs/api/definitions.md", start))
    lines.append(link_item("Differences from the crate", DIFFERENCES, start))
    if has_module():
        lines.append(link_item("Units and faults", UNITS, start))
    return "\n".join([*lines, "</ul>"])


def link_item(shown, path, start, more=""):
    here = ' aria-current="page"' if path == start else ""
    return f'<li><a href="{address(path, "", start)}"{here}>{shown}</a>{more}</li>'


def types_of(module, start):
    """Returns the list of a module's types that have a page of their own."""
    groups = [(it, f"docs/api/{module}/{it.file}.md") for it in api_items.groups_of(module)]
    shown = {"": "Functions", api_items.LAWS: "Laws"}
    items = [link_item(shown.get(it.name, it.name), path, start) for it, path in groups if (ROOT / path).is_file()]
    return f"<ul>{''.join(items)}</ul>" if items else ""


def filled(path, title, body, script=""):
    """Returns a page's HTML, of its parts."""
    root = os.path.relpath(".", posixpath.dirname(file_of(path)) or ".") + "/"
    return PAGE.format(title=html.escape(title), root=root.removeprefix("./"), menu=menu(path), body=body, script=script)


def page(path, text, texts):
    """Returns a page's HTML."""
    body = markdown.Converter(target_from(path, texts)).convert(text)
    return filled(path, markdown.plain(next(it.text for it in markdown.headings(text))), body)


def has_module():
    return (WASM / "widestring.wasm").is_file()


def units_page():
    """Returns the page of units and faults. The module and its wrapper are in the page itself, since a page that is
    opened without a server may not load them."""
    module = base64.b64encode((WASM / "widestring.wasm").read_bytes()).decode()
    wrapper = re.sub(r"^export ", "", sources.text_of(WASM / "index.mjs"), flags=re.M)
    script = f'<script type="module">\nconst MODULE = "{module}";\n{wrapper}\n{sources.text_of(SITE / "units.js")}</script>\n'
    return filled(UNITS, "Units and faults", sources.text_of(SITE / "units.html"), script)


def rows(path, text, kinds):
    """Yields what the search finds of a page's tables: the first cell of each row, its kind, its address, and the next
    cell. The kinds are those of the tables in order; further tables are left out."""
    number, table, last = 0, -1, 0
    for at, line in markdown.outside_fences(text):
        if not line.startswith("|"):
            continue
        table, is_head = (table, False) if at == last + 1 else (table + 1, True)
        last = at
        if is_head or re.match(r"\|[-| :]+$", line):
            continue
        number += 1
        cells = [markdown.plain(cell) for cell in markdown.cells(line)]
        if table < len(kinds):
            yield [cells[0], kinds[table], f"{file_of(path)}#row-{number}", cells[1], ""]


def entries(site, texts):
    """Returns what the search finds: the name, the kind, the address, the summary, and further words of each."""
    names = {}
    for module in sources.order_of_modules():
        for alias, name in api_items.aliases(module).items():
            names.setdefault((module, name), []).append(alias)
    found = [*rows("CALLING.md", texts["CALLING.md"], ["task", "not available"])]
    found += rows(DIFFERENCES, texts[DIFFERENCES], ["difference"])
    for it in site.places:
        name = it.section.name.replace(".", "::") if it.section.kind == "definition" else it.section.name
        kind = f"{it.section.kind} of {it.module}" if it.module else it.section.kind
        more = " ".join(names.get((it.module, name.partition("::")[0]), []))
        summary = markdown.plain(re.sub(r"\[(`[^`]*`)\]", r"\1", it.section.summary))
        where = file_of(it.page) + (f"#{it.anchor}" if it.anchor else "")
        found.append([name, kind, where, summary, more])
    return found


def write(site, made, folder):
    """Writes the pages into a folder. Returns the exit status."""
    texts = made | {DIFFERENCES: sources.text_of(ROOT / DIFFERENCES)}
    for path, text in texts.items():
        file = folder / file_of(path)
        file.parent.mkdir(parents=True, exist_ok=True)
        file.write_text(page(path, text, texts), encoding="utf-8")
    listed = ",\n".join(json.dumps(it, ensure_ascii=False) for it in entries(site, texts))
    (folder / "search_index.js").write_text(f"const SEARCH_INDEX = [\n{listed}\n];\n", encoding="utf-8")
    for name in FILES:
        shutil.copyfile(SITE / name, folder / name)
    if has_module():
        (folder / file_of(UNITS)).write_text(units_page(), encoding="utf-8")
    return 0
