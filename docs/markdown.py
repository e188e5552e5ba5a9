"""Markdown as the pages use it: the anchors and links of a page, and a page as HTML."""
import html
import re
import typing

FENCE = re.compile(r"^ *(```|~~~)")
HEADING = re.compile(r"^(#{1,6}) +(.*?) *#*$")
LINK = re.compile(r"(?<!!)\[((?:[^\[\]]|\[[^\[\]]*\])*)\]\(([^()\s]*(?:\([^()\s]*\))?[^()\s]*)\)")
CODE = re.compile(r"(`+)(.+?)\1")
ITEM = re.compile(r"^( *)([-*]|\d+\.) +")
# A line with which a paragraph cannot go on.
OTHER = re.compile(r" *(?:```|~~~|[-*] |\d+\. )|[|<#]")


class Heading(typing.NamedTuple):
    level: int
    text: str
    anchor: str


def slug(text):
    """Returns the anchor that GitHub makes of a heading."""
    plain = LINK.sub(r"\1", text).replace("`", "")
    return re.sub(r"[^\w\- ]", "", plain.lower()).replace(" ", "-")


def outside_fences(text):
    """Yields the number and the text of each line that is in no code block."""
    fence = ""
    for number, line in enumerate(text.split("\n"), 1):
        found = FENCE.match(line)
        if found and not fence:
            fence = found[1]
        elif found and found[1] == fence:
            fence = ""
        elif not fence:
            yield number, line


class Anchors:
    """Makes the anchors of a page's headings in order: one that was used before gets a number."""

    def __init__(self):
        self.used = {}

    def add(self, text):
        anchor = slug(text)
        count = self.used.get(anchor, 0)
        self.used[anchor] = count + 1
        return f"{anchor}-{count}" if count else anchor


def headings(text):
    """Returns the headings of a page, each with its anchor."""
    anchors, found = Anchors(), []
    for _, line in outside_fences(text):
        heading = HEADING.match(line)
        if heading:
            found.append(Heading(len(heading[1]), heading[2], anchors.add(heading[2])))
    return found


def links(text):
    """Yields the line number and the target of each link of a page."""
    for number, line in outside_fences(text):
        bare = CODE.sub(lambda found: "x" * len(found[0]), line)
        for found in LINK.finditer(bare):
            yield number, found[2]


def code_words(line):
    """Returns what a line has in backticks."""
    return [found[2].strip() for found in CODE.finditer(line)]


def plain(text):
    """Returns a line without links and emphasis."""
    return re.sub(r"\*\*", "", LINK.sub(r"\1", text)).replace("`", "")


def inline(text, target):
    """Returns a line's HTML. `target` makes the address of a link's target, or returns nothing if it has none."""
    kept = []

    def keep(made):
        kept.append(made)
        return f"\0{len(kept) - 1}\0"

    def link(found):
        address = target(found[2])
        inner = emphasis(found[1])
        return keep(f'<a href="{html.escape(address)}">{inner}</a>') if address else inner

    def emphasis(part):
        return re.sub(r"\*\*(.+?)\*\*", r"<strong>\1</strong>", html.escape(part, quote=False))

    text = CODE.sub(lambda found: keep(f"<code>{html.escape(found[2], quote=False)}</code>"), text)
    text = emphasis(LINK.sub(link, text))
    while "\0" in text:
        text = re.sub("\0(\\d+)\0", lambda found: kept[int(found[1])], text)
    return text


class Converter:
    """Makes HTML of a page. `target` makes the address of a link's target."""

    def __init__(self, target):
        self.target = target
        self.anchors = Anchors()
        self.tasks = 0

    def convert(self, text):
        return "\n".join(self.blocks(text.split("\n")))

    def inline(self, text):
        return inline(text, self.target)

    def blocks(self, lines):
        """Returns the HTML of each block of some lines."""
        at, made = 0, []
        while at < len(lines):
            line = lines[at]
            end = at + 1
            if not line.strip():
                pass
            elif FENCE.match(line):
                end = next((to for to in range(at + 1, len(lines)) if FENCE.match(lines[to])), len(lines)) + 1
                made.append(code_block(lines[at + 1 : end - 1]))
            elif HEADING.match(line):
                made.append(self.heading(HEADING.match(line)))
            elif line.startswith("<"):
                made.append(line)
            else:
                end, block = self.longer_block(lines, at)
                made.append(block)
            at = end
        return made

    def longer_block(self, lines, at):
        """Returns the line after a table, a list or a paragraph, and its HTML."""
        if lines[at].startswith("|"):
            end = first(lines, at, lambda line: not line.startswith("|"))
            return end, self.table(lines[at:end])
        if ITEM.match(lines[at]):
            end = first(lines, at, lambda line: line.strip() and not line.startswith(" ") and not ITEM.match(line))
            return end, self.list(lines[at:end])
        end = first(lines, at + 1, lambda line: not line.strip() or OTHER.match(line))
        return end, f"<p>{self.inline(' '.join(line.strip() for line in lines[at:end]))}</p>"

    def heading(self, found):
        level, anchor = len(found[1]), self.anchors.add(found[2])
        mark = f'<a class="mark" href="#{anchor}" aria-label="Link to this section">#</a>'
        shown = self.inline(found[2]).replace("::", "::<wbr>")
        return f'<h{level} id="{anchor}">{shown}{mark}</h{level}>'

    def list(self, lines):
        """Returns a list, whose items have blocks of their own."""
        starts = [at for at, line in enumerate(lines) if ITEM.match(line) and not line.startswith(" ")]
        kind = "ol" if lines[0][0].isdigit() else "ul"
        items = []
        for start, end in zip(starts, [*starts[1:], len(lines)]):
            margin = len(ITEM.match(lines[start])[0])
            more = (line.lstrip() if line[:margin].strip() else line[margin:] for line in lines[start + 1 : end])
            inner = self.blocks([lines[start][margin:], *more])
            if inner and inner[0].startswith("<p>"):
                inner[0] = inner[0][3:-4]
            items.append(f"<li>{''.join(inner)}</li>")
        return f"<{kind}>\n" + "\n".join(items) + f"\n</{kind}>"

    def table(self, lines):
        """Returns a table, whose rows have anchors: `row-1` and so on."""
        rows = [[self.inline(cell) for cell in cells(line)] for line in lines]
        head = "".join(f"<th>{cell}</th>" for cell in rows[0])
        body = []
        for row in rows[2:]:
            self.tasks += 1
            body.append(f'<tr id="row-{self.tasks}">' + "".join(f"<td>{cell}</td>" for cell in row) + "</tr>")
        return f'<div class="table"><table>\n<tr>{head}</tr>\n' + "\n".join(body) + "\n</table></div>"


def cells(row):
    """Returns the cells of a table's row."""
    return [cell.strip() for cell in re.split(r"(?<!\\)\|", row.strip().strip("|"))]


def first(lines, at, ends):
    """Returns the index of the first line from `at` on for which `ends` holds, or the number of lines."""
    return next((to for to in range(at, len(lines)) if ends(lines[to])), len(lines))


def code_block(lines):
    return "<pre><code>" + html.escape("\n".join(lines), quote=False) + "</code></pre>"
