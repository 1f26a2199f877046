"""A document as blocks: paragraphs, items of lists, headings, rows of tables and lines of code, each with its line."""
import collections
import re

FENCE = re.compile(r" *(```|~~~)")
ITEM = re.compile(r" *(?:[-*+]|\d+[.)]) ")
CODE = re.compile(r"(?<!`)(`+)(?!`)(.+?)(?<!`)\1(?!`)", re.S)
LINK = re.compile(r"!?\[((?:[^\[\]]|\[[^\]]*\])*)\]\(<?([^()\s>]*)>?(?: \"[^\"]*\")?\)")

# `kind` is prose, heading, row or code; `header` has the cells of a table's first row, where the block is another row of it.
Block = collections.namedtuple("Block", "kind line text header")


class Document:
    """A document: its name from the top of the tree, its text and its blocks."""

    def __init__(self, name, text):
        self.name, self.text = name, text
        self.blocks = list(blocks_of(text.split("\n")))

    def anchors(self):
        """The anchors of its headings, by GitHub's rule."""
        found = collections.Counter()
        for block in self.blocks:
            if block.kind == "heading":
                anchor = anchor_of(block.text)
                yield f"{anchor}-{found[anchor]}" if found[anchor] else anchor
                found[anchor] += 1
        yield from re.findall(r"<a (?:name|id)=\"([^\"]+)\"", self.text)


def blocks_of(lines):
    """The blocks of a document. A paragraph's lines are one block, with the line feeds between them."""
    paragraph, begin, fence, header = [], 0, None, None
    for number, line in enumerate([*lines, ""], 1):
        kind = "code" if fence else kind_of(line)
        marks = FENCE.match(line)
        if marks and fence in (None, marks[1]):
            kind, fence = "code", None if fence else marks[1]
        if paragraph and (kind != "prose" or ITEM.match(line)):
            yield Block("prose", begin, "\n".join(paragraph), None)
            paragraph = []
        if kind == "prose":
            begin = begin if paragraph else number
            paragraph.append(line)
        elif kind:
            yield Block(kind, number, line, header if kind == "row" else None)
        header = (header or cells_of(line)) if kind == "row" else None


def kind_of(line):
    """The kind of a line outside of a code block, or None for an empty one."""
    if not line.strip():
        return None
    return "heading" if re.match(r"#{1,6} ", line) else "row" if line.lstrip().startswith("|") else "prose"


def cells_of(row):
    """The cells of a table's row."""
    return [cell.strip() for cell in re.split(r"(?<!\\)\|", row.strip().strip("|"))]


def spans_of(text):
    """What stands in backticks in a block's text, with the places where it begins."""
    return [(found[2].replace("\\|", "|").strip(), found.start()) for found in CODE.finditer(text)]


def line_at(block, place):
    """The line in which a place of a block's text stands."""
    return block.line + block.text.count("\n", 0, place)


def anchor_of(heading):
    """The anchor of a heading: lower case, without marks but hyphens and underscores, with a hyphen for each space."""
    text = LINK.sub(r"\1", heading.lstrip("#").strip()).lower()
    return re.sub(r"[^\w\- ]", "", text).replace(" ", "-")
