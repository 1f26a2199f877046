"""How documents are written: short sentences, short lines, and not too much in all."""
import re

from .documents import CODE, ITEM, LINK

MEAN, COLUMNS = 20, 150
README, ALL = 7168, 330_000


def check_prose(document, findings):
    """Checks the mean sentence of a document's prose, and its lines. Tables, code and headings aren't prose."""
    words = [len(sentence.split()) for sentence in sentences_of(document)]
    mean = sum(words) / max(1, len(words))
    findings.check(mean < MEAN, document, None, f"the mean sentence has {mean:.1f} words, and is to have fewer than {MEAN}")
    for block in document.blocks:
        if block.kind == "prose":
            for number, line in enumerate(block.text.split("\n"), block.line):
                findings.check(len(line) <= COLUMNS, document, number, f"{len(line)} columns, of {COLUMNS}")


def sentences_of(document):
    """The sentences of a document's prose. What stands in backticks is one word, and a paragraph's end is a sentence's."""
    for block in document.blocks:
        if block.kind == "prose":
            text = LINK.sub(r"\1", CODE.sub("x", ITEM.sub("", block.text, 1)))
            yield from (sentence for sentence in re.split(r"(?<=[.!?])[)\"*_]*\s+(?=[\w(\"*`])", text) if sentence.strip())


def check_sizes(documents, findings):
    """Checks the bytes of README.md, and of all documents together."""
    sizes = {document.name: len(document.text.encode()) for document in documents}
    findings.check(sizes.get("README.md", 0) <= README, "README.md", None, f"{sizes.get('README.md')} bytes, of {README}")
    findings.check(sum(sizes.values()) <= ALL, "all documents", None, f"{sum(sizes.values())} bytes, of {ALL}")
