"""Links between documents: the file is there, and the heading that the anchor names."""
import os.path

from .documents import CODE, LINK, line_at


def check_links(document, documents, tree, findings):
    """Checks each relative link of a document. `documents` has all of them by name."""
    for block in document.blocks:
        if block.kind != "code":
            text = CODE.sub(lambda found: "`" * len(found[0]), block.text)
            for found in LINK.finditer(text):
                if "://" not in found[2] and not found[2].startswith("mailto:"):
                    fault = fault_of(found[2], document, documents, tree)
                    findings.check(not fault, document, line_at(block, found.start()), fault)


def fault_of(target, document, documents, tree):
    """What is wrong with a link's target, or ""."""
    path, _, anchor = target.partition("#")
    name = os.path.normpath(os.path.join(os.path.dirname(document.name), path)) if path else document.name
    if name not in tree.paths and name != ".":
        return f"a link to {target}: no file {name}"
    if anchor and anchor not in documents.get(name, ()):
        return f"a link to {target}: {name} has no such heading"
    return ""
