"""Names in backticks: each one that is one word must be in the tree, as a path, a file's name or a word of the sources."""
import re

from .documents import line_at, spans_of
from .tree import FOLDERS

PLACEHOLDER = re.compile(r"[A-Z][A-Z0-9]*")
IDENTIFIER = re.compile(r"[A-Za-z_]\w*")
PATH = re.compile(r"\.{0,2}/?[\w*.+-]+(?:/[\w*.+-]+)*/?")
FILE = re.compile(r"[\w*+-]+(?:\.[\w-]+)*\.(?:rt|antt|edit|md|py|txt|calls|texts|mistakes|refused|yaml|elf|c|h|s|S|ld|cmake|sh|seconds)")
# Names of others' things, which the tree doesn't have.
ELSEWHERE = ("cloudabi.txt", "librust-cloudabi-dev", "__unix__")
QUALIFIED = re.compile(r"([A-Za-z_]\w*)(?:::|\.)([A-Za-z_]\w*)")


def check_names(document, tree, findings):
    """Checks each name in backticks of a document, and of several words those that are paths from the top."""
    for block in document.blocks:
        if block.kind != "code":
            for text, begin in spans_of(block.text):
                words = text.split()
                for word in words if len(words) == 1 else filter(is_path, words):
                    fault = fault_of(word, tree)
                    if fault is not None:
                        findings.check(not fault, document, line_at(block, begin), fault)


def is_path(word):
    """Whether a word of a command is a path of the tree."""
    return PATH.fullmatch(word) and word.removeprefix("./").split("/")[0] in (*FOLDERS, "docs") and "/" in word.strip("./")


def fault_of(text, tree):
    """What is wrong with a name; "" where nothing is, and None where the text is no name."""
    if text.startswith("\\") or PLACEHOLDER.fullmatch(text) or not re.search(r"[A-Za-z]{2}", text) or text in ELSEWHERE:
        return None
    if "/" in text and PATH.fullmatch(text):
        return fault_of_path(text, tree)
    if FILE.fullmatch(text):
        return "" if tree.resolved(text) or tree.has_text(text) else f"no file {text}"
    if text.startswith("-") or re.fullmatch(r"\w+(?:-\w+)+", text):
        text = text.partition("=")[0]
        return "" if text in tree.named or tree.has_text(text) else f"{text} is not in the sources"
    return fault_of_words(text, tree)


def fault_of_path(text, tree):
    """The same of a path. One from the host's root is none of the tree."""
    if text.startswith(("/", "..")):
        return None
    name = text.removeprefix("./").rstrip("/")
    return "" if tree.resolved(name) or tree.is_ignored(name) else f"no file {text}"


def fault_of_words(text, tree):
    """The same of identifiers, with `::` or a dot between them where there are several."""
    known = text in tree.named or text in tree.functions
    words = [word for word in IDENTIFIER.findall(text) if not PLACEHOLDER.fullmatch(word)]
    absent = [word for word in words if word not in tree.words and word not in tree.named and word not in tree.kit_words]
    if absent and not known:
        return f"{absent[0]} is not in the sources"
    pair = QUALIFIED.fullmatch(text)
    if pair and not known and not any(tree.has_text(mark.join(pair.groups())) for mark in ("::", ".")):
        return f"{text} is not in the sources"
    return "" if words else None
