"""What a fault of a launch file means (docs/LAUNCH.md): the line's text, the likely cause and what to write."""
import re

from explaining import launch_document
from explaining.rights import MEANINGS
from explaining.texts import maybe, nearest, shown
from explaining.tree_paths import why_absent

# What each kind of fault means, and what to write instead.
KINDS = {
    "Indent": "the line is deeper than what stands before it allows, or between two columns: keys of one map begin at one column",
    "Tab": "a tab stands where spaces belong",
    "Quote": "a quoted text isn't closed in its line; within single quotes an apostrophe is written twice",
    "Escape": "in double quotes a backslash stands before \" \\ / n t r xHH or uHHHH alone; write it twice, or take single quotes",
    "Flow": "a value in brackets or braces ends in its own line, with commas between its entries and `: ` behind a key",
    "Tag": "a tag is one `!` and a name, one before each value; `!!binary` stands before a text",
    "DuplicateKey": "the map has this key already; keys are equal where they mean the same, as 1 and 0x1",
    "Anchor": "a value that begins with `&` or `*` stands in quotes",
    "BlockScalar": "a text that begins with `|` or `>` stands in quotes; a line's end within a text is \\n in double quotes",
    "Float": "a number with a point or an exponent stands in quotes, as a text",
    "IntegerRange": "integers go from -2^63 to 2^64 - 1; write it in quotes, as a text",
    "End": "text stands behind the document, or behind a value in its line; a key needs `: ` behind it",
    "Depth": "this is the 65th map or sequence inside one another; 64 are the most",
    "Character": "a character stands where it may not, or is no UTF-8, or a control character; put the text in quotes",
    "Base64": "what stands behind `!!binary` isn't base64 with its padding",
    "UnknownTag": "tags are `!fd` and `!file`",
    "BadFd": "behind `!fd` stands stdin, stdout or stderr",
    "BadFile": "behind `!file` stands a map of `path` and perhaps `rights` and `inheriting`",
    "UnknownRight": "it is no right's name",
    "NoSuchPath": "the path leads to no file or directory of the tree",
}
SEMANTIC = ("UnknownTag", "BadFd", "BadFile", "UnknownRight", "NoSuchPath")
MOST = 4 << 20  # bytes of a launch text that is looked at
IN_LINE = 1000  # bytes of a line in which a cause is looked for
STREAMS = ("stdin", "stdout", "stderr")
KEYS = ("path", "rights", "inheriting")


def explain(line, kind, launch, tree):
    """The lines that say what the fault in the line is; `launch` has the launch text or is None, `tree` the tree document or is None."""
    if kind not in KINDS:
        return [f"the launch file is faulty in line {line}"]
    lines = [f"the launch file, line {line}: {KINDS[kind]}"]
    if launch is not None and len(launch) <= MOST:
        text = launch.split(b"\n")
        here = text[line - 1] if 0 < line <= len(text) else b""
        lines.append(f"    {shown(here)}")
        lines += about_node(line, kind, launch, tree) if kind in SEMANTIC else about_line(kind, here)
    section = "Files and directories" if kind in ("BadFile", "UnknownRight", "NoSuchPath") else "Each kind of fault"
    if kind in ("UnknownTag", "BadFd"):
        section = "What a launch file gives"
    return [*lines, f"see docs/LAUNCH.md, {section}" + (", and docs/ABI.md, Rights" if kind == "UnknownRight" else "")]


# Faults of the text, by the line alone.

def about_line(kind, line):
    """The likely cause, by the line's text."""
    text = line[:IN_LINE].decode("utf-8", "replace")
    for of, pattern, cause in CAUSES:
        if of == kind:
            found = re.search(pattern, text)
            if found:
                return [cause.format(*map(shown, found.groups("")))]
    return []


CAUSES = (
    ("Flow", r"[{,]\s*(\"[^\"]*\"):[^ ]", "behind the colon of {0} stands a space"),
    ("Flow", r"\[[^\]]*$", "its `[` isn't closed in this line: put the whole list into one line, or write an item a line, `- item`"),
    ("Flow", r"\{[^}]*$", "its `{{` isn't closed in this line: put the whole map into one line, or write a key a line"),
    ("End", r"^\s*(?:- )?([^\s:]+):([^ ].*)$", "a space is missing behind the colon: `{0}: {1}`"),
    ("Indent", r"^\s*(?:- )?([^\s:]+):([^ ].*)$", "a space is missing behind the colon: `{0}: {1}`"),
    ("End", r"^\s*([^\s:#]+) +([^:]*)$", "a colon is missing: `{0}: {1}`"),
    ("Indent", r"^\s*([^\s:#]+) +([^:]*)$", "a colon is missing: `{0}: {1}`"),
    ("Anchor", r"([&*][^\s,\]}]*)", "write `\"{0}\"`"),
    ("Float", r"([-+]?(?:[0-9]*\.[0-9]+|[0-9]+\.[0-9]*|[0-9]+[eE][-+]?[0-9]+)[^\s,\]}]*)", "write `\"{0}\"`"),
    ("Character", r"^(?:---|\.\.\.) (.*)", "the line of a marker has nothing else: write `{0}` on the next line"),
    ("Character", r"^[^:\t]*: ([^\"'\[{]+: .*)", "a second colon: put the value in quotes, `\"{0}\"`"),
    ("Character", r"([@`%][^\s,\]}]*)", "write `\"{0}\"`"),
    ("Character", r"\ufffd", "the line isn't UTF-8"),
    ("Character", r"[\x00-\x1f\x7f]", "the line has a control character; between values spaces stand, and in double quotes \\t or \\xHH"),
)


# Faults of what the text means, by the node.

def about_node(line, kind, launch, tree):
    root = launch_document.read(launch)
    nodes = [found.node for found in launch_document.descriptors(root)]
    if kind == "NoSuchPath":
        paths = [node.get("path") for node in nodes if node.tag == "!file"]
        return next(([f"`path: {shown(path.text)}`: {why_absent(path.text, tree)}"] for path in paths if path and path.line == line), [])
    if kind == "UnknownRight":
        items = [item for node in nodes if node.tag == "!file" for item in items_of(node) if item.line == line]
        return next((about_right(item) for item in items if item.kind != "text" or item.tag or item.text not in MEANINGS), [])
    about = {"UnknownTag": about_tag, "BadFd": about_fd, "BadFile": about_file}[kind]
    found = (about(node) for node in nodes if node.line == line)
    return next((lines for lines in found if lines), [])


def items_of(node):
    return [item for name, value in node.entries if name.text in ("rights", "inheriting") and value.kind == "sequence"
            for item in value.entries] if node.kind == "map" else []


def about_right(item):
    if item.kind != "text" or item.tag:
        return ["an item of the list is no text: the lists have names of rights"]
    near = nearest(item.text.upper(), MEANINGS)
    return [f"`{shown(item.text)}` is no right" + (f"; the nearest is {near}: {MEANINGS[near]}" if near else "")]


def about_tag(node):
    if node.tag in ("!fd", "!file"):
        return []
    directories = ("!dir", "!directory", "!folder", "!path", "!tree")
    near = "!file" if node.tag.lower() in directories else nearest(node.tag.lower(), ("!fd", "!file")) or "!file"
    what = "gives a file or a directory" if near == "!file" else "gives a standard stream"
    return [f"`{shown(node.tag)}` is no tag that there is; the nearest is `{near}`, which {what}"]


def about_fd(node):
    if node.tag != "!fd":
        return []
    if node.kind == "null":
        return ["behind `!fd` stands nothing"]
    if node.kind != "text":
        return [f"behind `!fd` stands a {'word that is no text' if node.kind == 'other' else node.kind}"]
    near = maybe(node.text.lower(), STREAMS) or "; a file is given by `!file`"
    return [f"`!fd {shown(node.text)}`: there is no such stream{near}"]


def about_file(node):
    if node.tag != "!file":
        return []
    if node.kind == "null":
        return ["behind `!file` stands nothing: `path: ..` stands in the next line, deeper than this one"]
    if node.kind != "map":
        path = shown(node.text) if node.kind in ("text", "other") else "..."
        return [f"behind `!file` stands no map: write `!file {{path: {path}}}`"]
    for key, value in node.entries:
        if key.text not in KEYS:
            return [f"line {key.line}: `{shown(key.text)}` is no key of `!file`{maybe(key.text, KEYS)}"]
        fault = about_value(key.text, value)
        if fault:
            return [f"line {key.line}: {fault}"]
    return ["it has no `path`: write `path: /` for the whole tree"] if node.get("path") is None else []


def about_value(key, value):
    """What is wrong with the value of a key of `!file`, or None."""
    if value.tag:
        return f"the value of `{key}` has the tag `{shown(value.tag)}`, which can't stand inside of `!file`"
    if key == "path":
        return None if value.kind == "text" else "`path` has no text; a name that looks like a number stands in quotes"
    if value.kind == "sequence":
        return None
    if value.kind in ("text", "other"):
        listed = ", ".join(re.split(r"[ ,]+", value.text))
        return f"`{key}: {shown(value.text)}` is no list: write `{key}: [{shown(listed)}]`"
    return f"`{key}` has no list: write `{key}: [..]`, or `{key}: []` for none"
