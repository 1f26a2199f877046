"""Reads a launch text that the sandbox took, or whose fault is in what it means (docs/LAUNCH.md): values with their lines. It decides
nothing: what isn't read here is only explained less."""
import re

RESOLVED = re.compile(r"~|null|Null|NULL|true|True|TRUE|false|False|FALSE|[-+]?[0-9]+|0x[0-9A-Fa-f]+|0o[0-7]+")


class Unreadable(Exception):
    """What isn't in the part of YAML that is read here."""


class Node:
    """A value: its kind is `null`, `text`, `other` (a number, a bool or a null that is written), `map` or `sequence`."""
    def __init__(self, line, kind, text="", entries=()):
        self.line, self.kind, self.text, self.entries, self.tag = line, kind, text, list(entries), None

    def get(self, key):
        """A map's value of the key, or None."""
        for name, value in self.entries if self.kind == "map" else ():
            if name.text == key:
                return value
        return None


class Descriptor:
    """A node that gives a descriptor: its number, the node, and the key under which it stands, if there is one."""
    def __init__(self, number, node, key):
        self.number, self.node, self.key = number, node, key


def rows_of(text):
    """The lines in which something stands: number, column and what stands there."""
    rows = []
    for number, line in enumerate(text.removeprefix("\ufeff").split("\n"), 1):
        line = line.removesuffix("\r")
        rest = line.lstrip(" ")
        column = len(line) - len(rest)
        if column == 0 and re.match(r"\.\.\.( |$)", rest):
            break
        if rest and not rest.startswith("#") and not (column == 0 and re.match(r"%TAG |---( |$)", rest)):
            rows.append((number, column, rest))
    return rows


def scalar_end(text, at, in_flow):
    """Where the scalar that begins here ends."""
    if text[at] in "\"'":
        pattern = r'"(?:[^"\\]|\\.)*"' if text[at] == '"' else r"'(?:[^']|'')*'"
        found = re.compile(pattern).match(text, at)
        if not found:
            raise Unreadable
        return found.end()
    pattern = r" #|:(?:[ ,\]}]|$)|[,\[\]{}]" if in_flow else r" #|:(?: |$)"
    found = re.compile(pattern).search(text, at)
    return len(text[:found.start() if found else len(text)].rstrip(" "))


def scalar(text, line):
    if text[:1] == "'":
        return Node(line, "text", text[1:-1].replace("''", "'"))
    if text[:1] == '"':
        escapes = {"n": "\n", "t": "\t", "r": "\r"}
        plain = re.sub(r"\\(?:x(..)|u(....)|(.))",
                       lambda found: chr(int(found[1] or found[2], 16)) if not found[3] else escapes.get(found[3], found[3]), text[1:-1])
        return Node(line, "text", plain)
    return Node(line, "other" if RESOLVED.fullmatch(text) else "text", text)


def past(text, at):
    """Past spaces, and past a comment to the line's end."""
    while text[at:at + 1] == " ":
        at += 1
    return len(text) if text[at:at + 1] == "#" else at


class Reader:
    """Reads rows one after another."""
    def __init__(self, text):
        self.rows, self.at = rows_of(text), 0

    def document(self):
        return self.behind("", 1, -1, False)

    def behind(self, rest, line, parent, takes_items):
        """The value of a key, a dash or a tag with nothing behind it in its line, or the one that stands there."""
        if past(rest, 0) < len(rest):
            return self.in_line(rest[past(rest, 0):], line, parent, takes_items)
        if self.at < len(self.rows):
            number, column, text = self.rows[self.at]
            if column > parent or (takes_items and column == parent and is_item(text)):
                self.at += 1
                return self.at_front(text, number, column, parent)
        return Node(line, "null")

    def at_front(self, text, line, column, parent):
        """A value at a row's front, or behind a dash: there a block may begin."""
        if is_item(text):
            return self.sequence(text, line, column)
        if text[0] not in "!{[":
            end = scalar_end(text, 0, False)
            if re.match(r" *:( |$)", text[end:]):
                return self.map(text, line, column)
        return self.in_line(text, line, parent, True)

    def in_line(self, text, line, parent, takes_items):
        """A value that begins in a line behind which the line's rest may only be a comment."""
        if text[0] == "!":
            tag, _, rest = text.partition(" ")
            node = self.behind(rest, line, parent, takes_items)
            node.tag, node.line = tag, line
            return node
        node, end = flow(text, 0, line, False)
        if past(text, end) < len(text):
            raise Unreadable
        return node

    def sequence(self, text, line, column):
        node = Node(line, "sequence")
        while True:
            inner = past(text, 1)
            if inner < len(text):
                node.entries.append(self.at_front(text[inner:], line, column + inner, column))
            else:
                node.entries.append(self.behind("", line, column, False))
            if self.at == len(self.rows) or self.rows[self.at][1] != column or not is_item(self.rows[self.at][2]):
                return node
            line, column, text = self.rows[self.at]
            self.at += 1

    def map(self, text, line, column):
        node = Node(line, "map")
        while True:
            end = scalar_end(text, 0, False)
            colon = re.compile(r" *:( |$)").match(text, end)
            if not colon:
                raise Unreadable
            key = scalar(text[:end], line)
            node.entries.append((key, self.behind(text[colon.end():], line, column, True)))
            if self.at == len(self.rows) or self.rows[self.at][1] != column:
                return node
            line, column, text = self.rows[self.at]
            self.at += 1


def is_item(text):
    return text == "-" or text.startswith("- ")


def flow(text, at, line, in_flow):
    """A scalar or a flow value, and where it ends."""
    if text[at:at + 1] == "!":
        end = re.compile(r"[^ ,\[\]{}]*").match(text, at).end()
        inner = past(text, end)
        if inner == len(text) or text[inner] in ",]}":
            node, stop = Node(line, "null"), end
        else:
            node, stop = flow(text, inner, line, in_flow)
        node.tag = text[at:end]
        return node, stop
    if text[at:at + 1] in ("[", "{"):
        return collection(text, at, line)
    if at == len(text) or text[at] in ",]}":
        return Node(line, "null"), at
    end = scalar_end(text, at, in_flow)
    return scalar(text[at:end], line), end


def collection(text, at, line):
    """A sequence in brackets or a map in braces, and where it ends."""
    is_map, close = text[at] == "{", "}" if text[at] == "{" else "]"
    node, at = Node(line, "map" if is_map else "sequence"), past(text, at + 1)
    while text[at:at + 1] != close:
        if at == len(text):
            raise Unreadable
        entry, at = flow(text, at, line, True)
        at = past(text, at)
        if is_map:
            if text[at:at + 1] != ":":
                raise Unreadable
            value, at = flow(text, past(text, at + 1), line, True)
            entry, at = (entry, value), past(text, at)
        node.entries.append(entry)
        if text[at:at + 1] == ",":
            at = past(text, at + 1)
        elif text[at:at + 1] != close:
            raise Unreadable
    return node, at + 1


def read(data):
    """The root of a launch text, or None where it isn't read."""
    try:
        return Reader(data.decode()).document()
    except (UnicodeDecodeError, Unreadable, IndexError, ValueError, RecursionError):
        return None


def descriptors(root):
    """The nodes that give descriptors, in the order of the document."""
    found = []

    def visit(node, key):
        if node.tag and node.tag != "!!binary":
            found.append(Descriptor(len(found), node, key))
        elif node.kind == "map":
            for name, value in node.entries:
                visit(name, None)
                visit(value, name.text)
        elif node.kind == "sequence":
            for item in node.entries:
                visit(item, key)

    if root is not None:
        visit(root, None)
    return found
