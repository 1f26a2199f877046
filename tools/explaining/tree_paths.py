"""Looks for paths in a tree document, as far as it is read: what is there, and why a path isn't."""
from tree_documents import Refused, records
from explaining.texts import maybe, shown

MOST = 67_108_864  # bytes of a document that is searched


def nodes_of(document):
    """The words of a document's records by their paths, up to its first fault. A link has its text beside it."""
    nodes = {b"": (b"dir", None)}
    try:
        for word, path, body in records(document):
            nodes[path] = (word, body)
    except Refused:
        pass
    return nodes


def why_absent(path, tree):
    """Why the tree document has nothing at the path. It is empty where none is given, and None where it isn't known."""
    if tree is None or len(tree) > MOST:
        return "the tree has no such path"
    if not tree:
        return "the tree is empty: `--tree FILE` gives one, which `tools/tree-document pack DIRECTORY` makes"
    nodes, here = nodes_of(tree), b""
    for name in path.encode().lstrip(b"/").split(b"/"):
        if name in (b"", b"."):
            continue
        if name == b"..":
            return "a `..` leads out of the tree, or is behind what is no directory"
        if nodes.get(here, (b"",))[0] == b"link":
            return f"`{shown(here)}` is a symbolic link to `{shown(nodes[here][1])}`, and what is behind it isn't there or outside"
        below = b"%s/%s" % (here, name) if here else name
        if below not in nodes:
            beside = [other.decode() for other in names_in(nodes, here)]
            place = f"the directory `{shown(here)}`" if here else "the tree"
            return f"{place} has no `{shown(name)}`{maybe(name.decode(), beside)}"
        here = below
    return f"`{shown(here)}` is a symbolic link to what isn't there or outside"


def names_in(nodes, directory):
    front = directory + b"/" if directory else b""
    return [path[len(front):] for path in nodes if path and path.startswith(front) and b"/" not in path[len(front):]][:2000]
