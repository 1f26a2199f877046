"""How the scripts of this folder show what a run changed."""
from explaining.texts import printable


def bytes_of(count):
    """So many bytes, in words."""
    return f"{count:,} byte{'' if count == 1 else 's'}"


def size(tree, path):
    """What is at a path, in words."""
    body = tree.bodies[path]
    if tree.words[path] == b"dir":
        return "directory"
    return f"link to {printable(body)}" if tree.words[path] == b"link" else bytes_of(len(body))


def target(change):
    """The path at which something is behind a change, or was before it."""
    return change[3] if change[0] == "moved" else change[2]


def told(change, old, new):
    """A change of `tree_changes.changes` in words, without that path."""
    what, path = change[0], change[2]
    if what == "moved":
        return f"was {printable(path)}"
    if what != "changed":
        return size(new if what == "added" else old, path)
    if old.bodies[path] == new.bodies[path]:
        return "shares its file with other names than before"
    before, after = size(old, path), size(new, path)
    return f"{before} before, {after} now" if before != after else f"{after}, others than before"
