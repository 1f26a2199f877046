"""What is another in a second tree document: names that were added or removed, files and links that changed, and what only moved."""
import hashlib

from tree_documents import records, unescape


EMPTY = {hashlib.sha256(b"dir ").digest(), hashlib.sha256(b"file ").digest()}  # of what has nothing to know it again by


class Tree:
    """A tree by its paths: the word of each (dir, file, link), its bytes, and of a file the first of its names."""
    def __init__(self, document):
        self.words, self.bodies, self.firsts = {}, {}, {}
        for word, path, body in records(document):
            first = self.firsts[unescape(body)] if word == b"hard" else path
            self.words[path] = b"file" if word == b"hard" else word
            self.bodies[path] = self.bodies[first] if word == b"hard" else body
            self.firsts[path] = first

    def digests(self):
        """A digest of all that is at and below each path."""
        parts = {path: [] for path, word in self.words.items() if word == b"dir"}
        found = {}
        for path in sorted(self.words, key=lambda path: (-path.count(b"/"), path)):
            body = b"\n".join(parts[path]) if path in parts else self.bodies[path]
            found[path] = hashlib.sha256(self.words[path] + b" " + body).digest()
            parent, _, name = path.rpartition(b"/")
            if parent:
                parts[parent].append(name.hex().encode() + b" " + found[path].hex().encode())
        return found


def first_common(tree, common):
    """The first of the names that are common to both trees, of the file at each of them."""
    found = {}
    for path in sorted(common):
        found.setdefault(tree.firsts[path], path)
    return {path: found[tree.firsts[path]] for path in common}


def changes(old, new):
    """Pairs of a word and a text: (`added`, kind, path), (`removed`, ..), (`changed`, ..), and (`moved`, kind, path, path), by paths."""
    same_kind = {path for path in old.words if new.words.get(path) == old.words[path]}
    removed, added = old.words.keys() - same_kind, new.words.keys() - same_kind
    old_first, new_first = first_common(old, same_kind), first_common(new, same_kind)
    found = [("changed", old.words[path], path) for path in same_kind
             if old.bodies[path] != new.bodies[path] or old_first[path] != new_first[path]]
    moves = moved(old, new, removed, added)
    for source, target in moves:
        found.append(("moved", old.words[source], source, target))
    for word, tree, paths, side in (("removed", old, removed, 0), ("added", new, added, 1)):
        gone = {move[side] for move in moves}
        found += [(word, tree.words[path], path) for path in paths if not is_below(path, gone)]
    return sorted(found, key=lambda change: (change[2], change[0]))


def is_below(path, tops):
    """Whether the path is one of these or below one."""
    while path:
        if path in tops:
            return True
        path = path.rpartition(b"/")[0]
    return False


def moved(old, new, removed, added):
    """Pairs of a path that is gone and one that is new with the same content, the highest alone."""
    if not removed or not added:
        return []
    digests, there = new.digests(), {}
    for path in sorted(added, reverse=True):
        there.setdefault(digests[path], []).append(path)
    digests, moves, gone, come = old.digests(), [], set(), set()
    for path in sorted(removed, key=lambda path: (old.words[path] != b"dir", path.count(b"/"), path)):
        targets = there.get(digests[path], [])
        while targets and is_below(targets[-1], come):
            targets.pop()
        if targets and digests[path] not in EMPTY and not is_below(path, gone):
            moves.append((path, targets.pop()))
            gone.add(path)
            come.add(moves[-1][1])
    return moves
