"""Which symlinks of a tree document lead out of it: by a slash at the front of their text, by `..`, or by another link that does."""

MOST = 40  # links that the system follows on one way


def outward_links(all_records):
    """The paths of the links that lead outside."""
    links = {path: body for word, path, body in all_records if word == b"link"}
    return {path for path in links if leads_outside(path, links)}


def leads_outside(path, links):
    """Whether the way to what the link at this path is for leaves the tree. What isn't there counts as a directory: it may come."""
    here, names, followed = [], path.split(b"/")[::-1], 0
    while names:
        name = names.pop()
        if name in (b"", b"."):
            continue
        if name == b"..":
            if not here:
                return True
            here.pop()
            continue
        here.append(name)
        text = links.get(b"/".join(here))
        if text is not None:
            followed += 1
            if text.startswith(b"/"):
                return True
            if followed > MOST:
                return False
            here.pop()
            names += text.split(b"/")[::-1]
    return False
