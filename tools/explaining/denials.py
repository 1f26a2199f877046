"""What would allow a call that was denied: which line of the launch file, and what it would open (docs/PROGRAMS.md, What to do with each
refusal)."""
import collections
import re

from explaining import launch_document
from explaining.rights import DIRECTORY, FILE, MEANINGS, OUTPUT, STDIN
from explaining.texts import shown
from explaining.tree_paths import nodes_of

MOST = 50  # different denials that are explained
DENIAL = re.compile(r"[0-9a-f]{8}\.\d+ (\S+) (?:fd (\d{1,19}) base (\S+) inheriting (\S+)|outside (\d{1,19}))", re.ASCII)


class Denial:
    """A denied call: its name, and the component of the path that leads outside (None where none does), or the descriptor's number with the
    rights that are missing in its `rights` and in its `inheriting`."""
    def __init__(self, found):
        self.call, number, base, inheriting, component = found.groups()
        self.component = None if component is None else int(component)
        self.number = None if number is None else int(number)
        self.missing = {"rights": rights_of(base), "inheriting": rights_of(inheriting)}

    def line(self):
        """What was denied."""
        if self.component is not None:
            return (f"{shown(self.call)}: component {self.component} of a path, counted from 0, leads out of its directory: a `..`, a slash at the "
                    "front, or a symbolic link to one of these")
        lacks = [f"{'lacks' if key == 'rights' else 'may not hand on'} {', '.join(rights)}" for key, rights in self.missing.items() if rights]
        return f"{shown(self.call)}: descriptor {self.number} {' and '.join(lacks)}"

    def opens(self, place=None):
        """What each missing right would open: at the place of the descriptor, where it is known, or in what is opened below it."""
        if self.component is not None:
            return ["no right allows it. A `!file` whose `path` is a directory further up would have it within, and opens all that lies there; "
                    "`path: /` opens the whole tree"]
        at, below = (f": {place}", f", in what it opens below {place}") if place else ("", ", in what it opens below it")
        return [f"{right} would let the program {MEANINGS[right]}{at if key == 'rights' else below}"
                for key, rights in self.missing.items() for right in rights]


def rights_of(names):
    return [] if names in (None, "-") else [name for name in names.split(",") if name in MEANINGS]


def read_denial(line):
    """The denial of a report's line, or None where it has another form."""
    found = DENIAL.fullmatch(line)
    return Denial(found) if found else None


def counted(lines):
    """The different denials of a report's lines, each with how often it stands there; whose thread it was isn't looked at."""
    counts = collections.Counter(line.partition(" ")[2] for line in lines)
    found = ((read_denial(f"00000000.0 {line}"), count) for line, count in counts.items())
    return [(denial, count) for denial, count in found if denial is not None]


def explain(report, launch):
    """The lines for each denial of a report, each different one once; `launch` has the launch text, or is None."""
    denials = counted(report.denials)
    granted = launch_document.descriptors(launch_document.read(launch)) if launch is not None else None
    kinds = nodes_of(report.tree) if denials else {}
    lines = []
    for denial, count in denials[:MOST]:
        lines.append(denial.line() + (f", {count} times" if count > 1 else ""))
        lines += [f"    {line}" for line in allowing(denial, granted, kinds)]
    if len(denials) > MOST:
        lines.append(f"{len(denials) - MOST} more denials of other kinds aren't explained")
    if denials and launch is None:
        lines.append("with `--launch FILE` the lines of the launch file are named")
    return lines


def allowing(denial, granted, kinds):
    """What would allow it: lines of the launch file, where its descriptors are known, and what they would open."""
    if denial.component is not None:
        return denial.opens()
    missing = {key: rights for key, rights in denial.missing.items() if rights}
    if granted is None:
        return [*(f"its `{key}` would need {', '.join(rights)}" for key, rights in missing.items()), *denial.opens()]
    if denial.number >= len(granted):
        return [*opened(missing), *denial.opens()]
    descriptor = granted[denial.number]
    lines = [line for key, rights in missing.items() for line in line_allowing(descriptor, key, rights, kinds)]
    return lines + denial.opens(place_of(descriptor.node))


def place_of(node):
    """How the path of a node is named, or None of a stream."""
    path = node.get("path")
    return None if path is None else "the whole tree" if not path.text.strip("/") else f"`{shown(path.text)}`"


def opened(missing):
    names = ", ".join(right for rights in missing.values() for right in rights)
    return ["the launch file doesn't name this descriptor: the program made, opened, received or copied it",
            f"what is opened through a directory has of its `inheriting` what the program asks: {names} would have to stand there, and be asked for"]


def line_allowing(descriptor, key, rights, kinds):
    """The line of the launch file that would allow it, as it would be written, or why none would."""
    node, name = descriptor.node, f"`{shown(descriptor.key)}`" if descriptor.key else "the node"
    if node.tag != "!file":
        return [f"line {node.line}, {name}: `{node.tag} {shown(node.text)}` is a stream, which can never have it"]
    possible = possible_rights(node, key, kinds)
    never = [right for right in rights if right not in possible]
    if never:
        return [f"line {node.line}, {name}: no launch file can give {', '.join(never)}: {kind_name(node, kinds)} can't have it"]
    listed = node.get(key)
    if listed is None:
        return [f"line {node.line}, {name}, has no `{key}` and so gave all; the program lowered its rights itself"]
    names = [item.text for item in listed.entries]
    names += [right for right in rights if right not in names]
    if all(right in {item.text for item in listed.entries} for right in rights):
        return [f"line {listed.line}, {name}, gave it; the program lowered its rights itself"]
    return [f"line {listed.line}, {name}: `{key}: [{', '.join(map(shown, names))}]` would allow it"]


def kind_of(node, kinds):
    """`dir`, `file`, or None where the tree doesn't say what the node's path is."""
    path = node.get("path")
    found = kinds.get("/".join(name for name in path.text.split("/") if name not in ("", ".")).encode()) if path else None
    return found[0].decode() if found and found[0] != b"link" else None


def kind_name(node, kinds):
    return {"dir": "a directory", "file": "a file"}.get(kind_of(node, kinds), "what it is of")


def possible_rights(node, key, kinds):
    """The rights that the descriptor of the node may have at most in this list."""
    kind = kind_of(node, kinds)
    if key == "inheriting":
        return set() if kind == "file" else DIRECTORY | FILE
    return {"dir": DIRECTORY, "file": FILE}.get(kind, DIRECTORY | FILE | STDIN | OUTPUT)
