"""What the line of a run that didn't begin means (docs/COMMAND.md): the likely cause, what to do, and the section to read."""
import errno
import os
import re
import stat

from explaining import launch_faults, program_faults, tree_faults
from explaining.command_words import USAGE
from explaining.texts import maybe, shown

MOST_BYTES = 268_435_456  # of an input
LIMITS = {b"too many": "the launch file gives over 1024 descriptors: one directory can hold what many files do",
          b"too large": "the launch file gives over 65,536 bytes of argument data: put large data into a file of the tree"}


class Inputs:
    """What a run was given, as far as it is known: the launch text, the tree document (empty where none is given), the program's bytes, and
    the names of the files by their option, `program` among them."""
    def __init__(self, launch=None, tree=None, program=None, names=None):
        self.launch, self.tree, self.program, self.names = launch, tree, program, names or {}


def explain(line, inputs):
    """The lines that explain a refusal's line, without its line feed; none where it is no such line."""
    kind, _, rest = line.partition(b": ")
    if line == b"words: refused":
        return ["the words aren't those of a run", f"usage: {USAGE}", "see docs/COMMAND.md"]
    if line == b"memory":
        return ["the sandbox was out of memory: this computer, or its `ulimit -v`, has no more; nothing of the run is left",
                "see docs/SECURITY.md, How to bound it"]
    if kind == b"input":
        return about_input(os.fsdecode(rest), inputs.names)
    if kind == b"launch" and rest in LIMITS:
        return [LIMITS[rest], "see docs/ABI.md, Limits"]
    found = re.fullmatch(rb"launch: line (\d+): ([A-Za-z0-9]+)", line)
    if found:
        return launch_faults.explain(int(found[1]), found[2].decode(), inputs.launch, inputs.tree)
    found = re.fullmatch(rb"program: ([A-Za-z]+)(?: (\d+))?", line)
    if found:
        return program_faults.explain(found[1].decode(), found[2] and found[2].decode(), inputs.program)
    found = re.fullmatch(rb"tree: byte (\d+)", line)
    return tree_faults.explain(int(found[1]), inputs.tree) if found else []


def about_input(name, names):
    """Why an input couldn't be read."""
    see = "see docs/COMMAND.md"
    if name == "-":
        return ["standard input, which has the launch file, is closed or can't be read", "give it by `< FILE`", see]
    if name.endswith(" too long") and not os.path.lexists(name):
        return [f"`{shown(name.removesuffix(' too long'))}` has over {MOST_BYTES} bytes, the most of an input", see]
    role = next((role for role, other in names.items() if other == name), None)
    what = {"program": "the program", "tree": "the file of `--tree`", "stdin": "the file of `--stdin`"}.get(role, "an input")
    return [f"{what}, `{shown(name)}`, {why_unreadable(name)}", *for_directory(name, role), see]


def why_unreadable(name):
    try:
        info = os.stat(name)
        if stat.S_ISDIR(info.st_mode):
            return "is a directory and no file"
        if not os.access(name, os.R_OK):
            return "may not be read: permission is missing"
        return f"has over {MOST_BYTES} bytes, the most of an input" if info.st_size > MOST_BYTES else "can't be read"
    except OSError as fault:
        if fault.errno == errno.ENOENT and os.path.islink(name):
            return "is a symbolic link to what isn't there"
        if fault.errno == errno.ENOENT:
            return "isn't there" + maybe(os.path.basename(name), beside(name))
        return f"can't be read: {fault.strerror}"


def beside(name):
    """The names in the directory where the file should be."""
    try:
        with os.scandir(os.path.dirname(name) or ".") as entries:
            return [entry.name for entry, _ in zip(entries, range(2000))]
    except OSError:
        return []


def for_directory(name, role):
    if role == "tree" and os.path.isdir(name):
        return [f"make a tree document of it: `tools/tree-document pack {shown(name)} > tree`"]
    return []
