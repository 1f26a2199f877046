"""What is said behind a run: of its status, of the line or the report that it printed, and of its launch file."""
import os
import stat

from explaining import launch_notes, refusals
from explaining.command_words import Words
from explaining.endings import ending_lines
from explaining.refusals import Inputs

IN_PROGRAM = 64 << 20  # bytes of a program's file in which the C library is looked for
IN_TREE = 67_108_864 + 1  # bytes of a tree document, one more than is looked at


def explain(status, words, launch, watcher):
    """The lines for a run with these words and this launch text (None where it isn't known), whose output the watcher saw."""
    found = Words(words)
    if status == 2:
        return [found.fault or "the words aren't those of a run", f"usage: {found.usage}", "see docs/COMMAND.md; `./cloudabi-run --help` lists the options"]
    if status in (65, 66, 67, 68, 70):
        return refusals.explain(watcher.begin.removesuffix(b"\n"), inputs_of(found, launch))
    if status == 69:
        return ["the report could not be written whole: the output is full or closed"]
    return [] if found.generates else of_run(found, launch, watcher)


def inputs_of(found, launch):
    tree = file_bytes(found.values["tree"], IN_TREE) if "tree" in found.values else b""
    names = {role: name for role, name in (("program", found.program), *found.values.items()) if role in ("program", "tree", "stdin")}
    return Inputs(launch, tree, file_bytes(found.program, 4096), names)


def file_bytes(name, most):
    """The first bytes of a file; None where it is no file that can be read twice."""
    try:
        if name is None or not stat.S_ISREG(os.stat(name).st_mode):
            return None
        with open(name, "rb") as file:
            return file.read(most)
    except OSError:
        return None


def of_run(found, launch, watcher):
    lines = ending_lines(watcher.status, watcher.run)
    if launch is not None:
        has_library = launch_notes.has_c_library(file_bytes(found.program, IN_PROGRAM) or b"")
        wrote = bool(watcher.denials or watcher.sizes and watcher.sizes[0])
        lines += launch_notes.notes(launch, has_library, "stdin" in found.values, wrote)
    if watcher.denials:
        calls = "1 call was" if watcher.denials == 1 else f"{watcher.denials} calls were"
        lines.append(f"{calls} denied: `tools/explain --launch FILE < REPORT` says what would allow which")
    return lines
