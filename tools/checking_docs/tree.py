"""What the tree has: its files, the words of its sources, the crates, their functions and what their files define."""
import functools
import os
import pathlib
import re
import shutil

from sources import functions

FOLDERS = ("crates", "tools", "guest", "cases", "bench", "examples")
ALONE = ("crates.txt", "cloudabi-run", "HANDLES")
WORD = re.compile(rb"[A-Za-z_][A-Za-z0-9_]*")
NAME = re.compile(rb"[\w-]")
NO_SOURCE = (".elf", ".o", ".a", ".md")


class Tree:
    """The tree in which the documents stand."""

    def __init__(self, top):
        self.top = pathlib.Path(top)
        self.ignored = ignored_of(self.top)
        self.files = frozenset(self.walk())
        self.paths = self.files.union(*map(parents_of, self.files))
        self.named = {}  # the paths by their last names, and cases by theirs without an ending too
        for path in self.paths:
            name = path.rpartition("/")[2]
            for known in {name, name.partition(".")[0] if path.startswith("cases/") else name}:
                self.named.setdefault(known, []).append(path)
        self.uses = uses_of(self.top)
        texts = [self.read(name) for name in self.files if is_source(name)]
        self.text = b"\n".join(texts)
        self.words = frozenset(word.decode() for text in texts for word in set(WORD.findall(text)))

    def walk(self):
        """The files by their paths from the top, without what is built."""
        for folder, names, files in os.walk(self.top, followlinks=True):
            below = os.path.relpath(folder, self.top)
            place = "" if below == "." else f"{below}/"
            kept = [name for name in [*names, *files] if not {name, place + name} & self.ignored and name != ".git"]
            names[:] = [name for name in names if name in kept]
            yield from (place + name for name in kept if name not in names)

    def is_ignored(self, name):
        """Whether a path is one that .gitignore names, or is below one."""
        parts = name.split("/")
        return any("/".join(parts[:end]) in self.ignored or parts[end - 1] in self.ignored for end in range(1, len(parts) + 1))

    def read(self, name):
        return (self.top / name).read_bytes()

    def resolved(self, name):
        """The files and folders that a cited path may mean: from the top or below crates/; or, where it is a name alone or begins in a
        crate's folder, any whose path ends so. Capitals and `*` stand for any name."""
        name = name.removeprefix("./").rstrip("/")
        found = [path for path in (name, f"crates/{name}") if path in self.paths]
        inner = re.match(r"[^/]+$|(?:src|specs|proofs|must-fail)/", name)
        if not found and inner:
            found = [path for path in self.named.get(name.rpartition("/")[2], ()) if f"/{path}".endswith(f"/{name}")]
        pattern = pattern_of(name)
        if not found and pattern != re.escape(name):
            pattern = re.compile(("(?:.*/)?" if inner else "(?:crates/)?") + pattern)
            found = [path for path in self.paths if pattern.fullmatch(path)]
        return found

    @functools.lru_cache(None)
    def has_text(self, text):
        """Whether a text stands in the sources, and not as a part of a longer name."""
        data, place = text.encode(), -1
        while (place := self.text.find(data, place + 1)) >= 0:
            around = self.text[max(0, place - 1):place], self.text[place + len(data):place + len(data) + 1]
            if not any(NAME.match(mark) for mark in around):
                return True
        return False

    @functools.cached_property
    def functions(self):
        """The functions of all crates by name, each with its crate."""
        found = {}
        for crate in self.uses:
            for function in functions(self.top / "crates" / crate):
                found.setdefault(function.name, []).append((crate, function))
        return found

    @functools.cached_property
    def kit_words(self):
        """The words of the kit's crates that crates.txt lists."""
        kit = pathlib.Path(os.path.realpath(shutil.which("rt") or "rt")).parent.parent / "rattle"
        names = {name for those in self.uses.values() for name in those} - set(self.uses)
        files = [file for name in names for part in ("src", "specs") for file in (kit / name / part).rglob("*") if file.is_file()]
        return {word.decode() for file in files for word in WORD.findall(file.read_bytes())} | names


def is_source(name):
    return (name.split("/")[0] in FOLDERS or name in ALONE) and not name.endswith(NO_SOURCE)


def ignored_of(top):
    """The names and paths of what is built, as .gitignore has them."""
    file = top / ".gitignore"
    return {line.strip("/") for line in file.read_text().split()} if file.is_file() else set()


def parents_of(name):
    """The folders in which a file stands."""
    parts = name.split("/")
    return ["/".join(parts[:end]) for end in range(1, len(parts))]


def uses_of(top):
    """What each crate of crates.txt stands on, the kit's crates too."""
    rows = (line.partition(":") for line in (top / "crates.txt").read_text().splitlines() if line.strip() and not line.startswith("#"))
    return {name.strip(): rest.split() for name, _, rest in rows}


def pattern_of(name):
    """A regular expression for the paths that a cited path means: capitals for a whole name, or before its ending, stand for any."""
    parts = (re.escape(part) for part in name.split("/"))
    return "/".join(re.sub(r"\\\*|^[A-Z]+(?=$|\\\.(?!md$))", "[^/]*", part) for part in parts)
