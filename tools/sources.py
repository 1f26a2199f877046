"""Reads what the sources of a crate declare: its functions, what of them is exported, and the names of the clauses of their contracts.

The sources are formatted, so what stands at the left edge is an item, and what stands four spaces in is a function of an `impl` or a trait."""
import collections
import pathlib
import re

# `name` is NAME, or TYPE::NAME in an `impl` or a trait; `file` is below the crate's folder; `trait` is the trait that an `impl` is of, or None;
# a clause without a name is "" in `ensures` and `requires`.
Function = collections.namedtuple("Function", "name file line exported trait ensures requires")

FUNCTION = re.compile(r"^(?P<indent>(?:    )?)(?P<pub>pub )?(?:pub\(\w+\) )?(?:const )?fn (?P<name>\w+)", re.M)
BLOCK = re.compile(r"^(?:pub )?(?P<kind>impl|trait)\b(?P<head>[^{]*)\{.*?^\}", re.M | re.S)
CLAUSE = re.compile(r"(?:\s|//.*)*(?:(requires|ensures)\*? ?(\w*) ?)?([{;])")
TYPE = re.compile(r"^pub (?:struct|enum|trait|type) (\w+)", re.M)
USE = re.compile(r"^pub use ([^;]+);", re.M)


def crates(top):
    """The crates of crates.txt, in its order."""
    lines = (pathlib.Path(top) / "crates.txt").read_text().splitlines()
    return [line.partition(":")[0].strip() for line in lines if line.strip() and not line.startswith("#")]


def functions(folder):
    """All functions of a crate, file by file. `folder` is the crate's folder."""
    folder = pathlib.Path(folder)
    files = {module_of(file, folder): file for file in sorted((folder / "src").rglob("*.rt"))}
    texts = {module: file.read_text() for module, file in files.items()}
    exports = exported_names(texts)
    types = {name for module, text in texts.items() for name in TYPE.findall(text) if is_reached(module, name, exports)}
    for module, text in texts.items():
        for found in FUNCTION.finditer(text):
            name, trait, exported = found["name"], None, bool(found["pub"]) and is_reached(module, found["name"], exports)
            if found["indent"]:
                owner, trait, is_open = owner_of(text, found.start())
                name, exported = f"{owner}::{name}", bool(types & {owner, trait}) and (is_open or bool(found["pub"]))
            elif name == "main" and files[module].name == "main.rt":
                exported = True
            line = text.count("\n", 0, found.start()) + 1
            yield Function(name, str(files[module].relative_to(folder)), line, exported, trait, *clauses_of(text, found.end()))


def is_reached(module, name, exports):
    """Whether a public item of a module can be named from outside of the crate."""
    opened, named = exports
    return module in opened or (module, name) in named


def module_of(file, folder):
    """The module of a file, as a tuple of names. That of the crate is empty."""
    names = file.relative_to(folder / "src").with_suffix("").parts
    return () if names in (("lib",), ("main",)) else names[:-1] if names[-1] == "mod" else names


def owner_of(text, place):
    """Of a function in a block: the type, or the trait that declares it; the trait of an `impl`, or None; whether it needs no `pub`, as a trait's."""
    block = next(block for block in BLOCK.finditer(text) if block.start() < place < block.end())
    head = block["head"]
    while "<" in head:
        head = re.sub(r"<[^<>]*>", "", head.replace("->", ""))
    before, of, behind = head.partition(" for ")
    name = re.search(r"\w+", behind if of else before)[0]
    trait = before.split("::")[-1].strip() if of else None
    return name, trait, bool(of) or block["kind"] == "trait"


def clauses_of(text, place):
    """The names of a function's clauses, `ensures` and `requires`, where its head goes on behind `place`."""
    depth = 0
    while depth or not re.match(r"[{;]|\s(requires|ensures)\b", text[place:place + 12]):
        depth += {"(": 1, "[": 1, ")": -1, "]": -1}.get(text[place], 0)
        place += 1
    names = {"ensures": [], "requires": []}
    while (clause := CLAUSE.match(text, place)) and clause[1]:
        names[clause[1]].append(clause[2])
        place = behind_brace(text, clause.end())
    return names["ensures"], names["requires"]


def behind_brace(text, place):
    """The place behind the brace that closes the one before `place`."""
    depth = 1
    while depth:
        depth += {"{": 1, "}": -1}.get(text[place], 0)
        place += 1
    return place


def exported_names(texts):
    """The modules of which all that is public is exported, and the names that are exported alone, each with its module."""
    opened, named, before = {()}, set(), None
    while before != (len(opened), len(named)):
        before = len(opened), len(named)
        for module, text in texts.items():
            if module in opened:
                opened |= {(*module, name) for name in re.findall(r"^pub mod (\w+);", text, re.M)}
            for *path, name in used_paths(module, text, texts):
                if module in opened or (module, name) in named:
                    opened |= {tuple(path)} if name == "*" else {(*path, name)} & texts.keys()
                    named.add((tuple(path), name))
    return opened, named


def used_paths(module, text, modules):
    """The paths inside the crate that a module's `pub use` items name."""
    for item in USE.findall(text):
        for path in expanded(re.sub(r"\s", "", re.sub(r"\s+as\s+\w+", "", item))):
            names = path.split("::")
            if names[0] == "crate":
                yield names[1:]
            elif (*module, names[0]) in modules:
                yield [*module, *names]


def expanded(path):
    """The paths of one item without braces: `a::{b, c}` is `a::b` and `a::c`."""
    front, brace, rest = path.partition("{")
    if not brace:
        return [path]
    parts, depth = [""], 0
    for mark in rest[:-1]:
        depth += {"{": 1, "}": -1}.get(mark, 0)
        if mark == "," and not depth:
            parts.append("")
        else:
            parts[-1] += mark
    return [front + path for part in parts if part for path in expanded(part)]
