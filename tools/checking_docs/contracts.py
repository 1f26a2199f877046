"""Contracts that documents cite, as `function`: `clause`, `clause`; and definitions that they cite with their file, as `Name` (`FILE`)."""
import re

from .documents import cells_of, line_at

FUNCTION = r"`(\w+(?:::\w+)?)`"
CLAUSES = r"`\w+`(?!:)(?:(?:,| and|, and)\s`\w+`(?!:))*"
CITE = re.compile(rf"(?:law )?{FUNCTION}(?:: ({CLAUSES}))?")
IN_PROSE = re.compile(rf"(?:\b(law)\s)?{FUNCTION}:\s({CLAUSES})|\b(law)\s{FUNCTION}")
DEFINED = re.compile(r"((?:`[^`\s]+(?: [^`]*)?`(?:,\s|\sand\s|,\sand\s))*`[^`\s]+(?: [^`]*)?`)\s\((`[\w/.-]+\.(?:antt|rt|h|c)`(?:,\s`[\w/.-]+`)*)[,)]")
ITEM = r"(?:pub(?:\(\w+\))? )?(?:unsafe )?(?:const )?(?:fn|struct|enum|trait|const|type|mod|static)"


def check_contracts(document, tree, findings):
    """Checks the contracts that a document cites. In a table with a column `contract` each of its cells is one or several cites, of
    functions of the crates that the row has in its column `crate`."""
    whole = document.name.endswith("PROMISES.md")
    for block in document.blocks:
        columns = block.header or []
        if whole and "contract" in columns and block.text.strip("| -"):
            check_row(document, block, tree, findings)
        elif block.kind in ("prose", "row"):
            for found in IN_PROSE.finditer(block.text):
                law, name, clauses = found[1] or found[4], found[2] or found[5], found[3]
                if whole or law or name in tree.functions:
                    line = line_at(block, found.start())
                    check_cite(document, line, tree, findings, name, clauses, [])


def check_row(document, block, tree, findings):
    """The same of a row of a table of contracts."""
    row = dict(zip(block.header, cells_of(block.text)))
    crates = re.findall(r"`(\w+)`", row.get("crate", ""))
    for part in re.split(r";\s*", row["contract"]):
        found = CITE.match(part)
        if found:
            check_cite(document, block.line, tree, findings, found[1], found[2], crates)


def functions_of(tree, name, crates):
    """The functions of a name, of these crates, or of all where there are none."""
    return [(crate, function) for crate, function in tree.functions.get(name, ()) if not crates or crate in crates]


def check_cite(document, line, tree, findings, name, clauses, crates):
    """One cite: the function is there, is exported, promises something, and has the clauses. Of one in an `impl` of a trait holds what the
    trait's function promises."""
    where = f" in {' or '.join(crates)}" if crates else ""
    found = functions_of(tree, name, crates)
    exported = [function for _, function in found if function.exported]
    fault = "" if exported else f"{name}{where} is not exported" if found else f"no function {name}{where}"
    findings.check(not fault, document, line, fault)
    if exported:
        of_traits = (f"{function.trait}::{name.rpartition('::')[2]}" for function in exported if function.trait)
        known = exported + [function for trait in of_traits for _, function in functions_of(tree, trait, [])]
        says = any(function.ensures or function.trait for function in known)
        findings.check(says, document, line, f"{name}{where} promises nothing")
        for clause in re.findall(r"`(\w+)`", clauses or ""):
            findings.check(any(clause in function.ensures for function in known), document, line, f"{name}{where} has no clause {clause}")


def check_definitions(document, tree, findings):
    """Checks that a file which stands in brackets behind names defines them, and that it is below the crate or folder that stands there."""
    for block in document.blocks:
        if block.kind in ("prose", "row"):
            for found in DEFINED.finditer(block.text):
                files = re.findall(r"`([^`]+)`", found[2])
                for span in re.finditer(r"`([^`\s]+)[^`]*`", found[1]):
                    line = line_at(block, found.start() + span.start())
                    for file in files if is_folder(span[1], tree) else files[:1]:
                        fault = fault_of(span[1], file, tree)
                        findings.check(not fault, document, line, fault)


def is_folder(name, tree):
    return name in tree.uses or "/" in name


def fault_of(name, file, tree):
    """What is wrong with a file behind a name, or "". Whether the file is there is checked with other names."""
    found = [path for path in tree.resolved(file) if path in tree.files]
    if is_folder(name, tree):
        below = name.removeprefix("crates/").rstrip("/")
        found = [path for path in found if path.removeprefix("crates/").startswith(f"{below}/")]
        return "" if found else f"no file {file} in {name}"
    texts = [tree.read(path).decode("utf-8", "replace") for path in found]
    return "" if not found or any(defines(text, file, name) for text in texts) else f"{file} does not define {name}"


def defines(text, file, name):
    """Whether a file defines a name: an item, a field or a case. A file that is no source of a crate has it as a word."""
    last = re.escape(re.split(r"::|\.", name)[-1])
    if file.endswith(".antt"):
        item = rf"\s*(?:(?:pub|abbrev|unfoldable|record|data|module|private|opaque) )+{last}(?![\w'])|\s+{last} :"
    elif file.endswith(".rt"):
        case = "|,|\\(| \\{" if last[0].isupper() else ""
        item = rf"\s*{ITEM} {last}\b|\s+(?:pub(?:\(\w+\))? )?{last}(?::{case})"
    else:
        item = rf".*(?<!\w){last}(?!\w)"
    return re.search(rf"^(?:{item})", text, re.M) is not None
