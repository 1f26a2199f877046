"""Tables of crates: each crate of crates.txt stands once in those of ARCHITECTURE.md, and has a row in crates.seconds."""
import re

from .documents import cells_of

ROW = re.compile(r"\w+(?: (?:\d+|-)){3}")


def check_tables(document, tree, findings):
    """Checks the tables of a document whose first column is headed `crate`."""
    seen = {}
    for block in document.blocks:
        if block.header and block.header[0] == "crate":
            row = dict(zip(block.header, cells_of(block.text)))
            for name in re.findall(r"`(\w+)`", row["crate"]):
                findings.check(name in tree.uses, document, block.line, f"crates.txt has no crate {name}")
                findings.check(name not in seen, document, block.line, f"{name} stands in line {seen.get(name)} too")
                seen.setdefault(name, block.line)
                for used in re.findall(r"`(\w+)`", row.get("stands on", "")):
                    findings.check(used in tree.uses.get(name, ()), document, block.line, f"by crates.txt {name} doesn't stand on {used}")
    for name in tree.uses:
        findings.check(name in seen, document, None, f"no table of crates has {name}")


def check_seconds(tree, findings):
    """Checks that crates.seconds has one row for each crate, and no other."""
    name, seen = "crates.seconds", set()
    text = tree.read(name).decode() if name in tree.files else ""
    for line, row in enumerate(text.splitlines(), 1):
        if row and not row.startswith("#"):
            crate = row.split()[0]
            findings.check(ROW.fullmatch(row), name, line, "no row NAME PROOF TESTS EDITS")
            findings.check(crate in tree.uses, name, line, f"crates.txt has no crate {crate}")
            findings.check(crate not in seen, name, line, f"{crate} stands here twice")
            seen.add(crate)
    for crate in tree.uses:
        findings.check(crate in seen, name, None, f"no row has {crate}")
