"""What is wrong with a tree document at the byte that the sandbox names (docs/LAUNCH.md, Tree documents)."""
from explaining.texts import shown
from tree_documents import Refused, records

MOST = 67_108_864  # bytes of a document that is looked at


def explain(byte, tree):
    """The lines that say it; `tree` has the document, or is None."""
    lines = [f"the tree document: the record that begins at byte {byte}, counted from 0, is none or may not stand there"]
    if tree is not None and len(tree) <= MOST:
        if byte < len(tree):
            line = tree[:byte].count(b"\n") + 1
            lines.append(f"    line {line}: {shown(tree[byte:byte + 400].partition(bytes([10]))[0])}")
        lines += [shown(reason, 300) for reason in [reason_at(byte, tree)] if reason]
    return [*lines, "make it by `tools/tree-document pack DIRECTORY`", "see docs/LAUNCH.md, Tree documents"]


def reason_at(byte, tree):
    """Why the first faulty record is faulty, if it begins at this byte."""
    try:
        for _ in records(tree):
            pass
    except Refused as fault:
        return str(fault) if fault.byte == byte else None
    return None
