"""Reads a report for the scripts of this folder. docs/PROGRAMS.md and docs/LAUNCH.md say what stands in one."""
import re
from dataclasses import dataclass, field

from tree_documents import Refused


@dataclass
class Report:
    """The parts of a report. `history` is None where the run kept none."""
    stdout: bytes = b""
    stderr: bytes = b""
    status: str = ""
    run: str = ""
    denials: list = field(default_factory=list)
    tree: bytes = b""
    history: list = None


class Cursor:
    """A place in a text that is read from its front."""

    def __init__(self, text):
        self.text, self.at = text, 0

    def line(self):
        """The next line, without its line feed."""
        end = self.text.find(b"\n", self.at)
        if end < 0:
            raise Refused(f"the report is cut off: it ends within a line, at byte {self.at}")
        begin, self.at = self.at, end + 1
        return self.text[begin:end]

    def take(self, count):
        """The next bytes, so many."""
        if self.at + count > len(self.text):
            raise Refused(f"the report is cut off: it ends before the {count} bytes from byte {self.at} on")
        self.at += count
        return self.text[self.at - count:self.at]

    def head(self, name):
        """What stands behind the section's name in its line."""
        place, line = self.at, self.line()
        if not line.startswith(b"== %s " % name):
            raise Refused(f"no report: no line `== {name.decode()} ..` at byte {place}")
        return line[len(name) + 4:].decode("ascii", "replace")

    def count(self, name):
        text = self.head(name)
        if not re.fullmatch(r"[0-9]{1,18}", text):
            raise Refused(f"no report: no number behind `== {name.decode()}`")
        return int(text)

    def ended(self):
        return self.at >= len(self.text)


def stream(cursor, name):
    """What was written to a stream; a line feed ends it where it has none itself."""
    written = cursor.take(cursor.count(name))
    if written and written[-1:] != b"\n":
        cursor.take(1)
    return written


def lines(cursor, name):
    return [cursor.line().decode("ascii", "replace") for _ in range(cursor.count(name))]


def read_report(text):
    """The parts of a report. Lengths say where each ends, so that nothing that a program wrote is taken for a part."""
    cursor = Cursor(text)
    found = Report(stdout=stream(cursor, b"stdout"), stderr=stream(cursor, b"stderr"))
    found.status, found.run = cursor.head(b"status"), cursor.head(b"run")
    found.denials = lines(cursor, b"denials")
    count, begin = cursor.count(b"tree"), cursor.at
    for _ in range(count):
        skip_record(cursor)
    found.tree = text[begin:cursor.at]
    if not cursor.ended():
        found.history = lines(cursor, b"history")
    if not cursor.ended():
        raise Refused(f"no report: something stands behind its end, at byte {cursor.at}")
    return found


def skip_record(cursor):
    """Passes over the next record of a tree."""
    place, line = cursor.at, cursor.line()
    found = re.fullmatch(rb"dir .+|(?:file|link|hard) (0|[1-9][0-9]{0,8}) .+", line)
    if not found:
        raise Refused(f"no report: no record at byte {place}")
    if found[1]:
        cursor.take(int(found[1]) + 1)


def document_of(data):
    """The tree document that the data is, or that stands in the report that it is."""
    return read_report(data).tree if data.startswith(b"== stdout ") else data
