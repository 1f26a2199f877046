"""Tree documents as docs/LAUNCH.md has them: their records, and which may stand where."""
import re

PATH, TEXT, FILE, NAMES = 1024, 1024, 67_108_864, 65_535
ESCAPED = re.compile(rb"[\x00-\x1f\x7f%]")
UNESCAPED = re.compile(rb"[\x00-\x1f\x7f]")
NAMES_OF_A_PATH = re.compile(rb"(?:(?!\.\.?(?:/|\Z))[^/\x00]{1,255}(?:/|\Z))+")


class Refused(Exception):
    """Why something is refused, and the byte at which a document's first faulty record begins, if it is for that."""
    def __init__(self, reason, byte=None):
        super().__init__(reason)
        self.byte = byte


def escape(path):
    """The path as a record has it."""
    return b"".join(b"%%%02X" % b if b < 0x20 or b in b"\x7f%" else bytes([b]) for b in path) if ESCAPED.search(path) else path


def unescape(text):
    """The path of which a record has this text."""
    def byte(found):
        value = int(found[1], 16) if found[1] else 0
        if not found[1] or not (0 < value < 0x20 or value in b"\x7f%"):
            raise Refused(f"no escape: {text!r}")
        return bytes([value])
    if UNESCAPED.search(text):
        raise Refused(f"a byte that is not escaped: {text!r}")
    return text if b"%" not in text else re.sub(rb"%([0-9A-F]{2})?", byte, text)


def checked(path):
    """The path, unless a tree document can't have it."""
    if not is_text(path):
        raise Refused(f"not UTF-8: {path!r}")
    if len(path) > PATH or not NAMES_OF_A_PATH.fullmatch(path) or path.endswith(b"/"):
        raise Refused(f"no path of a tree document: {path!r}")
    return path


def checked_text(text):
    """A symlink's text, unless a tree document can't have it."""
    if not 0 < len(text) <= TEXT or 0 in text or not is_text(text):
        raise Refused(f"no text of a symlink in a tree document: {text!r}")
    return text


def is_text(data):
    try:
        data.decode()
    except UnicodeDecodeError:
        return False
    return True


def directory_record(path):
    return b"dir %s\n" % escape(path)


def content_record(word, path, body):
    return b"%s %d %s\n%s\n" % (word, len(body), escape(path), body)


def split(document):
    """The records of a document, each with the byte at which it begins: word, path and body, which is None of a directory."""
    at = 0
    while at < len(document):
        begin, end = at, document.find(b"\n", at)
        try:
            if end < 0:
                raise Refused(why_no_record(document[begin:begin + 80]))
            word, _, rest = document[at:end].partition(b" ")
            at, body = end + 1, None
            if word in (b"file", b"link", b"hard"):
                size, _, rest = rest.partition(b" ")
                body = body_at(document, at, size)
                at += len(body) + 1
            elif word != b"dir":
                raise Refused(why_no_record(document[begin:begin + 80]))
            yield begin, word, checked(unescape(rest)), body
        except Refused as fault:
            raise Refused(str(fault), begin) from None


def body_at(document, at, size):
    """The bytes of a record of this length, behind which a line feed stands."""
    if not re.fullmatch(rb"0|[1-9][0-9]{0,8}", size) or int(size) > FILE:
        raise Refused(f"its length isn't a decimal number up to {FILE}: {size[:20]!r}")
    end = at + int(size)
    if end >= len(document):
        raise Refused(f"the document is cut off: the record says {int(size)} bytes, and {max(0, len(document) - at)} are left")
    if document[end:end + 1] != b"\n":
        raise Refused(f"no line feed stands behind its {int(size)} bytes")
    return document[at:end]


def why_no_record(text):
    """Why no record begins with these bytes."""
    kinds = ((b"\x7fELF", "an ELF file"), (b"\x1f\x8b", "a gzip archive"), (b"PK\x03\x04", "a zip archive"), (b"\xfd7zXZ", "an xz archive"),
             (b"== stdout ", "a report, whose tree `tools/tree-document of-report` takes out"))
    for front, kind in kinds:
        if text.startswith(front):
            return f"this is {kind} and no tree document"
    if b"\0" in text:
        return "this is a binary file, such as a tar archive, and no tree document: `tools/tree-document pack DIRECTORY` makes one"
    if not re.match(rb"(?:dir|file|link|hard) ", text):
        return "a record begins with `dir `, `file `, `link ` or `hard `"
    return "the document is cut off within a record"


def records(document):
    """The records of a document: word, path and body, each only where it may stand behind those before it."""
    directories, files, links = {b""}, {}, set()
    for begin, word, path, body in split(document):
        reason = misplaced(word, path, body, directories, files, links)
        if reason:
            raise Refused(reason, begin)
        if word == b"dir":
            directories.add(path)
        elif word == b"link":
            links.add(path)
        elif word == b"file":
            files[path] = [1]
        else:
            files[path] = files[unescape(body)]
            files[path][0] += 1
        yield word, path, body


def misplaced(word, path, body, directories, files, links):
    """Why the record may not stand behind those that made these directories, files and links, or None."""
    parent = path.rpartition(b"/")[0]
    if parent not in directories:
        return f"its parent is no directory of an earlier record: {path!r}"
    if path in directories or path in files or path in links:
        return f"the name is there: {path!r}"
    try:
        if word == b"link":
            checked_text(body)
        elif word == b"hard" and (unescape(body) not in files or files[unescape(body)][0] == NAMES):
            return f"no earlier file, or one with {NAMES} names: {body!r}"
    except Refused as fault:
        return str(fault)
    return None
