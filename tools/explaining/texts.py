"""How bytes of others are shown, and which of some names is nearest to one."""
import difflib

SHOWN = 120  # characters of a text that is shown
SHORT = {"\t": "\\t", "\n": "\\n", "\r": "\\r"}


def printable(data, keeps=""):
    """A text or bytes in which nothing can control a terminal: whatever isn't printable is escaped, but for the characters in `keeps`."""
    text = data.decode("utf-8", "surrogateescape") if isinstance(data, bytes) else data
    if text.isprintable():
        return text
    return "".join(letter if letter.isprintable() or letter in keeps else escaped(letter) for letter in text)


def printable_lines(data):
    """Many lines so: their line feeds and tabs stay."""
    return printable(data, "\n\t")


def escaped(letter):
    number = ord(letter)
    if 0xDC80 <= number <= 0xDCFF:  # a byte that isn't UTF-8, as Python has it in a text
        number -= 0xDC00
    if letter in SHORT:
        return SHORT[letter]
    return f"\\x{number:02x}" if number < 0x100 else f"\\u{number:04x}" if number < 0x10000 else f"\\U{number:08x}"


def shown(data, most=SHOWN):
    """The same in one line; a long one is cut."""
    text = data.decode("utf-8", "surrogateescape") if isinstance(data, bytes) else data
    return printable(text) if len(text) <= most else printable(text[:most]) + ".."


def nearest(name, names):
    """The name that is most like the given one, or None."""
    found = difflib.get_close_matches(name, names, n=1, cutoff=0.5)
    return found[0] if found else None


def maybe(name, names):
    """The end of a sentence that names the nearest, if there is one."""
    near = nearest(name, names)
    return f": is `{shown(near)}` meant?" if near is not None else ""
