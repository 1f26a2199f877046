"""What a launch file most likely doesn't mean, though nothing is wrong with it: it gives nothing, or a program with the C library doesn't
know a key of it (docs/PROGRAMS.md, What a launch file gives a C program). Nothing is said where that isn't clear."""
import re

from explaining import launch_document
from explaining.texts import nearest, shown

MOST = 65_536  # bytes of a launch text that is looked at
KEYS = ("args", "stdin", "stdout", "stderr", "directories")
OTHER_NAMES = {"arg": "args", "argv": "args", "arguments": "args", "cmd": "args", "command": "args", "dir": "directories",
               "dirs": "directories", "folders": "directories", "files": "directories", "mounts": "directories", "input": "stdin",
               "output": "stdout", "out": "stdout", "err": "stderr", "error": "stderr"}
SEE = "see docs/PROGRAMS.md, What a launch file gives a C program"


def notes(launch, has_library, has_input, wrote):
    """The lines on a launch text that was taken. `has_library` says whether the program is linked with the C library, `has_input` whether
    --stdin was given, `wrote` whether its standard output has anything."""
    if len(launch) <= MOST and not launch_document.rows_of(launch.decode("utf-8", "replace")):
        return ["the launch file is empty: the program gets nothing, no output, no file and no words",
                "it is standard input: `< FILE`; see docs/PROGRAMS.md, From an empty folder to a report"]
    if len(launch) > MOST:
        return []
    root = launch_document.read(launch)
    if root is None:
        return []
    if not launch_document.descriptors(root):
        nothing = "the launch file gives no descriptor: the program can read nothing, and what it writes is lost"
        if root.kind in ("text", "other"):
            what = "what is read as standard input is the launch file; data for the program is given by `--stdin FILE`"
            return [nothing, f"its text is `{shown(launch.decode().strip())}`: {what}"]
        lines = [nothing, "`stdout: !fd stdout` gives an output"] if root.kind == "map" else [nothing]
    else:
        lines = []
    if root.kind == "map" and has_library:
        lines += for_library(root, has_input, wrote)
    return lines + [SEE] if lines else []


def for_library(root, has_input, wrote):
    """The lines on a map for a program with the C library."""
    lines = [line for key, value in root.entries for line in about_key(key, value, root)]
    if lines:
        return lines
    named = {key.text for key, _ in root.entries}
    if "stdout" not in named and not wrote:
        lines.append("there is no `stdout`: what the program prints is lost; `stdout: !fd stdout` gives it")
    value = root.get("stdin")
    if value is not None and value.tag == "!fd" and not has_input and not wrote:
        lines.append("no input is given, so `stdin` is at its end at once: `--stdin FILE` gives one")
    return lines


def about_key(key, value, root):
    if key.text not in KEYS:
        near = OTHER_NAMES.get(key.text.lower()) or nearest(key.text.lower(), KEYS)
        if near is None or root.get(near) is not None:
            return []
        return [f"line {key.line}: the C library has no key `{shown(key.text)}`; is `{near}` meant?"]
    if value.kind == "null" and value.tag is None:
        return []
    about = {"args": about_args, "directories": about_directories}.get(key.text, about_stream)
    return about(key, value)


def about_args(key, value):
    if value.kind != "sequence":
        words = ", ".join(value.text.split()) if value.kind in ("text", "other") else "program, .."
        return [f"line {key.line}: `args` is no list, so the program gets no words: write `args: [{shown(words)}]`"]
    lines = []
    for item in value.entries:
        if item.kind == "other" and item.tag is None and not re.fullmatch("-?(0|[1-9][0-9]*)|true|false|null", item.text):
            word = shown(item.text)
            lines.append(f"line {item.line}: `{word}` reaches the program in another spelling: in quotes, `\"{word}\"`, it stays")
        if item.kind in ("sequence", "map"):
            lines.append(f"line {item.line}: an item of `args` is a {item.kind} and no word")
    return lines


def about_directories(key, value):
    if value.kind != "map" or value.tag:
        return [f"line {key.line}: `directories` has no map of names: write `/name: !file {{path: ..}}` below it"]
    return [f"line {name.line}: `{shown(name.text)}` gives no directory: `!file` is missing before its map" for name, node in value.entries
            if node.tag is None and node.kind == "map" and node.get("path") is not None] + [
            f"line {name.line}: `{shown(name.text)}` gives no directory: write `!file {{path: {shown(node.text)}}}`" for name, node in value.entries
            if node.tag is None and node.kind in ("text", "other", "null")]


def about_stream(key, value):
    if value.tag is not None:
        return []
    if value.kind == "text":
        return [f"line {key.line}: `{key.text}: {shown(value.text)}` is a text and gives no stream: write `{key.text}: !fd {key.text}`"]
    return [f"line {key.line}: `{key.text}` gives no stream: write `{key.text}: !fd {key.text}`"]


def has_c_library(program):
    """Whether the program's file is linked with the C library of guest/: that looks for the key `directories`."""
    return b"directories\0" in program and b"args\0" in program
