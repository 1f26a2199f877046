"""The words of the command, as docs/COMMAND.md has them: which of them is wrong, and how."""
import re

from explaining.texts import maybe, shown

USAGE = "cloudabi-run [--tree FILE] [--stdin FILE] [--workers N] [--turns N] [--key HEX] [--epoch NS] [--history] PROGRAM < LAUNCH-FILE"
GENERATE_USAGE = "cloudabi-run --generate N [--workers N]"
NUMBERS = {"workers": (1, 64), "turns": (1, 1_000_000_000), "epoch": (0, 1 << 62), "generate": (1, 128)}
FILES = ("tree", "stdin")
OPTIONS = ("tree", "stdin", "workers", "turns", "key", "epoch", "history")

HELP = f"""usage: {USAGE}
       {GENERATE_USAGE}

Runs a program in the sandbox. Standard input has the launch file, which says what the program gets.

  --turns N      turns that it may take, of 4096 instructions: 1 to 1000000000, 100000 without it
  --history      the report ends with a line for each call
  --tree FILE    its files, as a tree document, which tools/tree-document makes of a directory; none without it
  --stdin FILE   what it reads as standard input; nothing without it
  --epoch NS     the time at which the run begins, in nanoseconds: 0 to {1 << 62}, 0 without it
  --key HEX      64 hexadecimal digits, the key of random bytes
  --workers N    threads of the sandbox: 1 to 64, 4 without it; the report is the same

  --generate N   as the first word: generates a program of N child processes, 1 to 128, with its inputs, runs it, and prints a summary

  --build        alone: builds the sandbox, where that is needed, and runs nothing
  --unproved     as the first word: runs the sources as they are, with no proof

Each option stands at most once, its value in the next word or behind `=`. Standard output has the report. docs/COMMAND.md has the
statuses, docs/PROGRAMS.md a first program."""


class Words:
    """What the words say: the options' values by name, the program's name, whether one is generated, and the first fault, or None."""
    def __init__(self, words):
        self.values, self.program, self.fault = {}, None, None
        self.generates = words[:1] == ["--generate"]
        try:
            (self.read_numbers if self.generates else self.read)(list(words))
        except ValueError as fault:
            self.fault = str(fault)

    @property
    def usage(self):
        return GENERATE_USAGE if self.generates else USAGE

    def read_numbers(self, words):
        """A number behind `--generate`, and perhaps one behind `--workers`."""
        for name in ("generate", "workers"):
            if not words:
                break
            word = text_of(words.pop(0))
            if word != f"--{name}":
                raise ValueError(f"`{shown(word)}`: behind `--generate N` stands nothing but `--workers N`")
            if not words:
                raise ValueError(value_missing(name, words))
            self.values[name] = text_of(words.pop(0))
            check_value(name, self.values[name])
        if words:
            raise ValueError(f"`{shown(text_of(words[0]))}`: behind `--generate N` stands nothing but `--workers N`")

    def read(self, words):
        while words:
            word = text_of(words.pop(0))
            if word == "--":
                for other in words:
                    self.take_program(text_of(other))
                break
            if word.startswith("-") and word != "-":
                self.take_option(word, words)
            else:
                self.take_program(word)
        if self.program is None:
            raise ValueError("no program is named")

    def take_option(self, word, words):
        name, equals, value = word[2:].partition("=")
        if not word.startswith("--") or name not in OPTIONS:
            raise ValueError(unknown_option(word, name))
        if name in self.values:
            raise ValueError(f"`--{name}` stands twice: an option stands at most once")
        if name == "history":
            if equals:
                raise ValueError(f"`{shown(word)}`: `--history` has no value")
        elif not equals:
            if not words or words[0].startswith("-"):
                raise ValueError(value_missing(name, words))
            value = text_of(words.pop(0))
        self.values[name] = value
        check_value(name, value)

    def take_program(self, word):
        if self.program is not None:
            raise ValueError(second_word(self.program, word))
        if word in ("", "-"):
            raise ValueError(f"`{word}` is no program's name: standard input has the launch file")
        self.program = word


def text_of(word):
    try:
        word.encode()
    except UnicodeEncodeError:
        raise ValueError(f"`{shown(word.encode('utf-8', 'surrogateescape'))}` is no UTF-8") from None
    return word


def unknown_option(word, name):
    if name in ("help", "version") or word in ("-h", "-V"):
        return f"`{shown(word)}`: `--help` stands alone, and there is no `--version`"
    if name == "generate":
        return "`--generate` is the first word, with its number in the next one"
    if word in ("--build", "--unproved"):
        return f"`{word}` stands alone" if word == "--build" else "`--unproved` is the first word"
    if not word.startswith("--"):
        return f"`{shown(word)}` is no option: options begin with `--`, and behind a word `--` the program's name may begin with `-`"
    return f"`--{shown(name)}` is no option{maybe(name, OPTIONS)}"


def value_missing(name, words):
    if words and words[0] == "-" and name in FILES:
        return f"`--{name} -`: a file's name; standard input has the launch file"
    if words:
        return f"`--{name}`: its value is missing; one that begins with `-` stands behind `=`: `--{name}={shown(words[0])}`"
    return f"`--{name}`: its value is missing"


def second_word(program, word):
    if any(name.endswith((".yaml", ".yml")) for name in (program, word)):
        launch = word if word.endswith((".yaml", ".yml")) else program
        return f"`{shown(launch)}`: the launch file is standard input and no word: `< {shown(launch)}`"
    return f"`{shown(word)}`: the program is `{shown(program)}`, and its own words stand in the launch file: `args: [..]`"


def check_value(name, value):
    """Raises where an option may not have the value."""
    if name in NUMBERS:
        least, most = NUMBERS[name]
        if not re.fullmatch("[0-9]{1,19}", value, re.ASCII) or not least <= int(value) <= most:
            raise ValueError(f"`--{name} {shown(value)}`: a number from {least} to {most} in decimal digits")
    elif name == "key" and not re.fullmatch("[0-9A-Fa-f]{64}", value):
        raise ValueError(f"`--key {shown(value)}`: 64 hexadecimal digits")
    elif name in FILES and value in ("", "-"):
        raise ValueError(f"`--{name} {value}`: a file's name; standard input has the launch file")
