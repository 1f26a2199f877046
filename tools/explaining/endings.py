"""How a run ended, and what that means (docs/COMMAND.md, docs/PROGRAMS.md). What the program wrote is passed over by its length, and never
read as a line of the report."""
import re

SIGNALS = {
    "SEGV": "memory that isn't there, or may not be used so: a null or wild pointer, the end of the stack of 1 MiB; also code that expects another "
            "start than guest/start.c, as when it is linked with --specs=picolibc.specs",
    "ILL": "a word that is no instruction: a wild jump, or code for another machine, such as floating point or a CSR",
    "BUS": "a jump to an address that isn't a multiple of 4, or an atomic instruction at one that isn't a multiple of its width",
    "TRAP": "an EBREAK: `__builtin_trap()`, which GCC also puts where the program can't go on",
    "XCPU": "all of its turns are used: `--turns N` gives more, or the program runs for ever",
}
RAISED = "it raised that itself, by `abort`, `raise` or the call `proc_raise`"
BEFORE_A_SIGNAL = "the history lists the last calls before it (`--history`; of tools/run-in `--page`); see docs/PROGRAMS.md, How to look for mistakes"
STALLED = ["the run stalled: all threads wait, and none for a time that comes, so nothing can happen any more. A time from 2^62 nanoseconds of the "
           "run's clock on, which is 146 years, never comes",
           "in the history (`--history`; of tools/run-in `--page`) a call in which a thread waits has PARKED; see docs/COMMAND.md"]


def ending_lines(status, run):
    """What a report's status and run mean, as in `signal 13 SEGV` and `stalled`; no lines where the program exited."""
    if run == "stalled":
        return STALLED
    found = re.fullmatch(r"signal (\d+) ([A-Z0-9]+)", status or "")
    if not found:
        return []
    return [f"the program was ended by the signal {found[2]}: {SIGNALS.get(found[2], RAISED)}", BEFORE_A_SIGNAL]


class Watcher:
    """Is fed a report in pieces of any size, and knows then how long its streams are, how the run ended, and how many calls were denied."""
    HEADS = (rb"== stdout ([0-9]+)", rb"== stderr ([0-9]+)", rb"== status (.*)", rb"== run (.*)", rb"== denials ([0-9]+)")

    def __init__(self):
        self.begin, self.held, self.passed, self.stage = b"", b"", 0, 0
        self.sizes, self.status, self.run, self.denials = [], None, None, None

    def feed(self, piece):
        if len(self.begin) < 1 << 16:
            self.begin += piece[:(1 << 16) - len(self.begin)]
        while piece and self.stage < len(self.HEADS):
            if self.passed:
                size = min(self.passed, len(piece))
                self.passed, piece = self.passed - size, piece[size:]
                continue
            line, end, piece = piece.partition(b"\n")
            self.held += line
            if len(self.held) > 200:
                self.stage = len(self.HEADS)
            elif end:
                line, self.held = self.held, b""
                self.take(line)

    def take(self, line):
        """A line of the report itself. An empty one ends a stream whose last byte is no line feed."""
        found = re.fullmatch(self.HEADS[self.stage], line)
        if not found:
            self.stage = self.stage if line == b"" and self.stage else len(self.HEADS)
            return
        if self.stage < 2:
            self.passed = int(found[1])
            self.sizes.append(self.passed)
        elif self.stage == 2:
            self.status = found[1].decode("ascii", "replace")
        elif self.stage == 3:
            self.run = found[1].decode("ascii", "replace")
        else:
            self.denials = int(found[1])
        self.stage += 1
