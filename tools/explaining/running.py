"""Runs the command, hands on its output and its status, and says behind its end on standard error what they mean."""
import fcntl
import os
import select
import signal
import stat
import sys

PIECE = 1 << 20  # bytes that are handed on at once
MOST_BYTES = 268_435_456  # of an input
LOOKED_AT = 4 << 20  # bytes of a launch text that is explained
PR_SET_PDEATHSIG = 1
OUTPUT_FAULT = 69
WITH_A_REPORT = (0, 1, 71)  # statuses with which a report is printed


def is_open(number):
    try:
        os.fstat(number)
    except OSError:
        return False
    return True


class LaunchText:
    """Standard input. What isn't a file is read first, so that it can be looked at behind the run too."""
    def __init__(self, words):
        self.begin = None
        if not is_open(0):
            return
        mode = os.fstat(0).st_mode
        if not stat.S_ISREG(mode) and not stat.S_ISDIR(mode) and will_be_read(words):
            self.keep()
        if stat.S_ISREG(os.fstat(0).st_mode):
            self.begin = os.lseek(0, 0, os.SEEK_CUR)

    @staticmethod
    def keep():
        if os.isatty(0):
            say(["the launch file is read from this terminal, up to Ctrl-D; a file is given by `< FILE`"])
        kept, size = os.memfd_create("launch"), 0
        while size <= MOST_BYTES and (piece := os.read(0, 1 << 16)):
            write_all(kept, piece)
            size += len(piece)
        os.lseek(kept, 0, os.SEEK_SET)
        os.dup2(kept, 0)
        os.close(kept)

    def data(self):
        """The bytes, or None where they aren't known or are too many."""
        if self.begin is None or os.fstat(0).st_size - self.begin > LOOKED_AT:
            return None
        return os.pread(0, LOOKED_AT, self.begin)


def will_be_read(words):
    """Whether the command comes to its standard input: its words are right, and the other inputs are there."""
    from explaining.command_words import Words
    found = Words(words)
    names = [found.program, found.values.get("tree"), found.values.get("stdin")]
    return found.fault is None and not found.generates and all(name is None or os.access(name, os.R_OK) and not os.path.isdir(name) for name in names)


def write_all(number, data):
    view = memoryview(data)
    while view:
        try:
            view = view[os.write(number, view):]
        except BlockingIOError:
            select.select([], [number], [])


def die_with_parent():
    """The command ends when this process does, however that ends."""
    import ctypes
    ctypes.CDLL(None).prctl(PR_SET_PDEATHSIG, signal.SIGKILL, 0, 0, 0)


def start(program, words):
    """Starts the command. Its process, and the end from which its output is read."""
    reading, writing = os.pipe()
    child = os.fork()
    if child == 0:
        try:
            for number in (signal.SIGPIPE, signal.SIGXFSZ):
                signal.signal(number, signal.SIG_DFL)
            die_with_parent()
            os.dup2(writing, 1)
            os.execv(program, [program, *words])
        finally:
            os._exit(127)
    os.close(writing)
    try:
        fcntl.fcntl(reading, fcntl.F_SETPIPE_SZ, PIECE)
    except OSError:
        pass  # then it goes in smaller pieces
    return child, reading


def hand_on(reading, watcher):
    """Writes to standard output what is read. Whether all of it could be written."""
    try:
        while piece := os.read(reading, PIECE):
            watcher.feed(piece)
            write_all(1, piece)
    except OSError:
        return False
    finally:
        os.close(reading)
    return True


def end_with(number):
    """Ends this process by the signal."""
    signal.signal(number, signal.SIG_DFL)
    os.kill(os.getpid(), number)


def hand_on_signals(child):
    """A signal that would end this process ends the command too."""
    def handler(number, _):
        os.kill(child, number)
        end_with(number)
    for number in (signal.SIGTERM, signal.SIGINT, signal.SIGHUP, signal.SIGQUIT):
        if signal.getsignal(number) != signal.SIG_IGN:
            signal.signal(number, handler)


def say(lines):
    text = "".join(f"cloudabi-run: {line}\n" for line in lines)
    write_all(2, text.encode("utf-8", "backslashreplace"))


def run(program, words):
    """Runs the command with these words, and ends with its status."""
    if not is_open(1) or not is_open(2):
        os.execv(program, [program, *words])
    from explaining.endings import Watcher
    launch, watcher = LaunchText(words), Watcher()
    child, reading = start(program, words)
    hand_on_signals(child)
    was_written = hand_on(reading, watcher)
    status = os.waitstatus_to_exitcode(os.waitpid(child, 0)[1])
    if status < 0:
        end_with(-status)
    if not was_written and status in WITH_A_REPORT:
        status = OUTPUT_FAULT
    try:
        from explaining.behind import explain
        say(explain(status, words, launch.data(), watcher))
    except Exception:  # an explanation that fails changes neither output nor status
        pass
    sys.exit(status)
