"""Streams of the system that fail end a run as docs/SCRIPT.md says.

Standard input that fails, and standard output that is full, closed, or has a few bytes of room, end a run with fault 46
or 47 at the line that the manual says, and what was written before is a front part of the replies. The failures are
those of the system: closed files, folders, the device that is always full, a terminal that hung up, a limit on the size
of a file, pipes whose other end is gone. Input and output that come and go a byte at a time change nothing, and a
status doesn't depend on standard error."""

import contextlib
import itertools
import os
import pty
import resource
import signal
import subprocess
import tempfile
import threading
import tty

import runs
from runs import Ran

SCRIPT = b"# a page\n\nzone 0 1\nmap 0 0 0\nstore 0 0 0 3 7\nload 0 0 0 3\ninfo 0\n"
REPLIES = b"ok\nok\nok\nvalue=7\nfree=511 pages=1 moving=0 huge=0 whole=0\n"
LINES_BEFORE_THE_FIRST_REPLY = 2
STREAMS = ("stdin", "stdout", "stderr")
CLOSED = "closed"


def fault(number, line):
    return b"compactd: fault %d at line %d\n" % (number, line)


FIRST_REPLY_FAILS = Ran(1, b"", fault(47, LINES_BEFORE_THE_FIRST_REPLY + 1))


def run(script=SCRIPT, options=(), prepare=lambda: None, **streams):
    """The status of a run and what it writes into pipes, with its standard input a file of this script where nothing
    else is said. A stream that is given is a file's number or closed. What is to be prepared is done in the program's
    process before it starts."""
    closed = [number for number, name in enumerate(STREAMS) if streams.get(name) == CLOSED]
    opened = {name: None if stream == CLOSED else stream for name, stream in streams.items()}

    def before_the_start():
        for number in closed:
            os.close(number)
        prepare()

    with tempfile.TemporaryFile() as file:
        file.write(script)
        file.seek(0)
        pipes = {"stdout": subprocess.PIPE, "stderr": subprocess.PIPE}
        given = {"stdin": file, **pipes, "restore_signals": True, **opened}
        ran = subprocess.run([runs.program(), *options], preexec_fn=before_the_start, **given)
    return Ran(ran.returncode, ran.stdout or b"", ran.stderr or b"")


def run_with(path, flags, stream, **more):
    """A run with one of its streams a file that is opened so."""
    with opened(path, flags) as number:
        return run(**{stream: number}, **more)


@contextlib.contextmanager
def opened(path, flags):
    number = os.open(path, flags)
    try:
        yield number
    finally:
        os.close(number)


def lines_of(replies):
    return LINES_BEFORE_THE_FIRST_REPLY + replies.count(b"\n")


# Each function below gives cases: the name of each, what was found, and what is wanted.

# Standard input.


def failing_input():
    wanted = Ran(1, b"", fault(46, 1))
    yield "a closed input", run(stdin=CLOSED), wanted
    yield "a folder", run_with("/", os.O_RDONLY, "stdin"), wanted
    yield "an input that is only for writing", run_with(os.devnull, os.O_WRONLY, "stdin"), wanted
    for size in range(len(SCRIPT) + 1):
        whole = SCRIPT[:size].count(b"\n")
        replies = b"".join(REPLIES.splitlines(True)[: max(0, whole - LINES_BEFORE_THE_FIRST_REPLY)])
        terminal = terminal_that_hangs_up(SCRIPT[:size])
        yield f"an input that fails after {size} bytes", run(stdin=terminal), Ran(1, replies, fault(46, whole + 1))
        os.close(terminal)


def terminal_that_hangs_up(script):
    """A terminal at whose other end these bytes were typed, which is then gone: a read after them fails."""
    reader, typist = pty.openpty()
    tty.setraw(typist)
    os.write(typist, script)
    os.close(typist)
    return reader


def input_that_never_waits():
    """A pipe that answers an error where it is empty and its writer still there."""
    reader, writer = os.pipe()
    os.set_blocking(reader, False)
    os.write(writer, SCRIPT[:-1])
    replies = b"".join(REPLIES.splitlines(True)[:-1])
    yield "an input that doesn't wait", run(stdin=reader), Ran(1, replies, fault(46, SCRIPT.count(b"\n")))
    os.close(reader)
    os.close(writer)


def input_byte_by_byte():
    reader, writer = os.pipe()

    def send():
        for at in range(len(SCRIPT)):
            os.write(writer, SCRIPT[at : at + 1])
        os.close(writer)

    sender = threading.Thread(target=send)
    sender.start()
    yield "an input byte by byte", run(stdin=reader), Ran(0, REPLIES, b"")
    sender.join()
    os.close(reader)


# Standard output.


def output_without_room():
    yield "a full device", full(), FIRST_REPLY_FAILS
    yield "a closed output", run(stdout=CLOSED), FIRST_REPLY_FAILS
    yield "an output that is only for reading", run_with(os.devnull, os.O_RDONLY, "stdout"), FIRST_REPLY_FAILS
    yield "a full device, and no reply", full(script=b"# nothing\n"), Ran(0, b"", b"")
    yield "a full device, and a fault before any reply", full(script=b"map\n"), Ran(1, b"", fault(41, 1))
    yield "a full device, and a fault after a reply", full(script=b"zone 0 1\nmap\n"), Ran(1, b"", fault(47, 1))
    yield "a full device, and help", full(options=["--help"]), Ran(0, b"", b"")


def full(**given):
    return run_with("/dev/full", os.O_WRONLY, "stdout", **given)


def output_with_a_little_room():
    for size in range(len(REPLIES) + 1):
        with tempfile.TemporaryFile() as replies:
            ran = run(stdout=replies, prepare=lambda: leave_room_in_files(size))
            replies.seek(0)
            found = Ran(ran.status, replies.read(), ran.error)
        is_short = size < len(REPLIES)
        error = fault(47, lines_of(REPLIES[:size]) + 1) if is_short else b""
        yield f"an output with room for {size} bytes", found, Ran(int(is_short), REPLIES[:size], error)


def leave_room_in_files(size):
    """From now on no file may be longer, and a write beyond that is an error only."""
    signal.signal(signal.SIGXFSZ, signal.SIG_IGN)
    resource.setrlimit(resource.RLIMIT_FSIZE, (size, size))


def output_that_nobody_reads():
    yield "a pipe that nobody reads", reader_that_left(restore_signals=False), FIRST_REPLY_FAILS
    yield "a pipe that nobody reads, with its signal", reader_that_left(restore_signals=True), FIRST_REPLY_FAILS


def reader_that_left(restore_signals):
    """A pipe whose reader is gone. Where the program starts with the signal that tells of it, that may end it."""
    reader, writer = os.pipe()
    os.close(reader)
    found = run(stdout=writer, restore_signals=restore_signals)
    os.close(writer)
    return found


def output_that_never_waits():
    """A pipe that is full: a write that would wait is an error."""
    reader, writer = os.pipe()
    os.set_blocking(writer, False)
    with contextlib.suppress(BlockingIOError):
        while os.write(writer, b"x" * 4096):
            pass
    yield "a pipe that is full", run(stdout=writer), FIRST_REPLY_FAILS
    os.close(reader)
    os.close(writer)


def output_byte_by_byte():
    """A pipe that has less room than the replies, whose reader takes a byte at a time."""
    script = b"zone 0 1\n" + b"info 0\n" * 5000
    replies = b"ok\n" + b"free=512 pages=0 moving=0 huge=0 whole=1\n" * 5000
    reader, writer = os.pipe()
    taken = bytearray()

    def receive():
        while piece := os.read(reader, 1):
            taken.extend(piece)

    receiver = threading.Thread(target=receive)
    receiver.start()
    ran = run(script, stdout=writer)
    os.close(writer)
    receiver.join()
    os.close(reader)
    yield "an output byte by byte", Ran(ran.status, bytes(taken), ran.error), Ran(0, replies, b"")


# Standard error.


def error_without_room():
    with opened("/dev/full", os.O_WRONLY) as full_device:
        for stream, name in [(full_device, "full"), (CLOSED, "closed")]:
            yield f"a fault, standard error {name}", run(b"zone 0 1\nmap\n", stderr=stream), Ran(1, b"ok\n", b"")
            yield f"no fault, standard error {name}", run(stderr=stream), Ran(0, REPLIES, b"")
            refused = run(options=["--copiers", "5"], stderr=stream)
            yield f"options that are refused, standard error {name}", refused, Ran(2, b"", b"")
    yield "all streams closed", run(stdin=CLOSED, stdout=CLOSED, stderr=CLOSED), Ran(1, b"", b"")


CASES = [
    failing_input,
    input_that_never_waits,
    input_byte_by_byte,
    output_without_room,
    output_with_a_little_room,
    output_that_nobody_reads,
    output_that_never_waits,
    output_byte_by_byte,
    error_without_room,
]


def main():
    tried = 0
    for case, found, wanted in itertools.chain.from_iterable(cases() for cases in CASES):
        if found != wanted:
            raise runs.Failed(f"{case}: the program makes {found}\nand not {wanted}")
        tried += 1
    return f"{tried} runs with failing streams end with the status and the message of docs/SCRIPT.md"


if __name__ == "__main__":
    runs.start(main)
