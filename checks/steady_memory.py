"""No round keeps memory, and no line does.

After 1,000 rounds that move pages, with the pages unmapped and mapped between them, a process has at most a little more
memory than one has after ten; so it has where each round is that of a block, with a client beside it; after a million
lines of `look` and `info` it has as much as after a thousand. Its peak is at most 4 MiB each time. The room of the
journal is asked for at `zone`, but the system gives it as records are written, and a client keeps its receipts, so runs
that are compared have as many records and receipts."""

import subprocess
import threading

import runs

PAGES = 12
FEW_ROUNDS, MANY_ROUNDS = 10, 1_000
FEW_LINES, MANY_LINES = 1_000, 1_000_000
SLACK_KB = 128
SLACK_OF_RECEIPTS_KB = 256  # their list grows at other times in one run than in the other
MOST_KB = 4096

OPENING = b"zone 0 1\n"
FILLING = b"fill 0 0 0 %d\n" % PAGES
FILLED = b"done=%d\n" % PAGES
RENEWING = b"thin 0 0 0 %d 1\n" % PAGES + FILLING
MOVING = b"compact 0\n" + RENEWING
MOVED = b"isolated=%d moved=%d back=0 stopped=met\n" % (PAGES, PAGES) + 2 * FILLED
RECORDS_OF_A_ROUND = 4 * PAGES
LOADING, LOADED = b"load 0 0 0 0\n", b"value=0\n"
COUNTED = b"free=%d pages=%d moving=0 huge=0 whole=0\n" % (512 - PAGES, PAGES)
ASKING, ASKED = b"look 0 0 0\ninfo 0\n", b"frame=0 dirty=0 unmovable=0 pins=0 maps=1\n" + COUNTED


class Run:
    """The program at the other end of two pipes, with a zone of a few pages."""

    def __init__(self, *options):
        pipes = {"stdin": subprocess.PIPE, "stdout": subprocess.PIPE}
        self.process = subprocess.Popen([runs.program(), *options], **pipes)
        self.answer(OPENING + FILLING, b"ok\n" + FILLED)

    def answer(self, commands, wanted):
        """Sends commands while the replies come, and looks at these."""

        def send():
            self.process.stdin.write(commands)
            self.process.stdin.flush()

        sender = threading.Thread(target=send, daemon=True)
        sender.start()
        for reply in wanted.splitlines(True):
            found = self.process.stdout.readline()
            if found != reply:
                self.process.kill()
                raise runs.Failed(f"a reply is {found}, and not {reply}")
        sender.join()

    def memory_kb(self):
        """What the process has of its own at the moment, without the files that it stands on, and the peak with
        these."""
        own = runs.memory_kb(self.process, "Anonymous:", "smaps_rollup")
        return own, runs.memory_kb(self.process, "VmHWM:")

    def end(self):
        self.process.stdin.close()
        status = self.process.wait()
        self.process.stdout.close()
        if status != 0:
            raise runs.Failed(f"status {status}")


def memory_kb(parts, *options):
    """The memory of a run over parts of a script: what is typed, what is answered, and how many times."""
    run = Run(*options)
    for commands, replies, times in parts:
        run.answer(commands * times, replies * times)
    memory = run.memory_kb()
    run.end()
    return memory


def moving_beside(loads):
    """A block whose client loads so many times, with the pages renewed after it, and the replies."""
    return b"during 0\n" + LOADING * loads + b"end\n" + RENEWING, LOADED * loads + MOVED


def compare(what, few, many, slack=SLACK_KB):
    """The memory of two runs, of which the second may have a little more than the first."""
    print(f"{what}: {few[0]} kB and {many[0]} kB, with a peak of {many[1]} kB")
    if many[0] > few[0] + slack or many[1] > MOST_KB:
        raise runs.Failed(f"more than {slack} kB apart, or a peak above {MOST_KB} kB")


def compare_rounds(copiers):
    records = (MANY_ROUNDS - FEW_ROUNDS) * RECORDS_OF_A_ROUND
    few = memory_kb([(MOVING, MOVED, FEW_ROUNDS), (LOADING, LOADED, records)], copiers)
    many = memory_kb([(MOVING, MOVED, MANY_ROUNDS)], copiers)
    compare(f"memory after {FEW_ROUNDS} rounds of {PAGES} pages and after {MANY_ROUNDS}, {copiers}", few, many)


def compare_blocks(copiers):
    records = (MANY_ROUNDS - FEW_ROUNDS) * RECORDS_OF_A_ROUND
    block, loads_of_many = moving_beside(1), moving_beside(MANY_ROUNDS - FEW_ROUNDS)
    loads = (LOADING, LOADED, records - RECORDS_OF_A_ROUND)
    few = memory_kb([(*block, FEW_ROUNDS), (*loads_of_many, 1), loads], copiers)
    many = memory_kb([(*block, MANY_ROUNDS)], copiers)
    what = f"memory after {FEW_ROUNDS} such rounds with a client beside each and after {MANY_ROUNDS}, {copiers}"
    compare(what, few, many, SLACK_OF_RECEIPTS_KB)


def main():
    runs.need_proof("a program whose memory has no part for run-time checks")
    for copiers in ("--copiers=1", "--copiers=4"):
        compare_rounds(copiers)
        compare_blocks(copiers)
    few = memory_kb([(ASKING, ASKED, FEW_LINES // 2)])
    many = memory_kb([(ASKING, ASKED, MANY_LINES // 2)])
    compare(f"memory after {FEW_LINES} lines and after {MANY_LINES}", few, many)
    return f"memory stays after {MANY_ROUNDS} rounds, with a client beside them or not, and after {MANY_LINES} lines"


if __name__ == "__main__":
    runs.start(main)
