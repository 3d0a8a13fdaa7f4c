"""No command but `zone`, `compact`, `pool` and `during` takes memory, and no request that is refused goes wrong.

One script has every other command, answers each, gets each refusal, and fills the zone's lists. Its run has to make as
many requests for memory as one that only opens the zone, those that are made in vain included. Then each of these
requests is refused in turn: the run has to end with the script's own replies, or with fault 48: at line 0 and no reply,
or at the line of `zone` after the reply to the line before. Another script runs two rounds, and each of its requests is
refused in turn: besides, a round may be refused 31 or 32, and the zone is then as before it, so that the next round
does its work. A third runs a pool, which may tell 31 or 32 in place of its first round or its second. A fourth has a
block, where besides that the fault may be at its line `during`, a client line may be refused 31, and the whole block
32. Each of these three asks for more memory where `--capacity` gives its queues room for more pages."""

import itertools
import pathlib
import re
import tempfile

import runs
from runs import Ran

REFUSALS_OF_A_ROUND = {f"refused {number}" for number in range(31, 36)}
OPENING = ["profile 2", "zone 0 8"]
TWO_PAGES = ["profile 2", "zone 0 2", "mapat 0 0 0 0", "mapat 0 0 1 512"]
FEW, MANY = 10, 64  # pages that a queue may have room for
BYTES_OF_A_PAGE = 64


# The scripts.


def each(command, numbers):
    """A command for each of these numbers."""
    return [command.format(number) for number in numbers]


def every_command():
    """A zone of 4,096 frames, in which half of the pages are moving at once, then no frame is free, and then no place
    of the journal."""
    return [
        *["profile 2", "zone 0 8", "zone 0 8", "info 1", "info 4"],
        *handing_out(),
        *marking(),
        *["fill 0 4 0 4096", "thin 0 4 0 4096 1"],
        *each("map 0 0 {}", range(2047)),
        *["map 0 0 2047 unmovable", "mapat 0 1 0 4095", "mapat 0 1 1 4095"],
        *["mapat 0 1 0 4094", "mapat 0 1 2 4094 unmovable"],
        *["store 0 0 0 3 7", "load 0 7 0 0"],
        *sharing(),
        *["scan 0"] * 2047,
        *["compact 0", "pool 0 1", "store 0 0 0 3 8"],
        *each("look 0 0 {}", range(2045, 2049)),
        *hands(),
        *["take 0 1", "take 0 1", "shut 0", "copy 0 1", "finish 0 1", "shut 0"],
        *["scan 0"] * 100,
        *hands(),
        "shut 0",
        *each("map 0 2 {}", range(2047)),
        "info 0",
        *["load 0 0 0 3"] * 60000,
        *["scan 0", "info 0"],
    ]


def handing_out():
    """All pageblocks are handed out, and taken back, and then a smaller block is."""
    return ["huge 0"] * 9 + each("give 0 {}", range(9)) + ["give 0 0", "huge 0 3", "give 0 0 3"]


def marking():
    """Each pageblock is marked, and then not any more."""
    return each("mark 0 {}", range(8)) + ["mark 0 0"] + each("unmark 0 {}", range(8)) + ["unmark 0 0"]


def sharing():
    """A page has all the addresses and pins that one may have, and then as before one address and no pin."""
    shared = each("share 0 0 0 3 {}", range(4)) + ["pin 0 3 0"] * 256
    return shared + each("unmap 0 3 {}", range(3)) + ["unmap 0 0 0"] + ["unpin 0 0 0"] * 256


def hands():
    """Each hand moves a page."""
    return [f"{word} 0 {hand}" for word in ("take", "copy", "finish") for hand in range(1, 5)]


def rounds():
    """A round moves two pages, and another finds nothing to move. What is known of the zone is asked for before and
    after each."""
    asked = ["info 0", "look 0 0 0", "look 0 0 1"]
    return [*TWO_PAGES, *asked, "compact 0", *asked, "compact 0", *asked]


def a_pool():
    """A pool gets a pageblock after its first round, and its second moves no page."""
    return [*TWO_PAGES, "pool 0 2", "give 0 0", "info 0"]


def a_block():
    """A client stores and loads in a page beside a round that moves it."""
    calls = [line for value in (5, 6) for line in (f"store 0 0 0 3 {value}", "load 0 0 0 3")]
    return ["profile 2", "zone 0 1", "map 0 0 0", "during 0", *calls, "end", "look 0 0 0"]


# What may be written in the place of the script's own replies, given these as lines.


def without_a_round(replies):
    """One of the rounds is refused for want of memory or of a thread: the zone is then as before it."""
    for number in (31, 32):
        yield replies[:7] + [f"refused {number}"] + replies[4:11]
        yield replies[:11] + [f"refused {number}"] + replies[12:15]


def without_a_round_of_the_pool(replies):
    """The first round of the pool, or its second, is refused for want of memory or of a thread."""
    for number in (31, 32):
        without_first = [f"got=0 rounds=0 stopped={number} blocks=-", "refused 12"]
        yield replies[:4] + without_first + ["free=1022 pages=2 moving=0 huge=0 whole=0 held=0"]
        yield replies[:4] + [f"got=1 rounds=1 stopped={number} blocks=0"] + replies[-2:]


def without_a_part_of_the_block(replies):
    """A client line is refused for want of memory, so that a load has the value before a store that is refused, or the
    block's round for that or for a thread, or the whole block for a thread; then the page is where it was."""
    unmoved = "unmovable=0 pins=0 maps=1"
    no_memory = "refused 31"
    for refused in ({3: no_memory, 4: "value=0"}, {4: no_memory}, {5: no_memory, 6: "value=5"}, {6: no_memory}):
        yield [refused.get(at, reply) for at, reply in enumerate(replies)]
    for number in (31, 32):
        yield replies[:7] + [f"refused {number}", f"frame=0 dirty=1 {unmoved}"]
    yield replies[:3] + ["refused 32", f"frame=0 dirty=0 {unmoved}"]


# The runs.


class Trial:
    """A script that is run with one request for memory refused after the other."""

    def __init__(self, name, lines, folder):
        self.name = name
        self.lines = lines
        self.script = runs.text_of(lines)
        self.folder = pathlib.Path(folder)
        self.output, self.requests = self.run_freely()
        self.replies = self.output.decode().splitlines()

    def run(self, options=(), **variables):
        return runs.run(self.script, options, LD_PRELOAD=self.folder / "refuse_memory.so", **variables)

    def run_freely(self):
        """The replies of a run where no request is refused, and how many requests it makes."""
        counted = self.folder / "requests"
        counted.unlink(missing_ok=True)
        ran = self.run(REQUESTS=counted)
        if ran.status != 0:
            raise runs.Failed(f"the script of {self.name}, which has no fault, ends with status {ran.status}")
        return ran.output, int(counted.read_text())

    def bytes_with_room_for(self, pages):
        """How many bytes a run asks for, where each queue of a round has room for so many pages."""
        counted = self.folder / "bytes"
        self.run(["--capacity", str(pages)], REQUESTED_BYTES=counted)
        return int(counted.read_text())

    def each_refusal(self):
        """The runs with a request refused that aren't as one with none: without those that end before the script's work
        with fault 48, which are counted."""
        self.faults = 0
        for request in range(1, self.requests + 1):
            ran = self.run(REFUSED_REQUEST=request)
            if is_fault_48(ran):
                self.faults += 1
            elif ran != Ran(0, self.output, b""):
                yield request, ran

    def fail(self, request, ran):
        wrong = f"status {ran.status}, {ran.error}, it answers {ran.output[:2000]}"
        raise runs.Failed(f"request {request} of {self.name} refused: {wrong}")

    def refused_rounds(self, others):
        """How many refused requests are told in place of a round, as these other replies have it."""
        allowed = [Ran(0, runs.text_of(replies), b"") for replies in others(self.replies)]
        told = 0
        for request, ran in self.each_refusal():
            if ran not in allowed:
                self.fail(request, ran)
            told += 1
        if told == 0:
            raise runs.Failed(f"no refused request of {self.name} is told in place of a round")
        return told


def is_fault_48(ran):
    """Whether a run ended where memory was asked for: in reading its words, or at the second line of the script."""
    return ran in (Ran(1, b"", b"compactd: fault 48 at line 0\n"), Ran(1, b"ok\n", b"compactd: fault 48 at line 2\n"))


def need_everything(every, others, block):
    """The words of the scripts' calls that were answered, and the refusals that were given, against those of
    docs/SCRIPT.md. The refusals of a round are left out: none comes where no request is refused."""
    calls = itertools.chain.from_iterable(zip(trial.lines, trial.replies) for trial in (every, *others))
    found = {line.split()[0] for line, reply in calls if "refused" not in reply and not line.startswith("profile")}
    found |= {"during"} if any(reply.startswith("isolated=1 moved=1 ") for reply in block.replies) else set()
    found |= {reply for reply in every.replies if "refused" in reply}
    manual = (runs.ROOT / "docs/SCRIPT.md").read_text()
    wanted = re.findall(r"^\| `([a-z]*) Z", manual, re.M) + re.findall(r"^\| `(refused [0-9]*)`", manual, re.M)
    wrong = found ^ (set(wanted) - REFUSALS_OF_A_ROUND)
    if wrong:
        raise runs.Failed(f"the scripts of this check or docs/SCRIPT.md lack these: {sorted(wrong)}")


def try_block(block):
    """How many refused requests of a block end at its line, and how many are told in it."""
    unbegun = Ran(1, runs.text_of(block.replies[:3]), b"compactd: fault 48 at line 4\n")
    allowed = [Ran(0, runs.text_of(replies), b"") for replies in without_a_part_of_the_block(block.replies)]
    found = [*block.each_refusal()]
    for request, ran in found:
        if ran not in [unbegun, *allowed]:
            block.fail(request, ran)
    at_its_line = sum(ran == unbegun for _, ran in found)
    if not 0 < at_its_line < len(found):
        raise runs.Failed("no refused request ends at the line of a block, or none is told in one")
    return at_its_line, len(found) - at_its_line


def try_every_command(every, opening):
    """How many refused requests of a script with every command end in fault 48. All are those of its `zone`."""
    if not 0 < every.requests == opening.requests:
        raise runs.Failed(f"{every.requests} requests for memory, and {opening.requests} for the zone alone")
    for request, ran in every.each_refusal():
        every.fail(request, ran)
    if every.faults == 0:
        raise runs.Failed("no refused request ends in fault 48")
    return every.faults


def need_room(trial):
    """Room for more pages takes the memory of these pages at least."""
    few, many = map(trial.bytes_with_room_for, (FEW, MANY))
    if many - few < (MANY - FEW) * BYTES_OF_A_PAGE:
        raise runs.Failed(f"{trial.name} asks for {few} bytes with room for {FEW} pages, and for {many} with room for {MANY}")


def main():
    runs.need_proof("a program whose memory has no part for run-time checks")
    with tempfile.TemporaryDirectory() as folder:
        runs.preload("refuse_memory", folder)
        opening = Trial("the opening of a zone", OPENING, folder)
        every = Trial("every command", every_command(), folder)
        two = Trial("two rounds", rounds(), folder)
        pool = Trial("a pool", a_pool(), folder)
        block = Trial("a block", a_block(), folder)
        need_everything(every, [two, pool], block)
        for trial in (two, pool, block):
            need_room(trial)
        faults = try_every_command(every, opening)
        of_rounds, of_pool = two.refused_rounds(without_a_round), pool.refused_rounds(without_a_round_of_the_pool)
        at_line, in_block = try_block(block)
    return (
        f"{len(every.lines)} commands make {every.requests} requests for memory, as the first alone; refused in turn,"
        f" {faults} end in fault 48, of {two.requests} of two rounds {of_rounds} are told in the place of one,"
        f" of {pool.requests} of a pool {of_pool}, and of {block.requests} of a block {at_line} end at its line and"
        f" {in_block} are told in it"
    )


if __name__ == "__main__":
    runs.start(main)
