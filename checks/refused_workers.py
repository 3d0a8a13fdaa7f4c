"""Workers whose threads or memory are refused lose no page, and what comes of their work is the same.

The program `benches` makes a round over a zone and empties half of its pageblocks, by one thread and by 1, 2 and 4 workers. It tells the
counts of the zone after each, and how many pages have the words that were written. Each request for a thread is refused in turn, alone or
with all after it: fewer workers do the work then. Each request for memory is refused in turn: the work is refused, or fewer workers do it,
or the program ends, since it has no zone to work on. Where work is refused the zone is as it was, and one thread does it then."""

import collections
import pathlib
import re
import subprocess
import tempfile

import runs
from runs import Ran

NONE = 1000  # more requests for threads than the program makes
SECONDS = 60  # that a run may take
COUNTS = re.compile(r"(\w+ by \w+(?:\((\d)\))?): moved \d+, pages (\d+), moving 0, free (\d+), held (\d+), kept (\d+)")
NO_ZONE = (b"Error: out of memory\n", b"Error: there is not enough memory\n")


def run(library, **variables):
    """What a run does over this library."""
    given = {name: str(value) for name, value in variables.items()}
    try:
        return runs.finished([runs.built("benches"), "workers"], env={"LD_PRELOAD": str(library), **given}, timeout=SECONDS)
    except subprocess.TimeoutExpired:
        raise runs.Failed(f"a run with {given} doesn't end") from None


class Work:
    """A line of the run without refusals: whose work it tells of, how many workers did it, and the zone before it."""

    def __init__(self, line):
        found = COUNTS.fullmatch(line)
        if not found or found[3] != found[6]:
            raise runs.Failed(f"a page is lost where nothing is refused: {line}")
        self.line, self.name, self.workers = line, found[1], int(found[2] or 0)
        pages, free, held = map(int, found.groups()[2:5])
        self.before = f"{self.name}: moved 0, pages {pages}, moving 0, free {free + held}, held 0, kept {pages}"


def output(works, refused=None):
    """What is written where one of the works is refused, or none."""
    lines = {work: [work.line] for work in works}
    if refused:
        lines[refused] = [f"{refused.name}: refused, out of memory", refused.before, refused.line]
    return runs.text_of(line for of_work in lines.values() for line in of_work)


def refuse_threads(works, library):
    """Refuses each request for a thread, and one that isn't made. How many runs there were."""
    asked = sum(max(work.workers - 1, 0) for work in works)
    for request in range(1, asked + 2):
        for last in (request, NONE):
            ran = run(library, FIRST_REFUSED=request, LAST_REFUSED=last)
            if ran != Ran(0, output(works), b""):
                raise runs.Failed(f"threads {request} to {last} refused: {ran}")
    return 2 * (asked + 1)


def refuse_memory(works, library, requests):
    """Refuses each request for memory. Under each end how many runs had it: no zone, no refusal, or which work was refused."""
    ends = collections.Counter()
    for request in range(1, requests + 1):
        ran = run(library, REFUSED_REQUEST=request)
        end = end_of(works, ran)
        if end is None:
            raise runs.Failed(f"request {request} for memory refused: {ran}")
        ends[end] += 1
    if lacking := {"no zone", "no refusal", *(work.name for work in works if work.workers)} - set(ends):
        raise runs.Failed(f"no refused request for memory ends as one of these: {sorted(lacking)}")
    return ends


def end_of(works, ran):
    """How a run ended in which one request for memory was refused, if it may end so."""
    if ran.status == 1 and ran.error in NO_ZONE:
        told = ran.output.count(b"\n")
        return "no zone" if ran.output == output(works[:told]) else None
    allowed = {output(works, work): work.name for work in works if work.workers} | {output(works): "no refusal"}
    return allowed.get(ran.output) if ran[::2] == (0, b"") else None


def main():
    with tempfile.TemporaryDirectory() as folder:
        threads, memory = (runs.preload(f"refuse_{what}", folder) for what in ("threads", "memory"))
        counted = pathlib.Path(folder) / "requests"
        works = [Work(line) for line in run(memory, REQUESTS=counted).output.decode().splitlines()]
        of_threads = refuse_threads(works, threads)
        ends = refuse_memory(works, memory, int(counted.read_text()))
    no_zone, no_refusal = ends.pop("no zone"), ends.pop("no refusal")
    return (
        f"{of_threads} runs with threads refused come to what one with all of them does; of {no_zone + no_refusal + ends.total()} with memory"
        f" refused {no_zone} have no zone, in {ends.total()} one of {len(ends)} works is refused, and {no_refusal} come to the same"
    )


if __name__ == "__main__":
    runs.start(main)
