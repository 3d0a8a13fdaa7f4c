"""How often there is a huge block in a pool that lives, how many pages are moved for it, and how long a request takes, by six policies.

    python3 bench/c_churn.py [--words WORDS] [--svg FILE] [RUNS]

The policies and the load are those that `bench/c_churn.c` describes. A run asks for 240 blocks, of which about 168 are of order 9, and the
tables tell of these. Of the pages 0, 1 or 5 of a hundred are unmovable. The first table is of pages of 8 words. The second is of pages of
512 words, which are 1 GiB, unless less than 2 GiB are available. `--words` chooses one of them. Each run has its own random numbers, the
same in every call of this script; there is one run if no number is given. A table has the percentage of the requests that got a block; the
pages moved for all requests, those of lower orders, those in vain and those beforehand included, by the blocks of order 9; and the median
and the 99th percentile of the time of a request, whether it got a block or not. `--svg` draws the last table. The load of the machine is
told before and after. The library is that of `bench/c_calls.py`. It needs gcc."""

import argparse
import collections
import pathlib
import statistics
import subprocess
import tempfile

import c_calls
import c_reserve
import c_rounds

ORDER = 9
UNMOVABLE = (0, 1, 5)  # of a hundred pages
Result = collections.namedtuple("Result", "got pages median high")

# As in the picture of c_reserve.py: of each policy its color, its name below the title, and where that stands.
COLORS = {policy: color for policy, (color, _, _) in c_reserve.DRAWN.items()}
DRAWN = {
    "nothing": ("#24292f", "nothing", 26),
    "full round": (COLORS["full round"], "full round", 98),
    "round that stops": (COLORS["round that stops"], "round that stops", 182),
    "reservation": (COLORS["reservation"], "reservation", 302),
    "reservation, unmovable pages apart": ("#009e73", "reservation, apart", 398),
    "blocks kept ready, unmovable pages apart": ("#cc79a7", "blocks kept ready, apart", 528),
}
PAGES = {10: "10", 100: "100", 1_000: "1,000", 10_000: "10,000", 100_000: ""}
TIMES = {1: "1 µs", 1_000: "1 ms", 1_000_000: "1 s"}
HEIGHT, GROUP = 534, 126


def requests(program, words, unmovable, runs):
    """Of each policy its requests: the order, whether there was a block, the pages that were moved, and microseconds."""
    found = collections.defaultdict(list)
    for run in range(1, runs + 1):
        for line in c_calls.run(program, words, unmovable, run, stdout=subprocess.PIPE, text=True).stdout.splitlines():
            policy, order, got, pages, microseconds = line.split("\t")
            found[policy].append((int(order), int(got), int(pages), float(microseconds)))
    return found


def result(asked):
    """What the table has of the requests of a policy."""
    got, times = zip(*((got, time) for order, got, _, time in asked if order == ORDER))
    moved = sum(pages for _, _, pages, _ in asked)
    shares = statistics.quantiles(times, n=100, method="inclusive")
    return Result(100 * statistics.mean(got), moved / sum(got) if any(got) else None, shares[49], shares[98])


def results(program, words, runs):
    asked = {unmovable: requests(program, words, unmovable, runs) for unmovable in UNMOVABLE}
    return {(unmovable, policy): result(each) for unmovable, found in asked.items() for policy, each in found.items()}


def written(number):
    return "-" if number is None else f"{number:,.{1 if number < 10 else 0}f}"


def show(found):
    """The table, in Markdown."""
    print("| unmovable | policy | got a block | pages moved a block | us, median | us, 99th percentile |")
    print("|---:|---|---:|---:|---:|---:|")
    for (unmovable, policy), each in found.items():
        numbers = " | ".join(map(written, (each.pages, each.median, each.high)))
        print(f"| {unmovable} % | {policy} | {each.got:.0f} % | {numbers} |")


# The picture.


def pages_row(each, color, y):
    """A bar up to the pages a block, where there was one."""
    if each.pages is None:
        yield c_reserve.text("no block", c_reserve.PLOT, y + 4, "number")
        return
    x = c_reserve.place(max(each.pages, min(PAGES)), PAGES)
    yield c_reserve.bar(c_reserve.PLOT, x, y, color)
    yield c_reserve.dot(x, y, color)
    yield c_reserve.text(f"{written(each.pages)} ({each.got:.0f} %)", x + 10, y + 4, "number")


def times_row(each, color, y):
    """A bar from the median to the 99th percentile."""
    left, right = (c_reserve.place(max(time, min(TIMES)), TIMES) for time in (each.median, each.high))
    yield c_reserve.bar(left, right, y, color)
    yield c_reserve.dot(left, y, color)
    yield c_reserve.dot(right, y, color)
    yield c_reserve.text(f"{written(each.median)} – {written(each.high)}", right + 10, y + 4, "number")


def panel(found, head, ticks, row):
    """The rows of the policies, in a group for each part of unmovable pages."""
    yield c_reserve.text(head, 0, c_reserve.TOP - 20, "head")
    yield from c_reserve.scale(c_reserve.TOP + GROUP * len(UNMOVABLE) - 14, ticks)
    for at, unmovable in enumerate(UNMOVABLE):
        y = c_reserve.TOP + GROUP * at
        yield c_reserve.text(f"{unmovable} %", 0, y + 2 * c_reserve.ROW - 4)
        yield c_reserve.text("unmovable", 0, y + 2 * c_reserve.ROW + 12)
        for policy_at, (policy, (color, _, _)) in enumerate(DRAWN.items()):
            yield from row(found[unmovable, policy], color, y + c_reserve.ROW * policy_at)


def picture(found, words):
    """The last table, as SVG."""
    pool = f"A pool of 512 pageblocks, 70 % full, with pages of {words} words, some of which come and go all the time"
    panels = [
        panel(found, "Pages moved a block", PAGES, pages_row),
        panel(found, "Microseconds a request", TIMES, times_row),
    ]
    told = "logarithmic scales; in brackets: requests that got a block; times: median, 99th percentile; apart: unmovable pages apart"
    return c_reserve.sheet(HEIGHT, "Huge blocks in a pool that lives, by what is done where none is free", pool, DRAWN, panels, told)


def main():
    parser = argparse.ArgumentParser(description=__doc__, formatter_class=argparse.RawDescriptionHelpFormatter)
    parser.add_argument("--words", type=int, choices=[8, 512], help="the words of a page")
    parser.add_argument("--svg", type=pathlib.Path, metavar="FILE", help="where the picture is written")
    parser.add_argument("runs", nargs="?", type=int, default=1, metavar="RUNS")
    given = parser.parse_args()
    c_rounds.show_load("before")
    with tempfile.TemporaryDirectory() as room:
        program = c_calls.in_c(pathlib.Path(room, "c_churn"), "c_churn.c", c_calls.folder() / "libcompactd.a")
        for words in [given.words] if given.words else sorted({8, c_reserve.words_in_memory()}):
            found = results(program, words, given.runs)
            print(f"pages of {words} words, runs: {given.runs}")
            show(found)
    c_rounds.show_load("after")
    if given.svg:
        given.svg.write_text(picture(found, words))


if __name__ == "__main__":
    main()
