"""Pages that are moved until 1, 8 and 64 pageblocks are handed out, by three policies, and how long it takes.

    python3 bench/c_reserve.py [--words WORDS] [--svg FILE] [RUNS]

The policies and the two loads are those that `bench/c_reserve.c` describes. The pool has 262,144 frames, and pages of 512 words, which are
1 GiB, or of 8 words where `--words 8` is given or less than 2 GiB are available. Each run draws its own loads, the same in every call of
this script; there are 5 if no number is given. The table has the medians, and the least time of all. A reservation is proved to move as few
pages as any list of moves that frees so many pageblocks, so it is the least of which the table has multiples. `--svg` draws the medians of
the pages. The load of the machine is told before and after. The library is that of `bench/c_calls.py`. It needs gcc."""

import argparse
import collections
import html
import math
import pathlib
import re
import statistics
import subprocess
import tempfile

import c_calls
import c_rounds

LEAST = "reservation"
GIB = 2**20  # in the units of /proc/meminfo
Result = collections.namedtuple("Result", "moved ratio median least")

# Of each policy: its color, its name below the title, and where that stands.
DRAWN = {
    "full round": ("#8c959f", "full round", 26),
    "round that stops": ("#d55e00", "round that stops once there are enough", 136),
    LEAST: ("#0072b2", "reservation: proved to be the fewest", 430),
}
HEADS = {"uniform": "All pageblocks equally likely", "skewed": "Some pageblocks full, others emptier"}
TICKS = {number: f"{number:,}" for number in (100, 1_000, 10_000, 100_000)}  # what the scale has, and how it is written
WIDTH, HEIGHT, PANEL, PLOT, SCALE = 720, 360, 342, 80, 168
TOP, ROW, GROUP = 122, 19, 68
STYLE = """
text { font: 12px system-ui, sans-serif; fill: #24292f }
.title { font-weight: bold; font-size: 16px }
.head { font-weight: bold }
.told { fill: #57606a }
.scale { font-size: 11px; fill: #57606a; text-anchor: middle }
.number { font-size: 11px }
.line { stroke: #e4e8ec; fill: none }
.sheet { fill: #ffffff }
"""


def words_in_memory():
    """The words of a page for which there is memory."""
    text = pathlib.Path("/proc/meminfo").read_text()
    return 512 if int(re.search(r"^MemAvailable: +(\d+) kB$", text, re.M)[1]) >= 2 * GIB else 8


def measured(program, words, runs):
    """The pages that were moved and the milliseconds of each run, by load, blocks and policy."""
    moved, times = collections.defaultdict(list), collections.defaultdict(list)
    for run in range(1, runs + 1):
        for line in c_calls.run(program, words, run, stdout=subprocess.PIPE, text=True).stdout.splitlines():
            load, blocks, policy, pages, milliseconds = line.split("\t")
            moved[load, int(blocks), policy].append(int(pages))
            times[load, int(blocks), policy].append(float(milliseconds))
    return moved, times


def results(moved, times):
    """What the table has of each measurement."""
    found = {}
    for (load, blocks, policy), pages in moved.items():
        ratios = [one / least for one, least in zip(pages, moved[load, blocks, LEAST])]
        each = times[load, blocks, policy]
        numbers = (statistics.median(pages), statistics.median(ratios), statistics.median(each), min(each))
        found[load, blocks, policy] = Result(*numbers)
    return found


def show(found):
    """The table, in Markdown."""
    print("| load | blocks | policy | pages moved | x least | ms, median | ms, least |")
    print("|---|---:|---|---:|---:|---:|---:|")
    for (load, blocks, policy), result in found.items():
        numbers = f"{result.moved:,.0f} | {result.ratio:,.2f} | {result.median:,.2f} | {result.least:,.2f}"
        print(f"| {load} | {blocks} | {policy} | {numbers} |")


# The picture.


def text(words, x, y, name=None):
    of_class = f' class="{name}"' if name else ""
    return f'<text{of_class} x="{x:g}" y="{y:g}">{html.escape(words)}</text>'


def place(number, ticks):
    """Where a number stands on the scale of a panel."""
    return round(PLOT + SCALE * math.log(number / min(ticks), max(ticks) / min(ticks)), 1)


def dot(x, y, color):
    return f'<circle cx="{x:g}" cy="{y:g}" r="5" fill="{color}"/>'


def bar(left, right, y, color):
    return f'<path d="M{left:g} {y:g}H{right:g}" stroke="{color}" stroke-width="3"/>'


def legend(drawn):
    for color, name, x in drawn.values():
        yield dot(x, 72, color)
        yield text(name, x + 10, 76)


def scale(bottom, ticks):
    """The lines of the powers of 10, with their numbers."""
    for number, written in ticks.items():
        x = place(number, ticks)
        yield f'<path class="line" d="M{x:g} {TOP - 12}V{bottom}"/>'
        yield text(written, x, bottom + 15, "scale")


def row(result, policy, y):
    x, color = place(result.moved, TICKS), DRAWN[policy][0]
    yield bar(PLOT, x, y, color)
    yield dot(x, y, color)
    many = "" if policy == LEAST else f" ({result.ratio:.{0 if result.ratio >= 10 else 2}f} ×)"
    yield text(f"{result.moved:,.0f}{many}", x + 10, y + 4, "number")


def panel(found, load):
    """The dots of a load, in a group for each number of blocks."""
    groups = sorted({blocks for _, blocks, _ in found})
    bottom = TOP + GROUP * len(groups) - 14
    yield text(HEADS[load], 0, TOP - 20, "head")
    yield from scale(bottom, TICKS)
    for at, blocks in enumerate(groups):
        y = TOP + GROUP * at
        yield text(f"{blocks} block{'s' * (blocks > 1)}", 0, y + ROW + 4)
        for policy_at, policy in enumerate(DRAWN):
            yield from row(found[load, blocks, policy], policy, y + ROW * policy_at)


def sheet(height, title, pool, drawn, panels, told):
    """An SVG of panels side by side, with what is told of the pool above them and of the numbers below."""
    size = f'width="{WIDTH}" height="{height}" viewBox="0 0 {WIDTH} {height}"'
    lines = [f'<svg xmlns="http://www.w3.org/2000/svg" role="img" {size}>', f"<title>{title}</title>", f"<style>{STYLE}</style>"]
    lines += [f'<rect class="sheet" width="{WIDTH}" height="{height}" rx="6"/>', text(title, 20, 30, "title")]
    lines += [text(pool, 20, 50, "told"), *legend(drawn)]
    for at, lines_of_panel in enumerate(panels):
        lines += [f'<g transform="translate({20 + PANEL * at},0)">', *lines_of_panel, "</g>"]
    lines += [text(told, WIDTH / 2, height - 12, "scale"), "</svg>"]
    return "\n".join(lines) + "\n"


def picture(found):
    """The pages that were moved, as SVG."""
    title = "Pages moved until 1, 8 or 64 pageblocks are handed out"
    pool = "A pool of 512 pageblocks with 512 frames each, of which 70 % hold a page"
    told = "pages moved, on a logarithmic scale; in brackets, how many times the fewest"
    return sheet(HEIGHT, title, pool, DRAWN, [panel(found, load) for load in HEADS], told)


def main():
    parser = argparse.ArgumentParser(description=__doc__, formatter_class=argparse.RawDescriptionHelpFormatter)
    parser.add_argument("--words", type=int, choices=[8, 512], help="the words of a page")
    parser.add_argument("--svg", type=pathlib.Path, metavar="FILE", help="where the picture is written")
    parser.add_argument("runs", nargs="?", type=int, default=5, metavar="RUNS")
    given = parser.parse_args()
    words = given.words or words_in_memory()
    c_rounds.show_load("before")
    with tempfile.TemporaryDirectory() as room:
        program = c_calls.in_c(pathlib.Path(room, "c_reserve"), "c_reserve.c", c_calls.folder() / "libcompactd.a")
        found = results(*measured(program, words, given.runs))
    print(f"pages of {words} words, {given.runs} runs")
    show(found)
    c_rounds.show_load("after")
    if given.svg:
        given.svg.write_text(picture(found))


if __name__ == "__main__":
    main()
