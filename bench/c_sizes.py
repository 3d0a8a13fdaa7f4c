"""Nanoseconds of the calls of the library for C by the size of the pool, from 4,096 to 4,194,304 frames.

    python3 bench/c_sizes.py [--sizes SIZE,..] [TURNS]

The pools have pages of 64 bytes, 2^SIZE frames, and as many addresses; SIZE is 12, 15, 18, 20 and 22 if none is given. All are open at once,
and each is in the state that `bench/c_sizes.c` describes: a quarter handed out, a quarter free, and 1,000 pages spread over the rest, at
addresses that are spread too. Each call is measured with each pool in turn, up to a million times, and all of that in so many turns, 7 if no
number is given. The table has the medians; the last column is what a call takes with 2^20 frames to what it takes with 2^12. The opening, and
a memset of as many bytes as its words and tables have, are told in microseconds. The load of the machine is told before and after. The
library is that of `bench/c_calls.py`. It needs gcc."""

import argparse
import collections
import pathlib
import statistics
import subprocess
import tempfile

import c_calls
import c_rounds

SIZES = [12, 15, 18, 20, 22]
SMALL, LARGE = 12, 20  # those of the ratio


def listed(text):
    return [int(word) for word in text.split(",")]


def measured(program, turns, sizes):
    """The numbers that the program tells, by what was done and the size."""
    found = collections.defaultdict(lambda: collections.defaultdict(list))
    for line in c_calls.run(program, turns, *sizes, stdout=subprocess.PIPE, text=True).stdout.splitlines():
        what, size, number = line.split("\t")
        found[what][int(size)].append(float(number))
    return found


def show(found, sizes):
    """A table of the medians, with the ratio of one size to another where both were measured."""
    has_ratio = {SMALL, LARGE} <= set(sizes)
    heads = [f"2^{size}" for size in sizes] + [f"2^{LARGE} to 2^{SMALL}"] * has_ratio
    print(f"{'nanoseconds':31}" + "".join(f"{head:>13}" for head in heads))
    for what, by_size in found.items():
        medians = {size: statistics.median(numbers) for size, numbers in by_size.items()}
        ratio = f"{medians[LARGE] / medians[SMALL]:>13.2f}" if has_ratio else ""
        print(f"{what:31}" + "".join(f"{medians[size]:>13,.1f}" for size in sizes) + ratio)


def main():
    parser = argparse.ArgumentParser(description=__doc__, formatter_class=argparse.RawDescriptionHelpFormatter)
    parser.add_argument("--sizes", type=listed, default=SIZES, metavar="SIZE,..", help="the frames, and the addresses, as powers of 2 from 12 to 24")
    parser.add_argument("turns", nargs="?", type=int, default=7, metavar="TURNS")
    given = parser.parse_args()
    c_rounds.show_load("before")
    with tempfile.TemporaryDirectory() as room:
        program = c_calls.in_c(pathlib.Path(room, "c_sizes"), "c_sizes.c", c_calls.folder() / "libcompactd.a")
        found = measured(program, given.turns, given.sizes)
    show(found, given.sizes)
    c_rounds.show_load("after")


if __name__ == "__main__":
    main()
