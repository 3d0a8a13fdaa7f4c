"""Reads of the memory that a pool lends, beside reads of plain memory, for the library for C.

    python3 bench/c_memory.py [--size SIZE] [TURNS]

The pool has 2^SIZE frames of 512 words, 2^18 and so 1 GiB if no size is given; as much plain memory lies beside it. `bench/c_memory.c` says
what is done. Each of it is measured in so many turns, 5 if no number is given, and what is compared in turn. The table has the least of
the turns, and what that is to the least of what it is compared with. The load of the machine is told before and after. How many huge
pages the system gives is up to it: it has to allow them where they are advised (/sys/kernel/mm/transparent_hugepage/enabled). The library is
that of `bench/c_calls.py`. It needs gcc."""

import argparse
import collections
import pathlib
import subprocess
import tempfile

import c_calls
import c_rounds

# What each is compared with.
BASES = {
    "a word of a block, by its pointer": "a word of plain memory",
    "a word of a page that is spread, by a call": "a word of plain memory in pages of 4 KiB",
    "a word of the same pages in blocks, by a pointer": "a word of plain memory in pages of 4 KiB",
    "MiB that are resident with half given back": "MiB that are resident with pages that are spread",
}


def measured(program, turns, size):
    """The least number that the program tells, by what was done."""
    found = collections.defaultdict(list)
    for line in c_calls.run(program, turns, size, stdout=subprocess.PIPE, text=True).stdout.splitlines():
        what, number = line.split("\t")
        found[what].append(float(number))
    return {what: min(numbers) for what, numbers in found.items()}


def show(least):
    print(f"{'nanoseconds, or MiB':52}{'least':>10}{'ratio':>8}")
    for what, number in least.items():
        ratio = f"{number / least[BASES[what]]:>8.2f}" if what in BASES else ""
        print(f"{what:52}{number:>10,.1f}{ratio}")


def main():
    parser = argparse.ArgumentParser(description=__doc__, formatter_class=argparse.RawDescriptionHelpFormatter)
    parser.add_argument("--size", type=int, default=18, help="the frames as a power of 2, from 11 to 22")
    parser.add_argument("turns", nargs="?", type=int, default=5, metavar="TURNS")
    given = parser.parse_args()
    c_rounds.show_load("before")
    with tempfile.TemporaryDirectory() as room:
        program = c_calls.in_c(pathlib.Path(room, "c_memory"), "c_memory.c", c_calls.folder() / "libcompactd.a")
        least = measured(program, given.turns, given.size)
    show(least)
    c_rounds.show_load("after")


if __name__ == "__main__":
    main()
