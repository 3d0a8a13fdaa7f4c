"""Nanoseconds that a page of 4 KiB takes in a round over the library for C, made in several ways, and copied by memcpy.

    python3 bench/c_rounds.py [--size SIZE] [RUNS]

The pool has 2^SIZE frames, 2^18 and so 1 GiB if no size is given, in memory of `compactd_memory.h`; half of the frames, drawn at random, have a
page. A round is made by `compactd_compact`; by `compactd_round` in slices of so many pages, each of which is a call of `compactd_move_pages`;
in slices of sixteen pages that are carried: isolated and committed one after the other; and by `compactd_round_on`, on so many threads, each of
which takes 64 moves under the lock and copies their pages without it. Their lock is one of `compactd_round_lock`, or a default one. Then as many
pages are copied by memcpy, between the same frames and by as many threads. The program does all of this in turn three times, and runs so many
times, 5 if no number is given. The table has the median and the least of all, and what each is to that of `compactd_compact`; rounds on threads
are compared with memcpy by as many below it. The load of the machine is told before and after. The library is that of `bench/c_calls.py`. It
needs gcc."""

import argparse
import collections
import os
import pathlib
import statistics
import subprocess
import tempfile

import c_calls

BASE = "compactd_compact"
TURNS = 3


def measured(program, runs, *words):
    """The numbers that so many runs of the program tell, by what was done."""
    found = collections.defaultdict(list)
    for _ in range(runs):
        for line in c_calls.run(program, *words, stdout=subprocess.PIPE, text=True).stdout.splitlines():
            what, number = line.split("\t")
            found[what].append(float(number))
    return found


def show(found, base):
    """A table of the medians and the least numbers, with what each is to those of the base."""
    numbers = {what: (statistics.median(each), min(each)) for what, each in found.items()}
    median, least = numbers[base]
    print(f"{'nanoseconds a page':24}{'median':>8}{'ratio':>8}{'least':>8}{'ratio':>8}")
    for what, (middle, best) in numbers.items():
        print(f"{what:24}{middle:>8.0f}{middle / median:>8.2f}{best:>8.0f}{best / least:>8.2f}")


def show_beside_memcpy(found):
    """What the median of rounds on threads is to that of memcpy by as many."""
    for what, each in found.items():
        if what.startswith("on "):
            copied = found[f"memcpy by {what.removeprefix('on ').partition(',')[0]}"]
            print(f"{what + ', to memcpy':32}{statistics.median(each) / statistics.median(copied):>8.2f}")


def show_load(when):
    print(f"load {when}: {os.getloadavg()[0]:.1f}, on {os.cpu_count()} processors")


def main():
    parser = argparse.ArgumentParser(description=__doc__, formatter_class=argparse.RawDescriptionHelpFormatter)
    parser.add_argument("--size", type=int, default=18, help="the frames as a power of 2, from 9 to 22")
    parser.add_argument("runs", nargs="?", type=int, default=5, metavar="RUNS")
    given = parser.parse_args()
    show_load("before")
    with tempfile.TemporaryDirectory() as room:
        program = c_calls.in_c(pathlib.Path(room, "c_rounds"), "c_rounds.c", c_calls.folder() / "libcompactd.a")
        found = measured(program, given.runs, given.size, TURNS)
    show(found, BASE)
    show_beside_memcpy(found)
    show_load("after")


if __name__ == "__main__":
    main()
