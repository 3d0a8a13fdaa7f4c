"""Nanoseconds that a page of 4 KiB takes in a round on one thread over the library for C, beside plain C.

    python3 bench/c_compact.py [RUNS]

`compactd_compact` makes a round over 4,096 frames of which every fourth has a page. The same round is made by `compactd_move_pages` in slices
of 16 pages, by `compactd_isolate` and `compactd_commit` of each page, which carry it, and over plain tables in C with one memcpy a page. The
same pages are also copied by memcpy alone. The program does each in turn ten times, and runs so many times, 5 if no number is given. The
table has the median and the least of all, and what each is to the memcpy. The aims: a page of `compactd_compact` takes at most 1.2 times the
memcpy of the page, and at most 1.05 times the plain round. The load of the machine is told before and after. The library is that of
`bench/c_calls.py`. It needs gcc."""

import argparse
import pathlib
import tempfile

import c_calls
import c_rounds

BASE = "memcpy"
AIMS = {"memcpy": 1.2, "plain C": 1.05}


def show_aims(found):
    """What a page of the round takes to each, by the least of all, beside the aim."""
    for what, aim in AIMS.items():
        ratio = min(found["compactd_compact"]) / min(found[what])
        print(f"compactd_compact to {what}: {ratio:.2f}, aim {aim}{'' if ratio <= aim else ' (missed)'}")


def main():
    parser = argparse.ArgumentParser(description=__doc__, formatter_class=argparse.RawDescriptionHelpFormatter)
    parser.add_argument("runs", nargs="?", type=int, default=5, metavar="RUNS")
    runs = parser.parse_args().runs
    c_rounds.show_load("before")
    with tempfile.TemporaryDirectory() as room:
        program = c_calls.in_c(pathlib.Path(room, "c_compact"), "c_compact.c", c_calls.folder() / "libcompactd.a")
        found = c_rounds.measured(program, runs)
    c_rounds.show(found, BASE)
    show_aims(found)
    c_rounds.show_load("after")


if __name__ == "__main__":
    main()
