"""Microseconds in which the library for C finds the open run with the fewest pages, by order, in a pool of 2^20 frames.

    python3 bench/c_cheapest.py [CALLS]

The two loads are those that `bench/c_cheapest.c` describes. Each number is the mean of so many calls, 200 if none is given. The load of the
machine is told before and after. The library is that of `bench/c_calls.py`. It needs gcc."""

import argparse
import pathlib
import subprocess
import tempfile

import c_calls
import c_rounds


def main():
    parser = argparse.ArgumentParser(description=__doc__, formatter_class=argparse.RawDescriptionHelpFormatter)
    parser.add_argument("calls", nargs="?", type=int, default=200, metavar="CALLS")
    given = parser.parse_args()
    c_rounds.show_load("before")
    with tempfile.TemporaryDirectory() as room:
        program = c_calls.in_c(pathlib.Path(room, "c_cheapest"), "c_cheapest.c", c_calls.folder() / "libcompactd.a")
        lines = c_calls.run(program, given.calls, stdout=subprocess.PIPE, text=True).stdout.splitlines()
    print(f"{'load':14}{'order':>7}{'pages':>8}{'microseconds':>15}")
    for load, order, pages, microseconds in (line.split("\t") for line in lines):
        print(f"{load:14}{order:>7}{pages:>8}{float(microseconds):>15.2f}")
    c_rounds.show_load("after")


if __name__ == "__main__":
    main()
