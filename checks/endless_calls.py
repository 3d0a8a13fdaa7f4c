"""A zone whose journal is unrecorded makes 100,000,000 calls, and the program has no more memory after them than after the first two. Nine
times as many calls make no more requests for memory. Two examples that make 10,000,000 calls each, with rounds and with blocks that are kept
ready, have at most a MiB more in the end than in the first quarter of their time. Beside a zone whose journal is kept, in one run, a store of an
unrecorded one takes at most 0.9 of the time, and a word that is written in bulk at most half: nothing is done there for the record of each."""

import os
import pathlib
import re
import subprocess
import tempfile
import time

import runs

EXAMPLES = ("buffer_pool", "vm_pool")
VALUES = 50_000_000  # each stored, and loaded
FEW, MANY = 1_000, 9_000  # values, too, while requests are counted: the program's own words are as long
TURNS, RUNS = 50, 5
MOST = {"store": 0.9, "word": 0.5}  # of the time of a kept journal
SLACK = 64  # kB: what the program's own output may touch for the first time
SLACK_OF_EXAMPLES = 1024  # kB: a byte for each call would be 10,000 kB


def peaks(process):
    """The most memory that a process had so far, in kB, looked at every hundredth of a second until it ends."""
    while (peak := runs.memory_kb(process, "VmHWM:")) is not None:
        yield peak
        time.sleep(0.01)


def call_all():
    """The most memory up to the first two calls of an unrecorded zone, and up to the last, in kB."""
    process = subprocess.Popen([runs.built("benches"), "calls", "unrecorded", str(VALUES)], stdout=subprocess.PIPE, text=True)
    if process.stdout.readline() != "true 1 of 1\n":
        raise runs.Failed("a first store wasn't loaded again")
    first, *more = peaks(process)
    said = process.stdout.read()
    if (status := process.wait()) or said != f"true {VALUES} of {VALUES}\n":
        raise runs.Failed(f"of {VALUES} values that were stored and loaded: {said.strip()}, status {status}")
    return first, max([first, *more])


def requests(values, folder):
    """How many requests for memory the program makes that uses an unrecorded zone so."""
    counted = pathlib.Path(folder) / "requests"
    counted.unlink(missing_ok=True)
    variables = {"LD_PRELOAD": str(pathlib.Path(folder) / "refuse_memory.so"), "REQUESTS": str(counted)}
    command = [runs.built("benches"), "calls", "unrecorded", str(values)]
    subprocess.run(command, env={**os.environ, **variables}, stdout=subprocess.DEVNULL, check=True)
    return int(counted.read_text())


def count_requests():
    """Looks that the calls of an unrecorded zone make none."""
    with tempfile.TemporaryDirectory() as folder:
        runs.preload("refuse_memory", folder)
        few, many = requests(FEW, folder), requests(MANY, folder)
    print(f"requests for memory: {few} with {2 * FEW} calls of an unrecorded zone, and {many} with {2 * MANY}")
    if not 0 < few == many:
        raise runs.Failed("calls of an unrecorded zone make requests for memory, or none is counted")


def peaks_of(example):
    """The most memory that an example has in the first quarter of its time, and the most until its end, in kB."""
    process = subprocess.Popen([runs.built(example)], stdout=subprocess.DEVNULL)
    seen = list(peaks(process))
    if status := process.wait():
        raise runs.Failed(f"{example} ended with status {status}")
    return seen[len(seen) // 4], seen[-1]


def shares():
    """The share of the time of a kept journal that a store and a word written in bulk take where it is unrecorded, in one run."""
    said = subprocess.run([runs.built("benches"), "calls", str(TURNS)], capture_output=True, text=True, check=True).stdout
    found = re.findall(r"(store|word)s \d+ unrecorded (\d+) kept (\d+)\n", said)
    return {what: int(unrecorded) / int(kept) for what, unrecorded, kept in found}


def least_shares():
    """The least share of several runs, since a clock tells of the host too."""
    runs_of_both = [shares() for _ in range(RUNS)]
    return {what: min(run[what] for run in runs_of_both) for what in MOST}


def compare(what, first, most, slack):
    """Two amounts of memory, of which the second may be a little more than the first."""
    print(f"{what}: {first} kB at first and {most} kB at most")
    if most > first + slack:
        raise runs.Failed(f"more than {slack} kB apart")


def main():
    compare(f"{2 * VALUES} calls of an unrecorded zone", *call_all(), SLACK)
    count_requests()
    for example in EXAMPLES:
        compare(example, *peaks_of(example), SLACK_OF_EXAMPLES)
    took = least_shares()
    if slow := [what for what, most in MOST.items() if took[what] > most]:
        raise runs.Failed(f"where the journal is unrecorded, a {slow[0]} takes {took[slow[0]]:.2f} of the time that it takes where it is kept")
    return "memory stays, and of the time of a kept zone " + " and ".join(f"a {what} of an unrecorded one takes {took[what]:.2f}" for what in MOST)


if __name__ == "__main__":
    runs.start(main)
