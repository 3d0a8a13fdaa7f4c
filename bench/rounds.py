"""How long a round takes over eight pageblocks whose lower half is full, by copiers and by the room of its queues,
beside the same work of the zone on one thread and without queues: the best of so many rounds, 100 if no number is
given. A line for each: its microseconds, nanoseconds a page, hundredths of the work alone, and microseconds of a round
with nothing to move. The program runs nine times, since its memory lies otherwise in each, and each number is the
median of theirs. Then the instructions that the zone's work takes for a page, counted by callgrind (Debian's package
valgrind). Ends with status 1 where something takes more than is aimed at.

    python3 bench/rounds.py [--benches PATH] [--program PATH] [--baseline PATH] [TIMES]

With the plain Rust program, the rounds of a script are compared too: the least time of the script with its rounds,
less that of the script without them."""

import itertools
import statistics
import subprocess
import sys

import measure

RUNS = 9
WORK_TIMES = 8
COLUMNS = ["us", "ns/page", "percent", "us/empty"]
ALONE = ("-", "-")

# The script: as many rounds as the journal has places for.
COPIERS, ROOMS = (1, 2, 4), (1, 8, 64)
ROUNDS, PAGES, TURNS = 7, 2048, 20


def measured(program, times):
    """The numbers of one run of the program, by copiers and room."""
    table = subprocess.run([program, "rounds", str(times)], check=True, capture_output=True, text=True).stdout
    rows = [line.split() for line in table.splitlines()[1:]]
    return {(copiers, room): [int(it) for it in numbers] for copiers, room, *numbers in rows}


def medians_of(runs):
    return {kind: [round(statistics.median(each)) for each in zip(*(run[kind] for run in runs))] for kind in runs[0]}


def print_table(medians):
    print("copiers room", *(f"{it:>8}" for it in COLUMNS))
    for (copiers, room), numbers in medians.items():
        print(f"{copiers:>7} {room:>4}", *(f"{it:>8}" for it in numbers))


def instructions_of_a_page(program):
    """Of the zone's work: those of the program that does it, less those of filling the zone."""
    alone, output = measure.instructions([program, "rounds", "alone", str(WORK_TIMES)])
    filled, _ = measure.instructions([program, "rounds", "filled", str(WORK_TIMES)])
    pages = int(output.split()[0])
    return round((alone - filled) / (WORK_TIMES * pages))


def script_with(rounds):
    """A script that fills the lower half of its zone again and again, with a round each time or without."""
    lines = ["zone 0 8"]
    for space in range(ROUNDS):
        compact = ["compact 0"] if rounds else []
        lines += [f"fill 0 {space} 0 {PAGES}", *compact, f"thin 0 {space} 0 {PAGES} 1"]
    return measure.text_of(lines)


def compare_scripts(programs):
    """Microseconds of a round of a script, of each program, and their ratio."""
    print("copiers room      us    plain    ratio")
    for copiers, room in itertools.product(COPIERS, ROOMS):
        options = [f"--copiers={copiers}", f"--capacity={room}"]
        whole, _ = measure.least_seconds(programs, options, script_with(True), TURNS)
        without, _ = measure.least_seconds(programs, options, script_with(False), TURNS)
        ours, plain = (1e6 * (a - b) / ROUNDS for a, b in zip(whole, without))
        print(f"{copiers:>7} {room:>4} {ours:>7.0f} {plain:>8.0f} {ours / plain:>8.2f}")


def is_missed(medians, page):
    """Tells what is aimed at, and whether something takes more."""
    aims = [
        ("nanoseconds of the zone's work for a page", medians[ALONE][1], 60),
        ("instructions of the zone's work for a page", page, 250),
        ("hundredths with one copier and room for 64", medians["1", "64"][2], 900),
        ("hundredths with four copiers and room for 8", medians["4", "8"][2], 1200),
    ]
    for what, found, aim in aims:
        print(f"{what}: {found}, at most {aim} aimed at")
    return any(found > aim for _, found, aim in aims)


def main():
    given = measure.arguments_with_benches(__doc__, 100).parse_args()
    program = measure.benches(given)
    medians = medians_of([measured(program, given.times) for _ in range(RUNS)])
    print_table(medians)
    if given.baseline:
        compare_scripts(measure.sides(given))
    return 1 if is_missed(medians, instructions_of_a_page(program)) else 0


if __name__ == "__main__":
    sys.exit(main())
