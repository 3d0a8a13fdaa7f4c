"""How many thousands of calls 1, 2 and 4 clients make in a second, stores and loads by turns over 64 pages: in an array
under a plain mutex, of a zone at rest, and beside rounds of two copiers that move the pages all the time; the best of
so many times, 20 if no number is given. Then how many nanoseconds a load takes beside rounds, the median, the 99th
hundredth and the greatest of 10,000, by the room of the rounds' queues.

    python3 bench/clients.py [--benches PATH] [--program PATH] [--baseline PATH] [TIMES]

With the plain Rust program, a script is compared too: blocks in which a client stores and loads beside a round."""

import subprocess
import sys

import measure

COPIERS = (1, 2, 4)
BLOCKS, PAGES, CALLS, TURNS = 13, 1024, 400, 20


def script_of_blocks():
    """Blocks in which a client makes so many stores and loads beside a round that moves so many pages."""
    lines = ["zone 0 8"]
    for block in range(BLOCKS):
        pages = [(7 * call + block) % PAGES for call in range(CALLS)]
        calls = [line for page in pages for line in (f"store 0 0 {page} {page % 8} {page}", f"load 0 0 {page} 0")]
        lines += [f"fill 0 0 0 {PAGES}", "during 0", *calls, "end", f"thin 0 0 0 {PAGES} 1"]
    return measure.text_of(lines)


def compare_scripts(programs):
    """Microseconds of a block, of each program, and their ratio."""
    print("copiers      us    plain    ratio")
    for copiers in COPIERS:
        least, _ = measure.least_seconds(programs, [f"--copiers={copiers}"], script_of_blocks(), TURNS)
        ours, plain = (1e6 * seconds / BLOCKS for seconds in least)
        print(f"{copiers:>7} {ours:>7.0f} {plain:>8.0f} {ours / plain:>8.2f}")


def main():
    given = measure.arguments_with_benches(__doc__, 20).parse_args()
    status = subprocess.run([measure.benches(given), "clients", str(given.times)]).returncode
    if given.baseline:
        compare_scripts(measure.sides(given))
    return status


if __name__ == "__main__":
    sys.exit(main())
