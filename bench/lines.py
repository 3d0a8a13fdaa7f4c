"""How many lines of a script the program answers in a second, whether its time grows with the number of lines alone,
and whether its memory stays. Ends with status 1 where four times the lines take more than five times the time, or where
peak memory grows.

    python3 bench/lines.py [--program PATH] [--baseline PATH]"""

import subprocess
import sys
import tempfile
import time

import measure

FEW, MANY = 50_000, 200_000
TURNS = 5
MOST_TIMES = 5
SLACK_KB = 256


def script_of(lines):
    return b"zone 0 1\n" + b"info 0\n" * lines


def seconds(programs, lines):
    """The least seconds of each program, whose replies have to be as many as the lines."""
    least, output = measure.least_seconds(programs, [], script_of(lines), TURNS)
    replies = output.count(b"\n")
    if replies != lines + 1:
        sys.exit(f"{replies} replies for {lines + 1} lines")
    return least


def peak_kb(program, lines):
    """The peak of the memory, looked at again and again while the program runs."""
    peak = 0
    with tempfile.TemporaryFile() as script:
        script.write(script_of(lines))
        script.seek(0)
        run = subprocess.Popen([program], stdin=script, stdout=subprocess.DEVNULL)
        while run.poll() is None:
            with open(f"/proc/{run.pid}/status") as status:
                found = [int(line.split()[1]) for line in status if line.startswith("VmHWM:")]
            peak = max(found, default=peak)
            time.sleep(0.001)
    return peak


def main():
    programs = measure.sides(measure.arguments(__doc__).parse_args())
    times = {lines: seconds(programs, lines) for lines in (FEW, MANY)}
    peaks = {lines: [peak_kb(program, lines) for program in programs] for lines in (FEW, MANY)}
    for lines in (FEW, MANY):
        taken, kb = times[lines][0], peaks[lines][0]
        compared = measure.ratio(times[lines])
        print(f"{lines} lines: {taken:.3f} s{compared}, {lines / taken:,.0f} lines a second, at most {kb} kB")
    times_as_long = times[MANY][0] / times[FEW][0]
    more_kb = peaks[MANY][0] - peaks[FEW][0]
    print(f"{MANY // FEW} times the lines: {times_as_long:.2f} times the time (at most {MOST_TIMES}), {more_kb:+} kB")
    return 0 if times_as_long <= MOST_TIMES and more_kb <= SLACK_KB else 1


if __name__ == "__main__":
    sys.exit(main())
