"""What the measurements share: the programs on both sides, their times and instructions, and the aims.

One side is the program of this repository. The other one, where `--baseline` names it, is a plain Rust program without
proofs that reads the same scripts and writes the same replies. Both are measured in turn, so that their ratio is of one
run."""

import argparse
import os
import pathlib
import re
import shutil
import subprocess
import sys
import tempfile
import time

ROOT = pathlib.Path(__file__).resolve().parent.parent
PROGRAM = ROOT / "crates/compactd/out/compactd"
BENCHES = ROOT / "crates/benches"


def arguments(description):
    """The options that each measurement has."""
    sys.stdout.reconfigure(line_buffering=True)
    form = argparse.RawDescriptionHelpFormatter
    parser = argparse.ArgumentParser(description=description, formatter_class=form)
    parser.add_argument("--program", metavar="PATH", help="the program, where not that of the gate")
    parser.add_argument("--baseline", metavar="PATH", help="the plain Rust program, for the ratio to it")
    return parser


def arguments_with_benches(description, times):
    """The same of those that also call the library: where its program is, and how many times it does each thing."""
    parser = arguments(description)
    parser.add_argument("--benches", metavar="PATH", help="the program of the crate `benches`, if built elsewhere")
    parser.add_argument("times", nargs="?", type=int, default=times, help=f"how many times; {times} if left out")
    return parser


def sides(given):
    """The paths of the programs that are compared: this repository's, and the plain one where it is given."""
    program = runnable(given.program or PROGRAM, "`./prove` builds it, and so does `bash .ci/run`")
    plain = [runnable(given.baseline, "`--baseline` names the plain Rust program")] if given.baseline else []
    return [program, *plain]


def runnable(path, hint):
    path = pathlib.Path(path).resolve()
    if not os.access(path, os.X_OK) or path.is_dir():
        sys.exit(f"there is no program {path}: {hint}")
    return str(path)


def benches(given):
    """The path of the program that measures rounds and clients by calls of the library. The kit builds it if need
    be."""
    if given.benches:
        return runnable(given.benches, "`--benches` names the program of the crate `benches`")
    if shutil.which("rt") is None:
        sys.exit("the Rattle kit's `rt` isn't to be found")
    if subprocess.run(["rt", "run"], cwd=BENCHES, stdin=subprocess.DEVNULL, stdout=subprocess.DEVNULL).returncode != 0:
        sys.exit(f"`rt run` fails in {BENCHES}")
    return runnable(BENCHES / "out/benches", "`rt run` in its crate builds it")


def run(command, script):
    """The seconds that a run takes from file to file, and its output. A run that doesn't end with status 0 ends all."""
    with tempfile.TemporaryFile() as typed, tempfile.TemporaryFile() as replies:
        typed.write(script)
        typed.seek(0)
        start = time.perf_counter()
        status = subprocess.run(command, stdin=typed, stdout=replies).returncode
        taken = time.perf_counter() - start
        replies.seek(0)
        output = replies.read()
    if status != 0:
        sys.exit(f"{command[0]} ends with status {status}")
    return taken, output


def least_seconds(programs, options, script, times):
    """The least seconds of each program over a script, in so many turns, and their output, which has to be the same."""
    turns = [[run([program, *options], script) for program in programs] for _ in range(times)]
    outputs = {output for turn in turns for _, output in turn}
    if len(outputs) != 1:
        sys.exit(f"{' and '.join(programs)} write different replies")
    return [min(seconds for seconds, _ in side) for side in zip(*turns)], outputs.pop()


def instructions(command, script=b""):
    """How many instructions a run takes, counted by callgrind (Debian's package valgrind), and its output."""
    if shutil.which("valgrind") is None:
        sys.exit("valgrind isn't to be found, which counts instructions (Debian's package valgrind)")
    counted = ["valgrind", "--tool=callgrind", "--callgrind-out-file=/dev/null", *command]
    ran = subprocess.run(counted, input=script, capture_output=True)
    error = ran.stderr.decode(errors="replace")
    count = re.search(r"Collected : (\d+)", error)
    if ran.returncode != 0 or count is None:
        sys.exit(f"{command[0]} isn't counted, with status {ran.returncode}: {error}")
    return int(count[1]), ran.stdout


def ratio(numbers):
    """What is said of the first side's number beside the second's, where there are two."""
    return f", {numbers[0] / numbers[1]:.2f} times the plain program's" if len(numbers) == 2 else ""


def text_of(lines):
    return "".join(f"{line}\n" for line in lines).encode()
