"""Runs the checks of this folder, or those that are named, and says what each shows and how long it took.

    python3 checks/all.py [--of sources|program] [--program PATH] [--unproved] [--jobs N] [--left-out FILE] [NAME..]

All of them run, also after one that fails. Ends with status 1 where one failed. `--of sources` runs those for which nothing is
built, and `--of program` the others; `--jobs` runs N side by side. The last line names what was left out and why. `--left-out`
adds these names to a file, one per line."""

import argparse
import ast
import concurrent.futures
import pathlib
import subprocess
import sys
import time

import runs

FOLDER = pathlib.Path(__file__).resolve().parent
SHARED = ("all", "runs", "sources", "machine", "c_programs", "c_machine", "c_lending")  # what isn't a check
OF_SOURCES = ("starts", "hand_proofs", "types_with_allocators", "versions", "wrong_bodies")  # for which nothing is built
SECONDS = 1800  # that a check may take


def chosen_names(checks, of):
    """The names of all checks, or of those for which nothing is built, or of the others."""
    return [name for name in checks if of is None or (of == "sources") == (name in OF_SOURCES)]


def shows(check):
    """The first sentence of a check's doc string."""
    text = ast.get_docstring(ast.parse(check.read_text())) or "It doesn't say what it shows"
    return " ".join(text.split()).split(". ")[0].rstrip(".")


def run_check(check, options):
    """Runs a check. Returns what it says and how it ended, whether it failed, and what it left out."""
    print(f"check {check.stem}: {shows(check)}.\n", end="", flush=True)
    begin = time.monotonic()
    how = {"stdout": subprocess.PIPE, "stderr": subprocess.STDOUT, "text": True, "errors": "replace"}
    try:
        ran = subprocess.run([sys.executable, "-B", check, *options], timeout=SECONDS, **how)
        said, status = ran.stdout, ran.returncode
    except subprocess.TimeoutExpired:
        said, status = "", None
    tail = f"check {check.stem}: {ended(status)} in {time.monotonic() - begin:.1f} s"
    left_out = [line[len(runs.LEAVES_OUT) :] for line in said.splitlines() if line.startswith(runs.LEAVES_OUT)]
    return said + tail, status not in (0, runs.LEFT_OUT), [f"{check.stem}, {it}" for it in left_out]


def ended(status):
    """How a check ended, by its status, which it lacks where it was cut off."""
    if status is None:
        return "FAILED, cut off,"
    return {0: "passed", runs.LEFT_OUT: "left out"}.get(status, f"FAILED, with status {status},")


def note(file, lines):
    """Adds lines to a file, if one is given."""
    if file:
        with open(file, "a") as kept:
            kept.writelines(f"{line}\n" for line in lines)


def given_options(checks):
    parser = argparse.ArgumentParser(description=__doc__, formatter_class=argparse.RawDescriptionHelpFormatter)
    parser.add_argument("--of", choices=("sources", "program"), help="those for which nothing is built, or the others")
    parser.add_argument("--program", metavar="PATH", help="the program, where not that of the gate")
    parser.add_argument("--unproved", action="store_true", help="leave out what can't be tried without a proof")
    parser.add_argument("--jobs", type=int, default=1, metavar="N", help="how many run side by side")
    parser.add_argument("--left-out", metavar="FILE", type=pathlib.Path, help="the file to which the names of what is left out are added")
    parser.add_argument("names", nargs="*", metavar="NAME", help=", ".join(checks))
    given = parser.parse_args()
    if unknown := [name for name in given.names if name not in checks]:
        parser.error(f"there is no check {unknown[0]}, but {', '.join(checks)}")
    return given


def main():
    checks = {path.stem: path for path in sorted(FOLDER.glob("*.py")) if path.stem not in SHARED}
    given = given_options(checks)
    options = [*(["--program", given.program] if given.program else []), *(["--unproved"] if given.unproved else [])]
    names, begin, failed, left_out = given.names or chosen_names(checks, given.of), time.monotonic(), [], []
    with concurrent.futures.ThreadPoolExecutor(given.jobs) as pool:
        for name, (said, is_failed, lines) in zip(names, pool.map(lambda name: run_check(checks[name], options), names)):
            print(said, flush=True)
            failed += [name] * is_failed
            left_out += lines
            note(given.left_out, lines)
    print(f"checks: {len(names)} ran in {time.monotonic() - begin:.0f} s, failed: {', '.join(failed) or 'none'}")
    print(f"checks: left out: {'; '.join(left_out) or 'none'}")
    return 1 if failed else 0


if __name__ == "__main__":
    sys.exit(main())
