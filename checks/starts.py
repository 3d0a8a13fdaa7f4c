"""`./compactd` and `./prove` use a build again exactly where it is fresh, and never one that is half made.

This is seen over a kit that proves nothing (`checks/kit/rt`), in a temporary folder. A build is used again where the
kit, the sources and the build itself are as they were, whatever the times of files are; where files are as listed, no
Python runs. Arguments, input, output and status are passed on. Nothing is left where a build fails or is interrupted,
and of two starts at once one builds."""

import concurrent.futures
import contextlib
import os
import pathlib
import shutil
import signal
import subprocess
import sys
import tempfile
import time

import runs
from launch import program

PROGRAM = '#!/bin/sh\nwhile read -r line; do echo "$line"; done\necho "ran $*"\nexit ${2:-0}\n'
FILES = {
    "crates.txt": "# the crates\nlow: std_thing\ncompactd: low\nother: low\n",
    "HANDLES": "Handles allowed: none.\n",
    "crates/low/src/lib.rt": "low",
    "crates/low/specs/Lib.antt": "specs",
    "crates/low/proofs/Lib.antt": "proofs",
    "crates/low/must-fail/one.edit": "edit",
    "crates/other/src/lib.rt": "other",
    "crates/compactd/src/main.rt": "main",
    "crates/compactd/stdin": "",
}
# What a proof reads: the program's crates without their edits, and nothing of the others.
READ = sorted(path for path in FILES if "must-fail" not in path and "other" not in path)
OUT = "crates/compactd/out"
# What a command may take, which runs for a second, on a machine that does much beside it.
SECONDS = 60
COMPILES, UNPROVED, AGAIN = "compiling an unproved build", "running an unproved build", "each start recompiles"
# What a start needs of the system, beside Python.
TOOLS = ("sh", "readlink", "find", "cmp")
# After so many seconds without a change a start leaves the listing of the files.
AT_REST = program.SECONDS_AT_REST + 0.5
PROVED = (0, f"compactd is proved: {OUT}/compactd\n")
USAGE = "usage: ./prove [--anew] or ./prove --c [--anew] [--install PREFIX]\n"
WRONG_WORDS = (
    ["now"],
    ["--anew", "--anew"],
    ["--install", "there"],
    ["--c", "--install"],
    ["--c", "--install", ""],
    ["--c", "--install", "--anew"],
    ["--install", "there", "--c"],
    ["--c", "there", "--install"],
    ["--c", "--install", "there", "then"],
)


class Repository:
    """A small repository with the scripts of this one, and the state of its kit."""

    def __init__(self, folder):
        self.top, self.state = folder / "repository", folder / "kit"
        self.temporary, self.python, self.tools = folder / "temporary", folder / "python", folder / "tools"
        for path in FILES:
            self.write(path, FILES[path])
        for name in ("compactd", "prove"):
            shutil.copy(runs.ROOT / name, self.top)
        shutil.copytree(runs.ROOT / "launch", self.top / "launch")
        for it in (self.state, self.temporary, self.python, self.tools):
            it.mkdir()
        (self.python / "python3").symlink_to(sys.executable)
        for tool in TOOLS:
            (self.tools / tool).symlink_to(shutil.which(tool))
        shutil.copytree(runs.ROOT / "checks/kit", self.state / "bin")
        self.take_kit("kit one")
        (self.state / "program").write_text(PROGRAM)
        (self.state / "program").chmod(0o755)

    def take_kit(self, version, has_file=True):
        """Makes the kit another one, with or without the file that has its version."""
        (self.state / "version").write_text(f"{version}\n")
        (self.state / "KIT-ID").unlink(missing_ok=True)
        if has_file:
            shutil.copy(self.state / "version", self.state / "KIT-ID")

    def write(self, path, text):
        """Writes a file, with a time long ago."""
        file = self.top / path
        file.parent.mkdir(parents=True, exist_ok=True)
        file.write_text(text)
        os.utime(file, (1, 1))

    def begin(self, words, has_kit=True, has_python=True):
        """Begins a command of the repository, where PATH has a kit and Python or lacks them."""
        folders = [self.state / "bin"] * has_kit + [self.python] * has_python + [self.tools]
        environment = {"PATH": ":".join(map(str, folders)), "KIT_STATE": str(self.state), "TMPDIR": str(self.temporary)}
        streams = dict.fromkeys(("stdin", "stdout", "stderr"), subprocess.PIPE)
        return subprocess.Popen([self.top / words[0], *words[1:]], env=environment, text=True, **streams)

    def run(self, *words, **lacks):
        return ended(self.begin(words, **lacks))

    def calls(self):
        """The calls of the kit since they were last asked for."""
        file = self.state / "calls"
        found = file.read_text().splitlines() if file.exists() else []
        file.unlink(missing_ok=True)
        return found

    @contextlib.contextmanager
    def kit_that(self, word):
        (self.state / word).touch()
        yield
        (self.state / word).unlink()


def ended(begun):
    """The status of a command with one line of input, and what it writes to standard output and to standard error."""
    try:
        written, said = begun.communicate("a line\n", timeout=SECONDS)
    except subprocess.TimeoutExpired:
        begun.kill()
        raise runs.Failed(f"starts: {begun.args} had not ended after {SECONDS} seconds")
    return begun.returncode, written, said


def wait_until(holds):
    for _ in range(100 * SECONDS):
        if holds():
            return
        time.sleep(0.01)
    raise runs.Failed(f"starts: no call of the kit within {SECONDS} seconds")


def same(what, found, wanted):
    if found != wanted:
        raise runs.Failed(f"starts: {what}: {found!r}, and not {wanted!r}")


def answers(repository, what, calls=(), tells=(), **lacks):
    """A start answers as the program does, after these calls of the kit, and has a line on standard error for each of
    these words."""
    status, written, said = repository.run("compactd", "--word", "3", **lacks)
    same(f"status and output of {what}, beside {said!r}", (status, written), (3, "a line\nran --word 3\n"))
    same(f"calls of the kit by {what}", repository.calls(), list(calls))
    same(f"lines of standard error of {what}", len(said.splitlines()), len(tells))
    same(f"what standard error of {what} lacks, which is {said!r}", [it for it in tells if it not in said], [])


def compiles(repository, what):
    answers(repository, what, ["try"], [COMPILES, UNPROVED])


def answers_at_once(repository, what, tells=()):
    """A start finds the build fresh by the listing of the files, which the start before it left, and runs no Python."""
    time.sleep(AT_REST)
    answers(repository, f"a start before {what}", tells=tells)
    answers(repository, what, tells=tells, has_python=False)
    answers(repository, f"{what} with no kit", tells=tells, has_python=False, has_kit=False)


def proves(repository, what):
    same(f"status and output of {what}", repository.run("prove")[:2], PROVED)
    same(f"calls of the kit by {what}", repository.calls(), ["ci"])


def asked_otherwise(repository):
    """A proof proves anew where it is asked to. It takes no other words, and those of an installation in their order alone."""
    proves(repository, "a proof")
    same("a proof anew", (repository.run("prove", "--anew")[:2], repository.calls()), (PROVED, ["ci --anew"]))
    for words in WRONG_WORDS:
        same(f"prove {words}", repository.run("prove", *words), (2, "", USAGE))
    same("calls of the kit by wrong words", repository.calls(), [])


def lacks_a_kit(repository):
    """With no kit a start and a proof end with status 70."""
    for name in ("compactd", "prove"):
        status, written, said = repository.run(name, has_kit=False)
        same(f"{name} with no kit", (status, written, said.count("\n")), (70, "", 1))
        same(f"{name} with no kit names what it lacks", "rt has to be on PATH" in said, True)


def unproved_starts(repository):
    """An unproved build is compiled once, and again after a change, whatever its time."""
    compiles(repository, "the first start")
    answers(repository, "the second start", tells=[UNPROVED])
    repository.write("crates/low/src/lib.rt", "changed")
    compiles(repository, "a start after a change")
    repository.take_kit("kit two")
    compiles(repository, "a start with another kit")
    repository.write("crates/other/src/lib.rt", "changed")
    answers(repository, "a start after a change of another crate", tells=[UNPROVED])
    with open(repository.top / OUT / "unproved/compactd", "a") as build:
        build.write("# another build\n")
    compiles(repository, "a start after a change of the build")


def two_starts(repository):
    """Of two starts at once one compiles, and the other waits for it."""
    both = [repository.begin(["compactd"]) for _ in range(2)]
    same("two starts at once", [ended(begun)[:2] for begun in both], [(0, "a line\nran \n")] * 2)
    same("calls of the kit by two starts at once", repository.calls(), ["try"])


def failing_builds(repository):
    """What isn't compiled ends with status 70, and what isn't proved with 1. What the kit said is told."""
    with repository.kit_that("fails"):
        for name, wanted in (("compactd", 70), ("prove", 1)):
            status, written, said = repository.run(name)
            same(f"{name} of what is broken", (status, written), (wanted, ""))
            same(f"{name} tells what is broken", "this crate is broken" in said, True)
    repository.calls()
    compiles(repository, "a start after one that failed")


def interrupted(repository):
    """What is interrupted leaves no file, and the next start is as the first."""
    for name in ("compactd", "prove"):
        repository.calls()
        with repository.kit_that("hangs"):
            begun = repository.begin([name])
            wait_until((repository.state / "calls").exists)
            begun.terminate()
            same(f"status of an interrupted {name}", ended(begun)[0], 128 + signal.SIGTERM)
        same(f"temporary files of an interrupted {name}", list(repository.temporary.iterdir()), [])
    same("builds after interruptions", list((repository.top / OUT).iterdir()), [])
    repository.calls()
    compiles(repository, "a start after one that was interrupted")
    proves(repository, "a proof after one that was interrupted")


def hidden_build(repository):
    """Where `rt try` leaves no build, it answers itself."""
    with repository.kit_that("hides"):
        answers(repository, "a start with no build", ["try", "try -- --word 3"], [COMPILES, AGAIN])


def ends_what_checks(repository):
    """A check that `rt try` runs isn't waited for."""
    with repository.kit_that("checks"):
        compiles(repository, "a start whose kit runs a check")


def proved_starts(repository):
    """The proved program runs exactly where it is that of the sources and the kit."""
    proves(repository, "a proof")
    same("what a proof reads", (repository.state / "seen").read_text().split(), READ)
    answers(repository, "a start of what is proved")
    same("a start with no kit", repository.run("compactd", has_kit=False), (0, "a line\nran \n", ""))
    same("a proof of what is proved", (repository.run("prove"), repository.calls()), ((*PROVED, ""), []))
    repository.write("crates/low/proofs/Lib.antt", "changed")
    compiles(repository, "a start after a change of a proof")
    repository.write("crates/low/proofs/Lib.antt", FILES["crates/low/proofs/Lib.antt"])
    answers(repository, "a start with the sources as they were")
    repository.write("HANDLES", "Handles allowed: Wait.\n")
    compiles(repository, "a start after a change of what is allowed")
    proves(repository, "a proof after a change")
    repository.take_kit("kit two")
    compiles(repository, "a start of what another kit proved")


def files_as_listed(repository):
    """While all files are as they were listed, a start reads no more of them. A change shows that keeps a file's size and times."""
    compiles(repository, "the first start")
    answers_at_once(repository, "a start of files at rest", [UNPROVED])
    file = "crates/low/src/lib.rt"
    repository.write(file, "wol")
    compiles(repository, "a start after a change that keeps size and time")
    answers_at_once(repository, "a start after that", [UNPROVED])
    repository.write("other", FILES[file])
    os.replace(repository.top / "other", repository.top / file)
    compiles(repository, "a start after another file took the place of one")
    answers_at_once(repository, "a start after that", [UNPROVED])
    repository.write("crates/low/src/more.rt", "more")
    compiles(repository, "a start with one more source")
    answers_at_once(repository, "a start after that", [UNPROVED])
    (repository.top / "crates/low/src/more.rt").unlink()
    compiles(repository, "a start with one source less")
    answers_at_once(repository, "a start after that", [UNPROVED])
    repository.take_kit("kit two")
    compiles(repository, "a start with another kit")
    answers_at_once(repository, "a start after that", [UNPROVED])
    build = repository.top / OUT / "unproved/compactd"
    build.write_text(build.read_text().replace("ran", "was"))
    os.utime(build, (1, 1))
    compiles(repository, "a start after a change of the build")


def damaged_listings(repository):
    """A listing that isn't whole, and one of files that have just changed, is no reason to run a build."""
    compiles(repository, "the first start")
    answers(repository, "a start at once after it", tells=[UNPROVED])
    build, listing = (repository.top / OUT / "unproved" / name for name in ("compactd", "compactd.seen"))
    is_at_rest = time.time() > build.stat().st_ctime + program.SECONDS_AT_REST
    same("a listing of files that have just changed", listing.exists() and not is_at_rest, False)
    answers_at_once(repository, "a start of files at rest", [UNPROVED])
    whole = listing.read_bytes()
    for text in (b"", whole[:-1], whole[: len(whole) // 2], b"\0" * 100, whole + b"\n"):
        listing.write_bytes(text)
        same("a start by a listing that isn't whole", repository.run("compactd", has_python=False)[0], 127)
        listing.write_bytes(text)
        answers_at_once(repository, "a start after one with such a listing", [UNPROVED])
        same("the listing made anew", listing.read_bytes() == whole, True)


def proved_after_listing(repository):
    """What was just proved runs, also where a listing says that the unproved build is fresh. What is stale doesn't run."""
    compiles(repository, "the first start")
    answers_at_once(repository, "a start of files at rest", [UNPROVED])
    proves(repository, "a proof")
    answers(repository, "a start of what was just proved")
    answers_at_once(repository, "a start of what is proved")
    repository.write("crates/low/proofs/Lib.antt", "PROOFS")
    compiles(repository, "a start after a change of a proof")
    answers_at_once(repository, "a start after that", [UNPROVED])


def kit_with_no_file(repository):
    """Where the kit has no file with its version, `rt version` tells it."""
    repository.take_kit("kit one", has_file=False)
    compiles(repository, "the first start with that kit")
    time.sleep(AT_REST)
    answers(repository, "the second start with that kit", tells=[UNPROVED])
    answers(repository, "the third start with that kit", tells=[UNPROVED])
    repository.take_kit("kit two", has_file=False)
    compiles(repository, "a start with another such kit")


def gate_leaves(repository):
    """What the gate built is proved of the sources that it began with, and of no others."""
    path = f"{repository.state / 'bin'}:{os.environ['PATH']}"
    environment = {**os.environ, "PATH": path, "KIT_STATE": str(repository.state)}
    note = [sys.executable, "-B", repository.top / "launch/program.py"]
    sources = subprocess.check_output(note, text=True, env=environment).strip()
    (repository.top / OUT).mkdir()
    shutil.copy(repository.state / "program", repository.top / OUT)
    (repository.top / OUT / "program").rename(repository.top / OUT / "compactd")
    compiles(repository, "a start of what nobody says is proved")
    subprocess.check_call([*note, "proved", sources], env=environment)
    answers(repository, "a start of what the gate proved")
    repository.write("crates/low/src/lib.rt", "changed")
    compiles(repository, "a start after a change of what the gate proved")


CASES = (
    lacks_a_kit,
    unproved_starts,
    two_starts,
    failing_builds,
    interrupted,
    hidden_build,
    ends_what_checks,
    proved_starts,
    files_as_listed,
    damaged_listings,
    proved_after_listing,
    kit_with_no_file,
    gate_leaves,
    asked_otherwise,
)


def try_case(case):
    with tempfile.TemporaryDirectory(prefix="compactd-starts-") as folder:
        case(Repository(pathlib.Path(folder)))


def main():
    with concurrent.futures.ThreadPoolExecutor(len(CASES)) as pool:
        list(pool.map(try_case, CASES))
    return f"{len(CASES)} cases of starts and proofs: a build is used exactly where it is fresh, and is never half made"


if __name__ == "__main__":
    runs.start(main)
