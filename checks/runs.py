"""What the checks share: the programs that they run, the C that is preloaded into one, and how a check ends. After it a check can
import what is in `launch/` too.

A check is a file of this folder with a function `main`, which gives the line that says what was shown, and raises
`Failed` where it isn't so, or `LeftOut` where it can't be tried here. `start` runs it."""

import argparse
import collections
import concurrent.futures
import multiprocessing
import os
import pathlib
import shutil
import subprocess
import sys

ROOT = pathlib.Path(__file__).resolve().parent.parent
BUILT = ROOT / "crates/compactd/out/compactd"
FLAGS = ["-shared", "-fPIC", "-fuse-ld=lld", "-nostdlib", "-O1", "-fno-builtin"]
PARTS = ("src", "specs", "proofs")  # of a crate that is proved
sys.path.append(str(ROOT))

LEFT_OUT = 77  # the status of a check that is left out
LEAVES_OUT = "left out: "  # how a line begins that names what is left out

Ran = collections.namedtuple("Ran", "status output error")
chosen = BUILT
is_unproved = False


class Failed(Exception):
    """What a check shows isn't so, or it can't be tried, though it should."""


class LeftOut(Exception):
    """A check can't be tried, since something isn't here that it needs: says what."""


def leave_out(part, why):
    """Names a part of a check that is left out. `checks/all.py` counts these lines."""
    print(f"{LEAVES_OUT}{part}: {why}", flush=True)


def need_proof(what):
    """Leaves the check out where only unproved builds are checked."""
    if is_unproved:
        raise LeftOut(f"it needs {what}, and nothing is proved here")


def some_of(cases):
    """The cases that are tried: all, or each twentieth over an unproved build, which takes several times as long."""
    if not is_unproved:
        return cases
    some = cases[::20]
    leave_out(f"all but {len(some)} of {len(cases)} cases", "an unproved build takes several times as long")
    return some


def start(main):
    """Runs a check by itself. It ends with status 1 where it fails, and with LEFT_OUT where it is left out."""
    global chosen, is_unproved
    sys.stdout.reconfigure(line_buffering=True)
    parser = argparse.ArgumentParser(description=sys.modules["__main__"].__doc__)
    parser.add_argument("--program", default=BUILT, metavar="PATH", help="the program, where not that of the gate")
    parser.add_argument("--unproved", action="store_true", help="leave out what can't be tried without a proof")
    given = parser.parse_args()
    chosen, is_unproved = pathlib.Path(given.program).resolve(), given.unproved
    try:
        print(main())
    except LeftOut as why:
        print(f"{LEAVES_OUT}all of it: {why}")
        sys.exit(LEFT_OUT)
    except Failed as failed:
        sys.exit(str(failed))


def program():
    """The path of the program that is checked."""
    return str(there(chosen, "`./prove` builds it, and so does `bash .ci/run`"))


def built(name):
    """The path of another program that the gate builds, by its crate."""
    need_proof(f"the program {name}")
    return there(ROOT / f"crates/{name}/out/{name}", "`bash .ci/run` builds it")


def there(path, how):
    """The path of a program that is there. Where it isn't, the check fails and says how it is built."""
    if not os.access(path, os.X_OK) or path.is_dir():
        raise Failed(f"there is no program {path}: {how}")
    return path


def text_of(lines):
    """The lines of a script or of replies, as bytes."""
    return "".join(f"{line}\n" for line in lines).encode()


def run(script, options=(), **variables):
    """The status of a run over a script, and what it writes to standard output and to standard error, as bytes.
    Variables of the environment may be set for it."""
    environment = {**os.environ, **{name: str(value) for name, value in variables.items()}}
    return finished([program(), *options], input=script, env=environment)


def finished(command, **given):
    ran = subprocess.run(command, capture_output=True, **given)
    return Ran(ran.returncode, ran.stdout, ran.stderr)


def written_for(script, options=()):
    """The same as text."""
    ran = run(script, options)
    return Ran(ran.status, ran.output.decode(errors="replace"), ran.error.decode(errors="replace"))


def memory_kb(process, name, file="status"):
    """What the system says of a process's memory under this name, in kB. It says nothing of a process that has ended."""
    with open(f"/proc/{process.pid}/{file}") as lines:
        return next((int(line.split()[1]) for line in lines if line.startswith(name)), None)


def preload(name, folder):
    """Builds the library of `checks/preload/NAME.c` in a folder. A run with it in `LD_PRELOAD` has it in front of the C
    library."""
    source, library = ROOT / f"checks/preload/{name}.c", pathlib.Path(folder) / f"{name}.so"
    built = finished([rt().parent.parent / "toolchain/bin/clang", *FLAGS, "-o", library, source])
    if built.status != 0:
        raise Failed(f"{source} isn't compiled: {built.error.decode(errors='replace')}")
    return library


def copy_sources(folder):
    """Copies what is proved into a folder: the list of the crates and their sources, definitions and proofs."""
    for name in ("HANDLES", "crates.txt"):
        shutil.copy2(ROOT / name, folder)
    for part in (path for name in PARTS for path in ROOT.glob(f"crates/*/{name}")):
        shutil.copytree(part, folder / part.relative_to(ROOT))


def rt():
    """The command of the Rattle kit, which is in its folder `bin`."""
    command = shutil.which("rt")
    if command is None:
        raise Failed("the Rattle kit's `rt` isn't to be found")
    return pathlib.Path(command).resolve()


def each(work, many, at_once=10):
    """What comes of each one, worked out on all processors, each of which takes so many at once."""
    with concurrent.futures.ProcessPoolExecutor(None, multiprocessing.get_context("fork")) as pool:
        yield from pool.map(work, many, chunksize=at_once)
