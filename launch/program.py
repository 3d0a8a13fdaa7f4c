"""Where the program lies, the crates that it stands on, and what a build was made from: what `compactd`, `prove` and
`.ci/run` share.

A build is fresh while the kit, the sources and the build itself are as its note says. Times of files don't matter.
`./compactd` needs no digest while files are as they were listed when the build was last found fresh.
As a command this prints the digest of the sources. With the word `proved` and such a digest it notes that the program
which the gate built was made from those sources.
"""

import contextlib
import hashlib
import os
import pathlib
import shutil
import signal
import subprocess
import sys
import time

ROOT = pathlib.Path(__file__).resolve().parent.parent
# Where `rt ci` leaves the program, from the top of a repository.
PATH = "crates/compactd/out/compactd"
PROVED = ROOT / PATH
OUT = PROVED.parent
UNPROVED = OUT / "unproved/compactd"
# The status of what can't build the program.
CANNOT_BUILD = 70
# Files that changed within so many seconds aren't listed: they may change again at what the system's clock takes for the same time.
SECONDS_AT_REST = 2


def say(text):
    print(text, file=sys.stderr, flush=True)


def stop(why, status=CANNOT_BUILD):
    say(why)
    sys.exit(status)


def end_on_signals():
    """Has signals end this process by sys.exit, so that what it began is ended too. What it was started to ignore it
    still ignores."""
    for number in (signal.SIGINT, signal.SIGTERM, signal.SIGHUP):
        if signal.getsignal(number) != signal.SIG_IGN:
            signal.signal(number, lambda number, _: sys.exit(128 + number))


def lines_of_crates(root):
    """The lines of crates.txt, each under the name of its crate."""
    lines = [line.partition("#")[0].strip() for line in (root / "crates.txt").read_text().splitlines()]
    return {line.partition(":")[0].split()[0]: line for line in lines if line}


def libraries_used(root):
    """Under each crate's name the libraries that it uses."""
    return {crate: line.partition(":")[2].split() for crate, line in lines_of_crates(root).items()}


def crates_below(root, top="compactd"):
    """The lines of crates.txt for a crate, that of the program, and those of the repository that it stands on."""
    lines, used = lines_of_crates(root), libraries_used(root)
    found = [top]
    for crate in found:
        found += [it for it in used[crate] if it in lines and it not in found]
    return {crate: lines[crate] for crate in sorted(found)}


def digest_of(root, top="compactd"):
    """A digest of all but the kit that a proof of a crate reads: what is allowed, the crates, and their files."""
    crates = crates_below(root, top)
    folders = [root / "crates" / crate / part for crate in crates for part in ("src", "specs", "proofs")]
    files = [root / "HANDLES", *(file for folder in folders for file in sorted(folder.rglob("*")))]
    digest = hashlib.sha256(repr(crates).encode())
    for file in filter(pathlib.Path.is_file, files):
        digest.update(repr((str(file.relative_to(root)), file.read_bytes())).encode())
    return digest.hexdigest()


def kit_version():
    """The version of the Rattle kit whose `rt` is on PATH, or None where there is none. `rt version` prints the kit's file KIT-ID."""
    rt = shutil.which("rt")
    if not rt:
        return None
    try:
        return (pathlib.Path(rt).resolve().parent.parent / "KIT-ID").read_text().strip() or None
    except OSError:
        said = subprocess.run(["rt", "version"], stdin=subprocess.DEVNULL, stdout=subprocess.PIPE, text=True)
        return said.stdout.strip() or None


def note_of(build):
    """The file beside a build that says what it was made from."""
    return build.with_name(f"{build.name}.made_from")


def listing_of(build):
    """The file beside a build with the listing of the files as they were when it was last found fresh."""
    return build.with_name(f"{build.name}.seen")


def keep(build, kit, sources):
    """Notes what a build was made from, and a digest of the build, so that another file in its place is noticed."""
    note_of(build).write_text(f"{kit}\n{sources}\n{hashlib.sha256(build.read_bytes()).hexdigest()}\n")


@contextlib.contextmanager
def in_one_step(place):
    """A path beside a place, for what then takes the place in one step. Where that fails, nothing is left beside it."""
    place.parent.mkdir(parents=True, exist_ok=True)
    beside = place.with_name(f"{place.name}.{os.getpid()}")
    try:
        yield beside
        os.replace(beside, place)
    finally:
        beside.unlink(missing_ok=True)


def put(file, place, mode=0o644):
    """Copies a file to a place, in one step."""
    with in_one_step(place) as beside:
        shutil.copy(file, beside)
        beside.chmod(mode)


def write(text, place):
    """Writes a text to a place, in one step."""
    with in_one_step(place) as beside:
        beside.write_text(text)
        beside.chmod(0o644)


def install(file, build, kit, sources, mode=0o755):
    """Puts a file in the place of a build, and notes what it was made from."""
    put(file, build, mode)
    keep(build, kit, sources)


def is_fresh(build, kit, sources):
    """Whether a build is there that this kit made, or any where there is none, from these sources."""
    try:
        noted = note_of(build).read_text().splitlines()
        return noted == [kit or noted[0], sources, hashlib.sha256(build.read_bytes()).hexdigest()]
    except (OSError, IndexError):
        return False


def listing_now():
    """The listing of the files that builds are made from, and of the builds."""
    return subprocess.run(["sh", ROOT / "launch/files.sh"], stdin=subprocess.DEVNULL, stdout=subprocess.PIPE).stdout


def keep_listing(build, listing):
    """Leaves beside a fresh build the listing of the files, made before it was found fresh, unless one of them has just changed."""
    changed = [float(line.split()[-1]) for line in listing.splitlines()]
    for it in (PROVED, UNPROVED):
        with contextlib.suppress(OSError):
            listing_of(it).unlink()
    if changed and max(changed) + SECONDS_AT_REST < time.time():
        with contextlib.suppress(OSError):
            listing_of(build).write_bytes(listing)


if __name__ == "__main__":
    if sys.argv[1:2] == ["proved"]:
        keep(PROVED, kit_version(), sys.argv[2])
    else:
        print(digest_of(ROOT))
