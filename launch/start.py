"""Starts the program where `./compactd` can't tell from a listing of the files that a build is fresh.

Digests of the sources and of the build tell it then, and the listing is made anew. The unproved build is compiled where
it isn't fresh. Where neither build can be had, the status is 70.
"""

import os
import pathlib
import signal
import sys

sys.path[0] = str(pathlib.Path(__file__).resolve().parent.parent)
from launch import program, unproved

NO_KIT = "compactd: the program isn't built, and to build it the Rattle kit's rt has to be on PATH"
KEEPS_NONE = "compactd: running unproved: this kit keeps no build, so each start recompiles, and replies come at the input's end"
RUN_UNPROVED = program.ROOT / "launch/unproved.sh"


def become(*words):
    """Runs another program in the place of this one. Signals are for it as they were before Python began."""
    for number in (signal.SIGPIPE, signal.SIGXFSZ):
        signal.signal(number, signal.SIG_DFL)
    os.execvp(words[0], words)


def start(arguments):
    # The listing comes first, so that what changes while the digests are made differs from it.
    listing = program.listing_now()
    kit, sources = program.kit_version(), program.digest_of(program.ROOT)
    if program.is_fresh(program.PROVED, kit, sources):
        program.keep_listing(program.PROVED, listing)
        become(str(program.PROVED), *arguments)
    program.end_on_signals()
    if program.is_fresh(program.UNPROVED, kit, sources):
        program.keep_listing(program.UNPROVED, listing)
    elif not kit:
        program.stop(NO_KIT)
    if unproved.is_built(kit, sources):
        become("sh", str(RUN_UNPROVED), *arguments)
    program.say(KEEPS_NONE)
    os.chdir(unproved.CRATE)
    become("rt", "try", "--", *arguments)


if __name__ == "__main__":
    start(sys.argv[1:])
