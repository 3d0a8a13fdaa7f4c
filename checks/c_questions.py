"""Questions of the library for C write nothing, and threads may ask them side by side.

Each question is asked while the handle and all memory of its pool are read-only, and answers as before; a store is stopped there. Then
four threads ask under the reading side of a lock, beside one that changes the pool under its writing side, for ten seconds, or as many
as the variable COMPACTD_SECONDS of the environment says. Each answer is plausible, and the pool is intact in the end. This is tested and
not proved: the proof knows one call at a time."""

import os
import pathlib
import tempfile

import c_programs
import runs

TESTS = runs.ROOT / "c/tests"
WITH_MEMORY = "-Wl,--wrap=malloc,--wrap=realloc,--wrap=free"
SECONDS = os.environ.get("COMPACTD_SECONDS", "10")


def said(name, room, options=(), arguments=()):
    """What a test prints, without its newline."""
    program = c_programs.built(TESTS / f"{name}.c", pathlib.Path(room, name), options)
    return c_programs.text(c_programs.done([program, *arguments], name).output).strip()


def main():
    with tempfile.TemporaryDirectory() as room:
        return f"{said('read_only', room, [WITH_MEMORY])}; {said('readers', room, arguments=[SECONDS])}"


if __name__ == "__main__":
    c_programs.start(main, "gcc")
