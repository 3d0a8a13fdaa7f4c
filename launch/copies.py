"""Copies of the sources in which a program makes a smaller run, for `./check`."""

import shutil

from launch import program


def copy_sources(room):
    """Copies the code of all crates into a folder, each to where it lies in the repository."""
    shutil.copy(program.ROOT / "crates.txt", room)
    for crate in program.lines_of_crates(program.ROOT):
        shutil.copytree(program.ROOT / "crates" / crate / "src", room / "crates" / crate / "src")


def make_smaller(room, crate, edit):
    """Copies the sources, and changes a program by an edit, which makes its run smaller. Returns where the program lies."""
    copy_sources(room)
    folder = room / "crates" / crate
    change = dict(line.split(": ", 1) for line in edit.read_text().splitlines())
    file = folder / change["file"]
    text = file.read_text()
    if text.count(change["old"]) != 1:
        program.stop(f"check: {edit} changes a line that isn't there, or is there twice", 1)
    file.write_text(text.replace(change["old"], change["new"]))
    return folder
