"""The tables of a pool of 8 pageblocks or more take at most 49 bytes for each frame, where it has as many addresses as frames.

Pools of 8, 512 and 2,048 pageblocks are opened by the library for C, with pages of 64 bytes and no journal. What each opening asks memory
for is counted, without the words of the pages."""

import pathlib
import tempfile

import c_programs
import machine
import runs

SOURCE = runs.ROOT / "c/tests/table_bytes.c"
COUNTED = "-Wl,--wrap=malloc,--wrap=realloc"
BLOCKS = (8, 512, 2_048)
MOST = 49


def bytes_a_frame(program, blocks):
    """How many bytes the tables of a pool of so many pageblocks take for each frame."""
    return int(c_programs.done([program, blocks], f"{blocks} pageblocks").output) / (machine.FRAMES_OF_A_PAGEBLOCK * blocks)


def main():
    with tempfile.TemporaryDirectory() as room:
        program = c_programs.built(SOURCE, pathlib.Path(room, SOURCE.stem), [COUNTED])
        found = {blocks: bytes_a_frame(program, blocks) for blocks in BLOCKS}
    told = "bytes of tables a frame: " + ", ".join(f"{each:.1f} with {blocks:,} pageblocks" for blocks, each in found.items())
    if max(found.values()) > MOST:
        raise runs.Failed(f"{told}: more than {MOST}")
    return told


if __name__ == "__main__":
    c_programs.start(main, "gcc")
