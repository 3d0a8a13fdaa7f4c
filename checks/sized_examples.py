"""An example writes what is stored of it where `--frames` asks for a zone of so many frames. On standard error `vm_pool` writes how long
its requests took, a line for each way to get blocks, and `buffer_pool` writes nothing.

Other words are refused: there is one line on standard error, status 2 and nothing on standard output."""

import collections
import re

import runs

Example = collections.namedtuple("Example", "name frames fewest error")

TIMES = r"a request takes \d+\.\d us at the median, \d+\.\d at the 90th percentile, \d+\.\d at the 99th and \d+\.\d at most\n"
TIMES_OF_EACH = "".join(f"{how}: {TIMES}" for how in ("where free", "reserved", "kept ready"))
EXAMPLES = (Example("buffer_pool", "8192", 4096, ""), Example("vm_pool", "16384", 8192, TIMES_OF_EACH))
WRONG = (["--frames", "8191"], ["--frames", "3584"], ["--frames", "16777728"], ["--frames", "many"], ["--frames"], ["8192"], ["--frames", "8192", "8192"])


def compare(example, words, status, output, error):
    """Fails where an example doesn't write and end as it should with these words. What it writes on standard error has to match."""
    found = runs.finished([runs.built(example.name), *words])
    if found[:2] != (status, output) or not re.fullmatch(error, found.error.decode()):
        raise runs.Failed(f"{example.name} {' '.join(words)} makes {found}\nand not status {status}, {output} and {error!r}")


def main():
    for example in EXAMPLES:
        stored = runs.ROOT / f"crates/{example.name}/frames/{example.frames}"
        compare(example, ["--frames", example.frames], 0, stored.read_bytes(), example.error)
        line = f"{example.name}: it has no arguments but --frames N, a multiple of 512 from {example.fewest} to 16777216\n"
        for words in WRONG:
            compare(example, words, 2, b"", re.escape(line))
    zones = ", ".join(f"a zone of {example.frames} frames of {example.name}" for example in EXAMPLES)
    return f"{zones}: as stored, and {len(WRONG)} command lines are refused"


if __name__ == "__main__":
    runs.start(main)
