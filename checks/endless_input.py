"""A reader that gives one newline for ever ends with fault 46 at line 10000001.

That takes ten million reads, for which a test has no time. So the program that was built runs over a C library whose
`read` gives a newline."""

import tempfile

import runs

WANTED = runs.Ran(1, b"", b"compactd: fault 46 at line 10000001\n")


def main():
    runs.need_proof("the speed of a proved program")
    with tempfile.TemporaryDirectory() as folder:
        found = runs.run(b"", LD_PRELOAD=runs.preload("newlines", folder))
    if found != WANTED:
        raise runs.Failed(f"newlines for ever: status {found.status}, {found.output[:200]}, {found.error[:200]}")
    return "newlines for ever end with fault 46 at line 10000001"


if __name__ == "__main__":
    runs.start(main)
