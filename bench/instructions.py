"""How many instructions the program takes for a line, by kind of line: those of a script with many lines of the kind,
less those of the script without them, divided by the lines. Counted by callgrind (Debian's package valgrind), so the
same on each run. Ends with status 1 where a kind takes more than is aimed at.

    python3 bench/instructions.py [--program PATH] [--baseline PATH]"""

import sys

import measure


def maps(count):
    """As many pages, in space 0, in the lowest frames."""
    return [f"map 0 0 {page}" for page in range(count)]


def by_turns(count, *lines):
    return list(lines) * count


ONE_PAGE = ["zone 0 1", "map 0 0 0"]
MANY_PAGES = ["zone 0 8", *maps(1024)]
MOVE = ["scan 0", "take 0 1", "copy 0 1", "finish 0 1"]

# What comes before, the lines of the kind, and the aim, if there is one. For counts, series, moves by hand and blocks it is what a plain
# Rust program takes that does the same.
KINDS = {
    "look": (ONE_PAGE, by_turns(2000, "look 0 0 0"), 559),
    "look and info": (ONE_PAGE, by_turns(1000, "look 0 0 0", "info 0"), 526),
    "load and store": (ONE_PAGE, by_turns(1000, "store 0 0 0 1 8", "load 0 0 0 1"), 787),
    "refused map": (ONE_PAGE, by_turns(2000, "map 0 0 0"), 530),
    "comment of 32 bytes": (["zone 0 1"], by_turns(2000, "# " + "x" * 30), 189),
    "map": (["zone 0 8"], maps(2000), None),
    "fill and thin of 8 pages": (["zone 0 1"], by_turns(500, "fill 0 0 0 8", "thin 0 0 0 8 1"), 1711),
    "scan, take, copy and finish": (MANY_PAGES, by_turns(1024, *MOVE), 577),
    "share and unmap": (MANY_PAGES, by_turns(1000, "share 0 0 5 1 5", "unmap 0 1 5"), 750),
    "pin and unpin": (MANY_PAGES, by_turns(1000, "pin 0 0 5", "unpin 0 0 5"), 750),
    "huge and give": (MANY_PAGES, by_turns(1000, "huge 0", "give 0 2"), 448),
    "unmap and map of the lowest page": (["zone 0 8", *maps(4090)], by_turns(1000, "unmap 0 0 0", "map 0 0 0"), 800),
}


def of_a_line(program, before, lines):
    """The instructions that a program takes for one of these lines."""
    whole, _ = measure.instructions([program], measure.text_of(before + lines))
    without, _ = measure.instructions([program], measure.text_of(before))
    return (whole - without) / len(lines)


def main():
    programs = measure.sides(measure.arguments(__doc__).parse_args())
    missed = False
    for kind, (before, lines, aim) in KINDS.items():
        found = [of_a_line(program, before, lines) for program in programs]
        missed |= aim is not None and found[0] > aim
        aimed = f", at most {aim} aimed at" if aim else ""
        print(f"{kind:34} {found[0]:7.0f} a line{aimed}{measure.ratio(found)}")
    return 1 if missed else 0


if __name__ == "__main__":
    sys.exit(main())
