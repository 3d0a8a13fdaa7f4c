"""Lines of the crates, by what they are, as docs/PROOF.md has them.

    python3 bench/source_lines.py

Blank lines don't count. A line of a source is a comment where it begins with two slashes. It is one of contract where it begins with
`requires`, `ensures`, `ghost` or a note on tactics, or lies within the braces of such a clause; else it is code. Functions are heads `fn`
with a name. Definitions are the lines of `specs/`, and proofs those of `proofs/`."""

import collections
import pathlib
import re

ROOT = pathlib.Path(__file__).resolve().parent.parent
GROUPS = {
    "`keeper_core`, `keeper_thread`, `worker_threads`, `compactd_c`": ("keeper_core", "keeper_thread", "worker_threads", "compactd_c"),
    "tests": ("memory_tests", "zone_tests", "hand_tests", "keeper_tests", "worker_tests", "round_tests", "script_tests"),
    "examples, pictures, measurements": ("first_pool", "vm_pool", "buffer_pool", "slot_cache", "zone_picture", "benches"),
}
PROGRAM = "the program and its libraries"
KINDS = ("crates", "functions", "code", "contracts", "comments", "definitions", "proofs")
CLAUSE = re.compile(r"(requires|ensures|ghost|#!?\[tactic)")
FUNCTION = re.compile(r"\bfn [a-z_0-9]+")


def filled_lines(folder, pattern):
    """The lines that aren't blank, of all files of a folder that fit a pattern."""
    for file in folder.rglob(pattern):
        yield from (line for line in map(str.strip, file.read_text().splitlines()) if line)


def count_source(folder):
    """The functions of a crate's sources, and their lines by kind."""
    counts, depth = collections.Counter(), 0
    for line in filled_lines(folder, "*.rt"):
        if depth > 0 or CLAUSE.match(line):
            counts["contracts"] += 1
            depth = max(0, depth + line.count("{") - line.count("}"))
        elif line.startswith("//"):
            counts["comments"] += 1
        else:
            counts["code"] += 1
            counts["functions"] += len(FUNCTION.findall(line))
    return counts


def count_crate(folder):
    counts = count_source(folder / "src")
    counts["crates"] = 1
    counts["definitions"] = sum(1 for _ in filled_lines(folder / "specs", "*.antt"))
    counts["proofs"] = sum(1 for _ in filled_lines(folder / "proofs", "*.antt"))
    return counts


def group_of(name):
    return next((group for group, names in GROUPS.items() if name in names), PROGRAM)


def main():
    found = {group: collections.Counter() for group in (PROGRAM, *GROUPS, "together")}
    for folder in sorted((ROOT / "crates").iterdir()):
        if (folder / "src").is_dir():
            counts = count_crate(folder)
            found[group_of(folder.name)] += counts
            found["together"] += counts
    for group, counts in found.items():
        print(f"| {group} | " + " | ".join(f"{counts[kind]:,}" for kind in KINDS) + " |")


if __name__ == "__main__":
    main()
