"""docs/WRONG_BODIES.md names every must-fail edit that stands, and each edit and test that it names is there.

    python3 checks/wrong_bodies.py list

prints the second part of that document, from the edits."""

import collections
import re
import sys

import runs

DOCUMENT = "docs/WRONG_BODIES.md"
SECOND_PART = "\n## Every edit"
HEAD = "\n### {}\n\n| Function | Wrong bodies |\n|---|---|"

FUNCTION = re.compile(r" *(?:pub(?:\(crate\))? )?fn ([a-z_0-9]+)")
CONSTANT = re.compile(r" *(?:pub(?:\(crate\))? )?const ([A-Z_]+)")

Edit = collections.namedtuple("Edit", "file line item name")


def edits():
    """The paths of the edits that stand, by crate."""
    found = collections.defaultdict(list)
    for path in sorted(runs.ROOT.glob("crates/*/must-fail/*.edit")):
        found[path.parent.parent.name].append(path)
    return found


# The list.


def read_edit(path):
    """An edit: the file and the line that it changes last, the item there, and its name."""
    changes = [line.partition(": ") for line in path.read_text().splitlines()]
    last = {word: rest for word, _, rest in changes if word in ("file", "old")}
    lines = (path.parent.parent / last["file"]).read_text().splitlines()
    at = next((at for at, line in enumerate(lines) if line == last["old"]), None)
    if at is None:
        at = next((at for at, line in enumerate(lines) if last["old"] in line), None)
    if at is None:
        raise runs.Failed(f"{path} changes a line that isn't there: {last['old']}")
    return Edit(last["file"], at, item_in(lines[: at + 1]), path.stem)


def item_in(lines):
    """The function, with its type, or the constant, in which the last of these lines of a file stands."""
    item = type_name = ""
    header = None  # of an `impl`, up to its brace
    for line in lines:
        if line.startswith("}"):
            type_name = ""
        if line.startswith("impl"):
            header = ""
        if header is not None:
            header += " " + line
        if header is not None and "{" in line:
            type_name, header = type_of(header) + "::", None
        if function := FUNCTION.match(line):
            item = type_name + function[1]
        if constant := CONSTANT.match(line):
            item = constant[1]
    return item


def type_of(header):
    """The last word of an `impl` before its brace, without type parameters."""
    shorter = re.sub(r"<[^<>]*>", "", header)
    return shorter.split("{")[0].split()[-1] if shorter == header else type_of(shorter)


def list_text():
    """A table for each crate that has edits."""
    return "\n".join(table(crate, paths) for crate, paths in edits().items())


def table(crate, paths):
    """The functions of a crate, in the order of its sources, and the edits of each."""
    rows = collections.defaultdict(list)
    for edit in sorted(map(read_edit, paths)):
        rows[edit.file, edit.item].append(f"`{edit.name}`")
    return "\n".join([HEAD.format(crate), *(f"| `{item}` | {', '.join(names)} |" for (_, item), names in rows.items())])


# The check.


def named_in_second_part(text):
    """The edits that the second part names, each as CRATE/NAME, as often as it does."""
    named, crate = collections.Counter(), None
    for line in text.splitlines():
        if line.startswith("### "):
            crate = line.split()[1]
        if row := re.match(r"\| `[^`]*` \| ", line):
            named.update(f"{crate}/{name}" for name in re.findall(r"`([^`]*)`", line[row.end() :]))
    return named


def missing_in_first_part(text, standing):
    """The edits and tests that the first part names and that aren't there."""
    for name in sorted(set(re.findall(r"`([a-z_0-9]*(?:/|::)[a-z_0-9-]*)`", text))):
        if "/" in name and name not in standing or "::" in name and not is_test(*name.split("::")):
            yield name


def is_test(crate, name):
    """Whether a crate has a test of this name."""
    source = runs.ROOT / "crates" / crate / "src"
    files = [*source.glob("**/tests.rt"), *source.glob("**/tests/**/*.rt")]
    return any(f"fn {name}(" in file.read_text() for file in files)


def main():
    first, _, second = (runs.ROOT / DOCUMENT).read_text().partition(SECOND_PART)
    standing = collections.Counter(f"{crate}/{path.stem}" for crate, paths in edits().items() for path in paths)
    if missing := [*missing_in_first_part(first, standing)]:
        raise runs.Failed(f"{DOCUMENT} names what isn't there: {', '.join(missing)}")
    named = named_in_second_part(second)
    if named != standing:
        gone, new = sorted((named - standing).elements()), sorted((standing - named).elements())
        wrong = f"it names {gone}, which don't stand or stand twice, and leaves out {new}"
        raise runs.Failed(f"the second part of {DOCUMENT} isn't what `checks/wrong_bodies.py list` prints: {wrong}")
    return f"{sum(standing.values())} must-fail edits have their rows in {DOCUMENT}"


if __name__ == "__main__":
    is_list = sys.argv[1:] == ["list"]
    if is_list:
        sys.argv.pop()
    runs.start(list_text if is_list else main)
