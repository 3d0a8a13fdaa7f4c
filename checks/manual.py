"""What docs/SCRIPT.md shows of scripts is what the program writes.

There a block ```script has what is typed, with the program's options after that word. The block ```replies below it has
all that is on standard output. Where the run ends with a fault, a block ```fault has what is on standard error; the
status is 1 then, and else 0."""

import collections
import re

import runs

LEAST = 5
BLOCK = re.compile(r"^```(script|replies|fault)(.*)\n((?:(?!```).*\n)*)```$", re.M)

Example = collections.namedtuple("Example", "line options script replies fault")


def examples(text):
    """The examples of a document, each with the line where it begins."""
    found = []
    for block in BLOCK.finditer(text):
        kind, options, content = block.groups()
        if kind == "script":
            found.append({"line": text.count("\n", 0, block.start()) + 1, "options": options.split()})
        if not found:
            raise runs.Failed(f"a block of {kind} stands before the first script: {content}")
        found[-1][kind] = content.encode()
    return [Example(**{"replies": None, "fault": b"", **example}) for example in found]


def compare(example, document):
    """Runs an example of a document, and fails where the program writes something else."""
    found = runs.run(example.script, example.options)
    wanted = runs.Ran(int(example.fault != b""), example.replies, example.fault)
    if found != wanted:
        at = f"the example at line {example.line} of {document}"
        raise runs.Failed(f"{at}: the program makes {found}\nand not {wanted}")


def main():
    document = "docs/SCRIPT.md"
    shown = examples((runs.ROOT / document).read_text())
    for example in shown:
        compare(example, document)
    if len(shown) < LEAST:
        raise runs.Failed(f"{document} has {len(shown)} examples")
    return f"{len(shown)} examples of {document} are what the program writes"


if __name__ == "__main__":
    runs.start(main)
