"""A script that is cut off is seen.

Each worked example of docs/SCRIPT.md is cut after each of its bytes. The program has to answer the whole lines that are
left as the manual says. It has to end with fault 41 at the next line where bytes of that line are left, or at the line
of a block that isn't ended, and else with status 0. Over an unproved build a twentieth of these cuts is tried."""

import manual
import runs

LEAST = 5


def cut(script, replies, size):
    """What the first bytes of a script have to come to. A block has all its replies at its end."""
    *lines, cut_line = script[:size].split(b"\n")
    answered = clients = block = 0
    for number, line in enumerate(lines, 1):
        word = line.strip(b" ").split(b" ")[0]
        if word == b"" or word.startswith(b"#"):
            continue
        if word == b"during":
            block, clients = number, 0
        elif word == b"end":
            answered, block = answered + clients + 1, 0
        elif block:
            clients += 1
        else:
            answered += 1
    fault = len(lines) + 1 if cut_line else block
    error = b"compactd: fault 41 at line %d\n" % fault if fault else b""
    return runs.Ran(int(fault > 0), b"".join(replies.splitlines(True)[:answered]), error)


def difference(cut_example):
    """What is wrong with the run of an example that is cut to a size, if anything is."""
    example, size = cut_example
    found = runs.run(example.script[:size], example.options)
    wanted = cut(example.script, example.replies, size)
    if found != wanted:
        return f"of the script {example.script[:size]}\nthe program makes {found}\nand not {wanted}"
    return None


def main():
    worked = manual.examples((runs.ROOT / "docs/SCRIPT.md").read_text().split("\n## Worked examples\n")[1])
    if len(worked) < LEAST:
        raise runs.Failed(f"docs/SCRIPT.md has {len(worked)} worked examples")
    cuts = [(example, size) for example in worked for size in range(len(example.script) + 1)]
    tried = runs.some_of(cuts)
    for wrong in runs.each(difference, tried):
        if wrong:
            raise runs.Failed(wrong)
    return f"{len(worked)} worked examples, cut after {len(tried)} of their {len(cuts)} bytes, are answered to the last whole line"


if __name__ == "__main__":
    runs.start(main)
