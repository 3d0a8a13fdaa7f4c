"""Each of 10,000 random lines is answered, or ends the run with fault 41 or 42 at its number.

Some are random bytes, others words of the language in any order with numbers at the ends of ranges, commands with a
byte changed, and lines about as long as one may be. Each is tried in a run of its own, after a few lines that are right
and before one more. What is written has to be what checks/machine.py says. The lines are drawn from a fixed seed."""

import collections
import random

import machine
import runs

LINES = 10_000
SEED = 20_261_123
draw = random.Random(SEED)

FORMS = [machine.OPENING, *machine.CALLS, *machine.CALLS_OF_PROFILE_2, "compact Z", "profile 2", "during Z", "end"]
WORDS_OF_FORMS = {word for form in FORMS for word in form.split() if not word.isupper()}
WORDS = sorted(WORDS_OF_FORMS | {"#", "#info", "-1", "+1", "0x1", "1.", "Info"})
EDGES = [0, 1, 2, 3, 4, 7, 8, 9, 255, 256, 511, 512, 513, 4095, 4096, 4097]
EDGES += [2**32 - 1, 2**32, 2**63, 2**64 - 1, 2**64, 2**64 + 1, 10**20 - 1]
# What stands before a line, and what may stand after it.
AROUND = [
    (b"", b"info 0\n"),
    (b"# nothing is open yet\n\n", b"info 0\n"),
    (b"zone 0 1\nmap 0 0 0\n", b"info 0\n"),
    (b"profile 2\nzone 0 2\nmap 0 0 0\nmapat 0 0 1 512\nscan 0\n", b"info 0\n"),
    (b"during 1\nload 1 0 0 0\n", b"end\n"),
    (b"zone 0 1\nmap 0 0 0\nduring 0\n# of a client\nstore 0 0 0 3 7\n", b"end\nload 0 0 0 3\n"),
]


def number():
    text = str(draw.choice([draw.choice(EDGES), draw.randrange(10)]))
    return draw.choice([text, text, text, text.zfill(draw.choice([2, 19, 20, 21])), text + "0" * draw.choice([0, 20])])


def in_range(name):
    least, largest = machine.RANGES[name]
    return str(draw.choice([least, largest, min(largest, draw.randrange(10))]))


def argument(name):
    return draw.choice([in_range(name), in_range(name), number()])


def bytes_of_any_kind():
    size = draw.choice([0, 1, 2, 5, 20, 60, 250])
    return bytes(draw.randrange(256) for _ in range(size)).replace(b"\n", b"")


def words_in_any_order():
    return " ".join(draw.choice([draw.choice(WORDS), number()]) for _ in range(draw.randrange(8))).encode()


def command():
    named = [argument(word) if word.isupper() else word for word in draw.choice(FORMS).split()]
    spaces = draw.choice([" ", " ", "  ", " " * 9])
    return (draw.choice(["", " "]) + spaces.join(named) + draw.choice(["", " "])).encode()


def command_with_a_changed_byte():
    line = bytearray(command())
    at = draw.randrange(len(line))
    line[at : at + draw.randrange(2)] = draw.choice([b"\0", b"\r", b"\t", b" ", b"#", b"\xc3\xa9", b"\xff", b"7", b""])
    return bytes(line)


def line_as_long_as_one_may_be():
    size = draw.choice([199, 200, 201, 202, 4095, 4096, 4097])
    commands = command().ljust(size), command().rjust(size)
    return draw.choice([*commands, b"#".ljust(size, b"x"), b" " * size, command().ljust(size, b"\0")])


KINDS = [bytes_of_any_kind, words_in_any_order, command, command_with_a_changed_byte, line_as_long_as_one_may_be]


def script():
    before, after = draw.choice(AROUND)
    return before + draw.choice(KINDS)() + draw.choice([b"\n" + after] * 3 + [b"\n", b""])


def told_script():
    """A script, and what a run of it has to come to: not one of which the threads decide whether a line is refused."""
    while True:
        text = script()
        try:
            replies, fault = machine.run(text)
            return text, runs.Ran(int(fault != ""), replies, fault)
        except machine.Untold:
            pass


def is_right(found, wanted):
    is_same_end = (found.status, found.error) == (wanted.status, wanted.error)
    return is_same_end and machine.fits(found.output, wanted.output)


def main():
    lines = len(runs.some_of(range(LINES)))
    scripts = [told_script() for _ in range(lines)]
    ends = collections.Counter()
    for (text, wanted), found in zip(scripts, runs.each(runs.written_for, [text for text, _ in scripts])):
        if not is_right(found, wanted):
            raise runs.Failed(f"of the script {text}\nthe program makes {found}\nand not {wanted}")
        ends[wanted.error.split(" at ")[0][len("compactd: ") :]] += 1
    if min(ends["fault 41"], ends["fault 42"], ends[""]) < lines // 100:
        raise runs.Failed(f"too few lines of a kind: {ends}")
    told = f"{ends['']} are read, {ends['fault 41']} end with fault 41 and {ends['fault 42']} with fault 42"
    return f"{lines} random lines: {told}"


if __name__ == "__main__":
    runs.start(main)
