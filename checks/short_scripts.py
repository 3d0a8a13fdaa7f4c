"""Short scripts are answered as docs/SCRIPT.md says, each of which shows a bug that few other scripts show.

The bugs are those of docs/WRONG_BODIES.md that name this check: each was planted in the program once, and then the
script had other replies."""

import runs

MOST_CLIENT_LINES = 1000  # of a block

SCRIPTS = [
    (
        "a page that was put back is passed over until the next round",
        "zone 0 1|map 0 0 0|scan 0|take 0 1|copy 0 1|pin 0 0 0|finish 0 1|unpin 0 0 0|scan 0",
        "ok|ok|serial=0|serial=0|ok|ok|back serial=0 cause=1|ok|met",
        "",
    ),
    (
        "a fresh page has 0 in its last word, in whatever frame it is",
        "zone 0 1|mapat 0 0 0 1|store 0 0 0 7 9|unmap 0 0 0|mapat 0 0 0 1|load 0 0 0 7",
        "ok|ok|ok|ok|ok|value=0",
        "",
    ),
    (
        "a block has 1,000 client lines",
        "|".join(["during 0", *["load 0 0 0 0"] * MOST_CLIENT_LINES, "end"]),
        "refused 43",
        "",
    ),
    (
        "a block has no 1,001st client line",
        "|".join(["during 0", *["load 0 0 0 0"] * (MOST_CLIENT_LINES + 1), "end"]),
        "",
        f"compactd: fault 41 at line {MOST_CLIENT_LINES + 2}\n",
    ),
]


def lines_of(text):
    return runs.text_of(line for line in text.split("|") if line)


def main():
    for name, script, replies, fault in SCRIPTS:
        found = runs.run(lines_of(script))
        wanted = runs.Ran(int(fault != ""), lines_of(replies), fault.encode())
        if found != wanted:
            raise runs.Failed(f"{name}: the program makes {found}\nand not {wanted}")
    return f"{len(SCRIPTS)} short scripts are answered"


if __name__ == "__main__":
    runs.start(main)
