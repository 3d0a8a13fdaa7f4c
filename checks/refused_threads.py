"""A round for which a thread can't be started is refused 32, and the zone is then as before it.

A script asks for two rounds, and each request for a thread is refused in turn, alone or with all after it, at 1, 2 and
4 copiers. What `info` and `look` tell after a refused round is what they told before it, the other round is made as if
there had been none, with the last places of the journal, and where both are refused a scan by hand takes serial 0.

Another script has a block. Where the thread of its client is refused, the block has the one reply `refused 32`, no call
of the client was made, no pageblock is marked, and all that is asked is answered as before. Where a thread of its round
is refused, the client's calls are answered and done, and the round's reply is `refused 32`.

A third script has a pool of two blocks, which gets one after a first round and none after a second. Where a thread of
either round is refused, it stops with 32, and keeps what it got before."""

import tempfile

import runs

COPIERS = [1, 2, 4]
NONE = 1000  # more requests for threads than two rounds make
ASKING = ["info 0", "look 0 0 0", "look 0 0 1"]
OPENING = ["zone 0 2", "mapat 0 0 0 0", "mapat 0 0 1 512"]
SCRIPT = [*OPENING, *ASKING, "compact 0", *ASKING, "compact 0", *ASKING, "scan 0"]


def asked(whole, *frames):
    """What the questions are answered, with these whole pageblocks and the pages in these frames."""
    looks = [f"frame={frame} dirty=0 unmovable=0 pins=0 maps=1" for frame in frames]
    return [f"free=1022 pages=2 moving=0 huge=0 whole={whole}", *looks]


def moved(count):
    """The reply to a round in which so many pages were moved."""
    return [f"isolated={count} moved={count} back=0 stopped=met"]


BEFORE, AFTER = asked(0, 0, 512), asked(1, 1023, 1022)
REFUSED = ["refused 32"]
WITH_BOTH = [*moved(2), *AFTER, *moved(0), *AFTER, "met"]
WITHOUT_FIRST = [*REFUSED, *BEFORE, *moved(2), *AFTER, "met"]
WITHOUT_SECOND = [*moved(2), *AFTER, *REFUSED, *AFTER, "met"]
WITHOUT_BOTH = [*REFUSED, *BEFORE, *REFUSED, *BEFORE, "serial=0"]


BLOCK = ["during 0", "store 0 0 0 1 5", "load 0 0 0 1", "end"]
AT_LAST = ["load 0 0 0 1", "mark 0 0", "unmark 0 0", "scan 0"]
SCRIPT_WITH_BLOCK = ["profile 2", *OPENING, *BLOCK, *ASKING, *AT_LAST]
CALLS = ["ok", "value=5"]


def after_block(whole, dirty, value, scanned, *frames):
    """What is answered after a block, by whether its page is dirty, its value, and what a scan finds."""
    info, first, second = asked(whole, *frames)
    return [f"{info} held=0", first.replace("dirty=0", f"dirty={dirty}"), second, f"value={value}", "ok", "ok", scanned]


BLOCK_RUN = [*CALLS, *moved(2), *after_block(1, 1, 5, "met", 1023, 1022)]
BLOCK_WITHOUT_CLIENT = [*REFUSED, *after_block(0, 0, 0, "serial=0", 0, 512)]
BLOCK_WITHOUT_ROUND = [*CALLS, *REFUSED, *after_block(0, 1, 5, "serial=0", 0, 512)]

SCRIPT_WITH_POOL = [*OPENING, "pool 0 2", *ASKING, "scan 0"]
POOL_IN_VAIN = ["got=0 rounds=0 stopped=32 blocks=-", *BEFORE, "serial=0"]
HELD = ["free=510 pages=2 moving=0 huge=1 whole=0", *AFTER[1:], "met"]
POOL_RUN = ["got=1 rounds=2 stopped=noblock blocks=0", *HELD]
POOL_WITHOUT_SECOND = ["got=1 rounds=1 stopped=32 blocks=0", *HELD]


def cases():
    """How many copiers and places of the journal there are, the first request for a thread that is refused and the last,
    the script, and its replies."""
    for copiers in COPIERS:
        for first, last, replies in cases_of_rounds(copiers + 1):
            yield copiers, 8, first, last, SCRIPT, ["ok", "ok", "ok", *BEFORE, *replies]
        for first, last, replies in cases_of_a_block(copiers + 2):
            yield copiers, 13, first, last, SCRIPT_WITH_BLOCK, ["ok", "ok", "ok", "ok", *replies]
        for first, last, replies in cases_of_a_pool(copiers + 1):
            yield copiers, 9, first, last, SCRIPT_WITH_POOL, ["ok", "ok", "ok", *replies]


def cases_of_rounds(threads):
    """The first request that is refused and the last, and the replies from the first round on, of which each asks for
    so many threads."""
    yield NONE, NONE, WITH_BOTH
    for request in range(1, threads + 1):
        yield request, request, WITHOUT_FIRST
        yield request, NONE, WITHOUT_BOTH
        yield threads + request, NONE, WITHOUT_SECOND


def cases_of_a_block(threads):
    """The same of a block, which asks for the thread of its client first."""
    yield threads + 1, NONE, BLOCK_RUN
    yield 1, 1, BLOCK_WITHOUT_CLIENT
    yield 1, NONE, BLOCK_WITHOUT_CLIENT
    for request in range(2, threads + 1):
        yield request, request, BLOCK_WITHOUT_ROUND
        yield request, NONE, BLOCK_WITHOUT_ROUND


def cases_of_a_pool(threads):
    """The same of a pool, of whose two rounds each asks for so many threads."""
    yield 2 * threads + 1, NONE, POOL_RUN
    for request in range(1, threads + 1):
        yield request, NONE, POOL_IN_VAIN
        yield threads + request, NONE, POOL_WITHOUT_SECOND


def main():
    tried = 0
    with tempfile.TemporaryDirectory() as folder:
        library = runs.preload("refuse_threads", folder)
        for copiers, places, first, last, script, replies in cases():
            refused = {"FIRST_REFUSED": first, "LAST_REFUSED": last}
            options = ["--journal", str(places), "--copiers", str(copiers)]
            found = runs.run(runs.text_of(script), options, LD_PRELOAD=library, **refused)
            wanted = runs.Ran(0, runs.text_of(replies), b"")
            if found != wanted:
                wrong = f"the program makes {found}\nand not {wanted}"
                raise runs.Failed(f"{copiers} copiers, threads {first} to {last} refused: {wrong}")
            tried += 1
    return (
        f"in {tried} runs, where a thread is refused, of one for each copier, one for the committer and one for a"
        " client, the round or the block is refused 32 and the zone is as before, and a pool keeps what it got"
    )


if __name__ == "__main__":
    runs.start(main)
