"""Reservations of the library for C move as few pages as the best of all choices of open runs, in 10,000 small pools.

Each pool has 1 or 2 pageblocks. Pages are mapped at drawn frames, so that some parts are empty and others full. Some pages are unmovable,
pinned, shared or moving; blocks are handed out, and pageblocks marked. Then blocks are reserved once. Which runs are open and what each of
them costs is counted frame by frame, and every choice of so many open runs is tried, whatever it costs. As many pages have to be moved as
the least of these choices costs, and of those that cost so much the lowest has to be picked, its cheapest run first. Where there is no
choice, or too few frames are free, the reservation has to be refused as NO_BLOCK and to change nothing. A page that isn't in a picked run
stays in its frame. Each page is found at its addresses with its flags, its pins and its word, and the blocks can be given back. The
contracts and `checks/machine.py` put the costs in order; this check doesn't."""

import collections
import functools
import itertools
import math
import random

import c_calls
import c_programs
import runs
from c_calls import fresh, u32, u64
from machine import FRAMES_OF_A_PAGEBLOCK

POOLS = 10_000
PAGE_WORDS = 8
PART = 32  # frames that are equally likely to have pages
FILLS = [0, 0.02, 0.05, 0.1, 0.3, 0.7, 1]
SHARES = [0, 0, 0.002, 0.01, 0.05]  # of the pages: so many are unmovable, pinned or shared
ORDERS = [3, 4, 5, 6, 6, 7, 7, 8, 8, 9]
MOST_BLOCKS = 6
MOST_CHOICES = 5_000
IS_MOVING, NO_BLOCK = 4, 11  # refusals
# What is in a frame: nothing, a page that can be moved, one that can't, one that leaves it or comes to it, or a part of a block.
FREE, PAGE, FIXED, MOVING, BLOCK = range(5)
# What comes of a reservation. Each has to come up.
FEW_RUNS, FEW_FRAMES = "refused for want of open runs", "refused for want of free frames"
NO_MOVE, ONE_BEST, MORE_BEST = "done without a move", "done by the one best choice", "done by the lowest of the best choices"
CASES = (FEW_RUNS, FEW_FRAMES, NO_MOVE, ONE_BEST, MORE_BEST)

Told = collections.namedtuple("Told", "frames rest audit info")


@functools.lru_cache(maxsize=None)
def calls():
    """The calls of the library by their names, loaded once."""
    library = c_calls.loaded()
    return {name: getattr(library, f"compactd_{name}") for name in c_calls.ARGUMENTS}


class SmallPool:
    """A random pool of the library, and what is in its frames by what was done to it."""

    def __init__(self, chance):
        self.chance, self.handle, self.calls = chance, c_calls.Handle(), calls()
        self.pageblocks = chance.choice([1, 1, 2])
        self.size = self.pageblocks * FRAMES_OF_A_PAGEBLOCK
        self.frames = [FREE] * self.size
        self.pages, self.words = {}, {}  # by their virtual pages: the frames that they were mapped at, and their words
        self.addresses = []
        self.blocks = 0
        self.done("open_sized", PAGE_WORDS, self.pageblocks, 2, self.size, 0)
        self.map_pages()
        self.take_blocks()
        self.isolate_pages()
        self.marks = {pageblock for pageblock in range(self.pageblocks) if chance.random() < 0.1}
        for pageblock in self.marks:
            self.done("mark", pageblock)

    def call(self, name, *arguments):
        return self.calls[name](self.handle, *arguments)

    def done(self, name, *arguments):
        """Makes a call that isn't refused."""
        if answer := self.call(name, *arguments):
            raise runs.Failed(f"{name}{arguments} is refused {answer}")

    # What is done to it.

    def map_pages(self):
        fills = self.chance.choices(self.chance.choices(FILLS, k=2), k=self.size // PART)
        frames = [frame for frame in range(self.size) if self.chance.random() < fills[frame // PART]]
        self.chance.shuffle(frames)
        shares = self.chance.choices(SHARES, k=3)
        for vpage, frame in zip(self.chance.sample(range(self.size), len(frames)), frames):
            self.map_page(vpage, frame, *(self.chance.random() < share for share in shares))

    def map_page(self, vpage, frame, is_unmovable, is_pinned, is_shared):
        self.pages[vpage], self.words[vpage] = frame, self.chance.getrandbits(64)
        self.done("map_at", 0, 0, vpage, is_unmovable, frame)
        self.done("store", 0, 0, vpage, vpage % PAGE_WORDS, self.words[vpage])
        if is_pinned:
            self.done("pin", 0, 0, vpage)
        if is_shared:
            self.done("share", 0, 0, vpage, 1, vpage)
        self.frames[frame] = FIXED if is_unmovable or is_pinned else PAGE
        self.addresses += [(space, vpage) for space in range(1 + is_shared)]

    def take_blocks(self):
        """Up to two blocks are handed out, where there are any."""
        for order in self.chance.choices(ORDERS, k=self.chance.choice([0, 0, 1, 2])):
            first = fresh(u32)
            if self.call("take_order", order, first) == 0:
                self.hand_out(first.value, order)

    def hand_out(self, first, order):
        self.frames[first : first + 2**order] = [BLOCK] * 2**order
        self.blocks += 1

    def isolate_pages(self):
        """Up to two pages are on their way, where a round has any to move."""
        self.done("begin_round")
        for _ in range(self.chance.choice([0, 0, 0, 1, 2])):
            self.call("isolate", fresh(c_calls.MovingPage), fresh(u64 * PAGE_WORDS), PAGE_WORDS)
        page, move, start = fresh(c_calls.MovingPage), fresh(c_calls.Move), 0
        while self.call("next_moving", start, page, move) == 0:
            self.frames[move.source] = self.frames[move.target] = MOVING
            start = move.source + 1

    # What is known of it.

    def is_marked(self, frame):
        return frame // FRAMES_OF_A_PAGEBLOCK in self.marks

    def spare(self):
        """The free frames in pageblocks that aren't marked."""
        return {frame for frame, it in enumerate(self.frames) if it == FREE and not self.is_marked(frame)}

    def costs(self, order):
        """How many pages each open run has, by its first frame, the lowest run first."""
        return {first: self.run(first, order).count(PAGE) for first in range(0, self.size, 2**order) if self.is_open(first, order)}

    def is_open(self, first, order):
        return not self.is_marked(first) and {FREE, PAGE}.issuperset(self.run(first, order))

    def run(self, first, order):
        return self.frames[first : first + 2**order]

    def known_frames(self):
        """By its addresses: where each page was mapped, or None where it is moving."""
        return {(space, vpage): None if self.is_moving(vpage) else self.pages[vpage] for space, vpage in self.addresses}

    def known_words(self):
        """By its addresses: the word that each page was given, or why a load of it is refused."""
        return {(space, vpage): IS_MOVING if self.is_moving(vpage) else self.words[vpage] for space, vpage in self.addresses}

    def is_moving(self, vpage):
        return self.frames[self.pages[vpage]] == MOVING

    def known_info(self):
        """The counts of `compactd_info`."""
        count = self.frames.count
        whole = sum(set(self.run(first, 9)) == {FREE} for first in range(0, self.size, 2**9))
        return count(FREE), len(self.pages), count(MOVING) // 2, self.blocks, whole, count(BLOCK)

    # What the library tells of it.

    def told(self):
        """By its addresses: the frame of each page, or None while it is moving, and the rest that is told of it; and the counts."""
        frames, rest, info = {}, {}, c_calls.PageInfo()
        for address in self.addresses:
            self.done("look", *address, info)
            frames[address] = None if info.moving else info.frame
            rest[address] = info.serial, info.flags, info.pins, info.maps, info.moving
        return Told(frames, rest, self.counts("audit", c_calls.RoundCounts), self.counts("info", c_calls.Counts))

    def loaded(self):
        """By its addresses: the word of each page, or why a load of it is refused."""
        return {address: self.word(*address) for address in self.addresses}

    def word(self, space, vpage):
        word = u64()
        return self.call("load", 0, space, vpage, vpage % PAGE_WORDS, word) or word.value

    def counts(self, name, kind):
        place = fresh(kind)
        return self.call(name, place), c_calls.values_in(place)


def need(what, found, wanted):
    if found != wanted:
        raise runs.Failed(f"{what}: {str(found)[:200]}, and not {str(wanted)[:200]}")


def need_each(what, found, wanted):
    """The same of what is told by addresses. Some that differ are shown."""
    differing = [address for address in wanted if found[address] != wanted[address]][:3]
    need(what, {address: found[address] for address in differing}, {address: wanted[address] for address in differing})


def reserve_once(number):
    """Makes a random reservation in a random pool. What comes of it, and of how many choices."""
    chance = random.Random(number)
    try:
        pool = SmallPool(chance)
        order = chance.choice(ORDERS)
        costs = pool.costs(order)
        count = drawn_count(chance, len(costs))
        choices = list(itertools.combinations(costs, count))
        case = compared(pool, order, count, costs, choices)
        pool.done("close")
    except runs.Failed as failed:
        raise runs.Failed(f"pool {number}: {failed}") from None
    return case, len(choices)


def drawn_count(chance, open_runs):
    """How many blocks are reserved: so few that all choices can be tried, and now and then more than there are open runs."""
    counts = [count for count in range(1, MOST_BLOCKS + 1) if 0 < math.comb(open_runs, count) <= MOST_CHOICES]
    return chance.choice(counts) if counts and chance.random() < 0.95 else open_runs + 1


def compared(pool, order, count, costs, choices):
    """Makes a reservation and compares what comes of it. Which case it is."""
    before, known, is_refused = pool.told(), pool.known_words(), not choices or len(pool.spare()) < count * 2**order
    need_each("the frames before", before.frames, pool.known_frames())
    need("the counts before", before.info, (0, pool.known_info()))
    moved, firsts = fresh(u32), fresh(u32 * count)
    answer = pool.call("reserve", order, firsts, count, moved)
    after = pool.told()
    need_each("the words", pool.loaded(), known)
    need_each("the rest of the pages", after.rest, before.rest)
    if is_refused:
        need("the answer", answer, NO_BLOCK)
        need_each("the frames after a refusal", after.frames, before.frames)
        need("the counts after a refusal", (after.audit, after.info), (before.audit, before.info))
        return FEW_FRAMES if choices else FEW_RUNS
    sums = [sum(map(costs.get, choice)) for choice in choices]
    least = min(sums)
    need("the answer and the moves", (answer, moved.value), (0, least))
    need("the blocks", set(firsts), set(choices[sums.index(least)]))
    need("blocks out of order", [pair for pair in zip(firsts, firsts[1:]) if not is_before(costs, *pair)], [])
    compare_pages(pool, before, after, {frame for first in firsts for frame in range(first, first + 2**order)})
    give_back(pool, order, firsts, after)
    if least == 0:
        return NO_MOVE
    return ONE_BEST if sums.count(least) == 1 else MORE_BEST


def is_before(costs, first, other):
    """Whether a run is cheaper than another, or as dear and lower."""
    return costs[first] < costs[other] or (costs[first] == costs[other] and first < other)


def compare_pages(pool, before, after, inside):
    """The pages that were inside of the runs went to free frames outside, each to one of its own, and no other went."""
    moves = {(address[1], old, after.frames[address]) for address, old in before.frames.items() if old != after.frames[address]}
    sources, targets = {old for _, old, _ in moves}, {new for _, _, new in moves}
    need("the frames that pages leave", sources, {frame for frame in inside if pool.frames[frame] == PAGE})
    need("the frames that they may not come to", targets - (pool.spare() - inside), set())
    need("the moves and their targets", (len(moves), len(targets)), (len(sources), len(sources)))
    need("the audit", after.audit, audit_after(before.audit, len(moves)))
    for _, old, new in moves:
        pool.frames[old], pool.frames[new] = FREE, PAGE


def give_back(pool, order, firsts, after):
    """The blocks are counted, and can be given back."""
    for first in firsts:
        pool.hand_out(first, order)
    need("the counts after", after.info, (0, pool.known_info()))
    for first in firsts:
        pool.done("give_order", first, order)


def audit_after(before, moves):
    """What an audit tells after so many moves. While a page is moving it is refused."""
    answer, (isolated, moved, back) = before
    return before if answer else (0, (isolated + moves, moved + moves, back))


def main():
    c_programs.folder()  # once, before the processes part
    found, tried = collections.Counter(), 0
    for case, choices in runs.each(reserve_once, range(POOLS), at_once=50):
        found[case] += 1
        tried += choices
    if lacking := [case for case in CASES if not found[case]]:
        raise runs.Failed(f"no reservation was {lacking[0]}")
    return f"{tried} choices of runs were tried for {POOLS} reservations: " + ", ".join(f"{found[case]} {case}" for case in CASES)


if __name__ == "__main__":
    c_programs.start(main)
