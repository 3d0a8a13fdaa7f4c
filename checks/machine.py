"""A machine for scripts of compactd that is small and slow, written after docs/SCRIPT.md: which command a line is, what
the zone does at it, and the reply. The checks compare what the program writes with what this machine writes. Rounds on
threads are made one page after the other here, since no reply tells the order in which copiers carry pages. So is a
round with a client beside it, as long as the client does nothing that the round looks at. Where it maps a page, ends
one, or gives it its first pin or takes its last one off, it is up to the threads which pages the round moves: then a
`?` stands in replies for each number that the manual leaves to them, and what can't be told at all is `Untold`."""

import itertools
import re

LARGEST_NUMBER = 2**64 - 1
LONGEST_LINE = 200
MOST_DIGITS = 20
SPACES = 8
PAGES_OF_A_SPACE = 4096
FRAMES_OF_A_PAGEBLOCK = 512
PAGEBLOCK = 9  # the order of a pageblock
MOST_FRAMES = 2**24
MOST_ADDRESSES = 4
MOST_PINS = 255
MOST_ROUNDS = 4  # of a pool
MOST_CLIENT_LINES = 1000  # of a block
CLAIMED = "claimed"
ANY = "?"  # in a reply: a number that the manual leaves to the threads

# What stands in the place of a number: its least and its largest value.
RANGES = {
    "Z": (0, 3),
    "S": (0, SPACES - 1),
    "V": (0, PAGES_OF_A_SPACE - 1),
    "W": (0, 7),
    "X": (0, LARGEST_NUMBER),
    "F": (0, 4095),
    "BLOCKS": (1, 8),
    "BLOCK": (0, 7),
    "ORDER": (3, 9),
    "HAND": (1, 4),
    "START": (0, LARGEST_NUMBER),
    "N": (0, 4096),
    "STEP": (0, LARGEST_NUMBER),
}


class Fault(Exception):
    """The run ends at a line."""

    def __init__(self, number):
        self.number = number


class Refused(Exception):
    """A command changes nothing, and its reply is this number."""

    def __init__(self, number):
        self.number = number


class Untold(Exception):
    """The threads decide what is answered, and whether it is refused."""


class Page:
    """A page in use. While it is moving it has a serial, and the frame that it is to move to."""

    def __init__(self, frame, address, unmovable):
        self.frame = frame
        self.words = [0] * 8
        self.dirty = 0
        self.unmovable = int(unmovable)
        self.pins = 0
        self.addresses = {address}
        self.serial = None
        self.target = None


def is_unmovable(held):
    return isinstance(held, Page) and held.unmovable


class Frames:
    """The frames of a zone. One is free where it is None, or it has a page, the page that is to come, the block that was
    handed out, or CLAIMED. How many are used, and how many have pages and unmovable ones, is counted by pageblock, so that a search
    passes by those where it finds nothing."""

    def __init__(self, blocks):
        self.held = [None] * (blocks * FRAMES_OF_A_PAGEBLOCK)
        self.used = [0] * blocks
        self.with_pages = [0] * blocks
        self.unmovable = [0] * blocks

    def __getitem__(self, frame):
        return self.held[frame]

    def __setitem__(self, frame, held):
        self.fill(frame, 1, held)

    def fill(self, first, count, held):
        """Puts the same into each frame of a run of one pageblock, where each had the same before."""
        block, before = first // FRAMES_OF_A_PAGEBLOCK, self.held[first]
        self.used[block] += count * ((held is not None) - (before is not None))
        self.with_pages[block] += count * (isinstance(held, Page) - isinstance(before, Page))
        self.unmovable[block] += count * (is_unmovable(held) - is_unmovable(before))
        self.held[first : first + count] = [held] * count

    def free(self, first, count):
        """How many frames of a run of one pageblock are free."""
        used = self.used[first // FRAMES_OF_A_PAGEBLOCK]
        if used in (0, FRAMES_OF_A_PAGEBLOCK):
            return count if used == 0 else 0
        return self.held[first : first + count].count(None)

    def lowest_free(self):
        block = next((block for block, used in enumerate(self.used) if used < FRAMES_OF_A_PAGEBLOCK), None)
        return None if block is None else self.held.index(None, block * FRAMES_OF_A_PAGEBLOCK)

    def frame_apart(self, unmovable):
        """The lowest free frame of a pageblock that is chosen by whether the page is unmovable."""
        with_free = [block for block, used in enumerate(self.used) if used < FRAMES_OF_A_PAGEBLOCK]
        with_unmovable = [block for block in with_free if self.unmovable[block] > 0]
        others = [block for block in with_free if self.unmovable[block] == 0]
        if unmovable:
            chosen = with_unmovable or sorted(with_free, key=lambda block: self.used[block])
        else:
            chosen = [block for block in others if self.used[block] > 0] or others or with_free
        return self.held.index(None, chosen[0] * FRAMES_OF_A_PAGEBLOCK) if chosen else None

    def lowest_free_run(self, count):
        """The first frame of the lowest aligned run of so many frames that are all free, if there is one."""
        blocks = (block for block, used in enumerate(self.used) if used <= FRAMES_OF_A_PAGEBLOCK - count)
        firsts = (first for block in blocks for first in frames_of(block)[::count])
        return next((first for first in firsts if self.free(first, count) == count), None)

    def upwards(self, low, high):
        """The frames from one on and below another, but those of pageblocks that have no pages."""
        blocks = (block for block in pageblocks_of(low, high) if self.with_pages[block] > 0)
        return (frame for block in blocks for frame in frames_of(block, low, high))

    def downwards(self, low, high):
        """The same from the highest down, but those of pageblocks that are all used."""
        blocks = (block for block in reversed(pageblocks_of(low, high)) if self.used[block] < FRAMES_OF_A_PAGEBLOCK)
        return (frame for block in blocks for frame in reversed(frames_of(block, low, high)))


def frames_of(block, low=0, high=MOST_FRAMES):
    """The frames of a pageblock, or those from one on and below another."""
    first = block * FRAMES_OF_A_PAGEBLOCK
    return range(max(first, low), min(first + FRAMES_OF_A_PAGEBLOCK, high))


def pageblocks_of(low, high):
    """The pageblocks of the frames from one on and below another."""
    return range(low // FRAMES_OF_A_PAGEBLOCK, -(-high // FRAMES_OF_A_PAGEBLOCK))


class Zone:
    """A zone, the pages of it that are moving, and four hands. Once the threads decided what a round moved, no frame is
    told but those of pages that no round moves, and there are at least so many places in the journal."""

    def __init__(self, number, blocks, places, spaces=SPACES, pages_of_a_space=PAGES_OF_A_SPACE):
        self.number = number
        self.size = blocks * FRAMES_OF_A_PAGEBLOCK
        self.spaces, self.pages_of_a_space = spaces, pages_of_a_space
        self.frames_if_told = Frames(blocks)
        self.pages = {}  # by address
        self.places = places
        self.moving = {}  # by serial
        self.serials = 0
        self.is_open = False
        self.low, self.high = 0, self.size
        self.waiting = []
        self.pages_in_hand, self.copies_in_hand = {}, {}
        self.handed_out = set()  # the first frame and the order of each block
        self.claimed = set()  # frames
        self.apart = False  # whether unmovable pages are mapped to pageblocks of their own
        self.marks = set()
        self.client = None  # while a client makes calls beside a round

    @property
    def frames(self):
        if self.frames_if_told is None:
            raise Untold
        return self.frames_if_told

    @property
    def is_told(self):
        return self.frames_if_told is not None

    # What each call asks of the zone.

    def need_places(self, count):
        if self.places < count + len(self.moving):
            raise Refused(2) if self.is_told else Untold

    def need_address(self, address):
        """An address that is to name a page has to be one of the zone's. Any other names no page."""
        space, page = address
        if space >= self.spaces or page >= self.pages_of_a_space:
            raise Refused(1)

    def need_page(self, address):
        if address not in self.pages:
            raise Refused(3)
        return self.pages[address]

    def need_still_page(self, address):
        page = self.need_page(address)
        if page.serial is not None:
            raise Refused(4)
        return page

    def need_frames(self, first, count):
        if first % count != 0 or first + count > self.size:
            raise Refused(1)

    def need_pageblock(self, block):
        self.need_frames(block * FRAMES_OF_A_PAGEBLOCK, FRAMES_OF_A_PAGEBLOCK)

    def fresh_frame(self, frame, unmovable):
        """The frame of a fresh page: the one that is asked for, or else the lowest, or one by its pageblock."""
        if not self.is_told or self.moves_beside():
            return self.fresh_frame_beside_moves(frame)
        if frame is None:
            frame = self.frames.frame_apart(unmovable) if self.apart else self.frames.lowest_free()
        if frame is None or self.frames[frame] is not None:
            raise Refused(6)
        return frame

    def fresh_frame_beside_moves(self, frame):
        """Each page may have one frame more, and where it is moving that isn't told."""
        if frame is not None and self.stays_in_use(frame):
            raise Refused(6)
        if frame is not None or self.size <= 2 * self.page_count() + self.held():
            raise Untold
        return ANY

    def stays_in_use(self, frame):
        """Whether a frame is handed out, or has a page that no round moves."""
        in_blocks = any(first <= frame < first + 2**order for first, order in self.handed_out)
        return in_blocks or any(page.frame == frame and page.unmovable for page in self.pages.values())

    def page_count(self):
        return len(set(self.pages.values()))

    def held(self):
        return sum(2**order for _, order in self.handed_out) + len(self.claimed)

    # Pages and addresses.

    def map(self, address, unmovable=False, frame=None):
        self.need_address(address)
        if frame is not None:
            self.need_frames(frame, 1)
        self.need_places(1)
        if address in self.pages:
            raise Refused(5)
        frame = self.fresh_frame(frame, unmovable)
        self.change_beside()
        self.places -= 1
        self.pages[address] = Page(frame, address, unmovable)
        if self.is_told:
            self.frames[frame] = self.pages[address]
        return "ok"

    def share(self, address, alias):
        self.need_address(alias)
        self.need_places(1)
        page = self.need_still_page(address)
        if alias in self.pages:
            raise Refused(5)
        if len(page.addresses) == MOST_ADDRESSES:
            raise Refused(7)
        self.places -= 1
        page.addresses.add(alias)
        self.pages[alias] = page
        return "ok"

    def unmap(self, address):
        self.need_places(1)
        page = self.need_still_page(address)
        if len(page.addresses) == 1 and page.pins > 0:
            raise Refused(10)
        if len(page.addresses) == 1:
            self.change_beside()
        self.places -= 1
        page.addresses.remove(address)
        del self.pages[address]
        if not page.addresses and self.is_told:
            self.frames[page.frame] = None
        return "ok"

    def store(self, address, word, value):
        self.need_places(1)
        page = self.need_still_page(address)
        self.places -= 1
        page.words[word] = value
        page.dirty = 1
        return "ok"

    def load(self, address, word):
        self.need_places(1)
        page = self.need_still_page(address)
        self.places -= 1
        return f"value={page.words[word]}"

    def look(self, address):
        page = self.need_page(address)
        uses = f"pins={page.pins} maps={len(page.addresses)}"
        if page.serial is not None:
            return f"moving serial={page.serial} {uses}"
        return f"frame={page.frame} dirty={page.dirty} unmovable={page.unmovable} {uses}"

    def pin(self, address):
        self.need_places(1)
        page = self.need_page(address)
        if page.pins == MOST_PINS:
            raise Refused(8)
        if page.pins == 0 and not page.unmovable:
            self.change_beside(is_pin=True)
        self.places -= 1
        page.pins += 1
        return "ok"

    def unpin(self, address):
        self.need_places(1)
        page = self.need_page(address)
        if page.pins == 0:
            raise Refused(9)
        if page.pins == 1 and not page.unmovable:
            self.change_beside()
        self.places -= 1
        page.pins -= 1
        return "ok"

    def series(self, call, space, start, count, step):
        for done in range(count):
            page = start + done * step
            try:
                if page >= PAGES_OF_A_SPACE:
                    raise Refused(1)
                call((space, page))
            except Refused as refused:
                return f"done={done} refused={refused.number}"
        return f"done={count}"

    # Moves.

    def is_marked(self, frame):
        return frame // FRAMES_OF_A_PAGEBLOCK in self.marks

    def may_go(self, frame):
        """Whether a frame has a page that may be taken from it, in whatever pageblock."""
        page = self.frames[frame]
        return isinstance(page, Page) and page.frame == frame and page.serial is None and not page.unmovable and not page.pins

    def can_move(self, frame):
        return self.may_go(frame) and not self.is_marked(frame)

    def can_take(self, frame):
        return self.frames[frame] is None and not self.is_marked(frame)

    def next_pair(self):
        source = next(filter(self.can_move, self.frames.upwards(self.low, self.high)), None)
        if source is None:
            return None
        target = next(filter(self.can_take, self.frames.downwards(source, self.high)), None)
        return None if target is None else (source, target)

    def begin_round(self):
        self.low, self.high = 0, self.size

    def take_next(self):
        """The next page that is to move, or None where there is no pair."""
        self.need_places(2)
        pair = self.next_pair()
        if pair is None:
            return None
        source, target = pair
        self.low, self.high = source + 1, target
        return self.isolate(source, target)

    def isolate(self, source, target):
        page = self.frames[source]
        page.serial, page.target = self.serials, target
        self.frames[target] = page
        self.moving[page.serial] = page
        self.serials += 1
        self.places -= 1
        return page

    def end_move(self, page, is_moved):
        self.places -= 1
        old, new = (page.frame, page.target) if is_moved else (page.target, page.frame)
        del self.moving[page.serial]
        self.frames[old] = None
        page.frame, page.serial, page.target = new, None, None

    def scan(self):
        if not self.is_open:
            self.begin_round()
            self.is_open = True
        page = self.take_next()
        if page is None:
            return "met"
        self.waiting.append(page)
        return f"serial={page.serial}"

    def take(self, hand):
        if hand in self.pages_in_hand or hand in self.copies_in_hand or not self.waiting:
            raise Refused(45)
        page = self.pages_in_hand[hand] = self.waiting.pop(0)
        return f"serial={page.serial}"

    def copy(self, hand):
        if hand not in self.pages_in_hand:
            raise Refused(45)
        self.copies_in_hand[hand] = self.pages_in_hand.pop(hand)
        return "ok"

    def finish(self, hand):
        if hand not in self.copies_in_hand:
            raise Refused(45)
        page = self.copies_in_hand.pop(hand)
        serial, is_moved = page.serial, page.pins == 0
        self.end_move(page, is_moved)
        return f"moved serial={serial}" if is_moved else f"back serial={serial} cause=1"

    def shut(self):
        if self.pages_in_hand or self.copies_in_hand:
            raise Refused(45)
        waiting, self.waiting, self.is_open = self.waiting, [], False
        for page in waiting:
            self.end_move(page, False)
        return f"back={len(waiting)}"

    def move_all(self):
        """A round: how many pages it moves, and why it stops."""
        self.begin_round()
        return self.move_pages(self.size)

    def move_pages(self, most):
        """Moves the next pages of a round, so many at most: how many, and why it stops before, if it does."""
        for moved in range(most):
            try:
                page = self.take_next()
            except Refused:
                return moved, "journalfull"
            if page is None:
                return moved, "met"
            self.end_move(page, True)
        return most, None

    def evacuate(self, first, order):
        """Empties a run of frames. How many pages went out of it."""
        self.need_frames(first, 2**order)
        if self.cost(first, 2**order) is None:
            raise Refused(11)
        return self.clear([first], 2**order)

    def take_cheapest(self, order, count):
        """Empties so many open runs with the fewest pages, the lowest first of equals, and hands them out. Their first frames, and how many
        pages went out of them."""
        size = 2**order
        firsts = [first for _, first in sorted(self.open_runs(size))[:count]]
        if len(firsts) < count:
            raise Refused(11)
        moved = self.clear(firsts, size, count)
        for first in firsts:
            self.hand_out_at(first, order)
        return firsts, moved

    def open_runs(self, size):
        """The runs of so many frames that are open: how many pages each has, and its first frame."""
        costs = ((self.cost(first, size), first) for first in range(0, self.size, size))
        return [cost for cost in costs if cost[0] is not None]

    def cost(self, first, count):
        """How many pages a run of frames has, or None where it isn't open: a frame of it can't be emptied."""
        if self.is_marked(first):
            return None
        if self.frames.free(first, count) == count:
            return 0
        if self.frames.with_pages[first // FRAMES_OF_A_PAGEBLOCK] == 0:
            return None  # it is used by blocks
        used = [frame for frame in range(first, first + count) if self.frames[frame] is not None]
        return len(used) if all(map(self.can_move, used)) else None

    def clear(self, firsts, count, blocks=0):
        """Empties open runs of so many frames, the lowest page first: each goes to the highest free frame outside of them. There have to be
        places for so many blocks besides. How many they are."""
        inside = {frame for first in firsts for frame in range(first, first + count)}
        sources = [frame for frame in sorted(inside) if self.frames[frame] is not None]
        outside = (frame for frame in self.frames.downwards(0, self.size) if frame not in inside)
        targets = list(itertools.islice(filter(self.can_take, outside), len(sources)))
        if len(sources) > len(targets):
            raise Refused(11)
        self.need_places(2 * len(sources) + blocks)
        for source, target in zip(sources, targets):
            self.end_move(self.isolate(source, target), True)
        return len(sources)

    # Claims.

    def claim(self, first, order):
        """Claims the free frames of an open run. How many pages it has."""
        self.need_frames(first, 2**order)
        pages = self.cost(first, 2**order)
        if pages is None:
            raise Refused(11)
        self.claim_free(range(first, first + 2**order))
        return pages

    def claim_free(self, run):
        for frame in run:
            if self.frames[frame] is None:
                self.frames[frame] = CLAIMED
                self.claimed.add(frame)

    def empty_some(self, first, order, most):
        """A step: how many pages went out of a run, so many at most, and how many of its frames aren't claimed after it."""
        self.need_frames(first, 2**order)
        run = range(first, first + 2**order)
        sources = list(itertools.islice(filter(self.may_go, run), most))
        self.need_places(2 * len(sources))
        self.claim_free(run)
        targets = list(itertools.islice(filter(self.can_take, self.frames.downwards(0, self.size)), len(sources)))
        for source, target in zip(sources, targets):
            self.end_move(self.isolate(source, target), True)
        self.claim_free(run)
        return len(targets), len(set(run) - self.claimed)

    def take_claimed(self, first, order):
        self.need_frames(first, 2**order)
        self.need_places(1)
        run = set(range(first, first + 2**order))
        if not run <= self.claimed:
            raise Refused(11)
        self.claimed -= run
        self.hand_out_at(first, order)

    def drop_claim(self, first, order):
        self.need_frames(first, 2**order)
        for frame in self.claimed.intersection(range(first, first + 2**order)):
            self.frames[frame] = None
            self.claimed.remove(frame)

    # Keepers. One is told by its order, the first frames of the runs that it claimed and how many places it has for them.

    def cheapest_run(self, order):
        """The open run with the fewest pages: how many they are, and its first frame."""
        runs = self.open_runs(2**order)
        if not runs:
            raise Refused(11)
        return min(runs)

    def keep(self, order, most, firsts, places):
        """A step: how many pages it moves, whether it does anything, and the runs that are claimed then."""
        unfinished = next((first for first in firsts if self.is_unfinished(first, order)), None)
        if unfinished is not None:
            return self.empty_some(unfinished, order, most)[0], True, firsts
        if len(firsts) < places and self.open_runs(2**order):
            _, first = self.cheapest_run(order)
            self.claim(first, order)
            return 0, True, [*firsts, first]
        return 0, False, firsts

    def is_unfinished(self, first, order):
        """Whether a frame of a run can be claimed, or a page can go out of it."""
        if not self.has_run(first, order):
            return False
        run = range(first, first + 2**order)
        return any(self.frames[frame] is None for frame in run) or (
            any(map(self.may_go, run)) and any(map(self.can_take, self.frames.downwards(0, self.size)))
        )

    def has_run(self, first, order):
        return first % 2**order == 0 and first + 2**order <= self.size

    def take_kept(self, order, firsts):
        """The block that is handed out, how many pages are moved for it, and the runs that are claimed then."""
        for place, first in enumerate(firsts):
            if self.has_run(first, order) and self.claimed.issuperset(range(first, first + 2**order)):
                self.take_claimed(first, order)
                return first, 0, firsts[:place] + firsts[place + 1 :]
        blocks, moved = self.take_cheapest(order, 1)
        return blocks[0], moved, firsts

    def compact(self):
        if self.is_open:
            raise Refused(45)
        if not self.is_told:
            self.need_places(2 * self.most_moves() + 2)
            self.places -= 2 * self.most_moves()
            return f"isolated={ANY} moved={ANY} back=0 stopped=met"
        moved, stopped = self.move_all()
        return f"isolated={moved} moved={moved} back=0 stopped={stopped}"

    def most_moves(self):
        """How many pages a round moves at most: each goes from below the fingers to above them."""
        return self.size // 2

    # A client beside a round.

    def begin_beside(self):
        if self.is_open:
            raise Refused(45)
        self.client = Client(self.places)
        if not self.is_told:
            self.leave_to_threads()

    def moves_beside(self):
        """Whether a round that has places for a move is beside the calls."""
        return self.client is not None and self.client.places > 1

    def change_beside(self, is_pin=False):
        """A client is about to change what the round looks at."""
        if self.moves_beside():
            self.client.pins |= is_pin
            if not self.client.is_free:
                self.leave_to_threads()

    def leave_to_threads(self):
        """From here on the threads decide which pages move. The round may take all the places that it can."""
        self.client.is_free = True
        self.frames_if_told = None
        self.places -= 2 * self.most_moves() + 2
        self.need_places(1)
        for page in self.pages.values():
            if not page.unmovable:
                page.frame = ANY

    def end_beside(self):
        """The round of a block, after the client's calls."""
        client, self.client = self.client, None
        if client.is_free:
            back = ANY if client.pins else 0
            return f"isolated={ANY} moved={ANY} back={back} stopped=met"
        line = self.compact()
        if client.places > 1 and self.places < 2:
            raise Untold
        return line

    # Blocks, marks and counts.

    def hand_out(self, order):
        self.need_places(1)
        first = self.frames.lowest_free_run(2**order)
        if first is None:
            raise Refused(11)
        self.hand_out_at(first, order)
        return first

    def hand_out_at(self, first, order):
        self.places -= 1
        self.frames.fill(first, 2**order, (first, order))
        self.handed_out.add((first, order))

    def huge(self):
        return f"block={self.hand_out(PAGEBLOCK) // FRAMES_OF_A_PAGEBLOCK}"

    def huge_of_order(self, order):
        return f"frame={self.hand_out(order)} order={order}"

    def reserve(self, count, order):
        """Hands out so many blocks, with rounds as needed: their first frames, how many rounds, and why it stops."""
        firsts, rounds = [], 0
        while True:
            try:
                while len(firsts) < count:
                    firsts.append(self.hand_out(order))
                return firsts, rounds, "enough"
            except Refused as refused:
                if refused.number == 2:
                    return firsts, rounds, "journalfull"
            if rounds == MOST_ROUNDS:
                return firsts, rounds, "rounds"
            moved, stopped = self.move_all()
            rounds += 1
            if moved == 0:
                return firsts, rounds, "noblock" if stopped == "met" else stopped

    def pool(self, count):
        firsts, told = self.pool_of(count, PAGEBLOCK)
        return f"{told} blocks={listed(first // FRAMES_OF_A_PAGEBLOCK for first in firsts)}"

    def pool_of_order(self, count, order):
        firsts, told = self.pool_of(count, order)
        return f"{told} frames={listed(firsts)}"

    def pool_of(self, count, order):
        if self.is_open:
            raise Refused(45)
        firsts, rounds, stopped = self.reserve(count, order)
        return firsts, f"got={len(firsts)} rounds={rounds} stopped={stopped}"

    def give(self, first, order):
        self.need_frames(first, 2**order)
        self.need_places(1)
        if (first, order) not in self.handed_out:
            raise Refused(12)
        self.places -= 1
        self.handed_out.remove((first, order))
        self.frames.fill(first, 2**order, None)
        return "ok"

    def mark(self, block):
        self.need_pageblock(block)
        self.need_places(1)
        if block in self.marks:
            raise Refused(17)
        self.places -= 1
        self.marks.add(block)
        return "ok"

    def unmark(self, block):
        self.need_pageblock(block)
        self.need_places(1)
        if block not in self.marks:
            raise Refused(18)
        self.places -= 1
        self.marks.remove(block)
        return "ok"

    def info(self):
        return (
            f"free={self.free_frames()} pages={self.page_count()} moving={len(self.moving)}"
            f" huge={len(self.handed_out)} whole={self.whole_pageblocks()}"
        )

    def free_frames(self):
        return self.size - (sum(self.frames.used) if self.is_told else self.page_count() + self.held())

    def whole_pageblocks(self):
        return self.frames.used.count(0) if self.is_told else ANY

    def info_with_held(self):
        return f"{self.info()} held={self.held()}"


class Client:
    """What is known of a block while its client makes calls: the places of the journal at its beginning, whether the
    threads decide what the round moves, and whether a page had no pin and got one."""

    def __init__(self, places):
        self.places = places
        self.is_free = False
        self.pins = False


def listed(numbers):
    return ",".join(str(number) for number in numbers) or "-"


# The forms of the commands of both profiles, and their calls of the zone. Capital letters stand for numbers; Z is the
# zone.
CALLS = {
    "map Z S V": lambda zone, s, v: zone.map((s, v)),
    "map Z S V unmovable": lambda zone, s, v: zone.map((s, v), unmovable=True),
    "mapat Z S V F": lambda zone, s, v, f: zone.map((s, v), frame=f),
    "mapat Z S V F unmovable": lambda zone, s, v, f: zone.map((s, v), unmovable=True, frame=f),
    "fill Z S START N": lambda zone, s, v, n: zone.series(zone.map, s, v, n, 1),
    "share Z S V S V": lambda zone, s, v, s2, v2: zone.share((s, v), (s2, v2)),
    "unmap Z S V": lambda zone, s, v: zone.unmap((s, v)),
    "thin Z S START N STEP": lambda zone, s, v, n, step: zone.series(zone.unmap, s, v, n, step),
    "store Z S V W X": lambda zone, s, v, w, x: zone.store((s, v), w, x),
    "load Z S V W": lambda zone, s, v, w: zone.load((s, v), w),
    "look Z S V": lambda zone, s, v: zone.look((s, v)),
    "pin Z S V": lambda zone, s, v: zone.pin((s, v)),
    "unpin Z S V": lambda zone, s, v: zone.unpin((s, v)),
    "scan Z": Zone.scan,
    "take Z HAND": Zone.take,
    "copy Z HAND": Zone.copy,
    "finish Z HAND": Zone.finish,
    "shut Z": Zone.shut,
    "compact Z": Zone.compact,
    "huge Z": Zone.huge,
    "pool Z BLOCKS": Zone.pool,
    "give Z BLOCK": lambda zone, block: zone.give(block * FRAMES_OF_A_PAGEBLOCK, PAGEBLOCK),
    "info Z": Zone.info,
}
CALLS_OF_PROFILE_2 = {
    **CALLS,
    "huge Z ORDER": Zone.huge_of_order,
    "pool Z BLOCKS ORDER": Zone.pool_of_order,
    "give Z F ORDER": Zone.give,
    "mark Z BLOCK": Zone.mark,
    "unmark Z BLOCK": Zone.unmark,
    "info Z": Zone.info_with_held,
}
OPENING = "zone Z BLOCKS"
BLOCK = "during X"
CLIENT_WORDS = ("map", "mapat", "share", "unmap", "store", "load", "pin", "unpin")
CLIENT_CALLS = {form: CALLS[form] for form in CALLS if form.split()[0] in CLIENT_WORDS}


def by_shape(forms):
    """Forms by their words other than numbers and by the number of their words."""
    return {(form.split()[0], len(form.split()), "unmovable" in form): form for form in forms}


SHAPES = {1: by_shape([OPENING, BLOCK, *CALLS]), 2: by_shape([OPENING, BLOCK, *CALLS_OF_PROFILE_2])}
CLIENT_SHAPES = by_shape(CLIENT_CALLS)


def number_of(word):
    is_of_digits = 1 <= len(word) <= MOST_DIGITS and all(digit in b"0123456789" for digit in word)
    if not is_of_digits or int(word) > LARGEST_NUMBER:
        raise Fault(41)
    return int(word)


class Machine:
    """A run of a script: its profile, which the first line that isn't skipped tells, its zone, and the block that has
    begun."""

    def __init__(self, places=65536):
        self.places = places
        self.profile = None
        self.zone = None
        self.block = None

    def answer(self, line):
        """The replies to a line, without its newline: none to one that is skipped, or within a block; its `end` has all
        of the block."""
        if len(line) > LONGEST_LINE:
            raise Fault(42)
        words = [word for word in line.split(b" ") if word]
        if not words or words[0].startswith(b"#"):
            return []
        if self.profile is None:
            self.profile = 2 if words == [b"profile", b"2"] else 1
            if self.profile == 2:
                return ["ok"]
        if self.block is not None:
            return self.answer_in_block(words)
        form, numbers = read(words, SHAPES[self.profile])
        if form == BLOCK:
            self.begin_block(*numbers)
            return []
        return [reply_of(lambda: self.call(form, numbers))]

    def call(self, form, numbers):
        need_ranges(form, numbers)
        if form == OPENING:
            return self.open(*numbers)
        self.need_zone(numbers[0])
        return (CALLS if self.profile == 1 else CALLS_OF_PROFILE_2)[form](self.zone, *numbers[1:])

    def need_zone(self, number):
        if self.zone is None or self.zone.number != number:
            raise Refused(43)

    def open(self, number, blocks):
        if self.zone is not None:
            raise Refused(44)
        self.zone = Zone(number, blocks, self.places)
        return "ok"

    # Blocks. The client's calls are made here as they are read: where a fault ends the block nobody sees what they did.

    def begin_block(self, number):
        self.block = Block(number)
        try:
            need_ranges("during Z", [number])
            self.need_zone(number)
            self.zone.begin_beside()
        except Refused as refused:
            self.block.refused = refused.number

    def answer_in_block(self, words):
        block = self.block
        if words == [b"end"]:
            self.block = None
            return [f"refused {block.refused}"] if block.refused else [*block.replies, self.zone.end_beside()]
        form, numbers = read(words, CLIENT_SHAPES)
        if numbers[0] != block.number or block.lines == MOST_CLIENT_LINES:
            raise Fault(41)
        block.lines += 1
        if not block.refused:
            block.replies.append(reply_of(lambda: self.call_of_client(form, numbers)))
        return []

    def call_of_client(self, form, numbers):
        need_ranges(form, numbers)
        return CALLS[form](self.zone, *numbers[1:])


class Block:
    """A block that has begun: its zone's number, its client lines, and their replies, or the number that it is refused
    with."""

    def __init__(self, number):
        self.number = number
        self.lines = 0
        self.replies = []
        self.refused = None


def read(words, shapes):
    """The form of a line of these words, and its numbers."""
    is_unmovable = words[-1] == b"unmovable"
    shape = (words[0].decode("latin-1"), len(words), is_unmovable)
    if shape not in shapes:
        raise Fault(41)
    return shapes[shape], [number_of(word) for word in words[1 : len(words) - is_unmovable]]


def need_ranges(form, numbers):
    names = [name for name in form.split() if name.isupper()]
    for name, number in zip(names, numbers):
        if not RANGES[name][0] <= number <= RANGES[name][1]:
            raise Refused(1)


def reply_of(call):
    try:
        return call()
    except Refused as refused:
        return f"refused {refused.number}"


def fits(found, told):
    """Whether a text is what the machine tells, with a number where it tells none."""
    pattern = re.escape(told).replace(re.escape(ANY), "[0-9]+")
    return found == told or ANY in told and re.fullmatch(pattern, found) is not None


def text_of(replies):
    return "".join(f"{reply}\n" for reply in replies)


def run(script, places=65536):
    """What a script, given as bytes, writes to standard output and to standard error."""
    machine, replies = Machine(places), []
    began = None  # the line of the last `during`
    *lines, cut = script.split(b"\n")
    for at, line in enumerate(lines, 1):
        try:
            if machine.block is None:
                began = at
            replies += machine.answer(line)
        except Fault as fault:
            return text_of(replies), f"compactd: fault {fault.number} at line {at}\n"
    if cut:
        number = 42 if len(cut) > LONGEST_LINE else 41
        return text_of(replies), f"compactd: fault {number} at line {len(lines) + 1}\n"
    if machine.block is not None:
        return text_of(replies), f"compactd: fault 41 at line {began}\n"
    return text_of(replies), ""
