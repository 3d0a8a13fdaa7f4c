"""The machine of `checks/machine.py` with the calls of the library for C, in numbers, for `checks/c_calls.py`."""

import machine
from machine import Refused

MET = 53  # the answer of an isolation where the scanners have met
STOPPED = {None: 0, "journalfull": 2, "met": MET}  # why no more pages are moved
NOT_MOVING = 54
NONE_LEFT = 55  # the answer where no page of a run can be sent out of it
LENT, OWN_MEMORY = 19, 20
MOST_SPACES = 256
MOST_PAGES_OF_A_SPACE = 2**24
ORDERS = range(10)  # of free runs


class Zone(machine.Zone):
    """The machine's zone, with pages of any size and with what C asks in numbers, and with its records: their kinds and numbers, where
    that of a page stands as None."""

    def __init__(self, page_words, blocks, places, spaces, pages_of_a_space, is_in_memory=False):
        super().__init__(0, blocks, places, spaces, pages_of_a_space)
        self.is_in_memory = is_in_memory  # of the caller's
        self.lent = set()  # the blocks whose words are lent
        self.lent_pages = set()
        self.page_words, self.blocks = page_words, blocks
        self.high = 0  # no round was begun
        self.is_quiet = False
        self.moved = self.back = 0
        self.contents = {}  # by a block's first frame: its words that aren't 0, by their places
        self.records = []
        self.keepers = {}  # by their orders: the first frames of the runs that one claimed

    def note(self, kind, client=0, address=(0, 0), number=0, other=0, value=0):
        self.records.append((kind, client, *address, number, other, value))

    def map(self, address, unmovable=False, frame=None):
        super().map(address, unmovable, frame)
        page = self.pages[address]
        page.words = [0] * self.page_words
        return page.frame

    def begin_round(self):
        super().begin_round()
        self.is_quiet = not self.moving and all(map(self.is_marked, self.obstacles()))

    def obstacles(self):
        """The frames of the pages that no round moves, the first ones of the blocks that are handed out, and the claimed ones."""
        yield from (page.frame for page in self.pages.values() if page.unmovable or page.pins > 0)
        yield from (first for first, _ in self.handed_out)
        yield from self.claimed

    def isolate(self, source, target):
        page = super().isolate(source, target)
        self.note(8, number=page.serial, other=None)
        return page

    def send(self, first, order):
        """The lowest page of a run that may go, on its way to the highest free frame of an unmarked pageblock."""
        self.need_frames(first, 2**order)
        self.need_places(2)
        self.need_memory()
        source = next(filter(self.may_go, range(first, first + 2**order)), None)
        target = next(filter(self.can_take, self.frames.downwards(0, self.size)), None)
        if source is None or target is None:
            raise Refused(NONE_LEFT)
        self.is_quiet = False
        return self.isolate(source, target)

    def clear(self, firsts, count, blocks=0):
        moved = super().clear(firsts, count, blocks)
        self.is_quiet &= moved == 0
        return moved

    def hand_out_at(self, first, order):
        super().hand_out_at(first, order)
        self.contents[first] = {}
        self.note(11, number=first, other=order)
        self.is_quiet = False

    def end_move(self, page, is_moved, cause=1):
        self.note(9 if is_moved else 10, number=page.serial, other=0 if is_moved else cause)
        super().end_move(page, is_moved)
        self.moved += is_moved
        self.back += not is_moved

    def bulk(self, address, start, count):
        """The page whose words, so many from one on, are read or written."""
        if start + count > self.page_words:
            raise Refused(1)
        page = self.need_words(address, count)
        self.places -= count
        return page

    def need_words(self, address, count):
        """A page that is there with its words, so many of which are to be recorded."""
        self.need_places(count)
        page = self.need_still_page(address)
        if page in self.lent_pages:
            raise Refused(LENT)
        return page

    def load(self, address, word):
        self.need_words(address, 1)
        return super().load(address, word)

    def store(self, address, word, value):
        self.need_words(address, 1)
        return super().store(address, word, value)

    def unpin(self, address):
        self.need_places(1)
        page = self.need_page(address)
        if page.pins == 1 and page in self.lent_pages:
            raise Refused(LENT)
        return super().unpin(address)

    def free_runs(self):
        """By its order: how many free runs there are that lie in no larger one."""
        runs = [0 for _ in ORDERS]
        for first in range(0, self.size, 2 ** ORDERS[-1]):
            self.count_runs(first, ORDERS[-1], runs)
        return runs

    def count_runs(self, first, order, runs):
        """Counts the runs of a part of the zone: one where all of it is free, and else those of its halves."""
        free = self.frames.free(first, 2**order)
        if free == 2**order:
            runs[order] += 1
        elif free > 0:
            self.count_runs(first, order - 1, runs)
            self.count_runs(first + 2 ** (order - 1), order - 1, runs)

    def fragmentation(self, order):
        """The index of an order by the formula of Linux, in thousandths."""
        runs, free = self.free_runs(), self.free_frames()
        if free == 0:
            return 0
        if any(runs[order:]):
            return -1000
        return 1000 - (1000 + free * 1000 // 2**order) // sum(runs)

    def block(self, first, order, start, count):
        """The words of a block that is handed out."""
        self.need_block(first, order)
        if start + count > 2**order * self.page_words:
            raise Refused(1)
        self.need_not_lent(first, order)
        return self.contents[first]

    def need_block(self, first, order):
        if (first, order) not in self.handed_out:
            raise Refused(12)

    def need_not_lent(self, first, order):
        if (first, order) in self.lent:
            raise Refused(LENT)

    def need_memory(self):
        """Words are lent only of memory of the caller's."""
        if not self.is_in_memory:
            raise Refused(OWN_MEMORY)

    def give(self, first, order):
        if (first, order) in self.lent:
            self.need_places(1)
        self.need_not_lent(first, order)
        super().give(first, order)


def need(*limits):
    """Refuses a number that isn't below its limit."""
    if any(number >= limit for number, limit in limits):
        raise Refused(1)


def need_place(client, space, page):
    need((client, 8), (space, MOST_SPACES), (page, MOST_PAGES_OF_A_SPACE))
    return space, page


def need_order(order):
    if not 3 <= order <= 9:
        raise Refused(1)


def need_both(source_words, target_words):
    """Refuses a move that lacks words, or has more of one frame than of the other."""
    if source_words == 0 or source_words != target_words:
        raise Refused(1)


def need_keeper(order, firsts, places):
    need_order(order)
    need((len(firsts), places + 1), *((first, machine.MOST_FRAMES) for first in firsts))


class ByMachine:
    """The calls on the machine: what each tells, or None. What fills a structure tells its fields but the reserved ones."""

    def __init__(self, zone, places):
        self.zone = zone
        self.places = places  # of a journal that is kept
        self.numbers = {}  # by their serials: the numbers of moving pages, as the library has them

    def set_apart(self, apart):
        self.zone.apart = apart

    def map(self, client, space, page, unmovable):
        frame = self.zone.map(need_place(client, space, page), unmovable)
        self.zone.note(1, client, (space, page), None)
        return frame

    def map_at(self, client, space, page, unmovable, frame):
        need((frame, machine.MOST_FRAMES))
        self.zone.map(need_place(client, space, page), unmovable, frame)
        self.zone.note(1, client, (space, page), None)

    def load(self, client, space, page, word):
        need((word, self.zone.page_words))
        value = int(self.zone.load(need_place(client, space, page), word)[len("value=") :])
        self.zone.note(5, client, (space, page), word, value=value)
        return value

    def store(self, client, space, page, word, value):
        need((word, self.zone.page_words))
        self.zone.store(need_place(client, space, page), word, value)
        self.zone.note(4, client, (space, page), word, value=value)

    def share(self, client, space, page, alias_space, alias_page):
        self.zone.share(need_place(client, space, page), need_place(client, alias_space, alias_page))
        self.zone.note(2, client, (space, page), alias_space, alias_page)

    def unmap(self, client, space, page):
        self.zone.unmap(need_place(client, space, page))
        self.zone.note(3, client, (space, page))

    def pin(self, client, space, page):
        self.zone.pin(need_place(client, space, page))
        self.zone.note(6, client, (space, page))

    def unpin(self, client, space, page):
        self.zone.unpin(need_place(client, space, page))
        self.zone.note(7, client, (space, page))

    def take_order(self, order):
        need_order(order)
        return self.zone.hand_out(order)

    def give_order(self, first, order):
        need_order(order)
        self.zone.give(first, order)
        self.zone.note(12, number=first, other=order)

    def mark(self, block):
        self.zone.mark(block)
        self.zone.note(13, number=block)

    def unmark(self, block):
        self.zone.unmark(block)
        self.zone.note(14, number=block)

    def read(self, client, space, page, start, count):
        need((start, self.zone.page_words))
        words = tuple(self.zone.bulk(need_place(client, space, page), start, count).words[start : start + count])
        for word, value in enumerate(words, start):
            self.zone.note(5, client, (space, page), word, value=value)
        return words

    def write(self, client, space, page, start, values):
        need((start, self.zone.page_words))
        written = self.zone.bulk(need_place(client, space, page), start, len(values))
        written.words[start : start + len(values)] = values
        written.dirty |= len(values) > 0
        for word, value in enumerate(values, start):
            self.zone.note(4, client, (space, page), word, value=value)

    def read_block(self, first, order, start, count):
        need((first, machine.MOST_FRAMES))
        need_order(order)
        words = self.zone.block(first, order, start, count)
        return tuple(words.get(at, 0) for at in range(start, start + count))

    def write_block(self, first, order, start, values):
        need((first, machine.MOST_FRAMES))
        need_order(order)
        self.zone.block(first, order, start, len(values)).update(enumerate(values, start))

    def block_words(self, first, order):
        """How many words are lent."""
        need((first, machine.MOST_FRAMES))
        need_order(order)
        self.zone.need_block(first, order)
        self.zone.need_not_lent(first, order)
        self.zone.need_memory()
        self.zone.lent.add((first, order))
        return 2**order * self.zone.page_words

    def return_block(self, first, order, count):
        need((first, machine.MOST_FRAMES))
        need_order(order)
        if count != 2**order * self.zone.page_words:
            raise Refused(1)
        self.zone.need_block(first, order)
        self.zone.lent.remove((first, order))

    def page_words(self, space, page):
        """The page whose words are lent."""
        lent = self.zone.need_still_page(need_place(0, space, page))
        if lent.pins == 0:
            raise Refused(9)
        if lent in self.zone.lent_pages:
            raise Refused(LENT)
        self.zone.need_memory()
        self.zone.lent_pages.add(lent)
        return lent

    def return_page(self, client, space, page, count):
        address = need_place(client, space, page)
        if count != self.zone.page_words:
            raise Refused(1)
        self.zone.need_places(count)
        lent = self.zone.need_still_page(address)
        self.zone.lent_pages.remove(lent)
        self.write(client, space, page, 0, list(lent.words))

    def lend_move(self):
        """The page that moves."""
        self.zone.need_places(2)
        self.zone.need_memory()
        page = self.zone.take_next()
        if page is None:
            raise Refused(MET)
        return page

    def commit_lent(self, serial, is_own, counts):
        need_both(*counts)
        return int(self.end(serial, is_own, is_own and self.zone.moving[serial].pins == 0))

    def lend_move_from(self, first, order):
        """The page that moves."""
        need_order(order)
        return self.zone.send(first, order)

    def commit_and_claim(self, serial, is_own, counts):
        source = self.zone.moving[serial].frame if is_own else None
        moved = self.commit_lent(serial, is_own, counts)
        if moved:
            self.zone.claim_free([source])
            self.zone.is_quiet = False
        return moved

    def put_back_lent(self, serial, is_own, counts):
        need_both(*counts)
        self.end(serial, is_own, False, 2)

    def info(self):
        zone = self.zone
        counts = zone.free_frames(), zone.page_count(), len(zone.moving), len(zone.handed_out)
        return *counts, zone.whole_pageblocks(), zone.held()

    def look(self, space, page):
        page = self.zone.need_page(need_place(0, space, page))
        uses = page.pins, len(page.addresses)
        if page.serial is not None:
            return page.serial, 0, 0, *uses, 1
        return 0, page.frame, page.unmovable + 2 * page.dirty, *uses, 0

    def describe(self):
        return self.zone.page_words, self.zone.blocks, self.places, self.zone.spaces, self.zone.pages_of_a_space

    def free_runs(self, order):
        need((order, len(ORDERS)))
        return self.zone.free_runs()[order]

    def fragmentation(self, order):
        need((order, len(ORDERS)))
        return self.zone.fragmentation(order)

    def next_moving(self, start):
        """The moving page, and its move."""
        need((start, machine.MOST_FRAMES))
        page = min((it for it in self.zone.moving.values() if it.frame >= start), key=lambda it: it.frame, default=None)
        if page is None:
            raise Refused(NOT_MOVING)
        return page.serial, self.numbers[page.serial], 2 * page.dirty, page.frame, page.target, *min(page.addresses)

    def marked(self, block):
        self.zone.need_pageblock(block)
        return int(block in self.zone.marks)

    def quiet(self):
        return int(self.zone.is_quiet)

    def audit(self):
        if self.zone.moving:
            raise Refused(16)
        return self.zone.serials, self.zone.moved, self.zone.back

    def ended(self):
        return self.zone.moved + self.zone.back

    def compact(self):
        return int(self.zone.move_all()[1] == "met")

    def begin_round(self):
        self.zone.begin_round()

    def move_pages(self, most):
        moved, stopped = self.zone.move_pages(most)
        return moved, STOPPED[stopped]

    def evacuate(self, first, order):
        need_order(order)
        return self.zone.evacuate(first, order)

    def claim(self, first, order):
        need_order(order)
        return self.zone.claim(first, order)

    def empty_some(self, first, order, most):
        need_order(order)
        return self.zone.empty_some(first, order, most)

    def take_claimed(self, first, order):
        need_order(order)
        self.zone.take_claimed(first, order)

    def drop_claim(self, first, order):
        need_order(order)
        self.zone.drop_claim(first, order)

    def reserve(self, order, count):
        """How many pages were moved, and the first frames of the blocks."""
        need_order(order)
        firsts, moved = self.zone.take_cheapest(order, count)
        return moved, *firsts

    def cheapest_run(self, order):
        need_order(order)
        return self.zone.cheapest_run(order)[::-1]

    def keep(self, order, most, firsts, places):
        """How many pages were moved, whether anything was done, how many runs are claimed, and which."""
        need_keeper(order, firsts, places)
        moved, is_done, firsts = self.zone.keep(order, most, firsts, places)
        self.zone.is_quiet &= not is_done
        self.zone.keepers[order] = firsts
        return moved, int(is_done), len(firsts), *firsts

    def take_kept(self, order, firsts, places):
        """The first frame of the block, how many pages were moved for it, how many runs are claimed, and which."""
        need_keeper(order, firsts, places)
        first, moved, firsts = self.zone.take_kept(order, firsts)
        self.zone.keepers[order] = firsts
        return first, moved, len(firsts), *firsts

    def isolate(self, count):
        """The serial of the next page, its flags and its words."""
        if count != self.zone.page_words:
            raise Refused(1)
        page = self.zone.take_next()
        if page is None:
            raise Refused(MET)
        return page.serial, 2 * page.dirty, tuple(page.words)

    def commit(self, serial, is_own, count):
        if count != self.zone.page_words:
            raise Refused(1)
        return int(self.end(serial, is_own, self.zone.moving.get(serial) and self.zone.moving[serial].pins == 0))

    def put_back(self, serial, is_own):
        self.end(serial, is_own, False, 2)

    def end(self, serial, is_own, is_moved, cause=1):
        if not is_own:
            raise Refused(13)
        self.zone.end_move(self.zone.moving[serial], is_moved, cause)
        self.zone.is_quiet &= is_moved
        return is_moved
