"""Random calls of the library for C are answered as by the machine of `checks/machine.py`.

A million calls are made through `libcompactd.so` and beside them on the machine, with pages of both sizes, with a journal and without one,
among them up to 40 pages that are mapped or unmapped in one call, rounds, slices of rounds, pages that are moved by hand, runs that are
emptied at once or claimed and emptied in steps, up to 4 blocks that are reserved, and steps of keepers of each order. Half of the pools lie
in memory of the caller's, which is blank or full of something: words of their blocks, of pinned pages and of moving pages are lent, written
by the pointer and returned, and each word is compared then. Most calls are made on pools of 1 to 8 pageblocks, and 100,000 on pools of 9 to 513, of which some are filled with
blocks but for a few pageblocks at the top. Half of the pools have random numbers of spaces and of virtual pages, and their first and last
addresses are among those of the calls. 100,000
more calls are made on one pool of 262,144 frames and 16,777,216 addresses: nine in ten are about a few of them, the others about any. After
each call the number of its refusal is compared, and what it tells; where it is refused, what it would have told has to be untouched. The
reserved words of a structure have to be 0 once a call has filled it, and are random in those that a call is given. Numbers are also out of
their ranges. All refusals come up but those of a pool that is closed, open already or can't have its memory, which `checks/c_exports.py`
tries. At the end the records of each pool are compared too."""

import collections
import ctypes
import random

import c_lending
import c_programs
import machine
import runs
from c_lending import LentMove, Words
from c_machine import MOST_PAGES_OF_A_SPACE, MOST_SPACES, ByMachine, Zone
from machine import Refused

SMALL_POOLS = 36
# Their pageblocks, their spaces and the virtual pages of each where those are told, the places of a journal, and whether they are filled first.
LARGE_POOLS = [
    (9, (255, 4097), 65_536, False),
    (512, (256, 65_536), 0, False),
    (512, None, 0, True),
    (513, (3, 50_001), 0, True),
]
MOST_ADDRESSES = 2**21  # of a random size
LEFT_FREE = 6  # pageblocks of a pool that is filled
CALLS_OF_A_POOL = 25_000
# A pool for more calls: what is told of a large one, how many calls are made, and its number, which comes after all others.
WIDE_POOL = (512, (256, 65_536), 0, False)
CALLS_OF_WIDE_POOL = 100_000
WIDE = SMALL_POOLS + len(LARGE_POOLS)
MOST_BLOCKS = 32_768
UNRECORDED_PLACES = 2**53
UNTOUCHED = 0xA5  # in each byte where a call may write
# What random calls can't come to.
APART = {"MEMORY", "OPEN", "CLOSED"}
u32, i32, u64, size, flag, byte = ctypes.c_uint32, ctypes.c_int32, ctypes.c_uint64, ctypes.c_size_t, ctypes.c_bool, ctypes.c_ubyte


class Handle(ctypes.Structure):
    _fields_ = [("at", ctypes.c_void_p)]


def fields(kind, names):
    return [(name, kind) for name in names.split()]


RESERVED = fields(u64 * 2, "reserved")


class Counts(ctypes.Structure):
    _fields_ = [*fields(u32, "free pages moving huge whole held"), *RESERVED]


class Geometry(ctypes.Structure):
    _fields_ = [*fields(u32, "page_words blocks"), *fields(u64, "places"), *fields(u32, "spaces vpages"), *fields(u64 * 1, "reserved")]


class PageInfo(ctypes.Structure):
    _fields_ = [*fields(u64, "serial"), *fields(u32, "frame flags pins maps"), *fields(byte, "moving"), *RESERVED]


class RoundCounts(ctypes.Structure):
    _fields_ = [*fields(u64, "isolated moved back"), *RESERVED]


class MovingPage(ctypes.Structure):
    _fields_ = [*fields(u64, "serial"), *fields(u32, "number flags"), *RESERVED]


class Move(ctypes.Structure):
    _fields_ = [*fields(u32, "source target space vpage"), *RESERVED]


class PageRequest(ctypes.Structure):
    _fields_ = fields(u32, "space vpage unmovable frame status")


class Record(ctypes.Structure):
    _fields_ = [*fields(u32, "kind client space vpage"), *fields(u64, "number other value"), *RESERVED]


def loaded():
    """The library, with what its calls take."""
    library = ctypes.CDLL(str(c_programs.folder() / "libcompactd.so"))
    for name, arguments in ARGUMENTS.items():
        call = getattr(library, f"compactd_{name}")
        call.argtypes, call.restype = [ctypes.POINTER(Handle), *arguments], u32
    return library


def told(kind):
    return ctypes.POINTER(kind)


ARGUMENTS = {
    "open": [u32, u32],
    "open_journal": [u32, u32, u32],
    "open_sized": [u32, u32, u32, u32, u32],
    "open_in": [u32, u32, u32, u32, u32, told(Words), flag],
    "close": [],
    "close_in": [told(Words)],
    "set_apart": [flag],
    "map": [u32, u32, u32, flag, told(u32)],
    "map_at": [u32, u32, u32, flag, u32],
    "load": [u32, u32, u32, u32, told(u64)],
    "store": [u32, u32, u32, u32, u64],
    "share": [u32, u32, u32, u32, u32],
    "unmap": [u32, u32, u32],
    "map_many": [u32, told(PageRequest), size],
    "unmap_many": [u32, told(PageRequest), size],
    "pin": [u32, u32, u32],
    "unpin": [u32, u32, u32],
    "take_order": [u32, told(u32)],
    "give_order": [u32, u32],
    "mark": [u32],
    "unmark": [u32],
    "read": [u32, u32, u32, u32, told(u64), size],
    "write": [u32, u32, u32, u32, told(u64), size],
    "read_block": [u32, u32, size, told(u64), size],
    "write_block": [u32, u32, size, told(u64), size],
    "block_words": [u32, u32, told(Words)],
    "return_block": [u32, u32, told(Words)],
    "page_words": [u32, u32, told(Words)],
    "return_page": [u32, u32, u32, told(Words)],
    "info": [told(Counts)],
    "describe": [told(Geometry)],
    "free_runs": [u32, told(u32)],
    "fragmentation": [u32, told(i32)],
    "look": [u32, u32, told(PageInfo)],
    "marked": [u32, told(byte)],
    "quiet": [told(byte)],
    "audit": [told(RoundCounts)],
    "ended": [told(u64)],
    "compact": [told(byte)],
    "begin_round": [],
    "move_pages": [u32, told(u32), told(u32)],
    "evacuate": [u32, u32, told(u32)],
    "claim": [u32, u32, told(u32)],
    "empty_some": [u32, u32, u32, told(u32), told(u32)],
    "take_claimed": [u32, u32],
    "drop_claim": [u32, u32],
    "reserve": [u32, told(u32), size, told(u32)],
    "cheapest_run": [u32, told(u32), told(u32)],
    "keep": [u32, u32, told(u32), size, told(size), told(u32), told(byte)],
    "take_kept": [u32, told(u32), size, told(size), told(u32), told(u32)],
    "isolate": [told(MovingPage), told(u64), size],
    "commit": [told(MovingPage), told(u64), size, told(byte)],
    "put_back": [told(MovingPage)],
    "lend_move": [told(LentMove)],
    "commit_lent": [told(LentMove), told(byte)],
    "put_back_lent": [told(LentMove)],
    "lend_move_from": [u32, u32, told(LentMove)],
    "commit_and_claim": [told(LentMove), told(byte)],
    "next_moving": [u32, told(MovingPage), told(Move)],
    "journal": [told(u64), told(u64)],
    "record_at": [size, told(Record)],
}


# Random calls.


class Chooser:
    """Chooses calls and their arguments: few addresses, so that calls meet, and now and then a number out of its range."""

    def __init__(self, chance, zone):
        self.chance = chance
        self.zone = zone
        self.page_words, self.frames, self.blocks = zone.page_words, zone.size, zone.blocks
        self.pages = few(chance, chance.choice([20, 200, 4000]), zone.pages_of_a_space)
        self.spaces = few(chance, chance.choice([1, 2, 8]), zone.spaces)
        self.run = 0, 3  # the first frame and the order of the latest claim

    def number(self, count, limit=None, among=None):
        """A number below a count, of those that are given; and once in 200 times the count, the limit of its range or a number far beyond
        it."""
        if self.chance.random() < 0.005:
            return self.chance.choice([count, limit or count, 2**32 - 1])
        return self.chance.choice(among or range(count))

    def place(self):
        space = self.number(self.zone.spaces, MOST_SPACES, self.spaces)
        return self.number(8), space, self.number(self.zone.pages_of_a_space, MOST_PAGES_OF_A_SPACE, self.pages)

    def frame(self):
        return self.number(self.frames, machine.MOST_FRAMES)

    def is_unmovable(self):
        return self.chance.random() < 0.05

    def set_apart(self):
        return (self.chance.random() < 0.5,)

    def order(self):
        return self.chance.choice([3, 3, 3, 4, 5, 6, 7, 8, 9, 9, self.number(12)])

    def map(self):
        return *self.place(), self.is_unmovable()

    def map_at(self):
        return *self.place(), self.is_unmovable(), self.frame()

    def load(self):
        return *self.place(), self.number(self.page_words)

    def store(self):
        return *self.place(), self.number(self.page_words), self.chance.getrandbits(64)

    def share(self):
        """Often the same page, so that it gets all the addresses that one may have."""
        shared = (0, 0, 0) if self.chance.random() < 0.3 else self.place()
        return *shared, *self.place()[1:]

    unmap = unpin = place

    def map_many(self):
        """A client, and some requests: the space and the virtual page of each, and whether a page of it is unmovable."""
        count = self.chance.choice([0, 1, 2, 3, self.chance.randrange(41)])
        return self.number(8), [(*self.place()[1:], self.chance.choice([0] * 30 + [1, 2**32 - 1])) for _ in range(count)]

    unmap_many = map_many

    def pin(self):
        """Often the same page, so that it gets all the pins that one may have."""
        return (0, 0, 0) if self.chance.random() < 0.5 else self.place()

    def pinned(self):
        """A page that has a pin, where there is one among some."""
        some = [self.pin() for _ in range(20)]
        return next((place for place in some if self.has_pin(place[1:])), some[0])

    def has_pin(self, address):
        return address in self.zone.pages and self.zone.pages[address].pins > 0

    def take_order(self):
        return (self.order(),)

    def block(self):
        """A block that is handed out, or any run."""
        handed_out = list(self.zone.handed_out)
        return self.chance.choice(handed_out) if handed_out and self.chance.random() < 0.7 else self.any_run()

    def give_order(self):
        """Any run, or now and then a block whose words are lent."""
        lent = list(self.zone.lent)
        return self.chance.choice(lent) if lent and self.chance.random() < 0.02 else self.any_run()

    def any_run(self):
        order = self.order()
        shift = min(order, 9)
        return self.number(self.frames >> shift, machine.MOST_FRAMES >> shift) << shift, order

    evacuate = give_order

    def claim(self):
        """Of some runs the first one that is open, where one is."""
        some = [self.give_order() for _ in range(20)]
        self.run = next((run for run in some if self.is_open(*run)), some[0])
        return self.run

    def is_open(self, first, order):
        return 3 <= order <= 9 and first + 2**order <= self.frames and self.zone.cost(first, 2**order) is not None

    def take_claimed(self):
        return self.run if self.chance.random() < 0.7 else self.give_order()

    def empty_some(self):
        return *self.take_claimed(), self.chance.choice([0, 1, 2, 8, self.number(600)])

    def drop_claim(self):
        """A part, or the pageblock of a claimed frame."""
        claimed = self.zone.claimed
        return (next(iter(claimed)) >> 9 << 9, 9) if claimed and self.chance.random() < 0.4 else self.take_claimed()

    def reserve(self):
        return self.order(), self.chance.randrange(5)

    def cheapest_run(self):
        return (self.order(),)

    def keep(self):
        order, firsts, places = self.take_kept()
        return order, self.chance.choice([1, 2, 8, 64, self.number(600)]), firsts, places

    def take_kept(self):
        """A keeper of an order, with its runs: now and then with any other one too, also where it has no place for that."""
        order = self.order()
        firsts = self.zone.keepers.get(order, [])
        others = [self.give_order()[0]] if self.chance.random() < 0.03 else []
        return order, [*firsts, *others], max(MOST_KEPT, len(firsts))

    def mark(self):
        return (self.number(self.blocks, MOST_BLOCKS),)

    unmark = marked = mark

    def count(self):
        return self.chance.choice([0, 1, 2, self.page_words, self.chance.randrange(20)])

    def values(self):
        return [self.chance.getrandbits(64) for _ in range(self.count())]

    def read(self):
        return *self.place(), self.number(self.page_words), self.count()

    def write(self):
        return *self.place(), self.number(self.page_words), self.values()

    def part(self):
        """A block, and a place in it: now and then its last word, or the one after that."""
        first, order = self.give_order()
        words = self.page_words << min(order, 9)
        return first, order, self.chance.choice([0, self.chance.randrange(words), words - 1, words])

    def read_block(self):
        return *self.part(), self.count()

    def write_block(self):
        return *self.part(), self.values()

    def info(self):
        return ()

    describe = quiet = audit = ended = compact = begin_round = info

    def move_pages(self):
        return (self.chance.choice([0, 1, 1, 2, self.number(64)]),)

    def free_runs(self):
        return (self.number(11),)

    fragmentation = free_runs

    def next_moving(self):
        return (self.chance.choice([0, self.frame()]),)

    def look(self):
        return self.place()[1:]


class WideChooser(Chooser):
    """The same for a large zone. Of twenty addresses one is any of the zone's, and one is any that names a page; the others are few. Half of
    the blocks are handed out."""

    def __init__(self, chance, zone):
        super().__init__(chance, zone)
        self.pages, self.spaces = few(chance, 200, zone.pages_of_a_space), few(chance, 8, zone.spaces)

    def place(self):
        where = self.chance.random()
        if where < 0.05:
            return self.number(8), self.chance.randrange(self.zone.spaces), self.chance.randrange(self.zone.pages_of_a_space)
        if where < 0.1 and self.zone.pages:
            return self.number(8), *self.chance.choice(list(self.zone.pages))
        return super().place()

    def give_order(self):
        handed_out = list(self.zone.handed_out)
        return self.chance.choice(handed_out) if handed_out and self.chance.random() < 0.5 else super().give_order()


def few(chance, most, count):
    """So many numbers below a count at most, the first and the last one among them."""
    return [0, count - 1, *chance.sample(range(count), min(most, count))][:most]


OFTEN = {
    **dict.fromkeys(["map", "load", "store", "unmap"], 200),
    **dict.fromkeys(["map_at", "share", "look", "write", "read"], 60),
    "pin": 55,
    "unpin": 40,
    **dict.fromkeys(["take_order", "give_order", "read_block", "write_block", "evacuate"], 15),
    **dict.fromkeys(["mark", "unmark", "marked", "info", "quiet", "audit", "ended", "describe", "free_runs", "fragmentation"], 5),
    **dict.fromkeys(["isolate", "commit", "lend_move", "commit_lent"], 20),
    **dict.fromkeys(["map_many", "unmap_many"], 15),
    **dict.fromkeys(["block_words", "return_block", "page_words", "return_page"], 15),
    **dict.fromkeys(["next_moving", "claim", "empty_some", "lend_move_from", "commit_and_claim"], 10),
    **dict.fromkeys(["put_back", "put_back_lent", "move_pages", "take_claimed", "drop_claim"], 5),
    **dict.fromkeys(["begin_round", "reserve", "set_apart", "cheapest_run"], 2),
    "keep": 20,
    "take_kept": 3,
    "compact": 1,
}
# The calls that end the quiet of a round where they are accepted.
LOUD = {"map", "map_at", "share", "unmap", "pin", "unpin", "take_order", "give_order", "mark", "unmark"} | {"claim", "empty_some", "drop_claim"}
BY_HAND = {"isolate", "commit", "put_back"}
LENDING = {
    *("block_words", "return_block", "page_words", "return_page"),
    *("lend_move", "lend_move_from", "commit_lent", "commit_and_claim", "put_back_lent"),
}
BY_KEEPER = {"keep", "take_kept"}
MANY = {"map_many", "unmap_many"}
MOST_KEPT = 2  # blocks that a keeper has ready


class Beside:
    """A pool of the library, and the machine beside it."""

    def __init__(self, library, page_words, blocks, addresses, places, memory=None):
        self.library, self.handle = library, Handle()
        spaces, pages_of_a_space = addresses or (machine.SPACES, machine.PAGES_OF_A_SPACE)
        zone = Zone(page_words, blocks, places or UNRECORDED_PLACES, spaces, pages_of_a_space, memory is not None)
        self.machine = ByMachine(zone, places)
        self.lending = c_lending.Lending(self, memory)
        opening = opening_of(page_words, blocks, addresses, places, memory)
        if answer := self.call(*opening):
            raise runs.Failed(f"{opening} is refused {answer}")
        self.carried = {}  # by their serials: the numbers and the words of the pages that are moving

    def call(self, name, *arguments):
        return getattr(self.library, f"compactd_{name}")(self.handle, *arguments)

    def answers(self, name, arguments):
        """What the library answers, and where it tells what."""
        if name.startswith("read"):
            words = fresh(u64 * (arguments[-1] + 1))
            return self.call(name, *arguments[:-1], words, arguments[-1]), [words]
        if name.startswith("write"):
            values = arguments[-1]
            return self.call(name, *arguments[:-1], (u64 * (len(values) + 1))(*values), len(values)), []
        if name == "reserve":
            order, count = arguments
            moved, firsts = fresh(u32), fresh(u32 * (count + 1))
            return self.call(name, order, firsts, count, moved), [moved, firsts]
        if name in BY_KEEPER:
            *numbers, firsts, count = arguments
            places = keeper_places(name, firsts, count)
            *told, claimed, runs_claimed = places
            return self.call(name, *numbers, runs_claimed, count, claimed, *told), places
        places = [fresh(kind._type_) for kind in ARGUMENTS[name] if hasattr(kind, "contents")]
        return self.call(name, *arguments, *places), places

    def wanted(self, name, arguments):
        """The same of the machine."""
        try:
            said = getattr(self.machine, name)(*arguments)
        except Refused as refused:
            return refused.number, None
        if name in LOUD:
            self.machine.zone.is_quiet = False
        return 0, said

    def compare(self, name, arguments):
        """Makes a call on both, and returns the number that both answer."""
        number, said = self.wanted(name, arguments)
        answer, places = self.answers(name, arguments)
        before = keeper_places(name, *arguments[-2:]) if name in BY_KEEPER else map(fresh, map(type, places))
        found, untouched = values_of(places), values_of(before)
        if said is None:
            said = untouched
        elif not isinstance(said, tuple):
            said = (said,)
        said += untouched[len(said) :]  # a place more than the words that are read
        if (answer, found) != (number, said):
            raise wrong_answer(f"{name}{arguments}", (answer, found), (number, said))
        need_reserved(name, answer, places)
        return answer

    def compare_many(self, name, client, requests):
        """Makes a call for many pages, and beside it a call for each on the machine. Returns the number that both answer."""
        pages = fresh(PageRequest * (len(requests) + 1))
        for page, numbers in zip(pages, requests):
            page.space, page.vpage, page.unmovable = numbers
        untouched = fresh(u32).value
        wanted = [self.wanted(*call_of_request(name, client, *numbers)) for numbers in requests]
        left = [(*numbers, untouched if frame is None else frame, status) for numbers, (status, frame) in zip(requests, wanted)]
        first = next((status for status, _ in wanted if status), 0)
        answer = self.call(name, client, pages, len(requests))
        found = [(page.space, page.vpage, page.unmovable, page.frame, page.status) for page in pages]
        if (answer, found) != (first, [*left, (untouched,) * 5]):
            raise wrong_answer(f"{name}{client, requests}", (answer, found), (first, left))
        return answer

    def compare_records(self):
        """Compares the journal with the machine's records, where it is kept; else no record is there."""
        wanted, room = self.machine.zone.records, self.machine.zone.places
        answer, counted = self.answers("journal", ())
        if (answer, values_of(counted)) != (0, (len(wanted), room)):
            raise wrong_answer("journal", values_of(counted), (len(wanted), room))
        kept = wanted if self.machine.places else []
        for at, record in enumerate(kept):
            answer, found = self.answers("record_at", (at,))
            if answer or any(number not in (None, told) for number, told in zip(record, values_of(found))):
                raise wrong_answer(f"record {at}", values_of(found), record)
            need_reserved("record_at", answer, found)
        if self.call("record_at", len(kept), fresh(Record)) != 1:
            raise runs.Failed("there is a record past the newest, or of a journal that isn't kept")

    # Pages by hand.

    def carry(self, name, chance):
        """Isolates a page or ends the move of one, and returns the number that both answer."""
        made = self.isolate(chance) if name == "isolate" else self.end(name, chance)
        found, wanted = made
        if found != wanted:
            raise wrong_answer(name, found, wanted)
        return found[0]

    def isolate(self, chance):
        count = chance.choice([0, 8, 512]) if chance.random() < 0.02 else self.machine.zone.page_words
        page, words = fresh(MovingPage), fresh(u64 * (count + 1))
        number, said = self.wanted("isolate", (count,))
        answer = self.call("isolate", page, words, count)
        if answer == 0:
            self.carried[page.serial] = page.number, list(words)[:count]
            self.machine.numbers[page.serial] = page.number
        need_reserved("isolate", answer, [page])
        untouched = fresh(MovingPage).serial, fresh(MovingPage).flags, values_of([fresh(type(words))])
        wanted = untouched if said is None else (*said[:2], said[2] + untouched[2][-1:])
        return (answer, (page.serial, page.flags, tuple(words))), (number, wanted)

    def end(self, name, chance):
        """Ends the move of a page, or of none, or of one whose words are lent: now and then with a serial, a number or a word that isn't the
        page's."""
        serial = chance.choice([*self.carried, *self.lending.lent_moves, 2**32 - 1, 2**64 - 1])
        own = self.carried.get(serial, self.lending.by_value(serial))
        if chance.random() < 0.03:
            serial ^= 2**32
        number, words = own[0] + (chance.random() < 0.05), list(own[1])
        page = MovingPage(serial, number, chance.getrandbits(32), (chance.getrandbits(64), chance.getrandbits(64)))
        if name == "put_back":
            wanted, _ = self.wanted(name, (serial, serial in self.carried and number == own[0]))
            answer = self.call(name, page)
            self.forget(serial, answer)
            return (answer, None), (wanted, None)
        words += [0] * (chance.random() < 0.02)
        words[chance.randrange(len(words))] ^= chance.random() < 0.05
        is_own = serial in self.carried and (number, words) == own
        wanted, said = self.wanted(name, (serial, is_own, len(words)))
        moved = fresh(byte)
        answer = self.call(name, page, (u64 * len(words))(*words), len(words), moved)
        self.forget(serial, answer)
        return (answer, moved.value), (wanted, UNTOUCHED if said is None else said)

    def forget(self, serial, answer):
        if answer == 0:
            del self.carried[serial]


def call_of_request(name, client, space, page, unmovable):
    """The call that a request of a call for many stands for."""
    return ("map", (client, space, page, unmovable > 0)) if name == "map_many" else ("unmap", (client, space, page))


def keeper_places(name, firsts, count):
    """Where a call of a keeper tells two numbers, and where its runs stand: how many they are, and so many places for their first frames,
    and one more."""
    runs_claimed = fresh(u32 * (max(count, len(firsts)) + 1))
    runs_claimed[: len(firsts)] = firsts
    return [fresh(u32), fresh(byte if name == "keep" else u32), size(len(firsts)), runs_claimed]


def opening_of(page_words, blocks, addresses, places, memory):
    """The call that opens a pool: with the spaces and the virtual pages of each that are told, or with as many as the other calls open."""
    if memory:
        spaces, pages_of_a_space = addresses or (machine.SPACES, machine.PAGES_OF_A_SPACE)
        return "open_in", page_words, blocks, spaces, pages_of_a_space, places, memory.given(), memory.is_blank
    if addresses:
        return "open_sized", page_words, blocks, *addresses, places
    return ("open_journal", page_words, blocks, places) if places else ("open", page_words, blocks)


def wrong_answer(call, found, wanted):
    return runs.Failed(f"{call[:200]}: it answers {str(found)[:200]}, and not {str(wanted)[:200]}")


def fresh(kind):
    """A place where a call may write."""
    place = kind()
    ctypes.memset(ctypes.byref(place), UNTOUCHED, ctypes.sizeof(place))
    return place


def values_of(places):
    """What stands in places, one after the other, but for the reserved words of structures."""
    return tuple(value for place in places for value in values_in(place))


def values_in(place):
    if isinstance(place, ctypes.Structure):
        return tuple(getattr(place, name) for name, _ in place._fields_[:-1])
    return tuple(place) if isinstance(place, ctypes.Array) else (place.value,)


def need_reserved(name, answer, places):
    """The reserved words of structures are 0 once the call was done, and else untouched."""
    found = {word for place in places if isinstance(place, ctypes.Structure) for word in place.reserved}
    if found - {fresh(u64).value if answer else 0}:
        raise runs.Failed(f"{name} answers {answer} and leaves {found} in reserved words")


def random_addresses(chance):
    """How many spaces a pool has, and how many virtual pages each of them."""
    spaces = chance.choice([1, 7, 9, MOST_SPACES, chance.randint(1, MOST_SPACES)])
    most = MOST_ADDRESSES // spaces
    return spaces, chance.choice([1, 20, 1000, 4095, 4097, chance.randint(1, most), most])


def random_memory(chance, page_words, blocks):
    """Memory for a pool of this size, which half of the pools have."""
    if chance.random() < 0.5:
        return None
    return c_lending.Memory(blocks * machine.FRAMES_OF_A_PAGEBLOCK * page_words, chance.random() < 0.5)


def small_pool(chance, is_sized):
    page_words, blocks = chance.choice([8, 512]), chance.choice([1, 1, 2, 3, 8])
    addresses = random_addresses(chance) if is_sized else None
    places = chance.choice([0, 300, 5_000, 65_536])
    return Beside(loaded(), page_words, blocks, addresses, places, random_memory(chance, page_words, blocks))


def large_pool(chance, blocks, addresses, places, is_filled):
    """A pool with pages of 8 words. Where it is filled, only its highest pageblocks are free."""
    pool = Beside(loaded(), 8, blocks, addresses, places, random_memory(chance, 8, blocks))
    for _ in range(blocks - LEFT_FREE if is_filled else 0):
        pool.compare("take_order", (9,))
    return pool


def random_calls(number):
    """How often each call and each refusal came up among random calls of a pool."""
    chance = random.Random(number)
    if number == WIDE:
        pool = large_pool(chance, *WIDE_POOL)
        return calls_of(pool, chance, WideChooser(chance, pool.machine.zone), CALLS_OF_WIDE_POOL)
    pool = small_pool(chance, number % 2 == 1) if number < SMALL_POOLS else large_pool(chance, *LARGE_POOLS[number - SMALL_POOLS])
    return calls_of(pool, chance, Chooser(chance, pool.machine.zone), CALLS_OF_A_POOL)


def made_by(pool, chooser, name):
    """Makes a call of this name, and returns the number that it is answered."""
    if name in BY_HAND:
        return pool.carry(name, chooser.chance)
    if name in LENDING:
        return getattr(pool.lending, name)(chooser)
    arguments = getattr(chooser, name)()
    return pool.compare_many(name, *arguments) if name in MANY else pool.compare(name, arguments)


def calls_of(pool, chance, chooser, count):
    """Makes so many calls of a pool, and closes it."""
    found = collections.Counter()
    for name in chance.choices(list(OFTEN), list(OFTEN.values()), k=count):
        found[name, made_by(pool, chooser, name)] += 1
    pool.compare_records()
    pool.lending.close()
    return found


def main():
    c_programs.folder()  # once, before the processes part
    found = collections.Counter()
    for counted in runs.each(random_calls, range(WIDE, -1, -1), at_once=1):  # those that take longest first
        found += counted
    numbers = {number for _, number in found}
    lacking = [name for name, number in c_programs.refusals().items() if name not in APART and number not in numbers]
    if lacking:
        raise runs.Failed(f"no random call is refused as {', '.join(lacking)}")
    return f"{sum(found.values())} random calls are answered as by the machine, {len(numbers) - 1} refusals came up"


if __name__ == "__main__":
    c_programs.start(main)
