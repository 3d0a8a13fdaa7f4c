"""Memory that a caller gives a pool of the library for C, and the words of blocks, of pinned pages and of moving pages that this lends,
for `checks/c_calls.py`."""

import ctypes
import struct

import runs
from c_machine import LENT, OWN_MEMORY

u32, u64, size, byte = ctypes.c_uint32, ctypes.c_uint64, ctypes.c_size_t, ctypes.c_ubyte
WORD = 8  # its bytes
GARBAGE = 0x5A
COMMITS = ("commit_lent", "commit_and_claim")


class Words(ctypes.Structure):
    _fields_ = [("at", size), ("count", size)]


class LentMove(ctypes.Structure):
    _fields_ = [("serial", u64), *((name, u32) for name in ("page", "source", "target", "reserved")), ("origin", Words), ("goal", Words)]


def fields_of(words):
    return words.at, words.count


def fields_of_move(move):
    return move.serial, move.page, move.source, move.target, move.reserved, *fields_of(move.origin), *fields_of(move.goal)


def same_move(move):
    return LentMove.from_buffer_copy(move)


def words_at(lent):
    """The words themselves."""
    return (u64 * lent.count).from_address(lent.at)


class Memory:
    """Memory for a pool: blank, or full of something."""

    def __init__(self, count, is_blank):
        self.words, self.is_blank = (u64 * count)(), is_blank
        if not is_blank:
            ctypes.memset(self.words, GARBAGE, count * WORD)

    def given(self):
        return Words(ctypes.addressof(self.words), len(self.words))


def written_by_pointer(words, chooser):
    """Writes some words, and tells from which one on, and which."""
    values = chooser.values()
    start = chooser.chance.randrange(len(words))
    values = values[: len(words) - start]
    words[start : start + len(values)] = values
    return start, values


class Lending:
    """The blocks of a pool whose words are lent, by their first frames and orders, the pages whose words are, the moves whose words are, by
    their serials, and the machine's words beside theirs. The pool has memory of the caller's, or none of it."""

    def __init__(self, pool, memory):
        self.pool, self.memory, self.lent, self.lent_pages, self.lent_moves = pool, memory, {}, {}, {}
        self.words_of_page = pool.machine.zone.page_words

    def need(self, call, found, wanted):
        if found != wanted:
            raise runs.Failed(f"{call}: it answers {found}, and not {wanted}")

    def block_words(self, chooser):
        """Borrows the words of a block, compares them with those that it has, and writes some."""
        block, words = chooser.block(), Words()
        number, count = self.pool.wanted("block_words", block)
        answer = self.pool.call("block_words", *block, words)
        place = (self.place_of(block), count) if number == 0 else (0, 0)
        self.need(f"block_words{block}", (answer, *fields_of(words)), (number, *place))
        if answer == 0:
            self.lent[block] = words
            self.compare(block)
            self.write(block, chooser)
        return answer

    def return_block(self, chooser):
        """Writes words of a block that are lent, and returns them: now and then as those of another block, or too few or too many."""
        chance = chooser.chance
        if not self.lent:
            return self.give_back(chooser.block(), Words())
        own = block = chance.choice(list(self.lent))
        given = Words(*fields_of(self.lent[own]))
        self.write(own, chooser)
        if chance.random() < 0.2:
            block = chance.choice([own, chooser.block(), chooser.any_run()])
            given.count = chance.choice([given.count, given.count - 1, self.count_of(block), 0])
            if block in self.pool.machine.zone.handed_out and given.count == self.count_of(block):
                block = own  # no others are returned as the words of a block that is handed out
            given.at = self.place_of(block) if given.count else 0
        if block == own:
            self.compare(own)
        answer = self.give_back(block, given)
        if answer == 0:
            del self.lent[own]
        return answer

    def place_of(self, block):
        return self.place_at(block[0])

    def place_at(self, frame):
        return self.memory.given().at + frame * self.words_of_page * WORD

    def count_of(self, block):
        return self.words_of_page << min(block[1], 9)

    def give_back(self, block, given):
        before = fields_of(given)
        number, _ = self.pool.wanted("return_block", (*block, given.count))
        answer = self.pool.call("return_block", *block, given)
        self.need(f"return_block{block, before}", (answer, *fields_of(given)), (number, *((0, 0) if number == 0 else before)))
        return answer

    def write(self, block, chooser):
        """Writes some words by the pointer."""
        start, values = written_by_pointer(words_at(self.lent[block]), chooser)
        self.pool.machine.zone.contents[block[0]].update(enumerate(values, start))

    def compare(self, block):
        """The words of a block are the machine's."""
        words = words_at(self.lent[block])
        wanted = bytearray(len(words) * WORD)
        for place, value in self.pool.machine.zone.contents[block[0]].items():
            struct.pack_into("=Q", wanted, place * WORD, value)
        if bytes(words) != wanted:
            raise runs.Failed(f"the block {block} has other words than it was left with")

    # Pages.

    def page_words(self, chooser):
        """Borrows the words of a page, compares them with those that it has, and writes some."""
        address, words = chooser.pinned()[1:], Words()
        number, page = self.pool.wanted("page_words", address)
        answer = self.pool.call("page_words", *address, words)
        place = (self.place_at(page.frame), self.words_of_page) if number == 0 else (0, 0)
        self.need(f"page_words{address}", (answer, *fields_of(words)), (number, *place))
        if answer == 0:
            self.lent_pages[page] = words
            self.compare_page(page)
            self.write_page(page, chooser)
        return answer

    def return_page(self, chooser):
        """Writes words of a page that are lent, and returns them by one of its addresses: now and then too few or too many, or by numbers out
        of their ranges."""
        chance = chooser.chance
        if not self.lent_pages:
            return self.give_page_back(chooser.place(), Words())
        page = chance.choice(list(self.lent_pages))
        given = Words(*fields_of(self.lent_pages[page]))
        self.write_page(page, chooser)
        self.compare_page(page)
        place = chooser.number(8), *chance.choice(sorted(page.addresses))
        if chance.random() < 0.1:
            given.count = chance.choice([given.count - 1, given.count + 1])
        if chance.random() < 0.02:
            place = chance.choice([(place[0], 256, place[2]), (place[0], place[1], 2**24)])
        answer = self.give_page_back(place, given)
        if answer == 0:
            del self.lent_pages[page]
        return answer

    def give_page_back(self, place, given):
        before = fields_of(given)
        number, _ = self.pool.wanted("return_page", (*place, given.count))
        answer = self.pool.call("return_page", *place, given)
        self.need(f"return_page{place, before}", (answer, *fields_of(given)), (number, *((0, 0) if number == 0 else before)))
        return answer

    def write_page(self, page, chooser):
        """Writes some words by the pointer."""
        start, values = written_by_pointer(words_at(self.lent_pages[page]), chooser)
        page.words[start : start + len(values)] = values

    def compare_page(self, page):
        """The words of a page are the machine's."""
        if list(words_at(self.lent_pages[page])) != page.words:
            raise runs.Failed(f"the page at {sorted(page.addresses)} has other words than it was left with")

    # Moves.

    def lend_move(self, chooser):
        return self.lend("lend_move", chooser)

    def lend_move_from(self, chooser):
        return self.lend("lend_move_from", chooser, *chooser.take_claimed())

    def lend(self, name, chooser, *run):
        """Borrows the words of the next page of the round or of a run, compares them with those that it has, and writes some where it goes to."""
        move = LentMove(*(chooser.chance.getrandbits(32) for _ in range(5)))
        before = fields_of_move(move)
        number, page = self.pool.wanted(name, run)
        answer = self.pool.call(name, *run, move)
        self.need(f"{name}{run}", (answer, *fields_of_move(move)), (number, *(self.moved_words(page, move.page) if page else before)))
        if answer == 0:
            written_by_pointer(words_at(move.goal), chooser)
            self.lent_moves[page.serial] = move, list(words_at(move.goal))
            self.pool.machine.numbers[page.serial] = move.page
            self.compare_move(page.serial)
        return answer

    def moved_words(self, page, number):
        """What a move of a page has, with its number in the pool."""
        of_frames = (field for frame in (page.frame, page.target) for field in (self.place_at(frame), self.words_of_page))
        return page.serial, number, page.frame, page.target, 0, *of_frames

    def commit_lent(self, chooser):
        return self.commit("commit_lent", chooser)

    def commit_and_claim(self, chooser):
        return self.commit("commit_and_claim", chooser)

    def commit(self, name, chooser):
        """Copies words of a move that are lent, and ends it."""
        moved = byte(GARBAGE)
        answer, said = self.end_move(name, chooser, moved)
        self.need(name, moved.value, GARBAGE if said is None else said)
        return answer

    def put_back_lent(self, chooser):
        """Ends a move whose words are lent without a copy."""
        return self.end_move("put_back_lent", chooser)[0]

    def end_move(self, name, chooser, *told):
        """Ends a move, or none: now and then with a number that isn't its own, or with words of one frame that are too few."""
        chance = chooser.chance
        if not self.lent_moves or chance.random() < 0.02:
            return self.give_move_back(name, LentMove(chance.getrandbits(32)), False, *told)
        serial = chance.choice(list(self.lent_moves))
        self.compare_move(serial)
        move = same_move(self.lent_moves[serial][0])
        if name in COMMITS:
            ctypes.memmove(move.goal.at, move.origin.at, move.goal.count * WORD)
        wrong = chance.choice(["serial", "page", "source", "target", "origin", "goal"]) if chance.random() < 0.1 else None
        if wrong in ("origin", "goal"):
            words = getattr(move, wrong)
            words.count = chance.choice([0, self.words_of_page - 1])
            words.at = words.at if words.count else 0
        elif wrong:
            setattr(move, wrong, getattr(move, wrong) + 1)
        answer, said = self.give_move_back(name, move, wrong is None, *told)
        if answer == 0:
            del self.lent_moves[serial]
        elif name in COMMITS:
            self.lent_moves[serial] = self.lent_moves[serial][0], list(words_at(self.lent_moves[serial][0].goal))
        return answer, said

    def give_move_back(self, name, move, is_own, *told):
        """What the call answers, and what the machine says."""
        before = fields_of_move(move)
        number, said = self.pool.wanted(name, (move.serial, is_own, (move.origin.count, move.goal.count)))
        answer = self.pool.call(name, move, *told)
        after = (*before[:5], 0, 0, 0, 0) if number == 0 else before
        self.need(f"{name}{before}", (answer, *fields_of_move(move)), (number, *after))
        return answer, said

    def compare_move(self, serial):
        """The words of a page that moves are the machine's, and nobody else has written where it goes to."""
        move, left = self.lent_moves[serial]
        found = list(words_at(move.origin)), list(words_at(move.goal))
        if found != (self.pool.machine.zone.moving[serial].words, left):
            raise runs.Failed(f"the move {serial} has other words than it was left with")

    def by_value(self, serial):
        """The number and the words of a page whose move is lent; any where it isn't."""
        if serial not in self.lent_moves:
            return 7, [0] * self.words_of_page
        return self.lent_moves[serial][0].page, list(self.pool.machine.zone.moving[serial].words)

    # The end of a pool.

    def close(self):
        """Closes the pool. Where it lies in memory of the caller's, all words are returned before, and the words of each block compared. Words
        of pages for which the journal has no room stay lent, and their memory doesn't come back by its call."""
        back = Words()
        if self.memory is None:
            self.need("close_in", (self.pool.call("close_in", back), *fields_of(back)), (OWN_MEMORY, 0, 0))
            return self.need("close", self.pool.call("close"), 0)
        for page in list(self.lent_pages):
            self.compare_page(page)
            self.return_at_the_end(page)
        if self.lent or self.lent_pages or self.lent_moves:
            self.need("close_in", (self.pool.call("close_in", back), *fields_of(back)), (LENT, 0, 0))
        for serial, (move, _) in self.lent_moves.items():
            self.compare_move(serial)
            self.need("put_back_lent", self.give_move_back("put_back_lent", move, True)[0], 0)
        for block in sorted(self.pool.machine.zone.handed_out):
            self.compare_and_return(block)
        if self.lent_pages:
            return self.need("close", self.pool.call("close"), 0)
        given = self.memory.given()
        return self.need("close_in", (self.pool.call("close_in", back), *fields_of(back)), (0, *fields_of(given)))

    def compare_and_return(self, block):
        if block not in self.lent:
            self.lent[block] = Words()
            self.need(f"block_words{block}", self.pool.call("block_words", *block, self.lent[block]), 0)
        self.compare(block)
        self.need(f"return_block{block}", self.pool.call("return_block", *block, self.lent[block]), 0)

    def return_at_the_end(self, page):
        if self.give_page_back((0, *min(page.addresses)), self.lent_pages[page]) == 0:
            del self.lent_pages[page]
