"""500 random scripts, with rounds, pools and clients beside rounds, are answered as docs/SCRIPT.md says.

They have 1, 2 and 4 copiers and capacities 1, 8 and 64, and each reply is that of checks/machine.py. In the blocks in
mid-script the clients leave alone what rounds look at, so that nothing is open; in the last ones they map pages, end
some and pin them, and it is up to the threads what the rounds move. Each load of a client has its own last store.
Besides, and without that machine: the counts of each info line are together the frames of the zone, each page of a
round was moved or put back, and at the end no two pages have one frame. The scripts are drawn from a fixed seed."""

import collections
import random

import machine
import runs

SCRIPTS = 500
COMMANDS = 200
SEED = 500_823
COPIERS = [1, 2, 4]
CAPACITIES = [1, 8, 64]

# How often each command is drawn.
COMMON = [
    *["map", "store", "load"] * 6,
    *["mapat", "share", "unmap", "pin", "unpin", "scan", "take", "copy", "finish", "look"] * 3,
    *["fill", "thin", "huge", "give", "compact", "pool", "shut", "mark", "unmark"] * 2,
    *["info", "zone"],
    *["during"] * 2,
]
OF_A_CLIENT = [*["store", "load"] * 6, *["map", "mapat", "share", "unmap", "pin", "unpin"]]


class Author:
    """Draws a script, of which it follows the pages and blocks by a machine of its own."""

    def __init__(self, number):
        self.draw = random.Random(SEED * SCRIPTS + number)
        self.options = {
            "copiers": COPIERS[number % 3],
            "capacity": CAPACITIES[number // 3 % 3],
            "journal": self.draw.choice([65536, 65536, 65536, self.draw.randrange(1, 2000)]),
        }
        self.machine = machine.Machine(self.options["journal"])
        self.lines = []  # as they are written
        # What is answered, and how: of a block first the client lines, then its first line.
        self.asked, self.replies = [], []
        self.begun = []
        self.blocks = self.draw.randrange(1, 9)
        self.end = 0  # where the replies to the last lines begin, which tell all that is left

    def say(self, line):
        self.lines.append(line)
        replies = self.machine.answer(line.encode())
        if line != "end":
            self.begun.append(line)
        if replies:
            first, *clients = self.begun
            self.asked += [*clients, first] if len(replies) > 1 else [first]
            self.replies += replies
            self.begun = []

    def script(self):
        if self.draw.random() < 0.5:
            self.say("profile 2")
        self.say(f"zone 0 {self.blocks}")
        self.some_pages()
        if self.draw.random() < 0.1:
            self.crowded_page()
        for _ in range(COMMANDS):
            command = self.command()
            if command.startswith("during") and self.draw.random() < 0.8:
                self.end_round_by_hand()
            self.say(command)
            if self.machine.block:
                self.rest_of_block(self.draw.choice([0, 1, 5, 20, 40]), self.is_left_alone)
        self.end_round_by_hand()
        self.say("compact 0")
        for _ in range(self.draw.choice([0, 1, 2])):
            if self.has_places_for_any_round(200 + len(self.zone().pages)):
                self.say("during 0")
                self.rest_of_block(self.draw.choice([10, 100]), self.is_told)
        self.end = len(self.replies)
        for space, page in sorted(self.zone().pages):
            self.say(f"look 0 {space} {page}")
            self.say(f"load 0 {space} {page} {self.draw.randrange(8)}")
        self.say("info 0")
        return runs.text_of(self.lines)

    def end_round_by_hand(self):
        for hand in range(1, 5):
            self.say(f"copy 0 {hand}")
            self.say(f"finish 0 {hand}")
        self.say("shut 0")

    def some_pages(self):
        count = self.draw.choice([0, 5, 100, 512 * self.blocks // 2, 512 * self.blocks])
        self.say(f"fill 0 0 0 {min(count, 4096)}")
        self.say(f"thin 0 0 {self.draw.randrange(3)} {count // 3} {self.draw.randrange(1, 4)}")

    def crowded_page(self):
        """A page is asked for one more address and one more pin than a page may have."""
        self.say("map 0 2 0")
        for address in range(1, machine.MOST_ADDRESSES + 1):
            self.say(f"share 0 2 0 2 {address}")
        for _ in range(machine.MOST_PINS + 1):
            self.say("pin 0 2 0")

    def rest_of_block(self, count, is_good):
        """So many client lines, of those that are good ones after the lines before."""
        number = self.machine.block.number
        while count > 0:
            word = self.draw.choice(OF_A_CLIENT)
            arguments = getattr(self, f"arguments_of_{word}")()
            if is_good(word, arguments.split()):
                self.say(f"{word} {number} {arguments}")
                count -= 1
        self.say("end")

    def is_left_alone(self, word, arguments):
        """Whether a client's call changes nothing that a round looks at."""
        space, page, *_ = map(int, arguments[:2])
        page = self.zone() and self.zone().pages.get((space, page))
        if word in ("map", "mapat"):
            return page is not None
        if word == "unmap" and page:
            return page.pins > 0 or len(page.addresses) > 1
        if word in ("pin", "unpin") and page:
            return page.unmovable or page.pins > 1 or (page.pins == 1) == (word == "pin")
        return True

    def is_told(self, word, arguments):
        """Whether a client's call, that may change what the round looks at, has a reply that is told."""
        zone = self.zone()
        if word in ("map", "mapat") and tuple(map(int, arguments[:2])) not in zone.pages:
            return word == "map" and 2 * zone.page_count() + zone.held() < zone.size
        return True

    def has_places_for_any_round(self, clients):
        return self.zone().places > clients + 2 * self.zone().most_moves() + 2

    def zone(self):
        return self.machine.zone

    def one_of(self, many):
        return self.draw.choice(sorted(many))

    def address(self):
        """Most times that of a page, else any one of a few, and now and then one that no zone has."""
        kind = self.draw.random()
        if kind < 0.7 and self.zone().pages:
            return "{} {}".format(*self.one_of(self.zone().pages))
        if kind < 0.98:
            return f"{self.draw.randrange(3)} {self.draw.choice([self.draw.randrange(40), self.draw.randrange(4096)])}"
        return self.draw.choice(["8 0", "0 4096", "7 4095", "18446744073709551615 0"])

    def frame(self):
        size = 512 * self.blocks
        return self.draw.choice([self.draw.randrange(size), size - 1, size, 4096])

    def block(self):
        return self.draw.choice([self.draw.randrange(self.blocks), self.draw.randrange(9)])

    def order(self):
        return self.draw.choice([3, 4, 5, 6, 7, 8, 9, 9, 2, 10])

    def number(self):
        return self.draw.choice([0, 1, 2**64 - 1, self.draw.getrandbits(64), self.draw.randrange(1000)])

    def command(self):
        word = self.draw.choice(COMMON)
        while not self.can_say(word):
            word = self.draw.choice(COMMON)
        zone = self.draw.choice([0] * 60 + [1, 4])
        arguments = getattr(self, f"arguments_of_{word}", lambda: "")()
        return f"{word} {zone} {arguments}".rstrip()

    def can_say(self, word):
        if word == "during":
            return self.zone().places <= 1 or self.has_places_for_any_round(40)
        return self.machine.profile == 2 or word not in ("mark", "unmark")

    def unmovable(self):
        return self.draw.choice(["", "", "", " unmovable"])

    def arguments_of_zone(self):
        return str(self.draw.randrange(10))

    def arguments_of_map(self):
        return self.address() + self.unmovable()

    def arguments_of_mapat(self):
        return f"{self.address()} {self.frame()}{self.unmovable()}"

    def arguments_of_fill(self):
        return f"{self.address()} {self.draw.choice([0, 1, 30, 300, 4096, 4097])}"

    def arguments_of_thin(self):
        return f"{self.address()} {self.draw.choice([0, 1, 10, 100])} {self.draw.choice([0, 1, 2, 7, 2**64 - 1])}"

    def arguments_of_share(self):
        return f"{self.address()} {self.address()}"

    def arguments_of_store(self):
        return f"{self.address()} {self.draw.randrange(9)} {self.number()}"

    def arguments_of_load(self):
        return f"{self.address()} {self.draw.randrange(9)}"

    def arguments_of_take(self):
        return str(self.draw.choice([1, 2, 3, 4, 1, 2, 3, 4, 0, 5]))

    def arguments_of_give(self):
        if self.machine.profile == 1 or self.draw.random() < 0.3:
            return str(self.block())
        if self.zone().handed_out and self.draw.random() < 0.6:
            return "{} {}".format(*self.one_of(self.zone().handed_out))
        return f"{self.frame()} {self.order()}"

    def arguments_of_huge(self):
        return "" if self.machine.profile == 1 or self.draw.random() < 0.3 else str(self.order())

    def arguments_of_pool(self):
        count = self.draw.choice([1, 1, 2, 3, 8, 0, 9])
        return f"{count} {self.arguments_of_huge()}"

    def arguments_of_mark(self):
        return str(self.block())

    arguments_of_unmap = arguments_of_look = arguments_of_pin = arguments_of_unpin = address
    arguments_of_copy = arguments_of_finish = arguments_of_take
    arguments_of_unmark = arguments_of_mark


def fields(reply):
    return {name: value for name, _, value in (word.partition("=") for word in reply.split())}


def held_after(held, command, reply):
    """How many frames are handed out after a command."""
    words = command.split()
    if words[0] == "huge" and "refused" not in reply:
        return held + 2 ** int(fields(reply).get("order", 9))
    if words[0] == "pool" and "refused" not in reply:
        return held + int(fields(reply)["got"]) * 2 ** (int(words[3]) if len(words) == 4 else 9)
    if words[0] == "give" and reply == "ok":
        return held - 2 ** (int(words[3]) if len(words) == 4 else 9)
    return held


def adds_up(told, held, frames):
    """Whether the counts of an info line are together the frames of the zone, and those of a round are its pages."""
    if "free" in told:
        counted = sum(int(told[name]) for name in ("free", "pages", "moving"))
        return counted + held == frames and int(told.get("held", held)) == held
    return "isolated" not in told or int(told["isolated"]) == int(told["moved"]) + int(told["back"])


def wrong_count(author, replies):
    """A reply whose counts don't add up, if there is one."""
    held = 0
    for command, reply in zip(author.asked, replies):
        held = held_after(held, command, reply)
        if not adds_up(fields(reply), held, 512 * author.blocks):
            return f"`{command}` is answered `{reply}` where {held} frames are handed out"
    return None


def has_frames_of_their_own(author, replies):
    """Whether the pages that the last lines look at, each at all of its addresses, have as many frames as there are
    pages."""
    looks = [fields(reply) for reply in replies[author.end : -1 : 2]]
    addresses = collections.Counter(look["frame"] for look in looks)
    is_one_page = all(addresses[look["frame"]] == int(look["maps"]) for look in looks)
    return is_one_page and len(addresses) == int(fields(replies[-1])["pages"])


def first_difference(author, replies):
    for at, (command, found, right) in enumerate(zip(author.asked, replies, author.replies), 1):
        if not machine.fits(found, right):
            return f"`{command}` has the reply {at}, `{found}`, and not `{right}`"
    return None


def wrong_reply(author, ran):
    """What is wrong with a run of an author's script, if anything is."""
    replies = ran.output.splitlines()
    if ran.status != 0 or ran.error or len(replies) != len(author.replies):
        return f"status {ran.status}, {ran.error}, {len(replies)} replies and not {len(author.replies)}"
    wrong = first_difference(author, replies) or wrong_count(author, replies)
    if not wrong and not has_frames_of_their_own(author, replies):
        return "two pages have one frame"
    return wrong


def try_script(number):
    """Runs a script, and says what is wrong with it, if anything is, and the words of its replies."""
    author = Author(number)
    ran = runs.written_for(author.script(), [f"--{name}={value}" for name, value in author.options.items()])
    wrong = wrong_reply(author, ran)
    kinds = kinds_of(author.asked, ran.output.splitlines())
    return wrong and f"script {number} with {author.options}: {wrong}", kinds


def kinds_of(asked, replies):
    """How often each refusal came, how many rounds moved a page, and how often pools stopped for each reason."""
    refusals = [reply for reply in replies if reply.startswith("refused ")]
    moved = [command.split()[0] for command, reply in zip(asked, replies) if has_moved(reply)]
    rounds = [ROUND_BESIDE if word == "during" else ROUND for word in moved]
    pools = [f"pool stopped={fields(reply)['stopped']}" for reply in replies if reply.startswith("got=")]
    return collections.Counter(refusals + rounds + pools)


def has_moved(reply):
    return reply.startswith("isolated=") and not reply.startswith("isolated=0")


ROUND = "rounds that moved a page"
ROUND_BESIDE = "rounds that moved a page beside a client"
WANTED = {f"refused {number}" for number in [*range(1, 13), 17, 18, 43, 44, 45]} | {ROUND, ROUND_BESIDE}
WANTED |= {f"pool stopped={reason}" for reason in ("enough", "noblock", "journalfull")}


def main():
    kinds, scripts = collections.Counter(), runs.some_of(range(SCRIPTS))
    for wrong, found in runs.each(try_script, scripts):
        if wrong:
            raise runs.Failed(wrong)
        kinds += found
    if set(kinds) - WANTED or len(scripts) == SCRIPTS and WANTED - set(kinds):
        wrong = sorted(WANTED ^ set(kinds))
        raise runs.Failed(f"the scripts have other kinds of replies than they should: {wrong}")
    told = f"{kinds[ROUND]} {ROUND} and {kinds[ROUND_BESIDE]} beside a client"
    return f"{len(scripts)} random scripts, with {told}, have the replies of checks/machine.py, and their counts add up"


if __name__ == "__main__":
    runs.start(main)
