"""Each proof by hand in a crate that can reach an unrecorded list is a file of a table, as it was read.

An unrecorded list (`GhostList` of `frame_core`) has no bytes: only clauses fix what is in it. The prover's own proofs keep to them. A
proof by hand of a function that is handed such a list, or anything that has one in it, could give it other items. So in `frame_core` and
in the crates that stand on it each file that proves by hand, and each source that asks for it by the word `unsafe`, is named in
`HAND_PROOFS` with its reason and its SHA-256. Another file, or another text of one of these, fails this check. By hand is each file in
a folder of `proofs/` but the answers and invariants, with which the prover goes on by itself.

The library for C keeps a zone, with the list in it, behind a pointer. The functions of its handle test the pointer, lend what lies
there, and make of a box its pointer and of the pointer a box. What such a proof has of a zone is what the box had: its block, owned as a
whole, at one value, which goes in and out as it is. The fields of a zone are private to other crates, so these proofs can't name them.
They share lemmas, so every file in the folder `proofs` of that crate has to be in the table, and none of them may name a list, a journal
or a record.

A crate of `BELOW` may prove by hand what it needs, and its files aren't in the table. It stands below `frame_core`: it can't name a list,
and what reaches a list goes upwards, to crates that stand on the list's. A value of a crate above could still be handed to it by a
parameter of types, as a closure is. So no function that is proved by hand there has such a parameter, nor has its type.

    python3 checks/hand_proofs.py digests

prints the table as the files are now, to be read with them and put in its place."""

import functools
import hashlib
import re
import sys

import runs
import sources
from launch import program

LIST = "frame_core"
HANDLE = "compactd_c"
UNSAFE = re.compile(r"\bunsafe\b")
# An export's name is marked so, which asks for no proof.
EXPORTED = "#[unsafe(no_mangle)]"
BY_ITSELF = {"Answers.antt", "Invariants.antt"}
OF_A_LIST = re.compile(r"told|ghost_?list|unrecorded|journal|records?\b", re.IGNORECASE)
A_RECORD = re.compile(r"\brecord\b(?= *(\w* *)?\{)")  # `record { .. }` makes a value of any type

HAND_PROOFS = {
    "crates/compactd_c/proofs/Boxed.antt": (
        "what the proofs of the handle share: a box at the heap",
        "23a7284cbb271f087d0f27d8f14da479ca8f0a1ded570f42a6b3aa35d7bb1e72",
    ),
    "crates/compactd_c/proofs/Either.antt": (
        "what they share: a pool is closed or has a zone, by its pointer",
        "8569e42bfc06b264560d9af9dad4e5bec82453f39a130ed89be488ce8892ab58",
    ),
    "crates/compactd_c/proofs/LentMoves.antt": (
        "it has lemmas on the moves of a zone, and proves no function by hand",
        "d47b60e76663c7fc73ededfc70ef2bcace347fa543435b5981bd18546c03a310",
    ),
    "crates/compactd_c/proofs/Lib.antt": (
        "it names the five files beside it",
        "a881099f3ef7e4fa5b294044e38de8541285c614ea58cfbe9bab2400fc035850",
    ),
    "crates/compactd_c/proofs/Turns.antt": (
        "it says what one more request leaves, and proves no function by hand",
        "ac51ec21ec8f9197769b3ffa23f1e1385d13eaacf763c9282940ca612840732e",
    ),
    "crates/compactd_c/proofs/Walks.antt": (
        "the names that these proofs share",
        "a9856284147c2addd44e413009cb2c68d609e26a8d344441628e38f144f46fb9",
    ),
    "crates/compactd_c/proofs/batches/change_all/Answers.antt": (
        "it says that one more request had its turn, and proves no function by hand",
        "c0586d82ef549ca13bee2ee73e89cb97198233812bc73faf3a208ee52585b722",
    ),
    "crates/compactd_c/proofs/batches/change_all/Invariants.antt": (
        "it says how many requests had their turns, and proves no function by hand",
        "2f4dcecbd7a689ac7001f152b9b4d216aff51894e6144e2c5fb0e113aa09e86b",
    ),
    "crates/compactd_c/proofs/keeping/compactd_keep/Answers.antt": (
        "it says which step the function made, and proves no function by hand",
        "336aef64d1ec28f25a613f6fed850e4b67ebbd8b8f3512c9752536933056bccb",
    ),
    "crates/compactd_c/proofs/keeping/frames_of/Invariants.antt": (
        "it says how many of the numbers are frames of the list, and proves no function by hand",
        "74f0363102ebdbd9002facaab18944d07e5ee9ff786f6424cc99ca554ccc4c80",
    ),
    "crates/compactd_c/proofs/memory/compactd_close_in/Answers.antt": (
        "it says that a zone that isn't refused lends no words, and proves no function by hand",
        "e90230a289435db70d1216d6c5429b31798075e4f411357e1fc0d47ce7d3c878",
    ),
    "crates/compactd_c/proofs/memory/compactd_return_block/Answers.antt": (
        "it says that the words lie where those of the block do, and proves no function by hand",
        "4a7d84d61321711a9d17629032ac56295e9f352bc234a02cb52491d1cf6212d7",
    ),
    "crates/compactd_c/proofs/memory/compactd_return_page/Answers.antt": (
        "it says that the words lie where those of the page do, and proves no function by hand",
        "16c670dc9113b971c7d9de1b9a397df54b6eb1bf683c59f99b3a35ce572698ac",
    ),
    "crates/compactd_c/proofs/pool/Pool/TheSendSync/Send.antt": (
        "the prover finds no pointer fit to go to another thread",
        "71f51c12493482d3a4862b42e32285477135070016713df46b2b9ad096128f0c",
    ),
    "crates/compactd_c/proofs/pool/Pool/closed/Proof.antt": (
        "the prover has no steps that make a null pointer",
        "d3f1bdecad07abb75013e81207738c98d17456f6a7e56f60980cd9907ec7628e",
    ),
    "crates/compactd_c/proofs/pool/Pool/holding/Proof.antt": (
        "the prover has no steps that change the type of a pointer",
        "4ca5f12157a019184d3ded745d7212e79ff69aabade23ba41321b4e5d01564dc",
    ),
    "crates/compactd_c/proofs/pool/Pool/into_zone/Proof.antt": (
        "the prover has no steps that test a pointer and make a box of it",
        "59f199287027729e1796627c1cf5b5d0da20ee7b2126a0db015949425e38ea7b",
    ),
    "crates/compactd_c/proofs/pool/Pool/zone/Proof.antt": (
        "the prover has no steps that test a pointer and lend what lies there",
        "705f29f9eb54e4bb996a2691f5272dd05a3fe40102f1083a303de0c32cd4f8b3",
    ),
    "crates/compactd_c/proofs/pool/unboxed/Unboxed/of/Proof.antt": (
        "the prover has no steps that make a pointer of a box",
        "ef41be606049381647691973304bcb6ddaefc82358c4aa7580cdb5f70c2de208",
    ),
    "crates/compactd_c/proofs/reserving/write_numbers/Invariants.antt": (
        "it says how many of the numbers are written, and proves no function by hand",
        "18903cc8d90fcb315c40b3a13ba86e87e8b8d112b0fe74cecc4b40d486cb26aa",
    ),
    "crates/compactd_c/proofs/zone/Zone/lend_page/Answers.antt": (
        "it says that a page has some words, and proves no function by hand",
        "33de460a5ef6ea7d003721d2981fc525dc56ef5d30814c84c45c292767f6c7e0",
    ),
    "crates/compactd_c/proofs/zone/empty_some/Answers.antt": (
        "it says that a run has no more claimed frames than frames, and proves no function by hand",
        "e2d474ff3dfa0f8c574490e0dc6ee3e2f914c512966591f2877280c0e4838108",
    ),
    "crates/compactd_c/proofs/zone/lending/end_refusal/Answers.antt": (
        "it says whether any words are lent, and proves no function by hand",
        "a5b0a56d92baf664c30c4c4c1156e0b1d6d25eac0c3608c8480f9a0455f466d0",
    ),
    "crates/compactd_c/proofs/zone/lent_moves/frame_no/Answers.antt": (
        "it says that no move leaves the zone, and proves no function by hand",
        "15b6d3e1a5fd83b27336eb35f82152a48bc0f6adf8af319c051ad51350c650b8",
    ),
    "crates/compactd_c/proofs/zone/lent_moves/way_of/Answers.antt": (
        "it says which moves a zone hasn't, and proves no function by hand",
        "0d08ff3b01a2c4a9df8207d7f7c633b09ebb22bb8bc25b0d7755b55332174e10",
    ),
    "crates/compactd_c/src/pool.rt": (
        "it makes a box of its pointer or lends what lies there, and may go to another thread",
        "b26e6210a9cef64380e8af249fc29c7cf52ea60180bc07976e1c91eaa9825807",
    ),
    "crates/frame_core/proofs/seen/Seen/TheSendSync/Send.antt": (
        "a value with no bytes owns nothing, so it may go to any thread",
        "2ba4451541cb0d295dec37fab1fafcb527c63f48d5ea9dbb6997824899c7c496",
    ),
    "crates/frame_core/proofs/seen/Seen/TheSendSync/Sync.antt": (
        "a value with no bytes owns nothing, so threads may share it",
        "6b351bdb6dc49a72d4ecfccb307266e981fd18e8b897c7f547e42646cdcba8a6",
    ),
    "crates/frame_core/proofs/seen/Seen/of/Proof.antt": (
        "no memory fixes a value for contracts of what a reference shows",
        "fcfe49093f0cb8b1ffb339d7cfe0676b857eaf7bc586420bec244c1522980a3e",
    ),
    "crates/frame_core/src/seen.rt": (
        "it says that any thread may have such a value",
        "04bebf8ea6d694cafa323e924f84e900989c7ab2e46164d5eed5122fec327579",
    ),
}

# The crates below that of the lists that may prove by hand, and why they have to.
BELOW = {
    "row_core": "it parts and moves the right to memory, and the prover has no steps for that",
}
OF_A_TYPE = re.compile(r"The[A-Z]")  # a folder with what is proved of a type, and of no function


def reaching():
    """The crate of unrecorded lists and those that stand on it."""
    crates, found = program.libraries_used(runs.ROOT), {LIST}
    while more := {name for name, libraries in crates.items() if name not in found and found & set(libraries)}:
        found |= more
    return sorted(found)


def files_of(crates):
    """The text of each source and each proof of these crates, by its path."""
    folders = [runs.ROOT / "crates" / crate / part for crate in crates for part in ("src", "proofs")]
    paths = [path for folder in folders for ending in ("rt", "antt") for path in sorted(folder.rglob(f"*.{ending}"))]
    return {str(path.relative_to(runs.ROOT)): path.read_text() for path in paths}


@functools.cache
def is_by_hand(path, text):
    """Whether a file proves by hand, helps to, or asks for it."""
    _, crate, part, *inside = path.split("/")
    if part == "src":
        return bool(UNSAFE.search(sources.code_of(text).replace(EXPORTED, "")))
    return crate == HANDLE or len(inside) > 1 and inside[-1] not in BY_ITSELF


def digest_of(text):
    return hashlib.sha256(text.encode()).hexdigest()


def wrong_below(below, files):
    """What is wrong with the proofs by hand among these files of the crates that can't reach a list, a line for each."""
    for crate in sorted(BELOW.keys() - below):
        yield f"{crate} may prove by hand as a crate below that of the lists, and is none"
    for path, text in files.items():
        crate = path.split("/")[1]
        if crate not in BELOW and is_by_hand(path, text):
            yield f"{path} proves by hand, or asks for it, and its crate is none of those that may"
        elif crate in BELOW and (name := name_proved(path)) and not has_no_types(name, files):
            yield f"{path} proves a function by hand that has a parameter of types, or isn't there"


def name_proved(path):
    """The crate, the modules, the type and the function that a file proves by hand, if it proves a function."""
    _, crate, part, *inside = path.split("/")
    is_proof = part == "proofs" and inside[-1] == "Proof.antt" and not OF_A_TYPE.match(inside[-2])
    return (crate, *inside[:-1]) if is_proof else None


def has_no_types(name, files):
    """Whether a function stands in the file of its module, and neither it nor its type has a parameter of types."""
    crate, module, *types, function = name
    code = sources.code_of(files.get(f"crates/{crate}/src/{module}.rt", ""))
    return f" fn {function}(" in code and all(f"\nimpl {it} {{" in code for it in types)


def names_a_list(text):
    """Whether a proof names what the list of a zone is in, but for comments and the words `record { .. }`."""
    return OF_A_LIST.search(A_RECORD.sub("", re.sub(r"(?m)(^|\s)--.*", "", text)))


def wrong_in(files):
    """What is wrong with the proofs by hand among these files, a line for each."""
    by_hand = {path: text for path, text in files.items() if is_by_hand(path, text)}
    for path in sorted(by_hand.keys() | HAND_PROOFS.keys()):
        if path not in HAND_PROOFS:
            yield f"{path} proves by hand, or asks for it, and isn't in the table"
        elif path not in by_hand:
            yield f"{path} is in the table, and proves nothing by hand"
        elif digest_of(by_hand[path]) != HAND_PROOFS[path][1]:
            yield f"{path} isn't the file that was read for the table"
        elif path.startswith(f"crates/{HANDLE}/proofs/") and names_a_list(by_hand[path]):
            yield f"{path} names a list, a journal or a record"


# The check of this check: lines and files that ask for a proof by hand, each of which it has to find.

PLANTED = {
    "crates/frame_core/src/order.rt": "/* // */ unsafe impl Send for Order {}\n",
    "crates/zone_core/src/zone.rt": 'const WHERE: &str = "//"; unsafe impl Send for Order {}\n',
    "crates/state_core/src/call.rt": "/* a /* b */ c */ unsafe fn reached() {}\n",
    "crates/frame_core/src/seen.rt": "unsafe impl<T> Send for Past<T> {}\n",
    "crates/compactd_c/src/zone.rt": "#[unsafe(no_mangle)] pub unsafe fn reached() {}\n",
    "crates/compactd_c/proofs/Walks.antt": "pub use Rattle.frame_core.proofs.seen.Past.{items}\n",
    "crates/compactd_c/proofs/Helper.antt": "-- A lemma that another proof cites.\n",
    "crates/compactd_c/proofs/pool/Helper.antt": "-- A lemma that the proofs of the handle cite.\n",
    "crates/compactd_c/proofs/pool/Pool/zone/Reached/Proof.antt": "-- A further proof of the handle.\n",
    "crates/compactd_c/proofs/calls/Answers.antt": "-- Answers beside the handle's proofs.\n",
    "crates/zone_core/proofs/zone/Zone/TheSendSync/Send.antt": "-- That a zone may go to another thread.\n",
    "crates/zone_core/proofs/zone/Zone/TheSendSync/Sync.antt": "-- That threads may share a zone.\n",
    "crates/client_core/proofs/client/Client/load/Proof.antt": "-- A proof of a function that has such a list.\n",
}
PLANTED_BELOW = {
    "crates/low_core/src/lib.rt": "unsafe fn reached() {}\n",
    "crates/row_core/proofs/right/Right/gone/Proof.antt": "-- A proof of a function that isn't there.\n",
    "crates/row_core/proofs/ground/Ground/with/Proof.antt": "-- A proof of a function that takes a closure.\n",
}
NAMING = (
    "use Rattle.frame_core.specs.declared.record.Record.{Record}\n",
    "use Rattle.frame_core.specs.Journal.{Journal}\n",
    "list : GhostList\n",
)
NOT_NAMING = ("-- its journal\n", "x = record { a = b }\n", "record Owned {\n")


def try_itself(files, below):
    """Each line that is planted, at the end of a file or as a new one, is found."""
    for path, line in PLANTED_BELOW.items():
        found = [*wrong_below(BELOW.keys() | {"low_core"}, {**below, path: line})]
        if len(found) != 1 or not found[0].startswith(path):
            raise runs.Failed(f"{path} proves by hand below the lists with the line {line.strip()!r}, and that isn't found: {found}")
    if not [*wrong_below(set(), below)]:
        raise runs.Failed("a crate of those below comes to stand on the lists, and that isn't found")
    for path, line in PLANTED.items():
        found = [*wrong_in({**files, path: files.get(path, "") + line})]
        if len(found) != 1 or not found[0].startswith(path):
            raise runs.Failed(f"{path} proves by hand with the line {line.strip()!r}, and that isn't found: {found}")
    if path := next((path for path in HAND_PROOFS if not [*wrong_in({k: v for k, v in files.items() if k != path})]), None):
        raise runs.Failed(f"{path} is gone, and that isn't found")
    if text := next((text for text in (*NAMING, *NOT_NAMING) if bool(names_a_list(text)) != (text in NAMING)), None):
        raise runs.Failed(f"whether this names a list isn't found: {text.strip()}")
    return len(PLANTED) + len(PLANTED_BELOW) + len(HAND_PROOFS) + 1


def table_text():
    """The table of the files that prove by hand, as they are now."""
    by_hand = [(path, text) for path, text in sorted(files_of(reaching()).items()) if is_by_hand(path, text)]
    return "\n".join(["HAND_PROOFS = {", *(row_text(path, text) for path, text in by_hand), "}"])


def row_text(path, text):
    return f'    "{path}": (\n        "{reason_of(path)}",\n        "{digest_of(text)}",\n    ),'


def reason_of(path):
    return HAND_PROOFS[path][0] if path in HAND_PROOFS else "why no proof of the prover's own serves"


def main():
    crates = reaching()
    below = program.libraries_used(runs.ROOT).keys() - set(crates)
    files, files_below = files_of(crates), files_of(sorted(below))
    if wrong := [*wrong_in(files), *wrong_below(below, files_below)]:
        raise runs.Failed("\n".join(["proofs by hand that aren't as they were read, or may not be:", *wrong]))
    tried = try_itself(files, files_below)
    return (
        f"crates that can reach an unrecorded list: {len(crates)}; what they prove by hand is {len(HAND_PROOFS)} files, as they were"
        f" read; {tried} other files and lines are found"
    )


if __name__ == "__main__":
    is_table = sys.argv[1:] == ["digests"]
    if is_table:
        sys.argv.pop()
    runs.start(table_text if is_table else main)
