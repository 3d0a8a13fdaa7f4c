"""The header for C and the archive name the same functions, and the archive has no data that is written and calls nothing but for memory.

Each function of the header takes what the export of its name takes in `crates/compactd_c/src`, in its order, and each structure of
the header has the fields of one there; the same holds of `bindings/rust/src/raw.rs`. `compactd.hpp` calls each function, some by functions
that the header has itself. Each function of the header is an export of the archive and of the shared library, and there is no other export but the three of the kit's heap in the
archive. Besides these it names malloc, realloc, free, memcpy, memmove and memset alone, so it can neither print nor wait nor end the
process. The headers compile from C89 and C++98 on, `compactd.hpp` from C++11, without a warning. A program calls each function and gets
each refusal, on pools that are closed, open, closed again and closed twice, with pages of both sizes; those of words that are lent
another program gets (`checks/c_examples.py`). The texts of refusals are the
same in the header's comments, in its function and in the crate for Rust. Each request for memory that an opening makes is refused in
turn: the answer is 14, the pool is closed, and nothing is lost. Those that a reservation and a keeper make are refused too: the answer is
14, and nothing is written. No other call asks for memory, accepted or refused."""

import pathlib
import re
import shutil
import tempfile

import c_programs
import runs

HEAP = {"rattle_alloc", "rattle_realloc", "rattle_dealloc"}
CALLED = {"malloc", "realloc", "free", "memcpy", "memmove", "memset"}
BY_OPENING = "-Wl,--wrap=malloc,--wrap=realloc,--wrap=free"
STANDARDS = {
    ("compactd.h", "c"): "c89 c99 c11 c17",
    ("compactd.h", "c++"): "c++98 c++11 c++17 c++20",
    ("compactd_round.h", "c"): "c89 c99 c17",
    ("compactd_round.h", "c++"): "c++98 c++11 c++20",
    ("compactd_memory.h", "c"): "c89 c99 c17",
    ("compactd_memory.h", "c++"): "c++98 c++11 c++20",
    ("compactd.hpp", "c++"): "c++11 c++14 c++17 c++20",
}
WARNINGS = {"c": c_programs.STRICT, "c++": [*c_programs.STRICT, "-Wold-style-cast", "-Wzero-as-null-pointer-constant"]}
SOURCES = runs.ROOT / "crates/compactd_c/src"
HELD_WORDS = runs.ROOT / "crates/row_core/src/held_words.rt"  # what the exports have as compactd_words
RAW = c_programs.BINDING / "src/raw.rs"
ERRORS = c_programs.BINDING / "src/error.rs"
POOL = "compactd_pool *"
HANDLES = ("Pool", "Handle")  # its names in Rattle and in Rust
NUMBERS = {"u32": "uint32_t", "i32": "int32_t", "u64": "uint64_t", "usize": "size_t", "bool": "compactd_bool"}
CALL = r"\b(compactd_\w+)\("
# Functions that the header has itself.
OF_HEADER = {
    *("compactd_refusal_text", "compactd_move_of", "compactd_list_moves", "compactd_pin_words", "compactd_unpin_words"),
    *("compactd_isolate_many", "compactd_commit_many"),
}
OF_POOLS = {"OK", "CLOSED", "OPEN", "MET", "NONE_LEFT"}  # what isn't an error of the crate for Rust, since its types see to it
# A byte of the kit's heap, whose address stands for memory of no size.
NOTHING = "nothing"


def symbols(file, *options):
    """The names in a file, under their kinds, as nm has them."""
    told = c_programs.done(["nm", *options, file], f"nm {file.name}").output.decode()
    found = {}
    for kind, name in re.findall(r"^[0-9a-f ]* ([A-Za-z]) (.*)$", told, re.M):
        found.setdefault(kind, set()).add(name.partition("@")[0])
    return found


def need_same(what, found, allowed):
    if found != allowed:
        raise runs.Failed(f"{what}: {sorted(found - allowed)} shouldn't be there, {sorted(allowed - found)} are missing")


def compare_names():
    """The exports, and what is called."""
    declared, folder = c_programs.exports_of_header(), c_programs.folder()
    archive, shared = symbols(folder / "libcompactd.a"), symbols(folder / "libcompactd.so", "-D", "--defined-only")
    need_same("exports of the archive", archive["T"], declared | HEAP)
    need_same("exports of the shared library", set().union(*shared.values()), declared)
    if others := archive["U"] - CALLED - HEAP:
        raise runs.Failed(f"the archive calls {sorted(others)}")
    written = set().union(*(archive.get(kind, set()) for kind in "bBdDC"))
    need_same("data that may be written", written, {NOTHING})
    return declared


def of_header():
    """What each function of the header takes and returns, and the fields of its structures."""
    text = c_programs.header_without_comments()
    calls = {}
    for returned, name, taken in re.findall(r"^(\w+) (compactd_\w+)\(([^)]*)\)[^;{]*;", text, re.M):
        kinds = [re.sub(r"\w+$", "", " ".join(it.split())).strip() for it in taken.split(",")]
        calls[name] = returned, [] if taken == "void" else kinds
    structures = re.findall(r"typedef struct (compactd_\w+) \{(.*?)\}", text, re.DOTALL)
    return calls, {name: fields_of_header(fields) for name, fields in structures if f"{name} *" != POOL}


def fields_of_header(text):
    return [(f"{kind}{star}{places}", name) for kind, star, name, places in re.findall(r"(\w+) (\*?)(\w+)(\[\d+\])?;", text)]


def of_sources():
    """The same of the exports, in the words of C."""
    text = "".join(map(code_of, sorted(SOURCES.rglob("*.rt")))) + code_of(HELD_WORDS).replace("len: usize", "count: usize")
    text = text.replace("HeldWords", "Words").replace("HeldMove", "LentMove")
    return calls_in(text, 'pub extern "C" fn'), structures_in(text)


def of_binding():
    """The same of what the crate for Rust declares."""
    text = code_of(RAW)
    return calls_in(text, "pub fn"), structures_in(text)


def code_of(file):
    """What a file of Rattle or Rust has besides comments."""
    return re.sub(r"//.*", "", file.read_text())


def calls_in(text, declared):
    """What functions of Rattle or Rust take and return, in the words of C. The kit's `Global` isn't seen in C."""
    calls = {}
    for name, taken, returned in re.findall(declared + r" (\w+)\(([^)]*)\)(?: -> (\w+))?", text):
        kinds = [kind for kind in re.findall(r"\w+: ([^,]+)", taken) if kind.strip() != "Global"]
        calls[name] = NUMBERS.get(returned, "void"), [it for kind in kinds for it in in_c(" ".join(kind.split()))]
    return calls


def structures_in(text):
    """The fields of the structures of Rattle or Rust that are laid out as C has them, but the handle's."""
    found = re.findall(r"#\[repr\(C\)\]\s*(?:#\[[^\n]*\]\s*)*pub struct (\w+) \{(.*?)\n\}", text, re.DOTALL)
    return {name_in_c(name): fields_in(fields) for name, fields in found if name not in HANDLES}


def fields_in(text):
    """Fields with their kinds in the words of C: a number, a pointer to one, an array of numbers, or a structure."""
    found = re.findall(r"(\w+): (?:(\*?)(?:mut )?(\w+)|\[(\w+); (\d+)\]),", text)
    return [
        (f"{NUMBERS.get(kind) or name_in_c(kind)}{star}" if kind else f"{NUMBERS[inner]}[{places}]", name)
        for name, star, kind, inner, places in found
    ]


def name_in_c(name):
    """The name in C of a structure: MovingPage is compactd_moving_page."""
    return "compactd" + re.sub(r"[A-Z]", lambda letter: f"_{letter[0].lower()}", name)


def in_c(kind):
    """The words of C for what a function takes. A slice is a pointer and a count."""
    shared, pointer, inner = re.fullmatch(r"(&mut |\*mut |(&|\*const )?)(.*)", kind).group(2, 1, 3)
    const = "const " if shared else ""
    is_slice, item = inner.startswith("["), inner.strip("[]")
    name = POOL[:-2] if item in HANDLES else NUMBERS.get(item) or name_in_c(item)
    return [f"{const}{name} *", "size_t"] if is_slice else [f"{const}{name} *" if pointer else name]


def compare_types():
    """What functions take, and the fields of structures, in the header, in the sources of the exports and in the crate for Rust."""
    need_same_types("the exports", of_sources())
    need_same_types("the crate for Rust", of_binding())


def need_same_types(where, declared):
    for what, of_c, others in zip(("function", "structure"), of_header(), declared):
        need_same(f"each {what} of {where}", set(others), set(of_c))
        if wrong := [f"{name}: {of_c[name]}, and in {where} {others[name]}" for name in of_c if of_c[name] != others[name]]:
            raise runs.Failed("\n".join(wrong))


def compare_texts():
    """The text of each refusal, in the header's comments, in its function, and for the errors of the crate for Rust."""
    text, numbers = (c_programs.HEADERS / "compactd.h").read_text(), c_programs.refusals()
    rows = re.search(r"enum compactd_refusal \{(.*?)\};", text, re.DOTALL)[1]
    in_comments = dict(re.findall(r"COMPACTD_(\w+) = \d+,? +/\* (.*) \*/", rows))
    in_function = dict(re.findall(r"case COMPACTD_(\w+): return \"(.*)\";", text))
    need_same("refusals with a text", set(in_function), set(numbers))
    need_same("texts of refusals", set(in_function.items()), set(in_comments.items()))
    in_rust = re.findall(r"\(Error::(\w+), (\d+), \"(.*)\"\)", ERRORS.read_text())
    wanted = {(name.title().replace("_", ""), str(numbers[name]), in_function[name]) for name in set(numbers) - OF_POOLS}
    need_same("errors of the crate for Rust", set(in_rust), wanted)


def compile_headers():
    """The headers by each compiler that there is, by themselves. How many times."""
    compilers = {"c": ["gcc", "clang"], "c++": ["g++", "clang++"]}
    for compiler in filter(lambda name: not shutil.which(name), sum(compilers.values(), [])):
        runs.leave_out(f"the headers by {compiler}", "it isn't there")
    commands = [
        [compiler, f"-std={standard}", "-D_POSIX_C_SOURCE=200809L", "-D_DEFAULT_SOURCE", *WARNINGS[language], "-fsyntax-only", "-x", language, source]
        for (header, language), standards in STANDARDS.items()
        for standard in standards.split()
        for compiler in compilers[language]
        if shutil.which(compiler)
        for source in [c_programs.HEADERS / header]
    ]
    for command in commands:
        alone = ["-Wno-pragma-once-outside-header"] if command[0].startswith("clang") else []
        c_programs.done([*command, *alone], f"{pathlib.Path(command[-1]).name} isn't compiled by {command[0]} {command[1]}")
    return len(commands)


def calls_of_header():
    """What each function that the header has itself calls."""
    bodies = re.findall(r"^COMPACTD_IN_HEADER \w+ \*?(compactd_\w+)\([^{]*\)\n\{(.*?)^\}", c_programs.header_without_comments(), re.M | re.S)
    return {name: set(re.findall(CALL, body)) for name, body in bodies}


def need_every_call(declared):
    """Each function stands in the program that calls them, and each refusal there or where words are lent, but MEMORY, which another one
    gets. The class for C++ calls each function, or one of the header that does, but for the one that tells the version."""
    text, of_lending, of_memory = ((runs.ROOT / f"c/tests/{name}.c").read_text() for name in ("every_call", "lent", "refused_memory"))
    called, by_class = (set(re.findall(CALL, it)) for it in (text, (c_programs.HEADERS / "compactd.hpp").read_text()))
    by_class = by_class.union(*(calls for name, calls in calls_of_header().items() if name in by_class))
    refused = set(re.findall(r"\bIS\(([A-Z_]+),", text + of_lending)) | {"OK"} | ({"MEMORY"} if "COMPACTD_MEMORY" in of_memory else set())
    need_same("functions that are called", called, declared | OF_HEADER)
    if lacking := declared - by_class - {"compactd_version"}:
        raise runs.Failed(f"compactd.hpp doesn't call {sorted(lacking)}")
    need_same("refusals that come up", refused, set(c_programs.refusals()))


def main():
    compare_types()
    compare_texts()
    declared = compare_names()
    compiled = compile_headers()
    need_every_call(declared)
    with tempfile.TemporaryDirectory() as room:
        for name, options in (("every_call", []), ("refused_memory", [BY_OPENING])):
            built = c_programs.built(runs.ROOT / f"c/tests/{name}.c", pathlib.Path(room, name), options)
            ran = c_programs.done([built], name)
    requests = re.findall(rb"(\d+) requests", ran.output)
    return (
        f"{len(declared)} functions are exported and called, {len(c_programs.refusals()) - 1} refusals come up, the headers are compiled"
        f" {compiled} times, and each of {sum(map(int, requests))} requests for memory of {len(requests)} openings was refused in turn"
    )


if __name__ == "__main__":
    c_programs.start(main, "gcc", "g++", "nm")
