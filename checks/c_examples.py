"""The examples of the library for C write what stands beside them, from C, C++ and Rust, also under AddressSanitizer, UBSan and valgrind.

The archive is linked by name and as pkg-config has it, and the shared library too. The program of `docs/C.md` compiles without a warning
and writes what stands there. The tests and documents of the Rust crate pass, and
threads that share a pool under one lock are clean under gcc's ThreadSanitizer. The sanitizers see what the C and C++ of the examples
and the headers do, and the memory that the library asks for and copies, but not its own loads and stores; valgrind sees these too.

It needs gcc and g++. What it tries with valgrind, pkg-config and cargo is left out where they aren't there, and a line says so."""

import os
import pathlib
import re
import shutil
import tempfile

import c_programs
import runs
from c_programs import BINDING, EXAMPLES

TESTS = runs.ROOT / "c/tests"
PROGRAMS = [
    *(EXAMPLES / name for name in ("first.c", "buffers.c", "vm.cpp", "keeper.cpp", "host.c", "host.cpp", "database.c", "database.cpp")),
    *(TESTS / name for name in ("every_call.c", "lent.c", "four_threads.c", "rounds.c", "workers.c", "emptying.c", "owners.cpp", "shared_rounds.cpp")),
]
ADDRESSES = ["-fsanitize=address,undefined", "-fno-sanitize-recover=all"]
THREADS = ["-fsanitize=thread"]
# Its threads take turns: else one that makes calls all the time keeps the others from going on for minutes.
VALGRIND = ["valgrind", "-q", "--error-exitcode=9", "--leak-check=full", "--fair-sched=try"]
OF_C = ["--errors-for-leak-kinds=all"]
# Rust's library keeps memory of a thread until the program ends.
OF_RUST = ["--errors-for-leak-kinds=definite", "--show-leak-kinds=definite"]
OF_THREADS = ("buffers.c", "four_threads.c", "rounds.c", "workers.c", "emptying.c", "shared_rounds.cpp", "keeper.cpp", "database.c", "database.cpp")
# They write times and memory to standard error.
TIMED = ("keeper.cpp", "keeper.rs", "host.c", "host.cpp", "host.rs", "database.c", "database.cpp", "database.rs")
IN_RUST = sorted((BINDING / "examples").glob("*.rs"))


def wanted(source):
    """What a program writes: what stands in the file beside it, which is named by its whole name or by its stem, or anything where there
    is none."""
    files = (source.with_name(f"{source.name}.output"), source.with_suffix(".output"))
    return next((file.read_bytes() for file in files if file.is_file()), None)


def compare(command, source, how):
    ran = c_programs.done(command, f"{source.name} {how}")
    if wanted(source) not in (None, ran.output):
        raise runs.Failed(f"{source.name} {how} writes\n{c_programs.text(ran.output)}")
    if ran.error and source.name not in TIMED:
        raise runs.Failed(f"{source.name} {how} writes errors\n{c_programs.text(ran.error)}")


def try_program(source, room):
    """Runs a program, and runs it under each tool that there is. Returns under how many."""
    plain = c_programs.built(source, room / source.stem)
    compare([plain], source, "")
    tried = [("under AddressSanitizer and UBSan", [c_programs.built(source, room / f"{source.stem}_a", ADDRESSES)])]
    if source.name in OF_THREADS:
        tried.append(("under ThreadSanitizer", [c_programs.built(source, room / f"{source.stem}_t", THREADS)]))
    if shutil.which("valgrind"):
        tried.append(("under valgrind", [*VALGRIND, *OF_C, plain]))
    for how, command in tried:
        compare(command, source, how)
    return len(tried)


def try_linking(room):
    """Links an example by the shared library, and as pkg-config says."""
    folder, source = c_programs.folder(), EXAMPLES / "first.c"
    by_name = ["gcc", source, f"-I{folder}", f"-L{folder}", "-lcompactd", f"-Wl,-rpath,{folder}", "-o", room / "shared"]
    c_programs.done(by_name, "first.c isn't linked with the shared library")
    compare([room / "shared"], source, "with the shared library")
    if not shutil.which("pkg-config"):
        return
    asked = ["pkg-config", "--cflags", "--libs", "compactd"]
    told = c_programs.done(asked, "pkg-config", env={**os.environ, "PKG_CONFIG_PATH": str(folder)})
    c_programs.done(["gcc", source, *c_programs.text(told.output).split(), "-o", room / "packaged"], "as pkg-config has it")
    compare([room / "packaged"], source, "as pkg-config has it")


def try_manual(room):
    """Compiles the first program of the manual, and compares what it writes with the lines below its command."""
    text = re.sub(r"^   ", "", (runs.ROOT / "docs/C.md").read_text(), flags=re.M)
    program, lines = re.search(r"^```c\n(.*?)^```", text, re.M | re.S)[1], re.search(r"^\$ ./try\n(.*?)^```", text, re.M | re.S)[1]
    source = room / "try.c"
    source.write_text(program)
    ran = c_programs.done([c_programs.built(source, room / "try")], "the program of docs/C.md")
    if c_programs.text(ran.output) != lines:
        raise runs.Failed(f"the program of docs/C.md writes\n{c_programs.text(ran.output)}")


def try_rust(room):
    """Builds the crate outside the repository, and runs its tests, those of its documents, and its examples."""
    variables = {**os.environ, "COMPACTD_DIR": str(c_programs.folder()), "CARGO_TARGET_DIR": str(room), "RUSTFLAGS": "-D warnings"}
    for words in (["test"], ["build", "--examples"]):
        command = ["cargo", *words, "-q", "--offline", "--locked"]
        c_programs.done(command, f"{' '.join(command[:2])} of the Rust crate", cwd=BINDING, env=variables)
    for source in IN_RUST:
        program = room / "debug/examples" / source.stem
        compare([program], source, "")
        if shutil.which("valgrind"):
            compare([*VALGRIND, *OF_RUST, program], source, "under valgrind")


def main():
    lacking = [tool for tool in ("valgrind", "pkg-config", "cargo") if not shutil.which(tool)]
    for tool in lacking:
        runs.leave_out(f"what needs {tool}", "it isn't there")
    with tempfile.TemporaryDirectory() as room:
        room = pathlib.Path(room)
        tried = sum(try_program(source, room) for source in PROGRAMS)
        try_linking(room)
        try_manual(room)
        if "cargo" not in lacking:
            try_rust(room / "rust")
    rust = "" if "cargo" in lacking else f", the Rust crate's tests pass and its {len(IN_RUST)} examples write what they have to"
    return f"{len(PROGRAMS)} programs in C and C++ write what they have to, and {tried} times under tools{rust}"


if __name__ == "__main__":
    c_programs.start(main, "gcc", "g++")
