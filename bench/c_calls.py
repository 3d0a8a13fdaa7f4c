"""Calls a second over the library for C, in millions: from C, from Rust, and from C to a plain Rust program.

    python3 bench/c_calls.py [--baseline FOLDER]

All are measured in one run, each row after the other in each program. The library is the one that `./prove --c` left, or that of the
folder which the variable COMPACTD_DIR names. It needs gcc, and cargo for Rust. The plain Rust program is the crate `baseline` whose
sources the folder has; its zone is called through functions of the same names (`bench/c_calls_plain.rs`). It keeps a journal and has
pages of 64 bytes alone, so it has no number in the other rows. At last the sizes of the library are told."""

import argparse
import os
import pathlib
import shutil
import subprocess
import sys
import tempfile

ROOT = pathlib.Path(__file__).resolve().parent.parent
BENCH = ROOT / "bench"
BINDING = ROOT / "bindings/rust"
LEFT = ROOT / "crates/compactd_c/out/c"
PACKAGE = """[package]
name = "plain"
version = "0.0.0"
edition = "2021"

[lib]
crate-type = ["staticlib"]
path = "{source}"

[dependencies]
baseline = {{ path = "{folder}" }}

[profile.release]
lto = true
codegen-units = 1
"""


def run(*command, **how):
    return subprocess.run([str(word) for word in command], check=True, **how)


def folder():
    """The folder of the library."""
    found = pathlib.Path(os.environ.get("COMPACTD_DIR", LEFT)).resolve()
    if not (found / "libcompactd.a").is_file():
        sys.exit(f"there is no library in {found}: `./prove --c` builds it")
    return found


def in_c(built, source, library, *options):
    """A program in C over a library, compiled."""
    words = ["-std=c89", "-D_POSIX_C_SOURCE=200809L", "-O2", *options, f"-I{ROOT / 'c/include'}"]
    run("gcc", *words, "-o", built, BENCH / source, library, "-lpthread", "-ldl", "-lm")
    return built


def in_rust(room, folder):
    """The program in Rust over the crate `compactd`, compiled."""
    built, target = room / "rust_calls", room / "rust"
    variables = {**os.environ, "COMPACTD_DIR": str(folder), "CARGO_TARGET_DIR": str(target)}
    run("cargo", "build", "-q", "--release", "--offline", "--locked", cwd=BINDING, env=variables)
    crate = f"compactd={target / 'release/libcompactd.rlib'}"
    run("rustc", "--edition=2021", "-Copt-level=3", "--extern", crate, f"-Lnative={folder}", "-o", built, BENCH / "c_calls.rs")
    return built


def plain_library(room, folder):
    """The plain Rust program as a static library with the same calls."""
    package, target = room / "plain", room / "plain_target"
    package.mkdir()
    (package / "Cargo.toml").write_text(PACKAGE.format(source=BENCH / "c_calls_plain.rs", folder=folder))
    settings = folder / ".cargo/config.toml"
    options = ["--config", settings] if settings.is_file() else []
    variables = {**os.environ, "CARGO_TARGET_DIR": str(target)}
    run("cargo", *options, "build", "-q", "--release", "--offline", cwd=package, env=variables)
    return target / "release/libplain.a"


def rows_of(program):
    """What a program tells: millions of calls a second, by what was called."""
    lines = run(program, stdout=subprocess.PIPE, text=True).stdout.splitlines()
    return dict(line.split("\t") for line in lines)


def programs(room, folder, baseline):
    """The programs that are measured, under the heads of their columns."""
    found = {"from C": in_c(room / "c_calls", "c_calls.c", folder / "libcompactd.a")}
    if shutil.which("cargo"):
        found["from Rust"] = in_rust(room, folder)
    if baseline:
        plain = plain_library(room, pathlib.Path(baseline).resolve())
        found["plain Rust"] = in_c(room / "plain_calls", "c_calls.c", plain, "-DPLAIN")
    return found


def show(columns):
    """A table of what the programs tell."""
    print(f"{'millions a second':38}" + "".join(f"{head:>12}" for head in columns))
    for row in columns["from C"]:
        print(f"{row:38}" + "".join(f"{column.get(row, ''):>12}" for column in columns.values()))


def main():
    parser = argparse.ArgumentParser(description=__doc__, formatter_class=argparse.RawDescriptionHelpFormatter)
    parser.add_argument("--baseline", metavar="FOLDER", help="the sources of the plain Rust program")
    given = parser.parse_args()
    library = folder()
    with tempfile.TemporaryDirectory() as room:
        built = programs(pathlib.Path(room), library, given.baseline)
        show({head: rows_of(program) for head, program in built.items()})
    for name in ("libcompactd.a", "libcompactd.so"):
        print(f"{name}: {(library / name).stat().st_size:,} bytes")


if __name__ == "__main__":
    main()
