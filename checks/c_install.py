"""The library for C, installed below a prefix that is then moved, is found there by pkg-config, the linker, CMake and cargo.

What lies below the prefix is what the installation told, with the version of the header. By each way a program is built, and it writes what
stands beside it: with the static library as pkg-config names it, with the shared library, which it loads by the name with the major version,
with both targets of the CMake package, and in Rust. CMake takes the package for its own minor version and for a range that it lies in, and
for no other. Where a file is in the way of the prefix, the installation ends with status 1 and says so.

What it tries with pkg-config, cmake and cargo is left out where they aren't there, and a line says so."""

import contextlib
import io
import os
import pathlib
import re
import shutil
import tempfile

import c_programs
import runs
from c_programs import BINDING, EXAMPLES, done
from launch import c_library, c_package

FIRST = EXAMPLES / "first.c"
WANTED = FIRST.with_suffix(".output").read_bytes()
TARGETS = ("compactd", "compactd_shared")
PROJECT = """cmake_minimum_required(VERSION 3.19)
project(first C)
foreach(others {others})
  find_package(compactd ${{others}} QUIET)
  if(compactd_FOUND)
    message(FATAL_ERROR "compactd {version} is taken for ${{others}}")
  endif()
endforeach()
foreach(own {own})
  find_package(compactd ${{own}} REQUIRED)
endforeach()
if(NOT compactd_VERSION STREQUAL "{version}")
  message(FATAL_ERROR "the version is ${{compactd_VERSION}}")
endif()
foreach(target {targets})
  add_executable(${{target}} "{source}")
  target_link_libraries(${{target}} compactd::${{target}})
endforeach()
"""


def need_same(what, found, wanted):
    if found != wanted:
        raise runs.Failed(f"{what}: {found!r}, and not {wanted!r}")


def compare(program, how, wanted=WANTED):
    """Runs a program, which has to write what is wanted."""
    need_same(f"what a program {how} writes", done([program], f"a program {how}").output, wanted)


def dynamic_names(file, kind):
    """What an ELF file says under a kind of names, such as SONAME."""
    told = c_programs.text(done(["readelf", "-d", file], f"readelf {file.name}").output)
    return re.findall(rf"\({kind}\).*\[(.*)\]", told)


def installed(room):
    """Installs the library, looks at what is there then, and moves it. Returns the prefix."""
    first, moved = room / "first", room / "moved"
    places = c_package.install(c_programs.folder(), first)
    found = [str(path.relative_to(first)) for path in first.rglob("*") if not path.is_dir()]
    need_same("what is installed", sorted(found), sorted(places))
    return first.rename(moved)


def need_refusal(room):
    """Where a file is in the way of the prefix, nothing is installed."""
    in_the_way, said, status = room / "file", io.StringIO(), None
    in_the_way.touch()
    with contextlib.redirect_stderr(said):
        try:
            c_package.install(c_programs.folder(), in_the_way / "prefix")
        except SystemExit as ended:
            status = ended.code
    need_same("the status where a file is in the way", status, 1)
    need_same("that the prefix is named in one line", str(in_the_way / "prefix") in said.getvalue() and said.getvalue().count("\n"), 1)


def try_pkg_config(prefix, version, room):
    """Builds a program with the static library, as pkg-config names it."""

    def told(*options):
        variables = {**os.environ, "PKG_CONFIG_PATH": str(prefix / "lib/pkgconfig")}
        return c_programs.text(done(["pkg-config", *options, "compactd"], "pkg-config", env=variables).output).split()

    need_same("the version that pkg-config tells", told("--modversion"), [version])
    need_same("-pthread beside the private libraries", "-pthread" in told("--libs", "--static"), True)
    done(["gcc", FIRST, *told("--cflags", "--libs"), "-o", room / "packaged"], "as pkg-config has it")
    compare(room / "packaged", "as pkg-config has it")
    need_same("libraries of ours that it loads", [it for it in dynamic_names(room / "packaged", "NEEDED") if "compactd" in it], [])


def try_shared(prefix, version, room):
    """Builds a program with the shared library, and looks under which name it is loaded."""
    library, program = prefix / "lib", room / "shared"
    _, loaded_by, linked_by = c_library.shared_names(version)
    need_same("the name in the shared library", dynamic_names(library / linked_by, "SONAME"), [loaded_by])
    done(["gcc", FIRST, f"-I{prefix / 'include'}", f"-L{library}", "-lcompactd", f"-Wl,-rpath,{library}", "-o", program], "by the linker")
    need_same("what a program loads", [it for it in dynamic_names(program, "NEEDED") if "compactd" in it], [loaded_by])
    compare(program, "with the shared library")


def try_cmake(prefix, version, room):
    """Builds a program with each target of the CMake package, which is for its minor version."""
    major, minor, patch = map(int, version.split("."))
    before, after = (f"{major}.{it}" for it in (minor - 1, minor + 1))
    words = {
        "own": f"{major}.{minor} {version} {before}...{after} {before}...<{after}",
        "others": f"{after} {before} {major + 1}.{minor} {major}.{minor}.{patch + 1} {before}...<{version} {after}...{major + 1}",
    }
    source, build = room / "project", room / "build"
    source.mkdir()
    (source / "CMakeLists.txt").write_text(PROJECT.format(version=version, source=FIRST, targets=" ".join(TARGETS), **words))
    done(["cmake", "-S", source, "-B", build, f"-DCMAKE_PREFIX_PATH={prefix}"], "cmake")
    done(["cmake", "--build", build], "cmake --build")
    for target in TARGETS:
        compare(build / target, f"with compactd::{target}")


def try_cargo(prefix, room):
    """Builds the crate for Rust over what is installed."""
    variables = {**os.environ, "COMPACTD_DIR": str(prefix / "lib"), "CARGO_TARGET_DIR": str(room / "rust")}
    done(["cargo", "build", "-q", "--offline", "--locked", "--example", "first"], "cargo", cwd=BINDING, env=variables)
    compare(room / "rust/debug/examples/first", "in Rust", (BINDING / "examples/first.output").read_bytes())


def main():
    version = c_library.header_version(c_programs.folder())
    with tempfile.TemporaryDirectory() as room:
        room = pathlib.Path(room)
        need_refusal(room)
        prefix = installed(room)
        try_shared(prefix, version, room)
        tried = {
            "pkg-config": lambda: try_pkg_config(prefix, version, room),
            "cmake": lambda: try_cmake(prefix, version, room),
            "cargo": lambda: try_cargo(prefix, room),
        }
        lacking = [tool for tool in tried if not shutil.which(tool)]
        for tool in lacking:
            print(f"left out: what needs {tool}: it isn't there")
        there = [tool for tool in tried if tool not in lacking]
        for tool in there:
            tried[tool]()
    return f"libcompactd {version} is installed and moved, and programs are built over it by {', '.join(['the linker', *there])}"


if __name__ == "__main__":
    c_programs.start(main, "gcc", "readelf")
