"""What the checks of the library for C share: its folder, the compilers, and how a program is compiled and run over it.

The folder is the one that `./prove --c` and `bash .ci/run` fill. The variable COMPACTD_DIR of the environment may name another."""

import functools
import os
import pathlib
import re
import shutil

import runs
from launch import c_library, program

HEADERS = runs.ROOT / "c/include"
EXAMPLES = runs.ROOT / "c/examples"
BINDING = runs.ROOT / "bindings/rust"
STRICT = ["-Wall", "-Wextra", "-Wpedantic", "-Wconversion", "-Werror"]
C89 = ["-std=c89", "-D_POSIX_C_SOURCE=200809L", *STRICT]
CXX = ["-std=c++11", *STRICT]


def start(main, *tools):
    """Runs a check that needs these tools. Where one isn't there, it is left out."""

    def main_with_tools():
        if lacking := [tool for tool in tools if not shutil.which(tool)]:
            raise runs.LeftOut(f"there is no {', no '.join(lacking)}")
        return main()

    runs.start(main_with_tools)


@functools.lru_cache(maxsize=None)
def folder():
    """The folder of the library, which has to be proved from the sources as they are, unless another is named."""
    if "COMPACTD_DIR" in os.environ:
        return pathlib.Path(os.environ["COMPACTD_DIR"]).resolve()
    runs.need_proof("the library for C")
    if not c_library.is_fresh(program.kit_version(), c_library.digest_of(runs.ROOT)):
        raise runs.Failed("the library for C isn't proved: `./prove --c` proves it, and so does `bash .ci/run`")
    c_library.lay_out()
    return c_library.FOLDER


def header_without_comments():
    return re.sub(r"/\*.*?\*/", "", (HEADERS / "compactd.h").read_text(), flags=re.DOTALL)


def exports_of_header():
    """The names of the functions that the header declares, and doesn't have itself."""
    return set(re.findall(r"^uint32_t (compactd_\w+)\(", header_without_comments(), re.M))


def refusals():
    """The refusals of the header, by their names without COMPACTD_."""
    body = re.search(r"enum compactd_refusal \{(.*?)\};", header_without_comments(), re.DOTALL)[1]
    return {name: int(number) for name, number in re.findall(r"COMPACTD_(\w+) = (\d+)", body)}


def text(written):
    return written.decode(errors="replace")


def done(command, what, **given):
    """What a command writes, which has to end with status 0 and to write no errors."""
    ran = runs.finished([str(word) for word in command], **given)
    if ran.status != 0:
        raise runs.Failed(f"{what}: status {ran.status}\n{text(ran.output[-3000:])}{text(ran.error[-3000:])}")
    return ran


def built(source, to, options=(), compiler=None, library="libcompactd.a"):
    """Compiles a source over the library, and returns the program's path."""
    is_c = source.suffix == ".c"
    words = [compiler or ("gcc" if is_c else "g++"), *(C89 if is_c else CXX), "-O1", "-g", "-pthread", *options]
    done([*words, f"-I{HEADERS}", "-o", to, source, folder() / library], f"{source.name} isn't compiled")
    return to
