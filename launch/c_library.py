"""The library for C: how its archive is built, and the folder that C programs take it from. What `prove`, `.ci/run` and the
checks share.

`rt ci` proves the crate and leaves no archive. `rt lib` builds one, but first it builds, with its proofs, each library below that
has no stamp, and kit 13b's `rt ci` leaves libraries without stamps. So where none has one, the archive is built by the kit's
`rattle build` over these libraries as they are. It proves the crate itself once more, and builds nothing that isn't proved.

The archive that is left has the kit's heap too, which calls malloc, realloc and free, so that a C compiler links it alone.

    python3 -m launch.c_library                 prints the digest of the sources
    python3 -m launch.c_library built DIGEST    builds the library over what `rt ci` left, and notes the digest"""

import os
import pathlib
import re
import shutil
import subprocess
import sys
import tempfile

from launch import program

CRATE = "compactd_c"
HEADERS = program.ROOT / "c/include"
TEMPLATES = program.ROOT / "c/package"
FOLDER = program.ROOT / "crates/compactd_c/out/c"
ARCHIVE = FOLDER / "libcompactd.a"
SHARED = FOLDER / "libcompactd.so"
DESCRIPTION = FOLDER / "compactd.pc"
HEAP = "heap.pic.o"
# The shared library shows the names of the header alone.
NAMES = "{ global: compactd_*; local: *; };\n"
OF_VERSION = re.compile(r"^#define COMPACTD_VERSION_(MAJOR|MINOR|PATCH)\s+(\d+)\b", re.M)


def kit_folder():
    return pathlib.Path(shutil.which("rt")).resolve().parent.parent


def digest_of(root):
    return program.digest_of(root, CRATE)


def is_fresh(kit, sources):
    """Whether the library is there that this kit made from these sources, with all that C programs need."""
    return all((FOLDER / name).is_file() for name in shared_names(header_version())) and program.is_fresh(ARCHIVE, kit, sources)


# The archive.


def libraries_of(root):
    """The libraries below the crate, and where each lies."""
    names = [name for name in program.crates_below(root, CRATE) if name != CRATE]
    return {name: root / f"crates/{name}/out/rlib/{name}.rlib" for name in names}


def build_command(root, archive):
    """The command that builds the archive in the folder of the crate."""
    kit, found = kit_folder(), libraries_of(root)
    used = program.libraries_used(root)[CRATE]
    places = {name: found.get(name, kit / f"rlibs/{name}.rlib") for name in ("std", *used)}
    words = [kit / "bin/rattle", "build", "--crate-name", CRATE, "src/lib.rt", "--crate-type", "staticlib"]
    for name, place in places.items():
        words += ["--extern", f"{name}={place}"]
    for folder in (kit / "rlibs", *(place.parent for place in found.values())):
        words += ["-L", f"dependency={folder}"]
    words += ["--antt-project", kit / "rattle/logic/antt-project.json", "--logic-built", kit / "logic_built"]
    # Nothing else is built meanwhile.
    jobs = str(len(os.sched_getaffinity(0)))
    return [*words, "--jobs", jobs, "--links", f"{CRATE}=", "--toolchain", kit / "toolchain", "--backend", "llvm", "-o", archive]


def build(root):
    """Builds the archive from what is proved below a folder, and returns its path."""
    folder = root / f"crates/{CRATE}"
    archive = folder / f"out/lib{CRATE}.a"
    places = libraries_of(root).values()
    is_left_by_ci = not any((place.parent / "stamp").is_file() for place in places)
    if is_left_by_ci and not all((place / "format").is_file() for place in places):
        program.stop(f"the libraries that {CRATE} stands on aren't there: `rt ci` builds them")
    command = build_command(root, archive) if is_left_by_ci else ["rt", "lib"]
    archive.parent.mkdir(exist_ok=True)
    archive.unlink(missing_ok=True)
    how = {"stdin": subprocess.DEVNULL, "stdout": subprocess.PIPE, "stderr": subprocess.STDOUT, "text": True}
    built = subprocess.run(command, cwd=folder, errors="replace", **how)
    if built.returncode or not archive.is_file():
        program.stop(f"{built.stdout}the archive of {CRATE} isn't built: status {built.returncode}", 1)
    return archive


# The folder that C programs take it from.


def run(*command, **how):
    ran = subprocess.run(command, stdin=subprocess.DEVNULL, stdout=subprocess.PIPE, stderr=subprocess.STDOUT, text=True, **how)
    if ran.returncode:
        program.stop(f"{ran.stdout}{pathlib.Path(command[0]).name}: status {ran.returncode}", 1)


def header_version(headers=HEADERS):
    """The version that the header of a folder tells."""
    header = headers / "compactd.h"
    numbers = dict(OF_VERSION.findall(header.read_text()))
    if len(numbers) < 3:
        program.stop(f"{header} lacks a number of its version", 1)
    return f"{numbers['MAJOR']}.{numbers['MINOR']}.{numbers['PATCH']}"


def shared_names(version):
    """The names of the shared library: its file's, the one that programs load it by, and the one that they are linked by."""
    major = version.partition(".")[0]
    return f"{SHARED.name}.{version}", f"{SHARED.name}.{major}", SHARED.name


def put_shared(file, folder, version):
    """Copies the shared library to a folder, under the name with its version, with a link for each other name."""
    names = shared_names(version)
    program.put(file, folder / names[0], 0o755)
    for to, name in zip(names, names[1:]):
        with program.in_one_step(folder / name) as beside:
            beside.symlink_to(to)


def filled(template, **words):
    """The text of a template, with each of these words in the place of its name."""
    return re.sub(r"@([A-Z]+)@", lambda name: words[name[1]], (TEMPLATES / template).read_text())


def description(version, prefix, libraries="", headers=""):
    """What pkg-config is told: the prefix, and where libraries and headers lie below it."""
    return filled("compactd.pc.in", VERSION=version, PREFIX=prefix, LIB=libraries, INCLUDE=headers)


def lay_out():
    """Copies the headers, and writes the file of pkg-config."""
    for header in sorted(HEADERS.iterdir()):
        program.put(header, FOLDER / header.name)
    program.write(description(header_version(), "${pcfiledir}"), DESCRIPTION)


def install(archive, kit, sources):
    """Leaves what C programs need of an archive in one folder, and notes what it was made from."""
    tools = kit_folder() / "toolchain"
    lay_out()
    with tempfile.TemporaryDirectory() as room:
        room = pathlib.Path(room)
        whole, names, shared = room / ARCHIVE.name, room / "names", room / SHARED.name
        shutil.copy(archive, whole)
        run(tools / "bin/llvm-ar", "x", kit_folder() / "c/liblibc_c.a", HEAP, cwd=room)
        run(tools / "bin/llvm-ar", "rs", whole, HEAP, cwd=room)
        names.write_text(NAMES)
        loaded_by = shared_names(header_version())[1]
        options = ["-shared", "-fPIC", "-fuse-ld=lld", "-nostdlib", f"-Wl,-soname,{loaded_by}", f"-Wl,--version-script={names}"]
        of_c = tools / "lib/libc.so.6"
        run(tools / "bin/clang", *options, "-o", shared, "-Wl,--whole-archive", whole, "-Wl,--no-whole-archive", of_c)
        put_shared(shared, FOLDER, header_version())
        program.install(whole, ARCHIVE, kit, sources, 0o644)


if __name__ == "__main__":
    if sys.argv[1:2] == ["built"]:
        install(build(program.ROOT), program.kit_version(), sys.argv[2])
    else:
        print(digest_of(program.ROOT))
