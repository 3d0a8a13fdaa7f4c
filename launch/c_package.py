"""Installs the library for C below a prefix, where compilers, pkg-config and CMake look for it: what `prove` and a check share.

No file that is installed names the prefix, so that all of it may be moved."""

from launch import c_library, program

DOCUMENTS = ("LICENSE-MIT", "LICENSE-APACHE", "CHANGELOG.md")
CMAKE = "lib/cmake/compactd"


def copied_files(folder):
    """Where the files lie that are copied below a prefix, but the shared library, each under its place there."""
    return {
        f"lib/{c_library.ARCHIVE.name}": folder / c_library.ARCHIVE.name,
        **{f"include/{header.name}": folder / header.name for header in sorted(c_library.HEADERS.iterdir())},
        **{f"share/doc/compactd/{name}": program.ROOT / name for name in DOCUMENTS},
        f"{CMAKE}/compactdConfig.cmake": c_library.TEMPLATES / "compactdConfig.cmake",
    }


def written_files(version):
    """The texts that are written below a prefix, each under its place there."""
    major, minor, _ = version.split(".")
    numbers = {"VERSION": version, "MAJOR": major, "MINOR": minor}
    return {
        f"{CMAKE}/compactdConfigVersion.cmake": c_library.filled("compactdConfigVersion.cmake.in", **numbers),
        "lib/pkgconfig/compactd.pc": c_library.description(version, "${pcfiledir}/../..", "/lib", "/include"),
    }


def install(folder, prefix):
    """Installs the library of a folder, each file in one step, and returns the places below the prefix. What pkg-config and CMake look
    for comes last, so that they don't find a part."""
    version = c_library.header_version(folder)
    copied, written = copied_files(folder), written_files(version)
    try:
        c_library.put_shared(folder / c_library.SHARED.name, prefix / "lib", version)
        for place, file in copied.items():
            program.put(file, prefix / place)
        for place, text in written.items():
            program.write(text, prefix / place)
    except OSError as error:
        program.stop(f"libcompactd isn't installed in {prefix}: {error}", 1)
    return [*(f"lib/{name}" for name in c_library.shared_names(version)), *copied, *written]
