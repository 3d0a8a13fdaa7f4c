"""The program, the library for C and its page of docs, the crate for Rust, and the newest entry of CHANGELOG.md have the version of the header.

The header has it as three numbers, as a text, and as the number that `compactd_version` answers: MAJOR * 10000 + MINOR * 100 + PATCH."""

import re

import runs
from launch import c_library

HEADER = "c/include/compactd.h"
# Where the version stands as a text. The first place of a file counts: the newest entry stands first.
TEXTS = {
    HEADER: r'^#define COMPACTD_VERSION_TEXT\s+"(.*?)"',
    "crates/script_core/src/options.rt": r'\.version\("(.*?)"\)',
    "crates/script_tests/src/tests/words.rt": r'b"compactd (\d.*?)\\n"',
    "bindings/rust/Cargo.toml": r'^\[package\]\nname = "compactd"\nversion = "(.*?)"',
    "bindings/rust/Cargo.lock": r'^name = "compactd"\nversion = "(.*?)"',
    "docs/C.md": r"`libcompactd\.so\.(\d+\.\d.*?)`",
    "CHANGELOG.md": r"^## \[(\d.*?)\]",
}
ANSWERED = r'^pub extern "C" fn compactd_version\(\) -> u32\n.*?^\}'


def found_in(text, pattern, where):
    if not (found := re.search(pattern, text, re.MULTILINE | re.DOTALL)):
        raise runs.Failed(f"{where} has no version where it should stand")
    return found


def number_of(version):
    major, minor, patch = map(int, version.split("."))
    return major * 10000 + minor * 100 + patch


def answered_numbers():
    """The numbers in the contract and in the body of `compactd_version`."""
    sources = sorted((runs.ROOT / f"crates/{c_library.CRATE}/src").rglob("*.rt"))
    text = "".join(re.sub(r"//.*", "", file.read_text()) for file in sources)
    return [int(number) for number in re.findall(r"\b\d+\b", found_in(text, ANSWERED, c_library.CRATE)[0])]


def main():
    version = c_library.header_version()
    told = {file: found_in((runs.ROOT / file).read_text(), pattern, file)[1] for file, pattern in TEXTS.items()}
    faults = [f"{file} says {text}" for file, text in told.items() if text != version]
    if set(answered := answered_numbers()) != {number_of(version)}:
        faults.append(f"compactd_version answers {answered}, and not {number_of(version)}")
    if faults:
        raise runs.Failed("\n".join([f"the macros of {HEADER} say {version}", *faults]))
    return f"{len(told)} files say version {version}, and the library for C answers {number_of(version)}"


if __name__ == "__main__":
    runs.start(main)
