"""What documents name is there, they agree on minutes and limits, and README.md shows what is so.

Documents are README.md, docs/*.md and the README.md of crates. Each path in backticks is a file or a folder of the repository, or a
guide of the kit; a path in a folder `out` is one that a build makes. Each word of an identifier in backticks stands in some file of
`src` or `specs`, of checks/, bench/, launch/, c/ or bindings/, or in crates.txt, and so does each name with an underscore in a block of
lines. The parts of `Type::function` stand in one file. Left out are patterns such as `x_refusal` and `IsX`. Links lead to files and
headings that are there.

A fact of FACTS has one number, wherever a document or a header for C states it.

In README.md lines that begin with `$ ` are commands, and the lines below each are what it writes, where `..` stands for lines left
out. Blocks of C and C++ compile. In each README a block of Rattle, Rust or a script has lines of the file that the paragraph above it
names, in their order."""

import fnmatch
import itertools
import os
import pathlib
import re
import shutil
import signal
import subprocess
import textwrap

import c_programs
import runs
from launch import program

SECONDS = 120  # that a command of the README may take
LEFT_OUT = (".git", "out", "__pycache__")
SOURCES = ["crates/*/src/*", "crates/*/specs/*", "crates.txt", "checks/*", "bench/*", "launch/*", "examples/*", "c/*", "bindings/*"]
TRIED = ("script", "replies", "fault", "rust")
LINES_OF_A_FILE = ("script", "rust")
WORD = re.compile(r"[A-Za-z_]\w+")
LONG_NAME = re.compile(r"[A-Za-z]\w*_\w+")
NAME = re.compile(r"[A-Za-z_]\w*(?:::[A-Za-z_]\w*)+")
PATH = re.compile(r"[\w.*-]*/[\w./*-]*|[\w*-]+\.[a-z]+")
PATTERN = re.compile(r"(^|_)x(_|$)|[a-z]X$")
FENCED = re.compile(r"^```(\S*).*\n((?:(?!```).*\n)*)```$", re.M)
INDENTED = re.compile(r"(?:^    .*\n)+", re.M)
COMPILERS = {
    "c": (["gcc", *c_programs.C89, "-x", "c"], "#include <compactd.h>\nint main(void)\n{{\n{}return 0;\n}}\n"),
    "c++": (["g++", *c_programs.CXX, "-x", "c++"], "#include <compactd.hpp>\nint main()\n{{\n{}}}\n"),
}

WORDS = "zero one two three four five six seven eight nine ten eleven twelve thirteen fourteen fifteen sixteen".split()
NUMBERS = {word: str(number) for number, word in enumerate(WORDS)}
N = rf"(\d[\d,]*|{'|'.join(WORDS)})"
# From a command to the next that its paragraph names.
ON = r"`(?:(?!`\./|`bash|\n\n|\n\|).)*?"
# Facts that several documents state, and how: a space is any space, also with the marks of a list, a quote or a comment.
FACTS = {
    "the processor minutes of ./prove": rf"`\./prove(?: --anew)?{ON}{N}(?: processor minutes|, and \d+ by the clock)",
    "the minutes of ./prove by the clock": rf"`\./prove(?: --anew)?{ON}{N}(?: minutes)? by the clock",
    "the processor minutes of ./prove --c": rf"`\./prove --c{ON}{N} processor minutes",
    "the processor minutes of the gate": rf"`bash \.ci/run{ON}{N} processor minutes|\| all \| {N}",
    "the frames of a pageblock": rf"pageblocks? (?:of|has|have) {N} frames",
    "the pageblocks of a pool": r"(?:1|up) to (\d+,\d+) pageblocks|(\d+,\d+) pageblocks of 512",
    "the pageblocks of a pool with a journal": rf"1 to (\d) pageblocks|Pageblocks of a zone \| {N}",
    "the memory of a pool": rf"{N} GiB (?:with|of) (?:pages of 4 KiB|4 KiB pages)",
    "the spaces of a pool": rf"{N} spaces of|Spaces \| {N}",
    "the virtual pages of a space": rf"(?:spaces|,) of {N} virtual pages",
    "the most spaces of a pool": rf"1 to {N} spaces",
    "the most virtual pages of a space": rf"1 to {N} virtual pages",
    "the most addresses of a pool": r"(\d+,\d+,\d+) addresses",
    "the addresses of a page": rf"(?:up to|1 to) {N} addresses|Addresses of a page \| {N}",
    "the pins of a page": r"(\d\d+) pins|Pins of a page \| (\d+)",
    "the records of a kept journal": rf"(?:at most|up to|1 to) {N} (?:records|places)|Places of the journal \| {N}",
    "the recorded calls of a pool's life": r"2\^(\d+) (?:recorded )?(?:calls|records|places)",
}


class Tree:
    """The files of the repository, and the words of each that may be named."""

    def __init__(self):
        self.files = sorted(files_below(runs.ROOT))
        paths = {*self.files, *map(as_named_edit, self.files), *guides_of_the_kit()}
        self.paths = {part for path in paths for part in parts_of(path)}
        self.suffixes = {pathlib.Path(file).suffix for file in self.files}
        self.words_of = {file: words_of(file) for file in self.files}
        self.words = set().union(*self.words_of.values(), words_in(version_of_the_kit()))

    def has_path(self, path):
        """Whether a path, or its part above `out`, is that of a file or folder, or a part of one's path."""
        inside = re.sub(r"^\./|(^|/)out(/.*)?$|/$", "", path)
        return not inside or inside in self.paths or "*" in inside and bool(fnmatch.filter(self.paths, inside))

    def has_name(self, name):
        """Whether the parts of a name, such as `Type::function`, stand in one file."""
        return any(set(name.split("::")) <= words for words in self.words_of.values())

    def missing(self, code):
        """The paths and words of what stands in backticks that aren't there."""
        paths = [path for path in PATH.findall(code) if "/" in path or pathlib.Path(path).suffix in self.suffixes]
        yield from (path for path in paths if not self.has_path(path))
        for path in paths:
            code = code.replace(path, " ")
        yield from (name for name in NAME.findall(code) if not self.has_name(name))
        yield from (word for word in WORD.findall(code) if word not in self.words and not PATTERN.search(word))


def files_below(root):
    """The paths of the files below a folder, but those that a build makes."""
    for folder, folders, names in os.walk(root):
        folders[:] = [name for name in folders if name not in LEFT_OUT]
        yield from (str(pathlib.Path(folder, name).relative_to(root)) for name in names)


def parts_of(path):
    """What a path is called from each folder in it, up to each folder or the file."""
    names = path.split("/")
    spans = itertools.combinations(range(len(names) + 1), 2)
    return ("/".join(names[first:last]) for first, last in spans)


def as_named_edit(file):
    """An edit is also named by its crate and its own name."""
    return re.sub(r"^crates/(\w+)/must-fail/(.*)\.edit$", r"\1/\2", file)


def guides_of_the_kit():
    return [path.name for path in (runs.rt().parent.parent / "rattle").glob("*.md")]


def version_of_the_kit():
    return runs.finished([runs.rt(), "version"]).output.decode()


def words_in(text):
    return set(re.findall(r"[A-Za-z_]\w*", text))


def words_of(file):
    """The words of a file's path, and those in it where it is a source."""
    is_source = any(fnmatch.fnmatch(file, pattern) for pattern in SOURCES)
    return words_in(file) | (words_in((runs.ROOT / file).read_text(errors="replace")) if is_source else set())


# What documents name.


def missing_names(page, tree):
    for code in re.findall(r"`([^`\n]+)`", FENCED.sub("", page.read_text())):
        yield from (f"`{code}`: there is no {name}" for name in tree.missing(code))
    named = {name for block in plain_blocks(page.read_text()) for name in LONG_NAME.findall(block)}
    yield from (f"a block that is shown names {name}, which isn't there" for name in sorted(named - tree.words))


def plain_blocks(text):
    """The blocks of a document that are neither scripts nor Rattle, without their margins."""
    yield from (content for kind, content in FENCED.findall(text) if kind not in TRIED)
    yield from map(textwrap.dedent, INDENTED.findall(FENCED.sub("", text)))


def missing_links(page):
    for target in re.findall(r"\]\(([^)\s]+)\)", FENCED.sub("", page.read_text())):
        path, _, heading = target.partition("#")
        linked = page.parent / path if path else page
        if not re.match(r"[a-z]+:", target) and not (linked.exists() and has_heading(linked, heading)):
            yield f"the link to {target} leads nowhere"


def has_heading(page, wanted):
    headings = re.findall(r"^#+ (.*)$", page.read_text(), re.M) if wanted else []
    return not wanted or wanted in {re.sub(r"[^\w -]", "", line).lower().replace(" ", "-") for line in headings}


# What the README shows.


def shown_commands(text):
    """The commands that are shown, each with the lines below it."""
    for block in plain_blocks(text):
        for shown in re.split(r"^\$ ", block, flags=re.M)[1:]:
            command, *lines = shown.splitlines()
            yield command, lines


def wrong_command(command, lines):
    """What is wrong with what is shown of a command, if anything is."""
    if not command.startswith("./"):
        return "only a command of this folder can be tried"
    streams = {"stdin": subprocess.DEVNULL, "stdout": subprocess.PIPE, "stderr": subprocess.STDOUT}
    with subprocess.Popen(["bash", "-c", command], cwd=runs.ROOT, start_new_session=True, **streams) as begun:
        try:
            found = begun.communicate(timeout=SECONDS)[0].decode(errors="replace")
        except subprocess.TimeoutExpired:
            os.killpg(begun.pid, signal.SIGTERM)
            return f"it takes more than {SECONDS} seconds"
    wanted = "".join(r"(?:.*\n)*" if line == ".." else re.escape(line) + r"\n" for line in lines)
    return None if re.fullmatch(wanted, found) else f"it writes\n{found}and not what is shown"


def missing_lines(page):
    """The lines of blocks of Rattle, Rust and scripts that don't stand in the file that is named above."""
    text = page.read_text()
    for block in FENCED.finditer(text):
        if block[1] not in LINES_OF_A_FILE:
            continue
        file = file_named_last(page, text[: block.start()].rstrip().split("\n\n")[-1])
        if not file:
            yield f"no file is named above the lines\n{block[2]}"
        elif not stand_in_order(block[2].splitlines(), file.read_text().splitlines()):
            yield f"these lines don't stand in {file.relative_to(runs.ROOT)} in this order:\n{block[2]}"


def file_named_last(page, paragraph):
    """The file that a paragraph names last, by its path from the page's folder or from the top."""
    named = (folder / path for path in re.findall(r"`([^`\n]+)`", paragraph) for folder in (page.parent, runs.ROOT))
    return next((file for file in reversed([*named]) if file.is_file()), None)


def stand_in_order(lines, file):
    """Whether the lines, all as far to the right as it may be, stand in the file, one after the other."""

    def is_found(indent):
        rest = iter(file)
        return all(indent + line in rest for line in lines if line)

    return any(is_found(" " * columns) for columns in (0, 4, 8, 12))


def first_wrong_command(commands):
    """What is wrong with the first command that isn't right, if there is one. Those after it aren't tried."""
    if runs.is_unproved:
        runs.leave_out("the commands of README.md", "the program isn't proved")
        return []
    if not program.is_fresh(program.PROVED, program.kit_version(), program.digest_of(runs.ROOT)):
        return ["its commands aren't tried, since the program isn't proved: `./prove` proves it, or `bash .ci/run`"]
    tried = (f"`{command}`: {wrong}" for command, lines in commands if (wrong := wrong_command(command, lines)))
    return [*itertools.islice(tried, 1)]


def wrong_code(text):
    """What compilers say of the blocks of C and C++. Where a compiler isn't there, its blocks aren't tried."""
    for kind, lines in FENCED.findall(text):
        command, frame = COMPILERS.get(kind, (None, None))
        if not command or not shutil.which(command[0]):
            continue
        words = [*command, "-fsyntax-only", f"-I{c_programs.HEADERS}", "-"]
        tried = runs.finished(words, input=frame.format(lines).encode())
        if tried.status != 0:
            yield f"{command[0]} refuses the lines\n{lines}{tried.error.decode(errors='replace')}"


# What documents agree on.


def stated(pattern, page):
    """Where a page states a fact, and the number there."""
    text = page.read_text()
    for found in re.finditer(pattern.replace(" ", r"[\s*>]+"), text, re.DOTALL):
        number = found[found.lastindex].replace(",", "")
        line = text.count("\n", 0, found.start(found.lastindex)) + 1
        yield f"{page.relative_to(runs.ROOT)}:{line}", NUMBERS.get(number, number)


def contradictions(pages):
    """The facts of which pages state several numbers, or which none states."""
    for fact, pattern in FACTS.items():
        places = [place for page in pages for place in stated(pattern, page)]
        if len({number for _, number in places}) != 1:
            yield f"{fact}: " + (", ".join(f"{number} at {place}" for place, number in places) or "no document states them")


def main():
    tree, readme, headers = Tree(), runs.ROOT / "README.md", sorted(c_programs.HEADERS.glob("*.h*"))
    readmes = [readme, *sorted((runs.ROOT / "crates").glob("*/README.md"))]
    pages, text = [*readmes, *sorted((runs.ROOT / "docs").glob("*.md"))], readme.read_text()
    wrong = {page: [*missing_names(page, tree), *missing_links(page)] for page in pages}
    for page in readmes:
        wrong[page] += missing_lines(page)
    commands = [*shown_commands(text)]
    wrong[readme] += [*first_wrong_command(commands), *wrong_code(text)] if commands else ["it shows no command"]
    faults = [f"{page.relative_to(runs.ROOT)}: {fault}" for page, found in wrong.items() for fault in found]
    faults += contradictions([*pages, *headers])
    if faults:
        raise runs.Failed("\n".join(faults))
    blocks = [kind for kind, _ in FENCED.findall(text)]
    shown = f"{len(commands)} commands and {len(blocks)} blocks"
    return f"what {len(pages)} documents name is there, {len(FACTS)} facts have one number, and README.md shows {shown} as they are"


if __name__ == "__main__":
    runs.start(main)
