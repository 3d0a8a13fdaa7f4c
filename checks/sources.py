"""What the checks of the sources share: the code of a source file, without its comments and what is in quotes."""

import re

TOKEN = re.compile(
    r"""//[^\n]*|(?P<block>/\*)|(?<!\w)[bc]?r(?P<hashes>\#*)".*?"(?P=hashes)|"(?:\\.|[^"\\])*"|'(?:\\(?:x..|u\{[^}]*\}|.)|[^'\\])'""",
    re.DOTALL,
)
EDGE = re.compile(r"/\*|\*/")


def code_of(text):
    """What the compiler reads of a source file: a comment counts as a space, and what is in quotes as nothing."""
    parts, at = [], 0
    while token := TOKEN.search(text, at):
        parts.append(text[at : token.start()])
        parts.append(" " if token[0].startswith("/") else '""')
        at = end_of_block(text, token.end()) if token["block"] else token.end()
    return "".join([*parts, text[at:]])


def end_of_block(text, at):
    """Where a block comment ends that began before this place. Others may be in it. One that nothing ends hides nothing."""
    begin, depth = at, 1
    while depth and (edge := EDGE.search(text, at)):
        depth += 1 if edge[0] == "/*" else -1
        at = edge.end()
    return begin if depth else at
