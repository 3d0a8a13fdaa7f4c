"""Each picture in examples/ is what `zone_picture` writes for the script beside it.

It is the same in every run, and it is one SVG with no script in it that reads no other file. A script with a fault, one
that opens no zone and one that is too large have one line on standard error, status 1 and no picture."""

import xml.etree.ElementTree

import runs

RUNS = 5
LEAST = 2
SVG = "{http://www.w3.org/2000/svg}"
PARTS = {SVG + name for name in ("svg", "title", "style", "g", "rect", "path", "text")}
REFUSED = [
    (b"zone 0 1\nlod 0 0 0 3\n", b"zone_picture: fault 41 at line 2\n"),
    (b"zone 0 1\nduring 0\n", b"zone_picture: fault 41 at line 2\n"),
    (b"", b"zone_picture: the script opens no zone\n"),
    (b"zone 0 1\n" + 9 * b"compact 0\n", b"zone_picture: the script has more than 8 commands to draw\n"),
]


def drawn(script):
    """What the program makes of a script."""
    return runs.finished([runs.built("zone_picture")], input=script)


def compare(picture):
    """Fails where a stored picture isn't what the program writes."""
    script = picture.with_suffix(".script").read_bytes()
    wanted = runs.Ran(0, picture.read_bytes(), b"")
    for _ in range(RUNS):
        found = drawn(script)
        if found != wanted:
            told = f"status {found.status}, {len(found.output)} bytes and {found.error}"
            raise runs.Failed(f"{picture.name} isn't what the program writes: {told}")


def read(picture):
    """Fails where a picture has anything but what is drawn and written, or reads another file."""
    text = picture.read_text()
    for part in xml.etree.ElementTree.fromstring(text).iter():
        if part.tag not in PARTS:
            raise runs.Failed(f"{picture.name} has {part.tag}")
    if "url(" in text or "@import" in text or "href" in text:
        raise runs.Failed(f"{picture.name} reads another file")


def refuse(script, line):
    """Fails where a script that has no picture isn't refused with this line."""
    found, wanted = drawn(script), runs.Ran(1, b"", line)
    if found != wanted:
        raise runs.Failed(f"of {script} the program makes {found}\nand not {wanted}")


def main():
    pictures = sorted((runs.ROOT / "examples").glob("*.svg"))
    for picture in pictures:
        compare(picture)
        read(picture)
    for script, line in REFUSED:
        refuse(script, line)
    if len(pictures) < LEAST:
        raise runs.Failed(f"examples/ has {len(pictures)} pictures")
    return f"{len(pictures)} pictures are what their scripts draw, and {len(REFUSED)} scripts have none"


if __name__ == "__main__":
    runs.start(main)
