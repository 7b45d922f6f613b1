#!/usr/bin/env python3
"""Opens a picture of a run in headless Chromium, writes what it shows as a PNG, and says whether the picture is what it is to be.

    picture_shot.py PICTURE.svg SHOT.png

A picture stands alone: it is well-formed XML of elements that draw, without a script, a link or an address besides that of the SVG namespace,
and no two of its texts lie upon one another. Prints how many elements there are of each kind, and the size; ends with status 1 where one of
this isn't so, or where Chromium (Debian's `chromium`) shows nothing.
"""
import collections
import pathlib
import struct
import subprocess
import sys
import tempfile
import xml.etree.ElementTree as tree

SVG = "{http://www.w3.org/2000/svg}"
DRAWN = {"svg", "title", "style", "rect", "path", "text"}
ATTRIBUTES = {"class", "x", "y", "width", "height", "viewBox", "d", "rx"}
# The size of a text by its class, and where its place is in it: 0 at its beginning, 1 in its middle, 2 at its end.
SIZES = {"h": (18, 0), "r": (12, 0), "n": (10, 2), "l": (10, 0), "a": (10, 1), "g": (9, 0), "t": (11, 0)}
# How wide a letter is at most, of the size of the text, in the mean over a name.
LETTER = 0.62


def boxes(root):
    """Where each text lies: from left to right, and from top to bottom."""
    for text in root.iter(SVG + "text"):
        size, anchor = SIZES[text.get("class", "t")]
        width = LETTER * size * len(" ".join("".join(text.itertext()).split()))
        left = int(text.get("x")) - width * anchor / 2
        bottom = int(text.get("y"))
        yield left, left + width, bottom - 0.75 * size, bottom, "".join(text.itertext()).strip()


def overlaps(root):
    """Pairs of texts that lie upon one another."""
    earlier = collections.defaultdict(list)
    for box in boxes(root):
        left, right, top, bottom, _ = box
        for row in range(int(top) // 16, int(bottom) // 16 + 1):
            for other in earlier[row]:
                if left < other[1] and other[0] < right and top < other[3] and other[2] < bottom:
                    yield other[4], box[4]
            earlier[row].append(box)


def flaws(root):
    for element in root.iter():
        name = element.tag.removeprefix(SVG)
        if name not in DRAWN:
            yield f"an element {name}"
        for attribute in element.keys():
            if attribute not in ATTRIBUTES:
                yield f"an attribute {attribute} of {name}"
    style = "".join(root.find(SVG + "style").itertext())
    if "url(" in style or "@" in style:
        yield "a style that reads something else"
    for pair in set(overlaps(root)):
        yield "texts upon one another: {} and {}".format(*pair)


def shot(picture, to, width, height):
    """What Chromium shows of the picture; its size, by the head of the PNG."""
    with tempfile.TemporaryDirectory() as home:
        subprocess.run(
            [
                "chromium", "--headless", "--no-sandbox", "--disable-gpu", "--hide-scrollbars", f"--user-data-dir={home}",
                f"--window-size={width},{height}", f"--screenshot={to.resolve()}", picture.resolve().as_uri(),
            ],
            stderr=subprocess.DEVNULL, check=True, timeout=120,
        )
    head = to.read_bytes()[:24]
    return struct.unpack(">II", head[16:24]) if head[:8] == b"\x89PNG\r\n\x1a\n" else (0, 0)


def main():
    if len(sys.argv) != 3:
        sys.exit(__doc__)
    picture, to = map(pathlib.Path, sys.argv[1:])
    root = tree.parse(picture).getroot()
    width, height = int(root.get("width")), int(root.get("height"))
    found = list(flaws(root))
    if shot(picture, to, width, height) != (width, height):
        found.append("no PNG of its size")
    kinds = collections.Counter(element.tag.removeprefix(SVG) for element in root.iter())
    print(f"{picture}: {width} by {height}, " + ", ".join(f"{kinds[kind]} {kind}" for kind in sorted(kinds)))
    for flaw in found:
        print(f"  {flaw}")
    sys.exit(1 if found else 0)


if __name__ == "__main__":
    main()
