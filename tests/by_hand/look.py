#!/usr/bin/env python3
"""Pictures of pages, to be looked at by hand: light, dark, 500 pixels wide, and as README.md shows one.

    tests/by_hand/look.py FOLDER PAGE ..

writes four pictures of each page into the folder, by a headless Chromium (Debian's package `chromium`). examples/ has pages.
docs/page.png is the last one, in its 64 most frequent colours, of the page that README.md makes of its tree, `crashbpf page .. --bound any`.
"""
import subprocess
import sys
from pathlib import Path

# Of each picture its name, width and height, and the words besides.
LOOKS = [
    ("light", 1200, 1400, []),
    ("dark", 1200, 1400, ["--blink-settings=preferredColorScheme=0"]),
    ("narrow", 500, 1600, []),
    ("front", 1000, 575, []),
]


def look(folder, page):
    """Makes the pictures of a page, and prints their names."""
    for name, width, height, words in LOOKS:
        picture = folder / f"{page.parent.name}-{page.stem}-{name}.png"
        sizes = [f"--window-size={width},{height}", f"--screenshot={picture}"]
        still = ["--headless", "--no-sandbox", "--disable-gpu", "--disable-dev-shm-usage", "--hide-scrollbars"]
        subprocess.run(["chromium", *still, *words, *sizes, page.resolve().as_uri()], check=True, capture_output=True)
        print(picture)


def main(words):
    if len(words) < 2:
        sys.exit(__doc__)
    folder = Path(words[0]).resolve()
    for page in words[1:]:
        look(folder, Path(page))


if __name__ == "__main__":
    main(sys.argv[1:])
