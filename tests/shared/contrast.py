"""The contrast of the text on a page: the ratio of the Web Content Accessibility Guidelines (WCAG 2.1, 'contrast ratio'), of the colours
of the style in crates/page_parts/src/dress.rt, light and dark.
"""
import re

from page_model import dress

# What text needs.
LEAST = 4.5


def style():
    return dress("STYLE").split("<style>")[1] + dress("CASE_STYLE")


def colours(theme):
    """The colours by name, where `theme` is 0 for light and 1 for dark."""
    named = re.findall(r":root\{(.*?)\}", style())[theme]
    return dict(re.findall(r"--([a-z0-9-]+):(#[0-9a-f]+)", named))


def parts(colour):
    """Red, green and blue of a colour such as #fff or #1c2024, from 0 to 1."""
    digits = colour[1:] if len(colour) == 7 else "".join(2 * it for it in colour[1:])
    return [int(digits[at : at + 2], 16) / 255 for at in (0, 2, 4)]


def luminance(colour):
    red, green, blue = (it / 12.92 if it <= 0.03928 else ((it + 0.055) / 1.055) ** 2.4 for it in parts(colour))
    return 0.2126 * red + 0.7152 * green + 0.0722 * blue


def contrast(one, other):
    low, high = sorted(map(luminance, (one, other)))
    return (high + 0.05) / (low + 0.05)


def pairs():
    """Which colour of text stands on which ground, by their names: a rule that sets a colour of text and no ground stands on the page
    or on what a link leads to."""
    for rule in re.findall(r"\{([^{}]*)\}", style()):
        grounds = re.findall(r"background:[^;]*", rule)
        grounds = re.findall(r"var\(--([a-z0-9-]+)\)", grounds[0]) if grounds else ["paper", "aim"]
        for name, fixed in re.findall(r"(?<![a-z-])color:(?:var\(--([a-z0-9-]+)\)|(#[0-9a-f]+))", rule):
            yield from ((name or fixed, ground) for ground in grounds)


def too_low():
    """A sentence for each pair with too little contrast."""
    found = []
    for theme, name in enumerate(("light", "dark")):
        values = colours(theme)
        for text, ground in sorted(set(pairs())):
            ratio = contrast(values.get(text, text), values[ground])
            if ratio < LEAST:
                found.append(f"{name}: {text} on {ground} {ratio:.2f}")
    return found


if __name__ == "__main__":
    for theme, name in enumerate(("light", "dark")):
        for text, ground in sorted(set(pairs())):
            print(f"{name:5} {text:12} {ground:8} {contrast(colours(theme).get(text, text), colours(theme)[ground]):5.2f}")
