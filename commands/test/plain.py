"""Names and words without what tells one time from another: digits, long hex, and what mkstemp puts at the end of a name."""
import re

# Digits; hex as of a hash, in one part or with a folder of its first two digits; and six letters of which one is large or a digit.
VARIES = re.compile(r"(?<=[._-])(?=[a-z]*[A-Z0-9])[A-Za-z0-9]{6}(?![A-Za-z0-9])|(?<=/)[0-9a-f]{2}(?=/)|[0-9a-f]{7,}|\d+")


def plain(text):
    """A text in which all that varies is one letter."""
    return VARIES.sub("N", text)
