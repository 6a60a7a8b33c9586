"""The room that a text takes. A browser's font isn't known, so the room is reckoned by a wide
one."""
import unicodedata

from bitemporal_tools.reports.shown import for_terminal

NARROW, BROAD = frozenset("iljtfrI.,:;|!'()[]- "), frozenset('WMmw@%')


def width_of(letter: str) -> float:
    """The width of a letter in parts of the font's size."""
    if unicodedata.combining(letter):
        return 0
    if letter in NARROW:
        return 0.42
    if letter in BROAD or unicodedata.east_asian_width(letter) in 'WFA':
        return 1.02
    return 0.64 if letter.islower() or letter.isdigit() else 0.78


def room(text: str, size: float) -> float:
    """The points that a text takes in a font of this size."""
    return size * sum(map(width_of, text))


def cut(text: str, points: float, size: float) -> str:
    """The text without control characters, cut to this number of points."""
    text = for_terminal(text)
    if room(text, size) <= points:
        return text
    points -= room('\u2026', size)
    for end, letter in enumerate(text):
        points -= size * width_of(letter)
        if points < 0:
            return text[:end] + '\u2026'
    return text
