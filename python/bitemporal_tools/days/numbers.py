"""Days as numbers, as datetime.date.toordinal gives them."""
import datetime

FIRST, LAST = datetime.date.min.toordinal(), datetime.date.max.toordinal()


def ordinal(text: str) -> int:
    """The number of a day YYYY-MM-DD. ValueError if it is none."""
    return datetime.date.fromisoformat(text).toordinal()


def iso(day: int) -> str:
    return datetime.date.fromordinal(day).isoformat()


def day_before(text: str) -> str:
    return iso(ordinal(text) - 1)
