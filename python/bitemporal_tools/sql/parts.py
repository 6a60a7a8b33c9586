"""The parts into which semicolons cut a session, as docs/PROFILE.md has them."""
import re
from collections.abc import Iterator

# Up to a semicolon outside of texts and comments, and with it.
PART = re.compile(r"(?:[^';-]|-(?!-)|--[^\n]*\n|'[^']*')*;")


def parts_of(text: str) -> Iterator[str]:
    """The parts that end in a text, and then what follows them."""
    at = 0
    while found := PART.match(text, at):
        yield found[0]
        at = found.end()
    yield text[at:]
