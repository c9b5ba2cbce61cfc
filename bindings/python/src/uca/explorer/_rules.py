"""Where rules name an item: the page shows which rule gave a match its elements."""

from __future__ import annotations

import re
from collections.abc import Callable, Iterator

# A comment, a blank, quoted characters, an escape, an operator, or a character of a string.
_PART = re.compile(
    r"(?P<skipped>#[^\n\f\r\x85\u2028\u2029]*|[\t-\r \x85\u200e\u200f\u2028\u2029]+)|(?P<apostrophe>'')|'(?P<quoted>(?:[^']|'')*)'"
    r"|\\(?:u(?P<four>[0-9A-Fa-f]{4})|U(?P<eight>[0-9A-Fa-f]{8})|(?P<escaped>.))|(?P<operator><{1,3}|[=&/])|(?P<plain>.)",
    re.DOTALL,
)


def _character(found: re.Match[str]) -> str:
    """What a part adds to a string."""
    number = found["four"] or found["eight"]
    if number:
        return chr(int(number, 16)) if int(number, 16) < 0x110000 else ""
    quoted = found["quoted"]
    if quoted is not None:
        return quoted.replace("''", "'")
    return "'" if found["apostrophe"] else found["escaped"] or found["plain"] or ""


def _items(rules: str) -> Iterator[tuple[str, int]]:
    """Each item of a relation, and the place of its operator."""
    operator, at, text = "", 0, ""
    for found in _PART.finditer(rules):
        if not found["operator"]:
            text += _character(found)
            continue
        if operator not in ("", "&", "/"):
            yield text, at
        operator, at, text = found["operator"], found.start(), ""
    if operator not in ("", "&", "/"):
        yield text, at


def lines_of_items(rules: str, decomposed: Callable[[str], str]) -> dict[str, int]:
    """For each item, by its text in NFD, the line of its last relation. The rules must be free of faults."""
    lines, line, before = {}, 1, 0
    for text, at in _items(rules):
        line += rules.count("\n", before, at)
        before = at
        lines[decomposed(text)] = line
    return lines
