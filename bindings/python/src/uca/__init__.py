"""Sorts text as the readers of a language expect: a binding of libuca.

    collator = uca.Collator.from_files("allkeys.txt", "sv.rules")
    words.sort(key=collator.key)

Texts are `str`, or UTF-8 as `bytes`. The library is the file that the environment variable UCA_LIBRARY names. Without it, the package
looks for `libuca.so.1` in the folder that pkg-config named when the package was installed, then in its own folder, then where the
loader looks.
"""

from __future__ import annotations

import operator
import os
from collections.abc import Callable, Iterable
from functools import partial
from typing import Any, Final, NamedTuple, TypeVar

from . import _uca
from ._errors import (
    BAD_RULES,
    BAD_SETTINGS,
    BAD_TABLE,
    BAD_TAILORING,
    INCOMPLETE,
    LONG_RUN,
    NOT_OPEN,
    NOT_UTF8,
    Error,
    RulesError,
    TableError,
    TextError,
    error_of,
)
from ._uca import check, unicode_version, version

PRIMARY: Final = 1
SECONDARY: Final = 2
TERTIARY: Final = 3
QUATERNARY: Final = 4
IDENTICAL: Final = 5
NON_IGNORABLE: Final = 0
BLANKED: Final = 1
SHIFTED: Final = 2

__all__ = [
    "PRIMARY", "SECONDARY", "TERTIARY", "QUATERNARY", "IDENTICAL", "NON_IGNORABLE", "BLANKED", "SHIFTED",
    "NOT_UTF8", "LONG_RUN", "NOT_OPEN", "BAD_SETTINGS", "BAD_TABLE", "BAD_RULES", "BAD_TAILORING", "INCOMPLETE",
    "Collator", "Comparison", "Element", "Error", "Match", "RulesError", "TableError", "TextError", "check", "unicode_version", "version",
]  # fmt: skip

_NAME = "libuca.so.1"
_Item = TypeVar("_Item")


def _load() -> None:
    named = os.environ.get("UCA_LIBRARY")
    if named:
        _uca.load(named, error_of)
        return
    for folder in (_uca.LIBRARY_FOLDER, os.path.dirname(__file__)):
        path = os.path.join(folder, _NAME)
        if folder and os.path.exists(path):
            _uca.load(path, error_of)
            return
    try:
        _uca.load(_NAME, error_of)
    except ImportError as error:
        raise ImportError("libuca was not found: name its file in UCA_LIBRARY (%s)" % error) from None


_load()


def _number(name: str, value: int, first: int, last: int) -> int:
    number = operator.index(value)
    if not first <= number <= last:
        raise ValueError("%s must be %d to %d, not %d" % (name, first, last, number))
    return number


class Element(NamedTuple):
    """A collation element. As a `str` it is written as in a table, such as [.1C47.0020.0002]."""

    primary: int
    secondary: int
    tertiary: int
    is_variable: bool

    def __str__(self) -> str:
        return "[%s%04X.%04X.%04X]" % ("*" if self.is_variable else ".", *self[:3])


class Match(NamedTuple):
    """Characters of a text in NFD that are matched together: a key of the table with its elements, or a character that begins no key, with
    its implicit elements. A match can take a mark and pass over marks before it, so the matches have all characters of the text, but not
    always in its order."""

    text: str
    is_key: bool
    elements: tuple[Element, ...]


class Comparison(NamedTuple):
    """An order (-1, 0 or 1) and the level that decides it: the first at which the texts differ, or the last if they do not."""

    order: int
    level: int


class Collator(_uca.Collator):
    """A table, rules that tailor it, and settings.

    table     the text of a table in the format of allkeys.txt; the published one takes 12 MB of memory
    rules     the text of rules in the profile of UTS #35 that docs/FORMATS.md describes, or an empty text
    strength  how many levels are compared: PRIMARY (letters), SECONDARY (and accents), TERTIARY (and case), QUATERNARY (and
              punctuation, if it is SHIFTED) or IDENTICAL (and the texts themselves in NFD)
    variable  how punctuation is weighted: NON_IGNORABLE (like letters, and before them), BLANKED (ignored) or SHIFTED (at the fourth
              level only)

    Raises TableError or RulesError, which say where the fault is; ValueError for a strength or option that does not exist; TypeError
    for an argument that is neither str nor bytes.

    Several threads may use one collator. A call holds the interpreter's lock until it returns, so one call runs at a time, and more
    threads make no more keys in a second.
    """

    def __init__(self, table: str | bytes, rules: str | bytes = b"", strength: int = TERTIARY, variable: int = NON_IGNORABLE) -> None:
        super().__init__(table, rules, _number("strength", strength, 1, 5), _number("variable", variable, 0, 2))

    @classmethod
    def from_files(
        cls,
        table: str | os.PathLike[str],
        rules: str | os.PathLike[str] | None = None,
        strength: int = TERTIARY,
        variable: int = NON_IGNORABLE,
    ) -> Collator:
        """A collator of a file with a table and one with rules. Raises OSError if a file cannot be read, and otherwise what the class
        raises, with the name of the file in `filename` and in the message."""
        with open(table, "rb") as file:
            table_text = file.read()
        rules_text = b""
        if rules is not None:
            with open(rules, "rb") as file:
                rules_text = file.read()
        try:
            return cls(table_text, rules_text, strength, variable)
        except (TableError, RulesError) as error:
            error.filename = os.fspath(table if isinstance(error, TableError) or rules is None else rules)
            error.args = ("%s: %s" % (error.filename, error),)
            raise

    def clone(self, *, strength: int | None = None, variable: int | None = None) -> Collator:
        """Another collator over the same table, with the given settings or, by default, the same ones. It is cheap: the table is shared."""
        return self._share(
            _number("strength", self.strength if strength is None else strength, 1, 5),
            _number("variable", self.variable if variable is None else variable, 0, 2),
        )

    def sorted(self, items: Iterable[_Item], *, key: Callable[[_Item], str | bytes] | None = None, reverse: bool = False) -> list[_Item]:
        """A new sorted list of texts, as fast as the built-in `sorted` with packed_key. With `key`, the items can be anything: they are
        sorted by the text that `key` returns for each. Items with equal texts keep their order. Raises TextError, whose `text` is the
        number of the text at fault, counted from 1."""
        listed: list[Any] = list(items)
        keys = iter(self.packed_keys(listed if key is None else map(key, listed)))
        # `sorted` calls `key` once for each item, from the first to the last, so each gets the next key. A Python function would cost more.
        return sorted(listed, key=partial(next, keys), reverse=reverse)

    def sort(self, items: list[_Item], *, key: Callable[[_Item], str | bytes] | None = None, reverse: bool = False) -> None:
        """Sorts a list in place, as `sorted` would. On an error the list is unchanged."""
        items[:] = self.sorted(items, key=key, reverse=reverse)

    def matches(self, text: str | bytes) -> list[Match]:
        """The matches of a text, with their collation elements. They do not depend on the settings. Raises TextError."""
        return [Match(points, is_key, tuple(map(Element._make, elements))) for points, is_key, elements in self._matches(text)]

    def explain(self, a: str | bytes, b: str | bytes) -> Comparison:
        """What `compare` returns, and the level that decides it. Raises TextError, whose `text` is 1 or 2."""
        return Comparison._make(self._explain(a, b))

    def __enter__(self) -> Collator:
        return self

    def __exit__(self, *_: object) -> None:
        self.close()

    def __repr__(self) -> str:
        return "<uca.Collator strength=%d variable=%d>" % (self.strength, self.variable)
