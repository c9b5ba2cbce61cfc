"""What the page shows about words and their keys. All of it comes from calls of a collator."""

from __future__ import annotations

import unicodedata
from collections.abc import Sequence
from typing import Any

import uca

from ._rules import lines_of_items

# The longest word that is drawn, in characters.
LONGEST_WORD = 200


class Look:
    """A table with rules and settings, and what they show."""

    def __init__(self, collator: uca.Collator, rules: str) -> None:
        self.collator = collator
        self.identical = collator.clone(strength=uca.IDENTICAL)
        self.by_strength = [collator.clone(strength=strength) for strength in range(uca.PRIMARY, collator.strength + 1)]
        self.rule_lines = lines_of_items(rules, self.decomposed)

    def decomposed(self, text: str) -> str:
        """A text in NFD, by the library's version of Unicode: it is the fifth level of the key."""
        points = _pieces(self.identical.key(text), uca.IDENTICAL)[4]
        return "".join(chr(int.from_bytes(points[at : at + 3], "big")) for at in range(0, len(points), 3))

    def order(self, words: Sequence[str]) -> list[tuple[int, int | None]]:
        """Words in their order, by their numbers, each with the level at which it differs from the one before, or 0 if it does not."""
        rows: list[tuple[int, int | None]] = []
        before = None
        for at in self.collator.sorted(range(len(words)), key=words.__getitem__):
            rows.append((at, self._level(before, words[at])))
            before = words[at]
        return rows

    def _level(self, a: str | None, b: str) -> int | None:
        if a is None:
            return None
        found = self.collator.explain(a, b)
        return found.level if found.order else 0

    def word(self, text: str) -> dict[str, Any]:
        """What a word is made of."""
        points = self.decomposed(text)
        found = self.collator.matches(text)
        key = self.collator.key(text)
        return {
            "text": text,
            "characters": [self._character(c) for c in text],
            "decomposed": [_point(c) for c in points],
            "matches": [
                {
                    "points": [_point(c) for c in match.text],
                    "places": places,
                    "is_key": match.is_key,
                    "line": self.rule_lines.get(match.text) if match.is_key else None,
                    "elements": [str(element) for element in match.elements],
                }
                for match, places in zip(found, _places(points, found))
            ],
            "levels": self._levels(key, found),
            "key": [piece.hex().upper() for piece in _pieces(key, self.collator.strength)],
            "packed": [piece.hex().upper() for piece in self._packed_pieces(text)],
        }

    def pair(self, a: str, b: str) -> dict[str, Any]:
        """Two words side by side, level by level up to the one that decides."""
        found = self.collator.explain(a, b)
        sides = [self._levels(self.collator.key(text), self.collator.matches(text)) for text in (a, b)]
        levels = []
        for level, (left, right) in enumerate(zip(*sides), 1):
            if level <= found.level:
                same = _common(left["weights"], right["weights"])
                levels.append({"level": level, "a": left, "b": right, "same": same})
        return {"a": a, "b": b, "order": found.order, "level": found.level if found.order else 0, "levels": levels}

    def _character(self, c: str) -> dict[str, Any]:
        points = self.decomposed(c)
        return {**_point(c), "parts": [_point(part) for part in points] if points != c else []}

    def _packed_pieces(self, text: str) -> list[bytes]:
        """The levels of a packed key: that at a strength is the beginning of that at each higher one."""
        keys = [collator.packed_key(text) for collator in self.by_strength]
        return [key[len(lower) :] for lower, key in zip([b"", *keys], keys)]

    def _levels(self, key: bytes, found: Sequence[uca.Match]) -> list[dict[str, Any]]:
        """The weights of each level, and the match that each comes from, if that is known."""
        levels = []
        for level, piece in enumerate(_pieces(key, self.collator.strength), 1):
            size = 3 if level == 5 else 2
            weights = [piece[at : at + size].hex().upper() for at in range(0, len(piece), size)]
            owners = _owners(level, self.collator.variable, found)
            levels.append({"weights": weights, "owners": [text for text, _ in owners] if [w for _, w in owners] == weights else []})
        return levels


def _point(c: str) -> dict[str, Any]:
    category = unicodedata.category(c)
    name = unicodedata.name(c, "")
    return {"text": c, "point": "U+%04X" % ord(c), "name": name.lower(), "kind": category[0]}


def _pieces(key: bytes, strength: int) -> list[bytes]:
    """The levels of a sort key, without the separators."""
    pieces = []
    for level in range(1, strength):
        end = 0
        while key[end : end + 2] not in (b"\0\0", b""):
            end += 2
        pieces.append(key[:end])
        key = key[end + 2 :]
    return [*pieces, key]


def _places(points: str, found: Sequence[uca.Match]) -> list[list[int]]:
    """The places in the text of the code points of each match. Of several equal ones, a match takes the first."""
    left: dict[str, list[int]] = {}
    for at in range(len(points) - 1, -1, -1):
        left.setdefault(points[at], []).append(at)
    return [[left[c].pop() for c in match.text] for match in found]


def _owners(level: int, variable: int, found: Sequence[uca.Match]) -> list[tuple[str, str]]:
    """The match that each weight of a level comes from, by UTS #10, section 4. The caller compares the weights with those of the key."""
    owners, after = [], False
    if level == 5:
        return [(c, "%06X" % ord(c)) for match in found for c in match.text]
    for match in found:
        for element in match.elements:
            weights = [element.primary, element.secondary, element.tertiary, 0xFFFF if variable == uca.SHIFTED and any(element[:3]) else 0]
            is_variable = element.is_variable and element.primary
            if variable != uca.NON_IGNORABLE and (is_variable or after and not element.primary):
                weights = [0, 0, 0, element.primary if variable == uca.SHIFTED else 0]
            if element.primary:
                after = bool(is_variable)
            if weights[level - 1]:
                owners.append((match.text, "%04X" % weights[level - 1]))
    return owners


def _common(a: Sequence[str], b: Sequence[str]) -> int:
    """How many weights both lists begin with."""
    for at, (x, y) in enumerate(zip(a, b)):
        if x != y:
            return at
    return min(len(a), len(b))
