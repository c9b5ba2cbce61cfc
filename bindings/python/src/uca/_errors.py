"""The exceptions for refused calls: where the fault is, and its cause in a sentence."""

from __future__ import annotations

import re

NOT_UTF8, LONG_RUN, NOT_OPEN, BAD_SETTINGS, _NO_MEMORY, BAD_TABLE, BAD_RULES, BAD_TAILORING = range(1, 9)
INCOMPLETE = 9  # No longer returned.

_STATUSES = {
    NOT_UTF8: "this is not UTF-8",
    LONG_RUN: "this is the 61st nonstarter (combining mark) in a row, and a text may have at most 60",
    NOT_OPEN: "the collator is closed",
    BAD_SETTINGS: "the strength or the option for variable elements has no meaning",
}

# By the numbers of uca_kind.
_KINDS = {
    1: "a line may have at most 4096 bytes",
    2: "this directive is unknown or malformed, or gives a second version",
    3: "a code point is expected: four to six hexadecimal digits, at most 10FFFF and not a surrogate",
    4: "this is the 33rd code point of a key, and a key may have at most 32",
    5: "a semicolon is expected after the key",
    6: "a collation element is expected, such as [.1C47.0020.0002]",
    7: "the entry has no collation element",
    8: "this is the 65th collation element, and an entry may have at most 64",
    9: "an earlier line has this key",
    10: "this range ends before it begins, has a base below 8000, or does not fit beside an earlier range",
    11: "a table may have at most 67108864 bytes",
    21: "this has no meaning here: rules begin with &, and a sign that is a character of a string needs quotes or a backslash",
    22: "this part of the syntax of UTS #35 is left out; as a character of a string it needs quotes or a backslash",
    23: "a string is expected here",
    24: "this string has more than 60 nonstarters (combining marks) in a row",
    25: "this string has more than 32 code points in NFD",
    26: "rules may have at most 20000 relations",
    27: "this is not UTF-8",
    41: "what the item comes after has no weight at this level that can be raised",
    42: "what the item comes after has an implicit weight, as ideographs have: nothing can come after it at the first level",
    43: "no weight is left at the first level",
    44: "no weight is left at the second level",
    45: "no weight is left at the third level",
    46: "the item would have more than 64 collation elements",
}

# The operator of a relation, or something that can contain the sign of an operator: a quoted string, an escape, a comment.
_OPERATOR = re.compile(r"'[^']*'|\\.|#[^\n\f\r\x85\u2028\u2029]*|(<{1,3}|=)", re.DOTALL)

_CODE_POINT = rb"(?!0{0,2}D[89A-F])(?:10|0?[0-9A-F])?[0-9A-F]{4}"
_ELEMENT = rb"\[[.*](?:[0-9A-F]{4}\.){2}[0-9A-F]{4}(?:\.[0-9A-F]{4,6})?\]"
# The front of an entry of a table, as far as it is well-formed.
_ENTRY = re.compile(
    rb"[ \t]*(?:%b(?:[ \t]+|(?=;)|$)){0,32}(?:(?<=[0-9A-F \t]);[ \t]*(?:%b[ \t]*){0,64})?" % (_CODE_POINT, _ELEMENT), re.IGNORECASE
)
_RANGE = re.compile(rb"[ \t]*@implicitweights[ \t]+(?:%b(?:\.\.%b)?)?" % (_CODE_POINT, _CODE_POINT), re.IGNORECASE)


class Error(ValueError):
    """A call was refused, and changed nothing.

    status     the uca_status of uca.h: NOT_UTF8, LONG_RUN, NOT_OPEN, BAD_SETTINGS, BAD_TABLE, BAD_RULES or BAD_TAILORING
    kind       the uca_kind of uca.h: why a table or rules were refused; else 0
    text       which text of the call is at fault, from 1; 0 for a table and rules
    at         as in uca.h: a byte of the text in UTF-8 or of the rules, from 0; or a line or a relation, from 1
    line       the line, from 1, or None if the fault has no place
    column     the character in that line, from 1, or None
    character  the character there, or "" at the end of the line; a byte that is not UTF-8 is written as "\\\\xff"
    cause      why, in a sentence
    filename   the file at fault, if Collator.from_files read it
    """

    __module__ = "uca"
    status: int = 0
    kind: int = 0
    text: int = 0
    at: int = 0
    line: int | None = None
    column: int | None = None
    character: str = ""
    cause: str = ""
    filename: str | None = None


class TextError(Error):
    """A text cannot be collated."""

    __module__ = "uca"


class TableError(Error):
    """A table was refused."""

    __module__ = "uca"


class RulesError(Error):
    """Rules were refused, or cannot tailor the table."""

    __module__ = "uca"


_TYPES = {
    NOT_UTF8: TextError,
    LONG_RUN: TextError,
    BAD_TABLE: TableError,
    BAD_RULES: RulesError,
    BAD_TAILORING: RulesError,
}


def _encoded(text: str | bytes) -> bytes:
    return text if isinstance(text, bytes) else text.encode("utf-8", "surrogatepass")


def _decoded(text: bytes) -> str:
    """The text with its number of characters, where a byte that is not UTF-8 counts as one."""
    try:
        return text.decode("utf-8", "surrogatepass")
    except UnicodeDecodeError:
        return text.decode("utf-8", "surrogateescape")


def _character(text: bytes, at: int, whole: bool) -> str:
    """The character that begins at a byte. `whole` is true if the text was a str, which may have lone surrogates."""
    front = text[at : at + 4]
    for size in range(1, len(front) + 1):
        try:
            return front[:size].decode("utf-8", "surrogatepass" if whole else "strict")
        except UnicodeDecodeError:
            pass
    return "\\x%02x" % front[0] if front else ""


def _byte_of_line(table: bytes, line: int, kind: int) -> tuple[int, int]:
    """Where a line of a table begins, and which byte of the line is at fault."""
    begin = 0
    for _ in range(line - 1):
        begin = table.find(b"\n", begin) + 1
    end = table.find(b"\n", begin)
    row = table[begin : end if end >= 0 else len(table)].split(b"#")[0].rstrip(b" \t\r")
    if kind == 1:
        return begin, 4096
    if kind in (2, 9):
        return begin, len(row) - len(row.lstrip(b" \t"))
    if kind == 10:
        return begin, row.find(b"@implicitweights") + len(b"@implicitweights ")
    front = _RANGE.match(row) or _ENTRY.match(row)
    return begin, front.end() if front else 0


def _byte_of_relation(rules: bytes, number: int) -> int:
    """The byte of the operator of a relation, counted from 1."""
    text = rules.decode("utf-8")
    operators = (found.start() for found in _OPERATOR.finditer(text) if found.group(1))
    for _ in range(number - 1):
        next(operators, None)
    return len(text[: next(operators, len(text))].encode("utf-8"))


def _place(status: int, kind: int, at: int, source: str | bytes) -> tuple[int, int, str]:
    """The line, the column and the character of a fault."""
    data = _encoded(source)
    if status == BAD_TABLE:
        begin, column = _byte_of_line(data, at, kind)
        at = begin + column
    elif status == BAD_TAILORING:
        at = _byte_of_relation(data, at)
    at = min(at, len(data))
    begin = data.rfind(b"\n", 0, at) + 1
    character = _character(data, at, isinstance(source, str))
    return data.count(b"\n", 0, at) + 1, len(_decoded(data[begin:at])) + 1, "" if character in ("\n", "\r") else character


def _shown(character: str) -> str:
    """A character for a message: itself, unless it is invisible or joins what comes before it."""
    if len(character) != 1:
        return character or "the end of the line"
    number = "U+%04X" % ord(character)
    is_seen = character.isalnum() or character.isascii() and character.isprintable()
    return "%s (%s)" % (repr(character), number) if is_seen else number


def error_of(status: int, kind: int, text: int, at: int, source: str | bytes | None) -> Error:
    """The exception for a status and a fault. The extension calls it."""
    cause = _KINDS.get(kind) or _STATUSES.get(status, "status %d, kind %d" % (status, kind))
    if isinstance(source, str) and (status == NOT_UTF8 or kind == 27):
        cause = "a lone surrogate is not a character"
    type_of = _TYPES.get(status, Error)
    what = "the table: " if type_of is TableError else "the rules: " if type_of is RulesError else "text %d: " % text if text else ""
    line, column, character = None, None, ""
    place = ""
    if source is not None and status not in (NOT_OPEN, BAD_SETTINGS) and kind != 11:
        line, column, character = _place(status, kind, at, source)
        place = "line %d, column %d, %s: " % (line, column, _shown(character))
    hint = " (Collator.from_files reads files)" if status == BAD_TABLE and isinstance(source, str) and "\n" not in source else ""
    error = type_of(what + place + cause + hint)
    error.status, error.kind, error.text, error.at, error.cause = status, kind, text, at, cause
    error.line, error.column, error.character = line, column, character
    return error
