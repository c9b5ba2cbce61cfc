"""The files that the explorer reads: a table, and the rules of languages."""

from __future__ import annotations

import glob
import os
import re
import sys
from collections.abc import Sequence
from typing import Any

_PREFIXES = (sys.prefix, "/usr/local", "/usr")


class NotFound(Exception):
    """A file is not there."""


class Files:
    """A table that was read, and a folder of rules."""

    def __init__(self, table: str | None, rules: str | None) -> None:
        self.table_name = table or _first("a table", "--table or UCA_TABLE", _tables())
        self.rules_folder = rules or next(filter(os.path.isdir, _rule_folders()), None)
        try:
            with open(self.table_name, "rb") as file:
                self.table = file.read()
            if rules is not None:
                os.listdir(rules)
        except OSError as error:
            raise NotFound(str(error)) from None

    def languages(self) -> list[dict[str, Any]]:
        """The languages of the folder: tag, name and rules."""
        found = []
        for path in sorted(glob.glob(os.path.join(glob.escape(self.rules_folder), "*.rules"))) if self.rules_folder else []:
            try:
                with open(path, encoding="utf-8", newline="") as file:
                    rules = file.read()
            except (OSError, UnicodeDecodeError):
                continue
            name = re.match(r"#\s*([^:.\n]*)", rules)
            found.append({"tag": os.path.basename(path)[: -len(".rules")], "name": name[1].strip() if name else "", "rules": rules})
        return found


def _tables() -> list[str]:
    """Where a table may be, in the order in which `ucasort` looks for one."""
    named = os.environ.get("UCA_TABLE")
    if named:
        return [named]
    installed = [os.path.join(prefix, "share", "uca", "allkeys.txt") for prefix in _PREFIXES]
    return installed + sorted(glob.glob("/usr/share/perl/5.*/Unicode/Collate/allkeys.txt"), reverse=True)


def _rule_folders() -> list[str]:
    checkout = os.path.abspath(os.path.join(os.path.dirname(__file__), *[os.pardir] * 5))
    folders = [os.path.join(prefix, "share", "uca", "rules") for prefix in _PREFIXES]
    return [os.path.join(checkout, "rules")] * os.path.exists(os.path.join(checkout, "crates.txt")) + folders


def _first(what: str, named_by: str, paths: Sequence[str]) -> str:
    for path in paths:
        if os.path.exists(path):
            return path
    raise NotFound("%s was not found: name one with %s" % (what, named_by))
