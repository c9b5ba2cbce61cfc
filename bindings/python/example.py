"""Sorts names, finds those that begin with a text, and shows a fault of rules: example.py TABLE RULES"""

import bisect
import sys

import uca

table, rules = sys.argv[1:]
collator = uca.Collator.from_files(table, rules)
names = ["Åström", "Zander", "zanders", "Lindén", "Öberg", "Linde"]
names.sort(key=collator.key)
print(*names)

index = sorted((collator.packed_key(name), name) for name in names)
lower, upper = collator.packed_prefix_bounds("zander")
print(*(name for _, name in index[bisect.bisect_left(index, (lower,)) : bisect.bisect_left(index, (upper,)) if upper else None]))

try:
    uca.Collator("", "&z<å\n<<<Å<")
except uca.RulesError as error:
    print(error.line, error.column, error.cause)
