"""Sorts the lines of a file by keys of the package `uca` and, where it can be imported, of PyICU: python.py TABLE LINES

The texts are shuffled, and each time is that of the fastest of seven rounds, in seconds of processor time. ICU's collator is root,
normalizing. Both have three levels.
"""

import random
import sys
import time

import uca

try:
    import icu
except ImportError:
    icu = None

table, lines = sys.argv[1:]
with open(lines, encoding="utf-8", newline="\n") as file:
    texts = file.read().split("\n")[:-1]
random.Random(1).shuffle(texts)
collator = uca.Collator.from_files(table)
works = {
    "sorted(texts, key=collator.key)": lambda: sorted(texts, key=collator.key),
    "sorted(texts, key=collator.packed_key)": lambda: sorted(texts, key=collator.packed_key),
    "collator.sorted(texts)": lambda: collator.sorted(texts),
    "collator.sort_keys(texts)": lambda: collator.sort_keys(texts),
    "collator.packed_keys(texts)": lambda: collator.packed_keys(texts),
}
if icu:
    peer = icu.Collator.createInstance(icu.Locale.getRoot())
    peer.setAttribute(icu.UCollAttribute.NORMALIZATION_MODE, icu.UCollAttributeValue.ON)
    works["PyICU: sorted(texts, key=peer.getSortKey)"] = lambda: sorted(texts, key=peer.getSortKey)
    works["PyICU: [peer.getSortKey(t) for t in texts]"] = lambda: [peer.getSortKey(text) for text in texts]
fastest = dict.fromkeys(works, float("inf"))
for _ in range(7):
    for name, work in works.items():
        began = time.process_time()
        work()
        fastest[name] = min(fastest[name], time.process_time() - began)
print("%d texts" % len(texts))
for name, seconds in fastest.items():
    print("%6.3f  %s" % (seconds, name))
