"""Tests the installed package: test.py TABLE LINES ORDERED FINGERPRINT. ORDERED has the lines of LINES as `uca order` sorts them."""

import ast
import copy
import functools
import inspect
import os
import pickle
import re
import signal
import sys
import tempfile
import threading
import typing

import uca

table_path, lines_path, ordered_path, fingerprint = sys.argv[1:]
table = open(table_path, "rb").read()
lines = open(lines_path, encoding="utf-8", newline="\n").read().split("\n")[:-1]
ordered = open(ordered_path, encoding="utf-8", newline="\n").read().split("\n")[:-1]
small = "0061 ; [.1000.0020.0002]\n0062 ; [.1001.0020.0002]\n"
folder = os.path.dirname(uca.__file__)


def refused(call, type_of=uca.Error, **wanted):
    """The exception that a call raises, which must have these attributes."""
    try:
        call()
    except type_of as error:
        got = {name: getattr(error, name) for name in wanted}
        assert got == wanted, (got, wanted)
        return error
    raise AssertionError("not refused: %s" % wanted)


def order(collator):
    assert sorted(lines, key=collator.key) == ordered
    assert sorted(lines, key=collator.packed_key) == ordered
    assert collator.sorted(lines) == ordered
    assert collator.sorted(iter(lines), reverse=True) == sorted(lines, key=collator.key, reverse=True)
    assert collator.sort_keys(lines) == [collator.key(line) for line in lines] == [collator.sort_key(line.encode()) for line in lines]
    assert collator.packed_keys(tuple(lines)) == [collator.packed_key(line) for line in lines]
    people = [{"name": name, "number": number} for number, name in enumerate(["b", "a", "B", "b"])]
    assert [p["number"] for p in collator.sorted(people, key=lambda p: p["name"])] == [1, 0, 3, 2]
    few = lines[:3000]
    assert sorted(few, key=functools.cmp_to_key(collator.compare)) == sorted(few, key=collator.key)
    words = ["b", "a"]
    assert collator.sort(words) is None and words == ["a", "b"]
    assert [collator.compare("a", "b"), collator.compare("a", b"a"), collator.compare("b", "a")] == [-1, 0, 1]
    assert collator.sort_keys([]) == [] and collator.key("") == collator.key(b"")
    assert collator.fingerprint().hex() == fingerprint


def looks(collator):
    """Why texts are in their order."""
    few = lines[:3000]
    for a, b in zip(few, few[1:]):
        assert collator.explain(a, b).order == collator.compare(a, b)
    assert collator.explain("a", "á") == uca.Comparison(-1, 2) and collator.explain(b"A", "a") == (1, 3) and collator.explain("", "") == (0, 3)
    assert collator.clone(strength=uca.IDENTICAL, variable=uca.SHIFTED).explain("a-b", "ab") == (-1, 4)
    for line in few:
        found = collator.matches(line)
        weights = [element.primary for match in found for element in match.elements if element.primary]
        key = collator.clone(strength=uca.PRIMARY).key(line)
        assert key == b"".join(weight.to_bytes(2, "big") for weight in weights)
    assert collator.matches("") == [] and collator.matches(b"a") == collator.matches("a")
    with uca.Collator(small + "0061 0301 ; [*0000.0024.0002][.0000.0025.0002]\n") as other:
        first, second, third = other.matches("a\u0323\u0301\U00020000")
        assert (first.text, first.is_key, [str(e) for e in first.elements]) == ("a\u0301", True, ["[*0000.0024.0002]", "[.0000.0025.0002]"])
        assert second == uca.Match("\u0323", False, (uca.Element(0xFBC0, 0x20, 2, False), uca.Element(0x8323, 0, 0, False)))
        assert third.text == "\U00020000" and type(third.elements[0]) is uca.Element and third.elements[0].primary == 0xFB84


def long_texts(collator):
    assert 16384 < len(collator.packed_key("\ufdfa" * 1000)) < len(collator.key("\ufdfa" * 1000)) / 2
    assert collator.key("a" * 10000) > collator.key("a" * 9999)
    assert collator.key("a" * 100000)[:200000] == collator.clone(strength=uca.PRIMARY).key("a" * 100000)
    assert "".join(match.text for match in collator.matches("ab" * 50000)) == "ab" * 50000
    assert collator.explain("a" * 100000, "a" * 99999 + "b") == (-1, 1)
    for bounds, key, size in ((collator.prefix_bounds, collator.key, 2), (collator.packed_prefix_bounds, collator.packed_key, 1)):
        assert bounds("") == (b"", None)
        lower, upper = bounds("lo" * 3000)
        assert len(lower) == len(upper) == 6000 * size and lower < key("LÓ" * 3000 + "x") < upper
        lower, upper = bounds("lo")
        assert [lower <= key(word) < upper for word in ("lo", "Lómo", "l", "lp", "ln\uffff")] == [True, True, False, False, False]
    few = collator.clone(strength=uca.PRIMARY)
    assert few.packed_key("lomo") == few.packed_prefix_bounds("lomo")[0] + b"\0" == collator.packed_key("lomo")[:5]


def texts_at_fault(collator):
    run = "x" + "\u0301" * 61
    place = {"status": uca.LONG_RUN, "kind": 0, "line": 2, "column": 62, "character": "\u0301"}
    error = refused(lambda: collator.compare("a", "é\n" + run), uca.TextError, text=2, at=3 + 1 + 120, **place)
    assert str(error) == "text 2: line 2, column 62, U+0301: this is the 61st nonstarter (combining mark) in a row, and a text may have at most 60"
    for call in (collator.key, collator.packed_key, collator.sort_key, collator.prefix_bounds, collator.packed_prefix_bounds, collator.matches, uca.check):
        refused(lambda: call(b"a\xc3\xa9\xff"), uca.TextError, status=uca.NOT_UTF8, text=1, at=3, line=1, column=3, character="\\xff")
        refused(lambda: call("é\udc80"), uca.TextError, at=2, column=2, character="\udc80", cause="a lone surrogate is not a character")
        refused(lambda: call(None), TypeError)
        refused(lambda: call(7), TypeError)
        refused(call, TypeError)
    refused(lambda: collator.explain("a", "é\n" + run), uca.TextError, text=2, at=3 + 1 + 120, **place)
    refused(lambda: collator.explain("a", 1), TypeError)
    refused(lambda: collator.sort_keys(["a", "b", "\ud800"]), uca.TextError, text=3)
    refused(lambda: collator.packed_keys([b"\xff"]), uca.TextError, text=1)
    assert "text 2 " in str(refused(lambda: collator.sort_keys(["a", None]), TypeError))
    refused(lambda: collator.sort_keys("ab"), TypeError)
    refused(lambda: collator.sort_keys(None), TypeError)
    refused(lambda: collator.compare("a"), TypeError)
    refused(lambda: collator.compare("a", 1), TypeError)
    words = ["b", "\udc80", "a"]
    refused(lambda: collator.sort(words), uca.TextError, text=2)
    assert words == ["b", "\udc80", "a"]
    same = pickle.loads(pickle.dumps(error))
    assert (type(same), str(same), vars(same)) == (uca.TextError, str(error), vars(error))


def settings_at_fault():
    for strength in (0, 6, 9, -1, 2**31, 2**32 + 3, 10**30):
        assert str(strength) in str(refused(lambda: uca.Collator(small, strength=strength), ValueError))
        refused(lambda: uca.Collator(small).clone(strength=strength), ValueError)
    for variable in (-1, 3, 2**32):
        refused(lambda: uca.Collator(small, variable=variable), ValueError)
    for wrong in ("3", 3.0, None):
        refused(lambda: uca.Collator(small, strength=wrong), TypeError)
    for wrong in (None, 3, ["a"], bytearray(b"a")):
        refused(lambda: uca.Collator(wrong), TypeError)
        refused(lambda: uca.Collator(small, wrong), TypeError)
    refused(lambda: uca.Collator(), TypeError)
    refused(lambda: uca.Collator.__new__(uca.Collator).key("a"), status=uca.NOT_OPEN)


tables_at_fault = (
    # text, kind, line, column, character
    ("a" * 5000, 1, 1, 4097, "a"),
    ("@version 1\n@version 2\n", 2, 2, 1, "@"),
    (small + "zzz", 3, 3, 1, "z"),
    (small + " 0063 006g ; [.1.1.1]\n", 3, 3, 7, "0"),
    ("D800 ; [.1000.0020.0002]", 3, 1, 1, "D"),
    ("@implicitweights 17000-18AFF; FB00", 3, 1, 23, "-"),
    ("0061 " * 33 + "; [.1000.0020.0002]", 4, 1, 161, "0"),
    ("# é\n0061 # é", 5, 2, 5, " "),
    ("0061 ; zzz\r\n", 6, 1, 8, "z"),
    ("0061 ; [.1000.0020.0002]é", 6, 1, 25, "é"),
    ("0061 ;", 7, 1, 7, ""),
    ("0061 ; " + "[.1000.0020.0002]" * 65, 8, 1, 8 + 64 * 17, "["),
    (small + "0061 ; [.1000.0020.0002]", 9, 3, 1, "0"),
    ("@implicitweights 17000..18AFF; 1B00", 10, 1, 18, "1"),
)
rules_at_fault = (
    # text, status, kind, line, column, character
    ("b", 7, 21, 1, 1, "b"),
    ("&a<b # é\n  <'c", 7, 21, 2, 4, "'"),
    ("&å<\\u12", 7, 21, 1, 4, "\\"),
    ("&å<b\n&c <<< ;", 7, 22, 2, 8, ";"),
    ("&[top]<b", 7, 22, 1, 2, "["),
    ("&a<<<<b", 7, 22, 1, 3, "<"),
    ("&a<", 7, 23, 1, 4, ""),
    ("&a<x" + "\u0301" * 61, 7, 24, 1, 4, "x"),
    ("&a<" + "b" * 33, 7, 25, 1, 4, "b"),
    ("&a" + "<b" * 20001, 7, 26, 1, 40003, "<"),
    (b"&\xc3\xa5<\xff", 7, 27, 1, 4, "\\xff"),
    ("&å<\udc80", 7, 27, 1, 4, "\udc80"),
    ("&a<b # <\n&a<' <''<'<c\\< # é <'\n  &\u4e00 < e", 8, 42, 3, 6, "<"),
    ("&a\\\n<b&å<<c=c\n&\u4e00é<e", 8, 42, 3, 4, "<"),
)


def tables_and_rules():
    for text, kind, line, column, character in tables_at_fault:
        refused(lambda: uca.Collator(text), uca.TableError, status=uca.BAD_TABLE, kind=kind, line=line, column=column, character=character)
    assert "from_files" in str(refused(lambda: uca.Collator("allkeys.txt")))
    for text, status, kind, line, column, character in rules_at_fault:
        refused(lambda: uca.Collator(table, text), uca.RulesError, status=status, kind=kind, line=line, column=column, character=character)
    error = refused(lambda: uca.Collator(small, "&a<b\n&b<å<;"))
    assert str(error) == "the rules: line 2, column 6, ';' (U+003B): " + error.cause and error.at == 11
    refused(lambda: uca.Collator("\udc80"), uca.TableError)
    refused(lambda: uca.Collator(b"\xff\n"), uca.TableError, line=1, column=1, character="\\xff")


def sentences():
    header = os.path.join(os.path.dirname(os.path.abspath(__file__)), "..", "..", "include", "uca.h")
    text = open(header, encoding="utf-8").read()
    kinds = {int(number) for number in re.findall(r"^    UCA_(?:TABLE|RULES|TAILOR)_[A-Z0-9_]* = ([0-9]+)", text, re.MULTILINE)}
    assert kinds == set(uca._errors._KINDS), kinds ^ set(uca._errors._KINDS)


def files(work):
    paths = {name: os.path.join(work, name) for name in ("table", "rules", "bad")}
    for name, text in (("table", small), ("rules", "&b<<<c\n"), ("bad", "&b<\n&c")):
        with open(paths[name], "w", encoding="utf-8") as file:
            file.write(text)
    with uca.Collator.from_files(paths["table"], paths["rules"], uca.PRIMARY, uca.SHIFTED) as collator:
        assert (collator.strength, collator.variable, collator.compare("b", "c")) == (1, 2, 0)
        assert collator.clone(strength=uca.TERTIARY).compare("b", "c") == -1
    error = refused(lambda: uca.Collator.from_files(paths["table"], paths["bad"]), uca.RulesError, filename=paths["bad"], line=1, column=4)
    assert str(error).startswith(paths["bad"] + ": the rules: line 1, column 4, the end of the line: ")
    refused(lambda: uca.Collator.from_files(paths["bad"]), uca.TableError, filename=paths["bad"])
    for name in [os.path.join(work, "none%d" % number) for number in range(100)] + [work, "", "a\0b"]:
        refused(lambda: uca.Collator.from_files(name), (OSError, ValueError))
        refused(lambda: uca.Collator.from_files(paths["table"], name), (OSError, ValueError))


def hundreds_of_faults(collator):
    """A collator is unchanged after faults in its calls and those of others."""
    before = collator.key("Llano"), collator.fingerprint()
    for number in range(300):
        sign = "!\"#$%&()*+,-./;"[number % 15] + "<" * (number % 7) + "'\\"[number % 2]
        refused(lambda: uca.Collator(small, "&a<b<%s" % sign), uca.RulesError)
        refused(lambda: uca.Collator(small + "%04X" % number), uca.TableError, line=3)
        refused(lambda: collator.key(b"a" * number + b"\xff"), uca.TextError, at=number)
        refused(lambda: collator.__init__(small, "&%d<" % number), uca.RulesError)
        refused(lambda: collator.clone(strength=6 + number), ValueError)
    assert (collator.key("Llano"), collator.fingerprint()) == before


def threads(collator):
    """Several threads use one collator, and its clones."""
    few = lines[:3000]
    wanted, same = [collator.key(line) for line in few], []
    started = [
        threading.Thread(target=lambda c=c: same.append([c.key(line) for line in few] == wanted == c.sort_keys(few)))
        for c in (collator, collator, collator, collator.clone(), collator.clone())
    ]
    for thread in started:
        thread.start()
    for thread in started:
        thread.join()
    assert same == [True] * len(started)


def interrupted(collator):
    """A signal interrupts a call that makes many keys."""

    def ends(*_):
        raise KeyboardInterrupt

    signal.signal(signal.SIGALRM, ends)
    signal.setitimer(signal.ITIMER_REAL, 0.02)
    refused(lambda: collator.sort_keys(lines * 20), KeyboardInterrupt)


def database(collator):
    """Python's own sqlite3 accepts the methods as they are."""
    try:
        import sqlite3
    except ImportError:
        return
    connection = sqlite3.connect(":memory:")
    connection.create_collation("uca", collator.compare)
    connection.create_function("uca_key", 1, collator.packed_key, deterministic=True)
    connection.execute("CREATE TABLE words (t TEXT)")
    connection.executemany("INSERT INTO words VALUES (?)", [(word,) for word in ("zorro", "Árbol", "arbol", "arce")])
    connection.execute("CREATE INDEX by_key ON words (uca_key(t))")
    wanted = [("arbol",), ("Árbol",), ("arce",), ("zorro",)]
    assert connection.execute("SELECT t FROM words ORDER BY t COLLATE uca").fetchall() == wanted
    found = connection.execute("SELECT t FROM words WHERE uca_key(t) >= ? AND uca_key(t) < ? ORDER BY uca_key(t)", collator.packed_prefix_bounds("arb"))
    assert found.fetchall() == wanted[:2]


def resident():
    with open("/proc/self/statm") as file:
        return int(file.read().split()[1]) * os.sysconf("SC_PAGE_SIZE")


def memory():
    """A hundred thousand calls and objects leak nothing."""
    collator = uca.Collator(small)
    item, texts = "aé" * 30, ["a%d" % number for number in range(1000)]
    works = (
        lambda: collator.key(item),
        lambda: collator.compare(item, "b"),
        lambda: collator.prefix_bounds("ab" * 30),
        lambda: collator.packed_prefix_bounds("ab" * 30),
        lambda: collator.clone(),
        lambda: collator.matches(item),
        lambda: collator.explain(item, "a"),
        lambda: refused(lambda: collator.matches("a\udc80")),
        lambda: refused(lambda: collator.key("a\udc80")),
        lambda: refused(lambda: collator.compare("a", None), TypeError),
    )
    rare = (
        lambda: uca.Collator(small, "&a<c"),
        lambda: collator.__init__(small),
        lambda: refused(lambda: uca.Collator(small, "&a<")),
        lambda: collator.key("ab" * 10000),
        lambda: collator.packed_keys(texts),
        lambda: refused(lambda: collator.sort_keys(texts + [None]), TypeError),
    )
    for many, each in ((100000, works), (1000, rare)):
        for work in each:
            for _ in range(many // 10):
                work()
            before = resident()
            for _ in range(many):
                work()
            assert resident() - before < 1 << 20, (each.index(work), resident() - before)


def types():
    """The stub names everything that exists, with the parameters of each call."""
    assert os.path.exists(os.path.join(folder, "py.typed"))
    with open(os.path.join(folder, "_uca.pyi")) as file:
        stub = ast.parse(file.read())
    classes = [node for node in stub.body if isinstance(node, ast.ClassDef)]
    for owner, body in [(uca._uca, stub.body)] + [(getattr(uca._uca, node.name), node.body) for node in classes]:
        for node in body:
            if isinstance(node, ast.FunctionDef) and not node.name.startswith("__"):
                known = getattr(owner, node.name)
                if known.__doc__ and not node.decorator_list:
                    wanted = [word.arg for word in node.args.posonlyargs + node.args.args if word.arg != "self"]
                    assert [name for name in inspect.signature(known).parameters if name != "self"] == wanted, node.name
    public = {name for name in dir(uca._uca.Collator) if not name.startswith("_")}
    named = {node.name for node in classes[0].body if isinstance(node, ast.FunctionDef)}
    assert public == {name for name in named if not name.startswith("_")}
    for call in (uca.Collator.__init__, uca.Collator.from_files, uca.Collator.clone, uca.Collator.sorted, uca.Collator.sort, uca.Collator.matches, uca.Collator.explain):
        assert typing.get_type_hints(call)["return"] is not None, call
    for name in uca.__all__:
        assert hasattr(uca, name) and (name.isupper() or getattr(uca, name).__doc__), name


assert uca.version() == (1, 0, 0) and uca.unicode_version() == (18, 0, 0)
with uca.Collator(table) as collator:
    order(collator)
    looks(collator)
    long_texts(collator)
    texts_at_fault(collator)
    hundreds_of_faults(collator)
    threads(collator)
    interrupted(collator)
    database(collator)
    refused(lambda: pickle.dumps(collator), TypeError)
    refused(lambda: copy.copy(collator), TypeError)
    clone = collator.clone()
for call in (lambda: collator.key("a"), lambda: collator.matches("a"), lambda: collator.explain("a", "b"), collator.fingerprint, collator.clone, lambda: collator.compare("a", "b")):
    refused(call, status=uca.NOT_OPEN, line=None, column=None)
collator.close()
assert sorted(lines, key=clone.key) == ordered
with uca.Collator(table, "&h<ch") as czech:
    for begin, inside, outside in (("ac", "acá", "achát"), ("ach", "achát", "ac"), ("c", "Č", "chata")):
        for bounds, key in ((czech.prefix_bounds, czech.key), (czech.packed_prefix_bounds, czech.packed_key)):
            lower, upper = bounds(begin)
            assert lower <= key(inside) < upper and not lower <= key(outside) < upper, begin
settings_at_fault()
tables_and_rules()
sentences()
with tempfile.TemporaryDirectory() as work:
    files(work)
types()
memory()
print("well")
