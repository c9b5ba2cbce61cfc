"""Tests the explorer: explorer.py server|page WORDS. tests/explorer.sh passes the paths of everything it needs."""

import argparse
import http.client
import json
import os
import re
import subprocess
import sys
import time
import unicodedata

import webdriver

RUN = "a" + "\u0301" * 61


class Page:
    """A running explorer, and its address."""

    def __init__(self, words):
        command = [sys.executable, "-m", "uca.explorer", "--no-browser", "--table", words.table, "--rules", words.rules]
        self.process = subprocess.Popen(command, stdout=subprocess.PIPE, text=True)
        self.address = self.process.stdout.readline().strip()
        found = re.fullmatch(r"http://127\.0\.0\.1:(\d+)/([\w-]{32})/", self.address)
        assert found, self.address
        self.port, self.token = int(found[1]), found[2]
        self.origin = "http://127.0.0.1:%d" % self.port

    def send(self, method, path, body=None, **headers):
        """The status, the headers and the body of an answer."""
        connection = http.client.HTTPConnection("127.0.0.1", self.port, timeout=30)
        given = {"Origin": self.origin, "Content-Type": "application/json"} if method == "POST" else {}
        given.update({name.replace("_", "-"): value for name, value in headers.items()})
        connection.request(method, path, body, {name: value for name, value in given.items() if value is not None})
        answer = connection.getresponse()
        data = answer.read()
        connection.close()
        return answer.status, answer.headers, data

    def look(self, **question):
        status, _, data = self.send("POST", "/%s/look" % self.token, json.dumps(question))
        assert status == 200, (status, data)
        return json.loads(data)

    def close(self):
        self.process.terminate()
        self.process.wait(10)


# ---- the server


def answers_only_the_page(page):
    path = "/%s/" % page.token
    status, headers, body = page.send("GET", path)
    assert status == 200 and b"<h1>" in body and headers["Content-Type"] == "text/html; charset=utf-8"
    assert "default-src 'none'" in headers["Content-Security-Policy"] and "unsafe" not in headers["Content-Security-Policy"]
    for name in ("page.css", "page.js", "start"):
        assert page.send("GET", path + name)[0] == 200, name
    wrong = "/" + page.token[:-1] + ("A" if page.token[-1] != "A" else "B") + "/"
    for other in (wrong, "/", path[:-1], "/%s" % page.token.lower() + "x/", path + "../__init__.py", path + "..%2f_look.py", path + "_server.py", "//" + page.token):
        assert page.send("GET", other)[0] == 404, other
    for refused in ({"Host": "localhost:%d" % page.port}, {"Host": "example.org"}, {"Origin": "http://example.org"}, {"Origin": "null"},
                    {"Sec_Fetch_Site": "cross-site"}, {"Sec_Fetch_Site": "same-site"}):  # fmt: skip
        assert page.send("GET", path, **refused)[0] == 403, refused
        assert page.send("POST", path + "look", "{}", **refused)[0] == 403, refused
    assert page.send("POST", path + "look", "{}", Origin=None)[0] == 403
    assert page.send("POST", wrong + "look", "{}")[0] == 404 and page.send("POST", path + "start", "{}")[0] == 404
    assert page.send("PUT", path, "{}")[0] == 501


def bounds_what_comes_in(page):
    path = "/%s/look" % page.token
    assert page.send("POST", path, "{}", Content_Type="text/plain")[0] == 400
    assert page.send("POST", path, "{}", Content_Length="-1")[0] == 400
    assert page.send("POST", path, "", Content_Length=str(1 << 21))[0] == 413
    assert page.send("POST", path, "", Content_Length=str(10**30))[0] == 400
    assert page.send("POST", "/%s/table" % page.token, "", Content_Type="text/plain", Content_Length=str((1 << 26) + 1))[0] == 413
    for body in ("", "[]", "{", "null", "[" * 100000, '{"words":"ab"}', '{"words":[1]}', '{"rules":1}', '{"strength":0}', '{"strength":6}', '{"strength":true}',
                 '{"variable":3}', '{"chosen":[]}', '{"table":5}', json.dumps({"words": ["a"] * 20001})):  # fmt: skip
        assert page.send("POST", path, body)[0] == 400, body[:40]
    assert page.send("POST", path, '{"table":"none"}')[0] == 410
    assert page.look(words=["a"] * 20000)["order"][-1] == [19999, 0]
    assert "word" not in page.look(chosen="a" * 201) and "word" in page.look(chosen="a" * 200)


def takes_texts_as_data(page):
    assert page.look(words=["a", "\ud800"])["words"]["line"] == 2
    fault = page.look(words=["a", RUN])["words"]
    assert (fault["line"], fault["column"], fault["character"]) == (2, 62, "\u0301") and fault["cause"].startswith("this is the 61st nonstarter")
    assert page.look(chosen=RUN)["other"]["column"] == 62 and "order" in page.look(chosen="a", other="\udfff")
    fault = page.look(rules="&a<b\n<c;")["rules"]
    assert (fault["line"], fault["column"], fault["character"]) == (2, 3, ";") and "quotes" in fault["cause"]
    assert page.look(words=["", "a"])["order"] == [[0, None], [1, 1]]


def takes_tables(page):
    path = "/%s/table" % page.token
    send = lambda table: json.loads(page.send("POST", path, table, Content_Type="text/plain")[2])
    small = send(b"0062 ; [.1000.0020.0002]\n0061 ; [.1001.0020.0002]\n")["name"]
    assert [row[0] for row in page.look(table=small, words=["a", "b"])["order"]] == [1, 0]
    assert send(b"0062 ; [.1000.0020.0002]\n0062 ;\n")["fault"]["line"] == 2
    assert send(b"0061 ; [.1000.0020.0002]\n")["name"] != small
    send(b"0063 ; [.1000.0020.0002]\n")
    assert page.send("POST", "/%s/look" % page.token, json.dumps({"table": small, "rules": "&a<c"}))[0] == 410


def shows_levels(page):
    words = ["a", "A", "á", "b", "a", "a-b", "ab"]
    for strength in range(1, 6):
        for variable in range(3):
            rows = page.look(words=words, strength=strength, variable=variable)["order"]
            assert sorted(row[0] for row in rows) == list(range(len(words)))
            assert all(0 <= row[1] <= strength for row in rows[1:])
    rows = page.look(words=words, strength=4, variable=2)["order"]
    assert [words[row[0]] for row in rows] == ["a", "a", "A", "á", "a-b", "ab", "b"]
    assert [row[1] for row in rows] == [None, 0, 3, 2, 1, 4, 1]


def takes_keys_apart(page):
    """The pieces of a key make up the key, and each weight has the characters that it comes from."""
    for strength in range(1, 6):
        for variable in range(3):
            for word in ("", "co-op", "a\u0323\u0302b", "\u0301", "\ufdfa 日本", "- -", "ABCDEFGHIJ" * 17, "a\u200db"):
                got = page.look(chosen=word, strength=strength, variable=variable)["word"]
                assert len(got["key"]) == len(got["levels"]) == len(got["packed"]) == strength
                for level, (piece, row) in enumerate(zip(got["key"], got["levels"]), 1):
                    assert piece == "".join(row["weights"])
                    assert len(row["owners"]) == len(row["weights"]) or level == 5, (word, strength, variable, level, row)
                assert got["packed"][0].endswith("00") and all(got["packed"][:4]), (word, strength, variable, got["packed"])
                if strength > 1:
                    assert page.look(chosen=word, strength=strength - 1, variable=variable)["word"]["packed"] == got["packed"][:-1]
    rules = "# ll\n&l<ll # <x\n<<<'L'\\u006C\n&a=\\U0001F600"
    lines = [match["line"] for match in page.look(rules=rules, chosen="llLl\U0001f600l")["word"]["matches"]]
    assert lines == [2, 3, 4, None]


def serves(words):
    page = Page(words)
    try:
        for test in (answers_only_the_page, bounds_what_comes_in, takes_texts_as_data, takes_tables, shows_levels, takes_keys_apart):
            test(page)
    finally:
        page.close()
    refused = subprocess.run([sys.executable, "-m", "uca.explorer", "--table", words.work + "/none"], capture_output=True, text=True)
    assert refused.returncode == 3 and "none" in refused.stderr and not refused.stdout


# ---- the page

SAYS = {  # what an assistive technology is told of each field
    "#table": ("combobox", "Table"), "#language": ("combobox", "Language"), "#strength": ("combobox", "Strength"), "#variable": ("combobox", "Punctuation"),
    "#rules": ("textbox", "Rules"), "#words": ("textbox", "Words, one in a line"), "#order": ("listbox", "In order"), "#other": ("textbox", "The other word"),
    "#save": ("button", "Save these rules"),
}  # fmt: skip

# The lowest contrast between any visible text and its background, and that text.
CONTRAST = """
const linear = (v) => (v /= 255) <= 0.03928 ? v / 12.92 : ((v + 0.055) / 1.055) ** 2.4;
const light = ([r, g, b]) => 0.2126 * linear(r) + 0.7152 * linear(g) + 0.0722 * linear(b);
const parts = (text) => text.match(/[\\d.]+/g).map(Number);
const behind = (e) => {
  for (; e; e = e.parentElement) {
    const c = parts(getComputedStyle(e).backgroundColor);
    if (c.length < 4 || c[3] > 0) return c.slice(0, 3);
  }
  return [255, 255, 255];
};
let worst = [99, ""];
const walker = document.createTreeWalker(document.body, NodeFilter.SHOW_TEXT);
while (walker.nextNode()) {
  const e = walker.currentNode.parentElement;
  if (!walker.currentNode.data.trim() || !e.checkVisibility() || e.closest("#rules-marks, .unseen")) continue;
  const [a, b] = [light(parts(getComputedStyle(e).color).slice(0, 3)), light(behind(e))];
  const ratio = (Math.max(a, b) + 0.05) / (Math.min(a, b) + 0.05);
  if (ratio < worst[0]) worst = [ratio, walker.currentNode.data.slice(0, 40) + " in " + e.tagName + "." + e.className];
}
return worst;
"""


class Steered:
    """The page in a browser: what a reader does and sees."""

    def __init__(self, browser, page, words):
        self.browser, self.page, self.words = browser, page, words
        browser.open(page.address)
        browser.wait("return document.querySelectorAll('#order .row').length && document.querySelectorAll('#matches .match').length")

    def write(self, selector, text):
        """Replaces the text of a field, as pasting does."""
        self.browser.run("const e = document.querySelector(arguments[0]); e.value = arguments[1]; e.dispatchEvent(new Event('input'));", selector, text)

    def select(self, selector, value):
        self.browser.run("const e = document.querySelector(arguments[0]); e.value = arguments[1]; e.dispatchEvent(new Event('change'));", selector, value)
        self.settle()

    def settle(self):
        """Waits twice until the page has no more questions, since an answer may make it ask about a word."""
        self.browser.wait("return !state.busy && !state.waiting")

    def order(self):
        return self.browser.run("return [...document.querySelectorAll('#order .entry')].map((e) => e.textContent)")

    def levels(self):
        return self.browser.run("return [...document.querySelectorAll('#order .gap')].map((e) => +e.dataset.level)")

    def give(self, words):
        self.write("#words", "\n".join(words))
        self.settle()

    def choose(self, word):
        assert word in self.order(), (word, self.order())
        self.browser.run("[...document.querySelectorAll('#order .row')].find((e) => e.querySelector('.entry').textContent === arguments[0]).click()", word)
        self.settle()

    def text(self, selector):
        return self.browser.run("return document.querySelector(arguments[0]).textContent", selector)

    def elements(self):
        return "".join(self.browser.run("return [...document.querySelectorAll('#matches .element')].map((e) => e.textContent)"))

    def of_program(self, command, text, *options):
        """What the program writes for a line."""
        given = [self.words.uca, command, "--table", self.words.table, *options]
        return subprocess.run(given, input=text + "\n", capture_output=True, text=True, check=True).stdout.rstrip("\n")

    def picture(self, name):
        self.browser.run("document.activeElement.blur(); document.documentElement.scrollTop = 0")
        time.sleep(0.2)
        self.browser.screenshot("%s/explorer-%s.png" % (self.words.pictures, name))


def says_what_it_is(steered):
    for selector, said in SAYS.items():
        assert (steered.browser.role(selector), steered.browser.name(selector)) == said, selector
    for scheme in ("dark", "light"):
        steered.browser.develop("Emulation.setEmulatedMedia", features=[{"name": "prefers-color-scheme", "value": scheme}])
        time.sleep(0.2)
        ratio, text = steered.browser.run(CONTRAST)
        assert ratio >= 4.5, (scheme, ratio, text)
    loaded = steered.browser.run("return performance.getEntriesByType('resource').map((e) => e.name)")
    assert loaded and all(name.startswith(steered.page.address) or name == "data:," for name in loaded), loaded


def follows_the_keyboard(steered):
    browser = steered.browser
    steered.give(["luz", "llama", "lomo"])
    assert steered.order() == ["llama", "lomo", "luz"] and steered.levels() == [1, 1]
    browser.clear("#words")
    browser.type("#words", "b\na")
    browser.wait("return document.querySelectorAll('#order .row').length === 2")
    steered.settle()
    browser.type("#words", "\nA")
    browser.wait("return document.querySelectorAll('#order .row').length === 3")
    steered.settle()
    assert steered.order() == ["a", "A", "b"] and steered.levels() == [3, 1]
    browser.type("#order", webdriver.KEYS["home"])
    browser.type("#order", webdriver.KEYS["down"])
    steered.settle()
    assert steered.text("#word-title") == "A" and steered.text("#order [aria-selected=true] .entry") == "A"
    assert browser.run("return document.querySelector('#order').getAttribute('aria-activedescendant')") == "row-1"
    browser.type("#order", webdriver.KEYS["end"])
    steered.settle()
    assert steered.text("#word-title") == "b"


def has_the_elements_of_the_program(steered):
    rules = steered.words.rules + "/es-u-co-trad.rules"
    steered.select("#language", "es-u-co-trad")
    words = ["llama", "co-op", "a\u0323\u0302b", "côté", "שָׁלוֹם", "日本", "\ufdfa", "ǆ", "l·l", "\u0301", "\U00017000", "ஔ", "\u0f71\u0f74"]
    words.append("и\u0323\u0306к")  # a mark is taken over another one
    steered.give(words)
    for word in words:
        steered.choose("\u25cc" + word if unicodedata.category(word[0])[0] == "M" else word)
        assert steered.elements() == steered.of_program("elements", word, "--rules", rules), word
        key = steered.browser.run("return [...document.querySelectorAll('#key .piece')].map((e) => e.textContent.replaceAll(' ', ''))")
        assert "0000".join(key) == steered.of_program("key", word, "--rules", rules).replace(" ", "").upper(), word
    steered.choose("и\u0323\u0306к")
    assert steered.browser.run("return document.querySelectorAll('#matches path.far').length") == 1
    steered.select("#language", "")


def draws_marks_and_directions(steered):
    browser = steered.browser
    steered.give(["سلام عليكم ورحمة الله", "a"])
    steered.choose("سلام عليكم ورحمة الله")
    seen = """const box = document.querySelector("#matches"), e = box.firstChild.getBoundingClientRect(), s = box.parentElement.getBoundingClientRect();
        return e.left >= s.left && e.right <= s.right && box.scrollWidth > s.width"""
    assert browser.run(seen)
    steered.give(["שָׁלוֹם", "e\u0301", "<img src=x onerror=alert(1)>", "&amp;"])
    assert browser.run("return [...document.querySelectorAll('#order .entry')].map((e) => e.matches(':dir(rtl)'))").count(True) == 1
    assert browser.run("return document.querySelectorAll('img').length") == 0 and "&amp;" in steered.order()
    steered.choose("שָׁלוֹם")
    assert browser.run("return document.querySelector('#matches').dir") == "rtl"
    places = "return [...document.querySelectorAll('#matches .source')].map((e) => { const b = e.getBoundingClientRect(); return (b.left + b.right) / 2; })"
    first, *_, last = browser.run(places)
    assert first > last
    steered.choose("e\u0301")
    assert browser.run("return document.querySelectorAll('#characters tbody tr')[1].cells[0].textContent") == "\u25cc\u0301"
    lines = browser.run("return [...document.querySelectorAll('#matches path')].map((e) => e.getBoundingClientRect().left)")
    points = browser.run(places)
    assert len(lines) == len(points) == 2 and all(abs(a - b) < 2 for a, b in zip(lines, points)), (lines, points)


def marks_faults(steered):
    browser = steered.browser
    rules = "# one\n&å<b\n<<< c ;d"
    steered.write("#rules", rules)
    browser.wait("return document.querySelector('#rules-marks mark')")
    assert steered.text("#rules-marks mark") == ";" and steered.text("#rules-marks") == rules + "\n"
    before = browser.run("return document.querySelector('#rules-marks').firstChild.data")
    assert before == rules[: rules.index(";")]
    assert steered.text("#rules-fault").startswith("Line 3, column 7, ;: this part of the syntax")
    assert browser.run("return document.querySelector('#rules').getAttribute('aria-invalid')") == "true"
    other = """const [a, b] = ["#rules", "#rules-marks"].map((name) => getComputedStyle(document.querySelector(name)));
        return ["font", "padding", "width", "whiteSpace", "overflowWrap", "tabSize", "letterSpacing"].filter((name) => a[name] !== b[name])"""
    assert browser.run(other) == [], browser.run(other)
    steered.write("#rules", "# a long comment, so that the fault is out of sight\n" * 30 + "&\U0001f600a<\U0001f600?" + "\n# more" * 30)
    browser.wait("return document.querySelector('#rules-marks mark')?.textContent === '?'")
    browser.click("#to-fault")
    browser.wait("""const [m, r] = ["#rules-marks mark", "#rules"].map((name) => document.querySelector(name).getBoundingClientRect());
        return m.top > r.top && m.bottom < r.bottom""")
    assert browser.run("return document.querySelector('#rules').selectionStart") == len(("# a long comment, so that the fault is out of sight\n" * 30 + "&\U0001f600a<\U0001f600").encode("utf-16-le")) // 2
    steered.write("#rules", "&a<<")
    browser.wait("return document.querySelector('#rules-fault').textContent.includes('a string is expected')")
    steered.write("#rules", "")
    browser.wait("return document.querySelector('#rules-fault').textContent === ''")
    steered.settle()
    assert browser.run("return document.querySelector('#rules').getAttribute('aria-invalid')") == "false" and not steered.text("#rules-marks")
    steered.give(["a"] * 20001)
    assert steered.text("#words-fault").startswith("This is more than can be shown: 20000 words")
    steered.give(["a" * (1 << 20)])
    assert steered.text("#words-fault").startswith("This is more than can be shown")
    steered.give(["a", RUN])
    assert steered.text("#words-fault").startswith("Word 2, character 62: this is the 61st nonstarter")


def saves_the_same_bytes(steered):
    browser, folder = steered.browser, steered.words.work + "/saved"
    os.makedirs(folder, exist_ok=True)
    browser.develop("Browser.setDownloadBehavior", behavior="allow", downloadPath=folder)
    own = {"crlf.rules": b"\xef\xbb\xbf# \xc3\xb1\r\n&n<\xc3\xb1\r\n", "no-end.rules": b"&n<\xc3\xb1"}
    for name, data in own.items():
        with open("%s/%s" % (steered.words.work, name), "wb") as file:
            file.write(data)
    with open(steered.words.rules + "/es-u-co-trad.rules", "rb") as file:
        own["es-u-co-trad.rules"] = file.read()
    for name, data in own.items():
        if name.startswith("es"):
            steered.select("#language", name[: -len(".rules")])
        else:
            browser.type("#rules-file", "%s/%s" % (steered.words.work, name))
            browser.wait("return state.opened?.name === arguments[0]", name)
        browser.click("#save")
        path = "%s/%s" % (folder, name)
        end = time.monotonic() + 10
        while not os.path.exists(path) and time.monotonic() < end:
            time.sleep(0.05)
        time.sleep(0.1)
        with open(path, "rb") as file:
            assert file.read() == data, name
    steered.select("#language", "")


def orders_5000_words(steered):
    """From a paste to the list on the screen."""
    browser = steered.browser
    names = ["côté", "Cote", "ñandú", "llama", "co-op", "שלום", "łódź", "Ωmega", "straße", "naïve"]
    words = ["%s %d" % (names[n % len(names)], n) for n in range(5000)]
    taken = []
    while len(taken) < 3 or (min(taken) >= 1000 and len(taken) < 9):  # other work on this machine may hold up some
        steered.give(["a"])
        browser.run(
            """window.done = 0; const begin = performance.now();
            const watcher = new MutationObserver(() => {
              if (!document.querySelector("#count").textContent.startsWith("5000")) return;
              watcher.disconnect();
              requestAnimationFrame(() => requestAnimationFrame(() => { window.done = performance.now() - begin; })); });
            watcher.observe(document.querySelector("#rows"), { childList: true });
            const e = document.querySelector("#words"); e.value = arguments[0]; e.dispatchEvent(new Event("input"));""",
            "\n".join(words),
        )
        taken.append(browser.wait("return window.done"))
        steered.settle()
    assert min(taken) < 1000, taken
    ordered = steered.of_program("order", "\n".join(words)).split("\n")
    assert browser.run("return state.order.map(([number]) => state.words[number])") == ordered
    assert steered.order()[:20] == ordered[:20] and len(steered.order()) < 200
    browser.run("document.querySelector('#order').scrollTop = 1e9")
    browser.wait("return document.querySelector('#row-4999')")
    assert steered.order()[-20:] == ordered[-20:] and steered.text("#order [aria-selected=true] .entry") == ordered[0]
    browser.type("#order", webdriver.KEYS["end"])
    steered.settle()
    browser.type("#order", webdriver.KEYS["up"])
    steered.settle()
    assert steered.text("#word-title") == ordered[-2] and browser.run("return document.querySelector('#row-4998').getAttribute('aria-posinset')") == "4999"
    return "5,000 words are in order and on the screen after %s ms" % ", ".join("%d" % ms for ms in taken)


# ---- the tasks of docs/EXPLORER.md


def compares(steered, word, other, said, levels):
    """Chooses a word and writes another beside it."""
    steered.choose(word)
    steered.browser.clear("#other")
    steered.browser.type("#other", other)
    steered.browser.wait("return document.querySelector('#verdict').textContent === arguments[0]", said)
    assert steered.browser.run("return document.querySelectorAll('#pair tr').length") == 2 * levels


def why_ll_stands_there(steered):
    steered.give(["luz", "llama", "lomo", "mano", "Llano", "calle", "caldo"])
    assert steered.order() == ["caldo", "calle", "llama", "Llano", "lomo", "luz", "mano"]
    steered.select("#language", "es-u-co-trad")
    assert steered.order() == ["caldo", "calle", "lomo", "luz", "llama", "Llano", "mano"]
    compares(steered, "llama", "luz", "llama comes after luz, by level 1: letters.", 1)
    assert steered.browser.run("return document.querySelector('#matches .match .what').textContent") == "contraction, line 5 of the rules"
    assert [c["text"] for c in steered.page.look(chosen="llama")["word"]["characters"]] == list("llama")
    steered.picture("ll")


def first_rules_of_a_language(steered):
    steered.select("#language", "")
    steered.give(["ñe'ẽ", "na'ẽ", "ndaje", "mba'e", "mitã", "mokõi", "rrépe", "ro'y", "ryguasu", "ava", "ãva", "cha", "kuña", "ha'e"])
    steered.write("#rules", "&a<ã<<<Ã\n&m<mb<<<Mb<<<MB\n&n<nd<<<Nd<<<ND<ng<<<Ng<<<NG<nt<<<Nt<<<NT<ñ<<<Ñ\n&r<rr<<<Rr<<<RR\n&y<'")
    steered.browser.wait("return document.querySelector('#rules-marks mark')")
    assert steered.text("#rules-fault").startswith("Line 5, column 4, ': this has no meaning here")
    assert steered.order().index("mba'e") < steered.order().index("mitã") and steered.order().index("rrépe") < steered.order().index("ryguasu")
    steered.browser.develop("Emulation.setEmulatedMedia", features=[{"name": "prefers-color-scheme", "value": "dark"}])
    steered.picture("fault")
    steered.browser.develop("Emulation.setEmulatedMedia", features=[{"name": "prefers-color-scheme", "value": "light"}])
    steered.browser.run("document.querySelector('#rules').focus()")
    steered.browser.type("#rules", webdriver.KEYS["control"] + webdriver.KEYS["end"] + "\ue000" + "'")
    steered.browser.wait("return document.querySelector('#rules-fault').textContent === ''")
    steered.settle()
    assert steered.order() == ["ava", "ãva", "cha", "ha'e", "kuña", "mitã", "mokõi", "mba'e", "na'ẽ", "ndaje", "ñe'ẽ", "ro'y", "ryguasu", "rrépe"]
    steered.choose("ãva")
    said = steered.browser.run("return [...document.querySelectorAll('#matches .match .what')].map((e) => e.textContent)")
    assert said == ["contraction, line 1 of the rules", "key", "key"]


def a_wrong_order_that_a_reader_reports(steered):
    steered.write("#rules", "")
    steered.give(["Casa Grande", "\u0421asa Rosa", "Casa Verde", "Dado", "Zorro"])
    assert steered.order() == ["Casa Grande", "Casa Verde", "Dado", "Zorro", "\u0421asa Rosa"]
    compares(steered, "\u0421asa Rosa", "Casa Grande", "\u0421asa Rosa comes after Casa Grande, by level 1: letters.", 1)
    assert steered.browser.run("return document.querySelectorAll('#characters tbody tr')[0].cells[2].textContent") == "cyrillic capital letter es"
    assert steered.browser.run("return [...document.querySelectorAll('#pair .differs .owner')].map((e) => e.textContent)") == ["\u0421", "C"]
    steered.picture("reader")


def shows(words):
    page = Page(words)
    environment = {**os.environ, "LD_LIBRARY_PATH": words.libraries} if words.libraries else os.environ
    browser = webdriver.Browser(words.driver, words.chromium, words.work, environment)
    try:
        steered = Steered(browser, page, words)
        for test in (says_what_it_is, follows_the_keyboard, has_the_elements_of_the_program, draws_marks_and_directions, marks_faults, saves_the_same_bytes):
            test(steered)
        measured = orders_5000_words(steered)
        for test in (why_ll_stands_there, first_rules_of_a_language, a_wrong_order_that_a_reader_reports):
            test(steered)
    finally:
        browser.close()
        page.close()
    with open(words.work + "/measured", "w") as file:
        print(measured, file=file)


def main():
    parser = argparse.ArgumentParser()
    parser.add_argument("part", choices=["server", "page"])
    for name in ("table", "rules", "uca", "work", "driver", "chromium", "libraries", "pictures"):
        parser.add_argument("--" + name, default="")
    words = parser.parse_args()
    serves(words) if words.part == "server" else shows(words)
    print("well")


main()
